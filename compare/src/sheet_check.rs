//! `sheet-check`: the library's sheet check against document 01's words (`sheet`), on sheets of the decoders and of timing,
//! the same with small changes, and on rows of any numbers.

use crate::answers::Sheet;
use crate::check::Report;
use crate::decoding;
use crate::driver::{Check, Run};
use crate::generate::{self, Rng};
use crate::plan::Plan;
use crate::proved::Checked;
use crate::published::Decoder;
use crate::read::read;
use crate::sheet::{self, LATEST};
use crate::tally::{in_turns, Table};
use crate::timing;

pub const CHECK: Check = Check {
    // Accepted; broken rules 1 to 10; refusals 1 to 5.
    table: Table {
        name: "sheet-check",
        columns: &[
            "accepted", "rule 1", "rule 2", "rule 3", "rule 4", "rule 5", "rule 6", "rule 7", "rule 8", "rule 9",
            "rule 10", "1", "2", "3", "4", "5",
        ],
    },
    calls: &["lavkkesto_check"],
    counted: "sheets",
    salt: 0x7368_6565_745f_6368,
    turn: in_turns,
    on_plan,
    on_extremes: |_| {},
};

/// So many sheets for one plan.
const SHEETS: u64 = 20;

/// Numbers of a row: activity, machine, start, end.
const NUMBERS: usize = 4;

/// Runs so many sheets, or a few more.
pub fn check(sheets: u64) -> Result<Report, String> {
    CHECK.run(sheets.div_ceil(SHEETS))
}

/// Sheets for a plan; one of them with some faults in the plan.
fn on_plan(run: &mut Run, plan: &Plan) {
    let bytes = plan.to_bytes();
    let whole = whole_sheets(plan, &mut run.rng);
    for (kind, rows) in &whole {
        let due = hold(run, kind, plan, &bytes, rows);
        // A sheet of the decoders or of timing breaks no rule but the last.
        if matches!(due, Checked::Bad { .. }) {
            tell(run, format!("{kind}: due {due:?}"), &bytes, rows);
        }
    }
    for _ in whole.len() as u64..SHEETS - 1 {
        let (kind, rows) = other_sheet(plan, &whole, &mut run.rng);
        hold(run, kind, plan, &bytes, &rows);
    }
    let damaged = run.damaged(plan);
    let (kind, rows) = other_sheet(plan, &whole, &mut run.rng);
    match read(&damaged) {
        Ok(plan) => drop(hold(run, kind, &plan, &damaged, &rows)),
        Err(refused) => held(run, kind, &damaged, &rows, Checked::Refused(refused)),
    }
}

/// A sheet of an accepted plan; what is due for it.
fn hold(run: &mut Run, kind: &str, plan: &Plan, input: &[u8], rows: &[i64]) -> Checked {
    let due = sheet::check(plan, rows);
    held(run, kind, input, rows, due);
    due
}

fn held(run: &mut Run, kind: &str, input: &[u8], rows: &[i64], due: Checked) {
    run.count(match due {
        Checked::Bad { rule, .. } => rule as usize,
        Checked::Missing { .. } => 10,
        Checked::Refused(refused) => 10 + refused.number as usize,
        Checked::Accepted | Checked::Unknown(_) => 0,
    });
    let answer = run.calls.check(input, rows);
    if answer != due {
        tell(run, format!("{kind}: due {due:?}, not {answer:?}"), input, rows);
    }
}

fn tell(run: &mut Run, what: String, input: &[u8], rows: &[i64]) {
    let row = |row: &[i64]| row.iter().map(i64::to_string).collect::<Vec<_>>().join(" ") + "\n";
    let rows: String = rows.chunks(NUMBERS).map(row).collect();
    run.tell(what, vec![("input", input.to_vec()), ("rows", rows.into())]);
}

// -------------------------------------------------------------------------------------------------------- sheets

/// The sheets of the decoders, and of lines that fit the plan.
fn whole_sheets(plan: &Plan, rng: &mut Rng) -> Vec<(&'static str, Vec<i64>)> {
    let mut lines = vec![Vec::new(); plan.transports.len()];
    for activity in generate::sequence(plan, rng) {
        lines[rng.index(plan.transports.len())].push(activity);
    }
    let mut sheets = vec![
        ("in order", decoding::decode(plan, Decoder::InOrder)),
        ("active", decoding::decode(plan, Decoder::Active)),
    ];
    sheets.extend(timing::time(plan, &lines).ok().map(|sheet| ("timed", sheet)));
    sheets.into_iter().map(|(kind, sheet)| (kind, numbers(&sheet))).collect()
}

fn numbers(sheet: &Sheet) -> Vec<i64> {
    sheet.rows.iter().flat_map(|row| [row.activity as i64, row.machine as i64, row.start, row.end]).collect()
}

/// A sheet with one to three changes, or of any numbers.
fn other_sheet(plan: &Plan, whole: &[(&str, Vec<i64>)], rng: &mut Rng) -> (&'static str, Vec<i64>) {
    match rng.below(20) {
        0 => ("no rows", Vec::new()),
        1 => ("any numbers", any_rows(plan, rng)),
        2 | 3 => ("of an easier plan", numbers(&decoding::decode(&easier(plan, rng), Decoder::InOrder))),
        _ => {
            let mut rows = whole[rng.index(whole.len())].1.clone();
            let kind = change(plan, &mut rows, rng);
            for _ in 0..rng.pick(&[0, 0, 0, 1, 2]) {
                change(plan, &mut rows, rng);
            }
            (kind, rows)
        }
    }
}

/// The plan without its predecessors, releases, transports or setups.
fn easier(plan: &Plan, rng: &mut Rng) -> Plan {
    let mut plan = plan.clone();
    match rng.below(6) {
        0..=2 => plan.predecessors.clear(),
        3 => {
            plan.activities.fill(0);
            plan.tasks.iter_mut().for_each(|task| task.release = 0);
        }
        4 => plan.transports.iter_mut().for_each(|row| row.fill(0)),
        _ => plan.setups.clear(),
    }
    plan
}

/// Rows that are nearly random: known activities and machines among others, ends at both ends, the last row often short.
fn any_rows(plan: &Plan, rng: &mut Rng) -> Vec<i64> {
    let rows = rng.pick(&[1, 2, 5, 130, 300]);
    let mut numbers = Vec::new();
    for _ in 0..rng.within(1, rows) {
        numbers.extend([rng.index(plan.activities.len()) as i64, rng.index(plan.transports.len()) as i64]);
        numbers.extend([any_number(plan, rng), any_number(plan, rng)]);
        if rng.chance(20) {
            let at = numbers.len() - 1 - rng.index(NUMBERS);
            numbers[at] = any_number(plan, rng);
        }
    }
    numbers.truncate(numbers.len() - rng.index(NUMBERS));
    numbers
}

fn any_number(plan: &Plan, rng: &mut Rng) -> i64 {
    let (n, machines, latest) = (plan.activities.len() as i64, plan.transports.len() as i64, LATEST as i64);
    match rng.below(4) {
        0 => rng.next() as i64,
        1 => {
            rng.pick(&[i64::MIN, i64::MIN + 1, i64::MAX, i64::MAX - 1, latest, latest + 1, -latest, 1 << 32, -1 << 32])
        }
        2 => rng.pick(&[-1, 0, 1, n - 1, n, machines - 1, machines, 128, 1 << 32 | 1]),
        _ => rng.below(1 << 20) as i64,
    }
}

/// A moment before which the row's activity cannot start: 0, its release, or the end of one that it names.
fn bound(plan: &Plan, rows: &[i64], row: usize, rng: &mut Rng) -> i64 {
    let known = |number: i64| usize::try_from(number).ok().filter(|&activity| activity < plan.activities.len());
    let Some(activity) = known(rows[row]) else { return 0 };
    let named = plan.predecessors.iter().filter(|pair| pair.0 as usize == activity).map(|pair| i64::from(pair.1));
    let ends = named.filter_map(|named| rows.chunks_exact(NUMBERS).find(|row| row[0] == named).map(|row| row[3]));
    let mut bounds: Vec<i64> = ends.collect();
    bounds.extend([0, timing::release_of(plan, activity, timing::task_of(plan)[activity])]);
    rng.pick(&bounds)
}

/// One change; its name.
fn change(plan: &Plan, rows: &mut Vec<i64>, rng: &mut Rng) -> &'static str {
    let count = rows.len() / NUMBERS;
    if count == 0 {
        rows.extend(any_rows(plan, rng));
        return "rows added";
    }
    let row = NUMBERS * rng.index(count);
    let other = NUMBERS * rng.index(count);
    let by_one = rng.pick(&[-1, 1]);
    match rng.below(14) {
        0 => {
            rows[row + 2] = rows[row + 2].wrapping_add(by_one);
            "a start moved by one"
        }
        1 => {
            rows[row + 3] = rows[row + 3].wrapping_add(by_one);
            "an end moved by one"
        }
        // It keeps its span, so that the bounds are tested.
        2..=4 => {
            let by = match rng.below(8) {
                0 => (LATEST as i64).wrapping_sub(rows[row + 3]).wrapping_add(rng.pick(&[0, 1])),
                1..=4 => bound(plan, rows, row, rng).wrapping_sub(rows[row + 2]).wrapping_sub(rng.pick(&[0, 1, 1])),
                _ => by_one,
            };
            rows[row + 2] = rows[row + 2].wrapping_add(by);
            rows[row + 3] = rows[row + 3].wrapping_add(by);
            "a row moved"
        }
        5 => {
            (0..NUMBERS).for_each(|k| rows.swap(row + k, other + k));
            "two rows swapped"
        }
        6 => {
            let again: Vec<i64> = rows[row..row + NUMBERS].to_vec();
            rows.splice(other..other, again);
            "a row twice"
        }
        7 => {
            rows.drain(row..row + NUMBERS);
            "a row left out"
        }
        8 => {
            rows[row + 1] = rng.index(plan.transports.len() + 1) as i64;
            "another machine"
        }
        9 => {
            rows[row] = rng.index(plan.activities.len() + 1) as i64;
            "another activity"
        }
        10 => {
            rows[row + rng.index(NUMBERS)] = any_number(plan, rng);
            "any number"
        }
        // Its successors then look for it behind themselves, where it is not tested yet.
        11 => {
            let mut late: Vec<i64> = rows.drain(row..row + NUMBERS).collect();
            late[3] = rng.pick(&[late[3], i64::MIN, i64::MAX, 0]);
            let at = rng.pick(&[rows.len(), rows.len() / NUMBERS / 2 * NUMBERS]);
            rows.splice(at..at, late);
            "a row moved behind"
        }
        12 => {
            rows.truncate(rows.len() - rng.within(1, NUMBERS as u64 - 1) as usize);
            "the last row short"
        }
        _ => {
            rows.extend(any_rows(plan, rng));
            "rows added"
        }
    }
}

#[cfg(test)]
mod tests {
    use super::*;
    use crate::imitation::{finds, Fault};

    #[test]
    fn faults_are_found() {
        let rules: Vec<Fault> = (1..=10).map(Fault::NoRule).collect();
        let seen = [Fault::NoSetups, Fault::NoPredecessors, Fault::RowsFromOne, Fault::PlaceOff, Fault::NoStray];
        finds(|calls| CHECK.generated(calls, 4_000 / SHEETS), &[&rules[..], &seen].concat());
    }

    #[test]
    fn every_verdict_is_due_often() {
        let tallies = CHECK.generated(&crate::imitation::Imitation(Fault::Nothing), 10_000 / SHEETS);
        for (k, column) in CHECK.table.columns.iter().enumerate() {
            let count: u64 = tallies.iter().map(|(_, tally)| tally.counts[k]).sum();
            assert!(count > 20 || k > 10 && count > 2, "{column}: {count}");
        }
    }
}
