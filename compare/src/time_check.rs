//! `time-check`: the timing calls of the proved library against the published Rust and against document 01's words
//! (`timing`), on generated plans and on damaged ones, with lines of every kind, in one process.

use crate::answers::Sheet;
use crate::driver::{Check, Run};
use crate::generate::{self, Rng};
use crate::lent::{amiss, buffers, enough, five, too_few, TOO_SHORT};
use crate::lines;
use crate::plan::Plan;
use crate::proved::{Answer, Buffers, Given, CELLS, MACHINES, PLACES, STRETCH};
use crate::published::{Lines, Published};
use crate::read::{read, Refused};
use crate::tally::{in_turns, Table};
use crate::timing;

pub const CHECK: Check = Check {
    // Lines timed, or refused with 1 to 8.
    table: Table { name: "time-check", columns: &["timed", "1", "2", "3", "4", "5", "6", "7", "8"] },
    calls: &["lavkkesto_time", "lavkkesto_time_order", "lavkkesto_time_again"],
    counted: "calls",
    salt: 0x7469_6d65_5f63_6865,
    turn: in_turns,
    on_plan,
    on_extremes,
};

/// The sheet that a call must write, or its refusal.
type Due = Result<Sheet, Refused>;

/// Lines as a file holds them; none where a cell is no word or a line leaves its stretch.
fn as_words(given: &Given) -> Option<Vec<u8>> {
    let line = |machine: usize| -> Option<Vec<u32>> {
        let stretch = given.cells.get(STRETCH * machine..STRETCH * (machine + 1))?;
        stretch.get(..given.lens[machine])?.iter().map(|&cell| u32::try_from(cell).ok()).collect()
    };
    let lines: Vec<Vec<u32>> = (0..MACHINES).map(line).collect::<Option<_>>()?;
    Some(lines::to_bytes(&lines))
}

/// The plan, and the same with some faults.
fn on_plan(run: &mut Run, plan: &Plan) {
    let lines = accepted(run, plan);
    let bytes = run.damaged(plan);
    match read(&bytes) {
        Ok(plan) => drop(accepted(run, &plan)),
        Err(refused) => of_refused(run, &bytes, &lines, refused),
    }
}

/// The longest input and the latest end.
fn on_extremes(run: &mut Run) {
    for (name, plan) in generate::extremes() {
        run.begin(name);
        accepted(run, &plan);
    }
}

/// Every kind of lines for an accepted plan; returns lines that fit it.
fn accepted(run: &mut Run, plan: &Plan) -> Lines {
    let bytes = plan.to_bytes();
    let mut rust = Published::new(plan);
    let of_order = timing::lines_of_order(plan);
    if of_order.as_ref().ok() != rust.lines().as_ref() {
        tell(run, "the Rust and the paper's words give other lines of the order".to_string(), &bytes, None);
    }
    let order_due = of_order.clone().and_then(|lines| due(run, plan, &rust, &lines));
    in_order(run, &bytes, &order_due);
    let fitting = dealt(generate::sequence(plan, &mut run.rng), plan, &mut run.rng);
    let base = of_order.clone().unwrap_or_else(|_| fitting.clone());
    let mut shuffled: Vec<usize> = (0..plan.activities.len()).collect();
    run.rng.shuffle(&mut shuffled);
    let random = dealt(shuffled, plan, &mut run.rng);
    let kinds = [
        ("the order's lines", base.clone()),
        ("dealt lines", fitting.clone()),
        ("random lines", random),
        ("lines a little changed", changed(base.clone(), &mut run.rng)),
        ("dealt lines a little changed", changed(fitting.clone(), &mut run.rng)),
    ];
    for (kind, lines) in kinds {
        rust = rust.with_lines(&lines);
        let due = due(run, plan, &rust, &lines);
        if kind == "dealt lines" && due.is_err() {
            tell(run, "lines that fit the plan are due a refusal".to_string(), &bytes, None);
        }
        let given = given(&lines, &mut run.rng);
        if timing::lines_given(plan, &given).as_ref() != Ok(&lines) {
            tell(run, format!("{kind} are not read as they are given"), &bytes, Some(&given));
        }
        on_lines(run, kind, &bytes, &given, &due);
    }
    for _ in 0..2 {
        damaged_lines(run, plan, &bytes, &base);
    }
    too_short(run, &bytes, &base);
    fitting
}

/// What the Rust and the paper's words both say of lines.
fn due(run: &mut Run, plan: &Plan, rust: &Published, lines: &Lines) -> Due {
    let due = timing::time(plan, lines);
    let by_rust = rust.time(lines).ok_or(Refused { number: 8, place: 0 });
    if due != by_rust {
        let given = given(lines, &mut run.rng);
        tell(run, "the Rust and the paper's words time otherwise".to_string(), &plan.to_bytes(), Some(&given));
    }
    by_rust
}

/// Lines that break number 7 in one way.
fn damaged_lines(run: &mut Run, plan: &Plan, bytes: &[u8], lines: &Lines) {
    let mut given = given(lines, &mut run.rng);
    let kind = break_lines(&mut given, plan, &mut run.rng);
    let due = timing::lines_given(plan, &given);
    if due != Err(Refused { number: 7, place: 0 }) {
        tell(run, format!("{kind}: lines are not due number 7"), bytes, Some(&given));
    }
    on_lines(run, kind, bytes, &given, &Err(Refused { number: 7, place: 0 }));
}

/// An input that is refused, with any lines; number 6 still comes first.
fn of_refused(run: &mut Run, bytes: &[u8], lines: &Lines, refused: Refused) {
    in_order(run, bytes, &Err(refused));
    let mut given = given(lines, &mut run.rng);
    if run.rng.chance(50) {
        given.lens = std::array::from_fn(|_| run.rng.below(200) as usize);
    }
    on_lines(run, "any lines", bytes, &given, &Err(refused));
    too_short(run, bytes, lines);
}

/// One buffer short, or the cells: number 6.
fn too_short(run: &mut Run, bytes: &[u8], lines: &Lines) {
    let mut given = given(lines, &mut run.rng);
    let mut places = five(&mut run.rng);
    let buffer = run.rng.index(6);
    match places.get_mut(buffer) {
        Some(places) => *places = too_few(PLACES, &mut run.rng),
        None => given.cells.truncate(too_few(CELLS, &mut run.rng)),
    }
    on_lines_into(run, places, "something short", bytes, &given, &Err(TOO_SHORT));
    if buffer < places.len() {
        in_order_into(run, places, bytes, &Err(TOO_SHORT));
    } else {
        again(run, "short cells", bytes, &given, &Err(TOO_SHORT));
    }
}

// ---------------------------------------------------------------------------------------------- the calls

fn on_lines(run: &mut Run, kind: &str, bytes: &[u8], given: &Given, due: &Due) {
    let places = five(&mut run.rng);
    on_lines_into(run, places, kind, bytes, given, due);
    again(run, kind, bytes, given, due);
}

fn on_lines_into(run: &mut Run, places: [usize; 5], kind: &str, bytes: &[u8], given: &Given, due: &Due) {
    let before = buffers(places, &mut run.rng);
    let mut after = before.clone();
    let answer = run.calls.time(bytes, given, &mut after);
    hold(run, kind, bytes, Some(given), due, answer, before, &after);
}

fn in_order(run: &mut Run, bytes: &[u8], due: &Due) {
    let places = five(&mut run.rng);
    in_order_into(run, places, bytes, due);
}

fn in_order_into(run: &mut Run, places: [usize; 5], bytes: &[u8], due: &Due) {
    let before = buffers(places, &mut run.rng);
    let mut after = before.clone();
    let answer = run.calls.time_order(bytes, &mut after);
    hold(run, "in order", bytes, None, due, answer, before, &after);
}

/// Timed once, twice or three times, the greatest end is the same.
fn again(run: &mut Run, kind: &str, bytes: &[u8], given: &Given, due: &Due) {
    let times = 1 + run.rng.index(3);
    let greatest = |sheet: &Sheet| sheet.rows.iter().map(|row| row.end as u64).max().unwrap_or(0);
    let (due, end) = (due.as_ref().map_or(0, greatest), run.calls.time_again(bytes, given, times));
    if end != due {
        tell(run, format!("{kind}, timed {times} times: due end {due}, not {end}"), bytes, Some(given));
    }
}

/// The answer, the rows, and every other place as it was.
#[allow(clippy::too_many_arguments)]
fn hold(
    run: &mut Run,
    kind: &str,
    bytes: &[u8],
    given: Option<&Given>,
    due: &Due,
    answer: Answer,
    before: Buffers,
    after: &Buffers,
) {
    run.count(due.as_ref().map_or_else(|refused| refused.number as usize, |_| 0));
    if let Some(what) = amiss(due, answer, before, after) {
        tell(run, format!("{kind}: {what}"), bytes, given);
    }
}

pub(crate) fn tell(run: &mut Run, mut what: String, input: &[u8], lines: Option<&Given>) {
    let mut files = vec![("input", input.to_vec())];
    match lines.map(as_words) {
        Some(Some(words)) => files.push(("lines", words)),
        Some(None) => what += " (its lines are none that words can say)",
        None => {}
    }
    run.tell(what, files);
}

// ------------------------------------------------------------------------------------------------------ lines

/// A sequence of all activities dealt over the machines, sometimes over one alone.
pub(crate) fn dealt(sequence: Vec<usize>, plan: &Plan, rng: &mut Rng) -> Lines {
    let mut lines = vec![Vec::new(); plan.transports.len()];
    let one = rng.chance(10).then(|| rng.index(lines.len()));
    let assigned = rng.chance(50);
    for activity in sequence {
        let own = plan.assignment.get(activity).and_then(|&machine| usize::try_from(machine).ok());
        let machine = match (one, own) {
            (Some(one), _) => one,
            (None, Some(own)) if assigned => own,
            _ => rng.index(lines.len()),
        };
        lines[machine].push(activity);
    }
    lines
}

/// One to three small changes: two neighbours swapped, or one moved to some position of some line.
pub(crate) fn changed(mut lines: Lines, rng: &mut Rng) -> Lines {
    for _ in 0..rng.within(1, 3) {
        let filled: Vec<usize> = (0..lines.len()).filter(|&machine| !lines[machine].is_empty()).collect();
        let machine = rng.pick(&filled);
        let at = rng.index(lines[machine].len());
        if at > 0 && rng.chance(60) {
            lines[machine].swap(at - 1, at);
        } else {
            let moved = lines[machine].remove(at);
            let to = rng.index(lines.len());
            let position = rng.index(lines[to].len() + 1);
            lines[to].insert(position, moved);
        }
    }
    lines
}

/// Lines as the calls take them; cells outside the lines hold anything, activities among it.
pub(crate) fn given(lines: &Lines, rng: &mut Rng) -> Given {
    let cells = enough(CELLS, rng);
    let mut given = Given { cells: (0..cells).map(|_| any_cell(rng)).collect(), lens: [0; MACHINES] };
    for (machine, line) in lines.iter().enumerate() {
        given.lens[machine] = line.len();
        given.cells[STRETCH * machine..][..line.len()].copy_from_slice(line);
    }
    given
}

fn any_cell(rng: &mut Rng) -> usize {
    let word = rng.next() as usize;
    match word % 8 {
        0 => word,
        _ => word >> 32 & 0x7f,
    }
}

/// Breaks number 7 in one way that it names, and says which; the lines were good.
pub(crate) fn break_lines(given: &mut Given, plan: &Plan, rng: &mut Rng) -> &'static str {
    let (n, machines) = (plan.activities.len(), plan.transports.len());
    let filled: Vec<usize> = (0..machines).filter(|&machine| given.lens[machine] > 0).collect();
    let machine = rng.pick(&filled);
    let at = STRETCH * machine + rng.index(given.lens[machine]);
    let last = STRETCH * machine + given.lens[machine] - 1;
    let other = rng.index(machines);
    let free = STRETCH * other + given.lens[other];
    match rng.below(8) {
        0 => {
            given.cells.copy_within(at + 1..last + 1, at);
            given.lens[machine] -= 1;
            "an activity missing"
        }
        1 if given.lens[other] < STRETCH => {
            given.cells[free] = given.cells[at];
            given.lens[other] += 1;
            "an activity twice"
        }
        2 if n > 1 => {
            given.cells[at] = (given.cells[at] + rng.within(1, n as u64 - 1) as usize) % n;
            "an activity in the place of another"
        }
        3 | 4 => {
            let own = given.cells[at];
            given.cells[at] = rng.pick(&[n, n + 1, 128, 2_048, 1 << 32 | own, 1 << 63 | own, usize::MAX]).max(n);
            "an activity of n or above"
        }
        5 => {
            let own = given.lens[machine];
            given.lens[machine] = rng.pick(&[129, 2_048, 2_049, 1 << 32 | own, 1 << 61 | own, usize::MAX]);
            "a line longer than 128"
        }
        6 if machines < MACHINES => {
            let above = machines + rng.index(MACHINES - machines);
            given.cells[STRETCH * above] = given.cells[last];
            given.lens[above] = 1;
            given.lens[machine] -= 1;
            "a machine of R or above"
        }
        _ => {
            given.lens = [0; MACHINES];
            "no lines at all"
        }
    }
}

#[cfg(test)]
mod tests {
    use std::collections::BTreeMap;

    use super::*;
    use crate::generate::Class;
    use crate::imitation::{finds, Fault, Imitation};

    #[test]
    fn faults_are_found() {
        let check = |calls: &Imitation| CHECK.tallies(calls, 96);
        let rows = [Fault::NoTransports, Fault::NoSetups, Fault::NoPredecessors, Fault::OneRowMore, Fault::LastBit];
        let lent = [Fault::ShortSetups, Fault::PlaceBehind, Fault::PlaceRefused, Fault::SeesBuffers];
        let read = [Fault::PlaceOff, Fault::NoStray];
        finds(check, &[&rows[..], &lent, &read].concat());
    }

    /// The number that lines given are due, 0 where they are timed.
    fn due(plan: &Plan, given: &Given) -> usize {
        let timed = timing::lines_given(plan, given).and_then(|lines| timing::time(plan, &lines));
        timed.map_or_else(|refused| refused.number as usize, |_| 0)
    }

    #[test]
    fn lines_are_what_they_are_called() {
        let mut rng = Rng::new(1);
        let (mut shuffled, mut mild, mut broken) = ([0; 9], [0; 9], BTreeMap::new());
        for class in Class::ALL {
            for seed in 0..60 {
                let plan = generate::plan(seed, class);
                let fitting = dealt(generate::sequence(&plan, &mut rng), &plan, &mut rng);
                assert_eq!(due(&plan, &given(&fitting, &mut rng)), 0, "{} {seed}", class.name());
                mild[due(&plan, &given(&changed(fitting.clone(), &mut rng), &mut rng))] += 1;
                let mut all: Vec<usize> = (0..plan.activities.len()).collect();
                rng.shuffle(&mut all);
                shuffled[due(&plan, &given(&dealt(all, &plan, &mut rng), &mut rng))] += 1;
                let mut lines = given(&fitting, &mut rng);
                let kind = break_lines(&mut lines, &plan, &mut rng);
                assert_eq!(due(&plan, &lines), 7, "{} {seed}: {kind}", class.name());
                *broken.entry(kind).or_insert(0) += 1;
            }
        }
        assert!(mild[0] > 300 && mild[8] > 100 && mild[7] == 0, "{mild:?}");
        assert!(shuffled[0] > 50 && shuffled[8] > 300 && shuffled[7] == 0, "{shuffled:?}");
        assert!(broken.len() == 7 && broken.values().all(|&count| count > 30), "{broken:?}");
    }
}
