//! `differential`: every check of the library on the same inputs, the program on a share of them, and one summary.

use std::ffi::OsString;
use std::fmt::Write;
use std::time::Instant;

use crate::check::{turn, Report};
use crate::driver::{Check, Input};
use crate::program::{self, Program};
use crate::proved::{Calls, Library};
use crate::spread::progress;
use crate::tally::{told, Table, Tally};
use crate::{decode_check, improve_check, sheet_check, step_check, time_check};

const CHECKS: [&Check; 5] =
    [&time_check::CHECK, &decode_check::CHECK, &sheet_check::CHECK, &improve_check::CHECK, &step_check::CHECK];

/// Of so many inputs of a class one goes through the program, since each takes a process of its own.
const SHARE: u64 = 20;

/// Columns of the summary beside `answered`: outcomes and refusals.
const NUMBERS: [&str; 13] = ["10", "11", "12", "13", "14", "1", "2", "3", "4", "5", "6", "7", "8"];

/// Runs so many generated inputs, and the extremes. An error is about the library, the program or the folder of
/// differences.
pub fn check(program: &[OsString], inputs: u64) -> Result<Report, String> {
    let calls: Vec<&str> = CHECKS.iter().flat_map(|check| check.calls).copied().collect();
    let library = Library::linked(&calls)?;
    let program = Program::new(program)?;
    let (tables, columns) = tables();
    let begun = Instant::now();
    let mut tallies = generated(&library, &columns, inputs, |input| program.of_input(input));
    let of_extremes = CHECKS.iter().map(|check| check.extremes(&library));
    tallies.push(("extremes", joined(of_extremes.chain([program.of_extremes()]))));
    progress(&format!("differential: {} seconds", begun.elapsed().as_secs()));
    summary(&tables, &columns, tallies)
}

/// The checks' tables and the program's, and all their columns.
fn tables() -> (Vec<&'static Table<'static>>, Vec<&'static str>) {
    let tables: Vec<&Table> = CHECKS.iter().map(|check| &check.table).chain([&program::TABLE]).collect();
    let columns = tables.iter().flat_map(|table| table.columns).copied().collect();
    (tables, columns)
}

/// What comes of generated inputs, by class.
fn generated(
    calls: &dyn Calls,
    columns: &[&str],
    inputs: u64,
    by_program: impl Fn(&Input) -> Tally + Sync,
) -> Vec<(&'static str, Tally)> {
    let of_input = |class, seed| {
        let input = Input::new(class, seed);
        let by_checks = CHECKS.iter().map(|check| check.of_input(calls, &input));
        let by_program = match seed % SHARE {
            0 => by_program(&input),
            _ => input.tally(program::TABLE.columns.len()),
        };
        joined(by_checks.chain([by_program]))
    };
    Table { name: "differential", columns }.tallies(inputs, turn, of_input)
}

/// What several checks made of the same inputs: their counts side by side.
fn joined(parts: impl Iterator<Item = Tally>) -> Tally {
    parts.fold(Tally::new(0), |mut all, part| {
        all.inputs = all.inputs.max(part.inputs);
        all.beyond = all.beyond.max(part.beyond);
        all.counts.extend(part.counts);
        all.differences.extend(part.differences);
        all
    })
}

/// A row for each class, a line for each check, the differences, and the last line.
fn summary(tables: &[&Table], columns: &[&str], tallies: Vec<(&str, Tally)>) -> Result<Report, String> {
    let heads: String = NUMBERS.iter().map(|number| format!("{number:>8}")).collect();
    let mut text = format!(
        "{:<18}{:>8}{:>8}{:>9}{:>9}{heads}{:>13}\n",
        "class", "inputs", "beyond", "calls", "answered", "differences"
    );
    let mut all = Tally::new(columns.len());
    for (class, tally) in tallies {
        text += &row(class, columns, &tally);
        all.add(tally);
    }
    text += &row("all", columns, &all);
    let mut counts = all.counts.as_slice();
    for table in tables {
        let (own, rest) = counts.split_at(table.columns.len());
        counts = rest;
        let each: Vec<String> =
            table.columns.iter().zip(own).map(|(column, count)| format!("{column} {count}")).collect();
        let _ = writeln!(text, "{}: {} ({})", table.name, own.iter().sum::<u64>(), each.join(", "));
    }
    text += &told(&all.differences)?;
    let (sum, differences) = (all.counts.iter().sum::<u64>(), all.differences.len());
    let _ = writeln!(text, "differential: {} inputs, {sum} calls, {differences} differences", all.inputs);
    Ok(Report { text, differences })
}

fn row(name: &str, columns: &[&str], tally: &Tally) -> String {
    let of = |number: &str| {
        let counts = columns.iter().zip(&tally.counts).filter(|(column, _)| **column == number);
        counts.map(|(_, count)| count).sum::<u64>()
    };
    let (calls, numbers) = (tally.counts.iter().sum::<u64>(), NUMBERS.map(of));
    let answered = calls - numbers.iter().sum::<u64>();
    let (Tally { inputs, beyond, .. }, numbers) = (tally, numbers.map(|count| format!("{count:>8}")).concat());
    format!("{name:<18}{inputs:>8}{beyond:>8}{calls:>9}{answered:>9}{numbers}{:>13}\n", tally.differences.len())
}

#[cfg(test)]
mod tests {
    use super::*;
    use crate::imitation::{finds, Fault, Imitation};

    #[test]
    fn a_fault_of_any_call_is_found() {
        let check =
            |calls: &Imitation| generated(calls, &tables().1, 96, |input| input.tally(program::TABLE.columns.len()));
        let of_calls = [Fault::AlwaysInOrder, Fault::RowsFromOne, Fault::NotImproved, Fault::OneKeptLess];
        finds(check, &[&of_calls[..], &[Fault::LastBit, Fault::PlaceRefused]].concat());
    }

    #[test]
    fn the_summary_counts_every_call_once() {
        let (tables, columns) = tables();
        let tallies = generated(&Imitation(Fault::Nothing), &columns, 32, |input| Tally {
            counts: vec![1; program::TABLE.columns.len()],
            ..input.tally(0)
        });
        let calls: u64 = tallies.iter().flat_map(|(_, tally)| &tally.counts).sum();
        let report = summary(&tables, &columns, tallies).unwrap_or_else(|why| panic!("{why}"));
        assert_eq!(
            report.text.lines().last(),
            Some(format!("differential: 32 inputs, {calls} calls, 0 differences").as_str())
        );
        let all = report.text.lines().find(|line| line.starts_with("all ")).unwrap_or_default();
        let numbers: Vec<u64> = all.split_ascii_whitespace().skip(1).map(|word| word.parse().unwrap_or(0)).collect();
        assert_eq!((numbers[0], numbers[2], numbers[3..16 + 1].iter().sum::<u64>()), (32, calls, calls), "{all}");
    }
}
