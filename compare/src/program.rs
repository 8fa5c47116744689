//! `program-check`: the terminal's program, one process for each input, against what mode `program` prints.

use std::ffi::OsString;
use std::io::Write;
use std::process::{Command, Output, Stdio};

use crate::check::{turn, Report};
use crate::driver::Input;
use crate::generate::{self, Class};
use crate::modes::{answer, Mode};
use crate::paper::{plan_s, PRINT_OF_S};
use crate::tally::{Difference, Table, Tally};

/// Printed with outcome 10 to 14, or refused with 1 to 5.
pub const TABLE: Table =
    Table { name: "program-check", columns: &["10", "11", "12", "13", "14", "1", "2", "3", "4", "5"] };

/// The words of a command, so that an emulator can stand before the program.
pub struct Program<'a>(&'a [OsString]);

impl Program<'_> {
    /// The program, if its print of Plan S is the paper's.
    pub fn new(words: &[OsString]) -> Result<Program<'_>, String> {
        let program = Program(words);
        let printed = program.print(&plan_s(60).to_bytes())?;
        match printed.stdout == PRINT_OF_S.as_bytes() {
            true => Ok(program),
            false => Err(format!("the program's print of Plan S is not document 01's: {printed:?}")),
        }
    }

    fn print(&self, input: &[u8]) -> Result<Output, String> {
        let (first, others) = self.0.split_first().ok_or("no program is given")?;
        let failed = |why: std::io::Error| format!("{}: {why}", first.to_string_lossy().escape_debug());
        let mut command = Command::new(first);
        command.args(others).stdin(Stdio::piped()).stdout(Stdio::piped()).stderr(Stdio::piped());
        let mut child = command.spawn().map_err(failed)?;
        // It need not read all of an input that is too long.
        let _ = child.stdin.take().map(|mut stdin| stdin.write_all(input));
        child.wait_with_output().map_err(failed)
    }

    /// The plan, and the same with some faults.
    pub fn of_input(&self, input: &Input) -> Tally {
        let mut tally = input.tally(TABLE.columns.len());
        self.hold(&mut tally, &input.name, &input.plan.to_bytes());
        self.hold(&mut tally, &format!("{}, damaged", input.name), &input.damaged());
        tally
    }

    /// The longest input and the latest end, no bytes, and more than it reads.
    pub fn of_extremes(&self) -> Tally {
        let longest = generate::longest_input().to_bytes();
        let too_long = [longest.clone(), vec![0; 1 << 20]].concat();
        let more = [("nothing", Vec::new()), ("a longer input", too_long), ("zeros", vec![0; 1 << 20])];
        let extremes = generate::extremes().map(|(name, plan)| (name, plan.to_bytes()));
        let mut tally = Tally::new(TABLE.columns.len());
        for (name, bytes) in extremes.into_iter().chain(more) {
            tally.inputs += 1;
            self.hold(&mut tally, name, &bytes);
        }
        tally
    }

    /// What it prints is what is due, and nothing else is said.
    fn hold(&self, tally: &mut Tally, name: &str, bytes: &[u8]) {
        let due = answer(bytes, Mode::Program, None).unwrap_or_default();
        let number = due.split_ascii_whitespace().nth(1);
        if let Some(column) = TABLE.columns.iter().position(|column| number == Some(column)) {
            tally.counts[column] += 1;
        }
        let same = match self.print(bytes) {
            Ok(output) => output.status.success() && output.stdout == due.as_bytes() && output.stderr.is_empty(),
            Err(_) => false,
        };
        if !same {
            let files = vec![("input", bytes.to_vec()), ("print", due.into_bytes())];
            tally.differences.push(Difference { what: format!("{name}: the program prints otherwise"), files });
        }
    }
}

/// Runs so many generated inputs and the extremes. An error is about the program or the folder of differences.
pub fn check(words: &[OsString], inputs: u64) -> Result<Report, String> {
    let program = Program::new(words)?;
    let of = |class: Class, seed: u64| program.of_input(&Input::new(class, seed));
    let mut tallies = TABLE.tallies(inputs, turn, of);
    tallies.push(("extremes", program.of_extremes()));
    TABLE.report(tallies, "runs")
}
