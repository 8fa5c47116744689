//! What the binary answers, by mode.

use crate::lines;
use crate::plan::Plan;
use crate::published::{beyond_the_rust, Decoder, Lines, Published};
use crate::read::{read, Refused};

#[derive(Clone, Copy, Debug, PartialEq, Eq)]
pub enum Mode {
    /// Document 01's print.
    Program,
    Improve,
    Decode,
    InOrder,
    Active,
    Time,
    Step,
    /// The moves that the search makes, by the replay.
    Trace,
    /// Whether two ways to the same answer agree.
    Agree,
    /// What about the plan no Rust problem can hold.
    Held,
}

impl Mode {
    /// How many modes have stored answers: those before the ones that look into the search.
    pub const STORED: usize = 6;

    /// Every mode with its name on the command line, the stored ones first.
    pub const ALL: [(&'static str, Mode); 10] = [
        ("program", Mode::Program),
        ("improve", Mode::Improve),
        ("decode", Mode::Decode),
        ("in-order", Mode::InOrder),
        ("active", Mode::Active),
        ("time", Mode::Time),
        ("step", Mode::Step),
        ("trace", Mode::Trace),
        ("agree", Mode::Agree),
        ("held", Mode::Held),
    ];

    pub fn named(name: &str) -> Option<Mode> {
        Mode::ALL.iter().find(|(own, _)| *own == name).map(|&(_, mode)| mode)
    }

    /// Whether the mode also takes lines as given.
    pub fn takes_lines(self) -> bool {
        matches!(self, Mode::Time | Mode::Step)
    }
}

/// The answer to a stored input, with lines given as words for `Time` and `Step`. An error is about the lines' form.
pub fn answer(input: &[u8], mode: Mode, lines: Option<&[u8]>) -> Result<String, String> {
    match (read(input), lines) {
        (Err(refused), _) => Ok(format!("{refused}\n")),
        (Ok(plan), Some(words)) => Ok(run_on_lines(&plan, mode, &lines::read(words)?)),
        (Ok(plan), None) => Ok(run(&plan, mode)),
    }
}

/// The answer for an accepted plan.
pub fn run(plan: &Plan, mode: Mode) -> String {
    let mut published = Published::new(plan);
    match mode {
        Mode::Program => {
            let improved = published.improve();
            format!("outcome {}\n{}", improved.outcome, published.decode(Decoder::Better))
        }
        Mode::Improve => published.improve().to_string(),
        Mode::Decode => published.decode(Decoder::Better).to_string(),
        Mode::InOrder => published.decode(Decoder::InOrder).to_string(),
        Mode::Active => published.decode(Decoder::Active).to_string(),
        Mode::Time | Mode::Step => match published.lines() {
            Some(lines) => on_lines(&published, mode, &lines),
            None => format!("{}\n", Refused { number: 7, place: 0 }),
        },
        Mode::Trace => {
            let (improved, made) = published.replay();
            made.iter().map(|made| format!("{made}\n")).collect::<String>() + &improved.to_string()
        }
        Mode::Agree => said(&Published::differences(plan), "agree"),
        Mode::Held => said(&beyond_the_rust(plan), "held"),
    }
}

/// The answer of `Time` or `Step` on given lines; other modes do not look at them.
pub fn run_on_lines(plan: &Plan, mode: Mode, given: &[Vec<u32>]) -> String {
    if !mode.takes_lines() {
        return run(plan, mode);
    }
    match lines::checked(plan, given) {
        Ok(lines) => on_lines(&Published::new(plan).with_lines(&lines), mode, &lines),
        Err(refused) => format!("{refused}\n"),
    }
}

fn on_lines(published: &Published, mode: Mode, lines: &Lines) -> String {
    let answer = match mode {
        Mode::Step => published.step(lines).map(|step| step.to_string()),
        _ => published.time(lines).map(|sheet| sheet.to_string()),
    };
    answer.unwrap_or_else(|| format!("{}\n", Refused { number: 8, place: 0 }))
}

fn said(lines: &[String], nothing: &str) -> String {
    match lines {
        [] => format!("{nothing}\n"),
        _ => lines.iter().map(|line| format!("{line}\n")).collect(),
    }
}
