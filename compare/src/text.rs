//! Plans as text that a person reads, writes and reviews, and the way from and to the stored form.
//!
//! The sections stand in document 01's order, each under its heading, one entry a line. The grammar, where
//! CAPITALS are numbers, `[ ]` may be left out and `...` may be repeated:
//!
//! ```text
//! [plan "TITLE"]                                    not stored
//! tasks
//!   task T: category C, release R, no deadline, K activities
//!   task T: category C, release R, deadline D, K activities
//!   task T: category C, release R, deadline flag F word D, K activities     any other flag and word
//! activities
//!   activity A [(task T, step S)]: release R        steps count from 1; (no task) past the last task
//! machines
//!   machine M: transports N ...                     from M to each machine, itself included
//! times
//!   activity A on machine M: [setup N,] process N[, teardown N]             what is left out is 0
//!   activity A on every machine: ...                one line for all its machines
//!   entry K: ...                                    only where there is no machine
//! candidates
//!   activity A: machine M ...                       (or "machines")
//! setups
//!   machine M, after category C, category C: setup N
//!   machine M, after nothing, category C: setup N
//! predecessors
//!   activity A after activity A
//! search
//!   weight W, steps N                               W a decimal, or bits 0x and 16 hex digits
//! order
//!   T ...                                           over as many lines as you like
//! assignment
//!   M ...                                           likewise; - for none, which is stored as -1
//! [lines]                                           for timing, not stored
//!   machine M: activities A ...
//!   machine M: nothing
//! [damage]                                          made to the stored form, in the order written
//!   count of SECTION is N
//!   word at byte K is N                             N unsigned, signed or 0x
//!   cut at byte K
//!   stray bytes HH ...
//! ```
//!
//! A `#` starts a comment, blank lines and indentation mean nothing, capitals count as small letters. Every
//! number is a word of any value: a plan that the reader would refuse can be written too. The counts are made
//! from the entries. A number that only repeats an entry's position must be right, so a review can trust it.
//! Comments that start a line with `#=` say, line by line, what document 01's program prints for the plan.

mod line;
mod parse;
mod show;
#[cfg(test)]
mod tests;

pub use parse::{lines, parse};
pub use show::show;

use std::fmt;

/// What is wrong with a text, and on which line, counted from 1.
#[derive(Clone, Debug, PartialEq, Eq)]
pub struct TextError {
    pub line: usize,
    pub message: String,
}

impl fmt::Display for TextError {
    fn fmt(&self, f: &mut fmt::Formatter<'_>) -> fmt::Result {
        write!(f, "line {}: {}", self.line, self.message)
    }
}

impl std::error::Error for TextError {}

/// The headings, in the order of the sections.
const SECTIONS: [&str; 10] = [
    "tasks",
    "activities",
    "machines",
    "times",
    "candidates",
    "setups",
    "predecessors",
    "search",
    "order",
    "assignment",
];
const TASKS: usize = 0;
const ACTIVITIES: usize = 1;
const MACHINES: usize = 2;
const TIMES: usize = 3;
const CANDIDATES: usize = 4;
const SETUPS: usize = 5;
const PREDECESSORS: usize = 6;
const SEARCH: usize = 7;
const ORDER: usize = 8;

/// The previous category that means that nothing ran before.
const NOTHING_BEFORE: u32 = 8;

/// What the program prints for a plan, as its text says in its `#=` comments; nothing if there are none.
pub fn expected_print(text: &str) -> Option<String> {
    let said = text.lines().filter_map(|line| line.trim_start().strip_prefix("#="));
    let print: String = said.map(|line| format!("{}\n", line.trim())).collect();
    (!print.is_empty()).then_some(print)
}

/// Gives activities, one after the other, their task and step.
#[derive(Default)]
struct Owners {
    counts: Vec<u32>,
    task: usize,
    step: u32,
}

impl Owners {
    /// The task and the step, from 1, of the next activity; nothing past the last task.
    fn next(&mut self) -> Option<(usize, u32)> {
        while self.step >= *self.counts.get(self.task)? {
            self.task += 1;
            self.step = 0;
        }
        self.step += 1;
        Some((self.task, self.step))
    }
}
