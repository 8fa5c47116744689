//! Runs the published Rust text on inputs of document 01. The README says what is the text's and what is ours.

// The text names these crates; what it uses of them stands in `standins`.
extern crate self as rand;
extern crate self as u_metaheur;
extern crate self as u_numflow;

pub mod answers;
pub mod bench;
pub mod board;
pub mod check;
pub mod damage;
pub mod decode_check;
pub mod decoding;
pub mod differential;
pub mod driver;
pub mod generate;
#[cfg(test)]
mod imitation;
pub mod improve_check;
pub mod intake;
pub mod judge;
pub mod lent;
pub mod lines;
pub mod modes;
pub mod paper;
pub mod plan;
pub mod program;
pub mod proved;
pub mod published;
pub mod read;
pub mod sheet;
pub mod sheet_check;
pub mod speed;
pub mod spread;
pub mod step_check;
pub mod store;
pub mod tally;
pub mod text;
pub mod time_check;
pub mod timing;

#[allow(dead_code)]
mod standins;
use standins::{dispatching, models, prelude, random, scheduler, Deadline, Problem, Rng, RngExt};

// The modules `ga` and `validation`, copied by build.rs.
include!(concat!(env!("OUT_DIR"), "/text/root.rs"));
