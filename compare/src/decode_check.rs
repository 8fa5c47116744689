//! `decode-check`: the decoding calls of the proved library against the published Rust and against document 01's words
//! (`decoding`), on generated plans, on plans whose genes lack something or have too much, and on damaged ones.

use crate::answers::Sheet;
use crate::decoding;
use crate::driver::{Check, Run};
use crate::generate::{self, other_genes};
use crate::lent::{amiss, buffers, five, too_few, TOO_SHORT};
use crate::plan::Plan;
use crate::proved::PLACES;
use crate::published::{Decoder, Published};
use crate::read::{read, Refused};
use crate::tally::{in_turns, Table};

pub const CHECK: Check = Check {
    // Sheets with a row for every activity, for some, for none; refusals 1 to 6.
    table: Table { name: "decode-check", columns: &["whole", "part", "empty", "1", "2", "3", "4", "5", "6"] },
    calls: &["lavkkesto_in_order", "lavkkesto_active", "lavkkesto_decode"],
    counted: "calls",
    salt: 0x6465_636f_6465_5f63,
    turn: in_turns,
    on_plan,
    on_extremes,
};

/// Each call with its name.
const DECODERS: [(&str, Decoder); 3] =
    [("in order", Decoder::InOrder), ("active", Decoder::Active), ("decode", Decoder::Better)];

/// The sheet that a call must write, or its refusal.
type Due = Result<Sheet, Refused>;

/// The plan, the same with other genes, and with some faults.
fn on_plan(run: &mut Run, plan: &Plan) {
    accepted(run, plan);
    run.made("other genes");
    let other = other_genes(plan, &mut run.rng);
    accepted(run, &other);
    let bytes = run.damaged(plan);
    match read(&bytes) {
        Ok(plan) => accepted(run, &plan),
        Err(refused) => of_refused(run, &bytes, refused),
    }
}

/// The longest input and the latest end, and either with other genes.
fn on_extremes(run: &mut Run) {
    for (name, plan) in generate::extremes() {
        run.begin(name);
        accepted(run, &plan);
        for _ in 0..4 {
            let other = other_genes(&plan, &mut run.rng);
            accepted(run, &other);
        }
    }
}

fn accepted(run: &mut Run, plan: &Plan) {
    let bytes = plan.to_bytes();
    let rust = Published::new(plan);
    for (kind, decoder) in DECODERS {
        let due = decoding::decode(plan, decoder);
        if due != rust.decode(decoder) {
            tell(run, format!("{kind}: the Rust and the paper's words decode otherwise"), &bytes);
        }
        let column = match due.rows.len() {
            0 => 2,
            rows => usize::from(rows < plan.activities.len()),
        };
        let places = five(&mut run.rng);
        into(run, kind, decoder, places, &bytes, &Ok(due), column);
    }
    too_short(run, &bytes);
}

fn of_refused(run: &mut Run, bytes: &[u8], refused: Refused) {
    for (kind, decoder) in DECODERS {
        let places = five(&mut run.rng);
        into(run, kind, decoder, places, bytes, &Err(refused), 2 + refused.number as usize);
    }
    too_short(run, bytes);
}

/// One buffer short: number 6.
fn too_short(run: &mut Run, bytes: &[u8]) {
    for (kind, decoder) in DECODERS {
        let mut places = five(&mut run.rng);
        let buffer = run.rng.index(places.len());
        places[buffer] = too_few(PLACES, &mut run.rng);
        into(run, &format!("{kind}, too short"), decoder, places, bytes, &Err(TOO_SHORT), 8);
    }
}

/// A call into buffers of so many places: the answer, the rows, and every other place as it was.
fn into(run: &mut Run, kind: &str, decoder: Decoder, places: [usize; 5], bytes: &[u8], due: &Due, column: usize) {
    run.count(column);
    let before = buffers(places, &mut run.rng);
    let mut after = before.clone();
    let answer = run.calls.decode(decoder, bytes, &mut after);
    if let Some(what) = amiss(due, answer, before, &after) {
        tell(run, format!("{kind}: {what}"), bytes);
    }
}

fn tell(run: &mut Run, what: String, input: &[u8]) {
    run.tell(what, vec![("input", input.to_vec())]);
}

#[cfg(test)]
mod tests {
    use super::*;
    use crate::imitation::{finds, Fault, Imitation};

    #[test]
    fn faults_are_found() {
        let check = |calls: &Imitation| CHECK.tallies(calls, 96);
        let rows = [Fault::NoTransports, Fault::NoSetups, Fault::NoPredecessors, Fault::OneRowMore, Fault::LastBit];
        let lent = [Fault::ShortSetups, Fault::PlaceBehind, Fault::PlaceRefused, Fault::SeesBuffers];
        let read = [Fault::PlaceOff, Fault::NoStray, Fault::ActiveOnTies, Fault::AlwaysInOrder];
        finds(check, &[&rows[..], &lent, &read].concat());
    }
}
