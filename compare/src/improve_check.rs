//! `improve-check`: the library's Improve against the published Rust's, on generated plans, the same with other genes and
//! other steps, and on damaged ones.

use crate::answers::Improved;
use crate::check::turn;
use crate::driver::{Check, Run};
use crate::generate::{self, other_genes};
use crate::lent::{differing_genes, enough, numbers, too_few, TOO_SHORT};
use crate::paper::{plan_s, OUTCOMES_OF_S};
use crate::plan::Plan;
use crate::proved::{Ended, Genes, CELLS, PLACES};
use crate::published::Published;
use crate::read::{read, Refused};
use crate::tally::Table;

pub const CHECK: Check = Check {
    // Outcomes 10 to 14; refusals 1 to 6.
    table: Table { name: "improve-check", columns: &["10", "11", "12", "13", "14", "1", "2", "3", "4", "5", "6"] },
    calls: &["lavkkesto_improve"],
    counted: "calls",
    salt: 0x696d_7072_6f76_655f,
    turn,
    on_plan,
    on_extremes,
};

/// How Improve must end, or its refusal.
type Due = Result<Improved, Refused>;

/// The plan; now and then the same with other genes or as many steps as can be; the same with some faults.
fn on_plan(run: &mut Run, plan: &Plan) {
    accepted(run, plan);
    too_short(run, &plan.to_bytes());
    if run.rng.chance(20) {
        run.made("other genes");
        let other = other_genes(plan, &mut run.rng);
        accepted(run, &other);
    }
    if run.rng.chance(10) {
        run.made("other steps");
        let steps = run.rng.pick(&[0, 1, 5, 6, 7, 1_000, 1_000]);
        accepted(run, &Plan { steps, ..plan.clone() });
    }
    let bytes = run.damaged(plan);
    match read(&bytes) {
        Ok(plan) => accepted(run, &plan),
        Err(refused) => {
            hold(run, &bytes, Err(refused));
            too_short(run, &bytes);
        }
    }
}

/// The longest input and the latest end, and the paper's own plan.
fn on_extremes(run: &mut Run) {
    let paper = OUTCOMES_OF_S.map(|(steps, _)| ("Plan S", plan_s(steps)));
    for (name, plan) in generate::extremes().into_iter().chain(paper) {
        run.begin(name);
        accepted(run, &plan);
        too_short(run, &plan.to_bytes());
    }
}

fn accepted(run: &mut Run, plan: &Plan) {
    hold(run, &plan.to_bytes(), Ok(Published::new(plan).improve()));
}

fn hold(run: &mut Run, bytes: &[u8], due: Due) {
    let sizes = [CELLS, PLACES, PLACES].map(|least| enough(least, &mut run.rng));
    into(run, "", sizes, bytes, due);
}

/// Cells, tasks or machines short: number 6.
fn too_short(run: &mut Run, bytes: &[u8]) {
    let mut sizes = [CELLS, PLACES, PLACES];
    let short = run.rng.index(sizes.len());
    sizes = sizes.map(|least| enough(least, &mut run.rng));
    sizes[short] = too_few([CELLS, PLACES, PLACES][short], &mut run.rng);
    let kind = [" (cells too short)", " (tasks too short)", " (machines too short)"][short];
    into(run, kind, sizes, bytes, Err(TOO_SHORT));
}

/// A call with so many cells, and places for tasks and machines: the answer, what is written, and every other place
/// as it was. The cells are work space.
fn into(run: &mut Run, kind: &str, [cells, tasks, machines]: [usize; 3], bytes: &[u8], due: Due) {
    let column = due.as_ref().map_or_else(|refused| 4 + refused.number, |improved| improved.outcome - 10);
    run.count(column as usize);
    let mut cells = numbers(cells, &mut run.rng);
    let before = Genes { tasks: numbers(tasks, &mut run.rng), machines: numbers(machines, &mut run.rng) };
    let mut after = before.clone();
    let ended = run.calls.improve(bytes, &mut cells, &mut after);
    let due_end = match &due {
        Ok(improved) => Ended::Outcome { number: u64::from(improved.outcome), fitness: improved.fitness },
        Err(refused) => Ended::Refused(*refused),
    };
    let what = match ended == due_end {
        true => differing_genes(&written(before, due), &after),
        false => Some(format!("due {due_end:x?}, not {ended:x?}")),
    };
    if let Some(what) = what {
        run.tell(format!("{what}{kind}"), vec![("input", bytes.to_vec())]);
    }
}

/// The buffers with the order and the assignment that are due, if any are.
fn written(mut genes: Genes, due: Due) -> Genes {
    if let Some((order, assignment)) = due.ok().and_then(|improved| improved.genes) {
        genes.tasks[..order.len()].copy_from_slice(&order);
        genes.machines[..assignment.len()].copy_from_slice(&assignment);
    }
    genes
}

#[cfg(test)]
mod tests {
    use super::*;
    use crate::imitation::{finds, Fault, Imitation};

    #[test]
    fn faults_are_found() {
        let plan = [Fault::NoTransports, Fault::NoSetups, Fault::NoPredecessors, Fault::PlaceOff, Fault::NoStray];
        let ends = [Fault::StepLess, Fault::NotImproved, Fault::FirstFitness, Fault::LastBit];
        let writes = [Fault::WritesAt13, Fault::LastMachineLeft, Fault::PlaceBehind, Fault::PlaceRefused];
        let lent = [Fault::ShortTasks, Fault::ShortMachines, Fault::ShortCells, Fault::SeesBuffers];
        finds(|calls| CHECK.generated(calls, 160), &[&plan[..], &ends, &writes, &lent].concat());
    }

    #[test]
    fn every_end_is_due() {
        let tallies = CHECK.generated(&Imitation(Fault::Nothing), 800);
        for (k, column) in CHECK.table.columns.iter().enumerate() {
            let count: u64 = tallies.iter().map(|(_, tally)| tally.counts[k]).sum();
            assert!(count > 5, "{column}: {count}");
        }
    }
}
