//! `step-check`: the library's call that shows one step of the search against the published Rust's own, on the lines of
//! the order, on those of the states that the Rust's search visits, and on lines that contradict or break number 7.

use crate::answers::Step;
use crate::check::turn;
use crate::driver::{Check, Run};
use crate::generate;
use crate::lent::{amiss_in_view, enough, too_few, views, TOO_SHORT};
use crate::paper::{plan_s, OUTCOMES_OF_S};
use crate::plan::Plan;
use crate::proved::{Given, CELLS, MOVE_CELLS, PLACES};
use crate::published::{Lines, Published};
use crate::read::{read, Refused};
use crate::tally::Table;
use crate::time_check::{break_lines, changed, dealt, given, tell};

pub const CHECK: Check = Check {
    // Steps shown, or refused with 1 to 8.
    table: Table { name: "step-check", columns: &["seen", "1", "2", "3", "4", "5", "6", "7", "8"] },
    calls: &["lavkkesto_look"],
    counted: "calls",
    salt: 0x7374_6570_5f63_6865,
    turn,
    on_plan,
    on_extremes,
};

/// So many states of a plan's search are looked at, the lines of the order among them; of two plans in a hundred all.
const STATES: u32 = 12;
const WHOLE: u64 = 2;

/// The fewest places of path, moves, kept and ranks.
const LEAST: [usize; 4] = [PLACES, MOVE_CELLS, PLACES, PLACES];

/// The step that must be shown, or its refusal.
type Due = Result<Step, Refused>;

/// The plan, and the same with some faults.
fn on_plan(run: &mut Run, plan: &Plan) {
    let most = if run.rng.chance(WHOLE) { plan.steps } else { STATES - 1 };
    let lines = accepted(run, plan, most);
    let bytes = run.damaged(plan);
    match read(&bytes) {
        Ok(plan) => drop(accepted(run, &plan, 1)),
        Err(refused) => of_refused(run, &bytes, &lines, refused),
    }
}

/// The longest input and the latest end, and the paper's own plan.
fn on_extremes(run: &mut Run) {
    let paper = OUTCOMES_OF_S.map(|(steps, _)| ("Plan S", plan_s(steps)));
    for (name, plan) in generate::extremes().into_iter().chain(paper) {
        run.begin(name);
        accepted(run, &plan, STATES - 1);
    }
}

/// The states of a search of at most so many steps, and lines of every other kind; returns lines that fit the plan.
fn accepted(run: &mut Run, plan: &Plan, most: u32) -> Lines {
    let bytes = plan.to_bytes();
    let dealt = dealt(generate::sequence(plan, &mut run.rng), plan, &mut run.rng);
    let states = states(plan, most).unwrap_or_else(|| vec![dealt.clone()]);
    let little = changed(states[0].clone(), &mut run.rng);
    let kinds = states.iter().map(|lines| ("a state", lines));
    let mut rust = Published::new(plan);
    for (kind, lines) in kinds.chain([("dealt lines", &dealt), ("lines a little changed", &little)]) {
        rust = rust.with_lines(lines);
        let due = rust.step(lines).ok_or(Refused { number: 8, place: 0 });
        let given = given(lines, &mut run.rng);
        hold(run, kind, &bytes, &given, &due);
    }
    let mut broken = given(&states[0], &mut run.rng);
    let kind = break_lines(&mut broken, plan, &mut run.rng);
    hold(run, kind, &bytes, &broken, &Err(Refused { number: 7, place: 0 }));
    too_short(run, &bytes, &states[0]);
    dealt
}

/// An input that is refused, with any lines; number 6 still comes first.
fn of_refused(run: &mut Run, bytes: &[u8], lines: &Lines, refused: Refused) {
    let mut given = given(lines, &mut run.rng);
    if run.rng.chance(50) {
        given.lens = std::array::from_fn(|_| run.rng.below(200) as usize);
    }
    hold(run, "any lines", bytes, &given, &Err(refused));
    too_short(run, bytes, lines);
}

/// One buffer short, or the cells: number 6.
fn too_short(run: &mut Run, bytes: &[u8], lines: &Lines) {
    let mut given = given(lines, &mut run.rng);
    let mut places = LEAST.map(|least| enough(least, &mut run.rng));
    let buffer = run.rng.index(LEAST.len() + 1);
    match places.get_mut(buffer) {
        Some(places) => *places = too_few(LEAST[buffer], &mut run.rng),
        None => given.cells.truncate(too_few(CELLS, &mut run.rng)),
    }
    into(run, places, "something short", bytes, &given, &Err(TOO_SHORT));
}

fn hold(run: &mut Run, kind: &str, bytes: &[u8], given: &Given, due: &Due) {
    let places = LEAST.map(|least| enough(least, &mut run.rng));
    into(run, places, kind, bytes, given, due);
}

/// A call with buffers of so many places: the answer, what is written, and every other place as it was.
fn into(run: &mut Run, places: [usize; 4], kind: &str, bytes: &[u8], given: &Given, due: &Due) {
    run.count(due.as_ref().map_or_else(|refused| refused.number as usize, |_| 0));
    let before = views(places, &mut run.rng);
    let mut after = before.clone();
    let looked = run.calls.look(bytes, given, &mut after);
    if let Some(what) = amiss_in_view(due, looked, before, &after) {
        tell(run, format!("{kind}: {what}"), bytes, Some(given));
    }
}

/// The lines of the order, and those after each move of the Rust's search, at most so many moves; none where the order
/// gives no lines.
fn states(plan: &Plan, most: u32) -> Option<Vec<Lines>> {
    let rust = Published::new(&Plan { steps: plan.steps.min(most), ..plan.clone() });
    let mut states = vec![rust.lines()?];
    for made in rust.replay().1 {
        let next = made.moved.applied(states[states.len() - 1].clone());
        states.push(next);
    }
    Some(states)
}

#[cfg(test)]
mod tests {
    use super::*;
    use crate::generate::Class;
    use crate::imitation::{finds, Fault, Imitation};

    #[test]
    fn faults_are_found() {
        let plan = [Fault::NoTransports, Fault::NoSetups, Fault::NoPredecessors, Fault::PlaceOff, Fault::NoStray];
        let step = [Fault::PathBackwards, Fault::SwapTwice, Fault::ThreeSorted, Fault::OneKeptLess, Fault::TimeFirst];
        let told = [Fault::OneMoveLess, Fault::LastBit, Fault::PlaceBehind, Fault::PlaceRefused, Fault::SeesBuffers];
        let lent = [Fault::ShortCells, Fault::ShortPath, Fault::ShortMoves, Fault::ShortKept, Fault::ShortRanks];
        finds(|calls| CHECK.tallies(calls, 96), &[&plan[..], &step, &told, &lent].concat());
    }

    #[test]
    fn every_answer_is_due() {
        let tallies = CHECK.generated(&Imitation(Fault::Nothing), 800);
        for (k, column) in CHECK.table.columns.iter().enumerate() {
            let count: u64 = tallies.iter().map(|(_, tally)| tally.counts[k]).sum();
            assert!(count > 5, "{column}: {count}");
        }
    }

    #[test]
    fn states_lead_to_what_the_search_gives() {
        for class in [Class::JobShop, Class::Flexible, Class::Ties] {
            for seed in 0..6 {
                let plan = generate::plan(seed, class);
                let rust = Published::new(&plan);
                let (Some(states), (improved, made)) = (states(&plan, plan.steps), rust.replay()) else {
                    continue;
                };
                assert_eq!(states.len(), made.len() + 1);
                let timed = |lines: &Lines| Published::new(&plan).with_lines(lines).time(lines);
                let fitness = |lines: &Lines| timed(lines).map(|sheet| sheet.fitness);
                let reached: Vec<Option<u64>> = states[1..].iter().map(fitness).collect();
                assert_eq!(reached, made.iter().map(|made| Some(made.fitness)).collect::<Vec<_>>());
                let least = states.iter().filter_map(fitness).map(f64::from_bits).fold(f64::INFINITY, f64::min);
                if let Some(best) = improved.fitness {
                    assert_eq!(f64::from_bits(best), least, "{} {seed}", class.name());
                }
            }
        }
    }
}
