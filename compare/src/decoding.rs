//! The two decoders by document 01's words, in numbers and apart from the Rust text: the second opinion of
//! `decode-check`, and the only one on plans that no Rust problem can be.

use crate::answers::{Row, Sheet};
use crate::plan::Plan;
use crate::published::Decoder;
use crate::timing::{fitness_of, machine_of, named, release_of, setup_of, task_of, times_on};

/// The sheet that a decoder gives; the better one is the active one only if its fitness is strictly less.
pub fn decode(plan: &Plan, decoder: Decoder) -> Sheet {
    match decoder {
        Decoder::InOrder => in_order(plan),
        Decoder::Active => active(plan),
        Decoder::Better => {
            let (in_order, active) = (in_order(plan), active(plan));
            match f64::from_bits(active.fitness) < f64::from_bits(in_order.fitness) {
                true => active,
                false => in_order,
            }
        }
    }
}

/// What is placed so far.
struct Board<'a> {
    plan: &'a Plan,
    task_of: Vec<usize>,
    /// Placed, or passed over for want of a machine.
    settled: Vec<bool>,
    /// In placing order.
    rows: Vec<Row>,
}

impl<'a> Board<'a> {
    fn new(plan: &'a Plan) -> Board<'a> {
        Board { plan, task_of: task_of(plan), settled: vec![false; plan.activities.len()], rows: Vec::new() }
    }

    fn predecessors(&self, activity: usize) -> impl Iterator<Item = usize> + '_ {
        let own = self.plan.predecessors.iter().filter(move |pair| pair.0 as usize == activity);
        own.map(|pair| pair.1 as usize)
    }

    /// The row that the activity would get on this machine now.
    fn seat(&self, activity: usize, machine: usize) -> Row {
        let task = self.task_of[activity];
        let on_machine = self.rows.iter().rev().find(|row| row.machine == machine);
        let of_task = self.rows.iter().rev().find(|row| self.task_of[row.activity] == task);
        let mut bounds = vec![0, release_of(self.plan, activity, task)];
        bounds.extend(on_machine.map(|row| row.end));
        bounds.extend(of_task.map(|row| row.end + i64::from(self.plan.transports[row.machine][machine])));
        // One that is settled without a machine ends at 0, so that rows alone bind.
        let row_of = |activity: usize| self.rows.iter().find(|row| row.activity == activity);
        bounds.extend(self.predecessors(activity).filter_map(row_of).map(|row| row.end));
        let start = bounds.into_iter().max().unwrap_or(0);
        let task_before = on_machine.map(|row| self.task_of[row.activity]);
        let setup = setup_of(self.plan, machine, task_before, activity, task);
        let times = times_on(self.plan, activity, machine);
        let span = setup + i64::from(times.process) + i64::from(times.teardown);
        Row { activity, machine, start, end: start + span, setup }
    }

    fn place(&mut self, row: Row) {
        self.settled[row.activity] = true;
        self.rows.push(row);
    }

    fn sheet(self) -> Sheet {
        Sheet { fitness: fitness_of(self.plan, &self.rows).to_bits(), rows: self.rows }
    }
}

fn in_order(plan: &Plan) -> Sheet {
    let mut board = Board::new(plan);
    let mut left = named(plan);
    // The first whose predecessors and earlier steps are taken, or not in the order.
    while let Some(at) = left.iter().position(|&activity| {
        let steps = (0..activity).filter(|&step| board.task_of[step] == board.task_of[activity]);
        board.predecessors(activity).chain(steps).all(|before| !left.contains(&before))
    }) {
        let activity = left.remove(at);
        match machine_of(plan, activity) {
            Some(machine) => board.place(board.seat(activity, machine)),
            None => board.settled[activity] = true,
        }
    }
    board.sheet()
}

fn active(plan: &Plan) -> Sheet {
    let mut board = Board::new(plan);
    let order = named(plan);
    let rank = |row: &Row| order.iter().position(|&activity| activity == row.activity).unwrap_or(usize::MAX);
    loop {
        let candidates = scan(&mut board);
        // `min_by_key` gives the first of equals, which is that of the earlier task.
        let Some(first) = candidates.iter().min_by_key(|row| (row.end, rank(row))) else { break };
        let contends =
            |row: &&Row| row.machine == first.machine && (row.start < first.end || row.activity == first.activity);
        let Some(chosen) = candidates.iter().filter(contends).min_by_key(|row| rank(row)) else { break };
        board.place(*chosen);
    }
    board.sheet()
}

/// The next activity of each task, where it can be placed. Steps without a machine are settled and skipped; a task stops
/// at one whose predecessors are not settled.
fn scan(board: &mut Board) -> Vec<Row> {
    let mut candidates = Vec::new();
    for task in 0..board.plan.tasks.len() {
        let steps: Vec<usize> = (0..board.task_of.len()).filter(|&activity| board.task_of[activity] == task).collect();
        for activity in steps {
            if board.settled[activity] {
                continue;
            }
            let Some(machine) = machine_of(board.plan, activity) else {
                board.settled[activity] = true;
                continue;
            };
            if board.predecessors(activity).all(|before| board.settled[before]) {
                candidates.push(board.seat(activity, machine));
            }
            break;
        }
    }
    candidates
}

#[cfg(test)]
mod tests {
    use super::*;
    use crate::generate::{self, Class};
    use crate::published::Published;

    #[test]
    fn the_words_decode_as_the_rust_does() {
        let mut part = 0;
        for class in Class::ALL {
            for seed in 0..60 {
                let plan = generate::plan(seed, class);
                let published = Published::new(&plan);
                for decoder in [Decoder::InOrder, Decoder::Active, Decoder::Better] {
                    let sheet = decode(&plan, decoder);
                    assert_eq!(sheet, published.decode(decoder), "{} {seed}, {decoder:?}", class.name());
                    part += usize::from(sheet.rows.len() < plan.activities.len());
                }
            }
        }
        assert!(part > 200, "{part}");
    }
}
