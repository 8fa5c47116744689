//! Timing by document 01's words, in numbers and apart from the Rust text: the lines that an order gives, number 7, the
//! timing order, number 8, starts, ends and fitness. It is the second opinion of `time-check`, and the only one on plans
//! that no Rust problem can be.

use crate::answers::{Row, Sheet};
use crate::plan::{Plan, Task, Times};
use crate::proved::{Given, MACHINES, STRETCH};
use crate::published::Lines;
use crate::read::Refused;

const NOT_THE_LINES: Refused = Refused { number: 7, place: 0 };
const CONTRADICTING: Refused = Refused { number: 8, place: 0 };

/// The lines as given, one for each of the R machines; or number 7.
pub fn lines_given(plan: &Plan, given: &Given) -> Result<Lines, Refused> {
    let (n, machines) = (plan.activities.len(), plan.transports.len());
    let mut lines = Vec::new();
    for machine in 0..MACHINES {
        let length = given.lens[machine];
        if length > STRETCH || length > 0 && machine >= machines {
            return Err(NOT_THE_LINES);
        }
        lines.push(given.cells[STRETCH * machine..][..length].to_vec());
    }
    lines.truncate(machines);
    let mut named = lines.concat();
    named.sort_unstable();
    match named.into_iter().eq(0..n) {
        true => Ok(lines),
        false => Err(NOT_THE_LINES),
    }
}

/// The lines of the Order and the Assignment; number 7 where they miss an activity.
pub fn lines_of_order(plan: &Plan) -> Result<Lines, Refused> {
    let named = named(plan);
    let mut lines = vec![Vec::new(); plan.transports.len()];
    for &activity in &named {
        lines[machine_of(plan, activity).ok_or(NOT_THE_LINES)?].push(activity);
    }
    match named.len() == plan.activities.len() {
        true => Ok(lines),
        false => Err(NOT_THE_LINES),
    }
}

/// The task of each activity.
pub fn task_of(plan: &Plan) -> Vec<usize> {
    let tasks = plan.tasks.iter().enumerate();
    tasks.flat_map(|(number, task)| vec![number; task.activities as usize]).collect()
}

/// The activities that the Order gives: its k-th naming of a task is the task's k-th activity. Unknown tasks and surplus
/// namings are dropped.
pub fn named(plan: &Plan) -> Vec<usize> {
    let mut left: Vec<Vec<usize>> = vec![Vec::new(); plan.tasks.len()];
    for (activity, task) in task_of(plan).into_iter().enumerate().rev() {
        left[task].push(activity);
    }
    plan.order.iter().filter_map(|&task| left.get_mut(task as usize)?.pop()).collect()
}

/// The assigned machine; none for -1 and behind the Assignment's end.
pub fn machine_of(plan: &Plan, activity: usize) -> Option<usize> {
    plan.assignment.get(activity).and_then(|&machine| usize::try_from(machine).ok())
}

/// The entry for machine, category before (8 for none) and own category; without one the activity's own setup.
pub fn setup_of(plan: &Plan, machine: usize, task_before: Option<usize>, activity: usize, task: usize) -> i64 {
    let category = |task: usize| plan.tasks[task].category;
    let key = (machine as u32, task_before.map_or(8, category), category(task));
    let entry = plan.setups.iter().find(|entry| (entry.machine, entry.previous, entry.category) == key);
    i64::from(entry.map_or(times_on(plan, activity, machine).setup, |entry| entry.setup))
}

pub fn times_on(plan: &Plan, activity: usize, machine: usize) -> Times {
    plan.times[activity * plan.transports.len() + machine]
}

/// The greater of the task's and the activity's.
pub fn release_of(plan: &Plan, activity: usize, task: usize) -> i64 {
    i64::from(plan.tasks[task].release.max(plan.activities[activity]))
}

/// (1 - w) · makespan + w · total tardiness.
pub fn fitness_of(plan: &Plan, rows: &[Row]) -> f64 {
    let mut completions = vec![0; plan.tasks.len()];
    let task_of = task_of(plan);
    for row in rows {
        let completion: &mut i64 = &mut completions[task_of[row.activity]];
        *completion = row.end.max(*completion);
    }
    let late = |(task, &completion): (&Task, &i64)| match task.deadline_flag {
        1 => (completion - i64::from(task.deadline)).max(0),
        _ => 0,
    };
    let total: i64 = plan.tasks.iter().zip(&completions).map(late).sum();
    let makespan = completions.iter().copied().max().unwrap_or(0);
    let weight = f64::from_bits(plan.weight);
    (1.0 - weight) * makespan as f64 + weight * total as f64
}

/// The sheet of these lines, rows in timing order; or number 8.
pub fn time(plan: &Plan, lines: &Lines) -> Result<Sheet, Refused> {
    let shop = Shop::new(plan, lines);
    let order = shop.timing_order();
    if order.len() < shop.task.len() {
        return Err(CONTRADICTING);
    }
    let mut rows: Vec<Option<Row>> = vec![None; order.len()];
    for &activity in &order {
        rows[activity] = Some(shop.row(activity, &rows));
    }
    let rows: Vec<Row> = order.into_iter().filter_map(|activity| rows[activity]).collect();
    Ok(Sheet { fitness: fitness_of(plan, &rows).to_bits(), rows })
}

/// A plan with its lines, as each activity sees it.
pub(crate) struct Shop<'a> {
    plan: &'a Plan,
    pub(crate) task: Vec<usize>,
    pub(crate) machine: Vec<usize>,
    pub(crate) line_before: Vec<Option<usize>>,
    pub(crate) line_after: Vec<Option<usize>>,
    /// Those it names, as listed.
    pub(crate) named: Vec<Vec<usize>>,
    /// Those that name it, by rising number, once per naming.
    pub(crate) waiting: Vec<Vec<usize>>,
}

impl<'a> Shop<'a> {
    pub(crate) fn new(plan: &'a Plan, lines: &Lines) -> Shop<'a> {
        let n = plan.activities.len();
        let mut shop = Shop {
            plan,
            task: task_of(plan),
            machine: vec![0; n],
            line_before: vec![None; n],
            line_after: vec![None; n],
            named: vec![Vec::new(); n],
            waiting: vec![Vec::new(); n],
        };
        for (machine, line) in lines.iter().enumerate() {
            for (position, &activity) in line.iter().enumerate() {
                shop.machine[activity] = machine;
                shop.line_before[activity] = position.checked_sub(1).map(|before| line[before]);
                shop.line_after[activity] = line.get(position + 1).copied();
            }
        }
        for &(activity, before) in &plan.predecessors {
            shop.named[activity as usize].push(before as usize);
            // Predecessors go by rising activity.
            shop.waiting[before as usize].push(activity as usize);
        }
        shop
    }

    pub(crate) fn task_before(&self, activity: usize) -> Option<usize> {
        activity.checked_sub(1).filter(|&before| self.task[before] == self.task[activity])
    }

    pub(crate) fn task_after(&self, activity: usize) -> Option<usize> {
        (self.task.get(activity + 1) == Some(&self.task[activity])).then_some(activity + 1)
    }

    /// Those waiting for nothing are stacked, lowest first; the last stacked is taken and frees its successors.
    fn timing_order(&self) -> Vec<usize> {
        let waits = |a: usize| {
            usize::from(self.line_before[a].is_some())
                + usize::from(self.task_before(a).is_some())
                + self.named[a].len()
        };
        let mut left: Vec<usize> = (0..self.task.len()).map(waits).collect();
        let mut stack: Vec<usize> = (0..left.len()).filter(|&a| left[a] == 0).collect();
        let mut order = Vec::new();
        while let Some(taken) = stack.pop() {
            order.push(taken);
            let mut freed: Vec<usize> = self.line_after[taken].into_iter().collect();
            freed.extend(self.task_after(taken));
            freed.extend(&self.waiting[taken]);
            for a in freed {
                left[a] -= 1;
                if left[a] == 0 {
                    stack.push(a);
                }
            }
        }
        order
    }

    /// The row of an activity whose predecessors of all kinds have theirs.
    fn row(&self, activity: usize, rows: &[Option<Row>]) -> Row {
        let end = |before: usize| rows[before].map_or(0, |row| row.end);
        let (machine, task) = (self.machine[activity], self.task[activity]);
        let Times { process, teardown, .. } = times_on(self.plan, activity, machine);
        let task_before = self.line_before[activity].map(|before| self.task[before]);
        let setup = setup_of(self.plan, machine, task_before, activity, task);
        let mut start = release_of(self.plan, activity, task).max(0);
        if let Some(before) = self.line_before[activity] {
            start = start.max(end(before));
        }
        if let Some(before) = self.task_before(activity) {
            start = start.max(end(before) + i64::from(self.plan.transports[self.machine[before]][machine]));
        }
        for &before in &self.named[activity] {
            start = start.max(end(before));
        }
        let span = setup + i64::from(process) + i64::from(teardown);
        Row { activity, machine, start, end: start + span, setup }
    }
}

#[cfg(test)]
mod tests {
    use super::*;
    use crate::generate::{self, Class};
    use crate::lines::checked;
    use crate::published::Published;

    /// The Rust text, on the same stand-ins as everywhere.
    #[test]
    fn the_words_time_as_the_rust_does() {
        let mut numbers = [0; 9];
        for class in Class::ALL {
            for seed in 0..60 {
                let plan = generate::plan(seed, class);
                let published = Published::new(&plan);
                let lines = lines_of_order(&plan);
                assert_eq!(lines.clone().ok(), published.lines(), "{} {seed}", class.name());
                if let Ok(lines) = lines {
                    assert_eq!(time(&plan, &lines).ok(), published.time(&lines), "{} {seed}", class.name());
                }
                let drawn = checked(&plan, &generate::lines(seed, &plan));
                let timed = drawn.and_then(|lines| {
                    let timed = time(&plan, &lines);
                    let published = Published::new(&plan).with_lines(&lines);
                    assert_eq!(timed.clone().ok(), published.time(&lines), "{} {seed}", class.name());
                    timed
                });
                numbers[timed.map_or_else(|refused| refused.number as usize, |_| 0)] += 1;
            }
        }
        assert!(numbers[0] > 300 && numbers[7] > 100 && numbers[8] > 100, "{numbers:?}");
    }
}
