//! The sheet check by document 01's words, in 128-bit numbers, where nothing overflows. The Rust has none.

use crate::plan::Plan;
use crate::proved::Checked;
use crate::timing::{release_of, setup_of, task_of, times_on};

/// No end passes this.
pub const LATEST: i128 = 513 * 2_147_483_647;

/// A row that meets rule 1.
#[derive(Clone, Copy)]
struct Row {
    activity: usize,
    machine: usize,
    start: i128,
    end: i128,
}

/// What is due for a sheet of an accepted plan: four numbers a row, the last one may be short.
pub fn check(plan: &Plan, numbers: &[i64]) -> Checked {
    let sheet = Sheet::new(plan, numbers);
    for row in 0..sheet.rows.len() {
        if let Some(rule) = sheet.broken(row) {
            return Checked::Bad { rule, row };
        }
    }
    match (0..plan.activities.len()).find(|&activity| sheet.first_row(activity).is_none()) {
        Some(activity) => Checked::Missing { activity },
        None => Checked::Accepted,
    }
}

struct Sheet<'a> {
    plan: &'a Plan,
    task_of: Vec<usize>,
    /// None for a row that breaks rule 1.
    rows: Vec<Option<Row>>,
}

impl<'a> Sheet<'a> {
    fn new(plan: &'a Plan, numbers: &[i64]) -> Sheet<'a> {
        let known = |number: i64, limit: usize| usize::try_from(number).ok().filter(|&number| number < limit);
        let row = |numbers: &[i64]| match *numbers {
            [activity, machine, start, end] => Some(Row {
                activity: known(activity, plan.activities.len())?,
                machine: known(machine, plan.transports.len())?,
                start: i128::from(start),
                end: i128::from(end),
            }),
            _ => None,
        };
        Sheet { plan, task_of: task_of(plan), rows: numbers.chunks(4).map(row).collect() }
    }

    /// The first rule that a row breaks; rows before it break none.
    fn broken(&self, k: usize) -> Option<u64> {
        let Some(row) = self.rows[k] else { return Some(1) };
        let (activity, task) = (row.activity, self.task_of[row.activity]);
        let earlier = || self.rows[..k].iter().flatten();
        let line_before = earlier().rfind(|other| other.machine == row.machine);
        let starts_after = |before: Option<&Row>| before.is_none_or(|before| row.start >= before.end);
        let step_before = activity.checked_sub(1).filter(|&step| self.task_of[step] == task);
        let rules = [
            (2, earlier().all(|other| other.activity != activity)),
            (3, row.start >= 0),
            (4, row.end <= LATEST),
            (5, row.end - row.start == self.span(&row, line_before)),
            (6, row.start >= i128::from(release_of(self.plan, activity, task))),
            (7, starts_after(line_before)),
            (8, starts_after(step_before.and_then(|step| self.first_row(step)))),
            (9, self.named(activity).all(|named| starts_after(self.first_row(named)))),
        ];
        rules.into_iter().find(|(_, held)| !held).map(|(rule, _)| rule)
    }

    /// Setup, process and teardown.
    fn span(&self, row: &Row, line_before: Option<&Row>) -> i128 {
        let Row { activity, machine, .. } = *row;
        let task_before = line_before.map(|before| self.task_of[before.activity]);
        let setup = setup_of(self.plan, machine, task_before, activity, self.task_of[activity]);
        let times = times_on(self.plan, activity, machine);
        i128::from(setup) + i128::from(times.process) + i128::from(times.teardown)
    }

    /// Looked for in all rows: the first that meets rule 1.
    fn first_row(&self, activity: usize) -> Option<&Row> {
        self.rows.iter().flatten().find(|row| row.activity == activity)
    }

    fn named(&self, activity: usize) -> impl Iterator<Item = usize> + '_ {
        let own = self.plan.predecessors.iter().filter(move |pair| pair.0 as usize == activity);
        own.map(|pair| pair.1 as usize)
    }
}

#[cfg(test)]
mod tests {
    use super::*;
    use crate::paper::plan_s;

    const BAD: fn(u64, usize) -> Checked = |rule, row| Checked::Bad { rule, row };

    /// The paper's printed sheet of Plan S, and one number changed at a time.
    #[test]
    fn plan_s_by_hand() {
        let sheet: [i64; 16] = [2, 0, 0, 1, 3, 1, 1, 6, 0, 0, 1, 4, 1, 1, 6, 10];
        let plan = plan_s(60);
        assert_eq!(check(&plan, &sheet), Checked::Accepted);
        assert_eq!(check(&plan, &[]), Checked::Missing { activity: 0 });
        assert_eq!(check(&plan, &sheet[..8]), Checked::Missing { activity: 0 });
        assert_eq!(check(&plan, &sheet[..12]), Checked::Missing { activity: 1 });
        assert_eq!(check(&plan, &sheet[..15]), BAD(1, 3));
        assert_eq!(check(&plan, &sheet[..1]), BAD(1, 0));
        let changed = |at: usize, number: i64| {
            let mut sheet = sheet;
            sheet[at] = number;
            check(&plan, &sheet)
        };
        let cases = [
            (0, -1, BAD(1, 0)),
            (0, 4, BAD(1, 0)),
            (1, 2, BAD(1, 0)),
            (1, i64::MIN, BAD(1, 0)),
            (4, 2, BAD(2, 1)),
            (2, -1, BAD(3, 0)),
            (3, i64::MAX, BAD(4, 0)),
            (3, LATEST as i64, BAD(5, 0)),
            (3, i64::MIN, BAD(5, 0)),
            (3, 2, BAD(5, 0)),
            // The rows of a task are looked for in all rows, also in one that is bad and comes later.
            (11, i64::MAX, BAD(4, 2)),
        ];
        for (at, number, due) in cases {
            assert_eq!(changed(at, number), due, "{at} {number}");
        }
        // Both on machine 0 at once; then the task's second step before its first.
        assert_eq!(check(&plan, &[2, 0, 0, 1, 0, 0, 0, 3]), BAD(7, 1));
        assert_eq!(check(&plan, &[3, 1, 0, 5, 2, 0, 0, 1]), BAD(8, 0));
        assert_eq!(check(&plan, &[3, 1, 0, 5, 2, 2, 0, 1]), BAD(1, 1));
        let waiting = Plan { predecessors: vec![(0, 3)], ..plan.clone() };
        assert_eq!(check(&waiting, &sheet), BAD(9, 2));
        let mut released = plan;
        released.activities[2] = 1;
        assert_eq!(check(&released, &sheet), BAD(6, 0));
    }
}
