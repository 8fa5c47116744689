//! The calls of the proved library for programs in Rust: slices in, an answer out, nothing unsafe for the caller. A plan
//! is the bytes of its stored form. LAVKKESTO_LIB names the archive when this is built; `compare/archive` writes it.
//! docs/CALLS.md says what each call takes, answers and leaves.

use std::fmt;

mod raw;

/// The fewest places that a result buffer may have.
pub const PLACES: usize = 128;

/// Machines, and the cells of one machine's line.
pub const MACHINES: usize = 16;
pub const STRETCH: usize = 128;

/// The fewest cells that may be lent for lines.
pub const CELLS: usize = MACHINES * STRETCH;

/// The numbers of one move, the numbers of its rank, and the fewest cells for all block moves of a step.
pub const ROW: usize = 6;
pub const RANK: usize = 2;
pub const MOVE_CELLS: usize = 256 * ROW;

/// A number of document 01's table, 1 to 8, and its place: a byte of the plan, or 0.
#[derive(Clone, Copy, Debug, PartialEq, Eq)]
pub struct Refused {
    pub number: u32,
    pub place: usize,
}

impl fmt::Display for Refused {
    fn fmt(&self, f: &mut fmt::Formatter<'_>) -> fmt::Result {
        write!(f, "refused {} {}", self.number, self.place)
    }
}

/// The five buffers that rows are written to, one row a place. Places after the last row are left as they are.
pub struct Rows<'a> {
    pub activities: &'a mut [usize],
    pub machines: &'a mut [usize],
    pub starts: &'a mut [u64],
    pub ends: &'a mut [u64],
    pub setups: &'a mut [u64],
}

/// The four buffers that a step of the search is shown in: its path; each block move; each kept move, block moves first;
/// each kept move's rank. Places after the last number are left as they are.
pub struct Views<'a> {
    pub path: &'a mut [usize],
    pub moves: &'a mut [usize],
    pub kept: &'a mut [usize],
    pub ranks: &'a mut [u64],
}

/// Of timing and the decoders.
#[derive(Clone, Copy, Debug, PartialEq, Eq)]
pub enum Answer {
    /// How many rows were written, and the bits of their fitness (`f64::from_bits`).
    Rows { count: usize, fitness: u64 },
    /// Nothing was written.
    Refused(Refused),
    /// Numbers that this wrapper does not know.
    Unknown([u64; 4]),
}

impl Answer {
    /// Number, place, 0, 0 for a refusal; else 0, 0, rows, fitness bits.
    fn of(told: [u64; 4], places: usize) -> Answer {
        match (told, refused(told[0], told[1]), usize::try_from(told[2])) {
            ([0, 0, _, fitness], _, Ok(count)) if count <= places => Answer::Rows { count, fitness },
            ([_, _, 0, 0], Some(refused), _) => Answer::Refused(refused),
            _ => Answer::Unknown(told),
        }
    }
}

/// Of the sheet check.
#[derive(Clone, Copy, Debug, PartialEq, Eq)]
pub enum Checked {
    Accepted,
    /// Rule 1 to 9, and the row from 0 on.
    Bad {
        rule: u64,
        row: usize,
    },
    /// Rule 10: this activity has no row.
    Missing {
        activity: usize,
    },
    Refused(Refused),
    /// Numbers that this wrapper does not know.
    Unknown([u64; 3]),
}

impl Checked {
    /// Number, 0, place for a refusal; else 0, rule (0 for none), row or activity.
    fn of(told: [u64; 3]) -> Checked {
        match (told, refused(told[0], told[2]), usize::try_from(told[2])) {
            ([0, 0, 0], ..) => Checked::Accepted,
            ([0, rule @ 1..=9, _], _, Ok(row)) => Checked::Bad { rule, row },
            ([0, 10, _], _, Ok(activity)) => Checked::Missing { activity },
            ([_, 0, _], Some(refused), _) => Checked::Refused(refused),
            _ => Checked::Unknown(told),
        }
    }
}

/// Of Improve.
#[derive(Clone, Copy, Debug, PartialEq, Eq)]
pub enum Ended {
    /// 10 to 14, with the bits of the best line fitness for 13 and 14. At 14 alone an order and its assignment were written.
    Outcome { number: u64, fitness: Option<u64> },
    /// Nothing was written but cells.
    Refused(Refused),
    /// Numbers that this wrapper does not know.
    Unknown([u64; 3]),
}

impl Ended {
    /// Number, place, fitness bits; 0 for what there is not.
    fn of(told: [u64; 3]) -> Ended {
        match (told, refused(told[0], told[1])) {
            ([number @ 10..=12, 0, 0], _) => Ended::Outcome { number, fitness: None },
            ([number @ 13..=14, 0, fitness], _) => Ended::Outcome { number, fitness: Some(fitness) },
            ([1..=6, _, 0], Some(refused)) => Ended::Refused(refused),
            _ => Ended::Unknown(told),
        }
    }
}

/// Of a step shown.
#[derive(Clone, Copy, Debug, PartialEq, Eq)]
pub enum Looked {
    /// How many activities of the path, block moves, kept block moves and kept reassignments were written, and the bits of
    /// the line fitness.
    Seen { path: usize, moves: usize, blocks: usize, others: usize, fitness: u64 },
    /// Nothing was written.
    Refused(Refused),
    /// Numbers that this wrapper does not know.
    Unknown([u64; 7]),
}

impl Looked {
    /// Number, place and five times 0 for a refusal; else 0, 0, the four counts, fitness bits. There is room for so many
    /// activities, block moves and kept moves.
    fn of(told: [u64; 7], room: [usize; 3]) -> Looked {
        let [number, place, counts @ .., fitness] = told;
        match (told, counts.map(usize::try_from), refused(number, place)) {
            ([0, 0, ..], [Ok(path), Ok(moves), Ok(blocks), Ok(others)], _)
                if path <= room[0] && moves <= room[1] && blocks.saturating_add(others) <= room[2] =>
            {
                Looked::Seen { path, moves, blocks, others, fitness }
            }
            ([_, _, 0, 0, 0, 0, 0], _, Some(refused)) => Looked::Refused(refused),
            _ => Looked::Unknown(told),
        }
    }
}

fn refused(number: u64, place: u64) -> Option<Refused> {
    match (u32::try_from(number), usize::try_from(place)) {
        (Ok(number @ 1..=8), Ok(place)) => Some(Refused { number, place }),
        _ => None,
    }
}

/// The calls that are not linked; none unless this is built with `may-lack`.
pub fn lacking() -> impl Iterator<Item = &'static str> {
    raw::LINKED.iter().filter(|(_, linked)| !linked).map(|(name, _)| *name)
}

/// A call with the plan, other arguments and the five result buffers.
macro_rules! answer_of {
    ($call:ident($plan:ident $(, $argument:expr)*) into $rows:ident) => {{
        // No answer looks like this.
        let mut code = [u64::MAX; 4];
        let Rows { activities, machines, starts, ends, setups } = $rows;
        // SAFETY: every pointer comes with the length of its slice, all are borrowed for the call, and those that are
        // written are borrowed by it alone.
        unsafe {
            raw::$call(
                $plan.as_ptr(),
                $plan.len(),
                $($argument,)*
                activities.as_mut_ptr(),
                activities.len(),
                machines.as_mut_ptr(),
                machines.len(),
                starts.as_mut_ptr(),
                starts.len(),
                ends.as_mut_ptr(),
                ends.len(),
                setups.as_mut_ptr(),
                setups.len(),
                &mut code,
            );
        }
        Answer::of(code, activities.len().min(machines.len()).min(starts.len()).min(ends.len()).min(setups.len()))
    }};
}

/// Times lines: machine m's line is the first `lens[m]` cells from cell 128 m on.
pub fn time(plan: &[u8], cells: &[usize], lens: &[usize; MACHINES], rows: Rows<'_>) -> Answer {
    answer_of!(lavkkesto_time(plan, cells.as_ptr(), cells.len(), lens) into rows)
}

/// Times the lines that the plan's own Order and Assignment give.
pub fn time_order(plan: &[u8], rows: Rows<'_>) -> Answer {
    answer_of!(lavkkesto_time_order(plan) into rows)
}

/// The sheet of the decoder that places in order.
pub fn in_order(plan: &[u8], rows: Rows<'_>) -> Answer {
    answer_of!(lavkkesto_in_order(plan) into rows)
}

/// The sheet of the active decoder.
pub fn active(plan: &[u8], rows: Rows<'_>) -> Answer {
    answer_of!(lavkkesto_active(plan) into rows)
}

/// The better of the two sheets, which is the one shown.
pub fn decode(plan: &[u8], rows: Rows<'_>) -> Answer {
    answer_of!(lavkkesto_decode(plan) into rows)
}

/// Checks a sheet: rows of activity, machine, start and end, one after the other.
pub fn check(plan: &[u8], rows: &[i64]) -> Checked {
    let mut code = [u64::MAX; 3];
    // SAFETY: as above.
    unsafe { raw::lavkkesto_check(plan.as_ptr(), plan.len(), rows.as_ptr(), rows.len(), &mut code) };
    Checked::of(code)
}

/// Improves. The cells are work space; at 14 the first n places of tasks and machines hold what was found.
pub fn improve(plan: &[u8], cells: &mut [usize], tasks: &mut [usize], machines: &mut [usize]) -> Ended {
    let mut code = [u64::MAX; 3];
    // SAFETY: as above.
    unsafe {
        raw::lavkkesto_improve(
            plan.as_ptr(),
            plan.len(),
            cells.as_mut_ptr(),
            cells.len(),
            tasks.as_mut_ptr(),
            tasks.len(),
            machines.as_mut_ptr(),
            machines.len(),
            &mut code,
        );
    }
    Ended::of(code)
}

/// Shows one step of the search on lines, which are given as to `time`: nothing is moved.
pub fn look(plan: &[u8], cells: &[usize], lens: &[usize; MACHINES], views: Views<'_>) -> Looked {
    let Views { path, moves, kept, ranks } = views;
    let mut code = [u64::MAX; 7];
    // SAFETY: as above.
    unsafe {
        raw::lavkkesto_look(
            plan.as_ptr(),
            plan.len(),
            cells.as_ptr(),
            cells.len(),
            lens,
            path.as_mut_ptr(),
            path.len(),
            moves.as_mut_ptr(),
            moves.len(),
            kept.as_mut_ptr(),
            kept.len(),
            ranks.as_mut_ptr(),
            ranks.len(),
            &mut code,
        );
    }
    Looked::of(code, [path.len(), moves.len() / ROW, (kept.len() / ROW).min(ranks.len() / RANK)])
}

/// For measuring: takes the plan in once and times the lines so often; the makespan, 0 where there is none.
pub fn time_again(plan: &[u8], cells: &[usize], lens: &[usize; MACHINES], times: usize) -> u64 {
    // SAFETY: as above; nothing is written.
    unsafe { raw::lavkkesto_time_again(plan.as_ptr(), plan.len(), cells.as_ptr(), cells.len(), lens, times) }
}

#[cfg(test)]
mod tests {
    use super::*;

    fn refused(number: u32, place: usize) -> Refused {
        Refused { number, place }
    }

    #[test]
    fn numbers_become_answers() {
        assert_eq!(Answer::of([0, 0, 128, 7], 128), Answer::Rows { count: 128, fitness: 7 });
        assert_eq!(Answer::of([8, 0, 0, 0], 0), Answer::Refused(refused(8, 0)));
        assert_eq!(Checked::of([0, 0, 0]), Checked::Accepted);
        assert_eq!(Checked::of([0, 9, 3]), Checked::Bad { rule: 9, row: 3 });
        assert_eq!(Checked::of([0, 10, 3]), Checked::Missing { activity: 3 });
        assert_eq!(Checked::of([2, 0, 44]), Checked::Refused(refused(2, 44)));
        assert_eq!(Ended::of([12, 0, 0]), Ended::Outcome { number: 12, fitness: None });
        assert_eq!(Ended::of([14, 0, 0]), Ended::Outcome { number: 14, fitness: Some(0) });
        assert_eq!(Ended::of([6, 0, 0]), Ended::Refused(refused(6, 0)));
        let seen = Looked::Seen { path: 128, moves: 254, blocks: 3, others: 2, fitness: 7 };
        assert_eq!(Looked::of([0, 0, 128, 254, 3, 2, 7], [128, 254, 5]), seen);
        assert_eq!(Looked::of([7, 0, 0, 0, 0, 0, 0], [0; 3]), Looked::Refused(refused(7, 0)));
    }

    #[test]
    fn other_numbers_are_no_answers() {
        for told in [[0, 0, 129, 7], [0, 1, 0, 0], [9, 0, 0, 0], [1, 0, 1, 0], [1, 0, 0, 1], [u64::MAX; 4]] {
            assert_eq!(Answer::of(told, 128), Answer::Unknown(told));
        }
        for told in [[0, 0, 1], [0, 11, 0], [1, 1, 0], [9, 0, 0], [u64::MAX; 3]] {
            assert_eq!(Checked::of(told), Checked::Unknown(told));
        }
        for told in [[0, 0, 0], [7, 0, 0], [10, 1, 0], [11, 0, 1], [14, 1, 0], [15, 0, 0], [u64::MAX; 3]] {
            assert_eq!(Ended::of(told), Ended::Unknown(told));
        }
        let room = [128, 256, 21];
        let too_many = [[0, 0, 129, 0, 0, 0, 7], [0, 0, 1, 257, 0, 0, 7], [0, 0, 1, 1, 11, 11, 7]];
        let mixed = [[0, 1, 1, 0, 0, 0, 7], [9, 0, 0, 0, 0, 0, 0], [1, 0, 0, 0, 0, 1, 0], [1, 0, 0, 0, 0, 0, 1]];
        for told in too_many.into_iter().chain(mixed).chain([[u64::MAX; 7], [0, 0, 1, 1, 1, u64::MAX, 7]]) {
            assert_eq!(Looked::of(told, room), Looked::Unknown(told));
        }
    }
}
