//! What a run answers, as plain numbers, and how it is printed.

use std::fmt::{self, Display, Formatter};

/// A placed activity.
#[derive(Clone, Copy, Debug, PartialEq, Eq)]
pub struct Row {
    pub activity: usize,
    pub machine: usize,
    pub start: i64,
    pub end: i64,
    pub setup: i64,
}

impl Display for Row {
    fn fmt(&self, f: &mut Formatter<'_>) -> fmt::Result {
        write!(f, "{} {} {} {} {}", self.activity, self.machine, self.start, self.end, self.setup)
    }
}

/// Fitness bits and rows in placing order, or in timing order.
#[derive(Clone, Debug, PartialEq, Eq)]
pub struct Sheet {
    pub fitness: u64,
    pub rows: Vec<Row>,
}

impl Display for Sheet {
    fn fmt(&self, f: &mut Formatter<'_>) -> fmt::Result {
        writeln!(f, "fitness {:016x}", self.fitness)?;
        self.rows.iter().try_for_each(|row| writeln!(f, "{row}"))
    }
}

/// How `improve` ended.
#[derive(Clone, Debug, PartialEq, Eq)]
pub struct Improved {
    /// 10..=14
    pub outcome: u32,
    /// The bits of the best line fitness, for 13 and 14.
    pub fitness: Option<u64>,
    /// For 14, n task numbers and n machines.
    pub genes: Option<(Vec<usize>, Vec<usize>)>,
}

impl Display for Improved {
    fn fmt(&self, f: &mut Formatter<'_>) -> fmt::Result {
        writeln!(f, "outcome {}", self.outcome)?;
        if let Some(fitness) = self.fitness {
            writeln!(f, "fitness {fitness:016x}")?;
        }
        if let Some((order, assignment)) = &self.genes {
            writeln!(f, "order{}", Spaced(order))?;
            writeln!(f, "assignment{}", Spaced(assignment))?;
        }
        Ok(())
    }
}

/// A move of the search, in numbers.
#[derive(Clone, Copy, Debug, PartialEq, Eq)]
pub enum Moved {
    Swap { machine: usize, at: usize },
    Shift { machine: usize, from: usize, to: usize },
    Reassign { activity: usize, from: usize, at: usize, to: usize, pos: usize },
}

impl Moved {
    /// The lines once the move is made.
    pub fn applied(self, mut lines: Vec<Vec<usize>>) -> Vec<Vec<usize>> {
        match self {
            Moved::Swap { machine, at } => lines[machine].swap(at, at + 1),
            Moved::Shift { machine, from, to } => {
                let moved = lines[machine].remove(from);
                lines[machine].insert(to, moved);
            }
            Moved::Reassign { activity, from, at, to, pos } => {
                lines[from].remove(at);
                lines[to].insert(pos, activity);
            }
        }
        lines
    }

    /// The move as a row: its kind, then its own numbers, then 0 for each that it has not.
    pub fn row(self) -> [usize; 6] {
        match self {
            Moved::Swap { machine, at } => [0, machine, at, 0, 0, 0],
            Moved::Shift { machine, from, to } => [1, machine, from, to, 0, 0],
            Moved::Reassign { activity, from, at, to, pos } => [2, activity, from, at, to, pos],
        }
    }
}

impl Display for Moved {
    fn fmt(&self, f: &mut Formatter<'_>) -> fmt::Result {
        match *self {
            Moved::Swap { machine, at } => write!(f, "swap {machine} {at}"),
            Moved::Shift { machine, from, to } => write!(f, "shift {machine} {from} {to}"),
            Moved::Reassign { activity, from, at, to, pos } => {
                write!(f, "reassign {activity} {from} {at} {to} {pos}")
            }
        }
    }
}

/// A kept move with its rank (a block move's estimate; a reassignment's length and time) and its fitness bits, none
/// where its lines contradict.
#[derive(Clone, Debug, PartialEq, Eq)]
pub struct Tried {
    pub moved: Moved,
    pub rank: Vec<i64>,
    pub fitness: Option<u64>,
}

impl Display for Tried {
    fn fmt(&self, f: &mut Formatter<'_>) -> fmt::Result {
        write!(f, "{} rank{} ", self.moved, Spaced(&self.rank))?;
        match self.fitness {
            Some(bits) => write!(f, "fitness {bits:016x}"),
            None => write!(f, "contradicts"),
        }
    }
}

/// What one step of the search looks at.
#[derive(Clone, Debug, PartialEq, Eq)]
pub struct Step {
    pub fitness: u64,
    pub path: Vec<usize>,
    pub blocks: Vec<Moved>,
    pub kept: Vec<Tried>,
    pub reassignments: Vec<Tried>,
}

impl Display for Step {
    fn fmt(&self, f: &mut Formatter<'_>) -> fmt::Result {
        writeln!(f, "fitness {:016x}", self.fitness)?;
        writeln!(f, "path{}", Spaced(&self.path))?;
        self.blocks.iter().try_for_each(|moved| writeln!(f, "block {moved}"))?;
        self.kept.iter().try_for_each(|tried| writeln!(f, "kept {tried}"))?;
        self.reassignments.iter().try_for_each(|tried| writeln!(f, "other {tried}"))
    }
}

/// A move made by the search and the fitness bits it led to.
#[derive(Clone, Copy, Debug, PartialEq, Eq)]
pub struct Made {
    pub moved: Moved,
    pub fitness: u64,
}

impl Display for Made {
    fn fmt(&self, f: &mut Formatter<'_>) -> fmt::Result {
        write!(f, "made {} fitness {:016x}", self.moved, self.fitness)
    }
}

/// Numbers, each after a blank.
pub struct Spaced<'a, T>(pub &'a [T]);

impl<T: Display> Display for Spaced<'_, T> {
    fn fmt(&self, f: &mut Formatter<'_>) -> fmt::Result {
        self.0.iter().try_for_each(|number| write!(f, " {number}"))
    }
}
