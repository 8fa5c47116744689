//! The library's calls made of this package's Rust, with one fault or none, so that the checks' tests can show that they
//! find it.

use crate::answers::{Sheet, Step};
use crate::decoding;
use crate::lent::{shown, written, TOO_SHORT};
use crate::plan::Plan;
use crate::proved::{Answer, Buffers, Calls, Checked, Ended, Genes, Given, Looked, Views, CELLS, MOVE_CELLS, PLACES};
use crate::published::{Decoder, Published};
use crate::read::{read, Refused};
use crate::tally::Tally;
use crate::{sheet, timing};

/// What is wrong with an imitation.
#[derive(Clone, Copy, Debug, PartialEq, Eq)]
pub enum Fault {
    Nothing,
    /// Transports, setups or predecessors are not seen.
    NoTransports,
    NoSetups,
    NoPredecessors,
    /// The setups may have one place less.
    ShortSetups,
    /// One place is written behind the rows, or by a refusal.
    PlaceBehind,
    PlaceRefused,
    /// The answer has one row too many; its fitness is a little off; it depends on what a buffer held before.
    OneRowMore,
    LastBit,
    SeesBuffers,
    /// A refusal's place is off; bytes behind the input are not seen.
    PlaceOff,
    NoStray,
    /// The active sheet is shown where it is as good, or never.
    ActiveOnTies,
    AlwaysInOrder,
    /// The sheet check is content where this rule is broken; it counts rows from 1.
    NoRule(u64),
    RowsFromOne,
    /// Improve makes a step less, says 13 for 14, gives the fitness it began with, writes with 13, leaves the last machine
    /// out.
    StepLess,
    NotImproved,
    FirstFitness,
    WritesAt13,
    LastMachineLeft,
    /// Improve is content with one place less.
    ShortTasks,
    ShortMachines,
    ShortCells,
    /// A step shown has its path backwards, a swap twice, three moves sorted, a kept move too few, a reassignment's time
    /// before its length, one move less counted; it is content with one cell or place less.
    PathBackwards,
    SwapTwice,
    ThreeSorted,
    OneKeptLess,
    TimeFirst,
    OneMoveLess,
    ShortPath,
    ShortMoves,
    ShortKept,
    ShortRanks,
}

pub struct Imitation(pub Fault);

impl Imitation {
    fn is(&self, fault: Fault) -> bool {
        self.0 == fault
    }

    /// The plan as the imitation sees it.
    fn read(&self, input: &[u8]) -> Result<Plan, Refused> {
        let mut plan = match read(input) {
            Err(Refused { number: 5, place }) if self.is(Fault::NoStray) => read(&input[..place]),
            Err(Refused { number, place }) if self.is(Fault::PlaceOff) => Err(Refused { number, place: place + 1 }),
            read => read,
        }?;
        match self.0 {
            Fault::NoTransports => plan.transports.iter_mut().for_each(|row| row.fill(0)),
            Fault::NoSetups => plan.setups.clear(),
            Fault::NoPredecessors => plan.predecessors.clear(),
            _ => {}
        }
        Ok(plan)
    }

    fn room(&self, rows: &Buffers) -> Result<(), Refused> {
        let Buffers { activities, machines, starts, ends, setups } = rows;
        let enough = PLACES - usize::from(self.is(Fault::ShortSetups));
        let lengths = [activities.len(), machines.len(), starts.len(), ends.len()];
        match lengths.iter().all(|&length| length >= PLACES) && setups.len() >= enough {
            true => Ok(()),
            false => Err(TOO_SHORT),
        }
    }

    fn write(&self, due: Result<Sheet, Refused>, rows: &mut Buffers) -> Answer {
        let odd = rows.starts.first().is_some_and(|first| first % 2 == 1);
        let setups = rows.setups.len();
        rows.setups.resize(setups.max(PLACES), 0);
        *rows = written(rows.clone(), &due);
        rows.setups.truncate(setups);
        match due {
            Ok(sheet) => {
                let mut count = sheet.rows.len();
                if self.is(Fault::PlaceBehind) {
                    rows.ends.get_mut(count).into_iter().for_each(|place| *place = 0);
                }
                count += usize::from(self.is(Fault::OneRowMore));
                let off = self.is(Fault::LastBit) || self.is(Fault::SeesBuffers) && odd;
                Answer::Rows { count, fitness: sheet.fitness ^ u64::from(off) }
            }
            Err(refused) => {
                if self.is(Fault::PlaceRefused) {
                    rows.machines.first_mut().into_iter().for_each(|place| *place ^= 1);
                }
                Answer::Refused(refused)
            }
        }
    }
}

impl Calls for Imitation {
    fn time(&self, input: &[u8], lines: &Given, rows: &mut Buffers) -> Answer {
        let due = || {
            self.room(rows)?;
            if lines.cells.len() < CELLS {
                return Err(TOO_SHORT);
            }
            let plan = self.read(input)?;
            timing::time(&plan, &timing::lines_given(&plan, lines)?)
        };
        self.write(due(), rows)
    }

    fn time_order(&self, input: &[u8], rows: &mut Buffers) -> Answer {
        let due = || {
            self.room(rows)?;
            let plan = self.read(input)?;
            timing::time(&plan, &timing::lines_of_order(&plan)?)
        };
        self.write(due(), rows)
    }

    fn time_again(&self, input: &[u8], lines: &Given, times: usize) -> u64 {
        if lines.cells.len() < CELLS || times == 0 {
            return 0;
        }
        let plan = self.read(input);
        let sheet = plan.and_then(|plan| timing::time(&plan, &timing::lines_given(&plan, lines)?));
        sheet.map_or(0, |sheet| sheet.rows.iter().map(|row| row.end as u64).max().unwrap_or(0))
    }

    fn decode(&self, decoder: Decoder, input: &[u8], rows: &mut Buffers) -> Answer {
        let due = || {
            self.room(rows)?;
            let plan = self.read(input)?;
            let [in_order, active] = [Decoder::InOrder, Decoder::Active].map(|by| decoding::decode(&plan, by));
            let no_worse = f64::from_bits(active.fitness) <= f64::from_bits(in_order.fitness);
            Ok(match (decoder, self.0) {
                (Decoder::InOrder, _) | (Decoder::Better, Fault::AlwaysInOrder) => in_order,
                (Decoder::Active, _) => active,
                (Decoder::Better, Fault::ActiveOnTies) if no_worse => active,
                (Decoder::Better, _) => decoding::decode(&plan, decoder),
            })
        };
        self.write(due(), rows)
    }

    fn check(&self, input: &[u8], rows: &[i64]) -> Checked {
        let due = self.read(input).map_or_else(Checked::Refused, |plan| sheet::check(&plan, rows));
        match due {
            Checked::Bad { rule, .. } if self.is(Fault::NoRule(rule)) => Checked::Accepted,
            Checked::Bad { rule, row } if self.is(Fault::RowsFromOne) => Checked::Bad { rule, row: row + 1 },
            Checked::Missing { .. } if self.is(Fault::NoRule(10)) => Checked::Accepted,
            _ => due,
        }
    }

    fn improve(&self, input: &[u8], cells: &mut [usize], genes: &mut Genes) -> Ended {
        let odd = cells.first().is_some_and(|first| first % 2 == 1);
        cells.fill(7);
        let least = |fault: Fault, least: usize| least - usize::from(self.is(fault));
        let short = genes.tasks.len() < least(Fault::ShortTasks, PLACES)
            || genes.machines.len() < least(Fault::ShortMachines, PLACES)
            || cells.len() < least(Fault::ShortCells, CELLS);
        let read = if short { Err(TOO_SHORT) } else { self.read(input) };
        let mut plan = match read {
            Ok(plan) => plan,
            Err(refused) => {
                if self.is(Fault::PlaceRefused) {
                    genes.tasks.first_mut().into_iter().for_each(|place| *place ^= 1);
                }
                return Ended::Refused(refused);
            }
        };
        if self.is(Fault::StepLess) {
            plan.steps = plan.steps.saturating_sub(1);
        }
        let mut published = Published::new(&plan);
        let before = published.lines().and_then(|lines| published.time(&lines)).map(|sheet| sheet.fitness);
        let improved = published.improve();
        let number = u64::from(improved.outcome) - u64::from(self.is(Fault::NotImproved) && improved.outcome == 14);
        if let Some((order, assignment)) = improved.genes {
            let n = order.len() - usize::from(self.is(Fault::LastMachineLeft));
            genes.tasks[..order.len()].copy_from_slice(&order);
            genes.machines[..n].copy_from_slice(&assignment[..n]);
            if self.is(Fault::PlaceBehind) {
                genes.machines.get_mut(order.len()).into_iter().for_each(|place| *place ^= 1);
            }
        } else if self.is(Fault::WritesAt13) && number == 13 {
            genes.machines[0] ^= 1;
        }
        let off = self.is(Fault::LastBit) || self.is(Fault::SeesBuffers) && odd;
        let fitness = if self.is(Fault::FirstFitness) { before } else { improved.fitness };
        let fitness = fitness.map(|bits| bits ^ u64::from(off));
        Ended::Outcome { number, fitness: fitness.filter(|_| number >= 13) }
    }

    fn look(&self, input: &[u8], lines: &Given, views: &mut Views) -> Looked {
        let odd = views.path.first().is_some_and(|first| first % 2 == 1);
        let due = self.step_of(input, lines, views).map(|step| self.spoilt(step));
        *views = shown(views.clone(), &due);
        match due {
            Ok(step) => {
                if self.is(Fault::PlaceBehind) {
                    views.ranks.last_mut().into_iter().for_each(|place| *place ^= 1);
                }
                let off = self.is(Fault::LastBit) || self.is(Fault::SeesBuffers) && odd;
                Looked::Seen {
                    path: step.path.len(),
                    moves: step.blocks.len().saturating_sub(usize::from(self.is(Fault::OneMoveLess))),
                    blocks: step.kept.len(),
                    others: step.reassignments.len(),
                    fitness: step.fitness ^ u64::from(off),
                }
            }
            Err(refused) => {
                if self.is(Fault::PlaceRefused) {
                    views.moves.first_mut().into_iter().for_each(|place| *place ^= 1);
                }
                Looked::Refused(refused)
            }
        }
    }
}

impl Imitation {
    fn step_of(&self, input: &[u8], lines: &Given, views: &Views) -> Result<Step, Refused> {
        let least = |fault: Fault, least: usize| least - usize::from(self.is(fault));
        let short = lines.cells.len() < least(Fault::ShortCells, CELLS)
            || views.path.len() < least(Fault::ShortPath, PLACES)
            || views.moves.len() < least(Fault::ShortMoves, MOVE_CELLS)
            || views.kept.len() < least(Fault::ShortKept, PLACES)
            || views.ranks.len() < least(Fault::ShortRanks, PLACES);
        if short {
            return Err(TOO_SHORT);
        }
        let plan = self.read(input)?;
        let lines = timing::lines_given(&plan, &Given { cells: [&lines.cells[..], &[0]].concat(), ..*lines })?;
        let step = Published::new(&plan).with_lines(&lines).step(&lines);
        step.ok_or(Refused { number: 8, place: 0 })
    }

    /// The step with what is wrong in it.
    fn spoilt(&self, mut step: Step) -> Step {
        let few = step.blocks.len() <= 3;
        match self.0 {
            Fault::PathBackwards => step.path.reverse(),
            Fault::SwapTwice => step.blocks.extend(step.blocks.first().copied()),
            Fault::ThreeSorted if few => step.kept.sort_by_key(|tried| tried.rank[0]),
            Fault::OneKeptLess => drop(step.kept.pop()),
            Fault::TimeFirst => step.reassignments.iter_mut().for_each(|tried| tried.rank.reverse()),
            _ => {}
        }
        step
    }
}

/// A check, which gives its tallies, finds each of these faults, and nothing where there is none.
#[track_caller]
pub fn finds(check: impl Fn(&Imitation) -> Vec<(&'static str, Tally)>, faults: &[Fault]) {
    let differences = |fault| check(&Imitation(fault)).into_iter().flat_map(|(_, tally)| tally.differences).next();
    let none = differences(Fault::Nothing);
    assert!(none.is_none(), "without a fault: {}", none.map_or(String::new(), |difference| difference.what));
    for &fault in faults {
        assert!(differences(fault).is_some(), "{fault:?} is not found");
    }
}
