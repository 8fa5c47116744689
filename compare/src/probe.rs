//! Compiled as a child of the text's `local_search`, so that it sees the private items of that module and of `problem`.
//! It calls them; what it computes itself is said at each place.

use super::*;
use crate::answers::{Improved, Made, Moved, Row, Sheet, Step, Tried};
use crate::published::Decoder;

impl SchedulingGaProblem {
    /// The lines that the genes' order gives; none where it leaves an activity out or one has no machine.
    pub(crate) fn lines(&self, genes: &ScheduleChromosome) -> Option<Vec<Vec<usize>>> {
        let ix = self.indexed(genes);
        let mut lines = vec![Vec::new(); self.resources.len()];
        if ix.order.len() < self.activities.len() || ix.resource.contains(&None) {
            return None;
        }
        for a in ix.order {
            lines[ix.resource[a]?].push(a);
        }
        Some(lines)
    }

    pub(crate) fn placed_by(&self, genes: &ScheduleChromosome, decoder: Decoder) -> Sheet {
        let (view, ix) = (self.view(), self.indexed(genes));
        let (placed, fitness) = match decoder {
            Decoder::Better => self.better_placement(&view, &ix),
            Decoder::InOrder => self.with_fitness(&view, self.place_in_order(&view, &ix)),
            Decoder::Active => self.with_fitness(&view, self.place_active(&view, &ix)),
        };
        sheet(&ix, &placed, fitness)
    }

    fn with_fitness(&self, view: &TaskView<'_>, placed: Placed) -> (Placed, f64) {
        let fitness = self.fitness_of(view, &placed);
        (placed, fitness)
    }

    pub(crate) fn timed(&self, genes: &ScheduleChromosome, lines: &[Vec<usize>]) -> Option<Sheet> {
        let bench = Bench::new(self, genes, lines)?;
        Some(sheet(&bench.ix, &bench.placed, bench.fitness))
    }

    /// Times the same lines so often, as `improve` times its moves: tables and scratch are made once. The greatest end
    /// of the last timing, 0 without one; none where the lines contradict.
    pub(crate) fn timed_again(&self, genes: &ScheduleChromosome, lines: &[Vec<usize>], times: usize) -> Option<i64> {
        let mut bench = Bench::new(self, genes, lines)?;
        let Bench { view, links, ix, seq, scratch, .. } = &mut bench;
        for _ in 0..times {
            self.time_sequences(view, ix, std::hint::black_box(seq), links, std::hint::black_box(scratch));
        }
        Some(scratch.placed.order.iter().map(|&a| scratch.placed.end[a]).max().unwrap_or(0))
    }

    pub(crate) fn improve_genes(&self, genes: &mut ScheduleChromosome) {
        self.improve(genes);
    }

    pub(crate) fn looked_at(&self, genes: &ScheduleChromosome, lines: &[Vec<usize>]) -> Option<Step> {
        let mut bench = Bench::new(self, genes, lines)?;
        let (path, blocks, kept, others) = bench.moves();
        Some(Step {
            fitness: bench.fitness.to_bits(),
            blocks: blocks.into_iter().map(moved).collect(),
            kept: kept.into_iter().map(|m| bench.tried(m)).collect(),
            reassignments: others.into_iter().map(|m| bench.tried(m)).collect(),
            path,
        })
    }

    /// The estimate of each block move, kept or not.
    pub(crate) fn estimates(&self, genes: &ScheduleChromosome, lines: &[Vec<usize>]) -> Option<Vec<i64>> {
        let bench = Bench::new(self, genes, lines)?;
        Some(bench.moves().1.into_iter().map(|m| bench.estimate(m)).collect())
    }

    /// The search of document 01 around the text's own functions. None where the lines contradict.
    pub(crate) fn replayed(&self, genes: &ScheduleChromosome, lines: &[Vec<usize>]) -> Option<(Improved, Vec<Made>)> {
        let mut bench = Bench::new(self, genes, lines)?;
        let mut made = Vec::new();
        let mut best = bench.fitness;
        let mut saved = None;
        // (listed until, what is listed)
        let mut pairs: Vec<(usize, [usize; 2])> = Vec::new();
        let mut left: Vec<(usize, (usize, usize))> = Vec::new();
        for step in 0..self.local_search_steps {
            let (_, _, kept, others) = bench.moves();
            let mut chosen: Option<(f64, Move)> = None;
            for m in kept.into_iter().chain(others) {
                let forbidden = match m {
                    Move::Reassign { activity, to, .. } => {
                        left.iter().any(|&(until, listed)| until > step && listed == (activity, to))
                    }
                    _ => pairs.iter().any(|&(until, listed)| until > step && listed == sorted_pair(m, &bench.seq)),
                };
                let Some(fitness) = bench.try_out(m) else { continue };
                let counts = !forbidden || fitness < best;
                if counts && !chosen.is_some_and(|(least, _)| least <= fitness) {
                    chosen = Some((fitness, m));
                }
            }
            let Some((_, m)) = chosen else { break };
            match m {
                Move::Reassign { activity, from, .. } => left.push((step + TABOO_STEPS, (activity, from))),
                _ => pairs.push((step + TABOO_STEPS, sorted_pair(m, &bench.seq))),
            }
            self.apply(&mut bench.ix, &mut bench.seq, m, false);
            if !bench.time() {
                break; // a chosen move was timed before
            }
            made.push(Made { moved: moved(m), fitness: bench.fitness.to_bits() });
            if bench.fitness < best {
                best = bench.fitness;
                let order = bench.placed.order.iter().map(|&a| self.task_of[a]).collect();
                saved = Some((order, bench.ix.resource.iter().copied().flatten().collect()));
            }
        }
        let outcome = if saved.is_some() { 14 } else { 13 };
        Some((Improved { outcome, fitness: Some(best.to_bits()), genes: saved }, made))
    }

    /// Where the text keeps other moves, or puts a reassignment elsewhere, than the ranks computed here say.
    pub(crate) fn differences_of_ranks(&self, genes: &ScheduleChromosome, lines: &[Vec<usize>]) -> Vec<String> {
        let Some(bench) = Bench::new(self, genes, lines) else { return Vec::new() };
        let (_, mut blocks, kept, others) = bench.moves();
        let mut found = Vec::new();
        if blocks.len() > TIMED_SWAPS {
            blocks.sort_by_key(|&m| bench.estimate(m));
            blocks.truncate(TIMED_SWAPS);
        }
        if blocks != kept {
            found.push(format!("kept {kept:?}, by estimate {blocks:?}"));
        }
        if !others.is_sorted_by_key(|&m| bench.length_and_time(m)) {
            found.push(format!("reassignments {others:?} are not sorted by length and time"));
        }
        for m in others {
            if !bench.stands_best(m) {
                found.push(format!("{m:?} is not at its least length"));
            }
        }
        found
    }
}

fn sorted_pair(m: Move, seq: &[Vec<usize>]) -> [usize; 2] {
    let (one, other) = m.pair(seq).unwrap_or_default();
    [one.min(other), one.max(other)]
}

fn moved(m: Move) -> Moved {
    match m {
        Move::Swap(machine, at) => Moved::Swap { machine, at },
        Move::Shift { resource, from, to } => Moved::Shift { machine: resource, from, to },
        Move::Reassign { activity, from, at, to, pos } => Moved::Reassign { activity, from, at, to, pos },
    }
}

fn sheet(ix: &Indexed, placed: &Placed, fitness: f64) -> Sheet {
    let row = |&a: &usize| {
        let (start, end, setup) = (placed.start[a], placed.end[a], placed.setup[a]);
        Some(Row { activity: a, machine: ix.resource[a]?, start, end, setup })
    };
    Sheet { fitness: fitness.to_bits(), rows: placed.order.iter().filter_map(row).collect() }
}

/// Lines that do not contradict, with their timing.
struct Bench<'a> {
    problem: &'a SchedulingGaProblem,
    view: TaskView<'a>,
    links: Links,
    ix: Indexed,
    seq: Vec<Vec<usize>>,
    scratch: Scratch,
    placed: Placed,
    fitness: f64,
}

impl<'a> Bench<'a> {
    fn new(problem: &'a SchedulingGaProblem, genes: &ScheduleChromosome, lines: &[Vec<usize>]) -> Option<Self> {
        let n = problem.activities.len();
        let mut bench = Self {
            problem,
            view: problem.view(),
            links: links(problem),
            ix: problem.indexed(genes),
            seq: lines.to_vec(),
            scratch: Scratch::new(n),
            placed: Placed::new(n),
            fitness: 0.0,
        };
        bench.time().then_some(bench)
    }

    /// Times the lines into `scratch` alone: their fitness, none where they contradict.
    fn timed(&mut self) -> Option<f64> {
        let Self { problem, view, links, ix, seq, scratch, .. } = self;
        let timed = problem.time_sequences(view, ix, seq, links, scratch);
        timed.then(|| problem.fitness_of(view, &scratch.placed))
    }

    /// Times the lines for good.
    fn time(&mut self) -> bool {
        let Some(fitness) = self.timed() else { return false };
        self.fitness = fitness;
        std::mem::swap(&mut self.placed, &mut self.scratch.placed);
        true
    }

    fn try_out(&mut self, m: Move) -> Option<f64> {
        self.problem.apply(&mut self.ix, &mut self.seq, m, false);
        let fitness = self.timed();
        self.problem.apply(&mut self.ix, &mut self.seq, m, true);
        fitness
    }

    /// The path, the block moves, those kept, and the reassignments if any activity has two candidates.
    fn moves(&self) -> (Vec<usize>, Vec<Move>, Vec<Move>, Vec<Move>) {
        let Self { problem, view, links, ix, seq, placed, .. } = self;
        let path = problem.critical_path(view, ix, seq, placed, links);
        let blocks = SchedulingGaProblem::block_moves(ix, seq, &path);
        let mut kept = blocks.clone();
        problem.keep_best_estimated(view, seq, placed, links, &mut kept);
        let choice = problem.activities.iter().any(|a| a.candidates.len() >= 2);
        let others = match choice {
            true => problem.reassignments(view, ix, seq, placed, links, &path),
            false => Vec::new(),
        };
        (path, blocks, kept, others)
    }

    fn tried(&mut self, m: Move) -> Tried {
        let rank = match m {
            Move::Reassign { .. } => <[i64; 2]>::from(self.length_and_time(m)).to_vec(),
            _ => vec![self.estimate(m)],
        };
        Tried { moved: moved(m), rank, fitness: self.try_out(m).map(f64::to_bits) }
    }

    // The text returns its moves without the numbers it ranks them by. The three functions below compute these from
    // document 01's words; `differences_of_ranks` holds them against the text's choice.

    /// Old span plus old tail.
    fn rest(&self, tails: &[i64], a: Option<usize>) -> i64 {
        a.map_or(0, |a| self.placed.end[a] - self.placed.start[a] + tails[a])
    }

    fn old_end(&self, a: Option<usize>) -> i64 {
        a.map_or(0, |a| self.placed.end[a])
    }

    /// The estimate of a block move: the greatest head + span + tail over its stretch.
    fn estimate(&self, m: Move) -> i64 {
        let tails = SchedulingGaProblem::tails(&self.seq, &self.placed, &self.links);
        let (machine, low, high, stretch) = m.stretch(&self.seq);
        let line = &self.seq[machine];
        let span = |a: usize| self.placed.end[a] - self.placed.start[a];
        let mut free = self.old_end(low.checked_sub(1).map(|k| line[k]));
        let mut through = Vec::new();
        for &a in &stretch {
            let arrived = self.old_end(self.links.task_pred[a]);
            free = span(a) + free.max(arrived).max(self.problem.release_of(&self.view, a));
            through.push(free);
        }
        let mut behind = self.rest(&tails, line.get(high + 1).copied());
        for (k, &a) in stretch.iter().enumerate().rev() {
            let tail = behind.max(self.rest(&tails, self.links.task_succ[a]));
            through[k] += tail;
            behind = span(a) + tail;
        }
        through.into_iter().max().unwrap_or(0)
    }

    /// The length of a reassignment at its position, and the activity's time there.
    fn length_and_time(&self, m: Move) -> (i64, i64) {
        let Move::Reassign { activity: a, to, pos, .. } = m else { return (0, 0) };
        let tails = SchedulingGaProblem::tails(&self.seq, &self.placed, &self.links);
        let named = &self.problem.predecessors[a];
        let mut head = self.problem.release_of(&self.view, a).max(self.old_end(self.links.task_pred[a]));
        let mut tail = self.rest(&tails, self.links.task_succ[a]);
        head = named.iter().fold(head, |head, &p| head.max(self.placed.end[p]));
        tail = self.links.waiting_on[a].iter().fold(tail, |tail, &w| tail.max(self.rest(&tails, Some(w))));
        let line = &self.seq[to];
        head = head.max(self.old_end(pos.checked_sub(1).map(|k| line[k])));
        tail = tail.max(self.rest(&tails, line.get(pos).copied()));
        let time = self.problem.duration_on(a, &self.problem.resources[to].id).total_ms();
        (head + time + tail, time)
    }

    /// Whether a reassignment stands at the least position of the least length among those it may take.
    fn stands_best(&self, m: Move) -> bool {
        let Move::Reassign { activity: a, from, at, to, pos } = m else { return true };
        let Placed { start, end, .. } = &self.placed;
        let line = &self.seq[to];
        let leading = |holds: &dyn Fn(usize) -> bool| line.iter().position(|&x| !holds(x)).unwrap_or(line.len());
        let (first, last) = (leading(&|x| end[x] <= start[a]), leading(&|x| start[x] < end[a]));
        let at_pos = |pos| self.length_and_time(Move::Reassign { activity: a, from, at, to, pos }).0;
        (first..=last).min_by_key(|&p| (at_pos(p), p)) == Some(pos)
    }
}

/// Neighbours in the task, and those that name an activity, by rising number, once per naming.
fn links(problem: &SchedulingGaProblem) -> Links {
    let n = problem.activities.len();
    let in_one_task = |a: usize, b: usize| b < n && problem.task_of[a] == problem.task_of[b];
    let namings = |p: usize| {
        let times = move |a: usize| problem.predecessors[a].iter().filter(move |&&named| named == p).map(move |_| a);
        (0..n).flat_map(times).collect()
    };
    Links {
        task_pred: (0..n).map(|a| a.checked_sub(1).filter(|&before| in_one_task(before, a))).collect(),
        task_succ: (0..n).map(|a| Some(a + 1).filter(|&after| in_one_task(a, after))).collect(),
        waiting_on: (0..n).map(namings).collect(),
    }
}
