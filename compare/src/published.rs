//! A plan of document 01 as the published text holds it. The text knows strings: task 3 is "t3", activity 3 "a3",
//! machine 3 "m3", category 3 "c3".

use std::collections::{BTreeMap, HashMap};

use crate::answers::{Improved, Made, Sheet, Step};
use crate::bench::clock;
use crate::ga::chromosome::ScheduleChromosome;
use crate::ga::problem::SchedulingGaProblem;
use crate::models::{
    Activity, ActivityDuration, Resource, ResourceRequirement, ResourceTiming, Task, TransitionMatrixCollection,
};
use crate::plan::{Plan, Times};
use crate::Problem;

/// The activities of each of the R machines, in their order there; each activity once.
pub type Lines = Vec<Vec<usize>>;

#[derive(Clone, Copy, Debug, PartialEq, Eq)]
pub enum Decoder {
    Better,
    InOrder,
    Active,
}

/// The text's problem and chromosome for one accepted plan.
pub struct Published {
    problem: SchedulingGaProblem,
    genes: ScheduleChromosome,
}

impl Published {
    pub fn new(plan: &Plan) -> Self {
        let mut problem = SchedulingGaProblem::new(&problem_of(plan)).with_transition_matrices(setups_of(plan));
        problem.tardiness_weight = f64::from_bits(plan.weight);
        problem.local_search_steps = plan.steps as usize;
        // A word of the Order that is no task gives an id that no task has.
        let osv = plan.order.iter().map(|&task| id('t', task)).collect();
        let mav = plan.assignment.iter().map(|&machine| assigned(machine)).collect();
        Self { problem, genes: chromosome(osv, mav) }
    }

    /// The same problem with each activity assigned to the machine whose line holds it.
    pub fn with_lines(mut self, lines: &Lines) -> Self {
        let mut mav = vec![String::new(); self.problem.activities.len()];
        for (machine, line) in lines.iter().enumerate() {
            for &activity in line {
                mav[activity] = id('m', machine);
            }
        }
        self.genes = chromosome(Vec::new(), mav);
        self
    }

    /// The lines of the order; none where an activity has no machine or the order names too few.
    pub fn lines(&self) -> Option<Lines> {
        self.problem.lines(&self.genes)
    }

    /// Lines timed, rows in timing order; none where they contradict.
    pub fn time(&self, lines: &Lines) -> Option<Sheet> {
        self.problem.timed(&self.genes, lines)
    }

    /// Times the same lines so often; the greatest end of the last timing, none where they contradict.
    pub fn time_again(&self, lines: &Lines, times: usize) -> Option<i64> {
        self.problem.timed_again(&self.genes, lines, times)
    }

    pub fn decode(&self, decoder: Decoder) -> Sheet {
        self.problem.placed_by(&self.genes, decoder)
    }

    /// What one step of the search looks at from these lines; none where they contradict.
    pub fn step(&self, lines: &Lines) -> Option<Step> {
        self.problem.looked_at(&self.genes, lines)
    }

    /// The estimate of each block move of `step`, in its order, kept or not; none where the lines contradict.
    pub fn estimates(&self, lines: &Lines) -> Option<Vec<i64>> {
        self.problem.estimates(&self.genes, lines)
    }

    /// Runs the text's `improve` on the genes and says how it ended. `improve` itself returns nothing: 10, 11 and 12
    /// are its three early returns, found by their conditions; 14 is told from 13 by the line fitness of the genes
    /// before and after, since genes are written for a strictly lower one alone.
    pub fn improve(&mut self) -> Improved {
        let ended = |outcome| Improved { outcome, fitness: None, genes: None };
        if self.problem.local_search_steps == 0 {
            return ended(10);
        }
        let Some(lines) = self.lines() else { return ended(11) };
        let Some(before) = self.time(&lines) else { return ended(12) };
        self.problem.improve_genes(&mut self.genes);
        let after = self.lines().and_then(|lines| self.time(&lines));
        match after {
            Some(after) if f64::from_bits(after.fitness) < f64::from_bits(before.fitness) => Improved {
                outcome: 14,
                fitness: Some(after.fitness),
                genes: Some((numbers(&self.genes.osv), numbers(&self.genes.mav))),
            },
            _ => Improved { outcome: 13, fitness: Some(before.fitness), genes: None },
        }
    }

    /// Runs the text's `improve` so often, each time on a copy of the genes; how long it took, copying apart. Two copies
    /// are made at least, so that they count alike in a run with one time and with two.
    pub fn improve_again(&self, times: usize) -> f64 {
        let mut copies = vec![self.genes.clone(); times.max(2)];
        let begun = clock();
        for genes in copies.iter_mut().take(times) {
            self.problem.improve_genes(std::hint::black_box(genes));
        }
        clock() - begun
    }

    /// `improve` once more, step by step through the text's own functions, with the moves made.
    pub fn replay(&self) -> (Improved, Vec<Made>) {
        let ended = |outcome| (Improved { outcome, fitness: None, genes: None }, Vec::new());
        if self.problem.local_search_steps == 0 {
            return ended(10);
        }
        let Some(lines) = self.lines() else { return ended(11) };
        self.problem.replayed(&self.genes, &lines).unwrap_or_else(|| ended(12))
    }

    /// Each place where two ways to the same answer differ: `improve` and its replay, the text's public decoders and
    /// the placements under them, the text's ranking of moves and the ranks printed by `step`. None is expected.
    pub fn differences(plan: &Plan) -> Vec<String> {
        let mut found = Vec::new();
        let mut published = Self::new(plan);
        let (genes, (replayed, _)) = (published.genes.clone(), published.replay());
        found.extend(published.differences_of_decoders());
        if let Some(lines) = published.lines() {
            found.extend(published.problem.differences_of_ranks(&published.genes, &lines));
        }
        let improved = published.improve();
        if improved != replayed {
            found.push(format!("improve gives {improved:?}, its replay {replayed:?}"));
        }
        let changed = (&genes.osv, &genes.mav) != (&published.genes.osv, &published.genes.mav);
        if improved.outcome != 14 && changed {
            found.push(format!("genes changed by outcome {}", improved.outcome));
        }
        found.extend(published.differences_of_decoders());
        found
    }

    fn differences_of_decoders(&self) -> Vec<String> {
        let (problem, genes) = (&self.problem, &self.genes);
        let public = [
            (Decoder::Better, problem.decode(genes)),
            (Decoder::InOrder, problem.decode_semi_active(genes)),
            (Decoder::Active, problem.decode_active(genes)),
        ];
        let differs = public.into_iter().filter(|(decoder, schedule)| {
            let rows = self.decode(*decoder).rows;
            rows.len() != schedule.assignments.len()
                || rows.iter().zip(&schedule.assignments).any(|(row, a)| {
                    (id('a', row.activity), id('m', row.machine), row.start, row.end, row.setup)
                        != (a.activity_id.clone(), a.resource_id.clone(), a.start_ms, a.end_ms, a.setup_ms)
                })
        });
        differs.map(|(decoder, _)| format!("{decoder:?}: the public decoder gives other rows")).collect()
    }
}

/// Why no problem of the published Rust is this plan, or which missing body its answers rest on; empty if neither.
pub fn beyond_the_rust(plan: &Plan) -> Vec<String> {
    let problem = problem_of(plan);
    let mut reasons = Vec::new();
    if let Err(errors) = crate::validation::validate_input(&problem.tasks, &problem.resources) {
        reasons.extend(errors.into_iter().map(|error| format!("not held: {error}")));
    }
    if !machines_can_be_renumbered(plan) {
        reasons.push("not held: candidates in no common machine order".to_string());
    }
    if plan.setups.iter().any(|entry| entry.previous == 8) {
        reasons.push("rests on document 01: a setup with nothing before".to_string());
    }
    if partial_setups(plan) {
        reasons.push("rests on document 01: a setup table that lacks a pair of the tasks' categories".to_string());
    }
    reasons
}

/// Whether some numbering of the machines lists every activity's candidates in machine order.
fn machines_can_be_renumbered(plan: &Plan) -> bool {
    let machines = plan.transports.len();
    let mut before = vec![vec![false; machines]; machines];
    for pair in plan.candidates.windows(2) {
        if pair[0].0 == pair[1].0 {
            before[pair[0].1 as usize][pair[1].1 as usize] = true;
        }
    }
    let mut left: Vec<usize> = (0..machines).collect();
    while let Some(at) = left.iter().position(|&m| left.iter().all(|&other| !before[other][m])) {
        left.remove(at);
    }
    left.is_empty()
}

/// Whether a machine has entries, yet none for some two categories of the plan's tasks.
fn partial_setups(plan: &Plan) -> bool {
    let of_tasks = |category: u32| plan.tasks.iter().any(|task| task.category == category);
    let used: Vec<u32> = (0..8).filter(|&category| of_tasks(category)).collect();
    (0..plan.transports.len() as u32).any(|machine| {
        let entries: Vec<_> = plan.setups.iter().filter(|entry| entry.machine == machine).collect();
        let pairs = entries.iter().filter(|entry| used.contains(&entry.previous) && used.contains(&entry.category));
        !entries.is_empty() && pairs.count() < used.len() * used.len()
    })
}

fn problem_of(plan: &Plan) -> Problem {
    let machines = plan.transports.len();
    let mut first = 0;
    let tasks = plan.tasks.iter().enumerate().map(|(number, task)| {
        let steps = first..first + task.activities as usize;
        first = steps.end;
        let step = |(k, activity)| activity_of(plan, activity, k + 1);
        Task {
            id: id('t', number),
            category: id('c', task.category),
            release_time: Some(i64::from(task.release)),
            deadline: (task.deadline_flag == 1).then_some(i64::from(task.deadline)),
            weight: 1.0,
            activities: steps.enumerate().map(step).collect(),
        }
    });
    let tasks = tasks.collect();
    // A time of 0 is no entry, as where the Rust gives no transport time.
    let transport = |from: usize| -> BTreeMap<String, i64> {
        let to = plan.transports[from].iter().enumerate();
        to.filter(|(_, &time)| time > 0).map(|(to, &time)| (id('m', to), i64::from(time))).collect()
    };
    let resource = |machine| Resource {
        id: id('m', machine),
        capacity: 1,
        companions: Vec::new(),
        transport_ms: transport(machine),
        calendar: None,
    };
    Problem { tasks, resources: (0..machines).map(resource).collect() }
}

fn activity_of(plan: &Plan, activity: usize, sequence: usize) -> Activity {
    let machines = plan.transports.len();
    let times = &plan.times[activity * machines..][..machines];
    let timing = |(machine, times): (usize, &Times)| (id('m', machine), ResourceTiming::Duration(duration(times)));
    let named = |pairs: &[(u32, u32)], letter| -> Vec<String> {
        let own = pairs.iter().filter(|pair| pair.0 as usize == activity);
        own.map(|pair| id(letter, pair.1)).collect()
    };
    let candidates = named(&plan.candidates, 'm');
    Activity {
        id: id('a', activity),
        sequence: sequence as i32,
        duration: duration(&times[0]),
        resource_timings: times.iter().enumerate().map(timing).collect(),
        release_time: Some(i64::from(plan.activities[activity])),
        predecessors: named(&plan.predecessors, 'a'),
        // The Rust reads a requirement without a list as any machine: no candidates, no requirement.
        resource_requirements: match candidates.is_empty() {
            true => Vec::new(),
            false => vec![ResourceRequirement { candidates, usage: 1 }],
        },
        overlap: None,
        split: None,
        calendar: None,
    }
}

fn setups_of(plan: &Plan) -> TransitionMatrixCollection {
    let mut all = TransitionMatrixCollection::new();
    for entry in &plan.setups {
        let previous = if entry.previous == 8 { String::new() } else { id('c', entry.previous) };
        let row = all.entries.entry(id('m', entry.machine)).or_default().entry(previous).or_default();
        row.insert(id('c', entry.category), i64::from(entry.setup));
    }
    all
}

fn duration(times: &Times) -> ActivityDuration {
    ActivityDuration {
        setup_ms: i64::from(times.setup),
        process_ms: i64::from(times.process),
        teardown_ms: i64::from(times.teardown),
    }
}

fn chromosome(osv: Vec<String>, mav: Vec<String>) -> ScheduleChromosome {
    // The map is not read by anything that document 01 takes over.
    ScheduleChromosome { osv, mav, activity_index: HashMap::new(), fitness: f64::INFINITY }
}

fn assigned(machine: i32) -> String {
    u32::try_from(machine).map_or(String::new(), |machine| id('m', machine))
}

fn id(letter: char, number: impl std::fmt::Display) -> String {
    format!("{letter}{number}")
}

/// The numbers of ids that stand for something.
fn numbers(ids: &[String]) -> Vec<usize> {
    ids.iter().filter_map(|id| id[1..].parse().ok()).collect()
}
