//! What the checks of the library share: plans of all classes in turns, calls that are held against what is due, and what
//! is told where they differ.

use crate::check::Report;
use crate::damage;
use crate::generate::{self, Class, Rng};
use crate::plan::Plan;
use crate::proved::{Calls, Library};
use crate::published::beyond_the_rust;
use crate::tally::{Difference, Table, Tally};

pub struct Check {
    pub table: Table<'static>,
    /// The calls that it makes.
    pub calls: &'static [&'static str],
    /// What its counts count.
    pub counted: &'static str,
    /// So that no two checks draw the same.
    pub salt: u64,
    /// Class and seed of each number.
    pub turn: fn(u64) -> (Class, u64),
    /// Its calls for one generated plan.
    pub on_plan: fn(&mut Run, &Plan),
    /// Its calls for plans at an end of what can be.
    pub on_extremes: fn(&mut Run),
}

impl Check {
    /// Runs so many generated inputs, and the extremes. An error is about the library or the folder of differences.
    pub fn run(&self, inputs: u64) -> Result<Report, String> {
        self.table.report(self.tallies(&Library::linked(self.calls)?, inputs), self.counted)
    }

    /// The same with any calls.
    pub fn tallies(&self, calls: &dyn Calls, inputs: u64) -> Vec<(&'static str, Tally)> {
        let extremes = Some(self.extremes(calls)).filter(|tally| tally.inputs > 0);
        let generated = self.generated(calls, inputs);
        generated.into_iter().chain(extremes.map(|tally| ("extremes", tally))).collect()
    }

    /// What comes of generated inputs alone, by class.
    pub fn generated(&self, calls: &dyn Calls, inputs: u64) -> Vec<(&'static str, Tally)> {
        self.table.tallies(inputs, self.turn, |class, seed| self.of_input(calls, &Input::new(class, seed)))
    }

    /// What comes of one.
    pub fn of_input(&self, calls: &dyn Calls, input: &Input) -> Tally {
        let mut run = self.begun(calls, input.name.clone(), input.seed);
        run.tally = input.tally(self.table.columns.len());
        (self.on_plan)(&mut run, &input.plan);
        run.tally
    }

    pub fn extremes(&self, calls: &dyn Calls) -> Tally {
        let mut run = self.begun(calls, String::new(), 0);
        (self.on_extremes)(&mut run);
        run.tally
    }

    fn begun<'a>(&self, calls: &'a dyn Calls, input: String, seed: u64) -> Run<'a> {
        let tally = Tally::new(self.table.columns.len());
        Run { calls, rng: Rng::new(seed ^ self.salt), tally, name: input.clone(), input, seed }
    }
}

/// A generated plan.
pub struct Input {
    pub plan: Plan,
    pub name: String,
    /// Other for each class.
    seed: u64,
    beyond: bool,
}

impl Input {
    pub fn new(class: Class, seed: u64) -> Input {
        let plan = generate::plan(seed, class);
        let beyond = !beyond_the_rust(&plan).is_empty();
        Input { plan, name: format!("{} {seed}", class.name()), seed: seed ^ (class as u64) << 40, beyond }
    }

    /// Nothing counted yet but the input.
    pub fn tally(&self, columns: usize) -> Tally {
        Tally { inputs: 1, beyond: u64::from(self.beyond), ..Tally::new(columns) }
    }

    /// The plan with one to three faults.
    pub fn damaged(&self) -> Vec<u8> {
        damage::damage(&self.plan.to_bytes(), self.seed)
    }
}

/// Calls of the library, each held against what is due.
pub struct Run<'a> {
    pub calls: &'a dyn Calls,
    pub rng: Rng,
    pub tally: Tally,
    input: String,
    /// The input, or what was made of it.
    name: String,
    seed: u64,
}

impl Run<'_> {
    /// An extreme plan begins.
    pub fn begin(&mut self, name: &str) {
        self.tally.inputs += 1;
        self.input = name.to_string();
        self.name = name.to_string();
    }

    /// What comes now is made of the input in this way.
    pub fn made(&mut self, how: &str) {
        self.name = format!("{}, {how}", self.input);
    }

    /// The plan with one to three faults.
    pub fn damaged(&mut self, plan: &Plan) -> Vec<u8> {
        self.made("damaged");
        damage::damage(&plan.to_bytes(), self.seed)
    }

    pub fn count(&mut self, column: usize) {
        self.tally.counts[column] += 1;
    }

    /// A difference, with what to save of it.
    pub fn tell(&mut self, what: String, files: Vec<(&'static str, Vec<u8>)>) {
        self.tally.differences.push(Difference { what: format!("{}: {what}", self.name), files });
    }
}
