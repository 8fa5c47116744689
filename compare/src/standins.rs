//! What the published text names and does not contain. Its searches and decoders run on these bodies; whatever they do
//! not run has no body (`missing`). The README lists them.

use std::collections::{BTreeMap, HashMap};

fn missing() -> ! {
    unreachable!("the published text has no such body, and nothing here calls it")
}

/// A checked problem; here every plan of document 01 makes one, also one that the text's validation refuses.
#[derive(Clone)]
pub struct Problem {
    pub tasks: Vec<models::Task>,
    pub resources: Vec<models::Resource>,
}

impl Problem {
    pub fn tasks(&self) -> &[models::Task] {
        &self.tasks
    }

    pub fn resources(&self) -> &[models::Resource] {
        &self.resources
    }
}

pub mod models {
    use super::*;

    #[derive(Clone, Copy, Debug)]
    pub struct ActivityDuration {
        pub setup_ms: i64,
        pub process_ms: i64,
        pub teardown_ms: i64,
    }

    impl ActivityDuration {
        pub fn total_ms(&self) -> i64 {
            self.setup_ms + self.process_ms + self.teardown_ms
        }
    }

    /// Only `Duration` is ever made: document 01 gives resolved times.
    #[derive(Clone)]
    pub enum ResourceTiming {
        Speed(f64),
        Duration(ActivityDuration),
    }

    /// One look-up by the machine's id; the activity's own duration where the machine has no entry.
    pub fn timed_duration<'a>(
        own: &ActivityDuration,
        timings: &BTreeMap<String, ResourceTiming>,
        machines: impl IntoIterator<Item = &'a str>,
    ) -> ActivityDuration {
        match machines.into_iter().find_map(|id| timings.get(id)) {
            Some(ResourceTiming::Duration(there)) => *there,
            _ => *own,
        }
    }

    pub fn tardiness_ms(completion: i64, deadline: Option<i64>) -> i64 {
        deadline.map_or(0, |due| (completion - due).max(0))
    }

    /// Not taken over by document 01: no value of it can be made.
    #[derive(Clone, Copy)]
    pub struct Overlap {
        pub start_after: f64,
        pub finish_after_ms: i64,
        never: std::convert::Infallible,
    }

    impl Overlap {
        pub fn earliest_start(&self, _: (i64, i64)) -> i64 {
            match self.never {}
        }

        pub fn earliest_end(&self, _: i64) -> i64 {
            match self.never {}
        }
    }

    /// The Setups entries by machine, previous category ("" for none before) and category.
    #[derive(Clone, Default)]
    pub struct TransitionMatrixCollection {
        pub entries: HashMap<String, HashMap<String, HashMap<String, i64>>>,
    }

    impl TransitionMatrixCollection {
        pub fn new() -> Self {
            Self::default()
        }

        pub fn is_empty(&self) -> bool {
            self.entries.is_empty()
        }

        /// Three look-ups by id; the entry if there is one, else `own`.
        pub fn setup_ms(&self, machine: &str, previous: Option<&str>, category: &str, own: i64) -> i64 {
            let row = self.entries.get(machine).and_then(|rows| rows.get(previous.unwrap_or("")));
            row.and_then(|row| row.get(category)).copied().unwrap_or(own)
        }
    }

    #[derive(Clone)]
    pub struct Task {
        pub id: String,
        pub category: String,
        pub release_time: Option<i64>,
        pub deadline: Option<i64>,
        pub weight: f64,
        pub activities: Vec<Activity>,
    }

    #[derive(Clone)]
    pub struct Activity {
        pub id: String,
        pub sequence: i32,
        pub duration: ActivityDuration,
        pub resource_timings: BTreeMap<String, ResourceTiming>,
        pub release_time: Option<i64>,
        pub predecessors: Vec<String>,
        pub resource_requirements: Vec<ResourceRequirement>,
        pub overlap: Option<Overlap>,
        pub split: Option<Split>,
        pub calendar: Option<Calendar>,
    }

    impl Activity {
        /// The candidates as the plan lists them; by the text's comment a Rust problem has them in machine order.
        pub fn eligible_resources(&self, _: &[Resource]) -> Vec<&str> {
            self.resource_requirements.iter().flat_map(|r| &r.candidates).map(String::as_str).collect()
        }
    }

    #[derive(Clone)]
    pub struct ResourceRequirement {
        pub candidates: Vec<String>,
        pub usage: i32,
    }

    #[derive(Clone)]
    pub struct Resource {
        pub id: String,
        pub capacity: i32,
        pub companions: Vec<String>,
        pub transport_ms: BTreeMap<String, i64>,
        pub calendar: Option<Calendar>,
    }

    impl Resource {
        /// One look-up by id, 0 without an entry.
        pub fn transport_to(&self, machine: &str) -> i64 {
            self.transport_ms.get(machine).copied().unwrap_or(0)
        }
    }

    // Named by the text's validation alone; no plan of document 01 holds one.
    #[derive(Clone)]
    pub struct Split {
        pub max_parts: i32,
        pub min_part_ms: i64,
        pub part_overhead_ms: i64,
    }

    #[derive(Clone)]
    pub struct Calendar {
        pub time_windows: Vec<TimeWindow>,
        pub blocked_periods: Vec<TimeWindow>,
    }

    #[derive(Clone)]
    pub struct TimeWindow {
        pub start_ms: i64,
        pub end_ms: i64,
    }

    /// A decoded schedule: its assignments in the order they were added.
    #[derive(Default)]
    pub struct Schedule {
        pub assignments: Vec<Assignment>,
    }

    impl Schedule {
        pub fn new() -> Self {
            Self::default()
        }

        pub fn add_assignment(&mut self, assignment: Assignment) {
            self.assignments.push(assignment);
        }
    }

    pub struct Assignment {
        pub activity_id: String,
        pub resource_id: String,
        pub start_ms: i64,
        pub end_ms: i64,
        pub setup_ms: i64,
    }

    impl Assignment {
        pub fn new(activity: &str, _task: &str, resource: &str, start_ms: i64, end_ms: i64) -> Self {
            let (activity_id, resource_id) = (activity.to_string(), resource.to_string());
            Self { activity_id, resource_id, start_ms, end_ms, setup_ms: 0 }
        }

        pub fn with_sequence(self, _: i32) -> Self {
            self
        }

        pub fn with_setup(self, setup_ms: i64) -> Self {
            Self { setup_ms, ..self }
        }
    }
}

// From here on nothing runs: document 01 takes over no population, no random choice and no dispatching rule.

pub mod dispatching {
    pub struct RuleEngine;

    impl RuleEngine {
        pub fn new() -> Self {
            super::missing()
        }

        pub fn with_rule<Rule>(self, _: Rule) -> Self {
            super::missing()
        }
    }

    pub mod rules {
        pub struct Mwkr;
        pub struct Spt;
        pub struct Lpt;
        pub struct Fifo;
        pub struct Lwkr;
        pub struct Edd;
        #[derive(Default)]
        pub struct Atc;
    }
}

pub mod scheduler {
    use super::*;

    pub struct SimpleScheduler;

    impl SimpleScheduler {
        pub fn new() -> Self {
            missing()
        }

        pub fn with_transition_matrices(self, _: models::TransitionMatrixCollection) -> Self {
            missing()
        }

        pub fn with_rule_engine(self, _: dispatching::RuleEngine) -> Self {
            missing()
        }

        pub fn schedule(&self, _: &Problem, _: i64) -> models::Schedule {
            missing()
        }
    }
}

/// `rand`: no type implements `Rng`, so nothing can be drawn.
pub trait Rng {}

pub trait Range<T> {}
impl<T> Range<T> for std::ops::Range<T> {}
impl<T> Range<T> for std::ops::RangeInclusive<T> {}

pub trait RngExt: Rng {
    fn random_range<T>(&mut self, _: impl Range<T>) -> T {
        missing()
    }

    fn random_bool(&mut self, _: f64) -> bool {
        missing()
    }
}
impl<R: Rng> RngExt for R {}

pub mod prelude {
    pub trait IndexedRandom<T> {
        fn choose<R: super::Rng>(&self, _: &mut R) -> Option<&T> {
            super::missing()
        }

        fn sample<R: super::Rng>(&self, _: &mut R, _: usize) -> std::slice::Iter<'_, T> {
            super::missing()
        }
    }
    impl<T> IndexedRandom<T> for [T] {}
}

/// `u_numflow::random`
pub mod random {
    pub fn shuffle<T, R: super::Rng>(_: &mut [T], _: &mut R) {
        super::missing()
    }
}

/// `u_metaheur`
pub struct Deadline;

pub trait Individual {
    type Fitness;
    fn fitness(&self) -> Self::Fitness;
    fn set_fitness(&mut self, fitness: Self::Fitness);
}

pub trait GaProblem {
    type Individual;
    fn initial_individuals(&self, deadline: &Deadline) -> Vec<Self::Individual>;
    fn create_individual<R: Rng>(&self, rng: &mut R) -> Self::Individual;
    fn evaluate(&self, individual: &Self::Individual) -> f64;
    fn crossover<R: Rng>(&self, one: &Self::Individual, other: &Self::Individual, rng: &mut R)
        -> Vec<Self::Individual>;
    fn mutate<R: Rng>(&self, individual: &mut Self::Individual, rng: &mut R);
}
