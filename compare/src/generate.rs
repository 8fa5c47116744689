//! Accepted inputs from a seed. The same seed and class give the same plan on every machine.
//!
//! A class says what its plans are about; within it each plan draws its own size and its own mix of features.
//! Predecessors are drawn along a hidden order of all activities, so that they never close a circle with the
//! tasks' steps; the Order section either follows some such order or is shuffled freely, and then its lines may
//! contradict.

use crate::plan::{Plan, Setup, Task, Times};

/// The largest duration, setup or transport.
pub const LARGEST: u32 = 2_147_483_647;
const MOST_CANDIDATES: usize = 2_048;
const MOST_PREDECESSORS: usize = 256;
const MOST_NAMINGS: usize = 256;
const MOST_STEPS: u64 = 1_000;
const CATEGORIES: u64 = 8;
/// A previous category of 8 means that nothing ran before.
const PREVIOUS: u32 = 9;
const LINE_LENGTH: usize = 128;
const MOST_MACHINES: usize = 16;

/// What the plans of a class are about.
#[derive(Clone, Copy, Debug, PartialEq, Eq)]
pub enum Class {
    /// 1 to 6 activities, any feature.
    Tiny,
    /// 7 to 40 activities, any feature.
    Medium,
    /// 128 activities, 16 machines, 32 tasks, any feature.
    Full,
    /// Job shops in the textbook's shapes: every job on every machine once, one candidate each.
    JobShop,
    /// Several candidates for most activities, with other times on each.
    Flexible,
    /// Durations of 0 and 1, everywhere the same: most choices are ties.
    Ties,
    /// Durations, setups and transports of 2,147,483,647, releases and deadlines at both ends.
    Large,
    /// Setups tables, whole and partial, also for the first on a machine.
    Setups,
    /// Transports between machines.
    Transports,
    /// Many predecessors: across tasks, repeated, earlier steps of the own task.
    Waits,
    /// Predecessors against a shuffled Order: most lines contradict.
    Contrary,
    /// Orders and Assignments that lack something, or have too much.
    Genes,
    /// Many activities without a machine, waited for by others: where the active decoder stops early.
    Gaps,
    /// Orders that are hard to better: one machine, one task, or no times. Most searches find nothing.
    Settled,
    /// Transports from a machine to itself. No Rust problem holds these.
    SelfTransport,
    /// Candidates in an order that no numbering of the machines explains. No Rust problem holds these.
    LooseCandidates,
}

impl Class {
    pub const ALL: [Class; 16] = [
        Class::Tiny,
        Class::Medium,
        Class::Full,
        Class::JobShop,
        Class::Flexible,
        Class::Ties,
        Class::Large,
        Class::Setups,
        Class::Transports,
        Class::Waits,
        Class::Contrary,
        Class::Genes,
        Class::Gaps,
        Class::Settled,
        Class::SelfTransport,
        Class::LooseCandidates,
    ];

    pub fn name(self) -> &'static str {
        match self {
            Class::Tiny => "tiny",
            Class::Medium => "medium",
            Class::Full => "full",
            Class::JobShop => "job-shop",
            Class::Flexible => "flexible",
            Class::Ties => "ties",
            Class::Large => "large",
            Class::Setups => "setups",
            Class::Transports => "transports",
            Class::Waits => "waits",
            Class::Contrary => "contrary",
            Class::Genes => "genes",
            Class::Gaps => "gaps",
            Class::Settled => "settled",
            Class::SelfTransport => "self-transport",
            Class::LooseCandidates => "loose-candidates",
        }
    }

    pub fn named(name: &str) -> Option<Class> {
        Class::ALL.into_iter().find(|class| class.name() == name)
    }

    /// Whether a Rust problem can hold every plan of this class; no plan of the other classes can be held.
    pub fn is_held_by_rust(self) -> bool {
        !matches!(self, Class::SelfTransport | Class::LooseCandidates)
    }
}

/// Whether a Rust problem can hold this plan: no time from a machine to itself, and some numbering of the machines
/// under which every activity lists its candidates in machine order. Partial Setups and first setups can be held,
/// but the body that would read them is not in the published text.
pub fn held_by_rust(plan: &Plan) -> bool {
    let stays = plan.transports.iter().enumerate().all(|(machine, row)| row.get(machine) == Some(&0));
    stays && one_numbering_fits(&plan.candidates)
}

/// Whether no machines are listed in a circle: taking away, again and again, a machine that stands behind no other.
fn one_numbering_fits(candidates: &[(u32, u32)]) -> bool {
    let neighbours = candidates.windows(2).filter(|pair| pair[0].0 == pair[1].0);
    let mut arcs: Vec<(u32, u32)> = neighbours.map(|pair| (pair[0].1, pair[1].1)).collect();
    while !arcs.is_empty() {
        let Some(&(first, _)) = arcs.iter().find(|arc| arcs.iter().all(|other| other.1 != arc.0)) else {
            return false;
        };
        arcs.retain(|arc| arc.0 != first);
    }
    true
}

// ---------------------------------------------------------------------------------------------------- chance

/// Splitmix64: small, stable, and good enough to spread test inputs.
#[derive(Clone, Debug)]
pub struct Rng {
    state: u64,
}

impl Rng {
    pub fn new(seed: u64) -> Rng {
        Rng { state: seed }
    }

    pub fn next(&mut self) -> u64 {
        self.state = self.state.wrapping_add(0x9e37_79b9_7f4a_7c15);
        let mut z = self.state;
        z = (z ^ (z >> 30)).wrapping_mul(0xbf58_476d_1ce4_e5b9);
        z = (z ^ (z >> 27)).wrapping_mul(0x94d0_49bb_1331_11eb);
        z ^ (z >> 31)
    }

    /// A number below `limit`, which is not 0.
    pub fn below(&mut self, limit: u64) -> u64 {
        ((u128::from(self.next()) * u128::from(limit)) >> 64) as u64
    }

    /// A number from `low` to `high`, both included.
    pub fn within(&mut self, low: u64, high: u64) -> u64 {
        low + self.below(high - low + 1)
    }

    /// True in `percent` of a hundred cases.
    pub fn chance(&mut self, percent: u64) -> bool {
        self.below(100) < percent
    }

    pub fn index(&mut self, length: usize) -> usize {
        self.below(length as u64) as usize
    }

    pub fn pick<T: Copy>(&mut self, from: &[T]) -> T {
        from[self.index(from.len())]
    }

    pub fn shuffle<T>(&mut self, list: &mut [T]) {
        for end in (1..list.len()).rev() {
            list.swap(end, self.index(end + 1));
        }
    }
}

// ------------------------------------------------------------------------------------------------- the makings

/// How the durations of a plan are drawn.
#[derive(Clone, Copy, Debug, PartialEq, Eq)]
enum Durations {
    /// 1 to the number given.
    UpTo(u64),
    /// 0 and 1.
    Bits,
    Zero,
    Largest,
    /// Either 0 or the largest.
    Ends,
}

#[derive(Clone, Copy, Debug, PartialEq, Eq)]
enum Candidates {
    /// The assigned machine alone.
    Single,
    /// One to all machines, in machine order.
    Several,
    /// Like `Several`, and some activities have none.
    SeveralOrNone,
    All,
}

/// What one plan is made of. The percentages are chances for each entry that may be made.
#[derive(Clone, Debug)]
struct Makings {
    activities: usize,
    tasks: usize,
    machines: usize,
    durations: Durations,
    /// Whether an activity has other times on other machines.
    differ: bool,
    /// The chance of a zero duration among others.
    zeros: u64,
    /// The chance of setup and teardown of an activity's own.
    own_setups: u64,
    categories: u64,
    candidates: Candidates,
    setups: u64,
    transports: u64,
    self_transports: bool,
    loose_candidates: bool,
    predecessors: usize,
    releases: u64,
    deadlines: u64,
    /// The chance that the Order follows steps and predecessors.
    orderly: u64,
    /// The chance that genes are incomplete or have words too many.
    faulty: u64,
    /// The chance that an activity is assigned to a machine that is no candidate.
    borrowed: u64,
    /// The chance that an activity is assigned to no machine.
    gaps: u64,
    /// The chance that Improve is not asked for.
    idle: u64,
}

impl Makings {
    /// Plain plans of this size; the classes change what they are about.
    fn plain(activities: usize, tasks: usize, machines: usize) -> Makings {
        Makings {
            activities,
            tasks,
            machines,
            durations: Durations::UpTo(20),
            differ: false,
            zeros: 5,
            own_setups: 0,
            categories: 1,
            candidates: Candidates::Single,
            setups: 0,
            transports: 0,
            self_transports: false,
            loose_candidates: false,
            predecessors: 0,
            releases: 0,
            deadlines: 0,
            orderly: 100,
            faulty: 3,
            borrowed: 0,
            gaps: 0,
            idle: 4,
        }
    }

    /// Each feature in about a third to a half of the plans.
    fn any_feature(mut self, rng: &mut Rng) -> Makings {
        self.durations = match rng.below(10) {
            0 => Durations::Bits,
            1 => Durations::UpTo(3),
            2 => Durations::UpTo(1_000),
            3 => Durations::UpTo(u64::from(LARGEST)),
            _ => Durations::UpTo(20),
        };
        self.differ = rng.chance(50);
        self.zeros = rng.pick(&[0, 0, 10, 40]);
        self.own_setups = rng.pick(&[0, 0, 30, 100]);
        self.categories = rng.within(1, CATEGORIES);
        self.candidates = rng.pick(&[
            Candidates::Single,
            Candidates::Several,
            Candidates::Several,
            Candidates::SeveralOrNone,
            Candidates::All,
        ]);
        self.setups = rng.pick(&[0, 0, 0, 20, 70, 100]);
        self.transports = rng.pick(&[0, 0, 50, 100]);
        self.predecessors = rng.pick(&[0, 0, 1, 3]) * self.activities / 4;
        self.releases = rng.pick(&[0, 0, 20, 80]);
        self.deadlines = rng.pick(&[0, 50, 100]);
        self.orderly = 80;
        self.faulty = 8;
        self.borrowed = rng.pick(&[0, 0, 0, 10]);
        self
    }
}

fn makings(class: Class, rng: &mut Rng) -> Makings {
    match class {
        Class::Tiny => sized(rng, 1, 6, 1, 3).any_feature(rng),
        Class::Medium => sized(rng, 7, 40, 2, 6).any_feature(rng),
        Class::Full => Makings::plain(128, 32, 16).any_feature(rng),
        Class::JobShop => job_shop(rng),
        Class::Flexible => {
            let candidates = rng.pick(&[Candidates::Several, Candidates::All]);
            let (own_setups, deadlines) = (rng.pick(&[0, 30]), rng.pick(&[0, 50]));
            Makings { candidates, differ: true, own_setups, deadlines, borrowed: 5, ..sized(rng, 4, 40, 2, 6) }
        }
        Class::Ties => ties(rng),
        Class::Large => large(rng),
        Class::Setups => {
            let setups = rng.pick(&[15, 50, 90, 100, 100]);
            let (categories, own_setups) = (rng.within(2, CATEGORIES), rng.pick(&[0, 60]));
            Makings { setups, categories, own_setups, ..sized(rng, 4, 40, 1, 6) }
        }
        Class::Transports => {
            let transports = rng.pick(&[30, 100]);
            Makings {
                transports,
                candidates: rng.pick(&[Candidates::Single, Candidates::Several]),
                ..sized(rng, 4, 40, 2, 6)
            }
        }
        Class::Waits => {
            let size = sized(rng, 4, 40, 1, 5);
            let predecessors = size.activities * rng.within(1, 6) as usize / 2;
            let candidates = rng.pick(&[Candidates::Single, Candidates::Several]);
            Makings { predecessors, candidates, orderly: 90, ..size }
        }
        Class::Contrary => {
            let size = sized(rng, 4, 40, 1, 3);
            Makings { predecessors: size.activities, orderly: 0, ..size }
        }
        Class::Genes => {
            let candidates = rng.pick(&[Candidates::Single, Candidates::Several, Candidates::SeveralOrNone]);
            let predecessors = rng.pick(&[0, 3]);
            Makings { candidates, predecessors, faulty: 90, borrowed: 20, deadlines: 40, ..sized(rng, 2, 24, 1, 4) }
        }
        Class::Gaps => {
            let size = sized(rng, 2, 14, 1, 3);
            let predecessors = size.activities * rng.within(1, 3) as usize / 2;
            let gaps = rng.pick(&[20, 50, 80]);
            Makings { predecessors, gaps, tasks: size.tasks.min(4), orderly: 70, deadlines: 40, faulty: 20, ..size }
        }
        Class::Settled => settled(rng),
        Class::SelfTransport => {
            Makings { transports: 60, self_transports: true, ..sized(rng, 2, 30, 1, 5).any_feature(rng) }
        }
        Class::LooseCandidates => {
            let candidates = rng.pick(&[Candidates::Several, Candidates::All]);
            Makings { candidates, differ: true, loose_candidates: true, ..sized(rng, 2, 30, 2, 6) }
        }
    }
}

/// A plain plan with so many activities and machines, and some number of tasks that fits.
fn sized(rng: &mut Rng, least: u64, most: u64, least_machines: u64, most_machines: u64) -> Makings {
    let activities = rng.within(least, most);
    let tasks = rng.within(1, activities.min(10));
    Makings::plain(activities as usize, tasks as usize, rng.within(least_machines, most_machines) as usize)
}

/// Jobs and machines of the textbook's shops; `routes` gives every job every machine once.
fn job_shop(rng: &mut Rng) -> Makings {
    let (jobs, machines) = rng.pick(&[(3, 3), (4, 3), (6, 6), (6, 6), (10, 10), (15, 5), (8, 16)]);
    let durations = Durations::UpTo(rng.pick(&[9, 99]));
    Makings { durations, zeros: 0, deadlines: rng.pick(&[0, 100]), ..Makings::plain(jobs * machines, jobs, machines) }
}

fn ties(rng: &mut Rng) -> Makings {
    let durations = rng.pick(&[Durations::Bits, Durations::Bits, Durations::UpTo(1), Durations::Zero]);
    let candidates = rng.pick(&[Candidates::Single, Candidates::All, Candidates::Several]);
    let size = sized(rng, 3, 30, 1, 4);
    let predecessors = rng.pick(&[0, size.activities / 3]);
    Makings { durations, candidates, predecessors, zeros: rng.pick(&[0, 30, 70]), deadlines: 30, ..size }
}

fn large(rng: &mut Rng) -> Makings {
    let size = if rng.chance(15) { Makings::plain(128, 32, 16) } else { sized(rng, 2, 40, 1, 6) };
    Makings {
        durations: rng.pick(&[
            Durations::Largest,
            Durations::Largest,
            Durations::Ends,
            Durations::UpTo(u64::from(LARGEST)),
        ]),
        differ: rng.chance(30),
        own_setups: 100,
        zeros: 0,
        categories: rng.within(1, CATEGORIES),
        candidates: rng.pick(&[Candidates::Single, Candidates::Several]),
        setups: rng.pick(&[0, 50, 100]),
        transports: rng.pick(&[0, 100]),
        releases: 60,
        deadlines: 80,
        ..size
    }
}

fn settled(rng: &mut Rng) -> Makings {
    match rng.below(4) {
        0 => sized(rng, 1, 20, 1, 1),
        1 => Makings { tasks: 1, ..sized(rng, 1, 20, 1, 4) },
        2 => Makings { durations: Durations::Zero, ..sized(rng, 2, 20, 1, 4) },
        _ => {
            let jobs = rng.within(1, 6) as usize;
            Makings { deadlines: 100, ..Makings::plain(jobs, jobs, rng.within(1, 3) as usize) }
        }
    }
}

// ------------------------------------------------------------------------------------------------ making a plan

/// The plan of a class for a seed.
pub fn plan(seed: u64, class: Class) -> Plan {
    // The class enters by its name, so that a new class changes no other class's plans.
    let mix = class.name().bytes().fold(seed, |mix, byte| mix.wrapping_mul(0x0100_0000_01b3) ^ u64::from(byte));
    let mut rng = Rng::new(mix);
    let makings = makings(class, &mut rng);
    make(&makings, class == Class::JobShop, &mut rng)
}

fn make(makings: &Makings, every_machine_once: bool, rng: &mut Rng) -> Plan {
    let counts = if every_machine_once {
        vec![makings.machines; makings.tasks]
    } else {
        split(makings.activities, makings.tasks, rng)
    };
    let task_of: Vec<usize> = counts.iter().enumerate().flat_map(|(task, &count)| vec![task; count]).collect();
    let hidden = interleave(&counts, rng);
    let predecessors = predecessors(makings, &task_of, &hidden, rng);
    let (candidates, mut assignment) =
        if every_machine_once { routes(makings, rng) } else { machines_for(makings, rng) };
    let mut order = namings(makings, &counts, &task_of, &predecessors, &hidden, rng);
    if rng.chance(makings.faulty) {
        spoil(makings, &mut order, &mut assignment, rng);
    }
    let horizon = horizon(makings);
    Plan {
        tasks: counts.iter().map(|&count| task(makings, count, horizon, rng)).collect(),
        activities: (0..makings.activities).map(|_| release(makings, horizon, rng)).collect(),
        transports: transports(makings, rng),
        times: times(makings, rng),
        candidates,
        setups: setups(makings, rng),
        predecessors,
        weight: weight(rng),
        steps: steps(makings, rng),
        order,
        assignment,
    }
}

/// `total` as a sum of `parts` numbers of at least 1.
fn split(total: usize, parts: usize, rng: &mut Rng) -> Vec<usize> {
    let mut counts = vec![1; parts];
    for _ in parts..total {
        counts[rng.index(parts)] += 1;
    }
    counts
}

/// All activities in a random order that keeps every task's steps.
fn interleave(counts: &[usize], rng: &mut Rng) -> Vec<usize> {
    let mut next = Vec::with_capacity(counts.len());
    let mut turns = Vec::new();
    for (task, &count) in counts.iter().enumerate() {
        next.push(turns.len());
        turns.resize(turns.len() + count, task);
    }
    rng.shuffle(&mut turns);
    for turn in &mut turns {
        let task = *turn;
        *turn = next[task];
        next[task] += 1;
    }
    turns
}

/// Predecessors that stand before their activity in the hidden order.
fn predecessors(makings: &Makings, task_of: &[usize], hidden: &[usize], rng: &mut Rng) -> Vec<(u32, u32)> {
    let mut pairs: Vec<(u32, u32)> = Vec::new();
    while pairs.len() < makings.predecessors.min(MOST_PREDECESSORS) && hidden.len() > 1 {
        let late = rng.within(1, hidden.len() as u64 - 1) as usize;
        let activity = hidden[late];
        // An earlier step of the own task, where there is one, is wanted now and then.
        let own: Vec<usize> = hidden[..late].iter().copied().filter(|&a| task_of[a] == task_of[activity]).collect();
        let before = if rng.chance(15) && !own.is_empty() { rng.pick(&own) } else { hidden[rng.index(late)] };
        pairs.push((activity as u32, before as u32));
        if rng.chance(10) && pairs.len() < MOST_PREDECESSORS {
            pairs.push((activity as u32, before as u32));
        }
    }
    // Only the activities rise; how the predecessors of one come is left to chance.
    pairs.sort_by_key(|pair| pair.0);
    pairs
}

/// Candidates, and an assignment that mostly uses them.
fn machines_for(makings: &Makings, rng: &mut Rng) -> (Vec<(u32, u32)>, Vec<i32>) {
    let mut candidates = Vec::new();
    let mut assignment = Vec::new();
    for activity in 0..makings.activities {
        let mut machines: Vec<u32> = (0..makings.machines as u32).collect();
        rng.shuffle(&mut machines);
        let keep = match makings.candidates {
            Candidates::Single => 1,
            Candidates::Several => rng.index(makings.machines) + 1,
            Candidates::SeveralOrNone if rng.chance(10) => 0,
            Candidates::SeveralOrNone => rng.index(makings.machines) + 1,
            Candidates::All => makings.machines,
        };
        let assigned = machines[if keep == 0 || rng.chance(makings.borrowed) { makings.machines - 1 } else { 0 }];
        machines.truncate(keep);
        machines.sort_unstable();
        if makings.loose_candidates {
            machines = loosen(activity, machines, makings.machines as u32, rng);
        }
        candidates.extend(machines.into_iter().map(|machine| (activity as u32, machine)));
        assignment.push(if rng.chance(makings.gaps) { -1 } else { assigned as i32 });
    }
    debug_assert!(candidates.len() <= MOST_CANDIDATES);
    (candidates, assignment)
}

/// The machines of an activity out of order. The first two activities list all of them, falling and rising, so that
/// no other numbering of the machines could mend it.
fn loosen(activity: usize, mut machines: Vec<u32>, all: u32, rng: &mut Rng) -> Vec<u32> {
    match activity {
        0 => machines = (0..all).rev().collect(),
        1 => machines = (0..all).collect(),
        _ => rng.shuffle(&mut machines),
    }
    machines
}

/// A textbook job shop: the steps of each job go over all machines, each once.
fn routes(makings: &Makings, rng: &mut Rng) -> (Vec<(u32, u32)>, Vec<i32>) {
    let mut assignment = Vec::new();
    for _ in 0..makings.tasks {
        let mut route: Vec<i32> = (0..makings.machines as i32).collect();
        rng.shuffle(&mut route);
        assignment.extend(route);
    }
    let candidates =
        assignment.iter().enumerate().map(|(activity, &machine)| (activity as u32, machine as u32)).collect();
    (candidates, assignment)
}

/// The Order section: each task as often as it has activities.
fn namings(
    makings: &Makings,
    counts: &[usize],
    task_of: &[usize],
    predecessors: &[(u32, u32)],
    hidden: &[usize],
    rng: &mut Rng,
) -> Vec<u32> {
    let sequence = if !rng.chance(makings.orderly) {
        interleave(counts, rng)
    } else if rng.chance(50) {
        hidden.to_vec()
    } else {
        some_order(task_of, predecessors, rng)
    };
    sequence.into_iter().map(|activity| task_of[activity] as u32).collect()
}

/// A random order of the activities that keeps steps and predecessors. The predecessors close no circle.
fn some_order(task_of: &[usize], predecessors: &[(u32, u32)], rng: &mut Rng) -> Vec<usize> {
    let n = task_of.len();
    let mut arcs: Vec<(usize, usize)> = predecessors.iter().map(|&(a, before)| (before as usize, a as usize)).collect();
    arcs.extend((1..n).filter(|&a| task_of[a] == task_of[a - 1]).map(|a| (a - 1, a)));
    let mut waits = vec![0usize; n];
    for &(_, to) in &arcs {
        waits[to] += 1;
    }
    let mut free: Vec<usize> = (0..n).filter(|&a| waits[a] == 0).collect();
    let mut sequence = Vec::with_capacity(n);
    while !free.is_empty() {
        let taken = free.swap_remove(rng.index(free.len()));
        sequence.push(taken);
        for &(_, to) in arcs.iter().filter(|arc| arc.0 == taken) {
            waits[to] -= 1;
            if waits[to] == 0 {
                free.push(to);
            }
        }
    }
    sequence
}

/// Genes as they come back from a damaged stick, still accepted.
fn spoil(makings: &Makings, order: &mut Vec<u32>, assignment: &mut Vec<i32>, rng: &mut Rng) {
    for _ in 0..rng.within(1, 2) {
        match rng.below(9) {
            // Unknown tasks and surplus namings change nothing: they are dropped.
            0 | 1 => add_namings(order, rng, |rng| makings.tasks as u32 + rng.below(4) as u32),
            2 => add_namings(order, rng, |rng| rng.pick(&[u32::MAX, 1 << 31, LARGEST, 32, 128])),
            3 | 4 => add_namings(order, rng, |rng| rng.index(makings.tasks) as u32),
            5 => {
                for _ in 0..rng.within(1, 2) {
                    if !order.is_empty() {
                        order.remove(rng.index(order.len()));
                    }
                }
            }
            6 => order.truncate(rng.index(order.len() + 1)),
            7 => assignment.truncate(rng.index(assignment.len() + 1)),
            _ => {
                let most = rng.pick(&[10, 50]);
                for machine in assignment.iter_mut() {
                    if rng.chance(most) {
                        *machine = -1;
                    }
                }
            }
        }
    }
}

fn add_namings(order: &mut Vec<u32>, rng: &mut Rng, naming: impl Fn(&mut Rng) -> u32) {
    let room = MOST_NAMINGS - order.len();
    let wanted = if rng.chance(5) { room } else { room.min(rng.within(1, 4) as usize) };
    for _ in 0..wanted {
        let at = rng.index(order.len() + 1);
        order.insert(at, naming(rng));
    }
}

/// About the makespan to expect, so that releases and deadlines matter.
fn horizon(makings: &Makings) -> i64 {
    let usual = match makings.durations {
        Durations::UpTo(most) => most as i64 / 2 + 1,
        Durations::Bits | Durations::Zero => 1,
        Durations::Largest | Durations::Ends => i64::from(LARGEST),
    };
    usual * (makings.activities as i64 / makings.machines as i64 + 1)
}

/// A moment from well before 0 to the horizon, or an end of the signed words.
fn moment(horizon: i64, rng: &mut Rng) -> i32 {
    let wide = 2 * horizon.unsigned_abs() + 2;
    let value = match rng.below(20) {
        0 => i64::from(i32::MIN),
        1 => i64::from(i32::MAX),
        2 => -1,
        3 => 0,
        4..=7 => -(rng.below(wide) as i64),
        _ => rng.below(wide) as i64,
    };
    value.clamp(i64::from(i32::MIN), i64::from(i32::MAX)) as i32
}

fn release(makings: &Makings, horizon: i64, rng: &mut Rng) -> i32 {
    if !rng.chance(makings.releases) {
        return 0;
    }
    // The greatest word would hide everything else, so it is kept for the largest times.
    match makings.durations {
        Durations::Largest | Durations::Ends => moment(horizon, rng),
        _ => moment(horizon / 4, rng).min((horizon / 2).clamp(0, i64::from(i32::MAX)) as i32),
    }
}

fn task(makings: &Makings, activities: usize, horizon: i64, rng: &mut Rng) -> Task {
    let has_deadline = rng.chance(makings.deadlines);
    Task {
        category: rng.below(makings.categories) as u32,
        release: release(makings, horizon, rng),
        deadline_flag: u32::from(has_deadline),
        deadline: if has_deadline { moment(horizon / 2, rng) } else { 0 },
        activities: activities as u32,
    }
}

fn duration(durations: Durations, zeros: u64, rng: &mut Rng) -> u32 {
    if rng.chance(zeros) {
        return 0;
    }
    match durations {
        Durations::UpTo(most) => rng.within(1, most) as u32,
        Durations::Bits => rng.below(2) as u32,
        Durations::Zero => 0,
        Durations::Largest => LARGEST,
        Durations::Ends => rng.pick(&[0, LARGEST]),
    }
}

fn times(makings: &Makings, rng: &mut Rng) -> Vec<Times> {
    let mut times = Vec::with_capacity(makings.activities * makings.machines);
    for _ in 0..makings.activities {
        let common = three_times(makings, rng);
        for _ in 0..makings.machines {
            times.push(if makings.differ { three_times(makings, rng) } else { common });
        }
    }
    times
}

fn three_times(makings: &Makings, rng: &mut Rng) -> Times {
    let process = duration(makings.durations, makings.zeros, rng);
    let own = |rng: &mut Rng| {
        if rng.chance(makings.own_setups) {
            duration(makings.durations, makings.zeros, rng)
        } else {
            0
        }
    };
    Times { setup: own(rng), process, teardown: own(rng) }
}

fn transports(makings: &Makings, rng: &mut Rng) -> Vec<Vec<u32>> {
    let mut rows = vec![vec![0; makings.machines]; makings.machines];
    for (from, row) in rows.iter_mut().enumerate() {
        for (to, time) in row.iter_mut().enumerate() {
            if (from != to || makings.self_transports) && rng.chance(makings.transports) {
                *time = duration(makings.durations, 0, rng);
            }
        }
    }
    if makings.self_transports {
        let machine = rng.index(makings.machines);
        rows[machine][machine] = rows[machine][machine].max(1);
    }
    rows
}

/// A table of setups, whole at 100 percent, over all categories or over those that the tasks may have.
fn setups(makings: &Makings, rng: &mut Rng) -> Vec<Setup> {
    let mut setups = Vec::new();
    if makings.setups == 0 {
        return setups;
    }
    let categories = if rng.chance(30) { CATEGORIES as u32 } else { makings.categories as u32 };
    let first_ones = rng.chance(70);
    for machine in 0..makings.machines as u32 {
        for previous in 0..PREVIOUS {
            let kept = previous < categories || (previous == PREVIOUS - 1 && first_ones);
            for category in 0..categories {
                if kept && rng.chance(makings.setups) {
                    let setup = duration(makings.durations, 10, rng);
                    setups.push(Setup { machine, previous, category, setup });
                }
            }
        }
    }
    setups
}

/// The bits of a weight from 0 to 1.
fn weight(rng: &mut Rng) -> u64 {
    let unit = |rng: &mut Rng| (rng.next() >> 11) as f64 / (1u64 << 53) as f64;
    match rng.below(20) {
        0 => 0.0f64.to_bits(),
        1 => (-0.0f64).to_bits(),
        2 => 1.0f64.to_bits(),
        // Subnormal: the least, the greatest, any.
        3 => rng.pick(&[1, (1 << 52) - 1]),
        4 => rng.within(1, (1 << 52) - 1),
        // Any bits below those of 1, so mostly very small.
        5 => rng.below(1.0f64.to_bits()),
        6 => 1.0f64.to_bits() - rng.within(1, 3),
        7..=11 => 0.5f64.to_bits(),
        12 => rng.pick(&[0.1f64, 0.25, 0.75, 0.9]).to_bits(),
        _ => unit(rng).to_bits(),
    }
}

fn steps(makings: &Makings, rng: &mut Rng) -> u32 {
    if rng.chance(makings.idle) {
        return 0;
    }
    let steps = match rng.below(20) {
        0..=2 => rng.within(1, 3),
        3 => rng.within(100, MOST_STEPS),
        4 if rng.chance(30) => MOST_STEPS,
        5..=8 => 60,
        _ => rng.within(1, 100),
    };
    steps as u32
}

// ----------------------------------------------------------------------------------------- two extreme plans

/// Both, by name.
pub fn extremes() -> [(&'static str, Plan); 2] {
    [("the longest input", longest_input()), ("the latest end", latest_end())]
}

/// The longest input there is: every section is full, 65,204 bytes in all.
pub fn longest_input() -> Plan {
    let (tasks, activities, machines) = (32, 128, 16);
    let rows = (0..machines).map(|from| (0..machines).map(|to| if from == to { 0 } else { from + to }).collect());
    let times = (0..activities * machines).map(|k| Times { setup: k % 5, process: 1 + k % 37, teardown: k % 3 });
    let triples =
        (0..machines).flat_map(|m| (0..PREVIOUS).flat_map(move |p| (0..CATEGORIES as u32).map(move |c| (m, p, c))));
    let setup =
        |(machine, previous, category)| Setup { machine, previous, category, setup: (previous + 2 * category) % 7 };
    // After the first task, each activity waits for its like in the task before and for that task's second step.
    let waits = (4..activities).flat_map(|a| [a - 4, a / 4 * 4 - 3]).take(MOST_PREDECESSORS - 8);
    let mut predecessors: Vec<(u32, u32)> = waits.enumerate().map(|(k, before)| (4 + k as u32 / 2, before)).collect();
    predecessors.extend([(activities - 1, 0); 8]);
    Plan {
        tasks: (0..tasks)
            .map(|k| Task {
                category: k % 8,
                release: k as i32,
                deadline_flag: 1,
                deadline: 40 * k as i32,
                activities: 4,
            })
            .collect(),
        activities: (0..activities as i32).collect(),
        transports: rows.collect(),
        times: times.collect(),
        candidates: (0..activities).flat_map(|a| (0..machines).map(move |m| (a, m))).collect(),
        setups: triples.map(setup).collect(),
        predecessors,
        weight: 0.5f64.to_bits(),
        steps: MOST_STEPS as u32,
        // Each task twice as often as needed: the second half is dropped.
        order: (0..MOST_NAMINGS as u32).map(|k| k / 4 % tasks).collect(),
        assignment: (0..activities as i32).map(|a| a % machines as i32).collect(),
    }
}

/// The latest end there is, 512 times the largest number: one task of 128 steps to and fro between two machines,
/// released as late as can be, every time and every way the largest.
pub fn latest_end() -> Plan {
    let activities = 128;
    let largest = Times { setup: LARGEST, process: LARGEST, teardown: LARGEST };
    let machine = |activity: u32| activity % 2;
    Plan {
        tasks: vec![Task { category: 0, release: i32::MAX, deadline_flag: 1, deadline: i32::MIN, activities }],
        activities: vec![i32::MAX; activities as usize],
        transports: vec![vec![0, LARGEST], vec![LARGEST, 0]],
        times: vec![largest; 2 * activities as usize],
        candidates: (0..activities).map(|a| (a, machine(a))).collect(),
        setups: Vec::new(),
        predecessors: Vec::new(),
        weight: 0.5f64.to_bits(),
        steps: 60,
        order: vec![0; activities as usize],
        assignment: (0..activities).map(|a| machine(a) as i32).collect(),
    }
}

// -------------------------------------------------------------------------------------------------- other genes

/// The plan with an Order and an Assignment that are changed in one to three ways; it stays accepted.
pub fn other_genes(plan: &Plan, rng: &mut Rng) -> Plan {
    let mut plan = plan.clone();
    let (tasks, machines) = (plan.tasks.len(), plan.transports.len());
    for _ in 0..rng.within(1, 3) {
        match rng.below(8) {
            0 => rng.shuffle(&mut plan.order),
            1 => plan.order.truncate(rng.index(plan.order.len() + 1)),
            2 => plan.order.clear(),
            // As long as it may be, with unknown tasks among the others.
            3 => {
                while plan.order.len() < MOST_NAMINGS {
                    let at = rng.index(plan.order.len() + 1);
                    plan.order.insert(at, rng.index(tasks + 2) as u32);
                }
            }
            4 => plan.assignment.truncate(rng.index(plan.assignment.len() + 1)),
            5 => {
                let part = rng.pick(&[5, 50, 95]);
                plan.assignment.iter_mut().filter(|_| rng.chance(part)).for_each(|machine| *machine = -1);
            }
            // Whoever is waited for has no machine.
            6 => {
                for &(_, before) in &plan.predecessors {
                    plan.assignment.get_mut(before as usize).into_iter().for_each(|machine| *machine = -1);
                }
            }
            _ => {
                plan.assignment = (0..plan.activities.len()).map(|_| rng.index(machines) as i32).collect();
            }
        }
    }
    plan
}

// ------------------------------------------------------------------------------------------- lines for timing

/// All activities in some order that keeps steps and predecessors: lines dealt from it do not contradict.
pub fn sequence(plan: &Plan, rng: &mut Rng) -> Vec<usize> {
    let tasks = plan.tasks.iter().enumerate();
    let task_of: Vec<usize> = tasks.flat_map(|(task, entry)| vec![task; entry.activities as usize]).collect();
    some_order(&task_of, &plan.predecessors, rng)
}

/// Lines to be timed, one for each machine. About half keep steps and predecessors; the rest are shuffled, so
/// that many contradict, or break number 7.
pub fn lines(seed: u64, plan: &Plan) -> Vec<Vec<u32>> {
    let mut rng = Rng::new(seed ^ 0x6c69_6e65_735f_6f66);
    let n = plan.activities.len();
    let mut sequence = sequence(plan, &mut rng);
    match rng.below(10) {
        0..=4 => {}
        // Two neighbours, or a whole shuffle, against the order.
        5 | 6 if n > 1 => {
            let at = rng.index(n - 1);
            sequence.swap(at, at + 1);
        }
        _ => rng.shuffle(&mut sequence),
    }
    let assigned = rng.chance(50);
    let mut lines = vec![Vec::new(); plan.transports.len()];
    for &activity in &sequence {
        let machine = match plan.assignment.get(activity) {
            Some(&machine) if assigned && machine >= 0 => machine as usize,
            _ => rng.index(lines.len()),
        };
        lines[machine].push(activity as u32);
    }
    if rng.chance(20) {
        break_lines(&mut lines, n as u32, &mut rng);
    }
    lines
}

/// Breaks number 7 in one of its ways.
fn break_lines(lines: &mut Vec<Vec<u32>>, n: u32, rng: &mut Rng) {
    let filled: Vec<usize> = (0..lines.len()).filter(|&machine| !lines[machine].is_empty()).collect();
    let machine = rng.pick(&filled);
    let at = rng.index(lines[machine].len());
    match rng.below(7) {
        0 => drop(lines[machine].remove(at)),
        1 => {
            let again = lines[machine][at];
            let other = rng.index(lines.len());
            let place = rng.index(lines[other].len() + 1);
            lines[other].insert(place, again);
        }
        // One is named twice in the place of another.
        2 => lines[machine][at] = (lines[machine][at] + 1) % n.max(2),
        3 => lines[machine][at] = n + rng.below(3) as u32,
        4 => lines[machine][at] = rng.pick(&[u32::MAX, 1 << 31, 128, 2_048, n]).max(n),
        // A line longer than any may be.
        5 => {
            let again = lines[machine][at];
            lines[machine].resize(LINE_LENGTH + 1, again);
        }
        // A machine too many, where there is room for one.
        _ if lines.len() < MOST_MACHINES => {
            let moved = lines[machine].remove(at);
            lines.push(vec![moved]);
        }
        _ => lines[machine].clear(),
    }
}

#[cfg(test)]
mod tests {
    use super::*;
    use crate::judge::judge;
    use crate::timing;

    const SEEDS: u64 = 150;

    fn each(mut test: impl FnMut(Class, u64, Plan)) {
        for class in Class::ALL {
            for seed in 0..SEEDS {
                test(class, seed, plan(seed, class));
            }
        }
    }

    fn some(class: Class, test: impl Fn(&Plan) -> bool) -> usize {
        (0..SEEDS).filter(|&seed| test(&plan(seed, class))).count()
    }

    #[test]
    fn every_plan_is_accepted() {
        each(|class, seed, plan| assert_eq!(judge(&plan.to_bytes()), Ok(()), "{} {seed}", class.name()));
    }

    #[test]
    fn a_seed_gives_one_plan() {
        each(|class, seed, one| assert_eq!(one, plan(seed, class)));
        assert_ne!(plan(1, Class::Tiny), plan(2, Class::Tiny));
    }

    #[test]
    fn names_lead_back_to_their_class() {
        for class in Class::ALL {
            assert_eq!(Class::named(class.name()), Some(class));
        }
        assert_eq!(Class::named("no such class"), None);
    }

    #[test]
    fn the_classes_say_what_rust_can_hold() {
        each(|class, seed, plan| assert_eq!(held_by_rust(&plan), class.is_held_by_rust(), "{} {seed}", class.name()));
    }

    #[test]
    fn one_numbering_must_fit_all_activities() {
        assert!(one_numbering_fits(&[]));
        assert!(one_numbering_fits(&[(0, 2), (0, 0), (1, 2), (1, 1), (1, 0), (2, 1), (2, 0)]));
        assert!(!one_numbering_fits(&[(0, 0), (0, 1), (1, 1), (1, 0)]));
        assert!(!one_numbering_fits(&[(0, 0), (0, 1), (1, 1), (1, 2), (2, 2), (2, 0)]));
    }

    #[test]
    fn sizes_are_those_of_the_class() {
        for seed in 0..SEEDS {
            assert!((1..=6).contains(&plan(seed, Class::Tiny).activities.len()));
            assert!((7..=40).contains(&plan(seed, Class::Medium).activities.len()));
            let full = plan(seed, Class::Full);
            assert_eq!((full.activities.len(), full.transports.len(), full.tasks.len()), (128, 16, 32));
            let shop = plan(seed, Class::JobShop);
            assert_eq!(shop.activities.len(), shop.tasks.len() * shop.transports.len());
        }
        let shapes = [(6, 6), (10, 10), (15, 5), (8, 16)];
        for shape in shapes {
            assert!(some(Class::JobShop, |plan| (plan.tasks.len(), plan.transports.len()) == shape) > 0, "{shape:?}");
        }
    }

    #[test]
    fn every_feature_occurs() {
        let medium = |test: fn(&Plan) -> bool, what: &str| assert!(some(Class::Medium, test) > 1, "{what}");
        medium(|plan| plan.setups.is_empty(), "no setups");
        medium(|plan| plan.setups.iter().any(|setup| setup.previous == 8), "first setups");
        medium(|plan| plan.transports.iter().flatten().any(|&time| time > 0), "transports");
        medium(|plan| plan.predecessors.is_empty(), "no predecessors");
        medium(|plan| plan.predecessors.windows(2).any(|pair| pair[0] == pair[1]), "a repeated predecessor");
        medium(|plan| plan.tasks.iter().any(|task| task.deadline < 0), "a deadline before 0");
        medium(|plan| plan.activities.iter().any(|&release| release < 0), "a release before 0");
        medium(|plan| plan.activities.iter().any(|&release| release > 0), "a release after 0");
        medium(|plan| plan.steps == 0, "no steps");
        medium(|plan| plan.steps > 100, "many steps");
        medium(|plan| plan.weight == 0, "weight 0");
        medium(|plan| plan.weight == (-0.0f64).to_bits(), "weight -0");
        medium(|plan| plan.weight == 1.0f64.to_bits(), "weight 1");
        medium(|plan| f64::from_bits(plan.weight).is_subnormal(), "a subnormal weight");
        let genes = |test: fn(&Plan) -> bool, what: &str| assert!(some(Class::Genes, test) > 4, "{what}");
        genes(|plan| plan.order.iter().any(|&task| task as usize >= plan.tasks.len()), "an unknown task");
        genes(|plan| plan.order.len() > plan.activities.len(), "surplus namings");
        genes(|plan| plan.order.len() < plan.activities.len(), "too few namings");
        genes(|plan| plan.assignment.len() < plan.activities.len(), "a short assignment");
        genes(|plan| plan.assignment.contains(&-1), "no machine");
        genes(borrows, "a machine that is no candidate");
        assert!(some(Class::Waits, |plan| waits_for(plan, true)) > 20, "an earlier step of the own task");
        assert!(some(Class::Waits, |plan| waits_for(plan, false)) > 50, "a step of another task");
        let full_table = |plan: &Plan| plan.setups.len() == plan.transports.len() * 72;
        assert!(some(Class::Setups, full_table) > 0);
        assert!((0..2_000).any(|seed| plan(seed, Class::Full).setups.len() == 1_152));
        assert!((0..SEEDS).any(|seed| plan(seed, Class::Full).candidates.len() == 2_048));
        assert!((0..2_000).any(|seed| plan(seed, Class::Medium).steps == 1_000));
        assert!(some(Class::Large, |plan| plan.times.iter().all(|times| *times == largest())) > 10);
    }

    #[test]
    fn the_extreme_plans_are_accepted() {
        let bytes = longest_input().to_bytes();
        assert_eq!(bytes.len(), 65_204);
        assert_eq!(judge(&bytes), Ok(()));
        assert!(held_by_rust(&longest_input()));
        assert_eq!(judge(&latest_end().to_bytes()), Ok(()));
        let ways = latest_end().activities.len() as u64 - 1;
        assert_eq!(1 + 3 * 128 + ways, 512);
    }

    /// Whether an activity names a predecessor of its own task, or of another.
    fn waits_for(plan: &Plan, own: bool) -> bool {
        let task_of: Vec<usize> =
            plan.tasks.iter().enumerate().flat_map(|(task, entry)| vec![task; entry.activities as usize]).collect();
        plan.predecessors.iter().any(|&(a, before)| (task_of[a as usize] == task_of[before as usize]) == own)
    }

    fn borrows(plan: &Plan) -> bool {
        let pairs = plan.assignment.iter().enumerate().filter(|(_, &machine)| machine >= 0);
        pairs.into_iter().any(|(activity, &machine)| !plan.candidates.contains(&(activity as u32, machine as u32)))
    }

    fn largest() -> Times {
        Times { setup: LARGEST, process: LARGEST, teardown: LARGEST }
    }

    /// 0: the lines time, 7 or 8: why they do not.
    fn number_of(plan: &Plan, lines: &[Vec<u32>]) -> usize {
        let n = plan.activities.len();
        let mut named: Vec<u32> = lines.iter().flatten().copied().collect();
        named.sort_unstable();
        let too_long = lines.iter().any(|line| line.len() > LINE_LENGTH);
        let unknown = lines.iter().skip(plan.transports.len()).any(|line| !line.is_empty());
        if too_long || unknown || named != (0..n as u32).collect::<Vec<_>>() {
            return 7;
        }
        let mut arcs = plan.predecessors.clone();
        arcs.extend(lines.iter().flat_map(|line| line.windows(2).map(|pair| (pair[1], pair[0]))));
        let mut first = 0;
        for task in &plan.tasks {
            arcs.extend((first + 1..first + task.activities).map(|a| (a, a - 1)));
            first += task.activities;
        }
        // Whoever waits for nothing left is taken away; a circle stays.
        let mut left = named;
        loop {
            let still: Vec<u32> =
                left.iter().copied().filter(|&a| arcs.iter().any(|arc| arc.0 == a && left.contains(&arc.1))).collect();
            if still.is_empty() || still.len() == left.len() {
                return if still.is_empty() { 0 } else { 8 };
            }
            left = still;
        }
    }

    #[test]
    fn lines_time_contradict_and_break_number_7() {
        let mut numbers = [0; 9];
        for class in [Class::Tiny, Class::Medium, Class::Waits, Class::JobShop] {
            for seed in 0..SEEDS {
                let plan = plan(seed, class);
                for more in 0..3 {
                    let lines = lines(seed * 3 + more, &plan);
                    numbers[number_of(&plan, &lines)] += 1;
                }
            }
        }
        assert!(numbers[0] > 500 && numbers[7] > 200 && numbers[8] > 200, "{numbers:?}");
    }

    /// Everything that the genes of a plan may lack or have too much of occurs at the full size, too.
    #[test]
    fn other_genes_stay_accepted_and_differ() {
        let mut rng = Rng::new(3);
        let mut counts = [0; 6];
        for class in Class::ALL {
            for seed in 0..100 {
                let plan = other_genes(&plan(seed, class), &mut rng);
                assert_eq!(judge(&plan.to_bytes()), Ok(()), "{} {seed}", class.name());
                let machine = |activity: usize| timing::machine_of(&plan, activity);
                let unplaced = plan.predecessors.iter().any(|&(_, before)| machine(before as usize).is_none());
                let n = plan.activities.len();
                let occurs = [
                    plan.order.len() == MOST_NAMINGS,
                    plan.order.is_empty(),
                    timing::named(&plan).len() < n,
                    (0..n).any(|activity| machine(activity).is_none()),
                    unplaced,
                    unplaced && n == 128,
                ];
                counts.iter_mut().zip(occurs).for_each(|(count, occurs)| *count += u64::from(occurs));
            }
        }
        assert!(counts.iter().all(|&count| count > 10), "{counts:?}");
    }
}
