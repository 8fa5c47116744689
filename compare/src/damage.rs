//! Damaged inputs, to be refused.
//!
//! `every_refusal` goes over one accepted plan and breaks it in every way that document 01 numbers, at every
//! word and entry where it can be broken, and says which refusal is due. `damage` breaks any bytes by chance.

use crate::generate::{Rng, LARGEST};
use crate::plan::{Plan, Setup, Task, Times};
use std::collections::BTreeSet;

const WORD: usize = 4;
const MISSING: u32 = 1;
const RANGE: u32 = 2;
const RULE: u32 = 3;
const CIRCLE: u32 = 4;
const TRAILING: u32 = 5;

/// An input that is to be refused, and how.
#[derive(Clone, Debug)]
pub struct Damaged {
    /// What is broken, for a reader.
    pub name: String,
    pub bytes: Vec<u8>,
    /// The number on the screen, 1 to 5.
    pub number: u32,
    /// The place beside it: a byte, and 0 for number 4.
    pub place: usize,
}

/// Every damage of `every_refusal`, without the refusal that is due.
pub fn every(plan: &Plan) -> Vec<(String, Vec<u8>)> {
    every_refusal(plan).into_iter().map(|damaged| (damaged.name, damaged.bytes)).collect()
}

/// Every way to break `plan`, which must be an accepted one.
pub fn every_refusal(plan: &Plan) -> Vec<Damaged> {
    let mut all = Collection { form: Form::of(plan), all: Vec::new() };
    all.cuts();
    all.ranges();
    all.weights();
    all.counts(plan);
    all.candidates(plan);
    all.setups(plan);
    all.predecessors(plan);
    all.circles(plan);
    all.trailing();
    all.short_of_count();
    all.two_faults(plan);
    all.all
}

/// A small accepted plan at which every rule can be broken: three tasks, an activity with three candidates, one
/// with none, setups that differ in each of their numbers, predecessors, tasks with a deadline and without.
pub fn sample() -> Plan {
    let task = |category, release, deadline: Option<i32>, activities| Task {
        category,
        release,
        deadline_flag: u32::from(deadline.is_some()),
        deadline: deadline.unwrap_or(0),
        activities,
    };
    let setup = |machine, previous, category, setup| Setup { machine, previous, category, setup };
    let (n, machines) = (6, 3);
    Plan {
        tasks: vec![task(0, 0, None, 3), task(2, -5, Some(9), 2), task(7, 4, Some(-3), 1)],
        activities: vec![0, -1, 2, 0, 3, i32::MIN],
        transports: vec![vec![0, 2, 3], vec![1, 0, 2], vec![4, LARGEST, 0]],
        times: (0..n * machines).map(|k| Times { setup: k % 2, process: k + 1, teardown: k % 3 }).collect(),
        candidates: vec![(0, 0), (0, 1), (0, 2), (1, 1), (2, 0), (2, 2), (4, 1), (5, 0), (5, 1), (5, 2)],
        setups: vec![
            setup(0, 0, 0, 1),
            setup(0, 0, 2, 4),
            setup(0, 2, 0, 0),
            setup(0, 8, 7, 2),
            setup(1, 2, 2, LARGEST),
            setup(2, 7, 1, 3),
            setup(2, 8, 0, 5),
        ],
        predecessors: vec![(2, 3), (2, 0), (2, 0), (4, 0), (5, 1), (5, 3)],
        weight: 0.5f64.to_bits(),
        steps: 60,
        order: vec![0, 1, 0, 9, 2, 1, 0, 0],
        assignment: vec![0, 1, 2, -1, 1],
    }
}

// --------------------------------------------------------------------------------------- the words of a plan

/// One word of the stored form: its name, and values that are out of its range.
struct Word {
    name: String,
    bad: Vec<u32>,
}

/// The words of a plan with their names, and where the sections' counts stand.
struct Form {
    words: Vec<u32>,
    notes: Vec<Word>,
    /// The index of each count word, in the order of the sections.
    counts: Vec<usize>,
}

const TASKS: usize = 0;
const ACTIVITIES: usize = 1;
const TIMES: usize = 3;
const CANDIDATES: usize = 4;
const SETUPS: usize = 5;
const PREDECESSORS: usize = 6;
const SEARCH: usize = 7;
const ASSIGNMENT: usize = 9;
const NAMES: [&str; 10] = [
    "Tasks",
    "Activities",
    "Machines",
    "Times",
    "Candidates",
    "Setups",
    "Predecessors",
    "Search",
    "Order",
    "Assignment",
];
/// The greatest count of each section; Times has none of its own.
const MOST: [u32; 10] = [32, 128, 16, 0, 2_048, 1_152, 256, 1, 256, 128];

/// Just past an unsigned range that ends at `most`, far past it, and what a -1 would be.
fn above(most: u32) -> Vec<u32> {
    let mut bad = vec![most + 1, 1 << 31, u32::MAX];
    bad.dedup();
    bad
}

/// Past both ends of a range from 1.
fn outside(most: u32) -> Vec<u32> {
    let mut bad = above(most);
    bad.insert(0, 0);
    bad
}

impl Form {
    fn of(plan: &Plan) -> Form {
        let mut notes = Notes { notes: Vec::new(), counts: Vec::new() };
        let n = plan.activities.len() as u32;
        let machines = plan.transports.len() as u32;
        notes.count(outside(MOST[TASKS]));
        for (k, task) in plan.tasks.iter().enumerate() {
            notes.put(format!("task {k}: category"), above(7));
            notes.put(format!("task {k}: release"), vec![]);
            notes.put(format!("task {k}: deadline flag"), above(1));
            // Without the flag, every deadline but 0 is out of range.
            let bad = if task.deadline_flag == 0 { vec![1, u32::MAX, 1 << 31, LARGEST] } else { vec![] };
            notes.put(format!("task {k}: deadline"), bad);
            notes.put(format!("task {k}: number of activities"), outside(128));
        }
        notes.count(outside(128));
        for k in 0..n {
            notes.put(format!("activity {k}: release"), vec![]);
        }
        notes.count(outside(16));
        for from in 0..machines {
            for to in 0..machines {
                notes.put(format!("transport from machine {from} to {to}"), above(LARGEST));
            }
        }
        // No range: a wrong count of Times breaks a rule.
        notes.count(vec![]);
        for k in 0..n {
            for machine in 0..machines {
                for what in ["setup", "process", "teardown"] {
                    notes.put(format!("activity {k} on machine {machine}: {what}"), above(LARGEST));
                }
            }
        }
        notes.count(above(MOST[CANDIDATES]));
        for k in 0..plan.candidates.len() {
            notes.put(format!("candidate {k}: activity"), above(n - 1));
            notes.put(format!("candidate {k}: machine"), above(machines - 1));
        }
        notes.count(above(MOST[SETUPS]));
        for k in 0..plan.setups.len() {
            notes.put(format!("setup {k}: machine"), above(machines - 1));
            notes.put(format!("setup {k}: previous category"), above(8));
            notes.put(format!("setup {k}: category"), above(7));
            notes.put(format!("setup {k}: time"), above(LARGEST));
        }
        notes.count(above(MOST[PREDECESSORS]));
        for k in 0..plan.predecessors.len() {
            notes.put(format!("predecessor {k}: activity"), above(n - 1));
            notes.put(format!("predecessor {k}: predecessor"), above(n - 1));
        }
        notes.count(outside(MOST[SEARCH]));
        // The weight's range is over two words: `weights` breaks it.
        notes.put("weight: low word".to_string(), vec![]);
        notes.put("weight: high word".to_string(), vec![]);
        notes.put("steps".to_string(), above(1_000));
        notes.count(above(256));
        for k in 0..plan.order.len() {
            notes.put(format!("order {k}"), vec![]);
        }
        notes.count(above(MOST[ASSIGNMENT]));
        for k in 0..plan.assignment.len() {
            notes.put(format!("assignment {k}"), vec![machines, LARGEST, 1 << 31, u32::MAX - 1]);
        }
        let words = plan.to_words();
        assert_eq!(words.len(), notes.notes.len(), "every word of a plan has a name");
        Form { words, notes: notes.notes, counts: notes.counts }
    }

    fn bytes(&self) -> Vec<u8> {
        self.with(&[])
    }

    /// The bytes with some words changed.
    fn with(&self, changes: &[(usize, u32)]) -> Vec<u8> {
        let mut words = self.words.clone();
        for &(at, word) in changes {
            words[at] = word;
        }
        words.into_iter().flat_map(u32::to_le_bytes).collect()
    }

    /// The first word of an entry.
    fn entry(&self, section: usize, entry: usize, width: usize) -> usize {
        self.counts[section] + 1 + entry * width
    }

    fn low_weight(&self) -> usize {
        self.counts[SEARCH] + 1
    }
}

struct Notes {
    notes: Vec<Word>,
    counts: Vec<usize>,
}

impl Notes {
    fn put(&mut self, name: String, bad: Vec<u32>) {
        self.notes.push(Word { name, bad });
    }

    fn count(&mut self, bad: Vec<u32>) {
        let name = format!("{} count", NAMES[self.counts.len()]);
        self.counts.push(self.notes.len());
        self.put(name, bad);
    }
}

// --------------------------------------------------------------------------------------------- the damages

struct Collection {
    form: Form,
    all: Vec<Damaged>,
}

/// Weights out of range, as bits.
const BAD_WEIGHTS: [(&str, u64); 10] = [
    ("a quiet NaN", 0x7ff8_0000_0000_0000),
    ("a signalling NaN", 0x7ff0_0000_0000_0001),
    ("a negative NaN", 0xffff_ffff_ffff_ffff),
    ("infinite", 0x7ff0_0000_0000_0000),
    ("negative infinite", 0xfff0_0000_0000_0000),
    ("just above 1", 0x3ff0_0000_0000_0001),
    ("2", 0x4000_0000_0000_0000),
    ("just below 0", 0x8000_0000_0000_0001),
    ("-0.5", 0xbfe0_0000_0000_0000),
    ("-1", 0xbff0_0000_0000_0000),
];

impl Collection {
    fn add(&mut self, name: String, bytes: Vec<u8>, number: u32, place: usize) {
        self.all.push(Damaged { name, bytes, number, place });
    }

    /// A changed word and the refusal at some word.
    fn change(&mut self, name: String, changes: &[(usize, u32)], number: u32, word: usize) {
        let bytes = self.form.with(changes);
        self.add(name, bytes, number, WORD * word);
    }

    /// Each word left out with all that follows, and cut after its first, second and third byte.
    fn cuts(&mut self) {
        let whole = self.form.bytes();
        for word in 0..self.form.words.len() {
            for kept in 0..WORD {
                let length = WORD * word + kept;
                let name = format!("cut: {} has {kept} of its 4 bytes (byte {length})", self.form.notes[word].name);
                self.add(name, whole[..length].to_vec(), MISSING, WORD * word);
            }
        }
    }

    fn ranges(&mut self) {
        for word in 0..self.form.words.len() {
            for bad in self.form.notes[word].bad.clone() {
                let name = format!("range: {} is {}", self.form.notes[word].name, both_signs(bad));
                self.change(name, &[(word, bad)], RANGE, word);
            }
        }
    }

    fn weights(&mut self) {
        let low = self.form.low_weight();
        for (what, bits) in BAD_WEIGHTS {
            let changes = weight_words(low, bits);
            self.change(format!("range: weight is {what}"), &changes, RANGE, low);
            // The weight is judged before the steps are looked at, but needs both its words.
            let bytes = self.form.with(&changes);
            let name = format!("two faults: weight is {what}, and steps is missing");
            self.add(name, bytes[..WORD * (low + 2)].to_vec(), RANGE, WORD * low);
            let name = format!("two faults: weight is {what}, but its high word is cut short");
            self.add(name, bytes[..WORD * (low + 1) + 3].to_vec(), MISSING, WORD * (low + 1));
        }
    }

    /// Number 3 at the counts.
    fn counts(&mut self, plan: &Plan) {
        let n = plan.activities.len() as u32;
        let count = self.form.counts[ACTIVITIES];
        for (k, task) in plan.tasks.iter().enumerate() {
            for activities in [task.activities - 1, task.activities + 1, 128] {
                if (1..=128).contains(&activities) && activities != task.activities {
                    let at = self.form.entry(TASKS, k, 5) + 4;
                    let name = format!("rule: task {k} has {activities} activities, so the sum is not {n}");
                    self.change(name, &[(at, activities)], RULE, count);
                }
            }
        }
        for wrong in BTreeSet::from([n - 1, n + 1, 1, 128]) {
            if (1..=128).contains(&wrong) && wrong != n {
                let name = format!("rule: Activities count is {wrong}, but the tasks' sum is {n}");
                self.change(name, &[(count, wrong)], RULE, count);
            }
        }
        self.greatest_sum(plan);
        let times = plan.times.len() as u32;
        let count = self.form.counts[TIMES];
        for wrong in [0, times - 1, times + 1, 2 * times, LARGEST, u32::MAX] {
            if wrong != times {
                let name = format!("rule: Times count is {wrong}, not {times}");
                self.change(name, &[(count, wrong)], RULE, count);
            }
        }
        let count = self.form.counts[ASSIGNMENT];
        for wrong in [n + 1, 127, 128] {
            if wrong > n && wrong <= 128 {
                let name = format!("rule: Assignment count is {wrong}, above {n} activities");
                self.change(name, &[(count, wrong)], RULE, count);
            }
        }
    }

    /// 32 tasks of 128 activities: the sum is far past every count.
    fn greatest_sum(&mut self, plan: &Plan) {
        let task = Task { activities: 128, ..plan.tasks[0].clone() };
        let bytes = Plan { tasks: vec![task; 32], ..plan.clone() }.to_bytes();
        self.add("rule: 32 tasks of 128 activities each, a sum of 4,096".to_string(), bytes, RULE, WORD * (1 + 32 * 5));
    }

    fn candidates(&mut self, plan: &Plan) {
        let list = &plan.candidates;
        for k in 1..list.len() {
            let at = self.form.entry(CANDIDATES, k, 2);
            if let Some(lower) = list[k - 1].0.checked_sub(1) {
                let name = format!("rule: candidate {k} is of activity {lower}, after one of {}", list[k - 1].0);
                self.change(name, &[(at, lower)], RULE, at);
            }
            for earlier in (0..k).filter(|&j| list[j].0 == list[k].0) {
                let how = if earlier + 1 == k { "adjacent" } else { "apart" };
                let name = format!("rule: candidate {k} is the pair of candidate {earlier} again, {how}");
                self.change(name, &[(at + 1, list[earlier].1)], RULE, at);
            }
        }
        // One more would be out of the count's range.
        if list.len() == MOST[CANDIDATES] as usize {
            return;
        }
        for k in 0..list.len() {
            let end = list.iter().rposition(|pair| pair.0 == list[k].0).unwrap_or(k) + 1;
            for (at, how) in [(k + 1, "right after"), (end, "after the activity's last"), (list.len(), "at the end")] {
                let mut candidates = list.clone();
                candidates.insert(at, list[k]);
                let place = WORD * self.form.entry(CANDIDATES, at, 2);
                let bytes = Plan { candidates, ..plan.clone() }.to_bytes();
                self.add(format!("rule: candidate {k} stands once more {how}"), bytes, RULE, place);
            }
        }
    }

    fn setups(&mut self, plan: &Plan) {
        let list = &plan.setups;
        for k in 1..list.len() {
            let at = self.form.entry(SETUPS, k, 4);
            let before = list[k - 1];
            let same = [(at, before.machine), (at + 1, before.previous), (at + 2, before.category)];
            self.change(format!("rule: setup {k} has the triple of the one before"), &same, RULE, at);
            // One lower in the last, the middle and the first number of the triple.
            for (place, what) in [(2, "category"), (1, "previous category"), (0, "machine")] {
                let mut lower = same;
                if let Some(less) = same[place].1.checked_sub(1) {
                    lower[place].1 = less;
                    // What follows the lowered number is greater, and must not make good for it.
                    for (later, most) in [(1, 8), (2, 7)] {
                        if later > place {
                            lower[later].1 = most;
                        }
                    }
                    let name = format!("rule: setup {k} is one lower in its {what} than the one before");
                    self.change(name, &lower, RULE, at);
                }
            }
            let mut setups = list.clone();
            setups.swap(k - 1, k);
            let bytes = Plan { setups, ..plan.clone() }.to_bytes();
            self.add(format!("rule: setups {} and {k} are exchanged", k - 1), bytes, RULE, WORD * at);
        }
        // One more would be out of the count's range.
        if list.len() == MOST[SETUPS] as usize {
            return;
        }
        for k in 0..list.len() {
            let mut setups = list.clone();
            setups.push(list[k]);
            let place = WORD * self.form.entry(SETUPS, list.len(), 4);
            let bytes = Plan { setups, ..plan.clone() }.to_bytes();
            self.add(format!("rule: setup {k} stands once more at the end"), bytes, RULE, place);
        }
    }

    fn predecessors(&mut self, plan: &Plan) {
        let list = &plan.predecessors;
        for k in 1..list.len() {
            if let Some(lower) = list[k - 1].0.checked_sub(1) {
                let at = self.form.entry(PREDECESSORS, k, 2);
                let name = format!("rule: predecessor {k} is of activity {lower}, after one of {}", list[k - 1].0);
                self.change(name, &[(at, lower)], RULE, at);
            }
        }
    }

    /// Number 4: circles of predecessors and steps alone.
    fn circles(&mut self, plan: &Plan) {
        let tasks = steps_of(plan);
        for activity in 0..plan.activities.len() as u32 {
            self.circle(plan, format!("circle: activity {activity} after itself"), &[(activity, activity)]);
        }
        for steps in &tasks {
            for (place, &early) in steps.iter().enumerate() {
                for &late in &steps[place + 1..] {
                    let name = format!("circle: activity {early} after {late}, a later step of its task");
                    self.circle(plan, name, &[(early, late)]);
                }
            }
        }
        let (first, last) = (|task: &[u32]| task[0], |task: &[u32]| task[task.len() - 1]);
        for (one, steps) in tasks.iter().enumerate() {
            for (other, others) in tasks.iter().enumerate().skip(one + 1) {
                let pairs = [(first(steps), last(others)), (first(others), last(steps))];
                self.circle(plan, format!("circle: tasks {one} and {other} wait for each other's last step"), &pairs);
                let pairs = [(last(steps), last(others)), (last(others), last(steps))];
                self.circle(plan, format!("circle: the last steps of tasks {one} and {other}"), &pairs);
            }
        }
        if tasks.len() > 2 {
            let around: Vec<(u32, u32)> =
                (0..tasks.len()).map(|k| (first(&tasks[k]), last(&tasks[(k + 1) % tasks.len()]))).collect();
            self.circle(plan, format!("circle: over all {} tasks, each after the next", tasks.len()), &around);
            let around: Vec<(u32, u32)> =
                (0..tasks.len()).map(|k| (first(&tasks[(k + 1) % tasks.len()]), last(&tasks[k]))).collect();
            self.circle(plan, format!("circle: over all {} tasks, each before the next", tasks.len()), &around);
        }
    }

    fn circle(&mut self, plan: &Plan, name: String, pairs: &[(u32, u32)]) {
        if let Some(plan) = with_predecessors(plan, pairs) {
            let mut bytes = plan.to_bytes();
            self.add(name.clone(), bytes.clone(), CIRCLE, 0);
            // 5 comes before 4.
            let place = bytes.len();
            bytes.push(0);
            self.add(format!("two faults: {name}; and a byte follows"), bytes, TRAILING, place);
        }
    }

    fn trailing(&mut self) {
        let whole = self.form.bytes();
        for more in 1..=5 {
            for filler in [0x00, 0xff] {
                let mut bytes = whole.clone();
                bytes.resize(whole.len() + more, filler);
                self.add(format!("trailing: {more} bytes {filler:02x} after Assignment"), bytes, TRAILING, whole.len());
            }
        }
        let mut twice = whole.clone();
        twice.extend(&whole);
        self.add("trailing: the whole input once more".to_string(), twice, TRAILING, whole.len());
    }

    /// Counts that promise more than there is.
    fn short_of_count(&mut self) {
        for section in 0..NAMES.len() {
            let at = self.form.counts[section];
            let end = WORD * (at + 1);
            // Times must be as many as they are, and n is the tasks' sum: those two cannot be raised here.
            if ![ACTIVITIES, TIMES, ASSIGNMENT].contains(&section) {
                let bytes = self.form.with(&[(at, MOST[section])]);
                for kept in [0, 1, 3] {
                    if end + kept <= bytes.len() {
                        let name =
                            format!("cut: {} count is {} with {kept} bytes after it", NAMES[section], MOST[section]);
                        self.add(name, bytes[..end + kept].to_vec(), MISSING, end);
                    }
                }
            }
            if section != TIMES {
                let bytes = self.form.with(&[(at, u32::MAX)]);
                let name = format!("range: {} count is 4294967295 with nothing after it", NAMES[section]);
                self.add(name, bytes[..end].to_vec(), RANGE, WORD * at);
            }
        }
        self.last_section_short();
    }

    /// The last section lacks a word that its count promises.
    fn last_section_short(&mut self) {
        let at = self.form.counts[ASSIGNMENT];
        let n = self.form.words[self.form.counts[ACTIVITIES]];
        if self.form.words[at] < n {
            let name = "cut: Assignment count is one more than its words".to_string();
            let bytes = self.form.with(&[(at, self.form.words[at] + 1)]);
            let place = bytes.len();
            self.add(name, bytes, MISSING, place);
        }
    }

    /// Two faults at once: the earlier word wins.
    fn two_faults(&mut self, plan: &Plan) {
        let ranged: Vec<usize> = (0..self.form.words.len()).filter(|&k| !self.form.notes[k].bad.is_empty()).collect();
        let names: Vec<String> = self.form.notes.iter().map(|note| note.name.clone()).collect();
        for pair in ranged.windows(2) {
            let (one, two) = (pair[0], pair[1]);
            let changes = [(one, self.form.notes[one].bad[0]), (two, self.form.notes[two].bad[0])];
            let name = format!("two faults: {} and {} out of range", names[one], names[two]);
            self.change(name, &changes, RANGE, one);
            // Cut between the two, and before both.
            let bytes = self.form.with(&changes[..1]);
            let name = format!("two faults: {} out of range, and {} cut short", names[one], names[two]);
            self.add(name, bytes[..WORD * two + 2].to_vec(), RANGE, WORD * one);
        }
        self.range_before_rule(plan);
        self.rule_before_later(plan);
        let name = "two faults: steps out of range, and a byte follows".to_string();
        let steps = self.form.low_weight() + 2;
        let mut bytes = self.form.with(&[(steps, 1_001)]);
        bytes.push(7);
        self.add(name, bytes, RANGE, WORD * steps);
        self.add("empty: no byte at all".to_string(), Vec::new(), MISSING, 0);
    }

    /// All words of an entry are ranged before its rule is tested.
    fn range_before_rule(&mut self, plan: &Plan) {
        let machines = plan.transports.len() as u32;
        let n = plan.activities.len() as u32;
        for k in 1..plan.candidates.len() {
            let at = self.form.entry(CANDIDATES, k, 2);
            if let Some(lower) = plan.candidates[k - 1].0.checked_sub(1) {
                let changes = [(at, lower), (at + 1, machines)];
                let name = format!("two faults: candidate {k} does not rise, and its machine is out of range");
                self.change(name, &changes, RANGE, at + 1);
                let bytes = self.form.with(&changes[..1]);
                let name = format!("two faults: candidate {k} does not rise, and its machine is missing");
                self.add(name, bytes[..WORD * (at + 1)].to_vec(), MISSING, WORD * (at + 1));
            }
        }
        for k in 1..plan.setups.len() {
            let at = self.form.entry(SETUPS, k, 4);
            let before = plan.setups[k - 1];
            let same =
                [(at, before.machine), (at + 1, before.previous), (at + 2, before.category), (at + 3, LARGEST + 1)];
            let name = format!("two faults: setup {k} repeats a triple, and its time is out of range");
            self.change(name, &same, RANGE, at + 3);
        }
        for k in 1..plan.predecessors.len() {
            let at = self.form.entry(PREDECESSORS, k, 2);
            if let Some(lower) = plan.predecessors[k - 1].0.checked_sub(1) {
                let name = format!("two faults: predecessor {k} does not rise, and its predecessor is out of range");
                self.change(name, &[(at, lower), (at + 1, n)], RANGE, at + 1);
            }
        }
    }

    /// A rule of an earlier section comes before everything later, and before number 4.
    fn rule_before_later(&mut self, plan: &Plan) {
        let count = self.form.counts[ACTIVITIES];
        let n = plan.activities.len() as u32;
        let machines_count = self.form.counts[2];
        if n < 128 {
            let changes = [(count, n + 1), (machines_count, 0)];
            let name = "two faults: the tasks' sum is not n, and Machines count is 0".to_string();
            self.change(name, &changes, RULE, count);
        }
        let times = self.form.counts[TIMES];
        let changes = [(times, 0), (times + 1, u32::MAX)];
        let name = "two faults: Times count is 0, and its first setup out of range".to_string();
        self.change(name, &changes, RULE, times);
        let own = self.form.entry(PREDECESSORS, 0, 2);
        if let Some(&(activity, _)) = plan.predecessors.first() {
            let steps = self.form.low_weight() + 2;
            let name = format!("two faults: activity {activity} after itself, and steps out of range");
            self.change(name, &[(own + 1, activity), (steps, 1_001)], RANGE, steps);
            let name = format!("two faults: activity {activity} after itself, and the last word cut short");
            let bytes = self.form.with(&[(own + 1, activity)]);
            let last = self.form.words.len() - 1;
            self.add(name, bytes[..bytes.len() - 1].to_vec(), MISSING, WORD * last);
        }
    }
}

fn both_signs(word: u32) -> String {
    let signed = word as i32;
    if signed < 0 {
        format!("{word} (as a signed word {signed})")
    } else {
        word.to_string()
    }
}

fn weight_words(low: usize, bits: u64) -> [(usize, u32); 2] {
    [(low, bits as u32), (low + 1, (bits >> 32) as u32)]
}

/// The activities of each task, step by step.
fn steps_of(plan: &Plan) -> Vec<Vec<u32>> {
    let mut next = 0;
    let mut tasks = Vec::new();
    for task in &plan.tasks {
        tasks.push((next..next + task.activities).collect());
        next += task.activities;
    }
    tasks
}

/// The plan with more predecessors, each put in its place; nothing where they would be too many.
fn with_predecessors(plan: &Plan, pairs: &[(u32, u32)]) -> Option<Plan> {
    let mut predecessors = plan.predecessors.clone();
    predecessors.extend(pairs);
    predecessors.sort_by_key(|pair| pair.0);
    (predecessors.len() <= MOST[PREDECESSORS] as usize).then(|| Plan { predecessors, ..plan.clone() })
}

// ------------------------------------------------------------------------------------------ damage by chance

/// The bytes with one to three faults. Not every result is refused: a changed process time may well be in range.
pub fn damage(bytes: &[u8], seed: u64) -> Vec<u8> {
    let mut rng = Rng::new(seed ^ 0x6461_6d61_6765_5f6f);
    let mut damaged = bytes.to_vec();
    let faults = if rng.chance(70) { 1 } else { rng.within(2, 3) };
    for _ in 0..faults {
        one_fault(&mut damaged, &mut rng);
    }
    damaged
}

fn one_fault(bytes: &mut Vec<u8>, rng: &mut Rng) {
    if bytes.len() < 2 * WORD || rng.chance(5) {
        bytes.extend((0..rng.within(1, 9)).map(|k| (k * 37) as u8));
        return;
    }
    let at = some_word(bytes, rng);
    let other = some_word(bytes, rng);
    match rng.below(11) {
        0 => bytes.truncate(rng.index(bytes.len())),
        1 | 2 => {
            let edges =
                [0, 1, 2, 7, 8, 9, 16, 17, 32, 33, 128, 129, 256, 257, 1_000, 1_001, 1_152, 1_153, 2_048, 2_049];
            set(bytes, at, rng.pick(&edges));
        }
        3 => set(bytes, at, rng.pick(&[u32::MAX, 1 << 31, LARGEST, 0x7ff8_0000, 0xbff0_0000, 0x3ff0_0001])),
        // A neighbouring value: the counts and the rising rules mind.
        4 | 5 => {
            let word = get(bytes, at);
            set(bytes, at, if rng.chance(50) { word.wrapping_add(1) } else { word.wrapping_sub(1) });
        }
        6 => {
            let bit = rng.below(8);
            let byte = rng.index(bytes.len());
            bytes[byte] ^= 1 << bit;
        }
        7 => {
            let word = get(bytes, other);
            set(bytes, at, word);
        }
        8 => {
            let (one, two) = (get(bytes, at), get(bytes, other));
            set(bytes, at, two);
            set(bytes, other, one);
        }
        9 => wait_for_later(bytes, rng),
        _ if rng.chance(50) => drop(bytes.drain(at..at + WORD)),
        _ => {
            let word = get(bytes, other).to_le_bytes();
            bytes.splice(at..at, word);
        }
    }
}

/// The place of a word. The sections have equal chances, where they can be told: else nearly every damage to a
/// large plan would fall into Times.
fn some_word(bytes: &[u8], rng: &mut Rng) -> usize {
    let starts = section_starts(bytes);
    let section = rng.index(starts.len());
    let end = starts.get(section + 1).copied().unwrap_or(bytes.len() / WORD);
    let start = starts[section].min(bytes.len() / WORD - 1);
    if end <= start || rng.chance(25) {
        return WORD * start;
    }
    WORD * (start + rng.index(end - start))
}

/// The index of each section's count word, as far as the counts lead.
fn section_starts(bytes: &[u8]) -> Vec<usize> {
    let mut starts = vec![0];
    for width in [5, 1, 0, 3, 2, 4, 2, 3, 1] {
        let start = starts[starts.len() - 1];
        let count = get(bytes, WORD * start) as usize;
        // An entry of Machines is a row of as many words as there are machines.
        let width = if width == 0 { count } else { width };
        let next = start + 1 + count.saturating_mul(width).min(bytes.len());
        if WORD * (next + 1) > bytes.len() {
            break;
        }
        starts.push(next);
    }
    starts
}

/// Turns a predecessor into its activity or one of the next two: often a circle.
fn wait_for_later(bytes: &mut [u8], rng: &mut Rng) {
    let starts = section_starts(bytes);
    let Some(&[start, end]) = starts.get(PREDECESSORS..PREDECESSORS + 2) else {
        // The sections cannot be told.
        return;
    };
    if end > start + 2 {
        let at = start + 1 + 2 * rng.index((end - start - 1) / 2);
        let activity = get(bytes, WORD * at);
        set(bytes, WORD * (at + 1), activity.wrapping_add(rng.below(3) as u32));
    }
}

fn get(bytes: &[u8], at: usize) -> u32 {
    u32::from_le_bytes([bytes[at], bytes[at + 1], bytes[at + 2], bytes[at + 3]])
}

fn set(bytes: &mut [u8], at: usize, word: u32) {
    bytes[at..at + WORD].copy_from_slice(&word.to_le_bytes());
}

#[cfg(test)]
mod tests {
    use crate::judge::judge;
    use super::*;
    use crate::generate::{self, Class};

    fn check_all(plan: &Plan) -> usize {
        assert_eq!(judge(&plan.to_bytes()), Ok(()));
        let all = every_refusal(plan);
        for damaged in &all {
            assert_eq!(judge(&damaged.bytes), Err((damaged.number, damaged.place)), "{}", damaged.name);
        }
        all.len()
    }

    #[test]
    fn every_damage_of_the_sample_is_refused_as_said() {
        let number = check_all(&sample());
        assert!(number > 1_000, "{number}");
    }

    #[test]
    fn the_sample_can_be_broken_in_every_way() {
        let all = every_refusal(&sample());
        let kinds: BTreeSet<&str> = all.iter().filter_map(|damaged| damaged.name.split(':').next()).collect();
        let wanted = ["circle", "cut", "empty", "range", "rule", "trailing", "two faults"];
        assert_eq!(kinds.into_iter().collect::<Vec<_>>(), wanted);
        for part in
            ["adjacent", "apart", "deadline is 1", "one lower in its machine", "over all 3 tasks", "NaN", "4,096"]
        {
            assert!(all.iter().any(|damaged| damaged.name.contains(part)), "{part}");
        }
        for number in 1..=5 {
            assert!(all.iter().any(|damaged| damaged.number == number), "{number}");
        }
    }

    #[test]
    fn names_are_told_apart() {
        let all = every(&sample());
        let names: BTreeSet<&String> = all.iter().map(|(name, _)| name).collect();
        assert_eq!(names.len(), all.len());
    }

    #[test]
    fn generated_plans_can_be_broken_too() {
        for class in Class::ALL {
            for seed in 0..if class == Class::Full { 0 } else { 3 } {
                let plan = generate::plan(seed, class);
                if plan.activities.len() < 12 {
                    check_all(&plan);
                }
            }
        }
    }

    #[test]
    fn damage_by_chance_is_the_same_each_time_and_mostly_refused() {
        let bytes = sample().to_bytes();
        let mut refused = [0; 6];
        for seed in 0..4_000 {
            let damaged = damage(&bytes, seed);
            assert_eq!(damaged, damage(&bytes, seed));
            refused[judge(&damaged).map_or_else(|refusal| refusal.0 as usize, |()| 0)] += 1;
        }
        assert!(refused.iter().all(|&number| number > 10), "{refused:?}");
        assert!(refused[0] < 2_000, "{refused:?}");
    }

    #[test]
    fn nothing_and_next_to_nothing_can_be_damaged() {
        for length in 0..12 {
            for seed in 0..200 {
                damage(&vec![1; length], seed);
            }
        }
    }
}
