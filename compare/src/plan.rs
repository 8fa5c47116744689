//! A plan as document 01 stores it: every word, in the order of its sections, with no test of any of them.
//! The counts are not kept: writing a plan makes them from the lists.

/// One entry of the Tasks section.
#[derive(Clone, Debug, PartialEq, Eq)]
pub struct Task {
    pub category: u32,
    pub release: i32,
    /// 0: no deadline, and the deadline word is 0 in an accepted plan.
    pub deadline_flag: u32,
    pub deadline: i32,
    pub activities: u32,
}

/// Setup, process and teardown of an activity on a machine.
#[derive(Clone, Copy, Debug, PartialEq, Eq)]
pub struct Times {
    pub setup: u32,
    pub process: u32,
    pub teardown: u32,
}

/// One entry of the Setups section; `previous` 8 means that nothing ran before.
#[derive(Clone, Copy, Debug, PartialEq, Eq)]
pub struct Setup {
    pub machine: u32,
    pub previous: u32,
    pub category: u32,
    pub setup: u32,
}

#[derive(Clone, Debug, PartialEq, Eq)]
pub struct Plan {
    pub tasks: Vec<Task>,
    /// The release of each activity, task by task in step order.
    pub activities: Vec<i32>,
    /// A row of transport times from each machine.
    pub transports: Vec<Vec<u32>>,
    /// By activity, then machine.
    pub times: Vec<Times>,
    /// (activity, machine)
    pub candidates: Vec<(u32, u32)>,
    pub setups: Vec<Setup>,
    /// (activity, predecessor)
    pub predecessors: Vec<(u32, u32)>,
    /// The bits of the weight, an f64.
    pub weight: u64,
    pub steps: u32,
    pub order: Vec<u32>,
    pub assignment: Vec<i32>,
}

impl Plan {
    /// The stored form: little-endian words, each section after its count.
    pub fn to_bytes(&self) -> Vec<u8> {
        self.to_words().into_iter().flat_map(u32::to_le_bytes).collect()
    }

    pub fn to_words(&self) -> Vec<u32> {
        let mut words = vec![self.tasks.len() as u32];
        for task in &self.tasks {
            words.extend([
                task.category,
                task.release as u32,
                task.deadline_flag,
                task.deadline as u32,
                task.activities,
            ]);
        }
        words.push(self.activities.len() as u32);
        words.extend(self.activities.iter().map(|&release| release as u32));
        words.push(self.transports.len() as u32);
        words.extend(self.transports.iter().flatten());
        words.push(self.times.len() as u32);
        words.extend(self.times.iter().flat_map(|t| [t.setup, t.process, t.teardown]));
        words.push(self.candidates.len() as u32);
        words.extend(self.candidates.iter().flat_map(|&(activity, machine)| [activity, machine]));
        words.push(self.setups.len() as u32);
        words.extend(self.setups.iter().flat_map(|s| [s.machine, s.previous, s.category, s.setup]));
        words.push(self.predecessors.len() as u32);
        words.extend(self.predecessors.iter().flat_map(|&(activity, before)| [activity, before]));
        words.extend([1, self.weight as u32, (self.weight >> 32) as u32, self.steps]);
        words.push(self.order.len() as u32);
        words.extend(&self.order);
        words.push(self.assignment.len() as u32);
        words.extend(self.assignment.iter().map(|&machine| machine as u32));
        words
    }
}
