//! The stored form, read as document 01's words say it: bytes become a plan or a refusal with its number and place.
//! Written from the paper alone, so that it can stand beside the proved reader as a second opinion.

/// A number of the paper's table and its place: a byte offset, or 0 for number 4.
pub use lavkkesto::Refused;

use crate::plan::{Plan, Setup, Task, Times};

/// Durations, setups and transports reach this far.
const LONGEST: u32 = 2_147_483_647;

fn refused<T>(number: u32, place: usize) -> Result<T, Refused> {
    Err(Refused { number, place })
}

/// The bytes and how far they are read.
struct Words<'a> {
    bytes: &'a [u8],
    at: usize,
}

impl Words<'_> {
    /// The next word, whatever it is; 1 where it is missing or cut short.
    fn any(&mut self) -> Result<u32, Refused> {
        match self.bytes[self.at..].first_chunk() {
            Some(&word) => {
                self.at += 4;
                Ok(u32::from_le_bytes(word))
            }
            None => refused(1, self.at),
        }
    }

    fn signed(&mut self) -> Result<i32, Refused> {
        Ok(self.any()? as i32)
    }

    /// The next word, 2 at it where it is outside least..=most.
    fn within(&mut self, least: u32, most: u32) -> Result<u32, Refused> {
        let place = self.at;
        let word = self.any()?;
        if (least..=most).contains(&word) {
            Ok(word)
        } else {
            refused(2, place)
        }
    }

    /// The next word, below `limit`.
    fn below(&mut self, limit: usize) -> Result<u32, Refused> {
        self.within(0, limit as u32 - 1)
    }

    fn duration(&mut self) -> Result<u32, Refused> {
        self.within(0, LONGEST)
    }
}

/// The whole reading: 1, 2 and 3 as the words come, then 5, then 4.
pub fn read(bytes: &[u8]) -> Result<Plan, Refused> {
    let mut words = Words { bytes, at: 0 };
    let plan = sections(&mut words)?;
    if words.at < bytes.len() {
        return refused(5, words.at);
    }
    if circle(&plan) {
        return refused(4, 0);
    }
    Ok(plan)
}

fn sections(words: &mut Words<'_>) -> Result<Plan, Refused> {
    let mut tasks = Vec::new();
    for _ in 0..words.within(1, 32)? {
        tasks.push(task(words)?);
    }

    let count_place = words.at;
    let n = words.within(1, 128)? as usize;
    if tasks.iter().map(|task| task.activities as usize).sum::<usize>() != n {
        return refused(3, count_place);
    }
    let mut activities = Vec::new();
    for _ in 0..n {
        activities.push(words.signed()?);
    }

    let machines = words.within(1, 16)? as usize;
    let mut transports = Vec::new();
    for _ in 0..machines {
        let mut row = Vec::new();
        for _ in 0..machines {
            row.push(words.duration()?);
        }
        transports.push(row);
    }

    let count_place = words.at;
    if words.any()? as usize != n * machines {
        return refused(3, count_place);
    }
    let mut times = Vec::new();
    for _ in 0..n * machines {
        times.push(Times { setup: words.duration()?, process: words.duration()?, teardown: words.duration()? });
    }

    let candidates = candidates(words, n, machines)?;
    let setups = setups(words, machines)?;
    let predecessors = predecessors(words, n)?;

    words.within(1, 1)?;
    let weight = weight(words)?;
    let steps = words.within(0, 1000)?;

    let mut order = Vec::new();
    for _ in 0..words.within(0, 256)? {
        order.push(words.any()?);
    }

    let count_place = words.at;
    let assigned = words.within(0, 128)? as usize;
    if assigned > n {
        return refused(3, count_place);
    }
    let mut assignment = Vec::new();
    for _ in 0..assigned {
        let place = words.at;
        let machine = words.signed()?;
        if !(-1..machines as i32).contains(&machine) {
            return refused(2, place);
        }
        assignment.push(machine);
    }

    Ok(Plan {
        tasks,
        activities,
        transports,
        times,
        candidates,
        setups,
        predecessors,
        weight,
        steps,
        order,
        assignment,
    })
}

fn task(words: &mut Words<'_>) -> Result<Task, Refused> {
    let category = words.within(0, 7)?;
    let release = words.signed()?;
    let deadline_flag = words.within(0, 1)?;
    let deadline = if deadline_flag == 1 { words.signed()? } else { words.within(0, 0)? as i32 };
    let activities = words.within(1, 128)?;
    Ok(Task { category, release, deadline_flag, deadline, activities })
}

fn candidates(words: &mut Words<'_>, n: usize, machines: usize) -> Result<Vec<(u32, u32)>, Refused> {
    let mut entries = Vec::new();
    let mut of = 0;
    let mut seen = [false; 16];
    for _ in 0..words.within(0, 2048)? {
        let place = words.at;
        let (activity, machine) = (words.below(n)?, words.below(machines)?);
        if activity > of {
            (of, seen) = (activity, [false; 16]);
        }
        if activity < of || seen[machine as usize] {
            return refused(3, place);
        }
        seen[machine as usize] = true;
        entries.push((activity, machine));
    }
    Ok(entries)
}

fn setups(words: &mut Words<'_>, machines: usize) -> Result<Vec<Setup>, Refused> {
    let mut entries = Vec::new();
    let mut last = None;
    for _ in 0..words.within(0, 1152)? {
        let place = words.at;
        let machine = words.below(machines)?;
        let previous = words.within(0, 8)?;
        let category = words.within(0, 7)?;
        let setup = words.duration()?;
        let triple = Some((machine, previous, category));
        if triple <= last {
            return refused(3, place);
        }
        last = triple;
        entries.push(Setup { machine, previous, category, setup });
    }
    Ok(entries)
}

fn predecessors(words: &mut Words<'_>, n: usize) -> Result<Vec<(u32, u32)>, Refused> {
    let mut entries = Vec::new();
    let mut of = 0;
    for _ in 0..words.within(0, 256)? {
        let place = words.at;
        let (activity, before) = (words.below(n)?, words.below(n)?);
        if activity < of {
            return refused(3, place);
        }
        of = activity;
        entries.push((activity, before));
    }
    Ok(entries)
}

/// Two words, low first; ranged as one number once both are there.
fn weight(words: &mut Words<'_>) -> Result<u64, Refused> {
    let place = words.at;
    let bits = u64::from(words.any()?) | u64::from(words.any()?) << 32;
    if (0.0..=1.0).contains(&f64::from_bits(bits)) {
        Ok(bits)
    } else {
        refused(2, place)
    }
}

/// Whether step order and predecessors close a circle: not every activity can be taken once all before it are.
fn circle(plan: &Plan) -> bool {
    let n = plan.activities.len();
    let mut after = vec![Vec::new(); n];
    let mut waits = vec![0; n];
    let mut first = 0;
    for task in &plan.tasks {
        let next = first + task.activities as usize;
        for step in first + 1..next {
            after[step - 1].push(step);
            waits[step] += 1;
        }
        first = next;
    }
    for &(activity, before) in &plan.predecessors {
        after[before as usize].push(activity as usize);
        waits[activity as usize] += 1;
    }
    let mut free: Vec<usize> = (0..n).filter(|&a| waits[a] == 0).collect();
    let mut taken = 0;
    while let Some(a) = free.pop() {
        taken += 1;
        for &b in &after[a] {
            waits[b] -= 1;
            if waits[b] == 0 {
                free.push(b);
            }
        }
    }
    taken < n
}

#[cfg(test)]
mod tests {
    use super::*;

    /// Two tasks of two and one activities, two machines, an entry in every section.
    fn plan() -> Plan {
        let task = |category, flag, deadline, activities| Task {
            category,
            release: -3,
            deadline_flag: flag,
            deadline,
            activities,
        };
        Plan {
            tasks: vec![task(1, 1, -9, 2), task(7, 0, 0, 1)],
            activities: vec![0, -1, 5],
            transports: vec![vec![0, 4], vec![LONGEST, 1]],
            times: vec![Times { setup: 1, process: 2, teardown: 3 }; 6],
            candidates: vec![(0, 1), (0, 0), (2, 1)],
            setups: vec![
                Setup { machine: 0, previous: 8, category: 7, setup: 2 },
                Setup { machine: 1, previous: 0, category: 0, setup: 0 },
            ],
            predecessors: vec![(1, 2), (1, 2), (1, 0)],
            weight: 0.5f64.to_bits(),
            steps: 1000,
            order: vec![0, 1, 0, u32::MAX],
            assignment: vec![0, -1, 1],
        }
    }

    // Word numbers of the plan above.
    const N: usize = 11; // 1 + 2 tasks of 5 words
    const R: usize = N + 4;
    const TIMES: usize = R + 5;
    const CANDIDATES: usize = TIMES + 19;
    const SETUPS: usize = CANDIDATES + 7;
    const PREDECESSORS: usize = SETUPS + 9;
    const SEARCH: usize = PREDECESSORS + 7;
    const ORDER: usize = SEARCH + 4;
    const ASSIGNMENT: usize = ORDER + 5;
    const END: usize = ASSIGNMENT + 4;

    fn with(changes: &[(usize, u32)]) -> Vec<u8> {
        let mut words = plan().to_words();
        for &(at, word) in changes {
            words[at] = word;
        }
        words.into_iter().flat_map(u32::to_le_bytes).collect()
    }

    fn answer(bytes: &[u8]) -> (u32, usize) {
        match read(bytes) {
            Ok(_) => (0, 0),
            Err(Refused { number, place }) => (number, place),
        }
    }

    #[test]
    fn a_plan_comes_back_as_it_was_written() {
        assert_eq!(plan().to_words().len(), END);
        assert_eq!(read(&plan().to_bytes()), Ok(plan()));
    }

    #[test]
    fn every_cut_is_1_at_the_word_that_lacks() {
        let bytes = plan().to_bytes();
        for cut in 0..bytes.len() {
            assert_eq!(answer(&bytes[..cut]), (1, cut / 4 * 4), "cut at {cut}");
        }
    }

    #[test]
    fn words_out_of_range_are_2_at_the_word() {
        let far = LONGEST + 1;
        let out = [
            (0, 0), (0, 33), (1, 8), (3, 2), (5, 0), (5, 129), (9, 1), (N, 0), (N, 129),
            (R, 0), (R, 17), (R + 1, far), (R + 4, u32::MAX), (TIMES + 1, far), (TIMES + 18, far),
            (CANDIDATES, 2049), (CANDIDATES + 1, 3), (CANDIDATES + 2, 2),
            (SETUPS, 1153), (SETUPS + 1, 2), (SETUPS + 2, 9), (SETUPS + 3, 8), (SETUPS + 4, far),
            (PREDECESSORS, 257), (PREDECESSORS + 1, 3), (PREDECESSORS + 2, 3),
            (SEARCH, 0), (SEARCH, 2), (SEARCH + 3, 1001), (ORDER, 257),
            (ASSIGNMENT, 129), (ASSIGNMENT + 1, 2), (ASSIGNMENT + 3, -2i32 as u32),
        ];
        for (at, word) in out {
            assert_eq!(answer(&with(&[(at, word)])), (2, 4 * at), "word {at} made {word}");
        }
    }

    #[test]
    fn the_weight_is_ranged_at_its_low_word_before_the_steps() {
        let weight = |w: f64| [(SEARCH + 1, w.to_bits() as u32), (SEARCH + 2, (w.to_bits() >> 32) as u32)];
        for good in [0.0, -0.0, 1.0, 5e-324, 0.3] {
            assert_eq!(read(&with(&weight(good))).map(|p| p.weight), Ok(good.to_bits()));
        }
        for bad in [f64::NAN, -5e-324, 1.0 + f64::EPSILON, f64::INFINITY, f64::NEG_INFINITY, -1.0] {
            let mut bytes = with(&weight(bad));
            assert_eq!(answer(&bytes), (2, 4 * SEARCH + 4), "{bad}");
            bytes.truncate(4 * SEARCH + 12);
            assert_eq!(answer(&bytes), (2, 4 * SEARCH + 4), "{bad}, no steps word");
            bytes.truncate(4 * SEARCH + 8);
            assert_eq!(answer(&bytes), (1, 4 * SEARCH + 8), "{bad}, half a weight");
        }
    }

    #[test]
    fn broken_rules_are_3_at_the_count_or_the_entry() {
        let broken: [(&[(usize, u32)], usize); 11] = [
            (&[(5, 3)], N),
            (&[(5, 128), (10, 128)], N),
            (&[(TIMES, 5)], TIMES),
            (&[(TIMES, u32::MAX)], TIMES),
            (&[(ASSIGNMENT, 4)], ASSIGNMENT),
            (&[(CANDIDATES + 4, 1)], CANDIDATES + 3), // the same pair twice
            (&[(CANDIDATES + 1, 2)], CANDIDATES + 3), // 2 then 0
            (&[(SETUPS + 5, 0), (SETUPS + 6, 8), (SETUPS + 7, 7)], SETUPS + 5), // the same triple
            (&[(SETUPS + 1, 1)], SETUPS + 5),
            (&[(SETUPS + 5, 0), (SETUPS + 6, 8), (SETUPS + 7, 6)], SETUPS + 5),
            (&[(PREDECESSORS + 1, 2)], PREDECESSORS + 3),
        ];
        for (changes, place) in broken {
            assert_eq!(answer(&with(changes)), (3, 4 * place), "{changes:?}");
        }
        // An entry is read and ranged whole before its rule.
        assert_eq!(answer(&with(&[(CANDIDATES + 1, 2), (CANDIDATES + 4, 2)])), (2, 4 * CANDIDATES + 16));
        let cut = &with(&[(CANDIDATES + 1, 2)])[..4 * CANDIDATES + 16];
        assert_eq!(answer(cut), (1, 4 * CANDIDATES + 16));
        // The range of a count comes before its rule, its rule before its entries.
        assert_eq!(answer(&with(&[(ASSIGNMENT, 128)])), (3, 4 * ASSIGNMENT));
        assert_eq!(answer(&with(&[(ASSIGNMENT, 130)])), (2, 4 * ASSIGNMENT));
    }

    #[test]
    fn a_circle_is_4_at_0_unless_bytes_follow() {
        let circles: [&[(u32, u32)]; 4] = [&[(2, 2)], &[(0, 1)], &[(0, 2), (2, 1)], &[(0, 2), (2, 0)]];
        for predecessors in circles {
            let mut bytes = Plan { predecessors: predecessors.to_vec(), ..plan() }.to_bytes();
            assert_eq!(answer(&bytes), (4, 0), "{predecessors:?}");
            let end = bytes.len();
            bytes.push(0);
            assert_eq!(answer(&bytes), (5, end), "{predecessors:?}");
        }
        for predecessors in [vec![(1, 0), (1, 0)], vec![(0, 2), (1, 2)], vec![]] {
            assert_eq!(answer(&Plan { predecessors, ..plan() }.to_bytes()), (0, 0));
        }
    }

    #[test]
    fn bytes_after_the_assignment_are_5_at_the_first() {
        for more in 1..9 {
            let mut bytes = plan().to_bytes();
            let end = bytes.len();
            bytes.resize(end + more, 7);
            assert_eq!(answer(&bytes), (5, end));
        }
    }

    #[test]
    fn a_huge_count_with_too_few_bytes_is_1_at_the_first_absent_word() {
        let mut bytes = with(&[(ORDER, 256)]);
        let end = bytes.len();
        assert_eq!(answer(&bytes), (1, end));
        bytes.truncate(end - 2);
        assert_eq!(answer(&bytes), (1, end - 4));
        assert_eq!(answer(&[]), (1, 0));
        assert_eq!(answer(&[1, 0, 0]), (1, 0));
    }
}
