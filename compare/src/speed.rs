//! `speed`: the library's calls against the published Rust's functions on the same plans, in one table for docs/SPEED.md.
//! The library's calls begin with the bytes; the Rust's with its problem and its genes, which are made before.

use std::fmt::Write;
use std::hint::black_box;

use crate::bench::{by_turns, clock, instructions, short, stack, Measured, Side};
use crate::generate::{self, Class, Rng};
use crate::plan::{Plan, Task, Times};
use crate::proved::{Answer, Buffers, Calls, Checked, Ended, Genes, Given, Library, CELLS, MACHINES, PLACES, STRETCH};
use crate::published::{Decoder, Lines, Published};
use crate::read::read;
use crate::timing;

/// One measurement takes about so many seconds: the call is repeated until then.
const SECONDS: f64 = 0.02;

/// One timing is what a call with many timings takes more than one with few, so that taking the plan in plays no part.
const FEW: usize = 200;
const MANY: usize = 4_200;

#[derive(Clone, Copy, Debug, PartialEq, Eq)]
pub enum Work {
    /// Taking the plan in.
    Read,
    /// One timing of the order's lines.
    Time,
    Decode,
    /// With so many steps.
    Improve(u32),
}

impl Work {
    const ALL: [(&'static str, Work); 5] = [
        ("read", Work::Read),
        ("time", Work::Time),
        ("decode", Work::Decode),
        ("improve-60", Work::Improve(60)),
        ("improve-1000", Work::Improve(1_000)),
    ];

    pub fn named(name: &str) -> Result<Work, String> {
        let found = Work::ALL.into_iter().find(|(own, _)| *own == name);
        let known = || Work::ALL.map(|(own, _)| own).join(", ");
        found.map(|(_, work)| work).ok_or_else(|| format!("works are {}, not '{}'", known(), name.escape_debug()))
    }

    /// Instructions are those of a run with many calls less those of one with few.
    fn counted(self) -> [usize; 2] {
        match self {
            Work::Read => [1, 101],
            Work::Time => [100, 1_100],
            Work::Decode => [1, 51],
            Work::Improve(60) => [1, 6],
            Work::Improve(_) => [1, 2],
        }
    }

    fn name(self) -> &'static str {
        Work::ALL.into_iter().find(|(_, work)| *work == self).map_or("", |(name, _)| name)
    }
}

/// The plans, small to large; the last two are of one size.
const PLANS: [&str; 4] = ["ft06", "shop-10-10", "flexible-128", "setups-128"];

/// The generator's are those whose search makes 1,000 moves.
fn plan_named(name: &str) -> Result<Plan, String> {
    match name {
        "ft06" => Ok(ft06()),
        "shop-10-10" => Ok(generate::plan(899, Class::JobShop)),
        "flexible-128" => Ok(generate::plan(128, Class::Full)),
        "setups-128" => Ok(generate::plan(649, Class::Full)),
        _ => Err(format!("plans are {}, not '{}'", PLANS.join(", "), name.escape_debug())),
    }
}

/// The job shop of 6 x 6 that Fisher and Thompson published in 1963: machine and time of each job's steps. Its least makespan
/// is 55.
const FT06: [[(u32, u32); 6]; 6] = [
    [(2, 1), (0, 3), (1, 6), (3, 7), (5, 3), (4, 6)],
    [(1, 8), (2, 5), (4, 10), (5, 10), (0, 10), (3, 4)],
    [(2, 5), (3, 4), (5, 8), (0, 9), (1, 1), (4, 7)],
    [(1, 5), (0, 5), (2, 5), (3, 3), (4, 8), (5, 9)],
    [(2, 9), (1, 3), (4, 5), (5, 4), (0, 3), (3, 1)],
    [(1, 3), (3, 3), (5, 9), (0, 10), (4, 4), (2, 1)],
];

/// One candidate for each step, weight 0, and an order with a long search: it makes 84 moves, then all are forbidden.
fn ft06() -> Plan {
    let steps = FT06.concat();
    let mut order: Vec<u32> = (0..36).map(|k| k % 6).collect();
    Rng::new(72).shuffle(&mut order);
    Plan {
        tasks: vec![Task { category: 0, release: 0, deadline_flag: 0, deadline: 0, activities: 6 }; 6],
        activities: vec![0; steps.len()],
        transports: vec![vec![0; 6]; 6],
        times: steps.iter().flat_map(|&(_, process)| [Times { setup: 0, process, teardown: 0 }; 6]).collect(),
        candidates: (0..).zip(&steps).map(|(activity, &(machine, _))| (activity, machine)).collect(),
        setups: Vec::new(),
        predecessors: Vec::new(),
        weight: 0,
        steps: 0,
        order,
        assignment: steps.iter().map(|&(machine, _)| machine as i32).collect(),
    }
}

/// A plan as both sides take it.
struct Asked {
    work: Work,
    plan: Plan,
    bytes: Vec<u8>,
    published: Published,
    lines: Lines,
    given: Given,
}

/// Room for a call.
struct Lent {
    cells: Vec<usize>,
    genes: Genes,
    rows: Buffers,
}

impl Lent {
    fn new() -> Lent {
        let numbers = || vec![0usize; PLACES];
        let words = || vec![0u64; PLACES];
        let rows =
            Buffers { activities: numbers(), machines: numbers(), starts: words(), ends: words(), setups: words() };
        Lent { cells: vec![0; CELLS], genes: Genes { tasks: numbers(), machines: numbers() }, rows }
    }
}

impl Asked {
    fn new(work: Work, name: &str) -> Result<Asked, String> {
        let steps = match work {
            Work::Improve(steps) => steps,
            _ => 60,
        };
        let plan = Plan { steps, ..plan_named(name)? };
        let lines = timing::lines_of_order(&plan).map_err(|refused| format!("the order's lines are {refused}"))?;
        let mut given = Given { cells: vec![0; CELLS], lens: [0; MACHINES] };
        for (machine, line) in lines.iter().enumerate() {
            given.lens[machine] = line.len();
            given.cells[STRETCH * machine..][..line.len()].copy_from_slice(line);
        }
        Ok(Asked { work, bytes: plan.to_bytes(), published: Published::new(&plan), lines, given, plan })
    }

    /// So many times on one side; what is lent is made before, and what it takes is told in seconds.
    fn seconds(&self, side: Side, times: usize) -> Result<f64, String> {
        match side {
            Side::Rust => Ok(self.seconds_of_rust(times)),
            Side::Proved => Ok(self.seconds_of_library(library()?, times)),
        }
    }

    fn seconds_of_rust(&self, times: usize) -> f64 {
        if let Work::Improve(_) = self.work {
            return self.published.improve_again(times);
        }
        let begun = clock();
        if self.work == Work::Time {
            seen(self.published.time_again(&self.lines, times));
            return clock() - begun;
        }
        for _ in 0..times {
            match self.work {
                Work::Read => seen(read(black_box(&self.bytes))),
                _ => seen(black_box(&self.published).decode(Decoder::Better)),
            }
        }
        clock() - begun
    }

    fn seconds_of_library(&self, library: Library, times: usize) -> f64 {
        let mut lent = Lent::new();
        let begun = clock();
        if self.work == Work::Time {
            seen(library.time_again(&self.bytes, &self.given, times));
            return clock() - begun;
        }
        for _ in 0..times {
            let bytes = black_box(&self.bytes);
            match self.work {
                // Taken in, and then nothing is timed.
                Work::Read | Work::Time => seen(library.time_again(bytes, &self.given, 0)),
                Work::Decode => seen(library.decode(Decoder::Better, bytes, &mut lent.rows)),
                Work::Improve(_) => seen(library.improve(bytes, &mut lent.cells, &mut lent.genes)),
            }
        }
        clock() - begun
    }

    /// Microseconds of one time on each side, by turns.
    fn measured(&self) -> Result<Vec<[f64; 2]>, String> {
        if self.work != Work::Time {
            let once = self.seconds(Side::Rust, 1)?.max(self.seconds(Side::Proved, 1)?);
            let times = ((SECONDS / once) as usize).max(1);
            return by_turns(|side| Ok(self.seconds(side, times)? * 1e6 / times as f64));
        }
        // Of the short calls the quickest is taken away, since whatever disturbs a call makes it longer.
        let short = by_turns(|side| self.seconds(side, FEW))?;
        let few = [0, 1].map(|side| short.iter().map(|pair| pair[side]).fold(f64::INFINITY, f64::min));
        by_turns(|side| Ok((self.seconds(side, MANY)? - few[side as usize]) * 1e6 / (MANY - FEW) as f64))
    }

    /// Both sides must come to the same end.
    fn agree(&self) -> Result<(), String> {
        let (library, mut lent) = (library()?, Lent::new());
        let same = match self.work {
            Work::Read => read(&self.bytes).as_ref() == Ok(&self.plan),
            Work::Time => {
                let end = self.published.time_again(&self.lines, 1).map(|end| end as u64);
                end == Some(library.time_again(&self.bytes, &self.given, 1))
            }
            Work::Decode => {
                let sheet = self.published.decode(Decoder::Better);
                let due = Answer::Rows { count: sheet.rows.len(), fitness: sheet.fitness };
                library.decode(Decoder::Better, &self.bytes, &mut lent.rows) == due
            }
            Work::Improve(_) => {
                let improved = Published::new(&self.plan).improve();
                let due = Ended::Outcome { number: u64::from(improved.outcome), fitness: improved.fitness };
                library.improve(&self.bytes, &mut lent.cells, &mut lent.genes) == due
            }
        };
        same.then_some(()).ok_or_else(|| "the Rust and the library differ".to_string())
    }

    /// A line of the table.
    fn line(&self, plan: &str) -> Result<String, String> {
        self.agree().map_err(|why| format!("{} of {plan}: {why}", self.work.name()))?;
        let pairs = self.measured()?;
        let [rust, proved] = [0, 1].map(|side| Measured::new(pairs.iter().map(|pair| pair[side])));
        let ratios = Measured::new(pairs.iter().map(|[rust, proved]| proved / rust));
        let ratio = format!("{} {}", short(proved.median() / rust.median()), ratios.spread());
        let counted = match instructions(self.work.name(), plan, self.work.counted()) {
            Ok([rust, proved]) => format!("{rust:.0} | {proved:.0} | {}", short(proved / rust)),
            Err(why) => format!("not counted: {why} | |"),
        };
        Ok(format!(
            "| {} | `{plan}` | {} | {} | {ratio} | {counted} |\n",
            self.work.name(),
            rust.shown(),
            proved.shown()
        ))
    }
}

/// Its work cannot be left out.
fn seen<T>(answer: T) {
    drop(black_box(answer));
}

/// The library with every call that is measured.
fn library() -> Result<Library, String> {
    Library::linked(&[
        "lavkkesto_time",
        "lavkkesto_time_order",
        "lavkkesto_time_again",
        "lavkkesto_in_order",
        "lavkkesto_active",
        "lavkkesto_decode",
        "lavkkesto_check",
        "lavkkesto_improve",
    ])
}

/// Both tables, for some works or for all.
pub fn bench(works: &[&str]) -> Result<String, String> {
    library()?;
    let works: Vec<Work> = match works {
        [] => Work::ALL.map(|(_, work)| work).to_vec(),
        _ => works.iter().map(|name| Work::named(name)).collect::<Result<_, _>>()?,
    };
    let mut text =
        "| | plan | the Rust, us: median (least to greatest) | the library, us | ratio of the medians (of the \
                    repeats) | instructions, Rust | library | ratio |\n|---|---|---|---|---|---|---|---|\n"
            .to_string();
    for work in works {
        for plan in PLANS {
            text += &Asked::new(work, plan)?.line(plan)?;
        }
    }
    let _ = write!(text, "\n{}", stacks()?);
    Ok(text)
}

/// The table of the stack that each call takes, in bytes.
fn stacks() -> Result<String, String> {
    let library = library()?;
    let plans: Vec<Asked> = PLANS.iter().map(|plan| Asked::new(Work::Improve(60), plan)).collect::<Result<_, _>>()?;
    let heads = PLANS.map(|plan| format!(" `{plan}` |")).concat();
    let mut text = format!("| stack, bytes |{heads}\n|---|{}\n", "---|".repeat(PLANS.len()));
    let mut put = |name: &str, call: &(dyn Fn(&Asked) + Sync)| -> Result<(), String> {
        let taken: Vec<String> = plans
            .iter()
            .map(|plan| stack(|| call(plan)).map(|bytes| format!(" {bytes} |")))
            .collect::<Result<_, _>>()?;
        let _ = writeln!(text, "| {name} |{}", taken.concat());
        Ok(())
    };
    let into = |call: &dyn Fn(&mut Buffers) -> Answer| seen(call(&mut Lent::new().rows));
    put("`time`", &|asked| into(&|rows| library.time(&asked.bytes, &asked.given, rows)))?;
    put("`time_order`", &|asked| into(&|rows| library.time_order(&asked.bytes, rows)))?;
    put("`time_again`", &|asked| seen(library.time_again(&asked.bytes, &asked.given, 1)))?;
    put("`in_order`", &|asked| into(&|rows| library.decode(Decoder::InOrder, &asked.bytes, rows)))?;
    put("`active`", &|asked| into(&|rows| library.decode(Decoder::Active, &asked.bytes, rows)))?;
    put("`decode`", &|asked| into(&|rows| library.decode(Decoder::Better, &asked.bytes, rows)))?;
    put("`check`", &|asked| assert_eq!(library.check(&asked.bytes, &sheet_of(asked)), Checked::Accepted))?;
    put("`improve`", &|asked| {
        let Lent { mut cells, mut genes, .. } = Lent::new();
        seen(library.improve(&asked.bytes, &mut cells, &mut genes));
    })?;
    put("the Rust's timing", &|asked| seen(asked.published.time_again(&asked.lines, 1)))?;
    put("its decoders", &|asked| seen(asked.published.decode(Decoder::Better)))?;
    put("its `improve`", &|asked| seen(asked.published.improve_again(1)))?;
    Ok(text)
}

/// The rows of the order's timing, for the sheet check.
fn sheet_of(asked: &Asked) -> Vec<i64> {
    let rows = asked.published.time(&asked.lines).map_or(Vec::new(), |sheet| sheet.rows);
    rows.iter().flat_map(|row| [row.activity as i64, row.machine as i64, row.start, row.end]).collect()
}

/// One side alone, so often, for a count from outside.
pub fn only(side: Side, work: &str, plan: &str, times: usize) -> Result<String, String> {
    Asked::new(Work::named(work)?, plan)?.seconds(side, times)?;
    Ok(format!("{times}\n"))
}

#[cfg(test)]
mod tests {
    use super::*;

    fn plan(name: &str) -> Plan {
        plan_named(name).unwrap_or_else(|why| panic!("{why}"))
    }

    #[test]
    fn searches_make_as_many_moves_as_they_may() {
        for name in PLANS {
            for steps in [60, 1_000] {
                let made = Published::new(&Plan { steps, ..plan(name) }).replay().1.len();
                assert_eq!(made, if (name, steps) == ("ft06", 1_000) { 84 } else { steps as usize }, "{name}");
            }
        }
    }

    #[test]
    fn the_plans_are_what_they_are_called() {
        let shape = |plan: &Plan| (plan.tasks.len(), plan.transports.len(), plan.activities.len());
        assert_eq!(shape(&plan("shop-10-10")), (10, 10, 100));
        let (flexible, setups) = (plan("flexible-128"), plan("setups-128"));
        assert_eq!((shape(&flexible), flexible.candidates.len()), ((32, 16, 128), 2_048));
        assert!(flexible.setups.is_empty() && flexible.transports.iter().flatten().all(|&time| time == 0));
        assert_eq!((shape(&setups), setups.setups.len()), ((32, 16, 128), 1_152));
    }

    /// From this order the search comes to the least makespan that the shop is known for.
    #[test]
    fn ft06_is_the_published_shop() {
        let order = (0..36).map(|k| k / 2 % 6).collect();
        let improved = Published::new(&Plan { steps: 60, order, ..ft06() }).improve();
        assert_eq!(improved.fitness.map(f64::from_bits), Some(55.0));
    }
}
