//! `check`: many generated inputs through the published Rust in every mode, each answer held against another way to
//! it; damaged inputs through two readers; the paper's own plan; the named plans.

use std::collections::BTreeMap;
use std::fmt::Write;
use std::path::Path;

use crate::damage;
use crate::generate::{self, Class};
use crate::judge::judge;
use crate::modes::{answer, run_on_lines, Mode};
use crate::paper::{plan_s, OUTCOMES_OF_S, PRINT_OF_S};
use crate::plan::Plan;
use crate::published::{Decoder, Published};
use crate::read::{read, Refused};
use crate::spread::spread;
use crate::text;

/// The named plans of this package.
pub const PLANS: &str = concat!(env!("CARGO_MANIFEST_DIR"), "/plans");

/// A text for standard output, and how many differences it tells.
pub struct Report {
    pub text: String,
    pub differences: usize,
}

/// What came of the inputs of one class.
#[derive(Clone, Default)]
struct Tally {
    inputs: u64,
    /// How often `improve` ended with 10 to 14.
    outcomes: [u64; 5],
    /// Of 13 and 14: how often the sheet's fitness is not the best line fitness.
    apart: u64,
    /// Of 14: how often the sheet got worse.
    worse: u64,
    /// How often a damaged input was accepted after all, or refused with 1 to 5.
    damaged: [u64; 6],
    differences: Vec<String>,
}

/// Runs `inputs` generated inputs, spread over all classes. An error is about the plans' folder.
pub fn check(inputs: u64) -> Result<Report, String> {
    let plans = named_plans(Path::new(PLANS))?;
    let mut differences = differences_of_s();
    differences.extend(plans.iter().flat_map(|(name, text)| difference_of_plan(name, text)));
    let damaged = of_damages(&mut differences);
    let mut by_class: BTreeMap<usize, Tally> = BTreeMap::new();
    for (k, tally) in generated(inputs) {
        add(by_class.entry(k).or_default(), tally);
    }

    let mut text = format!("{:<18}{:>8}{:>40}   |{:>48}\n", "", "", "outcome of improve", "refused, when damaged");
    let numbers = |heads: &[&str]| heads.iter().map(|head| format!("{head:>8}")).collect::<String>();
    let (outcomes, refusals) = (numbers(&["10", "11", "12", "13", "14"]), numbers(&["no", "1", "2", "3", "4", "5"]));
    let _ = writeln!(text, "{:<18}{:>8}{outcomes}   |{refusals}", "class", "inputs");
    let mut all = Tally::default();
    for (k, tally) in by_class {
        put_row(&mut text, Class::ALL[k].name(), &tally);
        add(&mut all, tally);
    }
    put_row(&mut text, "all", &all);
    let (searched, improved) = (all.outcomes[3] + all.outcomes[4], all.outcomes[4]);
    let _ = writeln!(text, "line fitness is not the sheet's: {} of {searched} with outcome 13 or 14", all.apart);
    let _ = writeln!(text, "the sheet got worse: {} of {improved} with outcome 14", all.worse);
    differences.append(&mut all.differences);
    let _ = writeln!(text, "every damage of the samples: {damaged} inputs refused as said by both readers");
    let _ = writeln!(text, "named plans: {}; Plan S with steps 0, 1, 2, 60", plans.len());
    for difference in &differences {
        let _ = writeln!(text, "difference: {difference}");
    }
    let _ = writeln!(text, "check: {inputs} inputs, {} differences", differences.len());
    Ok(Report { text, differences: differences.len() })
}

fn put_row(text: &mut String, name: &str, tally: &Tally) {
    let outcomes = tally.outcomes.map(|count| format!("{count:>8}")).concat();
    let damaged = tally.damaged.map(|count| format!("{count:>8}")).concat();
    let _ = writeln!(text, "{name:<18}{:>8}{outcomes}   |{damaged}", tally.inputs);
}

fn add(to: &mut Tally, from: Tally) {
    to.inputs += from.inputs;
    to.outcomes.iter_mut().zip(from.outcomes).for_each(|(to, from)| *to += from);
    to.damaged.iter_mut().zip(from.damaged).for_each(|(to, from)| *to += from);
    to.apart += from.apart;
    to.worse += from.worse;
    to.differences.extend(from.differences);
}

// ------------------------------------------------------------------------------------------- generated inputs

/// The class and the seed of the k-th input. All classes take turns; the full size, which takes as long as hundreds
/// of others, has every fourth turn of its own.
pub fn turn(k: u64) -> (Class, u64) {
    let classes = Class::ALL.len() as u64;
    match (Class::ALL[(k % classes) as usize], k / classes) {
        (Class::Full, round) if round % 4 != 0 => (Class::Tiny, (1 << 32) + round),
        turn => turn,
    }
}

/// What came of each input, with its class.
fn generated(inputs: u64) -> Vec<(usize, Tally)> {
    let tallies = spread("check", inputs, |k| {
        let (class, seed) = turn(k);
        of_input(class, seed)
    });
    let with_class = |(k, tally): (usize, Option<Tally>)| {
        let (class, seed) = turn(k as u64);
        (class as usize, tally.unwrap_or_else(|| crashed(class, seed)))
    };
    tallies.into_iter().enumerate().map(with_class).collect()
}

fn crashed(class: Class, seed: u64) -> Tally {
    Tally { inputs: 1, differences: vec![format!("{} {seed}: a crash", class.name())], ..Tally::default() }
}

fn of_input(class: Class, seed: u64) -> Tally {
    let plan = generate::plan(seed, class);
    let bytes = plan.to_bytes();
    let mut found = Vec::new();
    if read(&bytes) != Ok(plan.clone()) || judge(&bytes) != Ok(()) {
        found.push("is not accepted by both readers".to_string());
    }
    if text::show(&bytes).map(|text| text::parse(&text)) != Ok(Ok(bytes.clone())) {
        found.push("does not come back from its text".to_string());
    }
    let mut tally = Tally { inputs: 1, ..Tally::default() };
    of_modes(&plan, &bytes, &mut tally, &mut found);
    of_lines(&plan, seed, &mut found);
    // The classes' damages are to differ too.
    let damaged = damage::damage(&bytes, seed ^ (class as u64) << 40);
    tally.damaged[of_damage(&damaged, &mut found)] += 1;
    tally.differences = found.into_iter().map(|what| format!("{} {seed}: {what}", class.name())).collect();
    tally
}

/// Every mode, and what two of them must have in common.
fn of_modes(plan: &Plan, bytes: &[u8], tally: &mut Tally, found: &mut Vec<String>) {
    let mut prints = BTreeMap::new();
    for (name, mode) in Mode::ALL {
        match answer(bytes, mode, None) {
            Ok(print) => drop(prints.insert(name, print)),
            Err(message) => found.push(format!("{name}: {message}")),
        }
    }
    let print = |name| prints.get(name).map_or("", String::as_str);
    let mut published = Published::new(plan);
    let [before, in_order, active] = [Decoder::Better, Decoder::InOrder, Decoder::Active].map(|d| published.decode(d));
    let improved = published.improve();
    let after = published.decode(Decoder::Better);
    tally.outcomes[improved.outcome as usize - 10] += 1;
    tally.apart += u64::from(improved.fitness.is_some_and(|fitness| fitness != after.fitness));
    tally.worse += u64::from(f64::from_bits(after.fitness) > f64::from_bits(before.fitness));
    let mut must = |holds: bool, what: &str| {
        if !holds {
            found.push(what.to_string());
        }
    };
    must(print("agree") == "agree\n", print("agree").trim_end());
    must(print("improve") == improved.to_string(), "improve differs between two runs");
    must(print("trace").ends_with(print("improve")), "the trace ends otherwise than improve");
    must(print("program") == format!("outcome {}\n{after}", improved.outcome), "program prints another sheet");
    must(improved.outcome == 14 || before == after, "another sheet without outcome 14");
    let better = f64::from_bits(active.fitness) < f64::from_bits(in_order.fitness);
    must(before == if better { active } else { in_order }, "decode is not the better sheet");
    let not_held = print("held").lines().any(|line| line.starts_with("not held"));
    must(not_held != generate::held_by_rust(plan), "the two tests of what the Rust holds differ");
    if improved.outcome == 14 {
        let placed = published.decode(Decoder::InOrder);
        must(Some(placed.fitness) == improved.fitness, "the new order does not place to the best line fitness");
    }
}

/// `time` and `step` on given lines: both refuse, or both answer with one fitness.
fn of_lines(plan: &Plan, seed: u64, found: &mut Vec<String>) {
    let lines = generate::lines(seed, plan);
    let [time, step] = [Mode::Time, Mode::Step].map(|mode| run_on_lines(plan, mode, &lines));
    if time.lines().next() != step.lines().next() {
        found.push("time and step differ on given lines".to_string());
    }
}

// -------------------------------------------------------------------------------------------- damaged inputs

/// The number that a damaged input is refused with, 0 if it is accepted.
fn of_damage(bytes: &[u8], found: &mut Vec<String>) -> usize {
    let judged = judge(bytes);
    match read(bytes) {
        Ok(plan) => {
            if judged != Ok(()) || plan.to_bytes() != bytes {
                found.push(format!("a damage is accepted, and judged {judged:?}"));
            }
            let differences = Published::differences(&plan);
            found.extend(differences.into_iter().map(|difference| format!("after a damage: {difference}")));
            0
        }
        Err(refused) => {
            if judged != Err((refused.number, refused.place)) {
                found.push(format!("a damage is {refused}, and judged {judged:?}"));
            }
            refused_everywhere(bytes, refused, found);
            refused.number as usize
        }
    }
}

/// Every mode prints the refusal.
fn refused_everywhere(bytes: &[u8], refused: Refused, found: &mut Vec<String>) {
    for (name, mode) in Mode::ALL {
        if answer(bytes, mode, None) != Ok(format!("{refused}\n")) {
            found.push(format!("{name} does not print {refused}"));
        }
    }
}

/// Every damage of the sample and of small plans of every class, each with the refusal that is due; their number.
fn of_damages(differences: &mut Vec<String>) -> usize {
    let small = |class| (0..8).map(move |seed| generate::plan(seed, class)).find(|plan| plan.activities.len() < 10);
    let samples = std::iter::once(damage::sample()).chain(Class::ALL.into_iter().filter_map(small));
    let mut number = 0;
    for damaged in samples.flat_map(|plan| damage::every_refusal(&plan)) {
        let due = Refused { number: damaged.number, place: damaged.place };
        let mut found = Vec::new();
        if judge(&damaged.bytes) != Err((due.number, due.place)) {
            found.push(format!("not judged {due}"));
        }
        refused_everywhere(&damaged.bytes, due, &mut found);
        differences.extend(found.into_iter().map(|what| format!("{}: {what}", damaged.name)));
        number += 1;
    }
    number
}

// ----------------------------------------------------------------------------- the paper's plan, named plans

fn differences_of_s() -> Vec<String> {
    let mut found = Vec::new();
    for (steps, wanted) in OUTCOMES_OF_S {
        let print = answer(&plan_s(steps).to_bytes(), Mode::Improve, None);
        if print.as_deref() != Ok(wanted) {
            found.push(format!("Plan S with steps {steps}: {print:?}, not {wanted:?}"));
        }
    }
    let print = answer(&plan_s(60).to_bytes(), Mode::Program, None);
    if print.as_deref() != Ok(PRINT_OF_S) {
        found.push(format!("Plan S: {print:?}"));
    }
    found
}

/// The texts of a folder's plans, by name.
pub fn named_plans(folder: &Path) -> Result<BTreeMap<String, String>, String> {
    let failed = |path: &Path, why: std::io::Error| format!("{}: {why}", path.display());
    let mut plans = BTreeMap::new();
    for entry in std::fs::read_dir(folder).map_err(|why| failed(folder, why))? {
        let path = entry.map_err(|why| failed(folder, why))?.path();
        if let (Some(name), true) = (path.file_stem(), path.extension().is_some_and(|extension| extension == "plan")) {
            let text = std::fs::read_to_string(&path).map_err(|why| failed(&path, why))?;
            plans.insert(name.to_string_lossy().into_owned(), text);
        }
    }
    Ok(plans)
}

/// A plan must say its print, and the Rust must give it.
fn difference_of_plan(name: &str, text: &str) -> Option<String> {
    let bytes = match text::parse(text) {
        Ok(bytes) => bytes,
        Err(error) => return Some(format!("{name}.plan: {error}")),
    };
    let print = answer(&bytes, Mode::Program, None);
    let wanted = text::expected_print(text);
    (print.as_ref().ok() != wanted.as_ref()).then(|| format!("{name}.plan prints {print:?}, and says {wanted:?}"))
}
