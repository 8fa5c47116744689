//! Stored answers, for tests that have no Rust at hand: `store` chooses inputs and writes the Rust's answers beside
//! them, `check` runs the stored inputs again, `replay` writes them for the proved program that prints their sheets. The
//! README describes the files.

use std::collections::{BTreeMap, BTreeSet};
use std::fmt::Write;
use std::path::Path;

use crate::check::{named_plans, Report, PLANS};
use crate::damage::{self, every_refusal};
use crate::generate::{self, Class};
use crate::lines;
use crate::modes::{answer, Mode};
use crate::plan::{Plan, Setup, Task, Times};
use crate::published::{beyond_the_rust, Decoder, Published};
use crate::read::read;
use crate::text;

/// Where the answers of this package lie.
pub const FOLDER: &str = concat!(env!("CARGO_MANIFEST_DIR"), "/answers");

/// Where the proved program that prints the stored plans' sheets has its input and the print due.
pub const REPLAYED: &str = concat!(env!("CARGO_MANIFEST_DIR"), "/../crates/replayed");

/// A file is closed before it would grow beyond this; one long case may.
const LONGEST_FILE: usize = 140_000;

/// An input, for `time` also with lines as words.
#[derive(Clone)]
struct Case {
    name: String,
    input: Vec<u8>,
    lines: Option<Vec<u8>>,
}

impl Case {
    fn of(name: String, plan: &Plan) -> Case {
        Case { name, input: plan.to_bytes(), lines: None }
    }

    /// The stored modes' prints, each after the mode's name; on given lines, of `time` alone.
    fn prints(&self) -> Result<String, String> {
        let stored = Mode::ALL[..Mode::STORED].iter();
        let mut prints = String::new();
        for &(name, mode) in stored.filter(|(_, mode)| self.lines.is_none() || mode.takes_lines()) {
            let _ = write!(prints, "{name}\n{}", answer(&self.input, mode, self.lines.as_deref())?);
        }
        Ok(prints)
    }

    /// Why the answers rest on document 01 and not on the Rust; nothing if they are the Rust's.
    fn rests_on_the_paper(&self, prints: &str) -> Vec<String> {
        match read(&self.input) {
            Err(_) => vec!["refused: the Rust has no such answer".to_string()],
            Ok(_) if prints == "time\nrefused 7 0\n" => vec!["refused: the Rust has no such answer".to_string()],
            Ok(plan) => beyond_the_rust(&plan),
        }
    }
}

// ------------------------------------------------------------------------------------------------- the files

/// Chooses the inputs, runs them and writes the files; says what was written.
pub fn store(folder: &Path) -> Result<String, String> {
    let failed = |why: std::io::Error| format!("{}: {why}", folder.display());
    std::fs::create_dir_all(folder).map_err(failed)?;
    let files = files()?;
    for name in stored_files(folder)?.into_keys().filter(|name| !files.contains_key(name)) {
        std::fs::remove_file(folder.join(name)).map_err(failed)?;
    }
    let mut said = String::new();
    let mut all = 0;
    for (name, file) in &files {
        std::fs::write(folder.join(name), file).map_err(failed)?;
        let cases = file.lines().filter(|line| line.starts_with("case ")).count();
        let _ = writeln!(said, "{name:<34}{cases:>6} cases{:>9} bytes", file.len());
        all += cases;
    }
    let bytes: usize = files.values().map(String::len).sum();
    let _ = writeln!(said, "store: {all} cases in {} files, {bytes} bytes", files.len());
    Ok(said)
}

/// Every file by its name.
fn files() -> Result<BTreeMap<String, String>, String> {
    let mut parts: BTreeMap<String, Vec<String>> = BTreeMap::new();
    for (group, cases) in groups()? {
        for case in cases {
            let prints = case.prints()?;
            let reasons = case.rests_on_the_paper(&prints);
            let source = if reasons.is_empty() { "rust" } else { "document" };
            let files = parts.entry(format!("{source}-{group}")).or_default();
            let text = shown(&case, &reasons, &prints);
            match files.last_mut() {
                Some(last) if last.len() + text.len() <= LONGEST_FILE => last.push_str(&text),
                _ => files.push(text),
            }
        }
    }
    let numbered = |(name, files): (String, Vec<String>)| {
        files.into_iter().enumerate().map(move |(k, file)| (format!("{name}-{}.txt", k + 1), file))
    };
    Ok(parts.into_iter().flat_map(numbered).collect())
}

fn shown(case: &Case, reasons: &[String], prints: &str) -> String {
    let mut text = String::new();
    reasons.iter().for_each(|reason| text.extend(["# ", reason, "\n"]));
    let _ = writeln!(text, "case {}\ninput {}", case.name, hex(&case.input));
    if let Some(lines) = &case.lines {
        let _ = writeln!(text, "lines {}", hex(lines));
    }
    text + prints + "end\n"
}

fn hex(bytes: &[u8]) -> String {
    bytes.iter().map(|byte| format!("{byte:02x}")).collect()
}

/// The `.txt` files of a folder.
fn stored_files(folder: &Path) -> Result<BTreeMap<String, String>, String> {
    let failed = |path: &Path, why: std::io::Error| format!("{}: {why}", path.display());
    let mut files = BTreeMap::new();
    for entry in std::fs::read_dir(folder).map_err(|why| failed(folder, why))? {
        let path = entry.map_err(|why| failed(folder, why))?.path();
        if let (Some(name), true) = (path.file_name(), path.extension().is_some_and(|extension| extension == "txt")) {
            let file = std::fs::read_to_string(&path).map_err(|why| failed(&path, why))?;
            files.insert(name.to_string_lossy().into_owned(), file);
        }
    }
    Ok(files)
}

// ------------------------------------------------------------------------------------------------ once more

/// Runs every stored input again. An error is about the folder or the form of a file.
pub fn check(folder: &Path) -> Result<Report, String> {
    let files = stored_files(folder)?;
    if files.is_empty() {
        return Err(format!("{}: no stored answers", folder.display()));
    }
    let mut differences = Vec::new();
    let mut names = BTreeSet::new();
    let mut number = 0;
    for (file, stored) in &files {
        for (case, stored) in cases_of(stored).map_err(|message| format!("{file}: {message}"))? {
            number += 1;
            let prints = case.prints().map_err(|message| format!("{file}: case {}: {message}", case.name))?;
            if shown(&case, &case.rests_on_the_paper(&prints), &prints) != stored {
                differences.push(format!("{file}: case {} has other answers", case.name));
            }
            if case.rests_on_the_paper(&prints).is_empty() != file.starts_with("rust-") {
                differences.push(format!("{file}: case {} belongs elsewhere", case.name));
            }
            if !names.insert((file, case.name.clone())) {
                differences.push(format!("{file}: case {} stands twice", case.name));
            }
        }
    }
    let mut text: String = differences.iter().map(|difference| format!("difference: {difference}\n")).collect();
    let _ = writeln!(text, "answers-check: {number} cases in {} files, {} differences", files.len(), differences.len());
    Ok(Report { text, differences: differences.len() })
}

/// The cases of a file, each with all its lines.
fn cases_of(file: &str) -> Result<Vec<(Case, String)>, String> {
    let mut cases = Vec::new();
    let mut stored = String::new();
    let mut case = Case { name: String::new(), input: Vec::new(), lines: None };
    for (k, line) in file.lines().enumerate() {
        let bytes = |digits| unhex(digits).ok_or_else(|| format!("line {}: no pairs of hex digits", k + 1));
        stored.extend([line, "\n"]);
        match line.split_once(' ').unwrap_or((line, "")) {
            ("case", name) => case.name = name.to_string(),
            ("input", digits) => case.input = bytes(digits)?,
            ("lines", digits) => case.lines = Some(bytes(digits)?),
            ("end", "") => {
                cases.push((case.clone(), std::mem::take(&mut stored)));
                case.lines = None;
            }
            _ => {}
        }
    }
    match stored.is_empty() {
        true => Ok(cases),
        false => Err("ends inside a case".to_string()),
    }
}

fn unhex(digits: &str) -> Option<Vec<u8>> {
    let byte = |pair: &[u8]| u8::from_str_radix(std::str::from_utf8(pair).ok()?, 16).ok();
    let known = digits.len() % 2 == 0 && digits.bytes().all(|digit| digit.is_ascii_hexdigit());
    known.then(|| digits.as_bytes().chunks(2).map(byte).collect()).flatten()
}

// --------------------------------------------------------------------------------- for the program `replayed`

/// The longest plan that the program takes.
const LONGEST_PLAN: usize = 65_536;

/// Writes the stored plans of a folder as the program takes them, each after its length, and what it has to print: what
/// mode `program` prints for each now, which must be what is stored. Says how many there are.
pub fn replay(answers: &Path, folder: &Path) -> Result<String, String> {
    let (mut stdin, mut stdout) = (Vec::new(), String::new());
    let mut number = 0;
    for (file, stored) in stored_files(answers)? {
        let of_file = |message: String| format!("{file}: {message}");
        for (case, stored) in cases_of(&stored).map_err(of_file)? {
            if case.lines.is_some() {
                continue;
            }
            let print = answer(&case.input, Mode::Program, None).map_err(of_file)?;
            if !stored.contains(&format!("\nprogram\n{print}improve\n")) {
                return Err(of_file(format!("case {}: the stored print is not what `program` prints", case.name)));
            }
            if case.input.len() > LONGEST_PLAN {
                return Err(of_file(format!("case {}: longer than the program takes", case.name)));
            }
            stdin.extend((case.input.len() as u32).to_le_bytes());
            stdin.extend(&case.input);
            stdout.push_str(&print);
            number += 1;
        }
    }
    let said = format!("replay: {number} plans, {} bytes to read, {} to print\n", stdin.len(), stdout.len());
    for (name, bytes) in [("stdin", stdin), ("stdout", stdout.into_bytes())] {
        let path = folder.join(name);
        std::fs::write(&path, bytes).map_err(|why| format!("{}: {why}", path.display()))?;
    }
    Ok(said)
}

// ----------------------------------------------------------------------------------------------- the choice

/// The inputs by group.
fn groups() -> Result<Vec<(&'static str, Vec<Case>)>, String> {
    let mut plans = Vec::new();
    let mut timed = Vec::new();
    for (name, written) in named_plans(Path::new(PLANS))? {
        let input = text::parse(&written).map_err(|error| format!("{name}.plan: {error}"))?;
        let given = text::lines(&written).map_err(|error| format!("{name}.plan: {error}"))?;
        if let Some(given) = given {
            timed.push(Case { name: name.clone(), input: input.clone(), lines: Some(lines::to_bytes(&given)) });
        }
        plans.push(Case { name, input, lines: None });
    }
    timed.extend(on_lines());
    Ok(vec![
        ("plans", plans),
        ("small", Class::ALL.into_iter().flat_map(small).collect()),
        ("chosen", chosen()),
        ("large", large()),
        ("lines", timed),
        ("refused", refused()),
    ])
}

/// The first plans of a class, by seed, that hold some wish.
fn first(class: Class, number: usize, name: &str, wish: impl Fn(&Plan) -> bool) -> Vec<Case> {
    let seeds = (0..2_000).map(|seed| (seed, generate::plan(seed, class)));
    let found = seeds.filter(|(_, plan)| wish(plan)).take(number);
    found.map(|(seed, plan)| Case::of(format!("{name}{}-{seed}", class.name()), &plan)).collect()
}

fn is_small(plan: &Plan) -> bool {
    plan.to_words().len() <= 200
}

/// Sixteen small plans of a class. Those that no search is made for are few.
fn small(class: Class) -> Vec<Case> {
    let most = [1, 3, 3, 5, 16];
    let mut outcomes = [0; 5];
    let mut cases = Vec::new();
    for seed in 0..500 {
        let plan = generate::plan(seed, class);
        if cases.len() == 16 || !is_small(&plan) {
            continue;
        }
        let outcome = Published::new(&plan).improve().outcome as usize - 10;
        let known_for = class == Class::Contrary && outcome == 2 || class == Class::Gaps && outcome == 1;
        if outcomes[outcome] < most[outcome] || known_for {
            outcomes[outcome] += 1;
            cases.push(Case::of(format!("{}-{seed}", class.name()), &plan));
        }
    }
    cases
}

/// Plans at which a port slips easily.
fn chosen() -> Vec<Case> {
    let long = |plan: &Plan| {
        let (improved, made) = Published::new(plan).replay();
        is_small(plan) && improved.outcome == 14 && made.len() >= 60
    };
    let searched = [Class::Tiny, Class::JobShop, Class::Flexible, Class::Ties, Class::Setups, Class::Transports];
    let mut cases: Vec<Case> = searched.into_iter().flat_map(|class| first(class, 3, "many-steps-", long)).collect();
    cases.extend(first(Class::Waits, 3, "many-steps-", long));
    cases.extend(first(Class::Large, 2, "many-steps-", long));
    let contradicts = |plan: &Plan| is_small(plan) && Published::new(plan).improve().outcome == 12;
    cases.extend(first(Class::Contrary, 4, "outcome-12-", contradicts));
    cases.extend(first(Class::Waits, 2, "outcome-12-", contradicts));
    cases.extend(first(Class::Genes, 10, "absent-tasks-tie-", |plan| is_small(plan) && absent_tasks_tie(plan)));
    let empty_wins = |plan: &Plan| {
        let [better, in_order] = [Decoder::Better, Decoder::InOrder].map(|d| Published::new(plan).decode(d).rows.len());
        is_small(plan) && better == 0 && in_order > 0
    };
    cases.extend(first(Class::Gaps, 6, "empty-active-sheet-wins-", empty_wins));
    let leaves_out = |plan: &Plan| {
        let [in_order, active] = [Decoder::InOrder, Decoder::Active].map(|d| Published::new(plan).decode(d).rows.len());
        is_small(plan) && 0 < active && active < in_order
    };
    cases.extend(first(Class::Gaps, 6, "active-leaves-out-", leaves_out));
    cases
}

/// Whether the active decoder places, next to one another on a machine, activities of an earlier and of a later task
/// that the Order both leaves out: their ranks are equal.
fn absent_tasks_tie(plan: &Plan) -> bool {
    let task_of: Vec<usize> =
        plan.tasks.iter().enumerate().flat_map(|(task, entry)| vec![task; entry.activities as usize]).collect();
    let step = |a: usize| task_of[..a].iter().filter(|&&task| task == task_of[a]).count();
    let namings = |a: usize| plan.order.iter().filter(|&&task| task as usize == task_of[a]).count();
    let absent = |a: usize| namings(a) <= step(a);
    let rows = Published::new(plan).decode(Decoder::Active).rows;
    rows.iter().enumerate().any(|(k, row)| {
        let next = rows[k + 1..].iter().find(|next| next.machine == row.machine);
        next.is_some_and(|next| {
            let tie = absent(row.activity) && absent(next.activity) && task_of[row.activity] < task_of[next.activity];
            tie && next.start == row.end && row.end > row.start
        })
    })
}

/// Some of 40 activities, one of the full size, and the longest input there is.
fn large() -> Vec<Case> {
    let forty = |plan: &Plan| plan.activities.len() >= 38 && plan.to_words().len() <= 900 && plan.steps >= 20;
    let held = |plan: &Plan| beyond_the_rust(plan).is_empty();
    let improved = |plan: &Plan| held(plan) && Published::new(plan).improve().outcome == 14;
    let mut cases = Vec::new();
    for class in [Class::Medium, Class::JobShop, Class::Flexible, Class::Waits, Class::Transports] {
        cases.extend(first(class, 1, "", |plan| forty(plan) && improved(plan)));
    }
    let bare = |plan: &Plan| plan.candidates.len() <= 600 && plan.setups.is_empty() && plan.steps >= 60;
    cases.extend(first(Class::Full, 1, "", |plan| bare(plan) && improved(plan)));
    cases.push(Case::of("longest-input".to_string(), &generate::longest_input()));
    cases
}

/// Lines given to timing: timed, contradicting, and not lines at all.
fn on_lines() -> Vec<Case> {
    let mut cases = Vec::new();
    for class in [Class::Tiny, Class::Waits, Class::Transports, Class::Setups] {
        let small = (0..500).map(|seed| (seed, generate::plan(seed, class))).filter(|(_, plan)| is_small(plan));
        for (seed, plan) in small.take(16) {
            let lines = lines::to_bytes(&generate::lines(seed, &plan));
            cases.push(Case { lines: Some(lines), ..Case::of(format!("lines-{}-{seed}", class.name()), &plan) });
        }
    }
    cases
}

/// Every damage of a plan of two activities (of the cuts inside a word some), and every sixth of the larger sample's
/// that is no cut and no range.
fn refused() -> Vec<Case> {
    let mut cases = Vec::new();
    for (k, damaged) in every_refusal(&two_activities()).into_iter().enumerate() {
        let inside = damaged.name.starts_with("cut") && damaged.bytes.len() % 4 != 0;
        if !inside || k % 7 == 0 {
            cases.push(Case { name: joined(&damaged.name), input: damaged.bytes, lines: None });
        }
    }
    let others = every_refusal(&damage::sample()).into_iter();
    let others = others.filter(|damaged| !damaged.name.starts_with("cut") && !damaged.name.starts_with("range"));
    for damaged in others.step_by(6) {
        cases.push(Case { name: joined(&format!("sample {}", damaged.name)), input: damaged.bytes, lines: None });
    }
    cases
}

/// Letters and digits, everything else a dash.
fn joined(name: &str) -> String {
    let words = name.split(|c: char| !c.is_ascii_alphanumeric()).filter(|word| !word.is_empty());
    words.collect::<Vec<_>>().join("-").to_lowercase()
}

/// A small plan with an entry in every section.
fn two_activities() -> Plan {
    let task = |deadline_flag, deadline| Task { category: 1, release: 0, deadline_flag, deadline, activities: 1 };
    let setup = |previous, setup| Setup { machine: 0, previous, category: 1, setup };
    Plan {
        tasks: vec![task(0, 0), task(1, -3)],
        activities: vec![0, 2],
        transports: vec![vec![0, 1], vec![2, 0]],
        times: vec![Times { setup: 0, process: 3, teardown: 1 }; 4],
        candidates: vec![(0, 0), (0, 1), (1, 0)],
        setups: vec![setup(1, 1), setup(8, 4)],
        predecessors: vec![(0, 1)],
        weight: 0.5f64.to_bits(),
        steps: 60,
        order: vec![0, 1],
        assignment: vec![0, 1],
    }
}
