//! What comes of many inputs: counts by class, and differences, the first of them with files that show them.

use std::collections::BTreeMap;
use std::fmt::Write;
use std::path::Path;

use crate::check::Report;
use crate::generate::{self, Class};
use crate::spread::part;

/// Where the inputs of differences are saved.
const FOLDER: &str = concat!(env!("CARGO_MANIFEST_DIR"), "/target/differences");

/// So many are told and saved; the others are counted.
const TOLD: usize = 10;

/// So many tallies are held at a time, however many inputs there are.
const HELD: usize = 10_000;

/// What came of some inputs.
pub struct Tally {
    pub inputs: u64,
    /// Inputs that no Rust problem can be, or whose setups rest on document 01.
    pub beyond: u64,
    /// How often each answer was due.
    pub counts: Vec<u64>,
    pub differences: Vec<Difference>,
}

pub struct Difference {
    pub what: String,
    /// What to save, each under the ending of its file's name.
    pub files: Vec<(&'static str, Vec<u8>)>,
}

impl Tally {
    pub fn new(columns: usize) -> Tally {
        Tally { inputs: 0, beyond: 0, counts: vec![0; columns], differences: Vec::new() }
    }

    pub fn add(&mut self, other: Tally) {
        self.inputs += other.inputs;
        self.beyond += other.beyond;
        self.counts.iter_mut().zip(other.counts).for_each(|(to, from)| *to += from);
        self.differences.extend(other.differences);
    }

    fn row(&self, name: &str) -> String {
        let counts: String = self.counts.iter().map(|count| format!("{count:>9}")).collect();
        format!("{name:<18}{:>8}{:>9}{counts}\n", self.inputs, self.beyond)
    }
}

/// A check by its name and its counts' names.
pub struct Table<'a> {
    pub name: &'a str,
    pub columns: &'a [&'a str],
}

impl Table<'_> {
    /// What came of the inputs, by class; `turn` gives class and seed of each number.
    pub fn tallies(
        &self,
        inputs: u64,
        turn: impl Fn(u64) -> (Class, u64) + Sync,
        of: impl Fn(Class, u64) -> Tally + Sync,
    ) -> Vec<(&'static str, Tally)> {
        let mut by_class: BTreeMap<usize, Tally> = BTreeMap::new();
        for begin in (0..inputs).step_by(HELD) {
            let tallies = part(self.name, begin..inputs.min(begin + HELD as u64), inputs, |k| {
                let (class, seed) = turn(k);
                of(class, seed)
            });
            for (k, tally) in (begin..).zip(tallies) {
                let (class, seed) = turn(k);
                let of_class = by_class.entry(class as usize).or_insert_with(|| Tally::new(self.columns.len()));
                of_class.add(tally.unwrap_or_else(|| self.crashed(class, seed)));
            }
        }
        by_class.into_iter().map(|(class, tally)| (Class::ALL[class].name(), tally)).collect()
    }

    /// A row for each tally; then the differences; then a line with the sum of the counts, called `counted`.
    pub fn report(&self, tallies: Vec<(&str, Tally)>, counted: &str) -> Result<Report, String> {
        let heads: String = self.columns.iter().map(|head| format!("{head:>9}")).collect();
        let mut text = format!("{:<18}{:>8}{:>9}{heads}\n", "class", "inputs", "beyond");
        let mut all = Tally::new(self.columns.len());
        for (name, tally) in tallies {
            text += &tally.row(name);
            all.add(tally);
        }
        text += &all.row("all");
        text += &told(&all.differences)?;
        let (sum, differences) = (all.counts.iter().sum::<u64>(), all.differences.len());
        let _ = writeln!(text, "{}: {} inputs, {sum} {counted}, {differences} differences", self.name, all.inputs);
        Ok(Report { text, differences })
    }

    fn crashed(&self, class: Class, seed: u64) -> Tally {
        let files = vec![("input", generate::plan(seed, class).to_bytes())];
        let what = format!("{} {seed}: a crash", class.name());
        Tally { inputs: 1, differences: vec![Difference { what, files }], ..Tally::new(self.columns.len()) }
    }
}

/// All classes take turns.
pub fn in_turns(k: u64) -> (Class, u64) {
    let classes = Class::ALL.len() as u64;
    (Class::ALL[(k % classes) as usize], k / classes)
}

/// A line for each of the first differences; what shows them is saved.
pub fn told(differences: &[Difference]) -> Result<String, String> {
    // What an earlier run saved would be taken for this one's.
    let _ = std::fs::remove_dir_all(FOLDER);
    let lines = differences.iter().take(TOLD).enumerate().map(|each| Ok(format!("difference: {}\n", saved(each)?)));
    lines.collect()
}

/// The difference with the names of the files that show it.
fn saved((k, difference): (usize, &Difference)) -> Result<String, String> {
    let failed = |path: &Path, why: std::io::Error| format!("{}: {why}", path.display());
    let folder = Path::new(FOLDER);
    std::fs::create_dir_all(folder).map_err(|why| failed(folder, why))?;
    let mut told = difference.what.clone();
    for (ending, bytes) in &difference.files {
        let path = folder.join(format!("{}.{ending}", k + 1));
        std::fs::write(&path, bytes).map_err(|why| failed(&path, why))?;
        let _ = write!(told, "; {ending} saved as {}", path.display());
    }
    Ok(told)
}
