//! From the stored form of a plan to its text.

use super::{Owners, ACTIVITIES, CANDIDATES, MACHINES, NOTHING_BEFORE, ORDER};
use super::{PREDECESSORS, SEARCH, SECTIONS, SETUPS, TASKS, TIMES};
use std::fmt;
use std::fmt::Write;

/// How many numbers `show` puts on a line of Order and Assignment.
const NUMBERS_A_LINE: usize = 16;

/// The text of a stored plan. Any values will do, but every section must have the entries that its count says;
/// else the error tells the byte where the first missing word should start. Bytes after the plan are shown as
/// damage.
pub fn show(bytes: &[u8]) -> Result<String, String> {
    let mut words = Words { bytes, at: 0, section: TASKS, count: 0 };
    let mut text = String::new();
    let mut owners = Owners::default();
    let mut machines = 0;
    for (section, name) in SECTIONS.iter().enumerate() {
        let count = words.begin(section)?;
        put(&mut text, format_args!("{name}"));
        match section {
            TASKS => show_tasks(&mut words, &mut text, &mut owners)?,
            ACTIVITIES => show_activities(&mut words, &mut text, &mut owners)?,
            MACHINES => {
                machines = count as usize;
                show_machines(&mut words, &mut text)?;
            }
            TIMES => show_times(&mut words, &mut text, machines)?,
            CANDIDATES => show_candidates(&mut words, &mut text)?,
            SETUPS => show_setups(&mut words, &mut text)?,
            PREDECESSORS => show_predecessors(&mut words, &mut text)?,
            SEARCH => show_search(&mut words, &mut text)?,
            _ => show_numbers(&mut words, &mut text, section)?,
        }
    }
    let stray = &bytes[words.at..];
    if !stray.is_empty() {
        put(&mut text, format_args!("damage"));
        for part in stray.chunks(NUMBERS_A_LINE) {
            let part: Vec<String> = part.iter().map(|byte| format!("{byte:02x}")).collect();
            put(&mut text, format_args!("  stray bytes {}", part.join(" ")));
        }
    }
    Ok(text)
}

/// Adds a line. Writing to a String cannot fail.
fn put(text: &mut String, line: fmt::Arguments<'_>) {
    let _ = writeln!(text, "{line}");
}

/// The words of a stored plan, read one after the other.
struct Words<'a> {
    bytes: &'a [u8],
    at: usize,
    section: usize,
    count: u32,
}

impl Words<'_> {
    fn begin(&mut self, section: usize) -> Result<u32, String> {
        self.section = section;
        let Some(count) = self.take() else {
            return Err(format!("byte {}: the count word of {} {}", self.at, SECTIONS[section], self.lack()));
        };
        self.count = count;
        Ok(count)
    }

    fn take(&mut self) -> Option<u32> {
        let word = self.bytes.get(self.at..self.at + 4)?;
        self.at += 4;
        Some(u32::from_le_bytes([word[0], word[1], word[2], word[3]]))
    }

    fn next(&mut self) -> Result<u32, String> {
        self.take().ok_or_else(|| {
            let name = SECTIONS[self.section];
            format!("byte {}: a word of {name} {} (its count is {})", self.at, self.lack(), self.count)
        })
    }

    fn lack(&self) -> &'static str {
        if self.at == self.bytes.len() {
            "is missing"
        } else {
            "is cut short"
        }
    }
}

fn show_tasks(words: &mut Words<'_>, text: &mut String, owners: &mut Owners) -> Result<(), String> {
    for task in 0..words.count {
        let category = words.next()?;
        let release = words.next()? as i32;
        let flag = words.next()?;
        let deadline = words.next()? as i32;
        let activities = words.next()?;
        let deadline = match (flag, deadline) {
            (0, 0) => "no deadline".to_string(),
            (1, _) => format!("deadline {deadline}"),
            _ => format!("deadline flag {flag} word {deadline}"),
        };
        let noun = if activities == 1 { "activity" } else { "activities" };
        put(
            text,
            format_args!("  task {task}: category {category}, release {release}, {deadline}, {activities} {noun}"),
        );
        owners.counts.push(activities);
    }
    Ok(())
}

fn show_activities(words: &mut Words<'_>, text: &mut String, owners: &mut Owners) -> Result<(), String> {
    for activity in 0..words.count {
        let release = words.next()? as i32;
        match owners.next() {
            Some((task, step)) => {
                put(text, format_args!("  activity {activity} (task {task}, step {step}): release {release}"));
            }
            None => put(text, format_args!("  activity {activity} (no task): release {release}")),
        }
    }
    Ok(())
}

fn show_machines(words: &mut Words<'_>, text: &mut String) -> Result<(), String> {
    for machine in 0..words.count {
        let mut row = String::new();
        for _ in 0..words.count {
            let _ = write!(row, " {}", words.next()?);
        }
        put(text, format_args!("  machine {machine}: transports{row}"));
    }
    Ok(())
}

fn show_times(words: &mut Words<'_>, text: &mut String, machines: usize) -> Result<(), String> {
    let mut entries = Vec::new();
    for _ in 0..words.count {
        entries.push([words.next()?, words.next()?, words.next()?]);
    }
    if machines == 0 {
        for (place, times) in entries.iter().enumerate() {
            put(text, format_args!("  entry {place}: {}", times_text(times)));
        }
        return Ok(());
    }
    for (activity, row) in entries.chunks(machines).enumerate() {
        // The usual case, a time that is the same wherever it is done, gets one line.
        let same = row.len() == machines && row.iter().all(|times| *times == row[0]);
        if machines > 1 && same {
            put(text, format_args!("  activity {activity} on every machine: {}", times_text(&row[0])));
            continue;
        }
        for (machine, times) in row.iter().enumerate() {
            put(text, format_args!("  activity {activity} on machine {machine}: {}", times_text(times)));
        }
    }
    Ok(())
}

fn times_text(&[setup, process, teardown]: &[u32; 3]) -> String {
    let mut text = String::new();
    if setup != 0 {
        let _ = write!(text, "setup {setup}, ");
    }
    let _ = write!(text, "process {process}");
    if teardown != 0 {
        let _ = write!(text, ", teardown {teardown}");
    }
    text
}

fn show_candidates(words: &mut Words<'_>, text: &mut String) -> Result<(), String> {
    let mut entries = Vec::new();
    for _ in 0..words.count {
        entries.push((words.next()?, words.next()?));
    }
    for group in entries.chunk_by(|one, next| one.0 == next.0) {
        let noun = if group.len() == 1 { "machine" } else { "machines" };
        let machines: Vec<String> = group.iter().map(|entry| entry.1.to_string()).collect();
        put(text, format_args!("  activity {}: {noun} {}", group[0].0, machines.join(" ")));
    }
    Ok(())
}

fn show_setups(words: &mut Words<'_>, text: &mut String) -> Result<(), String> {
    for _ in 0..words.count {
        let machine = words.next()?;
        let previous = match words.next()? {
            NOTHING_BEFORE => "nothing".to_string(),
            category => format!("category {category}"),
        };
        let category = words.next()?;
        let setup = words.next()?;
        put(text, format_args!("  machine {machine}, after {previous}, category {category}: setup {setup}"));
    }
    Ok(())
}

fn show_predecessors(words: &mut Words<'_>, text: &mut String) -> Result<(), String> {
    for _ in 0..words.count {
        let activity = words.next()?;
        let before = words.next()?;
        put(text, format_args!("  activity {activity} after activity {before}"));
    }
    Ok(())
}

fn show_search(words: &mut Words<'_>, text: &mut String) -> Result<(), String> {
    for _ in 0..words.count {
        let low = words.next()?;
        let high = words.next()?;
        let steps = words.next()?;
        let bits = u64::from(high) << 32 | u64::from(low);
        put(text, format_args!("  weight {}, steps {steps}", weight_text(bits)));
    }
    Ok(())
}

/// The shortest decimal that reads back as these bits, or the bits.
pub(super) fn weight_text(bits: u64) -> String {
    let value = f64::from_bits(bits);
    if !value.is_finite() || bits == (-0.0f64).to_bits() {
        return format!("bits 0x{bits:016x}");
    }
    // `{:?}` has the fewest digits that read back, and an exponent where the zeros would be many.
    let text = format!("{value:?}");
    text.strip_suffix(".0").unwrap_or(&text).to_string()
}

fn show_numbers(words: &mut Words<'_>, text: &mut String, section: usize) -> Result<(), String> {
    let mut numbers = Vec::new();
    for _ in 0..words.count {
        let word = words.next()?;
        numbers.push(match word {
            _ if section == ORDER => word.to_string(),
            u32::MAX => "-".to_string(),
            _ => (word as i32).to_string(),
        });
    }
    for part in numbers.chunks(NUMBERS_A_LINE) {
        put(text, format_args!("  {}", part.join(" ")));
    }
    Ok(())
}
