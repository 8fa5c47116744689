//! From the text of a plan to its stored form.

use super::line::{Line, Token};
use super::{Owners, TextError, ACTIVITIES, CANDIDATES, MACHINES, NOTHING_BEFORE, ORDER};
use super::{PREDECESSORS, SEARCH, SECTIONS, SETUPS, TASKS, TIMES};

/// Behind the sections come two headings that may be left out.
const LINES: usize = SECTIONS.len();
const DAMAGE: usize = LINES + 1;
const EXTRAS: [&str; 2] = ["lines", "damage"];

/// How a line under each heading reads, for the error messages.
const FORMS: [&str; 12] = [
    "task 0: category 0, release 0, no deadline, 2 activities",
    "activity 0 (task 0, step 1): release 0",
    "machine 0: transports 0 5",
    "activity 0 on machine 0: setup 0, process 3, teardown 0",
    "activity 0: machines 0 1",
    "machine 0, after category 1, category 0: setup 5",
    "activity 3 after activity 0",
    "weight 0.5, steps 60",
    "0 0 1 1",
    "0 1 - 1",
    "machine 0: activities 3 0",
    "word at byte 4 is 8",
];

/// The stored form of a plan written as text.
pub fn parse(text: &str) -> Result<Vec<u8>, TextError> {
    read(text).map(|(bytes, _)| bytes)
}

/// The lines for timing that stand in a plan's text, machine by machine; nothing without that heading.
pub fn lines(text: &str) -> Result<Option<Vec<Vec<u32>>>, TextError> {
    read(text).map(|(_, lines)| lines)
}

type Read = (Vec<u8>, Option<Vec<Vec<u32>>>);

fn read(text: &str) -> Result<Read, TextError> {
    let mut parser = Parser::default();
    let mut last = 1;
    let text = text.strip_prefix('\u{feff}').unwrap_or(text);
    for (index, source) in text.lines().enumerate() {
        last = index + 1;
        let mut line = Line::new(last, source)?;
        if !line.tokens.is_empty() {
            parser.line(&mut line)?;
        }
    }
    parser.finish(last)
}

/// What is to be done to the stored form.
enum Damage {
    Count { section: usize, value: u32 },
    Word { at: usize, value: u32 },
    Cut { at: usize },
    Stray { bytes: Vec<u8> },
}

#[derive(Default)]
struct Parser {
    words: Vec<u32>,
    /// Where the count word of each section begun stands in `words`.
    counts: Vec<usize>,
    /// The heading that entries now stand under.
    present: Option<usize>,
    /// Entries under it so far.
    entries: usize,
    /// Whether any line has been read.
    begun: bool,
    owners: Owners,
    /// The line and the length of each machine's row, tested when the number of machines is known.
    rows: Vec<(usize, usize)>,
    lines: Option<Vec<Vec<u32>>>,
    damages: Vec<(usize, Damage)>,
}

impl Parser {
    fn line(&mut self, line: &mut Line<'_>) -> Result<(), TextError> {
        let first = !self.begun;
        self.begun = true;
        if line.takes("plan") {
            if !first {
                return line.fail("the title stands before everything else, and once");
            }
            let Some(Token::Quoted(_)) = line.peek() else {
                return line.expected("the title in quotes");
            };
            line.next += 1;
            return line.end();
        }
        if let Some(section) = heading(line) {
            return self.begin(line, section);
        }
        let Some(section) = self.present else {
            return line.expected("the heading 'tasks'");
        };
        self.entry(line, section).map_err(|error| explain(error, section))
    }

    fn begin(&mut self, line: &Line<'_>, section: usize) -> Result<(), TextError> {
        let due = self.present.map_or(TASKS, |present| present + 1);
        if due < LINES && section != due {
            return line.fail(format!("the heading '{}' is due here, not '{}'", name_of(due), name_of(section)));
        }
        if section < due {
            return line.fail(format!("the heading '{}' comes too late here", name_of(section)));
        }
        self.close()?;
        self.present = Some(section);
        match section {
            LINES => self.lines = Some(Vec::new()),
            DAMAGE => {}
            _ => {
                self.counts.push(self.words.len());
                self.words.push(0);
            }
        }
        Ok(())
    }

    /// Writes the count of the section that ends here.
    fn close(&mut self) -> Result<(), TextError> {
        let entries = std::mem::take(&mut self.entries);
        let Some(&count) = self.present.and_then(|section| self.counts.get(section)) else {
            return Ok(());
        };
        self.words[count] = entries as u32;
        let machines = self.rows.len();
        if let Some((at, &(line, length))) = self.rows.iter().enumerate().find(|(_, row)| row.1 != machines) {
            let message = format!("machine {at} has {length} transports, but there are {machines} machines");
            return Err(TextError { line, message });
        }
        Ok(())
    }

    fn entry(&mut self, line: &mut Line<'_>, section: usize) -> Result<(), TextError> {
        match section {
            TASKS => self.task(line),
            ACTIVITIES => self.activity(line),
            MACHINES => self.machine(line),
            TIMES => self.times(line),
            CANDIDATES => self.candidates(line),
            SETUPS => self.setup(line),
            PREDECESSORS => self.predecessor(line),
            SEARCH => self.search(line),
            LINES => self.machine_line(line),
            DAMAGE => self.damage(line),
            _ => self.numbers(line, section),
        }
    }

    fn add(&mut self, words: &[u32]) {
        self.words.extend(words);
        self.entries += 1;
    }

    fn task(&mut self, line: &mut Line<'_>) -> Result<(), TextError> {
        line.word("task")?;
        line.position("task", self.entries)?;
        line.mark(':')?;
        line.word("category")?;
        let category = line.number("a category")?;
        line.mark(',')?;
        line.word("release")?;
        let release = line.signed("a release")?;
        line.mark(',')?;
        let (flag, deadline) = deadline(line)?;
        line.mark(',')?;
        let activities = line.number("a number of activities")?;
        if !line.takes("activity") {
            line.word("activities")?;
        }
        line.end()?;
        self.add(&[category, release, flag, deadline, activities]);
        self.owners.counts.push(activities);
        Ok(())
    }

    fn activity(&mut self, line: &mut Line<'_>) -> Result<(), TextError> {
        line.word("activity")?;
        line.position("activity", self.entries)?;
        let owner = self.owners.next();
        if line.takes_mark('(') {
            match owner {
                Some((task, step)) => {
                    line.word("task")?;
                    line.position("task", task)?;
                    line.mark(',')?;
                    line.word("step")?;
                    line.position("step", step as usize)?;
                }
                None => {
                    if line.peek() == Some(Token::Word("task")) {
                        return line.fail("the tasks have fewer activities than this: write (no task)");
                    }
                    line.word("no")?;
                    line.word("task")?;
                }
            }
            line.mark(')')?;
        }
        line.mark(':')?;
        line.word("release")?;
        let release = line.signed("a release")?;
        line.end()?;
        self.add(&[release]);
        Ok(())
    }

    fn machine(&mut self, line: &mut Line<'_>) -> Result<(), TextError> {
        line.word("machine")?;
        line.position("machine", self.entries)?;
        line.mark(':')?;
        if !line.takes("transport") {
            line.word("transports")?;
        }
        let mut row = Vec::new();
        while !line.at_end() {
            row.push(line.number("a transport time")?);
        }
        self.rows.push((line.number, row.len()));
        self.add(&row);
        Ok(())
    }

    fn times(&mut self, line: &mut Line<'_>) -> Result<(), TextError> {
        let machines = self.rows.len();
        let mut copies = 1;
        if machines == 0 {
            line.word("entry")?;
            line.position("entry", self.entries)?;
        } else {
            line.word("activity")?;
            line.position("activity", self.entries / machines)?;
            line.word("on")?;
            if line.takes("every") {
                if self.entries % machines != 0 {
                    return line.fail("some machines of this activity already have their times");
                }
                line.word("machine")?;
                copies = machines;
            } else {
                line.word("machine")?;
                line.position("machine", self.entries % machines)?;
            }
        }
        line.mark(':')?;
        let times = three_times(line)?;
        for _ in 0..copies {
            self.add(&times);
        }
        Ok(())
    }

    fn candidates(&mut self, line: &mut Line<'_>) -> Result<(), TextError> {
        line.word("activity")?;
        let activity = line.number("the number of the activity")?;
        line.mark(':')?;
        if !line.takes("machine") {
            line.word("machines")?;
        }
        // At least one, since a line without any would store nothing.
        loop {
            let machine = line.number("the number of a machine")?;
            self.add(&[activity, machine]);
            if line.at_end() {
                return Ok(());
            }
        }
    }

    fn setup(&mut self, line: &mut Line<'_>) -> Result<(), TextError> {
        line.word("machine")?;
        let machine = line.number("the number of the machine")?;
        line.mark(',')?;
        line.word("after")?;
        let previous = if line.takes("nothing") {
            NOTHING_BEFORE
        } else {
            if !line.takes("category") {
                return line.expected("'category' or 'nothing'");
            }
            line.number("a category")?
        };
        line.mark(',')?;
        line.word("category")?;
        let category = line.number("a category")?;
        line.mark(':')?;
        line.word("setup")?;
        let setup = line.number("a setup time")?;
        line.end()?;
        self.add(&[machine, previous, category, setup]);
        Ok(())
    }

    fn predecessor(&mut self, line: &mut Line<'_>) -> Result<(), TextError> {
        line.word("activity")?;
        let activity = line.number("the number of the activity")?;
        line.word("after")?;
        line.word("activity")?;
        let before = line.number("the number of its predecessor")?;
        line.end()?;
        self.add(&[activity, before]);
        Ok(())
    }

    fn search(&mut self, line: &mut Line<'_>) -> Result<(), TextError> {
        line.word("weight")?;
        let bits = weight(line)?;
        line.mark(',')?;
        line.word("steps")?;
        let steps = line.number("a number of steps")?;
        line.end()?;
        self.add(&[bits as u32, (bits >> 32) as u32, steps]);
        Ok(())
    }

    /// A line of Order or Assignment.
    fn numbers(&mut self, line: &mut Line<'_>, section: usize) -> Result<(), TextError> {
        while !line.at_end() {
            let word = if section == ORDER {
                line.number("the number of a task")?
            } else if line.takes("-") {
                u32::MAX
            } else {
                line.signed("'-' or the number of a machine")?
            };
            self.add(&[word]);
        }
        Ok(())
    }

    /// The activities that a machine's line holds.
    fn machine_line(&mut self, line: &mut Line<'_>) -> Result<(), TextError> {
        line.word("machine")?;
        line.position("machine", self.entries)?;
        line.mark(':')?;
        let mut activities = Vec::new();
        if !line.takes("nothing") {
            line.word("activities")?;
            while !line.at_end() {
                activities.push(line.number("the number of an activity")?);
            }
        }
        line.end()?;
        self.lines.get_or_insert_with(Vec::new).push(activities);
        self.entries += 1;
        Ok(())
    }

    fn damage(&mut self, line: &mut Line<'_>) -> Result<(), TextError> {
        let damage = if line.takes("count") {
            line.word("of")?;
            let Some(section) = line.peek().and_then(section_named) else {
                return line.expected("the name of a section");
            };
            line.next += 1;
            line.word("is")?;
            Damage::Count { section, value: any_word(line)? }
        } else if line.takes("word") {
            line.word("at")?;
            line.word("byte")?;
            let at = line.number("a byte place")? as usize;
            if at % 4 != 0 {
                return line.fail(format!("no word starts at byte {at}: places of words are multiples of 4"));
            }
            line.word("is")?;
            Damage::Word { at, value: any_word(line)? }
        } else if line.takes("cut") {
            line.word("at")?;
            line.word("byte")?;
            Damage::Cut { at: line.number("a byte place")? as usize }
        } else if line.takes("stray") {
            if !line.takes("byte") {
                line.word("bytes")?;
            }
            Damage::Stray { bytes: stray_bytes(line)? }
        } else {
            return line.expected("'count', 'word', 'cut' or 'stray'");
        };
        line.end()?;
        self.damages.push((line.number, damage));
        Ok(())
    }

    fn finish(mut self, last: usize) -> Result<Read, TextError> {
        if let Some(missing) = SECTIONS.get(self.counts.len()) {
            let message = format!("the text ends before the heading '{missing}'");
            return Err(TextError { line: last, message });
        }
        self.close()?;
        let mut bytes: Vec<u8> = self.words.iter().flat_map(|word| word.to_le_bytes()).collect();
        for (line, damage) in &self.damages {
            self.inflict(damage, &mut bytes).map_err(|message| TextError { line: *line, message })?;
        }
        Ok((bytes, self.lines))
    }

    fn inflict(&self, damage: &Damage, bytes: &mut Vec<u8>) -> Result<(), String> {
        match damage {
            Damage::Count { section, value } => put_word(bytes, 4 * self.counts[*section], *value),
            Damage::Word { at, value } => put_word(bytes, *at, *value),
            Damage::Cut { at } if *at <= bytes.len() => {
                bytes.truncate(*at);
                Ok(())
            }
            Damage::Cut { at } => Err(format!("no cut at byte {at}: the stored form has {} bytes", bytes.len())),
            Damage::Stray { bytes: stray } => {
                bytes.extend(stray);
                Ok(())
            }
        }
    }
}

fn put_word(bytes: &mut [u8], at: usize, value: u32) -> Result<(), String> {
    let length = bytes.len();
    match bytes.get_mut(at..at.saturating_add(4)) {
        Some(place) => {
            place.copy_from_slice(&value.to_le_bytes());
            Ok(())
        }
        None => Err(format!("no whole word stands at byte {at}: the stored form has {length} bytes here")),
    }
}

/// The heading that a line of one word is.
fn heading(line: &Line<'_>) -> Option<usize> {
    let &[Token::Word(word)] = line.tokens.as_slice() else {
        return None;
    };
    (TASKS..=DAMAGE).find(|&section| name_of(section).eq_ignore_ascii_case(word))
}

fn name_of(section: usize) -> &'static str {
    SECTIONS.iter().chain(&EXTRAS).nth(section).copied().unwrap_or("")
}

/// An error in an entry also says how an entry reads and which heading may come.
fn explain(error: TextError, section: usize) -> TextError {
    if !error.message.starts_with("expected") {
        return error;
    }
    let next = match section + 1 {
        LINES => ", and the next heading is 'lines' or 'damage'".to_string(),
        next if next <= DAMAGE => format!(", and the next heading is '{}'", name_of(next)),
        _ => String::new(),
    };
    let (name, form) = (name_of(section), FORMS[section]);
    TextError { line: error.line, message: format!("{} (a line of {name} reads '{form}'{next})", error.message) }
}

fn section_named(token: Token<'_>) -> Option<usize> {
    let Token::Word(word) = token else {
        return None;
    };
    SECTIONS.iter().position(|name| name.eq_ignore_ascii_case(word))
}

fn deadline(line: &mut Line<'_>) -> Result<(u32, u32), TextError> {
    if line.takes("no") {
        line.word("deadline")?;
        return Ok((0, 0));
    }
    if !line.takes("deadline") {
        return line.expected("'no deadline' or 'deadline'");
    }
    if line.takes("flag") {
        let flag = line.number("a deadline flag")?;
        line.word("word")?;
        return Ok((flag, line.signed("a deadline")?));
    }
    Ok((1, line.signed("a deadline")?))
}

/// Setup, process and teardown up to the end of the line. The process time must be said: a line with nothing
/// after its colon would look forgotten.
fn three_times(line: &mut Line<'_>) -> Result<[u32; 3], TextError> {
    let mut times = [0; 3];
    if line.takes("setup") {
        times[0] = line.number("a setup time")?;
        line.mark(',')?;
    }
    line.word("process")?;
    times[1] = line.number("a process time")?;
    if line.takes_mark(',') {
        line.word("teardown")?;
        times[2] = line.number("a teardown time")?;
    }
    line.end()?;
    Ok(times)
}

/// The bits of a weight. Signs, infinities and NaN are written as bits: no decimal says them exactly.
pub(super) fn weight(line: &mut Line<'_>) -> Result<u64, TextError> {
    const WHAT: &str = "a decimal like 0.5, or 'bits' and 0x with up to 16 hex digits";
    if line.takes("bits") {
        return line.hex("0x and up to 16 hex digits", 16);
    }
    let Some(Token::Word(word)) = line.peek() else {
        return line.expected(WHAT);
    };
    // Rust also reads "inf", "nan" and signs: those have no place here.
    if !word.starts_with(|c: char| c.is_ascii_digit() || c == '-') {
        return line.expected(WHAT);
    }
    match word.parse::<f64>() {
        Ok(value) if value.is_finite() => {
            line.next += 1;
            Ok(value.to_bits())
        }
        _ => line.expected(WHAT),
    }
}

/// A word for `damage`: unsigned, signed or hex.
fn any_word(line: &mut Line<'_>) -> Result<u32, TextError> {
    match line.peek() {
        Some(Token::Word(word)) if word.starts_with('-') => line.signed("a number"),
        Some(Token::Word(word)) if word.starts_with("0x") || word.starts_with("0X") => {
            Ok(line.hex("0x and up to 8 hex digits", 8)? as u32)
        }
        _ => line.number("a number"),
    }
}

fn stray_bytes(line: &mut Line<'_>) -> Result<Vec<u8>, TextError> {
    let mut bytes = Vec::new();
    while let Some(token) = line.peek() {
        let byte = match token {
            Token::Word(word) if word.len() == 2 && word.bytes().all(|b| b.is_ascii_hexdigit()) => {
                u8::from_str_radix(word, 16).ok()
            }
            _ => None,
        };
        let Some(byte) = byte else {
            return line.expected("a byte of two hex digits");
        };
        bytes.push(byte);
        line.next += 1;
    }
    if bytes.is_empty() {
        return line.expected("a byte of two hex digits");
    }
    Ok(bytes)
}
