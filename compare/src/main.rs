//! `compare MODE [INPUT [LINES]]`, and the tools that make, store and check inputs. An answer goes to standard output;
//! whatever is wrong with the arguments or the files is one line on standard error and exit code 2.

use std::ffi::{OsStr, OsString};
use std::io::{Read, Write};
use std::process::ExitCode;

use compare::bench::Side;
use compare::check::{self, Report};
use compare::generate::{self, Class};
use compare::modes::{answer, Mode};
use compare::{
    board, damage, decode_check, differential, improve_check, intake, lines, program, sheet_check, speed, step_check,
    store, text, time_check,
};

/// Every way to call the tools; the first one stands for all modes.
const USAGES: [&str; 20] = [
    "MODE [INPUT [LINES]]",
    "to-text [INPUT]",
    "from-text [TEXT]",
    "generate CLASS SEED",
    "damage SEED [INPUT]",
    "classes",
    "check [N]",
    "intake-check [N] PROGRAM...",
    "time-check [N]",
    "decode-check [N]",
    "sheet-check [N]",
    "improve-check [N]",
    "step-check [N]",
    "program-check [N] PROGRAM...",
    "differential [N] PROGRAM...",
    "speed [WORK... | --only SIDE WORK PLAN TIMES]",
    "store [FOLDER]",
    "answers-check [FOLDER]",
    "replay [FOLDER]",
    "board",
];

/// No file that is read here is longer; an input of document 01 has at most 65,204 bytes.
const LONGEST_FILE: u64 = 16 << 20;

/// How many inputs `check` runs unless it is told.
const INPUTS: u64 = 10_000;

/// How many inputs `intake-check` runs unless it is told.
const INTAKES: u64 = 100_000;

/// How many inputs `time-check`, `decode-check`, `improve-check` and `step-check` run unless they are told.
const LIBRARY_INPUTS: u64 = 20_000;

/// How many sheets `sheet-check` runs unless it is told.
const SHEETS: u64 = 50_000;

/// How many inputs `program-check` runs unless it is told.
const RUNS: u64 = 2_000;

/// How many inputs `differential` runs unless it is told.
const ALL: u64 = 100_000;

/// What goes to standard output, and whether a check found a difference.
struct Said {
    bytes: Vec<u8>,
    differs: bool,
}

impl From<Vec<u8>> for Said {
    fn from(bytes: Vec<u8>) -> Said {
        Said { bytes, differs: false }
    }
}

impl From<String> for Said {
    fn from(text: String) -> Said {
        Said::from(text.into_bytes())
    }
}

impl From<Report> for Said {
    fn from(report: Report) -> Said {
        Said { bytes: report.text.into_bytes(), differs: report.differences > 0 }
    }
}

fn main() -> ExitCode {
    let arguments: Vec<OsString> = std::env::args_os().skip(1).collect();
    let said = dispatch(&arguments).and_then(|said| {
        let mut out = std::io::stdout().lock();
        let written = out.write_all(&said.bytes).and_then(|()| out.flush());
        written.map(|()| said.differs).map_err(|why| format!("standard output: {why}"))
    });
    match said {
        Ok(false) => ExitCode::SUCCESS,
        Ok(true) => ExitCode::from(1),
        Err(message) => {
            let _ = writeln!(std::io::stderr(), "compare: {message}");
            ExitCode::from(2)
        }
    }
}

fn dispatch(arguments: &[OsString]) -> Result<Said, String> {
    let words: Vec<&str> = arguments.iter().map(|word| word.to_str().unwrap_or_default()).collect();
    let file = |k: usize| arguments.get(k).map_or(OsStr::new("-"), OsString::as_os_str);
    match words.as_slice() {
        ["to-text"] | ["to-text", _] => text::show(&stored(file(1))?).map(Said::from),
        ["from-text"] | ["from-text", _] => {
            let name = file(1);
            text::parse(&text_of(name)?).map(Said::from).map_err(|error| format!("{}: {error}", shown(name)))
        }
        ["generate", class, seed] => Ok(generate::plan(number(seed, "a seed")?, class_of(class)?).to_bytes().into()),
        ["damage", seed] | ["damage", seed, _] => {
            let seed = number(seed, "a seed")?;
            Ok(damage::damage(&stored(file(2))?, seed).into())
        }
        ["classes"] => Ok(Class::ALL.map(|class| format!("{}\n", class.name())).concat().into()),
        ["check", rest @ ..] if rest.len() < 2 => counted(rest, INPUTS, check::check),
        ["intake-check", rest @ ..] if names_program(rest) => with_program(&arguments[1..], INTAKES, intake::check),
        ["time-check", rest @ ..] if rest.len() < 2 => counted(rest, LIBRARY_INPUTS, |n| time_check::CHECK.run(n)),
        ["decode-check", rest @ ..] if rest.len() < 2 => counted(rest, LIBRARY_INPUTS, |n| decode_check::CHECK.run(n)),
        ["sheet-check", rest @ ..] if rest.len() < 2 => counted(rest, SHEETS, sheet_check::check),
        ["improve-check", rest @ ..] if rest.len() < 2 => {
            counted(rest, LIBRARY_INPUTS, |n| improve_check::CHECK.run(n))
        }
        ["step-check", rest @ ..] if rest.len() < 2 => counted(rest, LIBRARY_INPUTS, |n| step_check::CHECK.run(n)),
        ["program-check", rest @ ..] if names_program(rest) => with_program(&arguments[1..], RUNS, program::check),
        ["differential", rest @ ..] if names_program(rest) => with_program(&arguments[1..], ALL, differential::check),
        ["speed", "--only", side, work, plan, times] => {
            let times = number(times, "how often")?;
            Ok(speed::only(side_of(side)?, work, plan, times as usize)?.into())
        }
        ["speed", works @ ..] => Ok(speed::bench(works)?.into()),
        ["store"] => Ok(store::store(store::FOLDER.as_ref())?.into()),
        ["store", _] => Ok(store::store(file(1).as_ref())?.into()),
        ["answers-check"] => Ok(store::check(store::FOLDER.as_ref())?.into()),
        ["answers-check", _] => Ok(store::check(file(1).as_ref())?.into()),
        ["replay"] => Ok(store::replay(store::FOLDER.as_ref(), store::REPLAYED.as_ref())?.into()),
        ["replay", _] => Ok(store::replay(store::FOLDER.as_ref(), file(1).as_ref())?.into()),
        ["board"] => Ok(board::page()?.into()),
        [] => Err(format!("usage: compare {}", USAGES.join(" | "))),
        [name, rest @ ..] => match (Mode::named(name), USAGES[1..].iter().find(|usage| name_in(usage) == *name)) {
            (Some(mode), _) if rest.len() <= 1 || rest.len() == 2 && mode.takes_lines() => {
                run_mode(mode, file(1), arguments.get(2)).map(Said::from)
            }
            (Some(mode), _) if mode.takes_lines() => Err(format!("usage: compare {name} [INPUT [LINES]]")),
            (Some(_), _) => Err(format!("usage: compare {name} [INPUT]")),
            (None, Some(usage)) => Err(format!("usage: compare {usage}")),
            (None, None) => Err(format!(
                "no mode {}; modes are{}; tools are{}",
                shown(&arguments[0]),
                Mode::ALL.map(|(name, _)| format!(" {name}")).concat(),
                USAGES[1..].iter().map(|usage| format!(" {}", name_in(usage))).collect::<String>()
            )),
        },
    }
}

/// A check of so many, or of the usual number.
fn counted(rest: &[&str], usual: u64, check: impl Fn(u64) -> Result<Report, String>) -> Result<Said, String> {
    let inputs = rest.first().map_or(Ok(usual), |word| number(word, "how many"))?;
    check(inputs).map(Said::from)
}

/// Whether a program stands behind the number, if there is one.
fn names_program(rest: &[&str]) -> bool {
    rest.len() > usize::from(rest.first().is_some_and(|word| is_number(word)))
}

/// The same for a check of a program.
fn with_program(
    rest: &[OsString],
    usual: u64,
    check: impl Fn(&[OsString], u64) -> Result<Report, String>,
) -> Result<Said, String> {
    let first = rest.first().and_then(|word| word.to_str()).filter(|word| is_number(word));
    let inputs = first.map_or(Ok(usual), |word| number(word, "how many"))?;
    check(&rest[usize::from(first.is_some())..], inputs).map(Said::from)
}

fn name_in(usage: &str) -> &str {
    usage.split(' ').next().unwrap_or(usage)
}

/// A mode on an input; on lines of its own where the input is a text that has some and no other lines are given.
fn run_mode(mode: Mode, file: &OsStr, given: Option<&OsString>) -> Result<String, String> {
    if given.is_some_and(|given| given == "-") && file == "-" {
        return Err("standard input is read once: it is not both the input and the lines".to_string());
    }
    let input = stored(file)?;
    let words = match given {
        Some(given) if is_text(given) => match lines_of(given)? {
            Some(words) => Some(words),
            None => return Err(format!("{}: this text has no lines", shown(given))),
        },
        Some(given) => Some(bytes(given)?),
        None if mode.takes_lines() && is_text(file) => lines_of(file)?,
        None => None,
    };
    answer(&input, mode, words.as_deref())
}

/// The stored form: the file itself, or what its text says where its name ends in `.plan`.
fn stored(file: &OsStr) -> Result<Vec<u8>, String> {
    match is_text(file) {
        true => text::parse(&text_of(file)?).map_err(|error| format!("{}: {error}", shown(file))),
        false => bytes(file),
    }
}

/// The lines, as words, of a text that has some.
fn lines_of(file: &OsStr) -> Result<Option<Vec<u8>>, String> {
    let lines = text::lines(&text_of(file)?).map_err(|error| format!("{}: {error}", shown(file)))?;
    Ok(lines.map(|lines| lines::to_bytes(&lines)))
}

fn is_text(file: &OsStr) -> bool {
    file.as_encoded_bytes().ends_with(b".plan")
}

fn text_of(file: &OsStr) -> Result<String, String> {
    String::from_utf8(bytes(file)?).map_err(|error| {
        let read = &error.as_bytes()[..error.utf8_error().valid_up_to()];
        let line = read.iter().filter(|&&byte| byte == b'\n').count() + 1;
        format!("{}: line {line}: these bytes are no text (not UTF-8)", shown(file))
    })
}

/// The bytes of a file, or of standard input for `-`.
fn bytes(file: &OsStr) -> Result<Vec<u8>, String> {
    let mut bytes = Vec::new();
    let read = match file == "-" {
        true => std::io::stdin().lock().take(LONGEST_FILE + 1).read_to_end(&mut bytes),
        false => std::fs::File::open(file).and_then(|open| open.take(LONGEST_FILE + 1).read_to_end(&mut bytes)),
    };
    match read {
        Ok(length) if length as u64 > LONGEST_FILE => Err(format!("{}: longer than any input", shown(file))),
        Ok(_) => Ok(bytes),
        Err(why) => Err(format!("{}: {why}", shown(file))),
    }
}

/// A name for a message of one line.
fn shown(file: &OsStr) -> String {
    match file == "-" {
        true => "standard input".to_string(),
        false => file.to_string_lossy().chars().flat_map(char::escape_debug).collect(),
    }
}

fn is_number(word: &str) -> bool {
    !word.is_empty() && word.bytes().all(|byte| byte.is_ascii_digit())
}

fn number(word: &str, what: &str) -> Result<u64, String> {
    match word.parse() {
        Ok(number) if is_number(word) => Ok(number),
        _ => Err(format!("{what} is a whole number from 0 to {}, not '{}'", u64::MAX, word.escape_debug())),
    }
}

fn class_of(name: &str) -> Result<Class, String> {
    let known = || Class::ALL.map(|class| format!(" {}", class.name())).concat();
    Class::named(name).ok_or_else(|| format!("no class '{}'; classes are{}", name.escape_debug(), known()))
}

fn side_of(name: &str) -> Result<Side, String> {
    Side::named(name).ok_or_else(|| format!("no side '{}'; sides are rust, proved", name.escape_debug()))
}
