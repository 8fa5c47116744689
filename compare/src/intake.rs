//! The proved reader against the readers of this package: many inputs go through its program in one run, and each answer
//! is held against that of `read`, and of `judge`, which was written apart.

use std::ffi::OsString;
use std::io::{BufRead, BufReader, BufWriter, Write};
use std::process::{Command, Stdio};
use std::time::Instant;

use crate::check::Report;
use crate::damage;
use crate::generate::{self, Class, Rng};
use crate::{judge, read};

/// How many copies of the longest input are timed.
const COPIES: u32 = 2_000;

/// Runs `inputs` inputs, generated, damaged and random, and every damage of the sample, through the program. It is given
/// as the words of a command, so that an emulator can stand before it.
pub fn check(program: &[OsString], inputs: u64) -> Result<Report, String> {
    let mut cases: Vec<Vec<u8>> = damage::every(&damage::sample()).into_iter().map(|(_, bytes)| bytes).collect();
    cases.push(generate::longest_input().to_bytes());
    cases.extend((0..inputs).map(input));
    let expected: Vec<String> = cases.iter().map(|bytes| expected(bytes)).collect::<Result<_, _>>()?;
    let answers = run(program, cases.iter().map(Vec::as_slice))?;
    let mut text = String::new();
    let mut differences = 0;
    for (k, (answer, due)) in answers.iter().zip(&expected).enumerate() {
        if answer != due {
            differences += 1;
            if differences <= 10 {
                text += &format!("input {k}: due `{due}`, the program says `{answer}`\n");
            }
        }
    }
    if answers.len() != expected.len() {
        differences += 1;
        text += &format!("{} answers to {} inputs\n", answers.len(), expected.len());
    }
    text += &summary(&expected);
    text += &timed(program)?;
    text += &format!("intake-check: {} inputs, {differences} differences\n", expected.len());
    Ok(Report { text, differences })
}

/// The k-th input: one of three is accepted as generated, one has a few faults, one is nearly random.
fn input(k: u64) -> Vec<u8> {
    let class = Class::ALL[(k / 3) as usize % Class::ALL.len()];
    match k % 3 {
        0 => generate::plan(k, small(class)).to_bytes(),
        1 => damage::damage(&generate::plan(k, small(class)).to_bytes(), k),
        _ => random(k),
    }
}

/// The full-size class would make nine tenths of the bytes; medium stands in for it here.
fn small(class: Class) -> Class {
    if class == Class::Full {
        Class::Medium
    } else {
        class
    }
}

/// A few words that are small or at an end, sometimes cut.
fn random(seed: u64) -> Vec<u8> {
    let mut rng = Rng::new(seed);
    let words = rng.below(60);
    let mut bytes: Vec<u8> = (0..words)
        .flat_map(|_| {
            let word = match rng.below(8) {
                0 => rng.next() as u32,
                1 => u32::MAX,
                2 => 0x7FFF_FFFF,
                _ => rng.below(4) as u32,
            };
            word.to_le_bytes()
        })
        .collect();
    bytes.truncate(bytes.len() - rng.below(4).min(bytes.len() as u64) as usize);
    bytes
}

/// What the program should print: both readers must say so.
fn expected(bytes: &[u8]) -> Result<String, String> {
    let line = match read::read(bytes) {
        Ok(plan) => format!("accepted {} {} {}", plan.tasks.len(), plan.activities.len(), plan.transports.len()),
        Err(refused) => refused.to_string(),
    };
    let other = match judge::judge(bytes) {
        Ok(()) => "accepted".to_string(),
        Err((number, place)) => format!("refused {number} {place}"),
    };
    match line.starts_with("accepted") && other == "accepted" || line == other {
        true => Ok(line),
        false => Err(format!("the two readers of this package differ: {line} and {other}")),
    }
}

/// How often each answer was due.
fn summary(expected: &[String]) -> String {
    let mut counts: std::collections::BTreeMap<String, u64> = Default::default();
    for line in expected {
        let key = line.split(' ').take(if line.starts_with("refused") { 2 } else { 1 }).collect::<Vec<_>>().join(" ");
        *counts.entry(key).or_default() += 1;
    }
    counts.iter().map(|(key, count)| format!("{key}: {count}\n")).collect()
}

/// The longest input, again and again, through the program and through `read`.
fn timed(program: &[OsString]) -> Result<String, String> {
    let longest = generate::longest_input().to_bytes();
    let begun = Instant::now();
    run(program, (0..COPIES).map(|_| longest.as_slice()))?;
    let proved = begun.elapsed() / COPIES;
    let begun = Instant::now();
    for _ in 0..COPIES {
        std::hint::black_box(read::read(std::hint::black_box(&longest)).is_ok());
    }
    let ours = begun.elapsed() / COPIES;
    Ok(format!(
        "longest input, {} bytes: {} us in the proved program (its input and output included), {} us in this package's reader\n",
        longest.len(),
        proved.as_micros(),
        ours.as_micros()
    ))
}

/// One line a plan, from one run of the program.
fn run<'a>(program: &[OsString], plans: impl Iterator<Item = &'a [u8]>) -> Result<Vec<String>, String> {
    let (first, others) = program.split_first().ok_or("no program is given")?;
    let failed = |why: std::io::Error| format!("{}: {why}", first.to_string_lossy().escape_debug());
    let mut command = Command::new(first);
    command.args(others).stdin(Stdio::piped()).stdout(Stdio::piped());
    let mut child = command.spawn().map_err(failed)?;
    let (Some(stdin), Some(stdout)) = (child.stdin.take(), child.stdout.take()) else {
        return Err("the program has no pipes".to_string());
    };
    let reader = std::thread::spawn(move || BufReader::new(stdout).lines().collect::<Result<Vec<_>, _>>());
    let mut writer = BufWriter::new(stdin);
    for plan in plans {
        let length = u32::try_from(plan.len()).map_err(|_| "an input is too long".to_string())?;
        writer.write_all(&length.to_le_bytes()).and_then(|()| writer.write_all(plan)).map_err(failed)?;
    }
    writer.flush().map_err(failed)?;
    drop(writer);
    let lines = reader.join().map_err(|_| "reading the answers failed".to_string())?.map_err(failed)?;
    child.wait().map_err(failed)?;
    Ok(lines)
}
