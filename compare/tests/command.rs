//! The binary on good and bad arguments: an answer and 0, or one line on standard error and 2.

use std::ffi::{OsStr, OsString};
use std::fs;
use std::io::Write;
use std::path::{Path, PathBuf};
use std::process::{Command, Output, Stdio};

fn compare<S: AsRef<OsStr>>(arguments: &[S], input: &[u8]) -> Output {
    let mut command = Command::new(env!("CARGO_BIN_EXE_compare"));
    command.args(arguments).stdin(Stdio::piped()).stdout(Stdio::piped()).stderr(Stdio::piped());
    let mut child = command.spawn().expect("the binary was built");
    // It may have answered without reading.
    let _ = child.stdin.take().map(|mut stdin| stdin.write_all(input));
    child.wait_with_output().expect("it ends")
}

fn is_one_line_and_2<S: AsRef<OsStr> + std::fmt::Debug>(arguments: &[S], input: &[u8]) {
    let output = compare(arguments, input);
    let said = String::from_utf8_lossy(&output.stderr);
    assert_eq!(output.status.code(), Some(2), "{arguments:?}");
    assert_eq!((said.lines().count(), output.stdout.len()), (1, 0), "{arguments:?}: {said}");
    assert!(said.starts_with("compare: ") && said.len() > 20 && !said.contains("panicked"), "{arguments:?}: {said}");
}

fn plan(name: &str) -> String {
    format!("{}/plans/{name}.plan", env!("CARGO_MANIFEST_DIR"))
}

fn file(name: &str, bytes: &[u8]) -> PathBuf {
    let path = Path::new(env!("CARGO_TARGET_TMPDIR")).join(name);
    fs::write(&path, bytes).expect("a file for the test");
    path
}

fn said<S: AsRef<OsStr> + std::fmt::Debug>(arguments: &[S], input: &[u8]) -> String {
    let output = compare(arguments, input);
    assert_eq!(output.status.code(), Some(0), "{arguments:?}: {}", String::from_utf8_lossy(&output.stderr));
    String::from_utf8_lossy(&output.stdout).into_owned()
}

#[test]
fn bad_arguments_are_one_line_and_2() {
    let here = env!("CARGO_MANIFEST_DIR");
    let bad: [&[&str]; 72] = [
        &[],
        &["no-such-mode"],
        &[""],
        &["--help"],
        &["-"],
        &["two\nlines"],
        &["program", "no/such/file"],
        &["program", "two\nlines"],
        &["program", "no-such.plan"],
        &["program", here],
        &["program", ""],
        &["program", "-", "-"],
        &["held", "-", "-", "-"],
        &["time", "-", "no/such/file"],
        &["time", "-", "-"],
        &["time", "-", here],
        &["step", "-", "-", "-"],
        &["to-text", "no/such/file"],
        &["to-text", here],
        &["to-text", "-", "-"],
        &["to-text"],
        &["from-text"],
        &["from-text", "no/such/file"],
        &["from-text", here],
        &["from-text", "-", "-"],
        &["generate"],
        &["generate", "tiny"],
        &["generate", "tinny", "1"],
        &["generate", "", "1"],
        &["generate", "tiny", "-1"],
        &["generate", "tiny", "+1"],
        &["generate", "tiny", "1.0"],
        &["generate", "tiny", "18446744073709551616"],
        &["generate", "tiny", "1", "2"],
        &["damage"],
        &["damage", "x"],
        &["damage", "1", "no/such/file"],
        &["damage", "1", here],
        &["classes", "1"],
        &["check", "x"],
        &["check", "1", "2"],
        &["intake-check"],
        &["intake-check", "1"],
        &["intake-check", "no/such/program"],
        &["intake-check", "1", "no/such/program", "argument"],
        &["time-check", "x"],
        &["time-check", "1", "2"],
        &["decode-check", "x"],
        &["decode-check", "1", "2"],
        &["sheet-check", "x"],
        &["sheet-check", "1", "2"],
        &["program-check"],
        &["program-check", "1"],
        &["program-check", "1", "no/such/program"],
        &["differential"],
        &["differential", "1"],
        &["differential", "no/such/program"],
        &["improve-check", "x"],
        &["improve-check", "1", "2"],
        &["step-check", "x"],
        &["step-check", "1", "2"],
        &["speed", "x"],
        &["speed", "--only", "rust", "time", "ft06"],
        &["speed", "--only", "rust", "time", "ft06", "x"],
        &["speed", "--only", "neither", "time", "ft06", "1"],
        &["speed", "--only", "rust", "no-such-work", "ft06", "1"],
        &["speed", "--only", "rust", "time", "no-such-plan", "1"],
        &["store", "/dev/null/x"],
        &["answers-check", "no/such/folder"],
        &["answers-check", here],
        &["replay", "no/such/folder"],
        &["replay", here, here],
    ];
    for arguments in bad {
        is_one_line_and_2(arguments, &[]);
    }
}

#[test]
fn bad_texts_are_one_line_and_2() {
    let whole = fs::read(plan("plan-s-steps-60")).expect("a plan");
    let no_text = file("no-text.plan", &[&whole[..], &[0xff, 0xfe]].concat());
    let cut = file("cut.plan", &whole[..whole.len() / 2]);
    let no_plan = file("no-plan.plan", b"tasks\n  task 0: category zero\n");
    let long = file("long.plan", &vec![b'\n'; (16 << 20) + 1]);
    let empty = file("empty.plan", b"");
    for mode in ["program", "time", "to-text", "from-text", "held"] {
        for path in [&no_text, &cut, &no_plan, &long, &empty] {
            is_one_line_and_2(&[OsStr::new(mode), path.as_os_str()], &[]);
        }
    }
    is_one_line_and_2(&[OsStr::new("damage"), OsStr::new("1"), cut.as_os_str()], &[]);
    // Lines: none in the text, cut short, no text.
    let own = plan("plan-s-steps-60");
    is_one_line_and_2(&["time", &own, &own], &[]);
    is_one_line_and_2(&["time", &own, "-"], &[2, 0, 0, 0, 1]);
    is_one_line_and_2(&["step", &own, "-"], &[2, 0, 0, 0, 1, 0, 0, 0]);
    is_one_line_and_2(&[OsStr::new("time"), OsStr::new(&own), no_text.as_os_str()], &[]);
    let output = compare(&[OsStr::new("program"), no_text.as_os_str()], &[]);
    assert!(String::from_utf8_lossy(&output.stderr).contains("line "), "{output:?}");
}

#[cfg(unix)]
#[test]
fn odd_names_and_closed_pipes_do_no_harm() {
    use std::os::unix::ffi::OsStringExt;
    let odd = OsString::from_vec(b"no-\xff-such".to_vec());
    is_one_line_and_2(&[OsString::from("program"), odd.clone()], &[]);
    is_one_line_and_2(&[odd], &[]);
    let sample = fs::read(plan("plan-s-steps-60")).expect("a plan");
    let path = Path::new(env!("CARGO_TARGET_TMPDIR")).join(OsString::from_vec(b"\xff.plan".to_vec()));
    fs::write(&path, sample).expect("a file for the test");
    assert!(said(&[OsStr::new("program"), path.as_os_str()], &[]).starts_with("outcome 14\n"));

    // The reader leaves before the input is there, so before anything is written.
    let mut command = Command::new(env!("CARGO_BIN_EXE_compare"));
    command.args(["program"]).stdin(Stdio::piped()).stdout(Stdio::piped()).stderr(Stdio::piped());
    let mut child = command.spawn().expect("the binary was built");
    drop(child.stdout.take());
    drop(child.stdin.take());
    let output = child.wait_with_output().expect("it ends");
    let said = String::from_utf8_lossy(&output.stderr);
    assert_eq!((output.status.code(), said.lines().count()), (Some(2), 1), "{said}");
    assert!(said.starts_with("compare: standard output: "), "{said}");
}

#[test]
fn a_refusal_is_an_answer() {
    for arguments in [&["program"][..], &["improve", "-"], &["time"], &["held"]] {
        for (input, print) in [(&[][..], "1 0"), (&[0; 4], "2 0"), (&[9, 0, 0, 0, 1], "1 4")] {
            assert_eq!(said(arguments, input), format!("refused {print}\n"));
        }
    }
}

#[test]
fn a_text_is_read_where_its_name_says_so() {
    let example = "outcome 14\nfitness 4014000000000000\n2 0 0 1 0\n3 1 1 6 0\n0 0 1 4 0\n1 1 6 10 0\n";
    assert_eq!(said(&["program", &plan("plan-s-steps-60")], &[]), example);
    // Its own lines, and lines of another text.
    let (p7, school) = (plan("p7-lines-that-contradict"), plan("school-workshop"));
    assert_eq!(said(&["time", &p7], &[]), "refused 8 0\n");
    assert_eq!(said(&["step", &p7], &[]), "refused 8 0\n");
    assert_eq!(said(&["time", &plan("plan-s-steps-0"), &p7], &[]), "refused 8 0\n");
    assert_eq!(said(&["time", &school, &p7], &[]), "refused 7 0\n");
    assert!(said(&["improve", &p7], &[]).starts_with("outcome 13\n"));
}

#[test]
fn the_tools_fit_together() {
    for seed in ["0", "18446744073709551615"] {
        let stored = compare(&["generate", "tiny", seed], &[]).stdout;
        let text = compare(&["to-text"], &stored).stdout;
        assert_eq!(compare(&["from-text"], &text).stdout, stored);
        assert!(said(&["program", "-"], &stored).starts_with("outcome "));
        let damaged = compare(&["damage", seed], &stored).stdout;
        assert_eq!(damaged, compare(&["damage", seed, "-"], &stored).stdout);
        assert_ne!(damaged, stored);
    }
    assert_eq!(said(&["classes"], &[]).lines().count(), 16);
    let report = said(&["check", "32"], &[]);
    assert_eq!(report.lines().last(), Some("check: 32 inputs, 0 differences"));
}

/// This package's own print stands in for the program's.
#[test]
fn a_program_that_prints_otherwise_is_found() {
    let own = env!("CARGO_BIN_EXE_compare");
    let report = said(&["program-check", "32", own, "program"], &[]);
    assert_eq!(report.lines().last(), Some("program-check: 37 inputs, 69 runs, 0 differences"));
    let other = format!("{own} program | sed 's/^refused 2/refused 3/'");
    let output = compare(&["program-check", "32", "sh", "-c", &other], &[]);
    assert_eq!(output.status.code(), Some(1), "{output:?}");
    is_one_line_and_2(&["program-check", "32", own, "improve"], &[]);
}

#[test]
fn one_side_alone_works_as_often_as_it_is_told() {
    for work in ["read", "time", "decode", "improve-60"] {
        assert_eq!(said(&["speed", "--only", "rust", work, "ft06", "2"], &[]), "2\n");
    }
}

/// The tools that call the proved library say so where it is not linked.
#[test]
fn without_the_library_it_is_one_line_and_2() {
    if lavkkesto::lacking().next().is_none() {
        return;
    }
    let checks = ["time-check", "decode-check", "sheet-check", "improve-check", "step-check"];
    for tool in checks.into_iter().chain(["speed"]) {
        is_one_line_and_2(&[tool], &[]);
    }
    is_one_line_and_2(&["time-check", "1"], &[]);
    is_one_line_and_2(&["speed", "--only", "proved", "time", "ft06", "1"], &[]);
}
