//! The commands on docs/DIFFERENCES.md and in the README print what these pages say; docs/CALLS.md quotes the examples.

use std::path::Path;
use std::process::Command;

/// Each command of a page with the lines that stand below it. A command stands in a block of lines that begin with
/// four blanks, after `$ compare/run `.
fn commands(page: &str) -> Vec<(Vec<String>, String)> {
    let mut commands: Vec<(Vec<String>, String)> = Vec::new();
    let mut open = false;
    for line in page.lines() {
        match (line.strip_prefix("    $ compare/run "), line.strip_prefix("    ")) {
            (Some(command), _) => {
                commands.push((command.split(' ').map(str::to_string).collect(), String::new()));
                open = true;
            }
            (None, Some(printed)) if open => {
                if let Some((_, print)) = commands.last_mut() {
                    *print += &format!("{printed}\n");
                }
            }
            _ => open = false,
        }
    }
    commands
}

fn holds(page: &str, least: usize) {
    let root = Path::new(env!("CARGO_MANIFEST_DIR")).join("..");
    let text = std::fs::read_to_string(root.join(page)).expect("the page is there");
    let commands = commands(&text);
    assert!(commands.len() >= least, "{page}: {} commands", commands.len());
    for (arguments, print) in commands {
        let output = Command::new(env!("CARGO_BIN_EXE_compare")).args(&arguments).current_dir(&root).output();
        let output = output.expect("the binary was built");
        assert_eq!(String::from_utf8_lossy(&output.stdout), print, "{page}: {}", arguments.join(" "));
    }
}

#[test]
fn the_page_of_differences_is_true() {
    holds("docs/DIFFERENCES.md", 40);
}

#[test]
fn the_readme_is_true() {
    holds("compare/README.md", 1);
}

#[test]
fn the_plan_on_the_readme_prints_what_it_says() {
    let page = std::fs::read_to_string(Path::new(env!("CARGO_MANIFEST_DIR")).join("README.md")).expect("the page");
    let lines = page.lines().skip_while(|line| !line.starts_with("    plan \"")).take_while(|line| !line.is_empty());
    let plan: String = lines.map(|line| format!("{line}\n")).collect();
    let stored = compare::text::parse(&plan).expect("a plan");
    let print = compare::modes::answer(&stored, compare::modes::Mode::Program, None);
    assert_eq!(print.ok(), compare::text::expected_print(&plan));
}

/// `compare/examples` compiles and runs these files.
#[test]
fn the_examples_on_the_page_of_calls_are_the_files() {
    let root = Path::new(env!("CARGO_MANIFEST_DIR")).join("..");
    let text = |file: &str| std::fs::read_to_string(root.join(file)).expect("the file is there");
    let page = text("docs/CALLS.md");
    for (file, language) in [("calls.c", "c"), ("calls.rs", "rust"), ("calls.txt", "text")] {
        let file = format!("compare/lavkkesto/examples/{file}");
        let quoted = format!("`{file}`:\n\n```{language}\n{}```\n", text(&file));
        assert!(page.contains(&quoted), "{file} is not what docs/CALLS.md quotes");
    }
}
