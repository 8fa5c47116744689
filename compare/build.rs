//! Copies the published Rust text into the build folder, bodies unchanged, and appends the one line that lets
//! `src/probe.rs` see the private items of `local_search`. Nothing of the text stays in the repository.

use std::env;
use std::fs;
use std::path::{Path, PathBuf};

/// Where the text lies when LAVKKESTO_RUST does not say so, seen from this package.
const USUAL: &str = "../../shared/docs/src";

/// The files taken, below the text's `src`.
const TAKEN: [&str; 5] = [
    "ga/chromosome.rs",
    "ga/operators.rs",
    "ga/problem.rs",
    "ga/problem/local_search.rs",
    "validation.rs",
];

fn main() {
    println!("cargo::rerun-if-env-changed=LAVKKESTO_RUST");
    println!("cargo::rerun-if-changed=build.rs");
    if let Err(message) = take() {
        println!("cargo::error={message}");
    }
}

fn take() -> Result<(), String> {
    let package = PathBuf::from(variable("CARGO_MANIFEST_DIR")?);
    let out = PathBuf::from(variable("OUT_DIR")?).join("text");
    let text = match env::var_os("LAVKKESTO_RUST") {
        Some(folder) if !folder.is_empty() => PathBuf::from(folder),
        _ => package.join(USUAL),
    };
    for file in TAKEN {
        let from = text.join("src").join(file);
        println!("cargo::rerun-if-changed={}", from.display());
        let mut body = fs::read_to_string(&from).map_err(|why| {
            format!(
                "the published Rust is not at {}: {why}; set LAVKKESTO_RUST to the folder that holds src/ga/problem.rs",
                from.display()
            )
        })?;
        if file == "ga/problem/local_search.rs" {
            body += &format!("#[path = {:?}] mod probe;\n", package.join("src/probe.rs"));
        }
        put(&out.join(file), &body)?;
    }
    // The text has no `ga/mod.rs`; this one holds its modules, and the two traits of `u_metaheur::ga`.
    put(
        &out.join("ga/mod.rs"),
        "pub mod chromosome;\n\
         pub mod operators;\n\
         pub mod problem;\n\
         pub use crate::standins::{GaProblem, Individual};\n\
         pub use problem::ActivityInfo;\n",
    )?;
    let module = |file: &str, name: &str| {
        format!("#[allow(dead_code, unused)]\n#[path = {:?}]\nmod {name};\n", out.join(file))
    };
    put(&out.join("root.rs"), &(module("ga/mod.rs", "ga") + &module("validation.rs", "validation")))
}

fn variable(name: &str) -> Result<String, String> {
    env::var(name).map_err(|_| format!("{name} is not set: run this through cargo"))
}

fn put(to: &Path, body: &str) -> Result<(), String> {
    let written = to.parent().map_or(Ok(()), fs::create_dir_all).and_then(|()| fs::write(to, body));
    written.map_err(|why| format!("cannot write {}: {why}", to.display()))
}
