//! Links the archive that LAVKKESTO_LIB names, and tells the code which calls it has, by a `cfg` of each one's name.

use std::env;
use std::fs;
use std::path::PathBuf;

/// Where the calls are declared.
const DECLARED: &str = "src/raw.rs";

fn main() {
    println!("cargo::rerun-if-env-changed=LAVKKESTO_LIB");
    println!("cargo::rerun-if-changed=build.rs");
    println!("cargo::rerun-if-changed={DECLARED}");
    if let Err(message) = declared().and_then(|calls| link(&calls)) {
        println!("cargo::error={message}");
    }
}

/// The names of the calls.
fn declared() -> Result<Vec<String>, String> {
    let text = fs::read_to_string(DECLARED).map_err(|why| format!("{DECLARED}: {why}"))?;
    let name = |line: &str| line.trim().strip_prefix("fn ")?.split('(').next().map(str::to_string);
    let calls: Vec<String> = text.lines().filter_map(name).filter(|name| name.starts_with("lavkkesto_")).collect();
    println!("cargo::rustc-check-cfg=cfg({})", calls.join(", "));
    Ok(calls)
}

fn link(calls: &[String]) -> Result<(), String> {
    let may_lack = env::var_os("CARGO_FEATURE_MAY_LACK").is_some();
    let archive = match env::var_os("LAVKKESTO_LIB") {
        Some(archive) if !archive.is_empty() => PathBuf::from(archive),
        _ if may_lack => return Ok(()),
        _ => return Err("LAVKKESTO_LIB must name the archive that `compare/archive` writes".to_string()),
    };
    let name = archive.file_name().and_then(|name| name.to_str());
    let name = name.and_then(|name| name.strip_prefix("lib")).and_then(|name| name.strip_suffix(".a"));
    let (Some(name), true, Some(folder)) = (name, archive.is_file(), archive.parent()) else {
        return Err(format!("LAVKKESTO_LIB: {} is no archive libNAME.a", archive.display()));
    };
    println!("cargo::rerun-if-changed={}", archive.display());
    println!("cargo::rustc-link-search=native={}", folder.display());
    println!("cargo::rustc-link-lib=static={name}");
    let bytes = fs::read(&archive).map_err(|why| format!("{}: {why}", archive.display()))?;
    for call in calls {
        // A name in an archive's tables ends with a zero byte.
        let name = format!("{call}\0");
        match bytes.windows(name.len()).any(|window| window == name.as_bytes()) {
            true => println!("cargo::rustc-cfg={call}"),
            false if may_lack => {}
            false => return Err(format!("LAVKKESTO_LIB: {} has no {call}", archive.display())),
        }
    }
    Ok(())
}
