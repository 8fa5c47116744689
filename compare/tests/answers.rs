//! The stored answers: the command makes them once more byte for byte, and a change to one of them is seen.

use std::collections::BTreeMap;
use std::fs;
use std::path::{Path, PathBuf};

use compare::store;

fn files(folder: &Path) -> BTreeMap<String, String> {
    let entries = fs::read_dir(folder).expect("the folder is there");
    let name = |path: &Path| path.file_name().unwrap().to_string_lossy().into_owned();
    let file = |path: PathBuf| (name(&path), fs::read_to_string(path).unwrap());
    entries.map(|entry| file(entry.unwrap().path())).collect()
}

fn fresh(name: &str) -> PathBuf {
    let folder = Path::new(env!("CARGO_TARGET_TMPDIR")).join(name);
    let _ = fs::remove_dir_all(&folder);
    fs::create_dir_all(&folder).unwrap();
    folder
}

#[test]
fn store_makes_the_stored_files() {
    let folder = fresh("stored");
    fs::write(folder.join("old.txt"), "end\n").unwrap();
    store::store(&folder).unwrap();
    let (made, kept) = (files(&folder), files(store::FOLDER.as_ref()));
    assert_eq!(made.keys().collect::<Vec<_>>(), kept.keys().collect::<Vec<_>>());
    for (name, file) in &made {
        assert!(kept[name] == *file, "{name} differs: run `compare/run store`");
        assert!(file.len() < 150_000, "{name}: {} bytes", file.len());
    }
    let all: usize = made.values().map(String::len).sum();
    assert!(all < 1_500_000, "{all} bytes");
}

#[test]
fn a_changed_answer_is_seen() {
    let kept = files(store::FOLDER.as_ref());
    let stored = &kept["rust-plans-1.txt"];
    let told = |name: &str, file: &str| {
        let folder = fresh(&format!("changed-{}", file.len()));
        fs::write(folder.join(name), file).unwrap();
        store::check(&folder).map(|report| report.differences)
    };
    assert_eq!(told("rust-plans-1.txt", stored), Ok(0));
    assert_eq!(told("rust-plans-1.txt", &stored.replacen("outcome 14", "outcome 13 ", 1)), Ok(1));
    assert!(told("document-plans-1.txt", &(stored.clone() + "\n")).is_err(), "a case without an end");
    assert!(told("document-plans-1.txt", &stored[..stored.rfind("case").unwrap()]).unwrap() > 0, "the wrong file");
    assert!(told("rust-plans-1.txt", "case x\ninput 0\nend\n").is_err(), "half a byte");
    assert!(store::check(&fresh("none")).is_err());
}

#[test]
fn replay_writes_each_stored_plan_and_its_print() {
    let folder = fresh("replayed");
    store::replay(store::FOLDER.as_ref(), &folder).unwrap();
    let (stdin, stdout) = (fs::read(folder.join("stdin")).unwrap(), fs::read_to_string(folder.join("stdout")).unwrap());
    let mut plans = Vec::new();
    let mut rest = stdin.as_slice();
    while let Some((length, more)) = rest.split_first_chunk::<4>() {
        let (plan, more) = more.split_at(u32::from_le_bytes(*length) as usize);
        plans.push(plan);
        rest = more;
    }
    assert!(rest.is_empty());
    let shown = |plan: &&[u8]| compare::modes::answer(plan, compare::modes::Mode::Program, None).unwrap();
    assert_eq!(plans.iter().map(shown).collect::<String>(), stdout);
    let numbers = ["outcome 10", "outcome 11", "outcome 12", "outcome 13", "outcome 14"];
    let refusals = ["refused 1 ", "refused 2 ", "refused 3 ", "refused 4 ", "refused 5 "];
    for number in numbers.into_iter().chain(refusals) {
        assert!(stdout.lines().any(|line| line.starts_with(number)), "{number}");
    }
}

#[test]
fn a_changed_print_is_not_replayed() {
    let kept = files(store::FOLDER.as_ref());
    let folder = fresh("changed-print");
    let changed = kept["rust-plans-1.txt"].replacen("outcome 14", "outcome 13", 1);
    fs::write(folder.join("rust-plans-1.txt"), changed).unwrap();
    assert!(store::replay(&folder, &fresh("not-replayed")).is_err());
}
