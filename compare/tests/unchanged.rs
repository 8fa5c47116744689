//! What was compiled is the published text: each copy in the build folder is its file, `local_search.rs` plus one line.

use std::fs::read_to_string;
use std::path::{Path, PathBuf};

#[test]
fn the_copies_are_the_text() {
    let package = Path::new(env!("CARGO_MANIFEST_DIR"));
    let folder = std::env::var_os("LAVKKESTO_RUST").filter(|folder| !folder.is_empty()).map(PathBuf::from);
    let text = folder.unwrap_or_else(|| package.join("../../shared/docs/src"));
    let probe = format!("#[path = {:?}] mod probe;\n", package.join("src/probe.rs"));
    for (file, appended) in [
        ("ga/chromosome.rs", ""),
        ("ga/operators.rs", ""),
        ("ga/problem.rs", ""),
        ("ga/problem/local_search.rs", probe.as_str()),
        ("validation.rs", ""),
    ] {
        let published = read_to_string(text.join("src").join(file)).expect("the text is at hand");
        let copy = read_to_string(Path::new(env!("OUT_DIR")).join("text").join(file)).expect("build.rs copied it");
        assert!(copy == published + appended, "{file}");
    }
}
