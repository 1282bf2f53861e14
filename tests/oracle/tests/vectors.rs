//! The replay vectors: every `NAME.script` in the folder that REPLAY_VECTORS
//! names, or else in tests/vectors, is answered as `NAME.expected` says.

mod common;

use std::fs;
use std::path::{Path, PathBuf};

const VECTORS: &str = concat!(env!("CARGO_MANIFEST_DIR"), "/../vectors");

#[test]
fn vectors() {
    let folder = std::env::var_os("REPLAY_VECTORS").map_or_else(|| VECTORS.into(), PathBuf::from);
    let entries =
        fs::read_dir(&folder).unwrap_or_else(|error| panic!("{}: {error}", folder.display()));
    let paths = entries.map(|entry| entry.expect("an entry of the folder").path());
    let scripts: Vec<PathBuf> = paths.filter(|path| is_script(path)).collect();
    assert!(!scripts.is_empty(), "no script in {}", folder.display());
    scripts.iter().for_each(|script| compare(script));
}

fn is_script(path: &Path) -> bool {
    path.extension()
        .is_some_and(|extension| extension == "script")
}

fn compare(script: &Path) {
    let expected = fs::read_to_string(script.with_extension("expected")).expect("expected answers");
    let actual = common::output(fs::read(script).expect("a script"));
    for (number, (actual, expected)) in (1..).zip(actual.lines().zip(expected.lines())) {
        assert_eq!(
            actual,
            expected,
            "{}, answer line {number}",
            script.display()
        );
    }
    assert!(actual == expected, "{}: one is longer", script.display());
}
