//! The shared cases through the program: NAME.in and NAME.out for the full
//! tables, and NAME.bench where the bench prints another text.

use std::fs::{self, File};
use std::path::{Path, PathBuf};
use std::process::Command;

/// The paths of the folder that end so.
fn paths(ending: &str) -> Vec<PathBuf> {
    let folder = Path::new(env!("CARGO_MANIFEST_DIR")).join("../tests/cases");
    let mut paths: Vec<PathBuf> = fs::read_dir(&folder)
        .unwrap_or_else(|error| panic!("{}: {error}", folder.display()))
        .map(|entry| entry.expect("an entry of the folder").path())
        .filter(|path| path.extension().is_some_and(|end| end == ending))
        .collect();
    paths.sort();
    paths
}

/// Gives every input to the program with these words, and wants the text that
/// is expected of it and the exit status that goes with it.
fn check_all(words: &[&str], expected: fn(&Path) -> Vec<u8>) {
    let inputs = paths("in");
    assert!(!inputs.is_empty(), "no cases are there");
    let mut differing = Vec::new();
    for path in &inputs {
        let expected = expected(path);
        assert!(!expected.is_empty(), "nothing is expected of {}", path.display());
        let output = Command::new(env!("CARGO_BIN_EXE_reference"))
            .args(words)
            .stdin(File::open(path).expect("the input"))
            .output()
            .expect("the program runs");
        let refused = output.stdout.starts_with(b"refused");
        let status = output.status.code();
        if output.stdout != expected || status != Some(i32::from(refused)) {
            differing.push(path.file_name().unwrap_or_default());
        }
    }
    assert!(differing.is_empty(), "cases that differ: {differing:?}");
}

fn full_output(path: &Path) -> Vec<u8> {
    fs::read(path.with_extension("out")).expect("an .out for each .in")
}

fn bench_output(path: &Path) -> Vec<u8> {
    let own = path.with_extension("bench");
    if own.exists() {
        fs::read(own).expect("the .bench")
    } else {
        full_output(path)
    }
}

#[test]
fn every_pair_agrees() {
    check_all(&["translate"], full_output);
}

#[test]
fn every_output_of_the_bench_agrees() {
    check_all(&["translate", "--bench"], bench_output);
}

#[test]
fn the_bench_has_a_file_only_where_it_prints_another_text() {
    let files = paths("bench");
    assert!(!files.is_empty(), "no outputs of the bench are there");
    for path in files {
        let text = fs::read_to_string(&path).expect("plain text");
        // What differs is a listing that does not fit.
        assert!(text.starts_with("refused 11 ") || text.starts_with("refused 12 "), "{}", path.display());
        assert!(path.with_extension("in").exists(), "{} has no .in", path.display());
        assert!(text.into_bytes() != full_output(&path), "{} is the .out", path.display());
    }
}
