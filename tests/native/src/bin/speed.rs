//! speed: times of the proved library, of the second translator and, where they were linked, of versions in C, on the same inputs in one
//! run. That C answers as the proved library does, on damaged inputs too, is tried first. The last lines are the ratios to C beside their
//! bars; the status is 1 where one is over its bar.

#[path = "speed/images.rs"]
mod images;
#[path = "speed/ranges.rs"]
mod ranges;
#[path = "speed/ratios.rs"]
mod ratios;
#[path = "speed/searches.rs"]
mod searches;
#[path = "speed/translations.rs"]
mod translations;
#[path = "speed/turns.rs"]
mod turns;
#[path = "speed/walks.rs"]
mod walks;

use std::path::{Path, PathBuf};
use std::process::ExitCode;

/// The benchmark's inputs, in order.
fn inputs() -> Vec<PathBuf> {
    let folder = std::fs::read_dir(concat!(env!("CARGO_MANIFEST_DIR"), "/inputs")).unwrap();
    let mut paths: Vec<_> = folder.map(|file| file.unwrap().path()).collect();
    paths.sort();
    paths
}

/// The name of an input, without folder and ending.
fn name(path: &Path) -> String {
    path.file_stem().unwrap().to_string_lossy().into_owned()
}

fn main() -> ExitCode {
    images::agreement();
    translations::agreement();
    walks::agreement();
    let inputs = inputs();
    let mut ratios = images::images();
    ratios.extend(translations::translations(&inputs));
    let median_or_large = |path: &&PathBuf| ["-median", "-big-"].iter().any(|kind| name(path).contains(kind));
    let large = inputs.iter().find(|path| name(path).contains("-big-")).expect("a large input");
    translations::growth(large);
    searches::looks(inputs.iter().filter(median_or_large));
    walks::walks();
    ranges::ranges();
    ratios::judge(&ratios)
}
