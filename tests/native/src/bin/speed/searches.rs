//! How many records the searches of a translation look at, replayed from its listing.

use super::name;
use native::index::{average, replay, starts, Hash, Look};
use native::walks::Tables;
use std::path::{Path, PathBuf};

/// The searches of one translation, none where it is refused.
fn searches(path: &Path, hash: &Hash) -> Vec<Look> {
    let input = std::fs::read(path).unwrap();
    Tables::listed(&input).map_or(vec![], |t| replay(&t, starts(&input), hash))
}

/// How many records a search looks at on average, where it finds its target, where there is none and over all: by the index, and by a
/// search without one, from the newest back. In each of these inputs, and in all cases of the shelf together.
pub fn looks<'a>(paths: impl Iterator<Item = &'a PathBuf>) {
    let hash = Hash::of_the_code();
    let group = |name: &str| format!("{name:>7} {:>6} {:>8}", "index", "without");
    println!("\nrecords that a search looks at on average, by the index, and without it from the newest back:");
    println!("{:<16} {} {} {}", "", group("hits"), group("none"), group("all"));
    for path in paths {
        row(&name(path), &searches(path, &hash));
    }
    let shelf = std::fs::read_dir(concat!(env!("CARGO_MANIFEST_DIR"), "/../cases")).unwrap().map(|file| file.unwrap().path());
    let inputs = shelf.filter(|path| path.extension().is_some_and(|end| end == "in"));
    row("shelf cases", &inputs.flat_map(|path| searches(&path, &hash)).collect::<Vec<_>>());
}

fn row(name: &str, all: &[Look]) {
    let group = |kind: fn(&Look) -> bool| {
        let looks: Vec<&Look> = all.iter().filter(|look| kind(look)).collect();
        let [index, without] = [average(looks.iter().map(|look| look.by_index)), average(looks.iter().map(|look| look.linear))];
        format!("{:>7} {index:>6.2} {without:>8.1}", looks.len())
    };
    println!("{name:<16} {} {} {}", group(|look| look.known), group(|look| !look.known), group(|_| true));
}
