//! The index of the known locations judged by its work and not by time: how many records a search looks at, replayed from the listings of
//! the large inputs. That a bad hash would be seen, and that the replay is right, is tried too.

use native::index::{average, replay, starts, target, Hash, Look};
use native::walks::Tables;

/// More records for a search, on average, and the index is no help.
const MOST: f64 = 3.0;

/// Of the benchmark's inputs those whose names have this in them: the name, the listing and how many starting shapes there are.
fn listings(part: &str) -> Vec<(String, Tables, usize)> {
    let folder = std::fs::read_dir(concat!(env!("CARGO_MANIFEST_DIR"), "/inputs")).unwrap();
    let named = folder.map(|file| file.unwrap().path()).filter(|path| path.to_string_lossy().contains(part));
    let listed = |path: std::path::PathBuf| {
        let input = std::fs::read(&path).unwrap();
        let name = path.file_stem().unwrap().to_string_lossy().into_owned();
        (name, Tables::listed(&input).expect("a listing"), starts(&input))
    };
    named.map(listed).collect()
}

/// For each large input, with a hash: its name, and how many records a search looks at on average, as counted by this.
fn averages(hash: &Hash, counted: fn(&Look) -> usize) -> Vec<(String, f64)> {
    let large = listings("-big-");
    assert_eq!(large.len(), 3, "large inputs");
    large.into_iter().map(|(name, t, starts)| (name, average(replay(&t, starts, hash).iter().map(counted)))).collect()
}

#[test]
fn a_search_looks_at_few_records() {
    for (name, looked) in averages(&Hash::of_the_code(), |look| look.by_index) {
        println!("{name}: {looked:.2} records for each search");
        assert!(looked <= MOST, "{name}: {looked:.2} records for each search, and at most {MOST} are expected");
    }
}

#[test]
fn the_linear_search_looks_at_many() {
    for (name, looked) in averages(&Hash::of_the_code(), |look| look.linear) {
        println!("{name}: {looked:.1} records for each search without the index");
        assert!(looked > 100.0, "{name}: {looked:.1} records for each search without the index");
    }
}

/// Of the first four bytes alone: the statement and the number of nodes, but no pointer and no successor.
#[test]
fn a_bad_hash_is_seen() {
    let mut bad = Hash::of_the_code();
    bad.words.retain(|&(at, _)| at == 0);
    assert_eq!(bad.words.len(), 1, "words at 0 in the hash of the code");
    for (name, looked) in averages(&bad, |look| look.by_index) {
        println!("{name}: {looked:.1} records for each search with a bad hash");
        assert!(looked > MOST, "{name}: {looked:.2} records for each search with a bad hash, which would not be seen");
    }
}

/// Each edge of the replay leads where the listing says, whatever the hash is; and the locations are entered one after the other.
#[test]
fn the_replay_finds_the_targets() {
    let code = Hash::of_the_code();
    let one = Hash { hashes: 1, ..code.clone() };
    for (name, t, starts) in listings("") {
        for hash in [&code, &one] {
            let (looks, mut known) = (replay(&t, starts, hash), starts);
            assert_eq!(looks.len(), t.counts[1], "{name}: searches and edges");
            for (edge, look) in looks.iter().enumerate() {
                let due = target(&t, edge as u32);
                assert_eq!(look.target, due, "{name}: edge {edge} leads to {due}, and the replay found {}", look.target);
                assert_eq!(look.known, due < known, "{name}: edge {edge} leads to {due}, with {known} locations known");
                assert!(look.by_index <= look.linear, "{name}: edge {edge}, {} of {} records", look.by_index, look.linear);
                known += usize::from(!look.known);
            }
            assert_eq!(known, t.counts[0], "{name}: locations entered");
        }
        // with one hash for all, the index is the search from the newest back
        let same = replay(&t, starts, &one).iter().all(|look| look.by_index == look.linear);
        assert!(same, "{name}: one hash for all, and not every record is looked at");
    }
}

/// The text that the hash is read from, with one part written otherwise.
#[test]
fn another_text_is_no_hash() {
    let text = "pub const HASHES: usize = 512;\n\npub fn hash(rec: &[u8]) -> usize\n    requires { a }\n{\n    \
        let sum = four(rec, 0) as u64 * 0x1_0\n        + four(rec, 20) as u64 * 7;\n    (sum / 0x40 % 512) as usize\n}\n";
    let due = Hash { words: vec![(0, 16), (20, 7)], divisor: 64, hashes: 512 };
    assert_eq!(Hash::read(text), Ok(due));
    let others = [
        ("pub fn hash(", "pub fn other("),
        ("let sum", "let mut sum"),
        ("four(rec, 0)", "four(rec, 29)"),
        ("four(rec, 20) as u64 * 7", "eight(rec, 16) * 7"),
        ("0x1_0", "TIMES"),
        ("(sum / 0x40 % 512)", "(sum % 512)"),
        ("(sum / 0x40 % 512)", "(sum / 0 % 512)"),
        ("(sum / 0x40 % 512)", "(sum / 0x40 % 256)"),
        ("as usize\n}", "as usize + 1\n}"),
    ];
    for (part, other) in others {
        let told = Hash::read(&text.replacen(part, other, 1));
        println!("{other}: {told:?}");
        assert!(told.is_err(), "'{other}' in place of '{part}' is read as {told:?}");
    }
}
