//! Paths from ranges timed: by the proved library and by the second translator.

use super::turns::round;
use super::walks::{long_path, LISTED};
use native::ranges::of_ends;
use native::walks::{shipped, Tables};
use std::hint::black_box;

const HIGHEST: u32 = 65_535;

/// Nanoseconds of a call along the path, of one along no edge, and for each edge without that. They take turns, and the least of
/// each counts.
fn times(calls: usize, path: &[u32], mut follow: impl FnMut(&[u32])) -> [f64; 3] {
    let [mut whole, mut check] = [f64::INFINITY; 2];
    for _ in 0..30 {
        whole = whole.min(round(calls, || follow(black_box(path))));
        check = check.min(round(calls, || follow(black_box(&[]))));
    }
    [whole, check, (whole - check) / path.len() as f64]
}

fn print(name: &str, [whole, check, each]: [f64; 3]) {
    println!("  {name:<16} {:>9.2} µs {:>9.2} µs {each:>9.1} ns", whole / 1e3, check / 1e3);
}

/// From the counters that follow the path to the highest that may be given.
fn follow(name: &str) {
    let t = Tables::listed(&shipped(name)).expect("a listing");
    let (at, path) = long_path(&t, HIGHEST as usize);
    let start = at.location as usize;
    let nodes = usize::from(t.location(at.location)[3]);
    let given = of_ends(&at.counters[..nodes].iter().map(|&counter| (counter, HIGHEST)).collect::<Vec<_>>());
    println!("{name}: {} locations, {} edges, a path of {}", t.counts[0], t.counts[1], path.len());
    assert!(matches!(t.ranges(start, &given, &path), reference::Ranged::Follows { .. }), "{name} is followed");
    let calls = if t.counts[0] > 100 { 20 } else { 50 };
    let proved = times(calls, &path, |path| drop(black_box(t.ranges_proved(start, &given, path))));
    let second = times(calls / 10, &path, |path| drop(black_box(t.ranges_second(start, &given, path))));
    print("proved", proved);
    print("second", second);
    let [whole, check, each] = [0, 1, 2].map(|which| second[which] / proved[which]);
    println!("  {:<16} {whole:>12.1} {check:>12.1} {each:>12.1}", "second/proved");
}

/// `check` is the time along no edge, and `an edge` what is left of the whole for each edge.
pub fn ranges() {
    println!("\n{:<18} {:>12} {:>12} {:>12}", "paths from ranges", "whole", "check", "an edge");
    LISTED.iter().for_each(|name| follow(name));
}
