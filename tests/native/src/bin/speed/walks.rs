//! Walks timed: by the proved library, by the second translator and, where it was linked, in C.

use super::turns::round;
use native::draw::Draw;
use native::walks::{shipped, standing, Tables, Walked};
use native::Configuration;
use reference::walk_damage::{aims, draw};
use std::hint::black_box;

const MOST: usize = 4096;

/// The inputs in whose listings paths are followed.
pub const LISTED: [&str; 5] = ["2-reverse", "3-median", "4-big-walk", "5-big-mixed", "6-big-make"];

/// The walk in C, where it was linked.
#[cfg(peer)]
fn peer(t: &Tables, mut at: Configuration, path: &[u32]) -> Option<Walked> {
    extern "C" {
        fn peer_walk(
            locations: *const u8,
            locations_len: usize,
            location_count: usize,
            edges: *const u8,
            edges_len: usize,
            edge_count: usize,
            location: *mut u32,
            counters: *mut u32,
            path: *const u32,
            path_len: usize,
            made: *mut usize,
        ) -> i32;
    }
    let mut made = usize::MAX;
    let refusal = unsafe {
        peer_walk(
            t.locations.as_ptr(),
            t.locations.len(),
            t.counts[0],
            t.edges.as_ptr(),
            t.edges.len(),
            t.counts[1],
            &mut at.location,
            at.counters.as_mut_ptr(),
            path.as_ptr(),
            path.len(),
            &mut made,
        )
    };
    Some((refusal as u8, made, at))
}

#[cfg(not(peer))]
fn peer(_: &Tables, _: Configuration, _: &[u32]) -> Option<Walked> {
    None
}

/// Drawn walks by the proved library and in C.
pub fn agreement() {
    let mut met = [0; 22];
    for drawn in (0..600 * aims().len() as u64).map(draw) {
        let (tables, start) = Tables::drawn(&drawn);
        let Some(theirs) = peer(&tables, start, &drawn.path) else { return };
        assert_eq!(tables.walk_proved(start, &drawn.path), theirs, "the walk in C on {drawn:?}");
        met[usize::from(theirs.0)] += 1;
    }
    println!(
        "the same as in C: refusal, moves and configuration of drawn walks, by refusal 0, 20 and 21 {:?}",
        [met[0], met[20], met[21]]
    );
}

/// Of each edge, guards aside, whether the location that it leaves can be come to again.
fn returning(t: &Tables) -> Vec<bool> {
    let ends = |edge: u32| [2, 4].map(|at: usize| usize::from(u16::from_le_bytes([t.edge(edge)[at], t.edge(edge)[at + 1]])));
    let edges: Vec<[usize; 2]> = (0..t.counts[1] as u32).map(ends).collect();
    let mut next = vec![Vec::new(); t.counts[0]];
    edges.iter().for_each(|&[from, to]| next[from].push(to));
    let reaches = |from: usize, wanted: usize| {
        let (mut seen, mut left) = (vec![false; next.len()], vec![from]);
        while let Some(at) = left.pop() {
            if !std::mem::replace(&mut seen[at], true) {
                left.extend(&next[at]);
            }
        }
        seen[wanted]
    };
    edges.iter().map(|&[from, to]| reaches(to, from)).collect()
}

/// A path from any location with counters of at most so much, drawn from edges that can be taken, those that can return first.
fn drawn_path(t: &Tables, returning: &[bool], d: &mut Draw, most: usize) -> (Configuration, Vec<u32>) {
    let location = d.below(t.counts[0]) as u32;
    let counters: Vec<u32> = (0..t.location(location)[3]).map(|_| [1, 2, 1 + d.below(most) as u32][d.below(3)]).collect();
    let start = standing(location, &counters);
    let (mut at, mut path) = (start, Vec::new());
    while path.len() < MOST {
        let ways: Vec<_> = t.ways(&at).into_iter().filter_map(|edge| Some((edge, t.led(&at, edge)?))).collect();
        let back: Vec<_> = ways.iter().copied().filter(|&(edge, _)| returning[edge as usize]).collect();
        let among = if back.is_empty() { &ways } else { &back };
        let Some(&(edge, to)) = among.get(d.below(among.len())) else { break };
        path.push(edge);
        at = to;
    }
    (start, path)
}

/// The first path of 4,096 edges from counters of at most so much, or the longest of many.
pub fn long_path(t: &Tables, most: usize) -> (Configuration, Vec<u32>) {
    let (returning, mut d) = (returning(t), Draw::new(1));
    let mut longest = drawn_path(t, &returning, &mut d, most);
    for _ in 0..5_000 {
        if longest.1.len() == MOST {
            break;
        }
        let other = drawn_path(t, &returning, &mut d, most);
        if other.1.len() > longest.1.len() {
            longest = other;
        }
    }
    longest
}

/// One who walks, and moves along a single edge.
struct Walker {
    name: &'static str,
    walk: fn(&Tables, Configuration, &[u32]) -> Walked,
    one: fn(&Tables, Configuration, usize) -> (u8, Configuration),
    /// How many times fewer calls are timed.
    slower: usize,
}

fn walkers() -> Vec<Walker> {
    let mut all = vec![
        Walker { name: "proved", walk: Tables::walk_proved, one: Tables::move_proved, slower: 1 },
        Walker { name: "second", walk: Tables::walk_second, one: Tables::move_second, slower: 10 },
    ];
    if cfg!(peer) {
        let walk = |t: &Tables, at: Configuration, path: &[u32]| peer(t, at, path).expect("it was linked");
        let one = |t: &Tables, at: Configuration, number: usize| {
            let (refusal, _, to) = peer(t, at, &[number as u32]).expect("it was linked");
            (refusal, to)
        };
        all.push(Walker { name: "C", walk, one, slower: 1 });
    }
    all
}

/// Nanoseconds of a walk, of one without a move, for each of its moves without that, and of one move by itself. They take turns,
/// and the least of each counts.
fn times(by: &Walker, t: &Tables, start: Configuration, path: &[u32]) -> [f64; 4] {
    let few = if t.counts[0] > 100 { [20, 20] } else { [50, 500] };
    let [calls, more] = few.map(|calls| calls / by.slower);
    let [mut walk, mut check, mut one] = [f64::INFINITY; 3];
    for _ in 0..30 {
        walk = walk.min(round(calls, || (by.walk)(t, start, black_box(path))));
        check = check.min(round(more, || (by.walk)(t, start, black_box(&[]))));
        one = one.min(round(more, || (by.one)(t, start, black_box(path[0] as usize))));
    }
    [walk, check, (walk - check) / path.len() as f64, one]
}

fn ratio(name: &str, above: [f64; 4], below: [f64; 4]) {
    let [walk, check, each, one] = [0, 1, 2, 3].map(|which| above[which] / below[which]);
    println!("  {name:<16} {walk:>12.1} {check:>12.1} {each:>12.1} {one:>12.1}");
}

fn walk(name: &str) {
    let t = Tables::listed(&shipped(name)).expect("a listing");
    let (start, path) = long_path(&t, 1 << 20);
    let none = if path.len() < MOST { ", and no longer path was found" } else { "" };
    println!("{name}: {} locations, {} edges, {} moves{none}", t.counts[0], t.counts[1], path.len());
    let due = t.walk_proved(start, &path);
    assert_eq!((due.0, due.1), (0, path.len()));
    let mut all = Vec::new();
    for by in walkers() {
        assert_eq!((by.walk)(&t, start, &path), due, "{} on {name}", by.name);
        let [walk, check, each, one] = times(&by, &t, start, &path);
        println!("  {:<16} {:>9.2} µs {:>9.2} µs {each:>9.1} ns {:>9.2} µs", by.name, walk / 1e3, check / 1e3, one / 1e3);
        all.push([walk, check, each, one]);
    }
    ratio("second/proved", all[1], all[0]);
    if let Some(&c) = all.get(2) {
        ratio("proved/C", all[0], c);
    }
}

/// `check` is the time of a walk without a move, and `a move` what is left of the walk for each of its moves.
pub fn walks() {
    println!("\n{:<18} {:>12} {:>12} {:>12} {:>12}", "walks", "walk", "check", "a move", "move alone");
    for name in LISTED {
        walk(name);
    }
}
