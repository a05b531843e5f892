//! Translations compared and timed: by the proved library, by the second translator and, where it was linked, in C.

use super::name;
use super::ratios::Ratio;
use super::turns::{in_turns, shown, By, Times};
use native::damage::{among_shapes, drawn_routine};
use native::draw::Draw;
use reference::selftest::damaged_shapes;
use std::hint::black_box;
use std::path::{Path, PathBuf};

type Tables = (Vec<u8>, Vec<u8>);

/// The translator in C, where it was linked: refusal, place and node, and both counts.
#[cfg(peer)]
fn peer(input: &[u8], t: &mut Tables) -> Option<[usize; 5]> {
    extern "C" {
        fn peer_translate5(
            input: *const u8,
            len: usize,
            locations: *mut u8,
            locations_len: usize,
            edges: *mut u8,
            edges_len: usize,
            a: *mut u32,
            b: *mut u32,
            number: *mut u32,
            place: *mut u32,
            node: *mut u32,
        ) -> i32;
    }
    let mut n = [0u32; 5];
    let [a, b, c, d, e] = &mut n;
    unsafe {
        peer_translate5(input.as_ptr(), input.len(), t.0.as_mut_ptr(), t.0.len(), t.1.as_mut_ptr(), t.1.len(), a, b, c, d, e)
    };
    let [locations, edges, number, place, node] = n.map(|number| number as usize);
    Some([number, place, node, locations, edges])
}

#[cfg(not(peer))]
fn peer(_: &[u8], _: &mut Tables) -> Option<[usize; 5]> {
    None
}

/// Both answers and all tables are the same. Gives the refusal, none where there is no translator in C.
fn agree(input: &[u8]) -> Option<usize> {
    let mut theirs = (vec![0xaa; 32_768], vec![0xaa; 65_536]);
    let told = peer(input, &mut theirs)?;
    let mut ours = (vec![0x55; 32_768], vec![0x55; 65_536]);
    let (refusal, [locations, edges]) = native::translate(input, &mut ours.0, &mut ours.1);
    let answer = [refusal.number.into(), refusal.place, refusal.node.0.into(), locations, edges];
    assert_eq!(answer, told, "the translator in C on {input:x?}");
    assert!(ours == theirs, "tables of the translator in C on {input:x?}");
    Some(told[0])
}

/// Routines of every kind, and 9, 18 and 19 at every node, by the proved library and by the translator in C.
pub fn agreement() {
    let mut d = Draw::new(1);
    let mut inputs: Vec<Vec<u8>> = (0..3_000).map(|i| drawn_routine(&mut d, i)).collect();
    inputs.extend(damaged_shapes(1).take(3_500).map(|(record, _)| among_shapes(&mut d, &record).0));
    let mut met = [0; 20];
    for input in &inputs {
        let Some(refusal) = agree(input) else { return };
        met[refusal] += 1;
    }
    println!("the same as in C: refusal, place, node, counts and tables of {} routines, by refusal {met:?}", inputs.len());
}

/// A routine, and tables that are written again and again.
struct Work {
    input: Vec<u8>,
    tables: Tables,
}

/// Tables of so many locations and twice as many edges.
fn times(input: &[u8], places: usize) -> Times {
    let by = By {
        proved: |w: &mut Work| {
            black_box(native::translate(black_box(&w.input), &mut w.tables.0, &mut w.tables.1));
        },
        second: |w: &mut Work| {
            black_box(reference::translate(black_box(&w.input), &mut w.tables.0, &mut w.tables.1));
        },
        c: |w: &mut Work| {
            black_box(peer(black_box(&w.input), &mut w.tables));
        },
    };
    in_turns(&mut Work { input: input.to_vec(), tables: (vec![0; 32 * places], vec![0; 64 * places]) }, by)
}

/// How many times as long as C a translation may take: small ones are spent on zeroing both tables.
fn bar(name: &str) -> f64 {
    if name == "1-small" {
        1.0
    } else {
        1.5
    }
}

/// Prints a row. Gives the ratio to C, none where it was not linked.
fn row(path: &Path) -> Option<Ratio> {
    let (input, name) = (std::fs::read(path).unwrap(), name(path));
    let (_, [locations, edges]) = native::translate(&input, &mut [0; 32_768], &mut [0; 65_536]);
    let t = times(&input, 1024);
    let [proved, second, c] = [Some(t.proved), Some(t.second), t.c].map(|time| shown(time, 0, " ns"));
    let (slower, ratio) = (t.second / t.proved, shown(t.ratio(), 2, ""));
    println!("{name:<16} {locations:>5} {edges:>5} {proved:>12} {second:>12} {c:>10} {slower:>13.1} {ratio:>9}");
    t.ratio().map(|ratio| Ratio { bar: bar(&name), name, ratio })
}

/// The table, and the ratios to C.
pub fn translations(paths: &[PathBuf]) -> Vec<Ratio> {
    println!(
        "\n{:<16} {:>5} {:>5} {:>12} {:>12} {:>10} {:>13} {:>9}",
        "translations", "loc.", "edges", "proved", "second", "C", "second/proved", "proved/C"
    );
    paths.iter().filter_map(|path| row(path)).collect()
}

/// The same routine in smaller tables stops with refusal 11 when they are full: how the time for an edge grows with the number of
/// locations.
pub fn growth(path: &Path) {
    println!("\ngrowth of {}, ns an edge:", name(path));
    println!("{:>10} {:>6} {:>10} {:>10}", "locations", "edges", "proved", "C");
    let input = std::fs::read(path).unwrap();
    for places in [16, 32, 64, 128, 256, 512, 1024] {
        let (t, edges) = (times(&input, places), reached(&input, places));
        let each = |time: Option<f64>| shown(time.map(|time| time / edges as f64), 1, "");
        println!("{places:>10} {edges:>6} {:>10} {:>10}", each(Some(t.proved)), each(t.c));
    }
}

/// The edges found before the tables are full: the least number of edge places with which 12 does not come.
fn reached(input: &[u8], places: usize) -> usize {
    let (mut low, mut high) = (0, 2 * places);
    while low < high {
        let middle = (low + high) / 2;
        let (refusal, _) = native::translate(input, &mut vec![0; 32 * places], &mut vec![0; 32 * middle]);
        if refusal.number == 12 {
            low = middle + 1
        } else {
            high = middle
        }
    }
    low
}
