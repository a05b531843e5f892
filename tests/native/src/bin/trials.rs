//! trials SEED..: inputs with what the second translator answers, for a program in C (tests/controller) to try on the
//! proved library. Nothing here calls that library. Each seed gives half of what the program wants to see, on a thread
//! of its own. How they are written: src/stream.rs.

use native::damage::{among_shapes, any_values, counters_of, drawn_routine, many_nodes, spoil_shape, spoiled};
use native::draw::{damage_record, damaged_image, image, statement, Draw};
use native::joined::{any_image, drop_of};
use native::ranges::laid;
use native::rings::{exact, fork, full, plain_ring, ring, ring_at_border, FULL};
use native::searches::drawn_search;
use native::stream::Stream;
use reference::ranges_draw::{draw_ranges, ranges_aims, DrawnRanges};
use reference::selftest::damaged_shapes;
use reference::walk_damage::{self, DrawnWalk};
use reference::{Refusal, Translated};
use std::collections::HashSet;
use std::io::Write;

/// How many trials of each kind a seed gives.
const RANDOM: usize = 8_500;
const BORDER: usize = 2_500;
const EXACT: usize = 20;
const OTHER: usize = 2_500;
const HEAPS: usize = 10_200;
const FEW: usize = 2_600;
/// Each of 9, 18 and 19 at each node so often, and others.
const EACH_NODE: usize = 100;
const BY_CHANCE: usize = 1_000;
/// So many turns of the aims of walks.
const TURNS: usize = 70;
const SEARCHES: usize = 6_000;
/// So many turns of the aims of paths from ranges.
const RANGES_TURNS: usize = 120;

/// The bytes of the bench's tables.
const BENCH: [usize; 2] = [4_096, 8_192];

/// Listings that just fit the bench's tables, and that just do not: which refusal must come.
fn at_the_limits(out: &mut Stream, d: &mut Draw) {
    type Wanted = fn(usize, usize) -> bool;
    let limits: [(Wanted, u8); 5] = [
        (|l, e| l == 128 && e <= 256, 0),
        (|l, e| l == 129 && e <= 256, 11),
        (|l, e| l <= 128 && e == 256, 0),
        (|l, e| l <= 128 && e == 257, 12),
        (|l, e| l == 128 && e == 256, 0),
    ];
    for (wanted, refusal) in limits {
        let mut different = HashSet::new();
        while different.len() < EXACT {
            let (input, listed) = exact(d, wanted);
            let told = out.translation(&input, BENCH, listed);
            assert_eq!(told.refusal, refusal);
            different.insert(input);
        }
    }
    for chooses in 0..EXACT {
        let (input, listed) = plain_ring(d, 64, 2, 64);
        assert_eq!(out.translation(&input, BENCH, listed).refusal, 0);
        let (input, listed) = plain_ring(d, 43, 3, 2 * chooses);
        assert_eq!(out.translation(&input, BENCH, listed).refusal, 11);
    }
}

/// Lengths of tables: any, few places, none, what the full listing needs, and less or more than that.
fn lengths(d: &mut Draw, full: &Translated) -> [usize; 2] {
    let [l, e] = [32 * full.locations, 32 * full.edges];
    match d.below(12) {
        0 => [d.below(400), d.below(600)],
        1 => [32 * d.below(12), 32 * d.below(12)],
        2 => [d.below(40_000), d.below(70_000)],
        3 => [[0, e], [l, 0], [0, 0], [0, FULL[1]], [FULL[0], 0]][d.below(5)],
        4 => FULL,
        5 | 6 => [l, e],
        7 => [l.saturating_sub(32), e],
        8 => [l, e.saturating_sub(32)],
        9 => [l.saturating_sub(1), e],
        10 => [l, e.saturating_sub(1)],
        _ => [l + d.below(64), e + d.below(64)],
    }
}

fn translations(out: &mut Stream, d: &mut Draw) {
    for i in 0..RANDOM {
        let input = drawn_routine(d, i);
        out.translation(&input, BENCH, full(&input));
    }
    for i in 0..BORDER {
        let ring = if i % 50 == 0 { ring(d, 400) } else { ring_at_border(d) };
        let input = fork(&ring, i % 3, i % 2);
        out.translation(&input, BENCH, full(&input));
    }
    at_the_limits(out, d);
    for i in 0..OTHER {
        let input = if i % 10 == 0 { fork(&ring_at_border(d), 1, 1) } else { drawn_routine(d, i) };
        let listed = full(&input);
        out.translation(&input, lengths(d, &listed), listed);
    }
}

/// The most cells: small heaps and large ones.
fn cells(i: usize) -> usize {
    [3, 8, 16, 60, 240][i % 5]
}

/// Small and large heaps, some with many nodes.
fn heap(d: &mut Draw, i: usize) -> (Vec<u8>, Vec<u8>) {
    if !d.one_in(15) {
        return image(d, cells(i));
    }
    let record = many_nodes(d);
    let mut counters = [0; 12];
    counters[..record[3].into()].fill_with(|| 1 + d.below(20) as u32);
    let (mut pointers, mut cells) = (vec![0; 6], vec![0; 240]);
    reference::unfold(&record, &counters, &mut pointers, &mut cells).expect("240 cells suffice");
    (pointers, cells)
}

fn folds(out: &mut Stream, d: &mut Draw) {
    for i in 0..HEAPS {
        let (pointers, cells) = if i % 4 == 0 { heap(d, i) } else { damaged_image(d, cells(i)) };
        out.folding(&pointers, &cells);
    }
}

fn steps(out: &mut Stream, d: &mut Draw) {
    for i in 0..HEAPS {
        let (pointers, cells) = if d.one_in(6) { damaged_image(d, cells(i)) } else { heap(d, i) };
        let record = if d.one_in(200) { Vec::new() } else { statement(d) };
        let pick = if d.one_in(5) { d.number() as u8 } else { d.below(2) as u8 };
        let cell = if d.one_in(20) { usize::MAX - d.below(2) } else { d.below(cells.len() + 2) };
        out.stepping((pointers, cells), &record, pick, cell);
    }
}

/// Drops of lists and rings that meet; pick and cell are not read.
fn drops(out: &mut Stream, d: &mut Draw) {
    for i in 0..FEW {
        let heap = any_image(d, i);
        let record = drop_of(d, &heap.0);
        out.stepping(heap, &record, d.number() as u8, d.number() as usize);
    }
}

/// A shape with counters, one of them or their number now and then changed, and the lengths of a heap for them.
fn drawn_unfolding(d: &mut Draw, i: usize) -> (Vec<u8>, Vec<u32>, [usize; 2]) {
    let (pointers, cells) = heap(d, i);
    let folded = reference::fold(&pointers, &cells);
    let (mut record, mut counters) = (folded.record.to_vec(), folded.counters.to_vec());
    let sum = counters.iter().sum::<u32>() as usize;
    if d.one_in(12) {
        spoil_shape(d, &mut record);
    }
    damage_record(d, &mut record);
    match d.below(16) {
        0 => counters[d.below(12)] = d.below(3) as u32,
        1 => counters[d.below(12)] = u32::MAX - d.below(2) as u32,
        2 => counters.resize(d.below(15), 0),
        _ => {}
    }
    let room = match d.below(40) {
        0 | 1 => sum.saturating_sub(1),
        2 => 241 + d.below(20),
        _ => (sum + [0, 0, 1, 3][d.below(4)]).min(240),
    };
    (record, counters, [if d.one_in(30) { d.below(9) } else { 6 }, room])
}

fn unfoldings(out: &mut Stream, d: &mut Draw) {
    for i in 0..FEW {
        let (record, counters, lengths) = drawn_unfolding(d, i);
        out.unfolding(&record, &counters, lengths);
    }
}

/// A record that keeps the layout, among the starting shapes of a routine and in an unfolding. Gives what comes, at the place of the
/// record.
fn both_ways(out: &mut Stream, d: &mut Draw, record: &[u8; 32]) -> [Option<Refusal>; 2] {
    let (input, at) = among_shapes(d, record);
    let listed = full(&input);
    let tables = if d.one_in(3) { lengths(d, &listed) } else { BENCH };
    let Translated { refusal: number, place, node, .. } = out.translation(&input, tables, listed);
    let counters = counters_of(d, record);
    let unfolded = out.unfolding(record, &counters, [6, 240]);
    [(place == at).then_some(Refusal { number, place: 0, node }), unfolded]
}

/// H records that keep the layout and are no shapes: made on purpose, so that what is due is known, and by chance.
fn damaged(out: &mut Stream, d: &mut Draw) {
    // 9 and 18 at twelve nodes, 19 at eleven
    for (record, due) in damaged_shapes(d.number()).take(35 * EACH_NODE) {
        assert_eq!(both_ways(out, d, &record), [Some(due); 2], "{record:x?}");
    }
    for i in 0..BY_CHANCE {
        let record = if i % 2 == 0 { spoiled(d) } else { any_values(d) };
        both_ways(out, d, &record);
    }
}

/// At a limit, beside it, far below it, or anything.
fn near(d: &mut Draw, n: usize) -> usize {
    match d.below(8) {
        0 => n,
        1 => n.saturating_add(1),
        2 => n.saturating_sub(1),
        3 if d.one_in(3) => [usize::MAX, usize::MAX / 32, usize::MAX / 32 + 1, 1 << 59, 1 << 32][d.below(5)],
        _ => d.below(n),
    }
}

fn records(out: &mut Stream, d: &mut Draw) {
    let bytes = vec![7; 70_000];
    for i in 0..FEW {
        let lengths = [1024, 2048].map(|most| match d.below(4) {
            0 => d.below(70),
            1 => d.below(32 * most),
            2 => 32 * most - 33 + d.below(100),
            _ => most * 4,
        });
        let places = [(lengths[0] / 32).min(1024), (lengths[1] / 32).min(2048)];
        let counts = if i % 2 == 0 { places.map(|n| d.below(n + 1)) } else { places.map(|n| near(d, n)) };
        let table = if d.one_in(8) { near(d, 3) } else { d.below(2) };
        let number = near(d, counts[table.min(1)]);
        let [locations, edges] = lengths.map(|length| &bytes[..length]);
        let told = reference::record_part(locations, edges, counts[0], counts[1], table, number);
        let begins = told.map_or(0, |part| part.as_ptr() as usize - bytes.as_ptr() as usize);
        out.begin(b'R');
        out.numbers(&lengths);
        out.numbers(&counts);
        out.numbers(&[table, number]);
        out.refusal(told.err());
        out.numbers(&[begins, told.map_or(0, <[u8]>::len)]);
    }
}

/// One of two tables with its count, now and then shorter, longer or not there, or with another count.
fn other_table(d: &mut Draw, table: &mut Vec<u8>, count: &mut usize, path: &mut Vec<u32>) {
    match d.below(24) {
        0 => table.truncate(d.below(table.len() + 1)),
        // a byte short of what is in use
        1 => table.truncate(table.len().min(count.saturating_mul(32)).saturating_sub(1)),
        2 => table.extend((0..d.below(70)).map(|_| d.number() as u8)),
        3 => *count = near(d, table.len() / 32),
        4 => (*table, *count) = (Vec::new(), d.below(2)),
        5 => (*table, *count, *path) = (Vec::new(), 0, Vec::new()),
        _ => {}
    }
}

/// A drawn walk, with one of its tables or counts now and then another.
fn drawn_walk(d: &mut Draw, seed: u64) -> DrawnWalk {
    let mut drawn = walk_damage::draw(seed);
    let DrawnWalk { locations, edges, location_count, edge_count, path, .. } = &mut drawn;
    let (table, count) = if d.one_in(2) { (locations, location_count) } else { (edges, edge_count) };
    other_table(d, table, count, path);
    drawn
}

/// The same for a drawn path from ranges.
fn drawn_ranges(d: &mut Draw, seed: u64) -> DrawnRanges {
    let mut drawn = draw_ranges(seed);
    let DrawnRanges { locations, edges, location_count, edge_count, path, .. } = &mut drawn;
    let (table, count) = if d.one_in(2) { (locations, location_count) } else { (edges, edge_count) };
    other_table(d, table, count, path);
    drawn
}

/// Each drawn path from ranges, with 24 numbers of these most often; else fewer, which may be too few, or more.
fn ranges(out: &mut Stream, d: &mut Draw) {
    let first = d.number();
    for i in 0..RANGES_TURNS * ranges_aims().len() {
        let drawn = drawn_ranges(d, first + i as u64);
        let mut given = laid(&drawn.ranges);
        let length = if d.one_in(2) { 24 } else { [d.below(27), 13 + d.below(14)][d.below(2)] };
        given.truncate(length);
        given.resize_with(length, || d.number() as u32);
        out.ranging(&drawn, &given);
    }
}

/// Each drawn walk as a whole, and one move from where it starts: along its first edge, or along any.
fn walks(out: &mut Stream, d: &mut Draw) {
    let first = d.number();
    for i in 0..TURNS * walk_damage::aims().len() {
        let drawn = drawn_walk(d, first + i as u64);
        out.walking(&drawn);
        let any = near(d, drawn.edge_count);
        let number = drawn.path.first().map_or(any, |&edge| if d.one_in(4) { any } else { edge as usize });
        out.moving(&drawn, number);
    }
}

fn searches(out: &mut Stream, d: &mut Draw) {
    (0..SEARCHES).for_each(|_| out.searching(&drawn_search(d)));
}

fn batch(seed: u64) -> Stream {
    let (mut out, mut d) = (Stream::default(), Draw::new(seed));
    for kind in [translations, folds, steps, drops, unfoldings, records, damaged, walks, searches, ranges] {
        kind(&mut out, &mut d);
    }
    out
}

fn main() {
    let seed = |word: String| word.parse().expect("a seed is a number");
    let seeds: Vec<u64> = std::env::args().skip(1).map(seed).collect();
    let running: Vec<_> = seeds.into_iter().map(|seed| std::thread::spawn(move || batch(seed))).collect();
    let (mut to, mut trials) = (std::io::stdout().lock(), 0);
    for thread in running {
        let stream = thread.join().expect("a whole batch");
        to.write_all(&stream.bytes).expect("a stream that can be written to");
        trials += stream.trials;
    }
    let mut end = Stream::default();
    end.begin(b'Z');
    end.number(trials);
    to.write_all(&end.bytes).expect("a stream that can be written to");
}
