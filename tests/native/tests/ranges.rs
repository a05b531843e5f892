//! Paths from counters within ranges, by the proved library and by the second translator: on drawn tables, sound and
//! broken, with every number that is written or left; beside a walk of every start within the ranges; on the listings
//! of routines; and at the limits. What came is counted, and too few fail.

use native::counts::Counts;
use native::draw::Draw;
use native::ranges::{laid, of_ends, pairs};
use native::walks::{drawn_routine, edge, nodes, shipped, standing, Record, Tables};
use native::{Ranged, RANGES};
use reference::ranges_draw::{draw_ranges, ranges_aims, DrawnRanges, RangesClause};
use reference::Ranged::{Ends, Follows, Refused};
use std::collections::{BTreeMap, BTreeSet};

const MAX: u32 = u32::MAX;
const HIGHEST: u32 = 65_535;
const MOST: usize = 4096;
/// So many turns of all aims.
const TURNS: u64 = 1_000;
/// Slices of ranges of 0 to 26 numbers, of answers of 0 to 5.
const LENGTHS: usize = 27;
const ANSWERS: usize = 6;

/// The lowest and the highest value of a counter.
type Bounds = (u32, u32);

fn draws(turns: u64) -> impl Iterator<Item = (usize, DrawnRanges)> {
    (0..turns * ranges_aims().len() as u64).map(|seed| (seed as usize, draw_ranges(seed)))
}

fn follows(location: usize, ends: &[Bounds]) -> reference::Ranged {
    Follows { location, ranges: ends.to_vec() }
}

fn refused(number: u8, place: usize) -> reference::Ranged {
    Refused { number, place }
}

/// An edge with its guards: the kind and the node of each, kind 0 for none.
fn guarded(record: Record, first: [u8; 2], [kind, node]: [u8; 2]) -> Record {
    let mut record = record;
    record[1] = kind << 1 | node << 3;
    record[6..8].copy_from_slice(&first);
    record
}

/// A location with a fault at statement 0.
fn fault(number: u8) -> Record {
    let mut record = [0; 32];
    (record[0], record[2]) = (0x4c, number);
    record
}

#[test]
fn drawn_ranges_agree() {
    let (mut d, mut met, mut searched) = (Draw::new(31), BTreeMap::new(), 0);
    for (i, drawn) in draws(TURNS) {
        let tables = Tables::of_ranges(&drawn);
        let answer = tables.ranges_into(&mut d, drawn.start, &laid(&drawn.ranges), &drawn.path, i % ANSWERS);
        assert_eq!(answer, drawn.answer(), "{drawn:?}");
        if let Some(by_search) = drawn.searched() {
            assert_eq!(answer, by_search, "{drawn:?}");
            searched += 1;
        }
        for clause in RangesClause::met(&drawn, &answer) {
            *met.entry(clause).or_insert(0) += 1;
        }
    }
    println!("calls: {}, of these by a search of every start: {searched}; clauses:", TURNS as usize * ranges_aims().len());
    for clause in RangesClause::ALL {
        let came = met.get(&clause).copied().unwrap_or(0);
        println!("  {:<50} {came:>6}", clause.name());
        assert!(came >= 200, "{clause:?} came {came} times only");
    }
    assert!(TURNS as usize * ranges_aims().len() >= 20_000 && searched >= 20_000, "{searched} searches only");
}

/// What came with a slice of ranges of some length.
fn kind(answer: &reference::Ranged) -> usize {
    match answer {
        Follows { .. } => 0,
        Ends { .. } => 1,
        Refused { .. } => 2,
    }
}

/// Slices of 0 to 26 numbers: cut, so that highest values are not there and count as 0, or with numbers past the last.
#[test]
fn slices_of_any_length() {
    let (mut d, mut counts, mut by_length) = (Draw::new(32), Counts::default(), [[0; 3]; LENGTHS]);
    for (i, drawn) in draws(TURNS) {
        let tables = Tables::of_ranges(&drawn);
        let mut given = laid(&drawn.ranges);
        // any cut falls between the parts of a start's ranges or past them, and what is past may be anything
        let length = if i % 3 == 0 { NODES_THERE[d.below(3)] + d.below(4) } else { d.below(LENGTHS) };
        given.truncate(length);
        given.resize_with(length, || d.number() as u32);
        let answers = d.below(ANSWERS);
        let answer = tables.ranges_into(&mut d, drawn.start, &given, &drawn.path, answers);
        by_length[length][kind(&answer)] += 1;
        let written = matches!(answer, Follows { .. }) && length < RANGES;
        let name = if written { "followed, and a part written" } else { "other" };
        counts.add(if written && length == 0 { "followed, and nothing lent" } else { name });
    }
    println!("by length, followed, ended and refused: {by_length:?}");
    counts.reach(&[("followed, and a part written", 2_000), ("followed, and nothing lent", 20), ("other", 10_000)]);
    for (length, [followed, ended, refused]) in by_length.into_iter().enumerate() {
        assert!(followed >= 20 && refused >= 200 && followed + ended + refused >= 500, "{length}: too few");
        assert!(length <= 12 || followed >= 100 && ended >= 20, "{length}: too few");
    }
}

/// Lengths at which the ranges of one, of two and of eleven counters are just there.
const NODES_THERE: [usize; 3] = [13, 14, 23];

/// Every start within small ranges, with twelve counters.
fn starts(location: u32, ends: &[Bounds]) -> Vec<native::Configuration> {
    let mut all = vec![standing(location, &[])];
    for (counter, &(lowest, highest)) in ends.iter().enumerate() {
        let with = |start: &native::Configuration| {
            let start = *start;
            (lowest..=highest).map(move |value| {
                let mut start = start;
                start.counters[counter] = value;
                start
            })
        };
        all = all.iter().flat_map(with).collect();
    }
    all
}

/// The ends of ranges of so many counters, out of 24 numbers.
fn ends_of(numbers: &[u32], counters: usize) -> Vec<Bounds> {
    (0..counters).map(|counter| (numbers[counter], numbers[12 + counter])).collect()
}

/// Each lowest or highest value with each of the others.
fn corners(location: u32, ends: &[Bounds]) -> BTreeSet<[u32; 12]> {
    let of = |bits: usize| -> Vec<u32> {
        let end = |(counter, &(lowest, highest)): (usize, &Bounds)| if bits >> counter & 1 == 0 { lowest } else { highest };
        ends.iter().enumerate().map(end).collect()
    };
    (0..1 << ends.len()).map(|bits| standing(location, &of(bits)).counters).collect()
}

/// What the walks of every start tell: the farthest that any goes, and the counters at the end of the path.
fn walked_by_all(tables: &Tables, location: u32, ends: &[Bounds], path: &[u32]) -> (usize, BTreeSet<[u32; 12]>) {
    let (mut farthest, mut reached) = (0, BTreeSet::new());
    for start in starts(location, ends) {
        let (refusal, made, at) = tables.walk_proved(start, path);
        farthest = farthest.max(made);
        if refusal == 0 {
            reached.insert(at.counters);
        }
    }
    (farthest, reached)
}

/// Small ranges of so many counters, with at most so many starts in all.
fn small_ends(d: &mut Draw, counters: usize, most: usize) -> Vec<Bounds> {
    let mut room = most;
    let mut end = |_| {
        let size = (1 + d.below(4)).min(room);
        room /= size;
        let lowest = [1, 1, 2, 3, 9, HIGHEST - 3][d.below(6)];
        (lowest, lowest + size as u32 - 1)
    };
    (0..counters).map(&mut end).collect()
}

/// A path that a start follows, most often not to where no edge leaves, and then some edges with their guards aside.
fn some_path(d: &mut Draw, tables: &Tables, start: native::Configuration, most: usize) -> Vec<u32> {
    let (mut path, mut at) = tables.path(d, start, most);
    if !d.one_in(4) {
        path.truncate(d.below(path.len()));
        at = tables.walk_proved(start, &path).2;
    }
    let leaving = |location: u32| -> Vec<u32> {
        let leaves = |&number: &u32| tables.edge(number)[2..4] == (location as u16).to_le_bytes();
        (0..tables.counts[1] as u32).filter(leaves).collect()
    };
    for _ in 0..d.below(4) {
        let open = leaving(at.location);
        if open.is_empty() {
            break;
        }
        let number = open[d.below(open.len())];
        path.push(number);
        at.location = u32::from(tables.edge(number)[4]) + 256 * u32::from(tables.edge(number)[5]);
    }
    path
}

/// In listings: exactly the combinations within the final ranges are reached, so that each corner is, and none goes
/// on where none can.
#[test]
fn every_start_in_listings() {
    let (mut d, mut counts, mut all_corners) = (Draw::new(33), Counts::default(), 0);
    for i in 0..20_000 {
        let Some(tables) = Tables::listed(&drawn_routine(&mut d, i)) else { continue };
        let location = if d.one_in(2) { 0 } else { d.below(tables.counts[0]) as u32 };
        let counters = tables.location(location)[3] as usize;
        let ends = small_ends(&mut d, counters, 200);
        let open = starts(location, &ends);
        let (start, most) = (open[d.below(open.len())], [1, 3, 6, 12, 30][d.below(5)]);
        let path = some_path(&mut d, &tables, start, most);
        let (told, numbers) = tables.ranges_proved(location as usize, &of_ends(&ends), &path);
        let (farthest, reached) = walked_by_all(&tables, location, &ends, &path);
        match told {
            Ranged::Follows(to) => {
                let (to, last) = (to as u32, ends_of(&numbers, tables.location(to as u32)[3].into()));
                let within: BTreeSet<[u32; 12]> = starts(to, &last).iter().map(|at| at.counters).collect();
                assert_eq!(reached, within, "{ends:?} from {location} along {path:?}");
                let corners = corners(to, &last);
                assert!(corners.is_subset(&reached), "{ends:?} from {location} along {path:?}");
                all_corners += corners.len();
                let fault = tables.location(to)[2] != 0;
                counts.add(if fault { "followed to a fault" } else { "followed" });
            }
            Ranged::EndsAt(position) => {
                assert_eq!((position, reached.len()), (farthest, 0), "{ends:?} from {location} along {path:?}");
                counts.add(if position == 0 { "ended at once" } else { "ended later" });
            }
            Ranged::Refused(refusal) => panic!("{refusal:?} of {ends:?} from {location} along {path:?}"),
        }
    }
    println!("corners of final ranges, all reached: {all_corners}");
    assert!(all_corners >= 10_000);
    let floors = [("followed", 3_000), ("followed to a fault", 300), ("ended at once", 30), ("ended later", 500)];
    counts.reach(&floors);
}

/// A path is followed part by part: from the ranges that its first part gives, as far as these may be given, the rest
/// tells the same.
#[test]
fn paths_cut_in_two() {
    let (mut d, mut counts) = (Draw::new(34), Counts::default());
    for (_, drawn) in draws(TURNS / 2) {
        let (tables, given) = (Tables::of_ranges(&drawn), laid(&drawn.ranges));
        let path = &drawn.path[..drawn.path.len().min(MOST)];
        let whole = tables.ranges_proved(drawn.start, &given, path);
        let cut = d.below(path.len() + 1);
        let (first, middle) = tables.ranges_proved(drawn.start, &given, &path[..cut]);
        if let Ranged::EndsAt(position) = whole.0 {
            assert!(matches!(tables.ranges_proved(drawn.start, &given, &path[..position]).0, Ranged::Follows(_)), "{drawn:?}");
            assert_eq!(tables.ranges_proved(drawn.start, &given, &path[..=position]).0, whole.0, "{drawn:?}");
            counts.add("ended");
        }
        match first {
            Ranged::Follows(location) if middle.iter().all(|&end| end <= HIGHEST) => {
                let (mut rest, last) = tables.ranges_proved(location, &middle, &path[cut..]);
                match &mut rest {
                    Ranged::EndsAt(place) => *place += cut,
                    Ranged::Refused(refusal) => refusal.place += cut,
                    Ranged::Follows(_) => {}
                }
                let left = if matches!(rest, Ranged::Follows(_)) { last } else { given };
                assert_eq!((rest, left), whole, "cut at {cut}: {drawn:?}");
                counts.add("followed to the cut");
            }
            Ranged::EndsAt(_) if !matches!(whole.0, Ranged::Refused(_)) => assert_eq!(first, whole.0, "cut at {cut}: {drawn:?}"),
            _ => counts.add("another"),
        }
    }
    counts.at_least(1_000, &["ended", "followed to the cut"]);
}

/// Wider ranges end with ranges that hold those that the others end with.
#[test]
fn wider_ranges_hold_the_others() {
    let (mut d, mut counts) = (Draw::new(35), Counts::default());
    for (_, drawn) in draws(TURNS / 2) {
        let (tables, given) = (Tables::of_ranges(&drawn), laid(&drawn.ranges));
        let (told, inner) = tables.ranges_proved(drawn.start, &given, &drawn.path);
        let Ranged::Follows(location) = told else { continue };
        let mut wider = given.clone();
        for counter in 0..12 {
            wider[counter] = wider[counter].saturating_sub(d.below(3) as u32).max(1);
            wider[12 + counter] = wider[12 + counter].saturating_add(d.below(3) as u32).min(HIGHEST);
        }
        let (told, outer) = tables.ranges_proved(drawn.start, &wider, &drawn.path);
        assert_eq!(told, Ranged::Follows(location), "{drawn:?}");
        let holds = |counter: usize| outer[counter] <= inner[counter] && inner[12 + counter] <= outer[12 + counter];
        assert!((0..12).all(holds), "{inner:?} in {outer:?}: {drawn:?}");
        counts.add(if inner == outer { "the same" } else { "wider" });
    }
    counts.at_least(500, &["the same", "wider"]);
}

#[test]
fn paths_of_4096_and_4097() {
    // edge 0 counts up, edge 1 leaves a location that is not reached, edge 2 has guards that exclude each other
    let never = guarded(edge(0, 0, &[0x1001]), [1, 0], [2, 0]);
    let tables = Tables::of(&[nodes(1), nodes(1)], &[edge(0, 0, &[0x2001]), edge(1, 0, &[0x1001]), never]);
    let given = of_ends(&[(7, HIGHEST)]);
    for length in [0, 1, 2, 4095, 4096] {
        let grown = length as u32;
        let due = follows(0, &[(7 + grown, HIGHEST + grown)]);
        assert_eq!(tables.ranges(0, &given, &vec![0; length]), due);
    }
    for length in [4097, 4098, 8192, 65_536, 70_000] {
        for first in [0, 1, 2, 3, MAX] {
            assert_eq!(tables.ranges(0, &given, &vec![first; length]), refused(23, 0));
        }
    }
    for (last, due) in [(1, refused(23, 4095)), (3, refused(23, 4095)), (MAX, refused(23, 4095)), (2, Ends { position: 4095 })] {
        let path = [vec![0; 4095], vec![last]].concat();
        assert_eq!(tables.ranges(0, &given, &path), due);
    }
    let path = [vec![2], vec![0; 4094], vec![1]].concat();
    assert_eq!(tables.ranges(0, &given, &path), refused(23, 4095));
    assert_eq!(tables.ranges(0, &given, &path[..4095]), Ends { position: 0 });
}

/// The same in listings: long lists reversed, and the median.
#[test]
fn paths_of_4096_in_listings() {
    for name in ["2-reverse", "3-median"] {
        let tables = Tables::listed(&shipped(name)).expect("a listing");
        let counters = tables.location(0)[3] as usize;
        let (path, to) = tables.path(&mut Draw::new(36), standing(0, &vec![5_000; counters]), MOST);
        let given = of_ends(&vec![(4_990, 5_010); counters]);
        let Follows { location, ranges } = tables.ranges(0, &given, &path) else { panic!("{name} is not followed") };
        assert_eq!((location, path.len()), (to.location as usize, MOST), "{name}");
        let within = |(value, &(lowest, highest)): (&u32, &Bounds)| lowest <= *value && *value <= highest;
        assert!(to.counters.iter().zip(&ranges).all(within), "{name}: {to:?} in {ranges:?}");
        let longer = [&path[..], &path[..1]].concat();
        assert_eq!(tables.ranges(0, &given, &longer), refused(23, 0), "{name}");
        let last = [&path[..MOST - 1], &[MAX]].concat();
        assert_eq!(tables.ranges(0, &given, &last), refused(23, MOST - 1), "{name}");
    }
}

/// Sums above 65,535 come out of ranges, and no such value goes into one.
#[test]
fn values_above_65535() {
    let updates = [0x1003, 0x0003, 0x2003, 0x1fff, 0x0fff, 0x2fff];
    let edges: Vec<Record> = updates.iter().map(|&update| edge(0, 1, &[update])).collect();
    let tables = Tables::of(&[nodes(12), nodes(1)], &edges);
    let given = of_ends(&[(HIGHEST - 1, HIGHEST); 12]);
    for (number, &update) in updates.iter().enumerate() {
        let [added, constant] = [u32::from(update & 0xfff).count_ones(), u32::from(update >> 12)];
        let due = [(added * (HIGHEST - 1) + constant - 1, added * HIGHEST + constant - 1)];
        assert_eq!(tables.ranges(0, &given, &[number as u32]), follows(1, &due));
    }
    for counter in 0..12 {
        for wrong in
            [(0, 5), (0, 0), (1, 0), (5, 4), (1, HIGHEST + 1), (HIGHEST + 1, HIGHEST + 1), (1, MAX), (MAX, MAX), (MAX, 1)]
        {
            let mut ends = [(1, HIGHEST); 12];
            ends[counter] = wrong;
            assert_eq!(tables.ranges(0, &of_ends(&ends), &[0]), refused(22, counter));
            // the first of several
            ends[11] = wrong;
            assert_eq!(tables.ranges(0, &of_ends(&ends), &[]), refused(22, counter));
            // only the counters of the start are looked at
            let due = if counter == 0 { refused(22, 0) } else { follows(1, &[(1, HIGHEST)]) };
            assert_eq!(tables.ranges(1, &of_ends(&ends), &[]), due);
        }
    }
    // the most that 4,096 edges can make of one counter: one more with each
    let grown = Tables::of(&[nodes(12), nodes(1)], &[edge(0, 1, &[0x2fff]), edge(1, 1, &[0x2001])]);
    let path: Vec<u32> = [vec![0], vec![1; MOST - 1]].concat();
    let due = [(12 + MOST as u32, 12 * HIGHEST + MOST as u32)];
    assert_eq!(grown.ranges(0, &of_ends(&[(1, HIGHEST); 12]), &path), follows(1, &due));
}

#[test]
fn a_start_at_a_fault() {
    for kind in 1..=3 {
        // an edge may leave a fault in tables that no translation writes
        let tables = Tables::of(&[fault(kind), nodes(2)], &[edge(0, 1, &[0x2000, 0x2000]), edge(1, 0, &[])]);
        for given in [vec![], vec![0; 5], vec![MAX; 24], of_ends(&[(9, 3), (0, 0)])] {
            assert_eq!(tables.ranges(0, &given, &[]), follows(0, &[]));
            assert_eq!(tables.ranges(0, &given, &[0]), follows(1, &[(1, 1), (1, 1)]));
            assert_eq!(tables.ranges(0, &given, &[0, 1]), follows(0, &[]));
            assert_eq!(tables.ranges(0, &given, &[1]), refused(23, 0));
            assert_eq!(tables.ranges(0, &given, &[0, 0]), refused(23, 1));
        }
        assert_eq!(tables.ranges(1, &of_ends(&[(2, 5), (1, 1)]), &[1]), follows(0, &[]));
    }
}

/// Each guard on each small range, alone and beside another.
#[test]
fn guards_cut_ranges() {
    let holds = |[kind, node]: [u8; 2], values: [u32; 2]| match kind {
        0 => true,
        1 => values[node as usize] == 1,
        _ => values[node as usize] >= 2,
    };
    let kinds = [[0, 0], [1, 0], [2, 0], [1, 1], [2, 1]];
    let ranges: Vec<Bounds> = (1..4).flat_map(|lowest| (lowest..5).map(move |highest| (lowest, highest))).collect();
    for (first, second) in kinds.iter().flat_map(|&first| kinds.map(|second| (first, second))) {
        let tables = Tables::of(&[nodes(2)], &[guarded(edge(0, 0, &[0x1001, 0x1002]), first, second)]);
        for (one, other) in ranges.iter().flat_map(|&one| ranges.iter().map(move |&other| (one, other))) {
            let all = (one.0..=one.1).flat_map(|a| (other.0..=other.1).map(move |b| [a, b]));
            let left: Vec<[u32; 2]> = all.filter(|&values| holds(first, values) && holds(second, values)).collect();
            let due = match (left.first(), left.last()) {
                (Some(lowest), Some(highest)) => follows(0, &[(lowest[0], highest[0]), (lowest[1], highest[1])]),
                _ => Ends { position: 0 },
            };
            assert_eq!(tables.ranges(0, &of_ends(&[one, other]), &[0]), due, "{first:?} and {second:?}");
        }
    }
}

/// The ranges are given back along no edge, 0 past the last counter.
#[test]
fn an_empty_path() {
    for counters in 0..=12 {
        let tables = Tables::of(&[nodes(counters)], &[]);
        let mut d = Draw::new(counters as u64);
        let ends: Vec<Bounds> = (1..=counters as u32).map(|end| (end, 100 * end)).collect();
        let mut given = of_ends(&ends);
        (counters..12).for_each(|past| (given[past], given[12 + past]) = (MAX, d.number() as u32));
        assert_eq!(tables.ranges(0, &given, &[]), follows(0, &ends));
        assert_eq!(tables.ranges_proved(0, &given, &[]).1, of_ends(&ends));
        assert_eq!(tables.ranges(1, &given, &[]), refused(23, 0));
    }
    assert_eq!(Tables::of(&[], &[]).ranges(0, &[], &[]), refused(23, 0));
}

/// 23 in its own order, and before 22; places told.
#[test]
fn which_refusal_comes_first() {
    let never = guarded(edge(0, 0, &[0x1001]), [1, 0], [2, 0]);
    let sound = Tables::of(&[nodes(1), nodes(2)], &[edge(0, 0, &[0x1001]), edge(1, 0, &[0x1001]), never]);
    let (right, wrong) = (of_ends(&[(2, 3)]), of_ends(&[(3, 2)]));
    let long = vec![9; MOST + 1];
    // tables, start and length, each with all that comes after it wrong as well
    let mut broken = sound.clone();
    broken.edges[0] = 0;
    for (tables, start, path) in
        [(&broken, 2, &long[..]), (&broken, 0, &[]), (&sound, 2, &long), (&sound, 2, &[]), (&sound, 0, &long)]
    {
        assert_eq!(tables.ranges(start, &wrong, path), refused(23, 0));
        assert_eq!(tables.ranges(start, &right, path), refused(23, 0));
    }
    // the first edge that is wrong, also past one that none can take, and before a wrong range
    for (path, place) in [(&[1][..], 0), (&[0, 1], 1), (&[0, 2, 3], 2), (&[2, 2, 1, 9], 2), (&[0, 0, MAX, 1], 2)] {
        assert_eq!(sound.ranges(0, &right, path), refused(23, place));
        assert_eq!(sound.ranges(0, &wrong, path), refused(23, place));
    }
    // a wrong range before a position where none can go on
    for path in [&[][..], &[0], &[2], &[0, 2]] {
        assert_eq!(sound.ranges(0, &wrong, path), refused(22, 0));
    }
    assert_eq!(sound.ranges(0, &right, &[0, 2]), Ends { position: 1 });
    assert_eq!(sound.ranges(1, &of_ends(&[(2, 3), (3, 2)]), &[1]), refused(22, 1));
    assert_eq!(sound.ranges(1, &of_ends(&[(0, 3), (3, 2)]), &[1]), refused(22, 0));
    for start in [2, 3, 1 << 16, 1 << 32, 1 << 59, usize::MAX] {
        assert_eq!(sound.ranges(start, &right, &[]), refused(23, 0));
    }
}

/// Tables of as many places as there can be, and counts and lengths past them.
#[test]
fn limits_of_the_tables() {
    let edges: Vec<Record> = (0..2050).map(|i| edge((i % 256) as u8, ((i + 1) % 256) as u8, &[0x1001])).collect();
    let mut tables = Tables::of(&vec![nodes(1); 1026], &edges);
    let (given, path) = (of_ends(&[(2, 5)]), (0..MOST as u32).map(|i| i % 2048).collect::<Vec<u32>>());
    for (counts, due) in [
        ([1024, 2048], follows(0, &[(2, 5)])),
        ([1025, 2048], refused(23, 0)),
        ([1024, 2049], refused(23, 0)),
        ([256, 2048], follows(0, &[(2, 5)])),
        ([255, 2048], refused(23, 0)),
        ([256, 300], refused(23, 300)),
        ([256, 0], refused(23, 0)),
        ([usize::MAX, 2048], refused(23, 0)),
        ([1024, 1 << 59], refused(23, 0)),
    ] {
        tables.counts = counts;
        assert_eq!(tables.ranges(0, &given, &path), due, "{counts:?}");
    }
    tables.counts = [256, 256];
    tables.locations.truncate(256 * 32 - 1);
    assert_eq!(tables.ranges(0, &given, &[]), refused(23, 0));
}

/// The two forms of ranges are each other's.
#[test]
fn forms_of_ranges() {
    let numbers: Vec<u32> = (1..=24).collect();
    assert_eq!(laid(&pairs(&numbers)), numbers);
    assert_eq!(pairs(&laid(&numbers)), numbers);
    assert_eq!((laid(&[5, 6, 7])[..3].to_vec(), laid(&[5, 6, 7])[12..15].to_vec()), (vec![5, 7, 0], vec![6, 0, 0]));
    assert_eq!(pairs(&[5, 6]), [[5, 0, 6, 0].to_vec(), vec![0; 20]].concat());
    assert_eq!(of_ends(&[(5, 6), (7, 8)])[..3], [5, 7, 0]);
}
