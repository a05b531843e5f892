//! One record out of two tables: the proved library against the second translator, on tables that the second translator wrote and on
//! tables of any lengths, with counts, marks and numbers that are right, damaged, or anything at all. Each condition of 17 must have
//! been met by itself: the tests count them.

use native::compare::told;
use native::draw::{routine, Draw};
use native::{record, Node, Refusal};

const ROUNDS: usize = 300_000;
const MOST: [usize; 2] = [1024, 2048];

/// One call: both tables, the counts in use, the mark and the number.
struct Call<'a> {
    tables: [&'a [u8]; 2],
    counts: [usize; 2],
    mark: usize,
    number: usize,
}

/// The conditions of 17 that a call meets, in the request's words: the mark is above 1; a count exceeds its table's places; the number
/// is not below the meant table's count.
fn conditions(call: &Call) -> [bool; 4] {
    let exceeds = |t: usize| call.counts[t] > (call.tables[t].len() / 32).min(MOST[t]);
    let number = call.mark <= 1 && call.number >= call.counts[call.mark];
    [call.mark > 1, exceeds(0), exceeds(1), number]
}

/// Both answers are one: the refusal, or the same bytes at the same place of the same table. Answers the conditions met.
fn compare(call: &Call) -> [bool; 4] {
    let Call { tables: [locations, edges], counts, mark, number } = *call;
    let (refusal, ours) = record(locations, edges, counts, mark, number);
    let met = conditions(call);
    let say = format!("lengths {} and {}, counts {counts:?}, mark {mark}, number {number}", locations.len(), edges.len());
    let refused = |number: u8| Refusal { number, place: 0, node: Node(0) };
    match reference::record_part(locations, edges, counts[0], counts[1], mark, number) {
        Ok(theirs) => {
            assert_eq!((refusal, ours.as_ptr_range()), (refused(0), theirs.as_ptr_range()), "{say}");
            let at = 32 * number;
            assert_eq!(ours, &call.tables[mark][at..at + 32], "{say}");
            assert_eq!(met, [false; 4], "{say}");
        }
        Err(theirs) => {
            assert_eq!(refusal, told(Some(theirs)), "{say}");
            assert_eq!((refusal, ours.len()), (refused(17), 0), "{say}");
            assert_ne!(met, [false; 4], "{say}");
        }
    }
    met
}

/// Each condition was met by itself, and none, often.
fn all_met(met: &[u64; 16]) {
    let named = [("accepted", 0), ("mark", 1), ("count of locations", 2), ("count of edges", 4), ("number", 8)];
    for (name, alone) in named {
        assert!(met[alone] > 100, "{name} alone: {}", met[alone]);
    }
    println!("17 by itself: {:?}", named.map(|(name, alone)| (name, met[alone])));
}

fn index(met: [bool; 4]) -> usize {
    (0..4).filter(|&i| met[i]).map(|i| 1 << i).sum()
}

/// At a limit, beside it, far below it, or anything.
fn near(d: &mut Draw, n: usize) -> usize {
    match d.below(8) {
        0 => n,
        1 => n + 1,
        2 => n.saturating_sub(1),
        3 => [usize::MAX, usize::MAX / 32, usize::MAX / 32 + 1, 1 << 59, 1 << 32][d.below(5)],
        _ => d.below(n),
    }
}

#[test]
fn every_record_of_listings() {
    let (mut d, mut shown) = (Draw::new(6), 0);
    for i in 0..400 {
        let input = routine(&mut d, i);
        let (mut l, mut e) = (vec![0; 32 * 1024 + d.below(64)], vec![0; 32 * 2048 + d.below(64)]);
        let listed = reference::translate(&input, &mut l, &mut e);
        let counts = [listed.locations, listed.edges];
        for (mark, count) in counts.into_iter().enumerate() {
            for number in (0..count + 2).chain([usize::MAX]) {
                let met = compare(&Call { tables: [&l, &e], counts, mark, number });
                assert_eq!(met, [false, false, false, number >= count]);
                shown += usize::from(met == [false; 4]);
            }
        }
    }
    assert!(shown > 10_000, "only {shown} records");
    println!("records shown: {shown}");
}

#[test]
fn damaged_counts_marks_and_numbers() {
    let (mut d, mut met) = (Draw::new(7), [0u64; 16]);
    let input = routine(&mut d, 5);
    let (mut l, mut e) = (vec![0; 32 * 1024], vec![0; 32 * 2048]);
    let listed = reference::translate(&input, &mut l, &mut e);
    for _ in 0..ROUNDS {
        let mut counts = [listed.locations, listed.edges];
        if d.one_in(3) {
            let t = d.below(2);
            counts[t] = near(&mut d, MOST[t]);
        }
        let mark = if d.one_in(6) { 2 + near(&mut d, 8).min(usize::MAX - 2) } else { d.below(2) };
        let number = near(&mut d, counts[mark.min(1)].min(usize::MAX - 1));
        met[index(compare(&Call { tables: [&l, &e], counts, mark, number }))] += 1;
    }
    all_met(&met);
}

#[test]
fn tables_of_any_length() {
    let (mut d, mut met) = (Draw::new(8), [0u64; 16]);
    let bytes: Vec<u8> = (0..70_000).map(|_| d.number() as u8).collect();
    for _ in 0..ROUNDS {
        let lengths = MOST.map(|most| match d.below(4) {
            0 => d.below(70),
            1 => d.below(32 * most),
            _ => 32 * most - 33 + d.below(100),
        });
        let tables = [&bytes[..lengths[0]], &bytes[70_000 - lengths[1]..]];
        let counts = [0, 1].map(|t| near(&mut d, (lengths[t] / 32).min(MOST[t])));
        let mark = if d.one_in(6) { near(&mut d, 3) } else { d.below(2) };
        let number = near(&mut d, counts[mark.min(1)].min(usize::MAX - 1));
        met[index(compare(&Call { tables, counts, mark, number }))] += 1;
    }
    all_met(&met);
}

#[test]
fn limits_of_records() {
    let bytes = vec![7; 32 * 2050];
    let shown = |locations: usize, edges: usize, counts: [usize; 2], mark: usize, number: usize| {
        compare(&Call { tables: [&bytes[..locations], &bytes[..edges]], counts, mark, number }) == [false; 4]
    };
    // no length, one byte too few, just enough
    assert!(!shown(0, 0, [0, 0], 0, 0) && !shown(31, 0, [1, 0], 0, 0) && shown(32, 0, [1, 0], 0, 0));
    assert!(!shown(0, 31, [0, 1], 1, 0) && shown(0, 32, [0, 1], 1, 0) && shown(0, 63, [0, 1], 1, 0));
    // the most places, also of longer tables
    assert!(shown(32 * 1025, 32, [1024, 1], 0, 1023) && !shown(32 * 1025, 32, [1025, 1], 0, 0));
    assert!(shown(32, 32 * 2049, [1, 2048], 1, 2047) && !shown(32, 32 * 2049, [1, 2049], 1, 0));
    // the count of the table that is not meant
    assert!(!shown(32, 32, [1, 2], 0, 0) && !shown(32, 32, [2, 1], 1, 0) && shown(32, 32, [1, 1], 1, 0));
    // marks, and numbers that would begin past the last byte of memory
    assert!(!shown(32, 32, [1, 1], 2, 0) && !shown(32, 32, [1, 1], usize::MAX, 0));
    assert!(!shown(32, 32, [1, 1], 0, 1) && !shown(32, 32, [1, 1], 0, 1 << 59) && !shown(32, 32, [1, 1], 1, usize::MAX));
}
