//! Paths from counters within ranges, by hand: what guards and updates leave of
//! them, where none can go on, and both refusals in their order.

mod common;

use common::*;
use reference::{ranges, ranges_by_search, Ranged};

const HIGHEST: u32 = 65_535;
const MAX: u32 = u32::MAX;

/// Tables with all their records in use.
struct Automaton {
    locations: Vec<Record>,
    edges: Vec<Record>,
}

impl Automaton {
    /// The answer, which is that of the search if it gives one.
    #[track_caller]
    fn answer(&self, start: usize, numbers: &[u32], path: &[u32]) -> Ranged {
        let [locations, edges] = [self.locations.concat(), self.edges.concat()];
        let [location_count, edge_count] = [self.locations.len(), self.edges.len()];
        let answer = ranges(&locations, &edges, location_count, edge_count, start, numbers, path);
        let searched = ranges_by_search(&locations, &edges, location_count, edge_count, start, numbers, path);
        assert!(searched.is_none_or(|due| due == answer));
        answer
    }

    #[track_caller]
    fn follows(&self, start: usize, numbers: &[u32], path: &[u32], location: usize, due: &[(u32, u32)]) {
        let due = Ranged::Follows { location, ranges: due.to_vec() };
        assert_eq!(self.answer(start, numbers, path), due);
    }

    #[track_caller]
    fn ends(&self, start: usize, numbers: &[u32], path: &[u32], position: usize) {
        assert_eq!(self.answer(start, numbers, path), Ranged::Ends { position });
    }

    #[track_caller]
    fn refused(&self, start: usize, numbers: &[u32], path: &[u32], number: u8, place: usize) {
        assert_eq!(self.answer(start, numbers, path), Ranged::Refused { number, place });
    }
}

/// So many nodes; what they hold does not matter.
fn nodes(count: usize) -> Record {
    l(0, NULLS, &vec![NULL; count])
}

/// From three nodes at location 0 to two at 1, one at 2, twelve at 3, none at 4
/// and to a fault at 5.
fn automaton(edges: &[Record]) -> Automaton {
    let locations = vec![nodes(3), nodes(2), nodes(1), nodes(12), nodes(0), faulted(9, 1)];
    Automaton { locations, edges: edges.to_vec() }
}

/// An edge that leads back from the one node of location 2.
fn around(guard: u8, update: u16) -> Record {
    from(2, e(0, 2, guard, 0, &[update]))
}

#[test]
fn new_ranges() {
    let twelve = [0x2000, 0x1004, 0x2002, 0x2000, 0x2000, 0x2000, 0x2000, 0x2000, 0x2000, 0x2000, 0x2000, 0x1001];
    let all = automaton(&[
        e(0, 1, 0, 0, &[0x1005, 0x2002]),
        e(0, 2, 0, 0, &[0x0007]),
        e(0, 3, 0, 0, &twelve),
        e(0, 4, 0, 0, &[]),
        from(4, e(0, 2, 0, 0, &[0x2000])),
        from(1, e(0, 0, 0, 0, &[0x1002, 0x1001, 0x2000])),
    ]);
    let start = [1, 3, 2, 2, 10, 20];
    all.follows(0, &start, &[0], 1, &[(11, 23), (3, 3)]);
    all.follows(0, &start, &[1], 2, &[(12, 24)]);
    let mut due = [(1, 1); 12];
    [due[1], due[2], due[11]] = [(10, 20), (3, 3), (1, 3)];
    all.follows(0, &start, &[2], 3, &due);
    // Counters that are not added are gone.
    all.follows(0, &start, &[3], 4, &[]);
    all.follows(0, &start, &[3, 4], 2, &[(1, 1)]);
    all.follows(0, &start, &[0, 5], 0, &[(3, 3), (11, 23), (1, 1)]);
    all.follows(0, &start, &[0, 5, 0], 1, &[(4, 4), (12, 24)]);
    // Between 1 and 12.
    all.follows(0, &[1, 12, 1, 12, 1, 12], &[1], 2, &[(2, 35)]);
}

#[test]
fn guards_cut_ranges() {
    let all = automaton(&[around(1, 0x1001), around(2, 0x1001), around(2, 0x0001), around(0, 0x2001)]);
    all.follows(2, &[1, 5], &[0], 2, &[(1, 1)]);
    all.follows(2, &[1, 1], &[0], 2, &[(1, 1)]);
    all.follows(2, &[1, 5], &[1], 2, &[(2, 5)]);
    all.follows(2, &[3, 5], &[1], 2, &[(3, 5)]);
    all.follows(2, &[2, 2], &[1], 2, &[(2, 2)]);
    all.follows(2, &[1, 5], &[2], 2, &[(1, 4)]);
    all.follows(2, &[1, 5], &[2, 2, 2, 2], 2, &[(1, 1)]);
    all.follows(2, &[1, HIGHEST], &[0, 3, 1, 1], 2, &[(2, 2)]);
    all.follows(2, &[1, HIGHEST], &[1, 3], 2, &[(3, 65_536)]);
}

#[test]
fn guards_of_two_counters() {
    let keep = [0x1001, 0x1002, 0x1004];
    let all = automaton(&[second(2, 2, e(0, 0, 1, 0, &keep)), second(2, 0, e(0, 0, 2, 0, &keep)), e(0, 0, 1, 1, &keep)]);
    all.follows(0, &[1, 3, 1, 3, 1, 3], &[0], 0, &[(1, 1), (1, 3), (2, 3)]);
    all.follows(0, &[1, 3, 1, 3, 1, 3], &[0, 2], 0, &[(1, 1), (1, 1), (2, 3)]);
    all.follows(0, &[1, 3, 1, 3, 1, 3], &[1], 0, &[(2, 3), (1, 3), (1, 3)]);
    all.ends(0, &[2, 3, 1, 3, 1, 3], &[0], 0);
    all.ends(0, &[1, 3, 1, 3, 1, 1], &[0], 0);
    all.ends(0, &[1, 3, 1, 3, 1, 3], &[2, 0, 1], 2);
}

#[test]
fn none_can_go_on() {
    let all = automaton(&[around(1, 0x1001), around(2, 0x1001), around(2, 0x0001), around(0, 0x2001)]);
    all.ends(2, &[2, 5], &[0], 0);
    all.ends(2, &[1, 1], &[1, 0], 0);
    all.ends(2, &[1, 5], &[0, 1], 1);
    all.ends(2, &[1, 5], &[1, 0], 1);
    // Each start ends elsewhere, and the highest one last.
    all.ends(2, &[1, 5], &[2; 9], 4);
    all.ends(2, &[4, 5], &[2, 2, 0, 2, 0], 2);
    all.ends(2, &[1, HIGHEST], &[0, 3, 3, 2, 0], 4);
}

#[test]
fn guards_that_exclude_each_other() {
    let all = automaton(&[
        around(0, 0x1001),
        second(2, 0, around(1, 0x1001)),
        second(1, 0, around(2, 0x0000)),
        second(2, 0, around(2, 0x0001)),
        second(1, 0, around(1, 0x1001)),
    ]);
    all.ends(2, &[1, 9], &[1], 0);
    all.ends(2, &[1, 9], &[2], 0);
    all.ends(2, &[1, 9], &[0, 0, 2, 0], 2);
    // Two guards on one node may also say the same.
    all.follows(2, &[1, 9], &[3], 2, &[(1, 8)]);
    all.follows(2, &[1, 9], &[4], 2, &[(1, 1)]);
}

#[test]
fn values_above_the_highest() {
    let all = automaton(&[
        e(0, 2, 0, 0, &[0x1007]),
        from(3, e(0, 2, 0, 0, &[0x2fff])),
        from(2, e(0, 1, 0, 0, &[0x1001, 0x2000])),
        from(1, e(0, 2, 0, 0, &[0x1002])),
    ]);
    let h = HIGHEST;
    all.follows(0, &[h, h, h, h, h, h], &[0], 2, &[(196_605, 196_605)]);
    all.follows(0, &[1, h, h, h, 1, 2], &[0], 2, &[(65_537, 131_072)]);
    all.follows(3, &[h; 24], &[1], 2, &[(786_421, 786_421)]);
    all.follows(3, &[1, h].repeat(12), &[1], 2, &[(13, 786_421)]);
    // Gone again on the way.
    all.follows(3, &[h; 24], &[1, 2, 3], 2, &[(1, 1)]);
}

#[test]
fn faults() {
    let all = automaton(&[
        e(0, 5, 2, 0, &[]),
        from(5, e(0, 1, 0, 0, &[0x2000, 0x2000])),
        from(5, e(0, 5, 0, 0, &[])),
        from(1, e(0, 5, 2, 0, &[])),
    ]);
    all.follows(0, &[1, 3, 1, 1, 1, 1], &[0], 5, &[]);
    all.ends(0, &[1, 1, 1, 1, 1, 1], &[0], 0);
    all.follows(0, &[1, 3, 1, 1, 1, 1], &[0, 2, 2, 1], 1, &[(1, 1), (1, 1)]);
    all.ends(0, &[1, 3, 1, 1, 1, 1], &[0, 1, 3], 2);
    // No counters, so that no range is read.
    for numbers in [&[][..], &[0], &[0, 0], &[5, 4, MAX]] {
        all.follows(5, numbers, &[], 5, &[]);
        all.follows(5, numbers, &[2, 1], 1, &[(1, 1), (1, 1)]);
        all.follows(4, numbers, &[], 4, &[]);
    }
}

#[test]
fn empty_paths() {
    let all = automaton(&[]);
    all.follows(0, &[1, 3, 2, 2, 7, HIGHEST], &[], 0, &[(1, 3), (2, 2), (7, HIGHEST)]);
    all.follows(2, &[1, 1], &[], 2, &[(1, 1)]);
    all.follows(3, &[1, HIGHEST].repeat(12), &[], 3, &[(1, HIGHEST); 12]);
    all.refused(6, &[], &[], 23, 0);
    all.refused(2, &[], &[], 22, 0);
}

#[test]
fn ranges_that_are_wrong() {
    let all = automaton(&[around(0, 0x1001), around(1, 0x1001)]);
    let wrong = [
        [0, 5],
        [0, 0],
        [5, 0],
        [1, 65_536],
        [65_536, 65_536],
        [65_536, 1],
        [1, MAX],
        [MAX, MAX],
        [2, 1],
        [HIGHEST, 1],
        [HIGHEST, HIGHEST - 1],
    ];
    for wrong in wrong {
        all.refused(2, &wrong, &[], 22, 0);
        all.refused(2, &wrong, &[0, 0], 22, 0);
        // Whether a start could go on does not matter.
        all.refused(2, &wrong, &[1, 1], 22, 0);
        for counter in 0..12 {
            let mut numbers = [[1, HIGHEST]; 12];
            numbers[counter] = wrong;
            all.refused(3, numbers.as_flattened(), &[], 22, counter);
            // The first of several is told.
            numbers[counter..].fill([7, 6]);
            all.refused(3, numbers.as_flattened(), &[], 22, counter);
        }
    }
    for right in [[1, 1], [1, HIGHEST], [HIGHEST, HIGHEST], [HIGHEST - 1, HIGHEST]] {
        all.follows(2, &right, &[0], 2, &[(right[0], right[1])]);
    }
}

#[test]
fn numbers_that_are_too_few() {
    let all = automaton(&[e(0, 2, 0, 0, &[0x1001])]);
    let numbers = [1, 2, 3, 4, 5, 6];
    for length in 0..6 {
        all.refused(0, &numbers[..length], &[0], 22, length / 2);
    }
    all.follows(0, &numbers, &[0], 2, &[(1, 2)]);
    for length in 0..24 {
        all.refused(3, &[1; 24][..length], &[], 22, length / 2);
    }
    // A wrong range comes before one that is not there.
    all.refused(0, &[1, 2, 4, 3, 5], &[0], 22, 1);
}

#[test]
fn what_stands_past_the_counters_is_not_read() {
    let all = automaton(&[e(0, 2, 0, 0, &[0x1001])]);
    for past in [&[0][..], &[0, 0], &[2, 1], &[65_536], &[MAX, 0, 0, MAX], &[0; 100]] {
        let numbers = [&[1, 2, 3, 4, 5, 6], past].concat();
        all.follows(0, &numbers, &[0], 2, &[(1, 2)]);
        all.follows(0, &numbers, &[], 0, &[(1, 2), (3, 4), (5, 6)]);
    }
}

#[test]
fn edges_that_are_wrong() {
    let all = automaton(&[around(0, 0x1001), e(0, 2, 2, 0, &[0x1001]), around(2, 0x1001), from(4, e(0, 4, 0, 0, &[]))]);
    for wrong in [1, 3, 4, 5, 256, 65_536, MAX] {
        all.refused(2, &[1, 9], &[wrong], 23, 0);
        all.refused(2, &[1, 9], &[0, 2, wrong, 0], 23, 2);
        all.refused(0, &[1, 9, 1, 1, 1, 1], &[1, wrong], 23, 1);
        // The first one is told, also past a position where none can go on.
        all.refused(2, &[1, 9], &[0, wrong, 0, wrong], 23, 1);
        all.refused(2, &[1, 1], &[2, 2, 2, 0, wrong, MAX], 23, 4);
        all.refused(0, &[1, 1, 1, 1, 1, 1], &[1, 2, wrong], 23, 2);
        // 23 comes before 22.
        for numbers in [&[][..], &[0, 0], &[9, 1], &[1, 65_536]] {
            all.refused(2, numbers, &[0, 0, 0, wrong], 23, 3);
        }
    }
    // Records past the count are no edges.
    let [locations, edges] = [all.locations.concat(), all.edges.concat()];
    let answer = |count: usize| ranges(&locations, &edges, 6, count, 4, &[], &[3]);
    assert_eq!(answer(3), Ranged::Refused { number: 23, place: 0 });
    assert_eq!(answer(4), Ranged::Follows { location: 4, ranges: vec![] });
}

#[test]
fn starts_that_are_not_there() {
    let all = automaton(&[around(0, 0x1001)]);
    for start in [6, 7, 258, 1024, 65_538, (1 << 32) + 2, 1 << 59, usize::MAX] {
        for path in [&[][..], &[0], &[0, 0, MAX]] {
            all.refused(start, &[1, 9], path, 23, 0);
            all.refused(start, &[], path, 23, 0);
        }
    }
    // Records past the count are no locations.
    let [locations, edges] = [all.locations.concat(), all.edges.concat()];
    let answer = |count: usize, start: usize| ranges(&locations, &edges, count, 1, start, &[], &[]);
    assert_eq!(answer(6, 5), Ranged::Follows { location: 5, ranges: vec![] });
    assert_eq!(answer(5, 5), Ranged::Refused { number: 23, place: 0 });
    assert_eq!(ranges(&[], &[], 0, 0, 0, &[], &[]), Ranged::Refused { number: 23, place: 0 });
}

#[test]
fn tables_that_break_the_layout() {
    let all = automaton(&[around(0, 0x1001), around(2, 0x0001)]);
    all.follows(2, &[1, 9], &[0, 1], 2, &[(1, 8)]);
    let broken = [
        automaton(&[around(0, 0x1001), around(0, 0x0001)]),
        automaton(&[around(0, 0x1001), around(2, 0x0001), from(6, e(0, 5, 0, 0, &[]))]),
        Automaton { locations: [&all.locations[..], &[faulted(64, 1)]].concat(), edges: all.edges.clone() },
    ];
    for broken in broken {
        // Neither what is on the way nor what else is wrong matters.
        broken.refused(2, &[1, 9], &[], 23, 0);
        broken.refused(2, &[1, 9], &[0, 0], 23, 0);
        broken.refused(2, &[1, 9], &[0, 0, 77], 23, 0);
        broken.refused(2, &[9, 1], &[0, 0], 23, 0);
        broken.refused(77, &[], &[0; 4097], 23, 0);
    }
    let [locations, edges] = [all.locations.concat(), all.edges.concat()];
    for [location_count, edge_count] in [[7, 2], [6, 3], [usize::MAX, 2], [6, usize::MAX], [1025, 2049]] {
        let answer = ranges(&locations, &edges, location_count, edge_count, 2, &[1, 9], &[0]);
        assert_eq!(answer, Ranged::Refused { number: 23, place: 0 });
    }
}

#[test]
fn long_paths() {
    let all = automaton(&[around(0, 0x1001), around(0, 0x2001), around(2, 0x0001)]);
    all.follows(2, &[1, 2], &[0; 4096], 2, &[(1, 2)]);
    all.follows(2, &[HIGHEST - 1, HIGHEST], &[1; 4096], 2, &[(69_630, 69_631)]);
    all.follows(2, &[1, 4097], &[2; 4096], 2, &[(1, 1)]);
    all.ends(2, &[1, 4096], &[2; 4096], 4095);
    all.ends(2, &[4000, 4001], &[2; 4096], 4000);
    let mut path = [0; 4096];
    path[4095] = 3;
    all.refused(2, &[1, 2], &path, 23, 4095);
    // Its edges and the ranges do not matter.
    all.refused(2, &[1, 2], &[0; 4097], 23, 0);
    all.refused(2, &[2, 1], &[3; 4097], 23, 0);
    all.refused(2, &[1, 2], &[0; 100_000], 23, 0);
    let twelve: Vec<u16> = (0..12).map(|node| 0x2000 | 1 << node).collect();
    let all = automaton(&[from(3, e(0, 3, 0, 0, &twelve))]);
    all.follows(3, &[1, HIGHEST].repeat(12), &[0; 4096], 3, &[(4097, 69_631); 12]);
}

#[test]
fn the_search_tries_so_many_starts() {
    let all = automaton(&[around(0, 0x1001)]);
    let [locations, edges] = [all.locations.concat(), all.edges.concat()];
    let searched = |start: usize, numbers: &[u32], path: &[u32]| ranges_by_search(&locations, &edges, 6, 1, start, numbers, path);
    assert_eq!(searched(2, &[1, 4000], &[0]), Some(Ranged::Follows { location: 2, ranges: vec![(1, 4000)] }));
    assert_eq!(searched(2, &[1, 4001], &[0]), None);
    assert_eq!(searched(3, &[1, HIGHEST].repeat(12), &[]), None);
    // What is refused needs no starts.
    assert_eq!(searched(2, &[1, 4001], &[0, 1]), Some(Ranged::Refused { number: 23, place: 1 }));
    assert_eq!(searched(2, &[1, 65_536], &[0]), Some(Ranged::Refused { number: 22, place: 0 }));
}

#[test]
fn on_a_listing() {
    // Free pointer 0 and stop: with one cell, and with a leak.
    let p1 = input(&[s(7, 0, 0, 1, 0), stop(), h(pointers(&[0]), &[NULL])]);
    let got = into_tables(&p1, 32 * 8, 32 * 8);
    let answer = |numbers: &[u32], path: &[u32]| ranges(&got.locations, &got.edges, 3, 2, 0, numbers, path);
    assert_eq!(answer(&[1, 12], &[0]), Ranged::Follows { location: 1, ranges: vec![] });
    assert_eq!(answer(&[1, 12], &[1]), Ranged::Follows { location: 2, ranges: vec![] });
    assert_eq!(answer(&[2, 12], &[0]), Ranged::Ends { position: 0 });
    assert_eq!(answer(&[1, 1], &[1]), Ranged::Ends { position: 0 });
    assert_eq!(answer(&[1, 12], &[0, 0]), Ranged::Refused { number: 23, place: 1 });
    assert_eq!(answer(&[0, 12], &[0]), Ranged::Refused { number: 22, place: 0 });
}
