//! Single moves and walks, by hand: guards, counters at 2^32, the order of 20
//! and 21, and the lengths of walks.

mod common;

use common::*;
use reference::{configuration_fits, move_along, walk, Configuration, Refusal, Walked};

const MAX: u32 = u32::MAX;

/// Tables with all their records in use.
struct Automaton {
    locations: Vec<Record>,
    edges: Vec<Record>,
}

impl Automaton {
    fn moved(&self, at: Configuration, edge: usize) -> Result<Configuration, Refusal> {
        let [locations, edges] = [self.locations.concat(), self.edges.concat()];
        move_along(&locations, &edges, self.locations.len(), self.edges.len(), at, edge)
    }

    fn walked(&self, at: Configuration, path: &[u32]) -> Walked {
        let [locations, edges] = [self.locations.concat(), self.edges.concat()];
        walk(&locations, &edges, self.locations.len(), self.edges.len(), at, path)
    }

    /// Wants a move to this configuration, by itself and as a walk.
    #[track_caller]
    fn goes(&self, from: Configuration, edge: usize, to: Configuration) {
        assert_eq!(self.moved(from, edge), Ok(to));
        assert_eq!(self.walked(from, &[edge as u32]), Walked { refusal: None, made: 1, configuration: to });
    }

    /// Wants a move to be refused, by itself and as a walk.
    #[track_caller]
    fn stays(&self, from: Configuration, edge: usize, number: u8) {
        assert_eq!(self.moved(from, edge), Err(at_0(number)));
        let walked = self.walked(from, &[edge as u32, 0, 0]);
        assert_eq!(walked, Walked { refusal: Some(at_0(number)), made: 0, configuration: from });
    }
}

fn at(location: u32, first: &[u32]) -> Configuration {
    let mut counters = [0; 12];
    counters[..first.len()].copy_from_slice(first);
    Configuration { location, counters }
}

/// So many nodes; what they hold does not matter.
fn nodes(count: usize) -> Record {
    l(0, NULLS, &vec![NULL; count])
}

/// From three nodes at location 0 to two at 1, one at 2, twelve at 3, none at 4
/// and to a fault at 5.
fn automaton(edges: &[Record]) -> Automaton {
    let locations = vec![nodes(3), nodes(2), nodes(1), nodes(12), nodes(0), faulted(9, 1)];
    Automaton { locations, edges: edges.to_vec() }
}

#[test]
fn new_counters() {
    let twelve = [0x2000, 0x1004, 0x2002, 0x2000, 0x2000, 0x2000, 0x2000, 0x2000, 0x2000, 0x2000, 0x2000, 0x1001];
    let all = automaton(&[
        e(0, 1, 0, 0, &[0x1005, 0x2002]),
        e(0, 2, 0, 0, &[0x0007]),
        e(0, 3, 0, 0, &twelve),
        e(0, 4, 0, 0, &[]),
        e(0, 5, 0, 0, &[]),
        from(4, e(0, 2, 0, 0, &[0x2000])),
        from(5, e(0, 0, 0, 0, &[0x2000, 0x2000, 0x2000])),
    ]);
    all.goes(at(0, &[10, 20, 30]), 0, at(1, &[40, 21]));
    all.goes(at(0, &[10, 20, 30]), 1, at(2, &[59]));
    all.goes(at(0, &[10, 20, 30]), 2, at(3, &[1, 30, 21, 1, 1, 1, 1, 1, 1, 1, 1, 10]));
    // Counters that are not added are gone, and past k all are 0.
    all.goes(at(0, &[10, 20, 30]), 3, at(4, &[]));
    all.goes(at(0, &[10, 20, 30]), 4, at(5, &[]));
    all.goes(at(4, &[]), 5, at(2, &[1]));
    // An edge that leaves a fault is an edge like any other.
    all.goes(at(5, &[]), 6, at(0, &[1, 1, 1]));
}

#[test]
fn both_guards_are_looked_at() {
    let to = &[0x2000];
    let all = automaton(&[
        e(0, 2, 1, 0, to),
        e(0, 2, 2, 0, to),
        second(1, 2, e(0, 2, 0, 0, to)),
        second(2, 2, e(0, 2, 0, 0, to)),
        second(2, 2, e(1, 2, 1, 0, to)),
        second(1, 0, e(0, 2, 2, 0, to)),
    ]);
    for (first, third) in [(1, 1), (1, 2), (2, 1), (2, 2), (MAX, 1), (1, MAX), (3, MAX)] {
        let holds = [first == 1, first > 1, third == 1, third > 1, first == 1 && third > 1, false];
        for (edge, holds) in holds.into_iter().enumerate() {
            let from = at(0, &[first, 7, third]);
            if holds {
                all.goes(from, edge, at(2, &[1]));
            } else {
                all.stays(from, edge, 20);
            }
        }
    }
}

#[test]
fn edges_that_are_not_there() {
    let all = automaton(&[e(0, 2, 0, 0, &[0x1001]), from(1, e(0, 2, 0, 0, &[0x1001]))]);
    let from = at(0, &[1, 2, 3]);
    all.goes(from, 0, at(2, &[1]));
    all.stays(from, 1, 20);
    for edge in [2, 3, 256, 65_536, MAX as usize] {
        all.stays(from, edge, 20);
    }
    for edge in [1 << 32, 1 << 59, usize::MAX] {
        assert_eq!(all.moved(from, edge), Err(at_0(20)));
    }
    // Records past the count are no edges.
    let tables = [all.locations.concat(), all.edges.concat()];
    assert_eq!(move_along(&tables[0], &tables[1], 6, 1, at(1, &[1, 1]), 1), Err(at_0(20)));
    assert!(move_along(&tables[0], &tables[1], 6, 2, at(1, &[1, 1]), 1).is_ok());
}

#[test]
fn configurations() {
    let all = automaton(&[e(0, 5, 0, 0, &[]), from(5, e(0, 5, 0, 0, &[])), from(3, e(0, 5, 0, 0, &[]))]);
    let locations = all.locations.concat();
    let fits = |at: &Configuration| configuration_fits(&locations, 6, at);
    let sound = [at(0, &[1, 1, 1]), at(0, &[MAX, 1, MAX]), at(4, &[]), at(5, &[]), at(3, &[1; 12]), at(3, &[MAX; 12])];
    for sound in sound {
        assert!(fits(&sound));
        assert_eq!(all.walked(sound, &[]), Walked { refusal: None, made: 0, configuration: sound });
    }
    let mut wrong = vec![at(6, &[]), at(7, &[]), at(256, &[]), at(65_536, &[]), at(MAX, &[]), at(5, &[1])];
    wrong.extend([at(0, &[1, 1]), at(0, &[0, 1, 1]), at(0, &[1, 0, 1]), at(0, &[1, 1, 1, 1]), at(0, &[]), at(4, &[0, 1])]);
    for node in 0..12 {
        let mut counters = [1; 12];
        counters[node] = 0;
        wrong.push(at(3, &counters));
        let mut counters = [0; 12];
        counters[node] = 1;
        wrong.extend([at(4, &counters), at(5, &counters)]);
        if node > 2 {
            counters[..3].fill(1);
            counters[node] = MAX;
            wrong.push(at(0, &counters));
        }
    }
    for wrong in wrong {
        assert!(!fits(&wrong), "{wrong:?}");
        for path in [&[][..], &[0], &[1], &[2], &[0, 1, 1]] {
            assert_eq!(all.walked(wrong, path), Walked { refusal: Some(at_0(20)), made: 0, configuration: wrong });
        }
        for edge in 0..3 {
            assert_eq!(all.moved(wrong, edge), Err(at_0(20)));
        }
    }
    // The count decides, not the places.
    assert!(!configuration_fits(&locations, 5, &at(5, &[])));
    assert!(configuration_fits(&locations, 5, &at(4, &[])));
}

#[test]
fn up_to_2_to_the_32_less_one() {
    let all = automaton(&[
        e(0, 2, 0, 0, &[0x2001]),
        e(0, 2, 0, 0, &[0x1001]),
        e(0, 2, 0, 0, &[0x1003]),
        e(0, 2, 0, 0, &[0x2003]),
        e(0, 2, 0, 0, &[0x0003]),
        e(0, 2, 0, 0, &[0x0007]),
        e(0, 2, 2, 0, &[0x0001]),
    ]);
    all.goes(at(0, &[MAX - 1, 1, 1]), 0, at(2, &[MAX]));
    all.stays(at(0, &[MAX, 1, 1]), 0, 21);
    all.goes(at(0, &[MAX, 1, 1]), 1, at(2, &[MAX]));
    all.goes(at(0, &[MAX - 1, 1, 1]), 2, at(2, &[MAX]));
    all.stays(at(0, &[MAX, 1, 1]), 2, 21);
    all.stays(at(0, &[1 << 31, 1 << 31, 1]), 2, 21);
    all.goes(at(0, &[1 << 31, (1 << 31) - 1, 1]), 2, at(2, &[MAX]));
    all.goes(at(0, &[1 << 31, (1 << 31) - 2, 1]), 3, at(2, &[MAX]));
    all.stays(at(0, &[1 << 31, (1 << 31) - 1, 1]), 3, 21);
    all.goes(at(0, &[MAX, 1, 1]), 6, at(2, &[MAX - 1]));
    // On the finished value: the sum alone may pass.
    all.goes(at(0, &[MAX, 1, 1]), 4, at(2, &[MAX]));
    all.goes(at(0, &[1, MAX, 1]), 4, at(2, &[MAX]));
    all.stays(at(0, &[MAX, 2, 1]), 4, 21);
    all.goes(at(0, &[1 << 31, 1 << 31, 1]), 4, at(2, &[MAX]));
    all.goes(at(0, &[MAX - 1, 1, 1]), 5, at(2, &[MAX]));
    all.stays(at(0, &[MAX, 1, 1]), 5, 21);
    // Sums that would be small again in 32 bits.
    all.stays(at(0, &[MAX, MAX, 1]), 2, 21);
    all.stays(at(0, &[MAX, MAX, 3]), 5, 21);
}

#[test]
fn twelve_counters_at_once() {
    let all = Automaton { locations: vec![nodes(12), nodes(1)], edges: vec![e(0, 1, 0, 0, &[0x0fff]), e(0, 1, 0, 0, &[0x2fff])] };
    all.stays(at(0, &[MAX; 12]), 0, 21);
    all.stays(at(0, &[MAX; 12]), 1, 21);
    let mut counters = [1; 12];
    counters[11] = MAX - 12;
    all.goes(at(0, &counters), 0, at(1, &[MAX - 2]));
    all.goes(at(0, &counters), 1, at(1, &[MAX]));
    counters[0] = 3;
    all.goes(at(0, &counters), 0, at(1, &[MAX]));
    all.stays(at(0, &counters), 1, 21);
}

#[test]
fn any_of_the_new_counters() {
    let all = automaton(&[e(0, 1, 0, 0, &[0x2001, 0x2002]), e(0, 1, 0, 0, &[0x2000, 0x2002]), e(0, 4, 0, 0, &[])]);
    all.stays(at(0, &[MAX, 1, 1]), 0, 21);
    all.stays(at(0, &[1, MAX, 1]), 0, 21);
    all.goes(at(0, &[1, 1, MAX]), 0, at(1, &[2, 2]));
    all.goes(at(0, &[MAX, 1, MAX]), 1, at(1, &[1, 2]));
    // None is added where there are no nodes.
    all.goes(at(0, &[MAX, MAX, MAX]), 2, at(4, &[]));
}

#[test]
fn refusal_20_comes_first() {
    let grow = &[0x2001, 0x2002];
    let all =
        automaton(&[e(0, 1, 0, 0, grow), e(0, 1, 1, 2, grow), second(2, 2, e(0, 1, 0, 0, grow)), from(1, e(0, 1, 0, 0, grow))]);
    all.stays(at(0, &[MAX, 1, 1]), 0, 21);
    all.stays(at(0, &[MAX, 1, 1]), 1, 21);
    all.stays(at(0, &[MAX, 1, 2]), 1, 20);
    all.stays(at(0, &[MAX, 1, 2]), 2, 21);
    all.stays(at(0, &[MAX, 1, 1]), 2, 20);
    all.stays(at(0, &[MAX, 1, 1]), 3, 20);
    all.stays(at(0, &[MAX, 1, 1]), 4, 20);
    all.stays(at(0, &[MAX, 0, 1]), 0, 20);
    all.stays(at(0, &[MAX, 1, 1, 1]), 0, 20);
    let mut broken = automaton(&all.edges);
    broken.locations[5][31] = 1;
    broken.stays(at(0, &[MAX, 1, 1]), 0, 20);
}

/// Edge 0 counts up, edge 1 goes down to location 1, edge 2 back with 1.
fn counting() -> Automaton {
    let edges = vec![e(0, 0, 0, 0, &[0x2001]), e(0, 1, 2, 0, &[0x0001]), from(1, e(0, 0, 0, 0, &[0x2000]))];
    Automaton { locations: vec![nodes(1), nodes(1)], edges }
}

#[test]
fn a_walk_stops_at_a_refusal() {
    let all = counting();
    let walked = |refusal: u8, made, configuration| Walked { refusal: Some(at_0(refusal)), made, configuration };
    let whole = |made, configuration| Walked { refusal: None, made, configuration };
    assert_eq!(all.walked(at(0, &[1]), &[0, 0, 1, 2, 0]), whole(5, at(0, &[2])));
    assert_eq!(all.walked(at(0, &[1]), &[1, 0, 0]), walked(20, 0, at(0, &[1])));
    assert_eq!(all.walked(at(0, &[1]), &[0, 2, 0]), walked(20, 1, at(0, &[2])));
    assert_eq!(all.walked(at(0, &[1]), &[0, 1, 0, 2]), walked(20, 2, at(1, &[1])));
    assert_eq!(all.walked(at(0, &[1]), &[0, 0, 3]), walked(20, 2, at(0, &[3])));
    assert_eq!(all.walked(at(0, &[1]), &[0, 0, MAX]), walked(20, 2, at(0, &[3])));
    assert_eq!(all.walked(at(0, &[MAX - 2]), &[0, 0, 0, 0]), walked(21, 2, at(0, &[MAX])));
    assert_eq!(all.walked(at(0, &[MAX]), &[1, 2, 0]), whole(3, at(0, &[2])));
}

#[test]
fn walks_of_4096_and_more() {
    let all = counting();
    for length in [0usize, 1, 4095, 4096] {
        let due = Walked { refusal: None, made: length, configuration: at(0, &[7 + length as u32]) };
        assert_eq!(all.walked(at(0, &[7]), &vec![0; length]), due);
    }
    for length in [4097, 4098, 8192, 65_536, 70_000] {
        for edge in [0, 9] {
            let due = Walked { refusal: Some(at_0(20)), made: 0, configuration: at(0, &[7]) };
            assert_eq!(all.walked(at(0, &[7]), &vec![edge; length]), due);
        }
    }
    // The last of 4,096 is refused like any other.
    for (last, number) in [(2, 20), (9, 20), (0, 21)] {
        let mut path = vec![0; 4096];
        path[4095] = last;
        let start = if number == 21 { MAX - 4095 } else { 7 };
        let due = Walked { refusal: Some(at_0(number)), made: 4095, configuration: at(0, &[start + 4095]) };
        assert_eq!(all.walked(at(0, &[start]), &path), due);
    }
    // 21 is not told where the length is wrong.
    let due = Walked { refusal: Some(at_0(20)), made: 0, configuration: at(0, &[MAX]) };
    assert_eq!(all.walked(at(0, &[MAX]), &[0; 4097]), due);
}

#[test]
fn empty_walks() {
    let all = counting();
    let start = at(0, &[7]);
    assert_eq!(all.walked(start, &[]), Walked { refusal: None, made: 0, configuration: start });
    let refused = |all: &Automaton, start| {
        let due = Walked { refusal: Some(at_0(20)), made: 0, configuration: start };
        assert_eq!(all.walked(start, &[]), due);
    };
    refused(&all, at(0, &[]));
    refused(&all, at(2, &[7]));
    for (edge, byte) in [(0, 9), (2, 6)] {
        let mut broken = counting();
        broken.edges[edge][byte] |= 0x43;
        refused(&broken, start);
    }
    let mut broken = counting();
    broken.locations[1][1] = 64;
    refused(&broken, start);
}

/// The case P1: a list of one cell is freed, a longer one leaks.
#[test]
fn the_tables_of_p1() {
    let p1 = input(&[s(7, 0, 0, 1, 0), stop(), h(pointers(&[0]), &[NULL])]);
    let got = into_tables(&p1, 32 * 5, 32 * 4);
    let moved = |counter, edge| move_along(&got.locations, &got.edges, 3, 2, at(0, &[counter]), edge);
    assert_eq!(moved(1, 0), Ok(at(1, &[])));
    assert_eq!(moved(1, 1), Err(at_0(20)));
    for counter in [2, 3, MAX] {
        assert_eq!(moved(counter, 0), Err(at_0(20)));
        assert_eq!(moved(counter, 1), Ok(at(2, &[])));
    }
    // One location more is a place of zeros.
    assert_eq!(move_along(&got.locations, &got.edges, 4, 2, at(0, &[1]), 0), Err(at_0(20)));
}
