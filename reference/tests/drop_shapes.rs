//! Drops on all small shapes: the edge of the listing against single steps on
//! heaps with small counters, and against u := null. And the inputs that are
//! drawn for their drops.

mod common;

use common::small::{all_shapes, Edge};
use common::*;
use reference::selftest::drop_inputs;
use reference::{fold, step, unfold, Stepped};

/// The listing of one statement and a stop: its edges and its locations.
fn listed(statement: Record, shape: &Record) -> (Vec<Edge>, Vec<u8>) {
    let got = into_tables(&input(&[statement, stop(), *shape]), 32 * 4, 32 * 4);
    assert_eq!(got.answer.refusal, 0);
    (got.edges.chunks(32).take(got.answer.edges).map(Edge::decode).collect(), got.locations)
}

/// Counters from 1 to 3, drawn from the number.
fn counters_of(shape: &Record, number: u32) -> [u32; 12] {
    let mut counters = [0; 12];
    for (node, counter) in counters.iter_mut().take(usize::from(shape[3])).enumerate() {
        *counter = 1 + number / 3u32.pow(node as u32) % 3;
    }
    counters
}

/// The cells of an image that a walk from the pointers meets, as they stand;
/// the others are not in use.
fn reachable(held: &[u8; 6], cells: &[u8]) -> Vec<u8> {
    let mut met = vec![UNUSED; cells.len()];
    for &pointer in held {
        let mut at = pointer;
        while at < UNUSED && met[usize::from(at)] == UNUSED {
            met[usize::from(at)] = cells[usize::from(at)];
            at = cells[usize::from(at)];
        }
    }
    met
}

/// Steps on the heap of these counters and takes the edge. Answers how many
/// cells went.
fn check_heap(u: usize, shape: &Record, counters: &[u32; 12], edge: &Edge, target: &[u8]) -> u32 {
    let (mut held, mut cells) = ([0; 6], [0; 15]);
    assert_eq!(unfold(shape, counters, &mut held, &mut cells), Ok(()));
    let mut due = held;
    due[u] = NULL;
    let due_cells = reachable(&due, &cells);
    let stepped = step(&mut held, &mut cells, &s(13, u as u8, 0, 1, 0), 0, 0);
    assert_eq!(stepped, Stepped::Moved { branch: 0, next: 1 });
    assert_eq!((held, &cells[..]), (due, &due_cells[..]), "{shape:?} {counters:?}");
    let folded = fold(&held, &cells);
    assert_eq!((folded.refusal, &target[3..]), (None, &folded.record[3..]), "{shape:?} {counters:?}");
    assert_eq!(edge.apply(counters, usize::from(target[3])), folded.counters, "{shape:?} {counters:?}");
    let [before, after] = [counters, &folded.counters].map(|counters| counters.iter().sum::<u32>());
    before - after
}

/// u := null has the same edge, or leaks if the drop loses a node.
fn check_null(u: usize, shape: &Record, dropped: (&Edge, &[u8]), lost: bool) {
    let (edges, locations) = listed(s(1, u as u8, 0, 1, 0), shape);
    let [edge] = &edges[..] else { panic!("{} edges", edges.len()) };
    let target = &locations[32 * edge.to..][..32];
    if lost {
        assert_eq!(target, faulted(0, 3), "{shape:?}");
    } else {
        assert_eq!((target, &edge.updates), (dropped.1, &dropped.0.updates), "{shape:?}");
    }
}

#[test]
fn every_drop_of_every_small_shape() {
    let mut lost_nodes = [0; 4];
    let mut merged_nodes = [0; 3];
    for shape in all_shapes(4) {
        for u in 0..4 {
            let (edges, locations) = listed(s(13, u as u8, 0, 1, 0), &shape);
            let [edge] = &edges[..] else { panic!("{} edges of {shape:?}", edges.len()) };
            let target = &locations[32 * edge.to..][..32];
            assert_eq!((edge.guards, &target[..3]), ([(0, 0); 2], &[0x4c, 1, 0][..]), "{shape:?}");
            let added: u32 = edge.updates.iter().map(|update| (update & 0xfff).count_ones()).sum();
            let lost = u32::from(shape[3]) - added;
            lost_nodes[lost as usize] += 1;
            merged_nodes[added as usize - usize::from(target[3])] += 1;
            check_null(u, &shape, (edge, target), lost > 0);
            for number in 0..3u32.pow(u32::from(shape[3])) {
                let cells = check_heap(u, &shape, &counters_of(&shape, number), edge, target);
                assert_eq!(cells > 0, lost > 0, "{shape:?}");
            }
        }
    }
    // Never more than two nodes vanish, and never more than one merges.
    assert!(lost_nodes[..3].iter().all(|&count| count > 20) && lost_nodes[3] == 0, "{lost_nodes:?}");
    assert!(merged_nodes[..2].iter().all(|&count| count > 100) && merged_nodes[2] == 0, "{merged_nodes:?}");
}

#[test]
fn inputs_drawn_for_drops() {
    let mut reached = 0;
    let mut different = std::collections::HashSet::new();
    for input in drop_inputs(3).take(2_000) {
        let got = into_tables(&input, 32 * 1024, 32 * 2048);
        assert!([0, 11, 12].contains(&got.answer.refusal), "{:?}", got.answer);
        let mut listed = got.locations.chunks(32).take(got.answer.locations);
        let is_drop = |location: &[u8]| input[32 * usize::from(location[1]) + 1] == 13;
        reached += usize::from(listed.any(is_drop));
        different.insert(input);
    }
    assert!(reached >= 1_800 && different.len() >= 1_990, "{reached} of {}", different.len());
    assert!(drop_inputs(3).take(50).eq(drop_inputs(3).take(50)));
}
