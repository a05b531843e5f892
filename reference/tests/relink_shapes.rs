//! Relinks on all small shapes: the edges of the listing against single steps
//! on heaps with small counters, decoded here once more.

mod common;

use common::small::{all_shapes, Edge};
use common::*;
use reference::{fold, step, unfold, Stepped};

/// The guards that are due, from the bytes of both pointers.
fn due_guards(shape: &Record, u: usize, w: usize) -> Vec<[(u8, usize); 2]> {
    let (u, w) = (shape[4 + u], shape[4 + w]);
    if u == w || u >= shape[3] || w >= shape[3] {
        return vec![[(0, 0), (0, 0)]];
    }
    let (u, w) = (usize::from(u), usize::from(w));
    vec![[(1, u), (1, w)], [(1, u), (2, w)], [(2, u), (0, 0)]]
}

/// Counters from 1 to 3 of the nodes of u and w; the other nodes take turns.
fn counters_of(shape: &Record, u: usize, w: usize) -> Vec<[u32; 12]> {
    let mut all = Vec::new();
    for number in 0..9u32 {
        let mut counters = [0; 12];
        for (node, counter) in counters.iter_mut().take(usize::from(shape[3])).enumerate() {
            *counter = match node as u8 {
                node if node == shape[4 + u] => 1 + number % 3,
                node if node == shape[4 + w] => 1 + number / 3,
                node => 1 + (number + u32::from(node)) % 3,
            };
        }
        all.push(counters);
    }
    all
}

/// Steps on the heap of these counters and takes the one edge that is enabled.
/// Answers the fault.
fn check_heap(relink: &Record, shape: &Record, counters: &[u32; 12], edges: &[Edge], locations: &[u8]) -> u8 {
    let (mut held, mut cells) = ([0; 6], [0; 40]);
    assert_eq!(unfold(shape, counters, &mut held, &mut cells), Ok(()));
    let enabled: Vec<&Edge> = edges.iter().filter(|edge| edge.enabled(counters)).collect();
    let [edge] = enabled[..] else { panic!("{} edges are enabled on {shape:?} {counters:?}", enabled.len()) };
    let target = &locations[32 * edge.to..][..32];
    match step(&mut held, &mut cells, relink, 0, 0) {
        Stepped::Moved { branch: 0, next: 1 } => {
            let folded = fold(&held, &cells);
            assert_eq!(target[..3], [0x4c, 1, 0], "{shape:?} {counters:?}");
            assert_eq!(target[3..], folded.record[3..], "{shape:?} {counters:?}");
            assert_eq!(edge.apply(counters, usize::from(target[3])), folded.counters, "{shape:?} {counters:?}");
            0
        }
        Stepped::Fault(fault) => {
            assert_eq!(target, faulted(0, fault), "{shape:?} {counters:?}");
            assert!(edge.updates.iter().all(|&update| update == 0));
            fault
        }
        other => panic!("{other:?} on {shape:?} {counters:?}"),
    }
}

#[test]
fn every_relink_of_every_small_shape() {
    let mut faults = [0; 4];
    for shape in all_shapes(4) {
        for (u, w) in (0..3).flat_map(|u| (0..3).map(move |w| (u, w))) {
            let relink = s(12, u as u8, w as u8, 1, 0);
            let got = into_tables(&input(&[relink, stop(), shape]), 32 * 4, 32 * 3);
            assert_eq!(got.answer.refusal, 0);
            let edges: Vec<Edge> = got.edges.chunks(32).take(got.answer.edges).map(Edge::decode).collect();
            let guards: Vec<_> = edges.iter().map(|edge| edge.guards).collect();
            assert_eq!(guards, due_guards(&shape, u, w), "{shape:?}");
            for counters in counters_of(&shape, u, w) {
                let fault = check_heap(&relink, &shape, &counters, &edges, &got.locations);
                faults[usize::from(fault)] += 1;
            }
        }
    }
    assert!(faults.iter().all(|&count| count > 1000), "{faults:?}");
}
