//! The edges of `u.next := w.next`, op 12, in all their bytes.

mod common;

use common::program::check;
use common::*;

/// Kinds of guards.
const ONE: u8 = 1;
const MORE: u8 = 2;

/// Relinks pointer 0 by pointer 1 and stops.
fn on(shape: Record) -> [Record; 3] {
    [s(12, 0, 1, 1, 0), stop(), shape]
}

/// An edge of a relink with both guards: u's kind and node, then w's.
fn both(to: u8, u: (u8, u8), w: (u8, u8), updates: &[u16]) -> Record {
    second(w.0, w.1, e(0, to, u.0, u.1, updates))
}

/// The third edge of a relink, to the leak.
fn third(to: u8, node: u8) -> Record {
    e(0, to, MORE, node, &[])
}

#[test]
fn both_lead_to_one_node() {
    // With c0 >= 2 the rest of node 0 is lost, though nothing else changes.
    // With c2 >= 2 the shared tail takes the rest of node 2.
    let held = pointers(&[0, 2]);
    let successors = [1, NULL, 1];
    check_listing(
        &on(h(held, &successors)),
        &[l(0, held, &successors), l(1, held, &successors), faulted(0, 3)],
        &[
            both(1, (ONE, 0), (ONE, 2), &[0x1001, 0x1002, 0x1004]),
            both(1, (ONE, 0), (MORE, 2), &[0x1001, 0x0006, 0x2000]),
            third(2, 0),
        ],
    );
}

#[test]
fn both_lead_to_null() {
    let held = pointers(&[0, 1]);
    check_listing(
        &on(h(held, &[NULL, NULL])),
        &[l(0, held, &[NULL, NULL]), l(1, held, &[NULL, NULL]), l(1, pointers(&[0, 2]), &[1, NULL, 1]), faulted(0, 3)],
        &[both(1, (ONE, 0), (ONE, 1), &[0x1001, 0x1002]), both(2, (ONE, 0), (MORE, 1), &[0x1001, 0x0002, 0x2000]), third(3, 0)],
    );
}

#[test]
fn both_on_one_ring() {
    let held = pointers(&[0, 1]);
    check_listing(
        &on(h(held, &[1, 0])),
        &[l(0, held, &[1, 0]), l(1, held, &[0, 0]), l(1, pointers(&[0, 2]), &[1, 0, 1]), faulted(0, 3)],
        &[both(1, (ONE, 0), (ONE, 1), &[0x1001, 0x1002]), both(2, (ONE, 0), (MORE, 1), &[0x1001, 0x0002, 0x2000]), third(3, 0)],
    );
}

#[test]
fn rings_of_their_own() {
    // u leaves its ring and comes to that of w.
    let held = pointers(&[0, 1]);
    check_listing(
        &on(h(held, &[0, 1])),
        &[l(0, held, &[0, 1]), l(1, pointers(&[0, 1]), &[1, 1]), l(1, pointers(&[0, 2]), &[1, 2, 1]), faulted(0, 3)],
        &[both(1, (ONE, 0), (ONE, 1), &[0x1001, 0x1002]), both(2, (ONE, 0), (MORE, 1), &[0x1001, 0x0002, 0x2000]), third(3, 0)],
    );
}

#[test]
fn the_next_of_w_is_undefined() {
    let held = pointers(&[0, 1]);
    check_listing(
        &on(h(held, &[NULL, UNDEF])),
        &[l(0, held, &[NULL, UNDEF]), l(1, held, &[UNDEF, UNDEF]), l(1, pointers(&[0, 2]), &[1, UNDEF, 1]), faulted(0, 3)],
        &[both(1, (ONE, 0), (ONE, 1), &[0x1001, 0x1002]), both(2, (ONE, 0), (MORE, 1), &[0x1001, 0x0002, 0x2000]), third(3, 0)],
    );
}

#[test]
fn u_directly_before_w() {
    // The usual unlinking; pointer 2 holds the cell of w as well, or not.
    for other in [NULL, 1] {
        let held = pointers(&[0, 1, other]);
        let moved = if other == 1 { 2 } else { NULL };
        check_listing(
            &on(h(held, &[1, NULL])),
            &[l(0, held, &[1, NULL]), l(1, held, &[NULL, NULL]), l(1, pointers(&[0, 2, moved]), &[1, NULL, 1]), faulted(0, 3)],
            &[
                both(1, (ONE, 0), (ONE, 1), &[0x1001, 0x1002]),
                both(2, (ONE, 0), (MORE, 1), &[0x1001, 0x0002, 0x2000]),
                third(3, 0),
            ],
        );
    }
}

#[test]
fn w_directly_before_u() {
    // p1.next := p0.next: u's node 1 is the first guard, w's node 0 the second.
    let held = pointers(&[0, 1]);
    check_listing(
        &[s(12, 1, 0, 1, 0), stop(), h(held, &[1, NULL])],
        &[l(0, held, &[1, NULL]), l(1, held, &[1, 1]), l(1, pointers(&[0, 2]), &[1, 2, 1]), faulted(0, 3)],
        &[both(1, (ONE, 1), (ONE, 0), &[0x1001, 0x1002]), both(2, (ONE, 1), (MORE, 0), &[0x2000, 0x0001, 0x1002]), third(3, 1)],
    );
}

#[test]
fn a_node_that_is_no_longer_core() {
    // As in P6, node 1 merges into node 2.
    let held = pointers(&[0, 2, 3]);
    let successors = [1, NULL, 1, NULL];
    check_listing(
        &[s(12, 0, 2, 1, 0), stop(), h(held, &successors)],
        &[
            l(0, held, &successors),
            l(1, pointers(&[0, 1, 2]), &[NULL, NULL, NULL]),
            l(1, pointers(&[0, 2, 3]), &[1, NULL, NULL, 1]),
            faulted(0, 3),
        ],
        &[
            both(1, (ONE, 0), (ONE, 3), &[0x1001, 0x1006, 0x1008]),
            both(2, (ONE, 0), (MORE, 3), &[0x1001, 0x0008, 0x1006, 0x2000]),
            third(3, 0),
        ],
    );
}

#[test]
fn a_ring_with_one_way_in_less() {
    // Node 1 of the ring merges into node 2, which leads into it.
    let held = pointers(&[0, 3]);
    let successors = [1, 2, 1, 2];
    check_listing(
        &on(h(held, &successors)),
        &[l(0, held, &successors), l(1, pointers(&[0, 2]), &[1, 1, 1]), l(1, pointers(&[0, 3]), &[1, 2, 2, 1]), faulted(0, 3)],
        &[
            both(1, (ONE, 0), (ONE, 3), &[0x1001, 0x1006, 0x1008]),
            both(2, (ONE, 0), (MORE, 3), &[0x1001, 0x0008, 0x1006, 0x2000]),
            third(3, 0),
        ],
    );
}

#[test]
fn the_only_way_into_a_ring() {
    let held = pointers(&[0, 2]);
    check_listing(
        &on(h(held, &[1, 1, NULL])),
        &[l(0, held, &[1, 1, NULL]), faulted(0, 3)],
        &[both(1, (ONE, 0), (ONE, 2), &[]), both(1, (ONE, 0), (MORE, 2), &[]), third(1, 0)],
    );
}

#[test]
fn null_and_undefined() {
    // w is looked at first; u matters only if w is at a cell.
    let cases = [
        ([0, NULL], 1),
        ([0, UNDEF], 2),
        ([NULL, 0], 1),
        ([UNDEF, 0], 2),
        ([NULL, NULL], 1),
        ([UNDEF, UNDEF], 2),
        ([UNDEF, NULL], 1),
        ([NULL, UNDEF], 2),
    ];
    for (first, fault) in cases {
        let held = pointers(&first);
        let nodes = usize::from(first.contains(&0));
        for next in [NULL, UNDEF, 0] {
            let successors = &[next][..nodes];
            check_listing(&on(h(held, successors)), &[l(0, held, successors), faulted(0, fault)], &[e(0, 1, 0, 0, &[])]);
        }
    }
    for (held, fault) in [(NULL, 1), (UNDEF, 2)] {
        let held = pointers(&[held]);
        check_listing(&[s(12, 0, 0, 1, 0), stop(), h(held, &[])], &[l(0, held, &[]), faulted(0, fault)], &[e(0, 1, 0, 0, &[])]);
    }
}

#[test]
fn one_cell() {
    // Two pointers at one node, and one pointer as both.
    let (two, one) = (pointers(&[0, 0]), pointers(&[0]));
    for next in [NULL, UNDEF, 0] {
        check_listing(&on(h(two, &[next])), &[l(0, two, &[next]), l(1, two, &[next])], &[e(0, 1, 0, 0, &[0x1001])]);
        check_listing(
            &[s(12, 0, 0, 1, 0), stop(), h(one, &[next])],
            &[l(0, one, &[next]), l(1, one, &[next])],
            &[e(0, 1, 0, 0, &[0x1001])],
        );
    }
    // Every counter is carried, also of the ring that only they lead to.
    check_listing(&on(h(two, &[1, 1])), &[l(0, two, &[1, 1]), l(1, two, &[1, 1])], &[e(0, 1, 0, 0, &[0x1001, 0x1002])]);
}

/// Six lists that meet in pairs, in a ring of six: pointer 5 is at node 11.
fn twelve_nodes() -> Record {
    h([0, 7, 8, 9, 10, 11], &[1, 2, 3, 4, 5, 6, 1, 2, 3, 4, 5, 6])
}

#[test]
fn byte_1_for_every_node_of_w() {
    let nodes = [0, 7, 8, 9, 10, 11];
    for (w, node) in nodes.into_iter().enumerate() {
        let u = (w + 1) % 6;
        let got = into_tables(&input(&[s(12, u as u8, w as u8, 1, 0), stop(), twelve_nodes()]), 32 * 9, 32 * 9);
        assert_eq!((got.answer.refusal, got.answer.edges), (0, 3));
        let bytes = |edge: usize| [1, 6, 7].map(|at| got.edges[32 * edge + at]);
        assert_eq!(bytes(0), [node * 8 + 2, 1, nodes[u]]);
        assert_eq!(bytes(1), [node * 8 + 4, 1, nodes[u]]);
        assert_eq!(bytes(2), [0, 2, nodes[u]]);
    }
    // The highest there are: 0x5a and 0x5c.
    let got = into_tables(&input(&[s(12, 0, 5, 1, 0), stop(), twelve_nodes()]), 32 * 9, 32 * 9);
    assert_eq!([got.edges[1], got.edges[33], got.edges[65]], [0x5a, 0x5c, 0]);
}

#[test]
fn an_unlinked_cell_is_freed() {
    // p0.next := p1.next and free p1: with c1 >= 2 node 1 merges again.
    let held = pointers(&[0, 1]);
    check_listing(
        &[s(12, 0, 1, 1, 0), s(7, 1, 0, 2, 0), stop(), h(held, &[1, NULL])],
        &[
            l(0, held, &[1, NULL]),
            l(1, held, &[NULL, NULL]),
            l(1, pointers(&[0, 2]), &[1, NULL, 1]),
            faulted(0, 3),
            l(2, pointers(&[0, UNDEF]), &[NULL]),
            faulted(1, 3),
        ],
        &[
            both(1, (ONE, 0), (ONE, 1), &[0x1001, 0x1002]),
            both(2, (ONE, 0), (MORE, 1), &[0x1001, 0x0002, 0x2000]),
            third(3, 0),
            from(1, e(0, 4, ONE, 1, &[0x1001])),
            from(1, e(0, 5, MORE, 1, &[])),
            from(2, e(0, 4, ONE, 2, &[0x1003])),
            from(2, e(0, 5, MORE, 2, &[])),
        ],
    );
}

#[test]
fn places_for_three_edges() {
    let unlink = input(&on(h(pointers(&[0, 1]), &[1, NULL])));
    let got = into_tables(&unlink, 32 * 4, 32 * 3);
    assert_eq!((got.answer.refusal, got.answer.locations, got.answer.edges), (0, 4, 3));
    for places in 1..4 {
        check_refused(&into_tables(&unlink, 32 * places, 32 * 3), 11, 0);
    }
    for places in 0..3 {
        check_refused(&into_tables(&unlink, 32 * 4, 32 * places), 12, 0);
    }
    check_refused(&into_tables(&unlink, 32 * 3, 32 * 2), 11, 0);
    check_refused(&into_tables(&unlink, 32 * 3, 32), 12, 0);
}

#[test]
fn the_program_prints_both_guards() {
    let unlink = input(&on(h(pointers(&[0, 1]), &[1, NULL])));
    let zeros = |count| "0".repeat(count);
    let lines = [
        format!("4c0000020001fefefefe01fe{}\n", zeros(40)),
        format!("4c0100020001fefefefefefe{}\n", zeros(40)),
        format!("4c0100030002fefefefe01fe01{}\n", zeros(38)),
        format!("4c0003{}\n", zeros(58)),
        format!("450a00000100010001100210{}\n", zeros(40)),
        format!("450c000002000100011002000020{}\n", zeros(36)),
        format!("4500000003000200{}\n", zeros(48)),
    ];
    check(&["translate"], &unlink, 0, &lines.concat());
}
