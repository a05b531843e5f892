//! The edges of `drop u`, op 13, in all their bytes, and what it does step by
//! step.

mod common;

use common::program::check;
use common::*;
use reference::{fold, step, Stepped};

/// Drops pointer 0 and stops.
fn on(shape: Record) -> [Record; 3] {
    [s(13, 0, 0, 1, 0), stop(), shape]
}

/// Wants the one edge of a drop of pointer 0: from these pointers and
/// successors to those, with these updates.
#[track_caller]
fn check_drop(before: (&[u8], &[u8]), after: (&[u8], &[u8]), updates: &[u16]) {
    let (held, left) = (pointers(before.0), pointers(after.0));
    check_listing(&on(h(held, before.1)), &[l(0, held, before.1), l(1, left, after.1)], &[e(0, 1, 0, 0, updates)]);
}

#[test]
fn null_and_undefined() {
    check_drop((&[NULL], &[]), (&[NULL], &[]), &[]);
    check_drop((&[UNDEF], &[]), (&[NULL], &[]), &[]);
    // Whatever the others hold: their counters are carried.
    for held in [NULL, UNDEF] {
        check_drop((&[held, 0, UNDEF], &[UNDEF]), (&[NULL, 0, UNDEF], &[UNDEF]), &[0x1001]);
        check_drop((&[held, 0], &[1, 1]), (&[NULL, 0], &[1, 1]), &[0x1001, 0x1002]);
    }
}

#[test]
fn nothing_else_leads_there() {
    for end in [NULL, UNDEF, 0] {
        check_drop((&[0], &[end]), (&[NULL], &[]), &[]);
        check_drop((&[0, 1, UNDEF], &[end, NULL]), (&[NULL, 0, UNDEF], &[NULL]), &[0x1002]);
    }
    // A ring with a stem: two nodes at once.
    check_drop((&[0], &[1, 1]), (&[NULL], &[]), &[]);
    check_drop((&[0, 2], &[1, 1, 2]), (&[NULL, 0], &[0]), &[0x1004]);
}

#[test]
fn another_pointer_at_the_node() {
    for end in [NULL, UNDEF, 0] {
        check_drop((&[0, 0], &[end]), (&[NULL, 0], &[end]), &[0x1001]);
    }
    check_drop((&[0, 0], &[1, 1]), (&[NULL, 0], &[1, 1]), &[0x1001, 0x1002]);
}

#[test]
fn another_pointer_reaches_the_node() {
    // Node 1 leads to node 0, which merges into it: only u was there.
    check_drop((&[0, 1], &[NULL, 0]), (&[NULL, 0], &[NULL]), &[0x1003]);
    check_drop((&[0, 1, 1], &[UNDEF, 0]), (&[NULL, 0, 0], &[UNDEF]), &[0x1003]);
    // On a ring with the node before it, and with one that is between them.
    check_drop((&[0, 1], &[1, 0]), (&[NULL, 0], &[0]), &[0x1003]);
    check_drop((&[0, 1, 2], &[1, 2, 0]), (&[NULL, 0, 1], &[1, 0]), &[0x1002, 0x1005]);
    // The node leads into its own ring: it is held by the two ends.
    check_drop((&[0, 1], &[0, 0]), (&[NULL, 0], &[1, 1]), &[0x1002, 0x1001]);
    // Two nodes lead to it.
    check_drop((&[0, 1, 2], &[NULL, 0, 0]), (&[NULL, 0, 2], &[1, NULL, 1]), &[0x1002, 0x1001, 0x1004]);
}

#[test]
fn a_shared_tail_stays() {
    // Node 1 was core by two cells, one of which is gone: as in P6 it merges.
    check_drop((&[0, 2], &[1, NULL, 1]), (&[NULL, 0], &[NULL]), &[0x1006]);
    check_drop((&[0, 2], &[1, UNDEF, 1]), (&[NULL, 0], &[UNDEF]), &[0x1006]);
    // Three cells led to it, and two are left.
    check_drop((&[0, 2, 3], &[1, NULL, 1, 1]), (&[NULL, 0, 2], &[1, NULL, 1]), &[0x1004, 0x1002, 0x1008]);
    // A pointer is at it, so that it does not merge.
    check_drop((&[0, 1], &[1, NULL]), (&[NULL, 0], &[NULL]), &[0x1002]);
    check_drop((&[0, 2, 1], &[1, NULL, 1]), (&[NULL, 0, 1], &[1, NULL]), &[0x1004, 0x1002]);
    check_drop((&[0, 1, 2], &[1, NULL, 1]), (&[NULL, 0, 1], &[NULL, 0]), &[0x1002, 0x1004]);
}

#[test]
fn a_ring_stays_without_its_stem() {
    // Node 1 was core by the stem's cell, its own last cell and a pointer, or
    // by two stems.
    check_drop((&[0, 1], &[1, 1]), (&[NULL, 0], &[0]), &[0x1002]);
    check_drop((&[0, 2], &[1, 1, 1]), (&[NULL, 0], &[1, 1]), &[0x1004, 0x1002]);
    // Two stems meet the ring in two places: node 1 merges into node 2.
    check_drop((&[0, 3], &[1, 2, 1, 2]), (&[NULL, 0], &[1, 1]), &[0x1008, 0x1006]);
    check_drop((&[0, 2], &[1, 2, 1]), (&[NULL, 0], &[0]), &[0x1006]);
}

#[test]
fn numbers_change_with_the_first_visit() {
    // Without pointer 0 the walk begins at node 2.
    check_drop((&[0, 2, 1], &[1, NULL, NULL]), (&[NULL, 0, 1], &[NULL, NULL]), &[0x1004, 0x1002]);
    let held = [0, 3, 2, 1];
    check_drop((&held, &[1, 2, NULL, UNDEF]), (&[NULL, 0, 1, 2], &[UNDEF, NULL, 1]), &[0x1008, 0x1004, 0x1002]);
}

#[test]
fn twelve_nodes() {
    // Six lists that meet in pairs, in a ring of six. With node 0 node 1 is no
    // longer core and merges into node 6, which leads to it.
    let held = [0, 7, 8, 9, 10, 11];
    let successors = [1, 2, 3, 4, 5, 6, 1, 2, 3, 4, 5, 6];
    let shape = h(held, &successors);
    let left = [NULL, 0, 6, 7, 8, 9];
    let updates = [0x1080, 0x1004, 0x1008, 0x1010, 0x1020, 0x1042, 0x1100, 0x1200, 0x1400, 0x1800];
    check_listing(
        &on(shape),
        &[l(0, held, &successors), l(1, left, &[1, 2, 3, 4, 5, 1, 2, 3, 4, 5])],
        &[e(0, 1, 0, 0, &updates)],
    );
    // All six one after the other: the last takes the ring with it.
    let mut records: Vec<Record> = (0..6).map(|u| s(13, u, 0, u + 1, 0)).collect();
    records.extend([stop(), shape]);
    let got = into_tables(&input(&records), 32 * 9, 32 * 9);
    assert_eq!((got.answer.refusal, got.answer.locations, got.answer.edges), (0, 7, 6));
    assert_eq!(got.locations[32 * 5..][..32], l(5, [NULL, NULL, NULL, NULL, NULL, 0], &[1, 1]));
    assert_eq!(got.locations[32 * 6..][..32], l(6, NULLS, &[]));
    assert_eq!(got.edges[32 * 5..][..32], from(5, e(0, 6, 0, 0, &[])));
}

#[test]
fn every_pointer_may_be_dropped() {
    for u in 0..6usize {
        // u is at a list and the others are on a ring, whose number is 0 unless
        // pointer 0 is at the list.
        let ring = usize::from(u == 0);
        let mut held = [ring as u8; 6];
        held[u] = 1 - ring as u8;
        let mut successors = [NULL; 2];
        successors[ring] = ring as u8;
        let mut left = [0; 6];
        left[u] = NULL;
        check_listing(
            &[s(13, u as u8, 0, 1, 0), stop(), h(held, &successors)],
            &[l(0, held, &successors), l(1, left, &[0])],
            &[e(0, 1, 0, 0, &[0x1000 | 1 << ring])],
        );
    }
}

#[test]
fn other_statements_still_stop_at_a_leak() {
    // What a drop lets go is a leak for u := null, u := w, u := w.next and new.
    let held = pointers(&[0, 1]);
    for statement in [s(1, 0, 0, 1, 0), s(2, 0, 1, 1, 0), s(6, 0, 0, 1, 0)] {
        check_listing(
            &[statement, stop(), h(held, &[NULL, NULL])],
            &[l(0, held, &[NULL, NULL]), faulted(0, 3)],
            &[e(0, 1, 0, 0, &[])],
        );
    }
    // A drop of pointer 1, and then the leak of pointer 0.
    check_listing(
        &[s(13, 1, 0, 1, 0), s(1, 0, 0, 2, 0), stop(), h(held, &[NULL, NULL])],
        &[l(0, held, &[NULL, NULL]), l(1, pointers(&[0]), &[NULL]), faulted(1, 3)],
        &[e(0, 1, 0, 0, &[0x1001]), from(1, e(0, 2, 0, 0, &[]))],
    );
}

/// Drops pointer 0 on these cells.
fn dropped(held: &[u8], cells: &[u8]) -> (Vec<u8>, Vec<u8>) {
    let (mut held, mut cells) = (pointers(held), cells.to_vec());
    let stepped = step(&mut held, &mut cells, &s(13, 0, 0, 63, 0), u64::MAX, u64::MAX);
    assert_eq!(stepped, Stepped::Moved { branch: 0, next: 63 });
    (held.to_vec(), cells)
}

#[test]
fn cells_that_go_are_not_in_use() {
    let null = pointers(&[]).to_vec();
    assert_eq!(dropped(&[2], &[NULL, UNUSED, 0]), (null.clone(), vec![UNUSED; 3]));
    assert_eq!(dropped(&[0], &[1, 2, 0]), (null.clone(), vec![UNUSED; 3]));
    assert_eq!(dropped(&[0], &[1, 2, 1]), (null, vec![UNUSED; 3]));
    // Pointer 1 keeps cell 1 and what follows; nothing becomes undefined.
    assert_eq!(dropped(&[0, 1], &[1, 2, UNDEF]), (pointers(&[NULL, 1]).to_vec(), vec![UNUSED, 2, UNDEF]));
    assert_eq!(dropped(&[0, 3], &[1, 2, NULL, 1]), (pointers(&[NULL, 3]).to_vec(), vec![UNUSED, 2, NULL, 1]));
}

#[test]
fn a_cell_that_was_lost_before_is_not_collected() {
    for (held, cells) in [(pointers(&[0]), [NULL, NULL]), (pointers(&[0]), [NULL, 1]), (NULLS, [1, 0])] {
        let (mut to_held, mut to_cells) = (held, cells);
        let stepped = step(&mut to_held, &mut to_cells, &s(13, 0, 0, 63, 0), 0, 0);
        assert_eq!((stepped, to_held, to_cells), (Stepped::Refused(at_0(14)), held, cells));
    }
}

#[test]
fn all_240_cells() {
    let mut chain: Vec<u8> = (1..=240).collect();
    chain[239] = NULL;
    assert_eq!(dropped(&[0], &chain), (NULLS.to_vec(), vec![UNUSED; 240]));
    // Pointer 1 in the middle keeps the half behind it.
    let (held, cells) = dropped(&[0, 120], &chain);
    assert_eq!(held, pointers(&[NULL, 120]));
    assert!(cells[..120] == [UNUSED; 120] && cells[120..] == chain[120..]);
    assert_eq!(fold(&held, &cells).counters[0], 120);
    // The whole as a ring.
    chain[239] = 0;
    assert_eq!(dropped(&[7], &chain).1, vec![UNUSED; 240]);
    assert_eq!(dropped(&[7, 3], &chain).1, chain);
}

#[test]
fn the_program_prints_a_drop() {
    let zeros = |count| "0".repeat(count);
    let lines = [
        format!("4c0000030002fefefefe01fe01{}\n", zeros(38)),
        format!("4c010001fe00fefefefefe{}\n", zeros(42)),
        format!("45000000010000000610{}\n", zeros(44)),
    ];
    check(&["translate"], &input(&on(h(pointers(&[0, 2]), &[1, NULL, 1]))), 0, &lines.concat());
    check(&["translate"], &input(&[s(14, 0, 0, 1, 0), stop(), h(NULLS, &[])]), 1, "refused 5 0\n");
    check(&["translate"], &input(&[s(13, 0, 1, 1, 0), stop(), h(NULLS, &[])]), 1, "refused 6 0\n");
}
