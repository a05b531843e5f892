//! Fold, unfold and step on heap images.

mod common;

use common::*;
use reference::{fold, step, unfold, Node, Refusal, Stepped};

/// Pointers 0 and 3 lead over cells 4 and 1 into the ring 2, 0; cell 3 is
/// not in use.
const POINTERS: [u8; 6] = [4, NULL, UNDEF, 1, NULL, 4];
const CELLS: [u8; 5] = [2, 2, 0, UNUSED, 2];

#[test]
fn fold_of_a_heap() {
    let folded = fold(&POINTERS, &CELLS);
    assert_eq!(folded.refusal, None);
    assert_eq!(folded.record, h([0, NULL, UNDEF, 2, NULL, 0], &[1, 1, 1]));
    assert_eq!(folded.counters, [1, 2, 1, 0, 0, 0, 0, 0, 0, 0, 0, 0]);
}

#[test]
fn unfold_of_a_shape() {
    let folded = fold(&POINTERS, &CELLS);
    let (mut pointers, mut cells) = ([9; 6], [9; 7]);
    let answer = unfold(&folded.record, &folded.counters, &mut pointers, &mut cells);
    assert_eq!(answer, Ok(()));
    assert_eq!(pointers, [0, NULL, UNDEF, 3, NULL, 0]);
    assert_eq!(cells, [1, 2, 1, 1, UNUSED, UNUSED, UNUSED]);
}

#[test]
fn refused_folds_are_zero() {
    let cases: [(&[u8], &[u8], u8); 7] = [
        (&[], &[], 13),
        (&[NULL; 5], &[], 13),
        (&[NULL; 7], &[], 13),
        (&NULLS, &[5], 13),
        (&NULLS, &[NULL], 14),
        (&NULLS, &[0], 14),
        (&[UNUSED, NULL, NULL, NULL, NULL, NULL], &[], 13),
    ];
    for (pointers, cells, number) in cases {
        let folded = fold(pointers, cells);
        let due = Some(at_0(number));
        assert_eq!(folded.refusal, due, "{pointers:?} {cells:?}");
        assert_eq!((folded.record, folded.counters), ([0; 32], [0; 12]));
    }
}

/// Wants this refusal at place 0 of an unfolding into a heap of these
/// lengths, which stays as it is.
#[track_caller]
fn check_unfold(record: &[u8], counters: &[u32], lengths: (usize, usize), number: u8) {
    check_unfold_at(record, counters, lengths, at_0(number));
}

#[track_caller]
fn check_unfold_at(record: &[u8], counters: &[u32], lengths: (usize, usize), due: Refusal) {
    let mut pointers = vec![0x33; lengths.0];
    let mut cells = vec![0x44; lengths.1];
    let answer = unfold(record, counters, &mut pointers, &mut cells);
    assert_eq!(answer, Err(due), "{} counters", counters.len());
    assert_eq!(pointers, vec![0x33; lengths.0]);
    assert_eq!(cells, vec![0x44; lengths.1]);
}

#[test]
fn order_of_the_refusals_of_unfold() {
    let none = [0; 12];
    let good = h(pointers(&[0]), &[NULL]);
    let lost = h(NULLS, &[NULL]);
    check_unfold(&[], &none, (5, 240), 13);
    check_unfold(&[], &none, (7, 240), 13);
    check_unfold(&[], &none, (6, 241), 13);
    for length in [0, 1, 31, 33, 64] {
        check_unfold(&vec![0x48; length], &none, (6, 240), 8);
    }
    check_unfold(&[0; 32], &none, (6, 0), 8);
    // A location is no H record.
    let place = l(0, pointers(&[0]), &[NULL]);
    check_unfold(&place, &none, (6, 240), 8);
    check_unfold(&lost, &none, (6, 240), 9);
    check_unfold(&good, &none, (6, 240), 15);
    let mut counters = none;
    counters[0] = 3;
    check_unfold(&good, &counters, (6, 2), 15);
    counters[11] = 1;
    check_unfold(&good, &counters, (6, 240), 15);
    check_unfold(&good, &[u32::MAX; 12], (6, 240), 15);
}

/// Lists of counters that are not twelve, of all 1, of all 0, and of 1 and
/// then 0, which would fit one node.
fn not_twelve() -> Vec<Vec<u32>> {
    let lengths = (0..40).filter(|&length| length != 12).chain([240, 5000]);
    let lists = |length: usize| {
        let mut first = vec![0; length];
        first.iter_mut().take(1).for_each(|counter| *counter = 1);
        [vec![1; length], vec![0; length], first]
    };
    lengths.flat_map(lists).collect()
}

#[test]
fn counters_that_are_not_twelve() {
    let one = h(pointers(&[0]), &[NULL]);
    for counters in not_twelve() {
        check_unfold(&one, &counters, (6, 240), 15);
        check_unfold(&one, &counters, (6, 1), 15);
        check_unfold(&one, &counters, (6, 0), 15);
        check_unfold(&h(NULLS, &[]), &counters, (6, 0), 15);
        check_unfold(&h(pointers(&[0, 1]), &[NULL; 2]), &counters, (6, 240), 15);
    }
    // Twelve of them, wherever they are lent from.
    let many: Vec<u32> = [vec![9], vec![1], vec![0; 50]].concat();
    let (mut to_pointers, mut to_cells) = ([9; 6], [9; 2]);
    let answer = unfold(&one, &many[1..13], &mut to_pointers, &mut to_cells);
    assert_eq!(answer, Ok(()));
    assert_eq!((to_pointers, to_cells), (pointers(&[0]), [NULL, UNUSED]));
    check_unfold(&one, &many[1..12], (6, 2), 15);
    check_unfold(&one, &many[1..14], (6, 2), 15);
}

#[test]
fn counters_that_are_not_twelve_come_after_the_record() {
    let one = h(pointers(&[0]), &[NULL]);
    let lost = h(NULLS, &[NULL]);
    let swapped = h(pointers(&[1, 0]), &[NULL; 2]);
    let not_core = h(pointers(&[0]), &[1, NULL]);
    let place = l(0, pointers(&[0]), &[NULL]);
    for counters in not_twelve() {
        for lengths in [(0, 0), (5, 240), (7, 240), (6, 241), (12, 12)] {
            check_unfold(&one, &counters, lengths, 13);
            check_unfold(&lost, &counters, lengths, 13);
            check_unfold(&place, &counters, lengths, 13);
            check_unfold(&[], &counters, lengths, 13);
        }
        for length in [0, 12, 31, 33] {
            check_unfold(&vec![0x48; length], &counters, (6, 240), 8);
        }
        check_unfold(&place, &counters, (6, 240), 8);
        check_unfold(&[0; 32], &counters, (6, 0), 8);
        for (record, number, node) in [(lost, 9, 0), (not_core, 18, 1), (swapped, 19, 0)] {
            check_unfold_at(&record, &counters, (6, 240), at_node(number, 0, node));
            check_unfold_at(&record, &counters, (6, 0), at_node(number, 0, node));
        }
    }
}

#[test]
fn unfold_without_cells() {
    let (mut pointers, mut cells) = ([1; 6], []);
    let shape = h(common::pointers(&[UNDEF]), &[]);
    let answer = unfold(&shape, &[0; 12], &mut pointers, &mut cells);
    assert_eq!(answer, Ok(()));
    assert_eq!(pointers, [UNDEF, NULL, NULL, NULL, NULL, NULL]);
}

/// Steps on a copy of the heap above.
fn step_on(statement: &[u8], pick: u64, cell: u64) -> (Stepped, [u8; 6], [u8; 5]) {
    let (mut pointers, mut cells) = (POINTERS, CELLS);
    let stepped = step(&mut pointers, &mut cells, statement, pick, cell);
    if !matches!(stepped, Stepped::Moved { .. }) {
        assert_eq!((pointers, cells), (POINTERS, CELLS));
    }
    (stepped, pointers, cells)
}

#[test]
fn steps_that_move() {
    let moved = Stepped::Moved { branch: 0, next: 63 };
    let (stepped, pointers, cells) = step_on(&s(6, 1, 0, 63, 0), 77, 3);
    assert_eq!(stepped, moved);
    assert_eq!(pointers, [4, 3, UNDEF, 1, NULL, 4]);
    assert_eq!(cells, [2, 2, 0, UNDEF, 2]);
    let (stepped, pointers, cells) = step_on(&s(7, 3, 0, 63, 0), 77, 999);
    assert_eq!(stepped, moved);
    assert_eq!(pointers, [4, NULL, UNDEF, UNDEF, NULL, 4]);
    assert_eq!(cells, [2, UNUSED, 0, UNUSED, 2]);
    let (stepped, pointers, cells) = step_on(&s(5, 0, 2, 63, 0), 0, 0);
    assert_eq!(stepped, moved);
    assert_eq!((pointers, cells), (POINTERS, [2, 2, 0, UNUSED, UNDEF]));
    let (stepped, pointers, cells) = step_on(&s(3, 1, 0, 63, 0), 0, 0);
    assert_eq!(stepped, moved);
    assert_eq!((pointers, cells), ([4, 2, UNDEF, 1, NULL, 4], CELLS));
    // Only cell 1 is lost with pointer 3; pointers 0 and 5 keep all else.
    for (u, pointers) in [(3, [4, NULL, UNDEF, NULL, NULL, 4]), (2, [4, NULL, NULL, 1, NULL, 4]), (1, POINTERS)] {
        let cells = if u == 3 { [2, UNUSED, 0, UNUSED, 2] } else { CELLS };
        assert_eq!(step_on(&s(13, u, 0, 63, 0), 77, 999), (moved, pointers, cells));
    }
    assert_eq!(step_on(&s(13, 5, 0, 63, 0), 0, 0), (moved, [4, NULL, UNDEF, 1, NULL, NULL], CELLS));
    let second = Stepped::Moved { branch: 1, next: 5 };
    assert_eq!(step_on(&s(10, 0, 0, 63, 5), 1, 0).0, second);
    assert_eq!(step_on(&s(8, 1, 0, 63, 5), 0, 0).0, moved);
    assert_eq!(step_on(&s(8, 3, 0, 63, 5), 0, 0).0, second);
    assert_eq!(step_on(&s(9, 0, 5, 63, 5), 0, 0).0, moved);
    assert_eq!(step_on(&s(9, 0, 3, 63, 5), 0, 0).0, second);
}

#[test]
fn steps_that_stay() {
    assert_eq!(step_on(&stop(), 9, 9).0, Stepped::Stop);
    assert_eq!(step_on(&s(3, 0, 1, 0, 0), 0, 0).0, Stepped::Fault(1));
    assert_eq!(step_on(&s(4, 2, 0, 0, 0), 0, 0).0, Stepped::Fault(2));
    assert_eq!(step_on(&s(7, 2, 0, 0, 0), 0, 0).0, Stepped::Fault(2));
    assert_eq!(step_on(&s(8, 2, 0, 63, 5), 0, 0).0, Stepped::Fault(2));
    assert_eq!(step_on(&s(9, 2, 2, 63, 5), 0, 0).0, Stepped::Fault(2));
    assert_eq!(step_on(&s(9, 2, 3, 63, 5), 0, 0).0, Stepped::Fault(2));
    assert_eq!(step_on(&s(9, 1, 2, 63, 5), 0, 0).0, Stepped::Fault(2));
    // In a relink w is looked at first, then u.
    assert_eq!(step_on(&s(12, 0, 1, 63, 0), 0, 0).0, Stepped::Fault(1));
    assert_eq!(step_on(&s(12, 0, 2, 63, 0), 0, 0).0, Stepped::Fault(2));
    assert_eq!(step_on(&s(12, 1, 0, 63, 0), 0, 0).0, Stepped::Fault(1));
    assert_eq!(step_on(&s(12, 2, 0, 63, 0), 0, 0).0, Stepped::Fault(2));
    assert_eq!(step_on(&s(12, 2, 1, 63, 0), 0, 0).0, Stepped::Fault(1));
    assert_eq!(step_on(&s(12, 1, 2, 63, 0), 0, 0).0, Stepped::Fault(2));
    assert_eq!(step_on(&s(1, 3, 0, 0, 0), 0, 0).0, Stepped::Fault(3));
    assert_eq!(step_on(&s(6, 3, 0, 0, 0), 0, 3).0, Stepped::Fault(3));
}

#[test]
fn refusals_of_a_step() {
    let refused = |statement: &[u8], pick, cell| match step_on(statement, pick, cell).0 {
        Stepped::Refused(Refusal { number, place: 0, node: Node(0) }) => number,
        other => panic!("{other:?} is no refusal at place 0"),
    };
    assert_eq!(refused(&[], 0, 0), 4);
    assert_eq!(refused(&[0x53; 31], 0, 0), 4);
    assert_eq!(refused(&[0x53; 33], 0, 0), 4);
    assert_eq!(refused(&h(NULLS, &[]), 0, 0), 4);
    for op in 14..=255 {
        assert_eq!(refused(&s(op, 9, 9, 99, 99), 9, 9), 5);
    }
    assert_eq!(refused(&s(13, 6, 0, 99, 0), 9, 9), 6);
    assert_eq!(refused(&s(13, 0, 1, 99, 0), 9, 9), 6);
    assert_eq!(refused(&s(13, 0, 0, 99, 1), 9, 9), 6);
    assert_eq!(refused(&s(13, 0, 0, 64, 0), 9, 9), 7);
    assert_eq!(refused(&s(12, 0, 6, 99, 0), 9, 9), 6);
    assert_eq!(refused(&s(12, 6, 0, 99, 0), 9, 9), 6);
    assert_eq!(refused(&s(12, 0, 0, 99, 1), 9, 9), 6);
    assert_eq!(refused(&s(12, 0, 0, 64, 0), 9, 9), 7);
    assert_eq!(refused(&s(6, 6, 0, 99, 0), 9, 9), 6);
    assert_eq!(refused(&s(6, 0, 1, 99, 0), 9, 9), 6);
    assert_eq!(refused(&s(6, 0, 0, 64, 0), 9, 9), 7);
    assert_eq!(refused(&s(10, 0, 0, 0, 64), 9, 9), 7);
    assert_eq!(refused(&s(10, 0, 0, 63, 63), 2, 0), 16);
    assert_eq!(refused(&s(10, 0, 0, 63, 63), u64::MAX, 0), 16);
    // In use, just past the end, and far past it; before the leak.
    assert_eq!(refused(&s(6, 3, 0, 0, 0), 0, 2), 16);
    assert_eq!(refused(&s(6, 3, 0, 0, 0), 0, 5), 16);
    assert_eq!(refused(&s(6, 3, 0, 0, 0), 0, u64::MAX), 16);
}

#[test]
fn the_image_of_a_step_is_looked_at_first() {
    let refused = |pointers: &[u8], cells: &[u8]| {
        let (mut to_pointers, mut to_cells) = (pointers.to_vec(), cells.to_vec());
        let stepped = step(&mut to_pointers, &mut to_cells, &[], 9, 9);
        assert_eq!((&to_pointers[..], &to_cells[..]), (pointers, cells));
        stepped
    };
    assert_eq!(refused(&[], &[]), Stepped::Refused(at_0(13)));
    let long = refused(&NULLS, &[UNUSED; 241]);
    assert_eq!(long, Stepped::Refused(at_0(13)));
    assert_eq!(refused(&NULLS, &[NULL]), Stepped::Refused(at_0(14)));
    assert_eq!(refused(&NULLS, &[]), Stepped::Refused(at_0(4)));
}

#[test]
fn places_are_0_wherever_the_error_lies() {
    // The last pointer, the last cell, a cell that is lost far behind.
    let last = fold(&[NULL, NULL, NULL, NULL, NULL, 3], &[UNUSED; 3]);
    assert_eq!(last.refusal, Some(at_0(13)));
    let mut cells = [UNUSED; 240];
    cells[239] = 238;
    assert_eq!(fold(&NULLS, &cells).refusal, Some(at_0(13)));
    cells[239] = NULL;
    assert_eq!(fold(&NULLS, &cells).refusal, Some(at_0(14)));
    // The last byte, the last node, the last counter.
    let nodes = pointers(&[0, 1, 2]);
    let mut counters = [0; 12];
    counters[..3].fill(1);
    let mut record = h(nodes, &[NULL; 3]);
    record[31] = 1;
    check_unfold(&record, &counters, (6, 240), 8);
    check_unfold_at(&h(nodes, &[NULL; 4]), &counters, (6, 240), at_node(9, 0, 3));
    counters[11] = 1;
    check_unfold(&h(nodes, &[NULL; 3]), &counters, (6, 240), 15);
    // The last byte, and the target of the second branch.
    let mut statement = s(10, 0, 0, 63, 63);
    statement[31] = 1;
    let refused = |number| Stepped::Refused(at_0(number));
    assert_eq!(step_on(&statement, 0, 0).0, refused(6));
    assert_eq!(step_on(&s(10, 0, 0, 63, 255), 0, 0).0, refused(7));
    assert_eq!(step_on(&s(6, 1, 0, 63, 0), 0, 4).0, refused(16));
}
