//! Every refusal of the translator with its place, and their order.

mod common;

use common::*;

fn skip() -> Record {
    s(11, 0, 0, 0, 0)
}

fn shape() -> Record {
    h(pointers(&[0, 1]), &[NULL, NULL])
}

fn with_byte(mut record: Record, at: usize, byte: u8) -> Record {
    record[at] = byte;
    record
}

#[test]
fn length_1() {
    check_refusal(&[], 1, 0);
    let whole = input(&[skip(), shape()]);
    for length in 1..whole.len() {
        if length % 32 != 0 {
            check_refusal(&whole[..length], 1, 0);
        }
    }
    // Whatever the bytes are.
    check_refusal(&[0x4c; 33], 1, 0);
}

#[test]
fn kind_4() {
    for byte in (0..=255).filter(|&byte| byte != 0x53 && byte != 0x48) {
        check_refusal(&input(&[with_byte(skip(), 0, byte), shape()]), 4, 0);
        check_refusal(&input(&[skip(), with_byte(shape(), 0, byte)]), 4, 1);
    }
    check_refusal(&input(&[skip(), shape(), skip()]), 4, 2);
    check_refusal(&input(&[shape(), skip()]), 4, 1);
    // The first of several, and before everything that single records break.
    check_refusal(&input(&[s(99, 9, 9, 9, 9), [0; 32], [0; 32]]), 4, 1);
}

#[test]
fn kind_4_comes_before_the_counts() {
    let mut many = vec![skip(); 65];
    check_refusal(&input(&many), 2, 0);
    many.push([0; 32]);
    check_refusal(&input(&many), 4, 65);
    let mut many = vec![skip()];
    many.extend(vec![shape(); 17]);
    check_refusal(&input(&many), 3, 0);
    many.push(skip());
    check_refusal(&input(&many), 4, 18);
}

#[test]
fn the_count_2_comes_before_3() {
    check_refusal(&input(&vec![skip(); 65]), 2, 0);
    check_refusal(&input(&vec![shape(); 17]), 2, 0);
    check_refusal(&input(&[skip()]), 3, 0);
    // Counts come before single records.
    check_refusal(&input(&[s(14, 0, 0, 0, 0)]), 3, 0);
}

#[test]
fn statements_5_6_7() {
    let at_1 = |record: Record| input(&[skip(), record, shape()]);
    for op in 14..=255 {
        check_refusal(&at_1(s(op, 0, 0, 0, 0)), 5, 1);
    }
    check_refusal(&at_1(s(1, 6, 0, 0, 0)), 6, 1);
    check_refusal(&at_1(s(2, 5, 6, 0, 0)), 6, 1);
    check_refusal(&at_1(s(0, 0, 0, 1, 0)), 6, 1);
    check_refusal(&at_1(s(11, 0, 0, 0, 1)), 6, 1);
    check_refusal(&at_1(s(12, 6, 0, 0, 0)), 6, 1);
    check_refusal(&at_1(s(12, 0, 6, 0, 0)), 6, 1);
    check_refusal(&at_1(s(12, 0, 0, 0, 1)), 6, 1);
    check_refusal(&at_1(s(13, 6, 0, 0, 0)), 6, 1);
    check_refusal(&at_1(s(13, 0, 1, 0, 0)), 6, 1);
    check_refusal(&at_1(s(13, 0, 0, 0, 1)), 6, 1);
    for at in 6..32 {
        check_refusal(&at_1(with_byte(skip(), at, 1)), 6, 1);
        check_refusal(&at_1(with_byte(s(13, 5, 0, 1, 0), at, 1)), 6, 1);
    }
    check_refusal(&at_1(s(11, 0, 0, 2, 0)), 7, 1);
    check_refusal(&at_1(s(12, 5, 5, 2, 0)), 7, 1);
    check_refusal(&at_1(s(13, 5, 0, 2, 0)), 7, 1);
    check_refusal(&at_1(s(10, 0, 0, 0, 2)), 7, 1);
    check_refusal(&at_1(s(10, 0, 0, 0, 255)), 7, 1);
}

#[test]
fn lowest_number_first_within_a_record() {
    let at_1 = |record: Record| input(&[skip(), record, shape()]);
    check_refusal(&at_1(s(14, 9, 9, 9, 9)), 5, 1);
    check_refusal(&at_1(s(13, 9, 9, 9, 9)), 6, 1);
    check_refusal(&at_1(s(13, 0, 1, 9, 0)), 6, 1);
    check_refusal(&at_1(s(13, 0, 0, 9, 1)), 6, 1);
    check_refusal(&at_1(s(2, 9, 0, 9, 0)), 6, 1);
    check_refusal(&at_1(with_byte(s(11, 0, 0, 9, 0), 31, 1)), 6, 1);
    // A shape that breaks the layout and would not be one either.
    let broken = with_byte(h(pointers(&[1, 0]), &[NULL, NULL]), 31, 1);
    check_refusal(&input(&[skip(), broken]), 8, 1);
}

#[test]
fn input_order_across_records() {
    let bad_target = s(11, 0, 0, 9, 0);
    let bad_op = s(14, 0, 0, 0, 0);
    check_refusal(&input(&[bad_target, bad_op, shape()]), 7, 0);
    check_refusal(&input(&[bad_op, bad_target, shape()]), 5, 0);
    let broken = with_byte(shape(), 1, 1);
    let unheld = h(pointers(&[0]), &[NULL, NULL]);
    check_refusal(&input(&[skip(), bad_op, broken]), 5, 1);
    check_due(&input(&[skip(), unheld, broken]), at_node(9, 1, 1));
    check_refusal(&input(&[skip(), broken, unheld]), 8, 1);
    check_refusal(&input(&[skip(), shape(), shape(), broken]), 10, 2);
    check_refusal(&input(&[skip(), shape(), broken, shape()]), 8, 2);
}

#[test]
fn shapes_8() {
    let changes: [(usize, u8); 12] =
        [(1, 1), (2, 3), (3, 13), (3, 255), (4, 2), (9, UNUSED), (10, 2), (11, 0xf0), (12, NULL), (21, 1), (22, 1), (31, 255)];
    for (at, byte) in changes {
        check_refusal(&input(&[skip(), with_byte(shape(), at, byte)]), 8, 1);
    }
    // With fewer nodes counted, the second pointer and successor are too many.
    check_refusal(&input(&[skip(), with_byte(shape(), 3, 1)]), 8, 1);
}

#[test]
fn shapes_9_18_19() {
    let refused = [
        // Unreachable, alone or in a ring.
        (h(NULLS, &[NULL]), 9, 0),
        (h(NULLS, &[0]), 9, 0),
        (h(pointers(&[0]), &[NULL, 1]), 9, 1),
        (h(pointers(&[0]), &[NULL, 0]), 9, 1),
        (h(pointers(&[0]), &[NULL, 2, 1]), 9, 1),
        (h(pointers(&[1]), &[NULL, NULL]), 9, 0),
        // Not core: one holder, before it or behind it.
        (h(pointers(&[0]), &[1, NULL]), 18, 1),
        (h(pointers(&[0]), &[1, 0]), 18, 1),
        (h(pointers(&[0]), &[1, 2, 1]), 18, 2),
        (h(pointers(&[1]), &[NULL, 0]), 18, 0),
        // Another numbering.
        (h(pointers(&[1, 0]), &[NULL, NULL]), 19, 0),
        (h(pointers(&[0, 1]), &[2, 2, NULL]), 19, 1),
        (h(pointers(&[1]), &[0, 0]), 19, 0),
    ];
    for (record, number, node) in refused {
        check_due(&input(&[skip(), shape(), record]), at_node(number, 2, node));
    }
    let passed =
        [h(pointers(&[0, 2]), &[1, NULL, 1]), h(pointers(&[0]), &[1, 1]), h(pointers(&[NULL, 0]), &[UNDEF]), h([0; 6], &[0])];
    for record in passed {
        let got = into_tables(&input(&[stop(), record]), 32, 0);
        assert_eq!((got.answer.refusal, got.answer.locations), (0, 1));
    }
}

#[test]
fn an_unreachable_node_then_one_not_core_then_the_numbering() {
    // Pointers 0 and 1 change places, so that 0 and 1 are numbered otherwise;
    // node 2 stands after node 1 alone; nothing leads to node 3.
    let swapped = pointers(&[1, 0]);
    let told = |record: Record, number, node| check_due(&input(&[skip(), record]), at_node(number, 1, node));
    told(h(swapped, &[NULL, 2, NULL, NULL]), 9, 3);
    told(h(swapped, &[NULL, 2, NULL]), 18, 2);
    told(h(swapped, &[NULL, NULL]), 19, 0);
    // Node 3 leads to node 2 as well, which is core once node 3 is reachable.
    told(h(swapped, &[NULL, 2, NULL, 2]), 9, 3);
    told(h(pointers(&[1, 0, 3]), &[NULL, 2, NULL, 2]), 19, 0);
    // 8 comes before all three.
    for record in [h(swapped, &[NULL, 2, NULL, NULL]), h(swapped, &[NULL, 2, NULL]), h(swapped, &[NULL, NULL])] {
        check_refusal(&input(&[skip(), with_byte(record, 31, 1)]), 8, 1);
    }
}

#[test]
fn shapes_9_18_19_beside_10() {
    let lost = (h(pointers(&[0]), &[NULL, NULL]), 9, 1);
    let not_core = (h(pointers(&[0]), &[1, NULL]), 18, 1);
    let swapped = (h(pointers(&[1, 0]), &[NULL, NULL]), 19, 0);
    for (record, number, node) in [lost, not_core, swapped] {
        let due = at_node(number, 1, node);
        // An equal record was refused before it could be repeated.
        check_due(&input(&[skip(), record, record]), due);
        check_due(&input(&[skip(), record, shape(), shape()]), due);
        check_refusal(&input(&[skip(), shape(), shape(), record]), 10, 2);
        check_due(&input(&[skip(), shape(), record, shape()]), at_node(number, 2, node));
    }
}

#[test]
fn shapes_10() {
    let other = h(NULLS, &[]);
    check_refusal(&input(&[skip(), shape(), shape()]), 10, 2);
    check_refusal(&input(&[skip(), shape(), other, shape()]), 10, 3);
    check_refusal(&input(&[skip(), other, shape(), shape(), other]), 10, 3);
}

#[test]
fn records_are_all_checked_before_places() {
    let last_is_broken = input(&[skip(), shape(), with_byte(shape(), 1, 1)]);
    let got = into_tables(&last_is_broken, 0, 0);
    check_refused(&got, 8, 2);
    let got = into_tables(&input(&[skip(), shape()]), 0, 0);
    check_refused(&got, 11, 0);
}
