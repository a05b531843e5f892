//! The shelf cases P1 to P11, in all their bytes.

mod common;

use common::*;

/// The same statement followed by a stop, on one starting shape.
fn one(statement: Record, shape: Record) -> [Record; 3] {
    [statement, stop(), shape]
}

fn p1() -> [Record; 3] {
    one(s(7, 0, 0, 1, 0), h(pointers(&[0]), &[NULL]))
}

#[test]
fn p1_free_of_a_list() {
    let got = into_tables(&input(&p1()), 32 * 1024, 32 * 2048);
    let lines: Vec<String> = got.locations[..96].chunks(32).chain(got.edges[..64].chunks(32)).map(hex).collect();
    let zeros = |count| "0".repeat(count);
    assert_eq!(lines[0], format!("4c00000100fefefefefefe{}", zeros(42)));
    assert_eq!(lines[1], format!("4c010000fffefefefefe{}", zeros(44)));
    assert_eq!(lines[2], format!("4c000300{}", zeros(56)));
    assert_eq!(lines[3], format!("4500000001000100{}", zeros(48)));
    assert_eq!(lines[4], format!("4500000002000200{}", zeros(48)));
    check_listing(
        &p1(),
        &[l(0, pointers(&[0]), &[NULL]), l(1, pointers(&[UNDEF]), &[]), faulted(0, 3)],
        &[e(0, 1, 1, 0, &[]), e(0, 2, 2, 0, &[])],
    );
}

#[test]
fn p2_step_along_a_list_held_twice() {
    check_listing(
        &one(s(3, 0, 0, 1, 0), h(pointers(&[0, 0]), &[NULL])),
        &[l(0, pointers(&[0, 0]), &[NULL]), l(1, pointers(&[NULL, 0]), &[NULL]), l(1, pointers(&[0, 1]), &[NULL, 0])],
        &[e(0, 1, 1, 0, &[0x1001]), e(0, 2, 2, 0, &[0x0001, 0x2000])],
    );
}

#[test]
fn p3_step_along_a_ring() {
    let ring = pointers(&[0]);
    check_listing(
        &one(s(3, 0, 0, 1, 0), h(ring, &[0])),
        &[l(0, ring, &[0]), l(1, ring, &[0])],
        &[e(0, 1, 1, 0, &[0x1001]), e(0, 1, 2, 0, &[0x1001])],
    );
    // The same, coming back to its own location.
    check_listing(&[s(3, 0, 0, 0, 0), h(ring, &[0])], &[l(0, ring, &[0])], &[e(0, 0, 1, 0, &[0x1001]), e(0, 0, 2, 0, &[0x1001])]);
}

#[test]
fn p4_step_along_a_list_held_once() {
    check_listing(
        &one(s(3, 0, 0, 1, 0), h(pointers(&[0]), &[NULL])),
        &[l(0, pointers(&[0]), &[NULL]), faulted(0, 3)],
        &[e(0, 1, 1, 0, &[]), e(0, 1, 2, 0, &[])],
    );
}

#[test]
fn p5_cut_before_a_ring() {
    check_listing(
        &one(s(4, 0, 0, 1, 0), h(pointers(&[0]), &[1, 1])),
        &[l(0, pointers(&[0]), &[1, 1]), faulted(0, 3)],
        &[e(0, 1, 1, 0, &[]), e(0, 1, 2, 0, &[])],
    );
}

#[test]
fn p6_cut_before_a_shared_tail() {
    let shape = [0, 2, NULL, NULL, NULL, NULL];
    check_listing(
        &one(s(4, 0, 0, 1, 0), h(shape, &[1, NULL, 1])),
        &[l(0, shape, &[1, NULL, 1]), l(1, pointers(&[0, 1]), &[NULL, NULL]), faulted(0, 3)],
        &[e(0, 1, 1, 0, &[0x1001, 0x1006]), e(0, 2, 2, 0, &[])],
    );
}

#[test]
fn p7_new() {
    check_listing(
        &one(s(6, 0, 0, 1, 0), h(NULLS, &[])),
        &[l(0, NULLS, &[]), l(1, pointers(&[0]), &[UNDEF])],
        &[e(0, 1, 0, 0, &[0x2000])],
    );
}

#[test]
fn p8_two_segments_become_one() {
    check_listing(
        &one(s(1, 1, 0, 1, 0), h(pointers(&[0, 1]), &[1, NULL])),
        &[l(0, pointers(&[0, 1]), &[1, NULL]), l(1, pointers(&[0]), &[NULL])],
        &[e(0, 1, 0, 0, &[0x1003])],
    );
}

#[test]
fn p9_free_of_null() {
    check_listing(&one(s(7, 0, 0, 1, 0), h(NULLS, &[])), &[l(0, NULLS, &[]), l(1, NULLS, &[])], &[e(0, 1, 0, 0, &[])]);
}

#[test]
fn p10_write_through_undefined() {
    check_listing(
        &one(s(4, 0, 0, 1, 0), h(pointers(&[UNDEF]), &[])),
        &[l(0, pointers(&[UNDEF]), &[]), faulted(0, 2)],
        &[e(0, 1, 0, 0, &[])],
    );
}

#[test]
fn p11_a_test_of_two_undefined_pointers() {
    // "Case P11 becomes a fault."
    let both = pointers(&[UNDEF, UNDEF]);
    check_listing(&[s(9, 0, 1, 1, 2), stop(), stop(), h(both, &[])], &[l(0, both, &[]), faulted(0, 2)], &[e(0, 1, 0, 0, &[])]);
}

#[test]
fn choose_has_both_branches_in_order() {
    check_listing(
        &[s(10, 0, 0, 2, 1), stop(), stop(), h(NULLS, &[])],
        &[l(0, NULLS, &[]), l(2, NULLS, &[]), l(1, NULLS, &[])],
        &[e(0, 1, 0, 0, &[]), e(1, 2, 0, 0, &[])],
    );
}

#[test]
fn a_test_has_the_one_branch_that_its_shape_decides() {
    let list = pointers(&[0]);
    check_listing(
        &[s(8, 0, 0, 1, 2), stop(), stop(), h(list, &[UNDEF])],
        &[l(0, list, &[UNDEF]), l(2, list, &[UNDEF])],
        &[e(1, 1, 0, 0, &[0x1001])],
    );
    check_listing(
        &[s(8, 1, 0, 1, 2), stop(), stop(), h(list, &[0])],
        &[l(0, list, &[0]), l(1, list, &[0])],
        &[e(0, 1, 0, 0, &[0x1001])],
    );
}

#[test]
fn the_guarded_counter_is_carried_when_it_merges() {
    // p1.next := p0: under = 1 the cell of node 1 stays a node of its own.
    let apart = pointers(&[0, 1]);
    check_listing(
        &one(s(5, 1, 0, 1, 0), h(apart, &[NULL, NULL])),
        &[l(0, apart, &[NULL, NULL]), l(1, apart, &[NULL, 0]), faulted(0, 3)],
        &[e(0, 1, 1, 1, &[0x1001, 0x1002]), e(0, 2, 2, 1, &[])],
    );
    // p0 := p0.next where node 2 leads to node 0: under = 1 the cell merges
    // into its predecessor with its own counter, not with the constant 1.
    let before = pointers(&[0, 2, 1]);
    let shape = h(before, &[1, NULL, 0]);
    check_listing(
        &one(s(3, 0, 0, 1, 0), shape),
        &[l(0, before, &[1, NULL, 0]), l(1, pointers(&[0, 1, 0]), &[NULL, 0]), l(1, pointers(&[0, 2, 1]), &[1, NULL, 0])],
        &[e(0, 1, 1, 0, &[0x1002, 0x1005]), e(0, 2, 2, 0, &[0x0001, 0x1002, 0x2004])],
    );
}
