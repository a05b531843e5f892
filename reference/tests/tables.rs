//! Every byte of the lent tables, whatever their lengths and contents.

mod common;

use common::*;
use reference::translate;

fn p2() -> Vec<u8> {
    input(&[s(3, 0, 0, 1, 0), stop(), h(pointers(&[0, 0]), &[NULL]), h(NULLS, &[])])
}

fn listing() -> (Vec<Record>, Vec<Record>) {
    let locations = vec![
        l(0, pointers(&[0, 0]), &[NULL]),
        l(0, NULLS, &[]),
        l(1, pointers(&[NULL, 0]), &[NULL]),
        l(1, pointers(&[0, 1]), &[NULL, 0]),
        faulted(0, 1),
    ];
    let edges = vec![e(0, 2, 1, 0, &[0x1001]), e(0, 3, 2, 0, &[0x0001, 0x2000]), from(1, e(0, 4, 0, 0, &[]))];
    (locations, edges)
}

#[test]
fn previous_contents_never_show() {
    let (locations, edges) = listing();
    for byte in [0, 1, 0x45, 0x4c, 0xfe, 0xff] {
        let mut location_table = vec![byte; 32 * 5 + 47];
        let mut edge_table = vec![byte; 32 * 3 + 90];
        let answer = translate(&p2(), &mut location_table, &mut edge_table);
        assert_eq!((answer.locations, answer.edges), (5, 3));
        check_table(&location_table, &locations);
        check_table(&edge_table, &edges);
    }
}

#[test]
fn every_pair_of_lengths() {
    let (locations, edges) = listing();
    for location_bytes in 0..32 * 6 + 3 {
        for edge_bytes in [0, 1, 31, 32, 33, 63, 64, 65, 95, 96, 97, 127, 128, 4096] {
            let got = into_tables(&p2(), location_bytes, edge_bytes);
            match due(location_bytes / 32, edge_bytes / 32) {
                Some((refusal, place)) => check_refused(&got, refusal, place),
                None => {
                    assert_eq!((got.answer.refusal, got.answer.place), (0, 0));
                    assert_eq!((got.answer.locations, got.answer.edges), (5, 3));
                    check_table(&got.locations, &locations);
                    check_table(&got.edges, &edges);
                }
            }
        }
    }
}

/// The refusal for so many places, written out case by case.
fn due(location_places: usize, edge_places: usize) -> Option<(u8, usize)> {
    match (location_places, edge_places) {
        (0, _) => Some((11, 0)),
        (1, _) => Some((11, 1)),
        (2, _) => Some((11, 0)),
        (_, 0) => Some((12, 0)),
        (3, _) => Some((11, 0)),
        (_, 1) => Some((12, 0)),
        (4, _) => Some((11, 1)),
        (_, 2) => Some((12, 1)),
        _ => None,
    }
}

#[test]
fn a_refused_input_leaves_zeros() {
    for length in [0, 1, 31, 32, 33, 1000] {
        check_refused(&into_tables(&[], length, length), 1, 0);
        check_refused(&into_tables(&[0x53; 32], length, length), 3, 0);
    }
}
