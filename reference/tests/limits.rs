//! The limits on records, counters, cells and places.

mod common;

use common::*;
use reference::{fold, unfold};

fn p1() -> Vec<u8> {
    input(&[s(7, 0, 0, 1, 0), stop(), h(pointers(&[0]), &[NULL])])
}

/// So many different shapes, without nodes: pointers null or undefined.
fn shapes(count: usize) -> Vec<Record> {
    (0..count)
        .map(|number| {
            let mut held = NULLS;
            for (bit, pointer) in held.iter_mut().enumerate() {
                if number >> bit & 1 == 1 {
                    *pointer = UNDEF;
                }
            }
            h(held, &[])
        })
        .collect()
}

#[test]
fn statements() {
    let routine = |count: usize| {
        let mut records = vec![stop(); count];
        records.push(h(NULLS, &[]));
        input(&records)
    };
    let got = into_tables(&routine(64), 320, 320);
    assert_eq!((got.answer.refusal, got.answer.locations), (0, 1));
    check_refusal(&routine(65), 2, 0);
    check_refusal(&routine(0), 2, 0);
}

#[test]
fn a_target_may_be_the_last_statement() {
    let mut records = vec![s(11, 0, 0, 63, 0)];
    records.extend(vec![stop(); 63]);
    records.push(h(NULLS, &[]));
    let got = into_tables(&input(&records), 320, 320);
    assert_eq!((got.answer.locations, got.answer.edges), (2, 1));
    records.remove(1);
    check_refusal(&input(&records), 7, 0);
}

#[test]
fn starting_shapes() {
    let routine = |count: usize| {
        let mut records = vec![stop()];
        records.extend(shapes(count));
        input(&records)
    };
    let got = into_tables(&routine(16), 32 * 16, 0);
    assert_eq!((got.answer.refusal, got.answer.locations), (0, 16));
    check_refusal(&routine(17), 3, 0);
    check_refusal(&routine(0), 3, 0);
}

#[test]
fn starting_shapes_that_find_no_place() {
    let mut records = vec![stop()];
    records.extend(shapes(16));
    let routine = input(&records);
    for places in 0..16 {
        let got = into_tables(&routine, 32 * places + 31, 0);
        check_refused(&got, 11, places);
    }
}

#[test]
fn places_in_p1() {
    let got = into_tables(&p1(), 96, 64);
    assert_eq!((got.answer.refusal, got.answer.place), (0, 0));
    assert_eq!((got.answer.locations, got.answer.edges), (3, 2));
    for short in 64..96 {
        check_refused(&into_tables(&p1(), short, 64), 11, 0);
    }
    for short in 32..64 {
        check_refused(&into_tables(&p1(), 96, short), 12, 0);
    }
    // For each edge its target's place comes before its own.
    check_refused(&into_tables(&p1(), 64, 32), 11, 0);
    check_refused(&into_tables(&p1(), 64, 0), 12, 0);
    check_refused(&into_tables(&p1(), 32, 0), 11, 0);
    check_refused(&into_tables(&p1(), 0, 0), 11, 0);
}

#[test]
fn the_location_being_explored_is_told() {
    // Skip, skip, stop: locations 0, 1, 2 and edges 0, 1.
    let routine = input(&[s(11, 0, 0, 1, 0), s(11, 0, 0, 2, 0), stop(), h(NULLS, &[])]);
    assert_eq!(into_tables(&routine, 96, 64).answer.refusal, 0);
    check_refused(&into_tables(&routine, 95, 64), 11, 1);
    check_refused(&into_tables(&routine, 96, 63), 12, 1);
    check_refused(&into_tables(&routine, 63, 64), 11, 0);
    check_refused(&into_tables(&routine, 96, 31), 12, 0);
}

/// All ways in which pointers may stand are walked through.
fn endless() -> Vec<u8> {
    let mut records: Vec<Record> = Vec::new();
    for pointer in 0..5u8 {
        let choose = 2 * pointer;
        let after = if pointer == 4 { 0 } else { choose + 2 };
        records.push(s(10, 0, 0, choose + 1, after));
        records.push(s(3, pointer, pointer, 0, 0));
    }
    records.push(h([0; 6], &[0]));
    input(&records)
}

#[test]
fn no_more_than_1024_locations_however_long_the_table() {
    let got = into_tables(&endless(), 32 * 5000, 32 * 5000);
    assert_eq!(got.answer.refusal, 11);
    let just = into_tables(&endless(), 32 * 1024, 32 * 2048);
    assert_eq!(just.answer, got.answer);
    check_refused(&just, 11, got.answer.place);
}

/// 64 relinks in a circle that keep their shape: two lists that meet, with so
/// many ways for the other pointers. Each shape has three edges at each
/// statement, the third of which leads to the statement's own fault.
fn relinks(shapes: u8) -> Vec<u8> {
    let mut records: Vec<Record> = (1..=64).map(|next| s(12, 0, 1, next % 64, 0)).collect();
    for number in 0..shapes {
        let other = |bit: u8| if number >> bit & 1 == 1 { UNDEF } else { NULL };
        records.push(h([0, 2, other(0), other(1), other(2), other(3)], &[1, NULL, 1]));
    }
    input(&records)
}

#[test]
fn no_more_than_2048_edges_however_long_the_table() {
    // Ten shapes fit: 640 locations and 64 faults, 1,920 edges.
    let got = into_tables(&relinks(10), 32 * 1024, 32 * 2048);
    assert_eq!((got.answer.refusal, got.answer.locations, got.answer.edges), (0, 704, 1920));
    // Of eleven shapes the 683rd location takes the edges past 2,048. Those of
    // statement 62 begin after 11 and 61 times 12 others, faults included.
    for bytes in [32 * 2048, 32 * 2048 + 31, 32 * 5000] {
        check_refused(&into_tables(&relinks(11), 32 * 1024, bytes), 12, 11 + 61 * 12);
    }
    let got = into_tables(&relinks(16), 32 * 1024, 32 * 2048);
    assert_eq!(got.answer.refusal, 12);
}

#[test]
fn counters_and_cells() {
    let record = h(pointers(&[0, 1]), &[NULL, NULL]);
    let try_sum = |second: u32, length: usize| {
        let mut counters = [0; 12];
        counters[0] = 100;
        counters[1] = second;
        let (mut to_pointers, mut to_cells) = ([7; 6], vec![7; length]);
        let answer = unfold(&record, &counters, &mut to_pointers, &mut to_cells);
        if answer.is_err() {
            assert_eq!((to_pointers, to_cells), ([7; 6], vec![7; length]));
            return answer;
        }
        let folded = fold(&to_pointers, &to_cells);
        assert_eq!((folded.record, folded.counters), (record, counters));
        answer
    };
    assert_eq!(try_sum(140, 240), Ok(()));
    assert_eq!(try_sum(141, 240), Err(at_0(15)));
    assert_eq!(try_sum(140, 239), Err(at_0(15)));
    assert_eq!(try_sum(u32::MAX - 99, 240), Err(at_0(15)));
    assert_eq!(try_sum(140, 241), Err(at_0(13)));
}

#[test]
fn heap_images() {
    assert_eq!(fold(&NULLS, &[UNUSED; 240]).refusal, None);
    assert_eq!(fold(&NULLS, &[UNUSED; 241]).refusal, Some(at_0(13)));
    let mut chain: Vec<u8> = (1..=240).collect();
    chain[239] = NULL;
    let folded = fold(&pointers(&[0]), &chain);
    assert_eq!((folded.refusal, folded.counters[0]), (None, 240));
}
