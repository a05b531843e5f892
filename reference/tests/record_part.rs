//! One record out of the two tables: the limits of refusal 17, and that the
//! part stands in the very table.

mod common;

use common::*;
use reference::{record_part, Refusal};

/// Sizes that no table has; times 32 some of them overflow to 0 or to 32.
const TOO_LARGE: [usize; 6] = [4096, usize::MAX / 32, usize::MAX / 32 + 1, usize::MAX / 32 + 2, usize::MAX / 2 + 1, usize::MAX];

fn part_of(tables: [&[u8]; 2], counts: [usize; 2], mark: usize, number: usize) -> Result<&[u8], Refusal> {
    record_part(tables[0], tables[1], counts[0], counts[1], mark, number)
}

/// Wants the record where it stands. The addresses are compared, since a copy
/// has the same bytes.
#[track_caller]
fn check_part(tables: [&[u8]; 2], counts: [usize; 2], mark: usize, number: usize) {
    let part = part_of(tables, counts, mark, number).expect("a part");
    let due = &tables[mark][32 * number..32 * number + 32];
    assert_eq!(part.as_ptr_range(), due.as_ptr_range());
}

#[track_caller]
fn check_17(tables: [&[u8]; 2], counts: [usize; 2], mark: usize, number: usize) {
    let answer = part_of(tables, counts, mark, number);
    assert_eq!(answer, Err(at_0(17)), "counts {counts:?}, mark {mark}, number {number}");
}

/// Wants that a table of this length has exactly so many places: a count of
/// them passes, be it this table that is meant or the other one; one more does
/// not. `mark` tells which of the two it is.
#[track_caller]
fn check_places(mark: usize, length: usize, places: usize) {
    let table = vec![0x3c; length];
    let other = [0; 64];
    let (mut tables, mut with) = ([&other[..]; 2], [2; 2]);
    (tables[mark], with[mark]) = (&table, places);
    let mut above = with;
    above[mark] += 1;
    for number in [0, 1, places / 2, places.saturating_sub(1)] {
        if number < places {
            check_part(tables, with, mark, number);
        }
    }
    for number in [0, places.saturating_sub(1), places, places + 1, usize::MAX] {
        check_17(tables, above, mark, number);
        check_17(tables, above, 1 - mark, number);
    }
    check_17(tables, with, mark, places);
    check_part(tables, with, 1 - mark, 0);
    check_part(tables, with, 1 - mark, 1);
    check_17(tables, with, 1 - mark, 2);
}

#[test]
fn short_tables() {
    for mark in [0, 1] {
        for (length, places) in [(0, 0), (1, 0), (31, 0), (32, 1), (33, 1), (63, 1), (64, 2), (65, 2), (320, 10)] {
            check_places(mark, length, places);
        }
    }
}

#[test]
fn long_tables() {
    for (more, places) in [(-33, 1022), (-32, 1023), (-1, 1023), (0, 1024), (1, 1024), (31, 1024), (32, 1024), (99_999, 1024)] {
        check_places(0, (32 * 1024isize + more) as usize, places);
    }
    for (more, places) in [(-33, 2046), (-32, 2047), (-1, 2047), (0, 2048), (1, 2048), (31, 2048), (32, 2048), (99_999, 2048)] {
        check_places(1, (32 * 2048isize + more) as usize, places);
    }
    // The limit of the locations is not that of the edges.
    check_places(1, 32 * 1024, 1024);
    check_places(1, 32 * 1025, 1025);
}

#[test]
fn no_table_at_all() {
    for mark in [0, 1, 2, usize::MAX] {
        for number in [0, 1, usize::MAX] {
            check_17([&[], &[]], [0, 0], mark, number);
            check_17([&[1; 64], &[2; 64]], [0, 0], mark, number);
            check_17([&[], &[]], [1, 0], mark, number);
            check_17([&[], &[]], [0, 1], mark, number);
            check_17([&[], &[]], [usize::MAX, usize::MAX], mark, number);
        }
    }
}

#[test]
fn marks() {
    let (locations, edges) = ([1; 96], [2; 64]);
    check_part([&locations, &edges], [3, 2], 0, 2);
    check_part([&locations, &edges], [3, 2], 1, 1);
    // Marks that would be 0 or 1 in fewer bits, too.
    for mark in [2, 3, 256, 257, 0x1_0000_0000, 0x1_0000_0001, usize::MAX - 1, usize::MAX] {
        for number in [0, 1, 2, 3, usize::MAX] {
            check_17([&locations, &edges], [3, 2], mark, number);
            check_17([&locations, &edges], [4, 2], mark, number);
            check_17([&locations, &edges], [3, 3], mark, number);
            check_17([&locations, &edges], [0, 0], mark, number);
        }
    }
}

#[test]
fn numbers() {
    // Places that are not in use are there, but no records.
    let (locations, edges) = ([1; 320], [2; 320]);
    for counts in [[3, 7], [7, 3], [10, 1], [1, 10], [10, 10]] {
        for mark in [0, 1] {
            let count = counts[mark];
            for number in 0..count {
                check_part([&locations, &edges], counts, mark, number);
            }
            for number in count..12 {
                check_17([&locations, &edges], counts, mark, number);
            }
            for number in TOO_LARGE {
                check_17([&locations, &edges], counts, mark, number);
            }
        }
    }
}

#[test]
fn counts_of_any_size() {
    let (locations, edges) = (vec![1; 32 * 3000], vec![2; 32 * 3000]);
    for count in TOO_LARGE {
        for mark in [0, 1, 2] {
            for number in [0, 1, 1024, 2048, count - 1, count] {
                check_17([&locations, &edges], [count, 5], mark, number);
                check_17([&locations, &edges], [5, count], mark, number);
                check_17([&locations, &edges], [count, count], mark, number);
            }
        }
    }
}

#[test]
fn equal_and_shared_tables() {
    let (locations, edges) = ([0x4c; 96], [0x4c; 96]);
    for number in 0..3 {
        check_part([&locations, &edges], [3, 3], 0, number);
        check_part([&locations, &edges], [3, 3], 1, number);
        check_part([&locations, &locations], [3, 3], 1, number);
    }
    // Tables that overlap, and parts at odd addresses.
    check_part([&locations[..65], &locations[1..]], [2, 2], 0, 1);
    check_part([&locations[..65], &locations[1..]], [2, 2], 1, 1);
}

/// The part lives as long as the tables, beyond all else of the call.
fn last_edge<'a>(locations: &'a [u8], edges: &'a [u8]) -> &'a [u8] {
    let counts = [locations.len() / 32, edges.len() / 32];
    part_of([locations, edges], counts, 1, counts[1] - 1).expect("a part")
}

#[test]
fn records_of_a_listing() {
    let p1 = input(&[s(7, 0, 0, 1, 0), stop(), h(pointers(&[0]), &[NULL])]);
    let got = into_tables(&p1, 32 * 7 + 5, 32 * 4);
    let counts = [got.answer.locations, got.answer.edges];
    let tables = [&got.locations[..], &got.edges[..]];
    let due = [
        vec![l(0, pointers(&[0]), &[NULL]), l(1, pointers(&[UNDEF]), &[]), faulted(0, 3)],
        vec![e(0, 1, 1, 0, &[]), e(0, 2, 2, 0, &[])],
    ];
    for (mark, due) in due.iter().enumerate() {
        for (number, record) in due.iter().enumerate() {
            assert_eq!(part_of(tables, counts, mark, number), Ok(&record[..]));
        }
        check_17(tables, counts, mark, due.len());
    }
    assert_eq!(last_edge(&got.locations[..96], &got.edges[..64]), due[1][1]);
}
