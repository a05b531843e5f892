//! The search by itself: the highest number below the count, whatever the
//! table, the count and the record are.

mod common;

use common::*;
use reference::search;

/// Counts that no table has; times 32 some of them overflow to 0 or to 32.
const TOO_LARGE: [usize; 6] = [4096, usize::MAX / 32, usize::MAX / 32 + 1, usize::MAX / 32 + 2, usize::MAX / 2 + 1, usize::MAX];

/// A table with a record of 32 equal letters for each letter of a word.
fn table(word: &str) -> Vec<u8> {
    word.bytes().flat_map(|letter| [letter; 32]).collect()
}

/// All words of so many letters.
fn words(letters: &str, length: usize) -> Vec<String> {
    let mut words = vec![String::new()];
    for _ in 0..length {
        words = words.iter().flat_map(|word| letters.chars().map(move |letter| format!("{word}{letter}"))).collect();
    }
    words
}

#[test]
fn all_small_tables() {
    for length in 0..=6 {
        for word in words("abc", length) {
            let table = table(&word);
            for count in 0..length + 3 {
                let below = &word[..count.min(length)];
                for letter in ['a', 'b', 'c', 'd'] {
                    let found = search(&table, count, &[letter as u8; 32]);
                    assert_eq!(found, below.rfind(letter), "{letter} below {count} in {word}");
                }
            }
        }
    }
}

#[test]
fn every_length() {
    for length in 0..200 {
        let table = vec![7; length];
        for count in (0..10).chain(TOO_LARGE) {
            let due = [count, length / 32].into_iter().min().and_then(|limit| limit.checked_sub(1));
            assert_eq!(search(&table, count, &[7; 32]), due, "{count} of {length} bytes");
            assert_eq!(search(&table, count, &[8; 32]), None);
        }
    }
}

#[test]
fn no_more_than_1024_places() {
    for (whole, places) in [(1022, 1022), (1023, 1023), (1024, 1024), (1025, 1024), (1026, 1024), (2048, 1024), (3000, 1024)] {
        for rest in [0, 1, 31] {
            let mut table = vec![7; 32 * whole + rest];
            for count in [places - 1, places, places + 1, whole, whole + 1].into_iter().chain(TOO_LARGE) {
                assert_eq!(search(&table, count, &[7; 32]), Some(count.min(places) - 1), "{count} of {whole}");
            }
            // Only the oldest is left, and then none but those past the places.
            table[32..32 * places].fill(8);
            assert_eq!(search(&table, usize::MAX, &[7; 32]), Some(0));
            table[..32].fill(8);
            assert_eq!(search(&table, usize::MAX, &[7; 32]), None);
            assert_eq!(search(&table, whole, &[7; 32]), None);
            assert_eq!(search(&table, whole, &[8; 32]), Some(places - 1));
        }
    }
}

#[test]
fn one_record_at_each_place_of_a_long_table() {
    let mut table = vec![0; 32 * 1030];
    for number in 0..1030 {
        table[32 * number..32 * number + 32].fill(1);
        let due = (number < 1024).then_some(number);
        assert_eq!(search(&table, number, &[1; 32]), None);
        for count in [number + 1, 1024.max(number + 1), 1030, usize::MAX] {
            assert_eq!(search(&table, count, &[1; 32]), due, "{number} below {count}");
        }
        table[32 * number..32 * number + 32].fill(0);
    }
}

#[test]
fn a_record_of_another_length_is_equal_to_none() {
    let table = [7; 320];
    for length in (0..=320).filter(|&length| length != 32) {
        for count in [0, 1, 9, 10, 11, usize::MAX] {
            assert_eq!(search(&table, count, &table[..length]), None, "{length} bytes below {count}");
        }
    }
    // Nor to the bytes past the last place, nor to a table without places.
    for length in 0..32 {
        assert_eq!(search(&table[..length], 1, &table[..length]), None);
        assert_eq!(search(&table[..288 + length], usize::MAX, &table[..length]), None);
    }
}

#[test]
fn every_bit_matters() {
    let record: Vec<u8> = (0..32).map(|number| 5 * number).collect();
    for bit in 0..256 {
        let mut other = record.clone();
        other[bit / 8] ^= 1 << (bit % 8);
        assert_eq!(search(&other, 1, &record), None);
        assert_eq!(search(&[&record[..], &other].concat(), 2, &record), Some(0));
        assert_eq!(search(&[&other[..], &record, &other].concat(), 3, &record), Some(1));
        assert_eq!(search(&[&other[..], &record, &other].concat(), 3, &other), Some(2));
    }
}

#[test]
fn bytes_across_two_places_are_no_record() {
    let record: Vec<u8> = (1..=32).collect();
    for offset in 0..=96 {
        let mut table = [0; 128];
        table[offset..offset + 32].copy_from_slice(&record);
        let due = (offset % 32 == 0).then_some(offset / 32);
        assert_eq!(search(&table, 4, &record), due, "at {offset}");
    }
}

#[test]
fn zeros_are_a_record_like_others() {
    // Places that are not in use are zero, and no records.
    let table = [&[1; 64][..], &[0; 64]].concat();
    assert_eq!(search(&table, 2, &[0; 32]), None);
    assert_eq!(search(&table, 3, &[0; 32]), Some(2));
    assert_eq!(search(&table, usize::MAX, &[0; 32]), Some(3));
    assert_eq!(search(&[], usize::MAX, &[0; 32]), None);
    assert_eq!(search(&[], 0, &[]), None);
}

#[test]
fn the_record_may_be_a_part_of_the_table() {
    let table = table("abcab");
    for (number, newest) in [(0, 3), (1, 4), (2, 2), (3, 3), (4, 4)] {
        assert_eq!(search(&table, 5, &table[32 * number..32 * number + 32]), Some(newest));
    }
    assert_eq!(search(&table, 5, &table[1..33]), None);
    assert_eq!(search(&table, 5, &table), None);
    // A table at an odd address, which has four places.
    assert_eq!(search(&table[1..], 5, &table[1..33]), Some(3));
    assert_eq!(search(&table[1..], 5, &table[33..65]), Some(1));
    assert_eq!(search(&table[1..], 5, &table[32..64]), None);
}

#[test]
fn locations_of_a_listing() {
    let p1 = input(&[s(7, 0, 0, 1, 0), stop(), h(pointers(&[0]), &[NULL])]);
    let got = into_tables(&p1, 32 * 7 + 5, 32 * 4);
    let due = [l(0, pointers(&[0]), &[NULL]), l(1, pointers(&[UNDEF]), &[]), faulted(0, 3)];
    for (number, record) in due.iter().enumerate() {
        for count in 0..10 {
            assert_eq!(search(&got.locations, count, record), (count > number).then_some(number));
        }
    }
    assert_eq!(search(&got.locations, 3, &h(pointers(&[0]), &[NULL])), None);
    assert_eq!(search(&got.locations, 3, &faulted(0, 2)), None);
    // A table of edges is searched as well, up to 1,024.
    assert_eq!(search(&got.edges, 2, &e(0, 2, 2, 0, &[])), Some(1));
}
