//! Random searches, against the words of the request.

mod common;

use common::into_tables;
use reference::search;
use reference::search_draw::{draw, DrawnSearch};
use reference::selftest::{drop_inputs, sound_inputs};

/// All numbers below the count, cut to the places, whose record is equal.
fn equal(table: &[u8], count: usize, record: &[u8]) -> Vec<usize> {
    let cut = count.min(table.len() / 32).min(1024);
    (0..cut).filter(|number| table[32 * number..32 * (number + 1)] == *record).collect()
}

#[test]
fn drawn_searches() {
    let (mut found, mut several, mut none, mut past) = (0, 0, 0, 0);
    for seed in 0..40_000 {
        let DrawnSearch { table, count, record, equal: stands, .. } = draw(seed);
        let equal = equal(&table, count, &record);
        assert_eq!(search(&table, count, &record), equal.last().copied(), "drawn from {seed}");
        assert!(stands.starts_with(&equal), "{equal:?} where it was put at {stands:?}, drawn from {seed}");
        found += usize::from(!equal.is_empty());
        several += usize::from(equal.len() > 1);
        none += usize::from(equal.is_empty());
        past += usize::from(equal.len() < stands.len());
    }
    for count in [found, several, none, past] {
        assert!(count >= 4_000, "{found} {several} {none} {past}");
    }
}

#[test]
fn nothing_hangs_on_what_is_not_searched() {
    for DrawnSearch { mut table, count, record, .. } in (0..4_000).map(draw) {
        let due = search(&table, count, &record);
        let cut = count.min(table.len() / 32).min(1024);
        for byte in &mut table[32 * cut..] {
            *byte ^= 0x55;
        }
        assert_eq!(search(&table, count, &record), due);
        assert_eq!(search(&table[..32 * cut], cut, &record), due);
        // Equal records past the count.
        table.truncate(32 * cut);
        table.extend([&record[..], &record].concat());
        assert_eq!(search(&table, cut, &record), due);
    }
}

#[test]
fn listings_hold_each_location_once() {
    for input in sound_inputs(88).take(1_000).chain(drop_inputs(88).take(1_000)) {
        let got = into_tables(&input, 32 * 1024 + 7, 32 * 2048);
        for number in 0..got.answer.locations {
            let record = &got.locations[32 * number..32 * number + 32];
            assert_eq!(equal(&got.locations, got.answer.locations, record), [number]);
            assert_eq!(search(&got.locations, got.answer.locations, record), Some(number));
            assert_eq!(search(&got.locations, number, record), None);
        }
    }
}

#[test]
fn the_same_seed_draws_the_same() {
    for seed in [0, 1, 17, 12_345, u64::MAX] {
        assert_eq!(draw(seed), draw(seed));
        assert_ne!(draw(seed), draw(seed.wrapping_add(1)));
    }
}
