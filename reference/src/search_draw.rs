//! Random searches for comparisons: a table, a count and a record, and where
//! the record was put.

use crate::random::Random;
use crate::records::{Record, LOCATION, NULL, RECORD, UNDEFINED};
use crate::translate::LOCATIONS;

/// One call of a search.
#[derive(Clone, PartialEq, Eq, Debug)]
pub struct DrawnSearch {
    pub table: Vec<u8>,
    pub count: usize,
    /// Most often of 32 bytes.
    pub record: Vec<u8>,
    /// The numbers, in order, at which the record stands in the whole table,
    /// be they below the count or not. All other records differ from it.
    pub equal: Vec<usize>,
    /// The offset at which it stands across two places, if it was put so.
    pub across: Option<usize>,
}

/// Draws a search. The same seed gives the same search again.
pub fn draw(seed: u64) -> DrawnSearch {
    let mut random = Random::new(seed);
    let random = &mut random;
    // All the places that the length has, also past the 1,024 that count.
    let whole = match random.weighted(&[10, 10, 40, 8, 4, 6, 22]) {
        0 => 0,
        1 => 1,
        2 => random.between(2, 9),
        3 => random.between(10, 100),
        4 => random.between(LOCATIONS - 2, LOCATIONS - 1),
        5 => LOCATIONS,
        _ => random.between(LOCATIONS + 1, LOCATIONS + 9),
    };
    let places = whole.min(LOCATIONS);
    let count = draw_count(random, places, whole);
    let wanted = draw_record(random);
    let equal = draw_numbers(random, count.min(places), whole);
    let mut table = Vec::new();
    for number in 0..whole {
        table.extend(if equal.binary_search(&number).is_ok() { wanted } else { other_record(random, &wanted) });
    }
    table.extend(draw_rest(random, &wanted));
    let across = if equal.is_empty() && random.chance(50) { put_across(random, &mut table, &wanted) } else { None };
    let record = asked(random, &wanted, &table);
    if record.len() == RECORD {
        DrawnSearch { table, count, record, equal, across }
    } else {
        DrawnSearch { table, count, record, equal: Vec::new(), across: None }
    }
}

/// A count below the places, or all of them, or more than there are.
fn draw_count(random: &mut Random, places: usize, whole: usize) -> usize {
    match random.weighted(&[6, 28, 24, 12, 18, 12]) {
        0 => 0,
        1 => random.below(places + 1),
        2 => places,
        3 => places + random.between(1, 9),
        4 => whole,
        // Times 32 the first two are 0 and 32, if only 64 bits are kept.
        _ => [usize::MAX / RECORD + 1, usize::MAX / RECORD + 2, usize::MAX, random.next() as usize | 1 << 62][random.below(4)],
    }
}

/// A location, zeros, or any bytes, of which the first stands there once.
fn draw_record(random: &mut Random) -> Record {
    let mut record = [0; RECORD];
    match random.below(4) {
        0 => {}
        1 => {
            record[0] = LOCATION;
            record[1..22].fill_with(|| [0, 1, 2, NULL, UNDEFINED][random.below(5)]);
        }
        _ => {
            record.fill_with(|| random.byte());
            let first = record[0];
            for byte in record[1..].iter_mut().filter(|byte| **byte == first) {
                *byte ^= 1;
            }
        }
    }
    record
}

/// The numbers at which the record is put, of which those below `limit` are
/// searched.
fn draw_numbers(random: &mut Random, limit: usize, whole: usize) -> Vec<usize> {
    let some = |random: &mut Random, from: usize, to: usize, most: usize| -> Vec<usize> {
        let turns = if from < to { random.between(1, most) } else { 0 };
        (0..turns).map(|_| random.between(from, to - 1)).collect()
    };
    let mut numbers = match random.weighted(&[4, 2, 2, 2, 3, 3, 3, 4, 2]) {
        0 => Vec::new(),
        1 => some(random, 0, limit, 1),
        2 => some(random, 0, limit, 5),
        3 => some(random, 0, limit.min(1), 1),
        4 => some(random, limit.saturating_sub(1), limit, 1),
        5 => some(random, limit, whole.min(limit + 1), 1),
        6 => some(random, limit, whole, 5),
        7 => [some(random, 0, limit, 3), some(random, limit, whole, 3)].concat(),
        _ => (0..whole).collect(),
    };
    numbers.sort();
    numbers.dedup();
    numbers
}

/// A record that is not this one: often the same but for one byte.
fn other_record(random: &mut Random, record: &Record) -> Record {
    let mut other = if random.chance(70) { *record } else { draw_record(random) };
    if other == *record {
        let at = [0, RECORD - 1, random.below(RECORD)][random.below(3)];
        other[at] ^= 1 << random.below(8);
    }
    other
}

/// Fewer bytes than a record has, often those with which this one begins.
fn draw_rest(random: &mut Random, record: &Record) -> Vec<u8> {
    let length = [0, 0, 1, RECORD - 1, random.below(RECORD)][random.below(5)];
    let from = if random.chance(60) { *record } else { draw_record(random) };
    from[..length].to_vec()
}

/// Puts the record where it begins in one place and ends in the next. If its
/// first byte stands there once, neither place can become equal to it.
fn put_across(random: &mut Random, table: &mut [u8], record: &Record) -> Option<usize> {
    let single = !record[1..].contains(&record[0]);
    if !single || table.len() < 2 * RECORD {
        return None;
    }
    let offset = random.below(table.len() / RECORD - 1) * RECORD + random.between(1, RECORD - 1);
    table[offset..offset + RECORD].copy_from_slice(record);
    Some(offset)
}

/// The record that is asked for: now and then one that is cut, or longer by
/// some bytes, or by the record that stands after it.
fn asked(random: &mut Random, record: &Record, table: &[u8]) -> Vec<u8> {
    match random.below(16) {
        0 => Vec::new(),
        1 | 2 => record[..[RECORD - 1, random.between(1, RECORD - 1)][random.below(2)]].to_vec(),
        3 | 4 => {
            let at = table.chunks_exact(RECORD).position(|other| other == record);
            match at.map(|at| &table[at * RECORD..]) {
                Some(from) if from.len() > RECORD => from[..from.len().min(2 * RECORD)].to_vec(),
                _ => [&record[..], &record[..random.between(1, RECORD)]].concat(),
            }
        }
        _ => record.to_vec(),
    }
}
