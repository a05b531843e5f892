//! Searches drawn at random: the record that is looked for stands often, at the ends, past them or nowhere, among records that are
//! nearly it.

use crate::draw::Draw;

/// The places of a table that are used, however long it is.
pub const MOST: usize = 1024;

pub type Record = [u8; 32];

/// One call.
pub struct Search {
    pub table: Vec<u8>,
    pub count: usize,
    pub record: Vec<u8>,
}

pub fn drawn_search(d: &mut Draw) -> Search {
    let whole = whole_records(d);
    let count = drawn_count(d, whole);
    let wanted = any_record(d);
    let mut table = match d.below(5) {
        0 | 1 => few_records(d, &wanted, whole),
        2 | 3 => one_byte_apart(d, &wanted, whole, count.min(whole.min(MOST))),
        _ => across_places(d, &wanted, whole),
    };
    // the last place is incomplete, and holds what the record begins with
    if d.one_in(3) {
        table.extend_from_slice(&wanted[..1 + d.below(31)]);
    }
    let record = asked_for(d, &wanted, &table);
    Search { table, count, record }
}

/// How many records the table holds: none, few, some, about as many as are used, or more.
fn whole_records(d: &mut Draw) -> usize {
    match d.below(24) {
        0 => 0,
        1 => 1,
        2..=14 => 2 + d.below(8),
        15..=20 => 10 + d.below(90),
        21 => MOST - d.below(3),
        _ => MOST + 1 + d.below(8),
    }
}

/// None, fewer than there are places, all of them, one more, or far more.
fn drawn_count(d: &mut Draw, whole: usize) -> usize {
    let places = whole.min(MOST);
    match d.below(10) {
        0 => 0,
        1..=4 => d.below(places + 1),
        5 => places,
        6 => places + 1,
        7 => whole + d.below(100),
        8 => usize::MAX,
        // times 32 some of these are small numbers in 64 bits
        _ => [usize::MAX - 1, usize::MAX / 32, usize::MAX / 32 + 1, (1 << 59) + 1, 1 << 32][d.below(5)],
    }
}

/// Zeros, one byte over and over, the start of a location, or any bytes.
fn any_record(d: &mut Draw) -> Record {
    let mut record = [0; 32];
    match d.below(8) {
        0 => {}
        1 => record.fill(d.number() as u8),
        2 | 3 => {
            record[0] = 0x4c;
            record[1..22].fill_with(|| [0, 1, 2, 0xfe, 0xff][d.below(5)]);
        }
        _ => record.fill_with(|| d.number() as u8),
    }
    record
}

/// The record with another value in one byte.
fn nearly(d: &mut Draw, record: &Record) -> Record {
    let mut near = *record;
    near[d.below(32)] ^= 1 + d.below(255) as u8;
    near
}

/// The record and at most three others, each of which stands at many places.
fn few_records(d: &mut Draw, wanted: &Record, whole: usize) -> Vec<u8> {
    let mut records = vec![*wanted];
    for _ in 0..d.below(4) {
        let other = if d.one_in(2) { nearly(d, wanted) } else { any_record(d) };
        records.push(other);
    }
    (0..whole).flat_map(|_| records[d.below(records.len())]).collect()
}

/// Records that differ from it in one byte, and the record where it is put.
fn one_byte_apart(d: &mut Draw, wanted: &Record, whole: usize, cut: usize) -> Vec<u8> {
    let mut table: Vec<u8> = (0..whole).flat_map(|_| nearly(d, wanted)).collect();
    for number in put_at(d, whole, cut).into_iter().filter(|&number| number < whole) {
        table[32 * number..][..32].copy_from_slice(wanted);
    }
    table
}

/// Nowhere, at number 0, at the newest, right past the count, past the places that are used, or anywhere.
fn put_at(d: &mut Draw, whole: usize, cut: usize) -> Vec<usize> {
    match d.below(9) {
        _ if whole > MOST && d.one_in(2) => vec![MOST + d.below(whole - MOST)],
        0 => vec![],
        1 | 2 => vec![0],
        3 => vec![cut.saturating_sub(1)],
        4 => vec![cut],
        5 => vec![cut, d.below(cut)],
        _ => (0..1 + d.below(5)).map(|_| d.below(whole)).collect(),
    }
}

/// The record over and over, from within a place: each begins in one place and ends in the next. Now and then it stands once as well.
fn across_places(d: &mut Draw, wanted: &Record, whole: usize) -> Vec<u8> {
    let shift = 1 + d.below(31);
    let mut table: Vec<u8> = wanted.iter().cycle().skip(shift).take(32 * whole).copied().collect();
    if whole > 0 && d.one_in(3) {
        table[32 * d.below(whole)..][..32].copy_from_slice(wanted);
    }
    table
}

/// The record, or what begins with it or is its beginning; longer ones are as the table goes on, where it stands there.
fn asked_for(d: &mut Draw, wanted: &Record, table: &[u8]) -> Vec<u8> {
    let length = if d.one_in(5) { [0, 1, 31, 33, 64][d.below(5)] } else { 32 };
    let at = table.chunks_exact(32).position(|record| record == wanted);
    let stands = at.map_or(&wanted[..], |at| &table[32 * at..]);
    stands.iter().chain(wanted.iter().cycle()).take(length).copied().collect()
}
