//! Single records out of the tables of a listing.

use super::counts::Counts;
use super::images::{due_refusal, want};
use super::tables::Full;
use crate::part::record_part;
use crate::random::Random;
use crate::records::RECORD;
use crate::translate::{EDGES, LOCATIONS};

/// Takes every record in use, and then makes one call that is refused.
pub fn test(random: &mut Random, counts: &mut Counts, full: &Full) -> Result<(), String> {
    let in_use = [full.answer.locations, full.answer.edges];
    for (table, bytes) in [&full.locations, &full.edges].into_iter().enumerate() {
        for (number, due) in bytes.chunks(RECORD).take(in_use[table]).enumerate() {
            let part = record_part(&full.locations, &full.edges, in_use[0], in_use[1], table, number);
            // The addresses, since a copy has the same bytes.
            let stands_there = part.map(<[u8]>::as_ptr_range) == Ok(due.as_ptr_range());
            want(stands_there, &format!("record {number} of table {table} is another part"))?;
        }
    }
    refused_call(random, counts, full, in_use)
}

/// A call with a number for which it is refused.
fn refused_call(random: &mut Random, counts: &mut Counts, full: &Full, in_use: [usize; 2]) -> Result<(), String> {
    let [mut location_count, mut edge_count] = in_use;
    let mut table = random.below(2);
    let mut number = random.below(in_use[table].max(1));
    match random.below(4) {
        0 => table = random_from(random, 2),
        1 => location_count = random_from(random, LOCATIONS + 1),
        2 => edge_count = random_from(random, EDGES + 1),
        _ => number = random_from(random, in_use[table]),
    }
    let part = record_part(&full.locations, &full.edges, location_count, edge_count, table, number);
    want(part == Err(due_refusal(17)), "a call for a record is not refused with 17")?;
    counts.refused(17);
    Ok(())
}

/// The lowest number, the highest, or any between them.
fn random_from(random: &mut Random, lowest: usize) -> usize {
    match random.below(3) {
        0 => lowest,
        1 => usize::MAX,
        _ => lowest.max(random.next() as usize),
    }
}
