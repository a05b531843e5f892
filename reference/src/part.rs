//! One record out of the two tables, as a part of its table.

use crate::records::RECORD;
use crate::refusal::Refusal;
use crate::translate::{places, EDGES, LOCATIONS};

/// The one refusal of this call, whatever its reason.
const NO_RECORD: Refusal = Refusal::at(17, 0);

/// The 32 bytes of a record, where they stand in the table that is meant:
/// `table` is 0 for the locations and 1 for the edges. The counts are those in
/// use of both tables, and both are looked at, whichever table is meant.
/// Refuses with 17; the bytes of the tables do not matter.
pub fn record_part<'a>(
    locations: &'a [u8],
    edges: &'a [u8],
    location_count: usize,
    edge_count: usize,
    table: usize,
    number: usize,
) -> Result<&'a [u8], Refusal> {
    if location_count > places(locations, LOCATIONS) || edge_count > places(edges, EDGES) {
        return Err(NO_RECORD);
    }
    let (meant, count) = match table {
        0 => (locations, location_count),
        1 => (edges, edge_count),
        _ => return Err(NO_RECORD),
    };
    // Taken record by record: an offset could overflow for a large number.
    meant.chunks_exact(RECORD).take(count).nth(number).ok_or(NO_RECORD)
}
