//! Searches among the locations of listings and on drawn tables.

use super::counts::Counts;
use super::images::want;
use super::search_counts::{Searched, WAYS};
use super::tables::Full;
use crate::automaton::Automaton;
use crate::records::RECORD;
use crate::search::search;
use crate::search_draw::{draw, DrawnSearch};
use crate::translate::LOCATIONS;

/// Makes the searches of a translation once more, from its tables: a starting
/// shape or a new target is not found, any other target is found where it
/// stands.
pub fn on_a_listing(counts: &mut Counts, full: &Full, shapes: usize, automaton: &Automaton) -> Result<(), String> {
    let records = &automaton.locations;
    let enters = |known: usize, record| search(&full.locations, known, record);
    for (number, record) in records.iter().enumerate() {
        want(enters(number, record).is_none(), &format!("location {number} is found before it is entered"))?;
        for count in [number + 1, records.len(), LOCATIONS, usize::MAX] {
            want(enters(count, record) == Some(number), &format!("location {number} is not found below {count}"))?;
        }
    }
    counts.searches.listed[0] += shapes as u64;
    let mut known = shapes;
    for (number, edge) in automaton.edges.iter().enumerate() {
        let found = enters(known, &records[edge.to]);
        let due = (edge.to < known).then_some(edge.to);
        want(found == due, &format!("the target of edge {number} is found at {found:?}"))?;
        let distance = match found.map(|found| known - found) {
            None => 0,
            Some(1) => 1,
            Some(2..=8) => 2,
            _ => 3,
        };
        counts.searches.listed[distance] += 1;
        known = known.max(edge.to + 1);
    }
    Ok(())
}

/// A search on a table drawn by hand.
pub fn on_a_drawn_table(counts: &mut Counts, seed: u64) -> Result<(), String> {
    test_drawn(counts, &draw(seed)).map_err(|difference| format!("{difference}, in the search drawn from {seed}"))
}

fn test_drawn(counts: &mut Counts, drawn: &DrawnSearch) -> Result<(), String> {
    let DrawnSearch { table, count, record, equal, across } = drawn;
    let answer = search(table, *count, record);
    // By where the record was put.
    let due = equal.iter().filter(|&number| number < count && *number < LOCATIONS).max();
    want(answer.as_ref() == due, &format!("{answer:?} where {due:?} is due"))?;
    // By all places one after the other, and that it was put there alone.
    let places = table.chunks_exact(RECORD).enumerate();
    let stands: Vec<usize> = places.filter(|(_, place)| place == record).map(|(number, _)| number).collect();
    want(stands == *equal, &format!("the record stands at {stands:?}"))?;
    let is_across = |offset: usize| !offset.is_multiple_of(RECORD) && table[offset..].starts_with(record);
    want(across.is_none_or(is_across), "the record does not stand across two places")?;
    counts.searches.on_drawn += 1;
    counts.searches.found += u64::from(answer.is_some());
    let searched = Searched::new(drawn, answer);
    for ((_, is_met), count) in WAYS.iter().zip(&mut counts.searches.drawn) {
        *count += u64::from(is_met(&searched));
    }
    Ok(())
}
