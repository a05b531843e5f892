//! The same as [`ranges`](crate::ranges), by trying every start within them.

use std::collections::BTreeSet;

use crate::layout::{nodes_of, used};
use crate::ranges::Ranged;
use crate::records::{Record, NODES, RECORD};
use crate::translate::{places, EDGES, LOCATIONS};
use crate::walk::{walk, Configuration, Tables};

/// The most starts that are tried.
pub const STARTS: u64 = 4_000;

/// An update that gives 1 from any counters.
const ALWAYS_ONE: [u8; 2] = [0x00, 0x20];

/// Answers as [`ranges`](crate::ranges) does, from the moves of each start. None
/// if nothing is refused and there are more than 4,000 starts.
///
/// # Panics
///
/// If the counters reached are not all combinations of ranges.
pub fn ranges_by_search(
    locations: &[u8],
    edges: &[u8],
    location_count: usize,
    edge_count: usize,
    start: usize,
    ranges: &[u32],
    path: &[u32],
) -> Option<Ranged> {
    let refused = |number: u8, place: usize| Some(Ranged::Refused { number, place });
    let Some(ones) = all_ones(locations, location_count, start) else {
        return refused(23, 0);
    };
    // An empty walk is refused for the tables or for the location alone.
    if walk(locations, edges, location_count, edge_count, ones, &[]).refusal.is_some() {
        return refused(23, 0);
    }
    let bare = without_guards(locations, edges, edge_count);
    let walked = walk(locations, &bare, location_count, edge_count, ones, path);
    if walked.refusal.is_some() {
        // A path that is too long makes no move.
        return refused(23, walked.made);
    }
    let counters = ones.counters.iter().filter(|&&counter| counter == 1).count();
    let pair = |counter: usize| [2 * counter, 2 * counter + 1].map(|at| ranges.get(at).copied().unwrap_or(0));
    let pairs: Vec<[u32; 2]> = (0..counters).map(pair).collect();
    let is_right = |&[lowest, highest]: &[u32; 2]| 0 < lowest && lowest <= highest && highest < 1 << 16;
    if let Some(counter) = pairs.iter().position(|pair| !is_right(pair)) {
        return refused(22, counter);
    }
    let tables = Tables::read(locations, edges, location_count, edge_count)?;
    try_all(&tables, ones, &pairs, path)
}

/// The start with all its counters 1, if the location has bytes that tell how
/// many there are.
fn all_ones(locations: &[u8], location_count: usize, start: usize) -> Option<Configuration> {
    let count = location_count.min(places(locations, LOCATIONS));
    let nodes = nodes_of(used(locations, count).get(start)?)?;
    let mut counters = [0; NODES];
    counters[..nodes].fill(1);
    Some(Configuration { location: start as u32, counters })
}

/// The edges without their guards and with every new counter 1. A walk on them
/// ends only at an edge that is not there or does not leave the location.
fn without_guards(locations: &[u8], edges: &[u8], edge_count: usize) -> Vec<u8> {
    let (places, _) = locations.as_chunks::<RECORD>();
    let bare = |record: &Record| {
        let mut bare = [0; RECORD];
        bare[0] = record[0];
        bare[2..6].copy_from_slice(&record[2..6]);
        let to = usize::from(record[4]) + 256 * usize::from(record[5]);
        let nodes = nodes_of(&places[to]).unwrap_or(0);
        bare[8..8 + 2 * nodes].copy_from_slice(&[ALWAYS_ONE; NODES].as_flattened()[..2 * nodes]);
        bare
    };
    used(edges, edge_count.min(EDGES)).iter().flat_map(bare).collect()
}

/// Makes the moves of every start, if there are not too many.
fn try_all(tables: &Tables, ones: Configuration, pairs: &[[u32; 2]], path: &[u32]) -> Option<Ranged> {
    let sizes: Vec<u64> = pairs.iter().map(|[lowest, highest]| u64::from(highest - lowest + 1)).collect();
    let starts = sizes.iter().fold(1, |all: u64, &size| all.saturating_mul(size));
    if starts > STARTS {
        return None;
    }
    let mut farthest = 0;
    let mut reached = BTreeSet::new();
    for number in 0..starts {
        // The digits of the number, each with its own base.
        let mut left = number;
        let mut start = ones;
        for ((counter, [lowest, _]), size) in start.counters.iter_mut().zip(pairs).zip(&sizes) {
            *counter = lowest + (left % size) as u32;
            left /= size;
        }
        let walked = tables.take_all(start, path);
        assert!(walked.refusal.is_none_or(|refusal| refusal.number == 20), "a counter passes 32 bits from {start:?}");
        farthest = farthest.max(walked.made);
        if walked.refusal.is_none() {
            reached.insert((walked.configuration.location, walked.configuration.counters));
        }
    }
    match reached.first() {
        None => Some(Ranged::Ends { position: farthest }),
        Some(&(location, _)) => {
            let location = location as usize;
            Some(Ranged::Follows { location, ranges: as_ranges(&reached, tables.nodes[location]) })
        }
    }
}

/// The ranges whose combinations are exactly the counters reached.
fn as_ranges(reached: &BTreeSet<(u32, [u32; NODES])>, counters: usize) -> Vec<(u32, u32)> {
    let range = |counter: usize| {
        let values = || reached.iter().map(|(_, counters)| counters[counter]);
        values().min().zip(values().max()).expect("something is reached")
    };
    let ranges: Vec<(u32, u32)> = (0..counters).map(range).collect();
    // All that is reached is within them, so that only the number is to be seen.
    let combinations: u64 = ranges.iter().map(|(lowest, highest)| u64::from(highest - lowest + 1)).product();
    let found = reached.len() as u64;
    assert!(combinations == found, "{found} combinations of counters reached, and not the {combinations} of {ranges:?}");
    ranges
}

#[cfg(test)]
mod tests {
    use super::*;

    fn reached(pairs: &[[u32; 2]]) -> BTreeSet<(u32, [u32; NODES])> {
        let counters = |pair: &[u32; 2]| {
            let mut counters = [0; NODES];
            counters[..2].copy_from_slice(pair);
            (3, counters)
        };
        pairs.iter().map(counters).collect()
    }

    #[test]
    fn all_combinations_are_ranges() {
        assert_eq!(as_ranges(&reached(&[[4, 9]]), 2), [(4, 4), (9, 9)]);
        assert_eq!(as_ranges(&reached(&[[4, 9], [5, 9], [4, 8], [5, 8]]), 2), [(4, 5), (8, 9)]);
        assert_eq!(as_ranges(&reached(&[[0, 0]]), 0), []);
    }

    #[test]
    #[should_panic(expected = "3 combinations of counters reached, and not the 4")]
    fn a_combination_that_lacks_is_told() {
        as_ranges(&reached(&[[4, 9], [5, 9], [4, 8]]), 2);
    }
}
