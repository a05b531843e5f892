//! Following a path from counters that are known only within ranges.

use crate::automaton::Edge;
use crate::records::{Guard, NO_GUARD, ONE};
use crate::walk::{Tables, LONGEST};

/// The highest value that a counter of a start may have.
pub const HIGHEST: u32 = 65_535;

/// The lowest and the highest value of a counter, both included.
type Range = (u32, u32);

/// The answer of [`ranges`] and of [`ranges_by_search`](crate::ranges_by_search).
#[derive(Clone, PartialEq, Eq, Debug)]
pub enum Ranged {
    /// Some start can follow the path to this location. Exactly the
    /// combinations of values within the ranges are reached, one range for each
    /// of its counters; a fault has none.
    Follows { location: usize, ranges: Vec<(u32, u32)> },
    /// The first position in the path where no start can go on.
    Ends { position: usize },
    /// 23 with 0 or the position of an edge, or 22 with the number of a counter.
    Refused { number: u8, place: usize },
}

/// Tells whether some start within the ranges can follow the path, and to which
/// counters, or where none can go on.
///
/// The lowest value of counter i is number 2i of `ranges` and its highest is
/// number 2i + 1. What is not there is 0, and what stands past the counters of
/// the start is not read.
///
/// Refuses with 23 tables that break the layout, a start that is not below the
/// count and a path of more than 4,096, and then the first edge, guards aside,
/// that is not there or does not leave the location reached. Refuses with 22,
/// after that, the first counter whose range is wrong.
pub fn ranges(
    locations: &[u8],
    edges: &[u8],
    location_count: usize,
    edge_count: usize,
    start: usize,
    ranges: &[u32],
    path: &[u32],
) -> Ranged {
    let read = Tables::read(locations, edges, location_count, edge_count);
    let Some(tables) = read.filter(|_| start < location_count && path.len() <= LONGEST) else {
        return Ranged::Refused { number: 23, place: 0 };
    };
    let route = match route(&tables, start, path) {
        Ok(route) => route,
        Err(position) => return Ranged::Refused { number: 23, place: position },
    };
    match start_ranges(ranges, tables.nodes[start]) {
        Ok(counters) => follow(&tables, start, counters, &route),
        Err(counter) => Ranged::Refused { number: 22, place: counter },
    }
}

/// The edges of the path, or the position of the first that is not there or
/// does not leave the location reached. Guards do not matter.
fn route<'a>(tables: &'a Tables, start: usize, path: &[u32]) -> Result<Vec<&'a Edge>, usize> {
    let mut at = start;
    let mut route = Vec::with_capacity(path.len());
    for (position, &number) in path.iter().enumerate() {
        let edge = tables.edges.get(number as usize).filter(|edge| edge.from == at).ok_or(position)?;
        at = edge.to;
        route.push(edge);
    }
    Ok(route)
}

/// The ranges of so many counters, or the first counter whose range is wrong.
fn start_ranges(numbers: &[u32], counters: usize) -> Result<Vec<Range>, usize> {
    let number = |at: usize| numbers.get(at).copied().unwrap_or(0);
    let range = |counter: usize| {
        let (lowest, highest) = (number(2 * counter), number(2 * counter + 1));
        let outside = [lowest, highest].iter().any(|end| !(1..=HIGHEST).contains(end));
        if outside || lowest > highest {
            Err(counter)
        } else {
            Ok((lowest, highest))
        }
    };
    (0..counters).map(range).collect()
}

/// Follows a route with all the starts at once. After each edge the counters
/// reached are again all combinations of ranges: a guard looks at one counter
/// and leaves one piece of its range, and since no old counter is added twice,
/// the new counters do not hang on each other.
fn follow(tables: &Tables, start: usize, counters: Vec<Range>, route: &[&Edge]) -> Ranged {
    let mut location = start;
    let mut ranges = counters;
    for (position, edge) in route.iter().enumerate() {
        if !edge.guards.iter().all(|guard| narrow(guard, &mut ranges)) {
            return Ranged::Ends { position };
        }
        let new = &edge.updates[..tables.nodes[edge.to]];
        ranges = new.iter().map(|&update| summed(update, &ranges)).collect();
        location = edge.to;
    }
    Ranged::Follows { location, ranges }
}

/// Leaves the values of a range for which the guard holds. Answers whether
/// there are any.
fn narrow(guard: &Guard, ranges: &mut [Range]) -> bool {
    // An absent guard names node 0, which need not be there.
    if guard.kind == NO_GUARD {
        return true;
    }
    let (lowest, highest) = &mut ranges[guard.node];
    if guard.kind == ONE {
        *highest = 1;
    } else {
        *lowest = 2.max(*lowest);
    }
    lowest <= highest
}

/// The range of a new counter. It stays far below 2^32: twelve counters of
/// 65,535 grow by at most twelve in all with each of 4,096 edges. Sound tables
/// give 1 or more, so that 1 can be taken away.
fn summed(update: u16, old: &[Range]) -> Range {
    // The constant is kept with one added to it.
    let (mut lowest, mut highest) = (u32::from(update >> 12), u32::from(update >> 12));
    for (node, range) in old.iter().enumerate() {
        if update >> node & 1 == 1 {
            lowest += range.0;
            highest += range.1;
        }
    }
    (lowest - 1, highest - 1)
}

#[cfg(test)]
mod tests {
    use super::*;
    use crate::records::{ABSENT, TWO_OR_MORE};

    #[test]
    fn guards_leave_a_piece_of_a_range() {
        let narrowed = |kind: u8, range: Range| {
            let mut ranges = [(7, 9), range];
            let left = narrow(&Guard { kind, node: 1 }, &mut ranges);
            assert_eq!(ranges[0], (7, 9));
            left.then_some(ranges[1])
        };
        for lowest in 1..=4 {
            for highest in lowest..=5 {
                let due = |holds: fn(&u32) -> bool| {
                    let left: Vec<u32> = (lowest..=highest).filter(holds).collect();
                    left.first().copied().zip(left.last().copied())
                };
                assert_eq!(narrowed(ONE, (lowest, highest)), due(|&value| value == 1));
                assert_eq!(narrowed(TWO_OR_MORE, (lowest, highest)), due(|&value| value >= 2));
            }
        }
        assert!(narrow(&ABSENT, &mut []));
    }

    #[test]
    fn sums_of_ranges() {
        let old = [(1, 3), (10, 10), (65_535, 65_535)];
        assert_eq!(summed(0x2000, &old), (1, 1));
        assert_eq!(summed(0x1001, &old), (1, 3));
        assert_eq!(summed(0x0003, &old), (10, 12));
        assert_eq!(summed(0x2007, &old), (65_547, 65_549));
        assert_eq!(summed(0x2fff, &[(1, HIGHEST); 12]), (13, 786_421));
    }
}
