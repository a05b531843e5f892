//! Walking the automaton of two tables: single moves, and walks along paths.

use crate::automaton::{decode_edge, Edge};
use crate::layout::{broken_clause, nodes_of, used};
use crate::records::{Guard, NODES, NO_GUARD, ONE};
use crate::refusal::Refusal;
use crate::translate::{places, LOCATIONS};

/// The most edge numbers of one walk.
pub const LONGEST: usize = 4096;

/// The two refusals; neither has a place.
const NO_MOVE: Refusal = Refusal::at(20, 0);
const TOO_LARGE: Refusal = Refusal::at(21, 0);

/// A location number and twelve counters.
#[derive(Clone, Copy, PartialEq, Eq, Debug)]
pub struct Configuration {
    pub location: u32,
    pub counters: [u32; NODES],
}

/// The answer of [`walk`].
#[derive(Clone, Copy, PartialEq, Eq, Debug)]
pub struct Walked {
    /// 20 or 21, if there is one.
    pub refusal: Option<Refusal>,
    /// How many moves were made.
    pub made: usize,
    /// What they led to.
    pub configuration: Configuration,
}

/// Moves along one edge. Refuses with 20 if the tables or the configuration
/// break the layout or the edge cannot be taken, and then with 21 if a counter
/// would pass 32 bits.
pub fn move_along(
    locations: &[u8],
    edges: &[u8],
    location_count: usize,
    edge_count: usize,
    configuration: Configuration,
    edge: usize,
) -> Result<Configuration, Refusal> {
    let tables = Tables::read(locations, edges, location_count, edge_count).ok_or(NO_MOVE)?;
    if !configuration_fits(locations, location_count, &configuration) {
        return Err(NO_MOVE);
    }
    tables.take(&configuration, edge)
}

/// Moves along one edge number after the other, as [`move_along`] does, up to
/// the first refusal. A path of more than 4,096 is refused with 20 as a whole.
/// The tables are looked at once.
pub fn walk(
    locations: &[u8],
    edges: &[u8],
    location_count: usize,
    edge_count: usize,
    configuration: Configuration,
    path: &[u32],
) -> Walked {
    let refused = Walked { refusal: Some(NO_MOVE), made: 0, configuration };
    let Some(tables) = Tables::read(locations, edges, location_count, edge_count) else {
        return refused;
    };
    if path.len() > LONGEST || !configuration_fits(locations, location_count, &configuration) {
        return refused;
    }
    tables.take_all(configuration, path)
}

/// Whether a configuration keeps the layout, given that the tables do: its
/// location is below the count, and it has a counter of 1 or more for each node
/// there and 0 for all others.
pub fn configuration_fits(locations: &[u8], location_count: usize, configuration: &Configuration) -> bool {
    let count = location_count.min(places(locations, LOCATIONS));
    let nodes = used(locations, count).get(configuration.location as usize).and_then(nodes_of);
    nodes.is_some_and(|nodes| {
        let (present, past) = configuration.counters.split_at(nodes);
        present.iter().all(|&counter| counter != 0) && past.iter().all(|&counter| counter == 0)
    })
}

/// Tables that keep the layout, as far as moves need them: how many nodes each
/// location has, and the edges.
pub struct Tables {
    pub nodes: Vec<usize>,
    pub edges: Vec<Edge>,
}

impl Tables {
    /// Reads tables, unless they break the layout.
    pub fn read(locations: &[u8], edges: &[u8], location_count: usize, edge_count: usize) -> Option<Tables> {
        if broken_clause(locations, edges, location_count, edge_count).is_some() {
            return None;
        }
        Some(Tables {
            nodes: used(locations, location_count).iter().map(nodes_of).collect::<Option<_>>()?,
            edges: used(edges, edge_count).iter().map(decode_edge).collect(),
        })
    }

    /// Takes an edge from a configuration that fits.
    pub fn take(&self, at: &Configuration, number: usize) -> Result<Configuration, Refusal> {
        let edge = self.edges.get(number).ok_or(NO_MOVE)?;
        let leaves = edge.from == at.location as usize;
        if !leaves || !edge.guards.iter().all(|guard| holds(guard, &at.counters)) {
            return Err(NO_MOVE);
        }
        let mut counters = [0; NODES];
        for (counter, &update) in counters[..self.nodes[edge.to]].iter_mut().zip(&edge.updates) {
            *counter = u32::try_from(updated(update, &at.counters)).map_err(|_| TOO_LARGE)?;
        }
        Ok(Configuration { location: edge.to as u32, counters })
    }

    /// Takes one edge after the other from a configuration that fits, up to the
    /// first refusal.
    pub fn take_all(&self, start: Configuration, path: &[u32]) -> Walked {
        let mut walked = Walked { refusal: None, made: 0, configuration: start };
        for &edge in path {
            // Sound tables lead from a sound configuration to sound ones only.
            match self.take(&walked.configuration, edge as usize) {
                Ok(moved) => walked.configuration = moved,
                Err(refusal) => return Walked { refusal: Some(refusal), ..walked },
            }
            walked.made += 1;
        }
        walked
    }
}

fn holds(guard: &Guard, counters: &[u32; NODES]) -> bool {
    match guard.kind {
        NO_GUARD => true,
        ONE => counters[guard.node] == 1,
        _ => counters[guard.node] >= 2,
    }
}

/// The finished value of a new counter, which is 1 or more.
fn updated(update: u16, counters: &[u32; NODES]) -> u64 {
    let mut sum = u64::from(update >> 12);
    let mut left = update & 0xfff;
    while left != 0 {
        sum += u64::from(counters[left.trailing_zeros() as usize]);
        left &= left - 1;
    }
    // The constant is kept with one added to it.
    sum - 1
}
