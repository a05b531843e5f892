//! Moves, walks and paths from ranges along the automaton's edges, each by the proved library. Which edge a run takes
//! is chosen here.

use crate::automaton::{Automaton, Refusal, Tables};
use crate::bounds::{self, Range};
use crate::record::NODES;
use currantplane::Ranged;

pub use currantplane::Configuration;

/// The most edges of one walk.
pub const LONGEST: usize = 4096;

/// A move that cannot be made, and one that would take a counter past 32 bits.
pub const NO_MOVE: u8 = 20;
pub const TOO_LARGE: u8 = 21;

/// A location, and a range for each of its counters.
#[derive(Clone, PartialEq, Eq, Debug)]
pub struct Reached {
    pub location: usize,
    pub ranges: Vec<Range>,
}

/// What the proved library says of a path from ranges: what is reached, the first position where no start can go on,
/// or a refusal.
#[derive(Clone, PartialEq, Eq, Debug)]
pub enum Followed {
    To(Reached),
    EndsAt(usize),
    Refused(Refusal),
}

/// A location with a counter for each of its nodes.
pub fn configuration(location: usize, counters: &[u32]) -> Configuration {
    let mut all = [0; NODES];
    all[..counters.len()].copy_from_slice(counters);
    // there are at most 1,024 locations
    Configuration { location: location as u32, counters: all }
}

impl Automaton {
    /// One move along the edge with this number: the refusal, 0 for none. A refused move changes nothing.
    pub fn make_move(&self, at: &mut Configuration, edge: usize) -> u8 {
        let Tables { locations, edges } = &self.tables;
        let [location_count, edge_count] = self.tables.counts();
        currantplane::make_move(at, locations, edges, location_count, edge_count, edge)
    }

    /// A walk in one call: the refusal, 0 for none, and how many moves were made.
    pub fn make_walk(&self, at: &mut Configuration, path: &[u32]) -> (u8, usize) {
        let Tables { locations, edges } = &self.tables;
        let [location_count, edge_count] = self.tables.counts();
        currantplane::make_walk(at, locations, edges, location_count, edge_count, path)
    }

    /// Whether some start within these ranges follows a path from a location, and what is reached.
    pub fn follow_ranges(&self, start: usize, ranges: &[Range], path: &[u32]) -> Followed {
        let Tables { locations, edges } = &self.tables;
        let mut numbers = bounds::laid(ranges);
        match currantplane::follow_ranges(locations, edges, self.tables.counts(), start, path, &mut numbers) {
            Ranged::Follows(location) => {
                let ranges = bounds::read(&numbers, self.locations[location].shape.count);
                Followed::To(Reached { location, ranges })
            }
            Ranged::EndsAt(position) => Followed::EndsAt(position),
            Ranged::Refused(refusal) => Followed::Refused(refusal),
        }
    }

    /// Whether the tables and a configuration keep the layout, which an empty walk tells.
    pub fn keeps_layout(&self, at: &Configuration) -> bool {
        self.make_walk(&mut { *at }, &[]) == (0, 0)
    }

    /// The counters of the nodes that the location has.
    pub fn counters<'a>(&self, at: &'a Configuration) -> &'a [u32] {
        &at.counters[..self.locations[at.location as usize].shape.count]
    }

    /// Takes the edge of this branch that can be taken, and gives its number; there must be exactly one.
    pub fn follow(&self, at: &mut Configuration, branch: u8) -> Result<usize, String> {
        let of_branch = self.leaving(at.location as usize).filter(|(_, edge)| edge.branch == branch);
        let mut taken = Vec::new();
        for (edge, _) in of_branch {
            let mut after = *at;
            match self.make_move(&mut after, edge) {
                0 => taken.push((edge, after)),
                TOO_LARGE => return Err(format!("edge {edge} would take a counter past 32 bits (refused {TOO_LARGE})")),
                _ => {}
            }
        }
        let [(edge, after)] = taken[..] else { return Err(self.not_one(taken.len(), at, branch)) };
        *at = after;
        Ok(edge)
    }

    /// Why none or several edges can be taken.
    fn not_one(&self, taken: usize, at: &Configuration, branch: u8) -> String {
        match self.keeps_layout(at) {
            true => format!("{taken} edges of branch {branch} are enabled at location {}", at.location),
            false => format!("the tables or the counters break the layout, so no move is made (refused {NO_MOVE})"),
        }
    }
}
