//! The translator: from a routine to the tables of locations and edges.

use crate::automaton::{encode_edge, Edge};
use crate::input::{read_routine, Routine};
use crate::probe::{find_edges, Found};
use crate::records::{location, Record, RECORD};
use crate::refusal::{refuse, Node, Refusal};
use crate::search::search;

/// The most locations and edges, however long the lent tables are.
pub const LOCATIONS: usize = 1024;
pub const EDGES: usize = 2048;

/// The answer of [`translate`]. On a refusal both counts are 0.
#[derive(Clone, Copy, PartialEq, Eq, Debug)]
pub struct Translated {
    /// 0 for none, otherwise 1 to 12, 18 or 19.
    pub refusal: u8,
    /// The place of the refusal, 0 if there is none.
    pub place: usize,
    /// The first node concerned, for the refusals 9, 18 and 19; otherwise 0.
    pub node: Node,
    /// How many L records stand in the first table.
    pub locations: usize,
    /// How many E records stand in the second table.
    pub edges: usize,
}

/// Translates a routine into the two lent tables. Every byte of them is
/// written: the records, then zeros; on a refusal zeros alone.
pub fn translate(input: &[u8], locations: &mut [u8], edges: &mut [u8]) -> Translated {
    let location_places = places(locations, LOCATIONS);
    let edge_places = places(edges, EDGES);
    locations.fill(0);
    edges.fill(0);
    let listing = read_routine(input).and_then(|routine| explore(&routine, location_places, edge_places));
    match listing {
        Ok(listing) => {
            copy_records(&listing.locations, locations);
            copy_records(&listing.edges, edges);
            let (locations, edges) = (listing.locations.len(), listing.edges.len());
            Translated { refusal: 0, place: 0, node: Node(0), locations, edges }
        }
        Err(Refusal { number, place, node }) => Translated { refusal: number, place, node, locations: 0, edges: 0 },
    }
}

/// The places of a table that has at most so many.
pub fn places(table: &[u8], most: usize) -> usize {
    most.min(table.len() / RECORD)
}

fn copy_records(records: &[Record], table: &mut [u8]) {
    for (place, record) in table.chunks_exact_mut(RECORD).zip(records) {
        place.copy_from_slice(record);
    }
}

/// The locations and edges found so far, and how many there may be.
struct Listing {
    locations: Vec<Record>,
    edges: Vec<Record>,
    location_places: usize,
    edge_places: usize,
}

fn explore(routine: &Routine, location_places: usize, edge_places: usize) -> Result<Listing, Refusal> {
    let mut listing = Listing { locations: Vec::new(), edges: Vec::new(), location_places, edge_places };
    for (number, shape) in routine.shapes.iter().enumerate() {
        listing.enter(location(0, shape), number)?;
    }
    let mut exploring = 0;
    while exploring < listing.locations.len() {
        let place = listing.locations[exploring];
        for found in find_edges(&place, &routine.statements) {
            listing.add_edge(&found, exploring)?;
        }
        exploring += 1;
    }
    Ok(listing)
}

impl Listing {
    /// The number of a location, which is entered if it is new. `place` is
    /// what a refusal tells.
    fn enter(&mut self, record: Record, place: usize) -> Result<usize, Refusal> {
        let known = self.locations.len();
        if let Some(number) = search(self.locations.as_flattened(), known, &record) {
            return Ok(number);
        }
        if known == self.location_places {
            return refuse(11, place);
        }
        self.locations.push(record);
        Ok(known)
    }

    /// The target's place comes before the edge's own.
    fn add_edge(&mut self, found: &Found, from: usize) -> Result<(), Refusal> {
        let to = self.enter(found.target, from)?;
        if self.edges.len() == self.edge_places {
            return refuse(12, from);
        }
        let Found { branch, guards, updates, .. } = *found;
        self.edges.push(encode_edge(&Edge { branch, from, to, guards, updates }));
        Ok(())
    }
}

#[cfg(test)]
mod tests {
    use super::*;
    use crate::selftest::{drop_inputs, sound_inputs};
    use std::collections::HashMap;

    type Records = (Vec<Record>, Vec<Record>);

    /// The same listing, with the numbers kept in a map.
    fn by_map(routine: &Routine, location_places: usize, edge_places: usize) -> Result<Records, Refusal> {
        let (mut locations, mut edges): Records = Default::default();
        let mut numbers: HashMap<Record, usize> = HashMap::new();
        for shape in &routine.shapes {
            if locations.len() == location_places {
                return refuse(11, location_places);
            }
            numbers.insert(location(0, shape), locations.len());
            locations.push(location(0, shape));
        }
        let mut from = 0;
        while from < locations.len() {
            for Found { branch, guards, target, updates } in find_edges(&locations[from], &routine.statements) {
                let to = *numbers.entry(target).or_insert(locations.len());
                if to == location_places {
                    return refuse(11, from);
                }
                if to == locations.len() {
                    locations.push(target);
                }
                if edges.len() == edge_places {
                    return refuse(12, from);
                }
                edges.push(encode_edge(&Edge { branch, from, to, guards, updates }));
            }
            from += 1;
        }
        Ok((locations, edges))
    }

    #[test]
    fn a_map_gives_the_same_listings_and_refusals() {
        // Listings that fit, and refusals 11 and 12.
        let mut met = [0; 3];
        for (number, input) in sound_inputs(8).take(1500).chain(drop_inputs(8).take(1500)).enumerate() {
            let routine = read_routine(&input).expect("a sound routine");
            for places in [[LOCATIONS, EDGES], [128, 256], [number % 12, EDGES], [LOCATIONS, number % 23]] {
                let due = by_map(&routine, places[0], places[1]);
                let listing = explore(&routine, places[0], places[1]);
                met[due.as_ref().map_or_else(|refusal| usize::from(refusal.number - 10), |_| 0)] += 1;
                assert_eq!(listing.map(|listing| (listing.locations, listing.edges)), due, "{routine:?} in {places:?}");
            }
        }
        assert!(met.iter().all(|&count| count >= 1000), "{met:?}");
    }
}
