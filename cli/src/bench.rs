//! The controller bench: how much of its tables a routine uses, or by how much it does not fit. Whether it fits, the proved
//! translator says, which is called with tables of these places.

use crate::automaton::{tables, Automaton, Places, Refusal, ALL_PLACES, MOST_EDGES, MOST_LOCATIONS};
use crate::names::count;
use crate::refusal;
use crate::source::{Failure, Source, REFUSED};

/// The label controller has room for 4,096 bytes of locations and 8,192 of edges, in records of 32 bytes.
pub const PLACES: Places = Places { locations: 128, edges: 256 };

/// For a routine that has no place. Larger tables, which `translate` offers otherwise, the bench does not have.
const CHANGE: &str = "write a shorter routine, use fewer starting shapes or fewer pointers, and set pointers to null when they \
                      are no longer needed";

/// What an automaton in the bench's tables uses of them: a line of its listing.
pub fn used(automaton: &Automaton) -> String {
    let [of_locations, of_edges] = [PLACES.locations, PLACES.edges];
    let [locations, edges] = [automaton.locations.len(), automaton.edges.len()];
    format!("Fits the bench: {locations} of {of_locations} locations, {edges} of {of_edges} edges\n")
}

/// A refusal where the tables are the bench's. The checks of the input have nothing to do with these and are told as ever.
pub fn failure(refused: Refusal, source: &Source) -> Failure {
    let (new, places) = match refused.number {
        11 => ("a new location", format!("{} places for locations", PLACES.locations)),
        12 => ("an edge", format!("{} places for edges", PLACES.edges)),
        _ => return refusal::failure(refused, source, PLACES),
    };
    let [locations, edges] = [PLACES.locations, PLACES.edges];
    let means = format!("the bench has no place for {new}: it has tables for {locations} locations and {edges} edges");
    // a location, and never a starting shape: at most 16 of these are entered, and each finds a place
    let explored = format!("all {places} were in use when location {} was explored", refused.place);
    let here = format!("{explored}; {}", full(source));
    Failure { status: REFUSED, message: refusal::told(refused, source, [&means, CHANGE], Some(here)) }
}

/// What the full translator says of a routine that does not fit the bench.
fn full(source: &Source) -> String {
    match tables(&source.records, ALL_PLACES) {
        Ok(tables) => {
            let [locations, edges] = tables.counts();
            let has = format!("{} and {}", count(locations, "location"), count(edges, "edge"));
            format!("the full listing has {has}, which is {} too many", excess(locations, edges))
        }
        Err(Refusal { number, .. }) => {
            let places = format!("{MOST_LOCATIONS} locations and {MOST_EDGES} edges");
            format!("the routine does not fit the {places} of the full translator either (refused {number})")
        }
    }
}

/// How many are too many for the bench: `1 location and 20 edges`, or one of the two.
fn excess(locations: usize, edges: usize) -> String {
    let over = [(locations, PLACES.locations, "location"), (edges, PLACES.edges, "edge")];
    let too_many = over.into_iter().filter(|(n, places, _)| n > places).map(|(n, places, what)| count(n - places, what));
    too_many.collect::<Vec<_>>().join(" and ")
}
