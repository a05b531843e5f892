//! Starts, and paths from them, on drafts that keep the layout.

use crate::automaton::{encode_edge, Edge};
use crate::random::Random;
use crate::records::NODES;
use crate::walk::{Configuration, Tables};
use crate::walk_damage::{any_of, Draft};

/// A location with these counters.
pub fn at(location: usize, first: &[u32]) -> Configuration {
    let mut counters = [0; NODES];
    counters[..first.len()].copy_from_slice(first);
    Configuration { location: location as u32, counters }
}

/// Any location, most often one that an edge leaves.
pub fn start(random: &mut Random, draft: &Draft) -> usize {
    if !draft.edges.is_empty() && random.chance(90) {
        draft.edge(random.below(draft.edges.len())).from
    } else {
        random.below(draft.locations.len())
    }
}

/// At most so many edges, each of which leaves the location reached. The
/// configuration can take them as far as possible; but so many times in a
/// hundred guards do not matter.
pub fn path(random: &mut Random, draft: &Draft, start: Configuration, most: usize, aside: usize) -> Vec<u32> {
    let (locations, edges) = (draft.locations.as_flattened(), draft.edges.as_flattened());
    let read = Tables::read(locations, edges, draft.locations.len(), draft.edges.len());
    let tables = read.expect("a draft that keeps the layout");
    let leaves = |location: usize, edge: usize| tables.edges[edge].from == location;
    let mut location = start.location as usize;
    // Nothing once an edge was put in that it cannot take.
    let mut walker = Some(start);
    let mut path = Vec::new();
    while path.len() < most {
        let leaving: Vec<usize> = (0..tables.edges.len()).filter(|&edge| leaves(location, edge)).collect();
        let can_take = |&edge: &usize| walker.is_some_and(|walker| tables.take(&walker, edge).is_ok());
        let taken: Vec<usize> = leaving.iter().copied().filter(can_take).collect();
        let among = if taken.is_empty() || random.chance(aside) { &leaving } else { &taken };
        if among.is_empty() {
            break;
        }
        // Rather not to where the path ends.
        let goes_on = |edge: usize| (0..tables.edges.len()).any(|next| leaves(tables.edges[edge].to, next));
        let mut edge = any_of(random, among);
        if !goes_on(edge) && random.chance(70) {
            edge = any_of(random, among);
        }
        path.push(edge as u32);
        location = tables.edges[edge].to;
        walker = walker.and_then(|walker| tables.take(&walker, edge).ok());
    }
    path
}

/// Puts a number into the last half of the path that is most likely wrong.
pub fn spoil_late(random: &mut Random, draft: &Draft, path: &mut Vec<u32>) {
    let place = random.between(path.len().div_ceil(2), path.len());
    let count = draft.edges.len() as u32;
    let any = random.below(count as usize) as u32;
    let number = any_of(random, &[count, u32::MAX, any, any, any, any + 65_536]);
    if place < path.len() {
        path[place] = number;
    } else {
        path.push(number);
    }
}

/// Some edges, or none, that lead back to a location and change nothing there.
pub fn around(random: &mut Random, draft: &mut Draft, location: usize) -> Vec<u32> {
    let turns = any_of(random, &[0, 1, 3]);
    let number = draft.edges.len() as u32;
    if turns > 0 {
        draft.edges.push(encode_edge(&draft.loop_at(location)));
    }
    vec![number; turns]
}

/// A path of so many edges: a few, one that leads back to its location again
/// and again, and a few. Now and then a number in it is wrong.
pub fn long(random: &mut Random, draft: &mut Draft, start: Configuration, length: usize) -> Vec<u32> {
    let mut path = path(random, draft, start, 3, 10);
    let location = path.last().map_or(start.location as usize, |&edge| draft.edge(edge as usize).to);
    let round = growing_loop(random, draft, location);
    let number = draft.edges.len() as u32;
    draft.edges.push(encode_edge(&round));
    let ones = vec![1; draft.nodes(location)];
    let rest = self::path(random, draft, at(location, &ones), 3, 20);
    path.resize(length - rest.len(), number);
    path.extend(rest);
    if random.chance(15) {
        let place = any_of(random, &[0, length / 2, length - 1, length - 1]);
        path[place] = draft.edges.len() as u32;
    }
    path
}

/// An edge back to its location which carries all counters, some of them with
/// one added.
fn growing_loop(random: &mut Random, draft: &Draft, location: usize) -> Edge {
    let mut round = draft.loop_at(location);
    let growing = any_of(random, &[0, 50, 100]);
    for update in &mut round.updates[..draft.nodes(location)] {
        if random.chance(growing) {
            *update += 0x1000;
        }
    }
    round
}
