//! Configurations, and paths from them, on drafts that keep the layout.

use super::draft::Draft;
use super::{any_of, pick, within};
use crate::automaton::encode_edge;
use crate::random::Random;
use crate::records::{Guard, NODES, ONE};
use crate::walk::{Configuration, Tables};

/// A configuration at this location that fits it. Its counters are small,
/// large or either.
pub fn configuration(random: &mut Random, draft: &Draft, location: usize) -> Configuration {
    let large = [0, 0, 10, 60][random.below(4)];
    let mut counters = [0; NODES];
    for counter in &mut counters[..draft.nodes(location)] {
        *counter = if random.chance(large) { large_counter(random) } else { random.between(1, 3) as u32 };
    }
    Configuration { location: location as u32, counters }
}

fn large_counter(random: &mut Random) -> u32 {
    let any = random.next() as u32;
    any_of(random, &[u32::MAX, u32::MAX - 1, 1 << 31, (1 << 31) - 1, any.max(1)])
}

/// Any location, most often one that an edge leaves.
pub fn location(random: &mut Random, draft: &Draft) -> usize {
    if !draft.edges.is_empty() && random.chance(85) {
        draft.edge(random.below(draft.edges.len())).from
    } else {
        random.below(draft.locations.len())
    }
}

/// At most so many edge numbers from this configuration on, after the first if
/// one is given. Only the last of them may be refused: where no edge can be
/// taken, any number ends the path.
pub fn path(random: &mut Random, draft: &Draft, start: Configuration, first: Option<usize>, most: usize) -> Vec<u32> {
    let (locations, edges) = (draft.locations.as_flattened(), draft.edges.as_flattened());
    let read = Tables::read(locations, edges, draft.locations.len(), draft.edges.len());
    let tables = read.expect("a draft that keeps the layout");
    let mut path = Vec::new();
    let mut at = start;
    let mut given = first;
    while path.len() < most {
        let any = |random: &mut Random| pick(random, draft.edges.len(), |edge| tables.take(&at, edge).is_ok());
        let edge = given.take().or_else(|| any(random)).unwrap_or_else(|| random.below(draft.edges.len() + 1));
        path.push(edge as u32);
        match tables.take(&at, edge) {
            Ok(moved) => at = moved,
            Err(_) => break,
        }
    }
    path
}

/// Long paths keep away from faults and have loops to go on with.
pub fn endless(random: &mut Random, draft: &mut Draft) {
    for location in 0..draft.locations.len() {
        if draft.is_fault(location) {
            draft.edges.retain(|record| usize::from(record[4]) != location);
        } else {
            let number = random.between(0, draft.edges.len());
            draft.edges.insert(number, encode_edge(&draft.loop_at(location)));
        }
    }
}

/// An edge, and a configuration from which one of its new counters is just
/// below 2^32 or just above.
pub fn near_the_limit(random: &mut Random, draft: &Draft) -> Option<(usize, Configuration)> {
    // Most often of an update that can pass the limit at all.
    let ones = if random.chance(70) { 2 } else { 1 };
    let adds = |update: &u16| (update & 0xfff).count_ones() >= ones;
    let number = pick(random, draft.edges.len(), |number| draft.edge(number).updates.iter().any(adds))?;
    let edge = draft.edge(number);
    let entry = pick(random, NODES, |entry| adds(&edge.updates[entry]))?;
    let update = edge.updates[entry];
    let mut at = configuration(random, draft, edge.from);
    at.counters = at.counters.map(|counter| counter.min(2));
    for Guard { kind, node } in edge.guards {
        if kind != 0 {
            at.counters[node] = u32::from(kind);
        }
    }
    // What the counters sum up to, all but the constant.
    let due = (1u64 << 32) + random.below(4) as u64 - 2 - u64::from(update >> 12) + 1;
    let is_free = |node: usize| update >> node & 1 == 1 && !edge.guards.contains(&Guard { kind: ONE, node });
    let sum: u64 = (0..NODES).filter(|node| update >> node & 1 == 1).map(|node| u64::from(at.counters[node])).sum();
    let mut missing = due - sum;
    // Half of it to one counter, and the rest to another or the same.
    for share in [2, 1] {
        let node = pick(random, NODES, is_free)?;
        let more = (missing / share).min(u64::from(u32::MAX - at.counters[node]));
        at.counters[node] += more as u32;
        missing -= more;
    }
    (missing == 0).then_some((number, at))
}

/// A configuration that breaks the layout.
pub fn wrong(random: &mut Random, draft: &Draft, fits: Configuration) -> Configuration {
    let nodes = draft.nodes(fits.location as usize);
    let count = draft.locations.len() as u32;
    let mut wrong = fits;
    match random.below(4) {
        0 if nodes > 0 => wrong.counters[within(random, 0, nodes - 1)] = 0,
        1 if nodes < NODES => {
            let node = within(random, nodes, NODES - 1);
            wrong.counters[node] = any_of(random, &[1, 2, u32::MAX]);
        }
        // The place after the last, which may hold the first location again.
        2 => wrong = Configuration { location: count, ..configuration(random, draft, 0) },
        _ => wrong.location = any_of(random, &[count, count + 1, fits.location + 256, fits.location + 65_536, u32::MAX]),
    }
    wrong
}

/// Puts a number into the path that cannot be taken there, or most likely not.
pub fn spoil(random: &mut Random, draft: &Draft, path: &mut Vec<u32>) {
    let count = draft.edges.len() as u32;
    let at = random.between(0, path.len());
    let any = random.below(count as usize + 2) as u32;
    let number = any_of(random, &[count, count + 1, any, any, any + 256, any + 65_536, u32::MAX]);
    if at < path.len() && random.chance(50) {
        path[at] = number;
    } else {
        path.insert(at, number);
    }
}
