//! Random tables that keep the layout, drawn by hand and not translated.

use crate::automaton::{decode_edge, encode_edge, Edge};
use crate::random::Random;
use crate::records::{fault_location, Guard, Record, ABSENT, LOCATION, NODES, NULL, ONE, RECORD, TWO_OR_MORE, UNDEFINED};

/// The records in use of both tables.
#[derive(Clone)]
pub struct Draft {
    pub locations: Vec<Record>,
    pub edges: Vec<Record>,
}

impl Draft {
    /// Few locations, and few edges or none. Most locations that are no faults
    /// have edges, and most edges lead to such locations.
    pub fn sound(random: &mut Random) -> Draft {
        let count = random.between(1, 8);
        let locations = (0..count).map(|_| random_location(random)).collect();
        let mut draft = Draft { locations, edges: Vec::new() };
        let edges = if random.chance(5) { 0 } else { random.between(1, 12) };
        for number in 0..edges {
            let from = if random.chance(80) { number % count } else { random.below(count) };
            let mut to = random.below(count);
            if draft.is_fault(to) && random.chance(70) {
                to = random.below(count);
            }
            let edge = draft.random_edge(random, from, to);
            draft.edges.push(encode_edge(&edge));
        }
        draft
    }

    pub fn is_fault(&self, location: usize) -> bool {
        self.locations[location][2] != 0
    }

    /// How many nodes a location of a sound draft has.
    pub fn nodes(&self, location: usize) -> usize {
        usize::from(self.locations[location][3])
    }

    pub fn edge(&self, number: usize) -> Edge {
        decode_edge(&self.edges[number])
    }

    /// The nodes of the source and of the target of an edge.
    pub fn ends(&self, number: usize) -> [usize; 2] {
        let edge = self.edge(number);
        [self.nodes(edge.from), self.nodes(edge.to)]
    }

    /// An edge between two locations. The old counters are spread over the new
    /// nodes, and some are left out.
    pub fn random_edge(&self, random: &mut Random, from: usize, to: usize) -> Edge {
        let [old, new] = [self.nodes(from), self.nodes(to)];
        let guards = [random_guard(random, old), random_guard(random, old)];
        let mut updates = [0; NODES];
        for node in 0..old {
            if new > 0 && random.chance(80) {
                updates[random.below(new)] |= 1 << node;
            }
        }
        for update in &mut updates[..new] {
            *update |= random_constant(random, *update, &guards) << 12;
        }
        Edge { branch: random.below(2) as u8, from, to, guards, updates }
    }

    /// An edge that leads back to its location and changes nothing.
    pub fn loop_at(&self, location: usize) -> Edge {
        let mut updates = [0; NODES];
        for (node, update) in updates.iter_mut().enumerate().take(self.nodes(location)) {
            *update = 0x1000 | 1 << node;
        }
        Edge { branch: 0, from: location, to: location, guards: [ABSENT; 2], updates }
    }
}

fn random_location(random: &mut Random) -> Record {
    let statement = random.below(64) as u8;
    if random.chance(20) {
        return fault_location(statement, random.between(1, 3) as u8);
    }
    let nodes = match random.below(10) {
        0 => NODES,
        1 => random.between(0, NODES),
        _ => random.between(1, 5),
    };
    let mut record = [0; RECORD];
    record[..4].copy_from_slice(&[LOCATION, statement, 0, nodes as u8]);
    for byte in &mut record[4..10 + nodes] {
        *byte = random_value_byte(random, nodes);
    }
    record
}

fn random_value_byte(random: &mut Random, nodes: usize) -> u8 {
    if nodes > 0 && random.chance(60) {
        random.below(nodes) as u8
    } else {
        [NULL, UNDEFINED][random.below(2)]
    }
}

fn random_guard(random: &mut Random, nodes: usize) -> Guard {
    if nodes == 0 || random.chance(60) {
        ABSENT
    } else {
        Guard { kind: [ONE, TWO_OR_MORE][random.below(2)], node: random.below(nodes) }
    }
}

/// A constant, plus one, with which the update always gives 1 or more.
fn random_constant(random: &mut Random, added: u16, guards: &[Guard; 2]) -> u16 {
    let lowest = match least_sum(added, guards) {
        Some(0) => 2,
        Some(1) => 1,
        _ => 0,
    };
    random.between(lowest, 2) as u16
}

/// The least sum of the counters that an update adds; none where the guards
/// exclude each other, so that the edge cannot be taken.
fn least_sum(added: u16, guards: &[Guard; 2]) -> Option<usize> {
    let has = |kind, node| guards.contains(&Guard { kind, node });
    if (0..NODES).any(|node| has(ONE, node) && has(TWO_OR_MORE, node)) {
        return None;
    }
    let least = |node| if has(TWO_OR_MORE, node) { 2 } else { 1 };
    Some((0..NODES).filter(|node| added >> node & 1 == 1).map(least).sum())
}
