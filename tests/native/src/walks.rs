//! Moves and walks: by both, as the records themselves say, and along edges drawn at random; and the tables for them.

use crate::damage::many_nodes;
use crate::draw::{dropping_routine, relinking_routine, routine, testing_routine, Draw};
use crate::edges::{enabled, updates};
use crate::{make_move, make_walk, Configuration};
use reference::walk_damage::DrawnWalk;

pub type Record = [u8; 32];

/// Refusal, moves made and configuration after a walk.
pub type Walked = (u8, usize, Configuration);

/// The second translator's form of a configuration, and back.
fn theirs(at: Configuration) -> reference::Configuration {
    reference::Configuration { location: at.location, counters: at.counters }
}

fn ours(at: reference::Configuration) -> Configuration {
    Configuration { location: at.location, counters: at.counters }
}

/// At a location, with the first counters as given and the others 0.
pub fn standing(location: u32, first: &[u32]) -> Configuration {
    let mut counters = [0; 12];
    counters[..first.len()].copy_from_slice(first);
    Configuration { location, counters }
}

/// Both tables, and the counts in use.
#[derive(Clone, Debug)]
pub struct Tables {
    pub locations: Vec<u8>,
    pub edges: Vec<u8>,
    pub counts: [usize; 2],
}

impl Tables {
    /// Those of a drawn walk, with where it starts.
    pub fn drawn(drawn: &DrawnWalk) -> (Tables, Configuration) {
        let (locations, edges) = (drawn.locations.clone(), drawn.edges.clone());
        (Tables { locations, edges, counts: [drawn.location_count, drawn.edge_count] }, ours(drawn.configuration))
    }

    /// The listing of a routine by the proved translator, without a place to spare; none where it is refused.
    pub fn listed(input: &[u8]) -> Option<Tables> {
        let (mut locations, mut edges) = (vec![0xa5; 32_768], vec![0x5a; 65_536]);
        let (refusal, counts) = crate::translate(input, &mut locations, &mut edges);
        locations.truncate(32 * counts[0]);
        edges.truncate(32 * counts[1]);
        (refusal.number == 0).then_some(Tables { locations, edges, counts })
    }

    /// Records that are all in use.
    pub fn of(locations: &[[u8; 32]], edges: &[[u8; 32]]) -> Tables {
        Tables { locations: locations.concat(), edges: edges.concat(), counts: [locations.len(), edges.len()] }
    }

    pub fn location(&self, number: u32) -> &[u8] {
        &self.locations[32 * number as usize..][..32]
    }

    pub fn edge(&self, number: u32) -> &[u8] {
        &self.edges[32 * number as usize..][..32]
    }

    /// By the proved library alone.
    pub fn walk_proved(&self, mut at: Configuration, path: &[u32]) -> Walked {
        let (number, made) = make_walk(&mut at, &self.locations, &self.edges, self.counts[0], self.counts[1], path);
        (number, made, at)
    }

    pub fn move_proved(&self, mut at: Configuration, number: usize) -> (u8, Configuration) {
        let refusal = make_move(&mut at, &self.locations, &self.edges, self.counts[0], self.counts[1], number);
        (refusal, at)
    }

    /// By the second translator alone.
    pub fn walk_second(&self, at: Configuration, path: &[u32]) -> Walked {
        let told = reference::walk(&self.locations, &self.edges, self.counts[0], self.counts[1], theirs(at), path);
        assert_eq!(told.refusal.map_or(0, |refusal| refusal.place), 0);
        (told.refusal.map_or(0, |refusal| refusal.number), told.made, ours(told.configuration))
    }

    pub fn move_second(&self, at: Configuration, number: usize) -> (u8, Configuration) {
        let told = reference::move_along(&self.locations, &self.edges, self.counts[0], self.counts[1], theirs(at), number);
        told.map_or_else(|refusal| (refusal.number, at), |to| (0, ours(to)))
    }

    /// A walk by both, which agree.
    pub fn walk(&self, at: Configuration, path: &[u32]) -> Walked {
        let walked = self.walk_proved(at, path);
        assert_eq!(walked, self.walk_second(at, path), "{at:?} along {path:?} in {self:x?}");
        walked
    }

    /// A move by both, which agree.
    pub fn move_along(&self, at: Configuration, number: usize) -> (u8, Configuration) {
        let moved = self.move_proved(at, number);
        assert_eq!(moved, self.move_second(at, number), "{at:?} along {number} in {self:x?}");
        moved
    }

    /// Whether an empty walk is accepted by both, which is that nothing breaks the layout.
    pub fn keep(&self, at: Configuration) -> bool {
        let (refusal, made, after) = self.walk(at, &[]);
        assert_eq!((refusal == 0 || refusal == 20, made, after), (true, 0, at), "{at:?} in {self:x?}");
        refusal == 0
    }

    /// The edges that can be taken there, by the bytes of their records: 21 aside.
    pub fn ways(&self, at: &Configuration) -> Vec<u32> {
        let can = |edge: &[u8]| edge[2..4] == (at.location as u16).to_le_bytes() && enabled(edge, &at.counters);
        (0..self.counts[1] as u32).filter(|&number| can(self.edge(number))).collect()
    }

    /// Where an edge that can be taken leads, by the bytes of its record; none where a counter would pass 32 bits.
    pub fn led(&self, at: &Configuration, number: u32) -> Option<Configuration> {
        let edge = self.edge(number);
        let location = u32::from(u16::from_le_bytes([edge[4], edge[5]]));
        let mut counters = [0; 12];
        for (new, update) in counters.iter_mut().zip(updates(edge)).take(self.location(location)[3].into()) {
            let added: u64 = (0..12).filter(|i| update >> i & 1 == 1).map(|i| u64::from(at.counters[i])).sum();
            *new = u32::try_from(added + u64::from(update >> 12) - 1).ok()?;
        }
        Some(Configuration { location, counters })
    }

    /// At most so many edges, each drawn from those that can be taken, and where they lead. It ends where there are none.
    pub fn path(&self, d: &mut Draw, mut at: Configuration, most: usize) -> (Vec<u32>, Configuration) {
        let mut path = Vec::new();
        while path.len() < most {
            let ways: Vec<_> = self.ways(&at).into_iter().filter_map(|edge| Some((edge, self.led(&at, edge)?))).collect();
            if ways.is_empty() {
                break;
            }
            let (edge, to) = ways[d.below(ways.len())];
            path.push(edge);
            at = to;
        }
        (path, at)
    }
}

/// A location with so many nodes, which nothing holds.
pub fn nodes(count: usize) -> Record {
    let mut record = [0; 32];
    (record[0], record[3]) = (0x4c, count as u8);
    record[4..10 + count].fill(0xfe);
    record
}

/// An edge without guards.
pub fn edge(from: u8, to: u8, updates: &[u16]) -> Record {
    let mut record = [0; 32];
    (record[0], record[2], record[4]) = (0x45, from, to);
    updates.iter().enumerate().for_each(|(i, update)| record[8 + 2 * i..][..2].copy_from_slice(&update.to_le_bytes()));
    record
}

/// Of four kinds, small and large, some with shapes of many nodes.
pub fn drawn_routine(d: &mut Draw, i: usize) -> Vec<u8> {
    // more large ones than the routines' own numbering gives
    let size = [0, 0, 1, 2, 5][i / 4 % 5];
    let mut input = [routine, relinking_routine, testing_routine, dropping_routine][i % 4](d, size);
    if d.one_in(6) {
        let (shape, last) = (many_nodes(d), input.len() - 32);
        input[last..].copy_from_slice(&shape);
    }
    input
}

/// A routine of the folder `inputs`.
pub fn shipped(name: &str) -> Vec<u8> {
    std::fs::read(format!("{}/inputs/{name}.in", env!("CARGO_MANIFEST_DIR"))).unwrap()
}
