//! The automaton: what the proved translator wrote into its tables, read into named parts.

use crate::record::{Shape, NODES, POINTERS, SIZE};

pub const MOST_LOCATIONS: usize = 1024;
pub const MOST_EDGES: usize = 2048;

/// The sizes of the two tables, in records.
#[derive(Clone, Copy, Debug)]
pub struct Places {
    pub locations: usize,
    pub edges: usize,
}

pub const ALL_PLACES: Places = Places { locations: MOST_LOCATIONS, edges: MOST_EDGES };

pub use currantplane::{Node, Refusal};

/// The two tables as they were written, one record after the other.
#[derive(Clone, Debug)]
pub struct Tables {
    pub locations: Vec<u8>,
    pub edges: Vec<u8>,
}

impl Tables {
    /// How many locations and how many edges there are.
    pub fn counts(&self) -> [usize; 2] {
        [self.locations.len() / SIZE, self.edges.len() / SIZE]
    }
}

/// Asks the proved translator.
pub fn tables(records: &[u8], places: Places) -> Result<Tables, Refusal> {
    let (mut locations, mut edges) = (vec![0; SIZE * places.locations], vec![0; SIZE * places.edges]);
    let (refusal, [l, e]) = currantplane::translate(records, &mut locations, &mut edges);
    if refusal.number != 0 {
        return Err(refusal);
    }
    locations.truncate(SIZE * l);
    edges.truncate(SIZE * e);
    Ok(Tables { locations, edges })
}

/// Whether the records pass the checks of the input. These come before those of the tables (11, 12), so tables without a place
/// tell.
pub fn check(records: &[u8]) -> Result<(), Refusal> {
    match tables(records, Places { locations: 0, edges: 0 }) {
        Ok(_) | Err(Refusal { number: 11 | 12, .. }) => Ok(()),
        Err(refusal) => Err(refusal),
    }
}

#[derive(Clone, PartialEq, Eq, Debug)]
pub struct Location {
    pub statement: usize,
    pub fault: u8,
    pub shape: Shape,
}

impl Location {
    pub fn read(record: &[u8]) -> Location {
        Location { statement: record[1] as usize, fault: record[2], shape: Shape::read(record) }
    }
}

/// On the counter of a node.
#[derive(Clone, Copy, PartialEq, Eq, Debug)]
pub enum Guard {
    IsOne(usize),
    AtLeastTwo(usize),
    /// What the layout of a record does not have. No move is made in tables with one.
    Damaged,
}

impl Guard {
    /// Of a kind and a node as they stand in a record, on one of so many nodes.
    fn read(kind: u8, node: u8, count: usize) -> Option<Guard> {
        match (kind, node as usize) {
            (0, 0) => None,
            (1, node) if node < count => Some(Guard::IsOne(node)),
            (2, node) if node < count => Some(Guard::AtLeastTwo(node)),
            _ => Some(Guard::Damaged),
        }
    }

    /// The node that it is on.
    pub fn node(self) -> Option<usize> {
        match self {
            Guard::IsOne(node) | Guard::AtLeastTwo(node) => Some(node),
            Guard::Damaged => None,
        }
    }
}

/// Byte 1 of an edge in its parts: the branch, and the kind and node of the second guard.
#[derive(Clone, Copy, PartialEq, Eq, Debug)]
pub struct ByteOne {
    pub branch: u8,
    pub kind: u8,
    pub node: u8,
    /// Bit 7, which no edge uses.
    pub spare: bool,
}

impl ByteOne {
    pub fn read(byte: u8) -> ByteOne {
        ByteOne { branch: byte & 1, kind: byte >> 1 & 3, node: byte >> 3 & 15, spare: byte >> 7 == 1 }
    }
}

/// The guards of an edge that leaves a shape with so many nodes, at most two.
fn guards(record: &[u8], count: usize) -> Vec<Guard> {
    let ByteOne { kind, node, spare, .. } = ByteOne::read(record[1]);
    let second = if spare { Some(Guard::Damaged) } else { Guard::read(kind, node, count) };
    Guard::read(record[6], record[7], count).into_iter().chain(second).collect()
}

/// A new counter: a constant and the old counters that are added to it.
#[derive(Clone, Copy, PartialEq, Eq, Debug)]
pub struct Update {
    pub constant: i64,
    added: u16,
}

impl Update {
    fn read(bits: u16) -> Update {
        Update { constant: i64::from(bits >> 12 & 3) - 1, added: bits & 0xfff }
    }

    pub fn added(self) -> impl Iterator<Item = usize> {
        (0..NODES).filter(move |node| self.added >> node & 1 == 1)
    }
}

#[derive(Clone, Debug)]
pub struct Edge {
    pub branch: u8,
    pub from: usize,
    pub to: usize,
    /// At most two. The edge is enabled when all hold.
    pub guards: Vec<Guard>,
    /// One for each node of the target.
    pub updates: Vec<Update>,
}

impl Edge {
    /// Which nodes its guards may be on, the location that it leaves tells; how many updates it has, its target.
    pub fn read(record: &[u8], locations: &[Location]) -> Edge {
        let pair = |at: usize| u16::from_le_bytes([record[at], record[at + 1]]);
        let (from, to) = (pair(2) as usize, pair(4) as usize);
        let guards = guards(record, locations.get(from).map_or(0, |location| location.shape.count));
        let updates = (0..locations[to].shape.count).map(|i| Update::read(pair(8 + 2 * i))).collect();
        Edge { branch: ByteOne::read(record[1]).branch, from, to, guards, updates }
    }
}

/// The tables, in which moves are made, and what stands in them.
#[derive(Clone, Debug)]
pub struct Automaton {
    pub tables: Tables,
    pub locations: Vec<Location>,
    pub edges: Vec<Edge>,
}

impl Automaton {
    pub fn read(tables: Tables) -> Automaton {
        let locations: Vec<Location> = tables.locations.chunks_exact(SIZE).map(Location::read).collect();
        let edges = tables.edges.chunks_exact(SIZE).map(|record| Edge::read(record, &locations)).collect();
        Automaton { tables, locations, edges }
    }

    /// The edges that leave a location, with their numbers.
    pub fn leaving(&self, location: usize) -> impl Iterator<Item = (usize, &Edge)> {
        self.edges.iter().enumerate().filter(move |(_, edge)| edge.from == location)
    }

    /// What the pointers hold in each location from which an edge leads there.
    pub fn reached_with(&self, location: usize) -> Vec<[u8; POINTERS]> {
        let entering = self.edges.iter().filter(|edge| edge.to == location);
        entering.map(|edge| self.locations[edge.from].shape.pointers).collect()
    }
}
