//! One record of an automaton, as the proved library hands it back out of the two tables: in hex and in words.

use crate::automaton::{Automaton, ByteOne, Edge, Location, Tables};
use crate::listing::{idle_note, Listing};
use crate::refusal;
use crate::source::{Failure, REFUSED};
use crate::style::{fill, with_commas};

/// Which table is meant.
#[derive(Clone, Copy, PartialEq, Eq, Debug)]
pub enum Kind {
    Location,
    Edge,
}

impl Kind {
    pub fn of(word: &str) -> Option<Kind> {
        match word {
            "location" => Some(Kind::Location),
            "edge" => Some(Kind::Edge),
            _ => None,
        }
    }

    fn name(self) -> &'static str {
        match self {
            Kind::Location => "location",
            Kind::Edge => "edge",
        }
    }

    fn mark(self) -> usize {
        match self {
            Kind::Location => currantplane::LOCATIONS,
            Kind::Edge => currantplane::EDGES,
        }
    }
}

/// The listing, for the words; its automaton has the tables.
pub struct Show<'a> {
    pub listing: Listing<'a>,
}

impl Show<'_> {
    /// The record with this number, or why there is none.
    pub fn record(&self, kind: Kind, number: usize) -> Result<String, Failure> {
        let Listing { source, automaton: Automaton { tables, .. }, .. } = self.listing;
        let in_use = in_use(tables, kind);
        let (refused, record) = currantplane::record(&tables.locations, &tables.edges, tables.counts(), kind.mark(), number);
        if refused.number != 0 {
            let message = refusal::explained(refused, source, Some(in_use));
            return Err(Failure { status: REFUSED, message });
        }
        let head = format!("{}: {} {number}; {}\n", source.name, kind.name(), in_use);
        let hex = format!("{:<15}{}\n", "record", refusal::hex(record));
        Ok(head + &idle_note(self.listing.routine) + &hex + &self.words(kind, number, record))
    }

    fn words(&self, kind: Kind, number: usize, record: &[u8]) -> String {
        let Show { listing } = self;
        match kind {
            Kind::Location => listing.location(number, &Location::read(record)) + &listing.edges(number),
            Kind::Edge => {
                let locations = &listing.automaton.locations;
                let edge = Edge::read(record, locations);
                let ends = if edge.from == edge.to { vec![edge.from] } else { vec![edge.from, edge.to] };
                let drawn = ends.iter().map(|&end| listing.location(end, &locations[end]));
                byte_one(record[1]) + &listing.edge(number, &edge) + &drawn.collect::<String>()
            }
        }
    }
}

/// `the locations are 0 to 19`
pub fn in_use(tables: &Tables, kind: Kind) -> String {
    let name = kind.name();
    match tables.counts()[kind.mark()] {
        0 => format!("there is no {name}"),
        1 => format!("the only {name} is 0"),
        n => format!("the {name}s are 0 to {}", n - 1),
    }
}

/// Byte 1 of an edge by its bits, where it holds more than the branch.
fn byte_one(byte: u8) -> String {
    let ByteOne { branch, kind, node, spare } = ByteOne::read(byte);
    if byte == branch {
        return String::new();
    }
    let second = match kind {
        0 => "no second guard",
        1 => "second guard = 1",
        2 => "second guard >= 2",
        _ => "second guard 3, which there is not",
    };
    let mut pieces = vec![
        format!("0x{byte:02x}: branch {branch} (bit 0)"),
        format!("{second} (bits 1 and 2)"),
        format!("its node {node} (bits 3 to 6)"),
    ];
    if spare {
        pieces.push("bit 7 is set".into());
    }
    fill(&format!("{:<15}", "byte 1"), 15, &with_commas(&pieces))
}
