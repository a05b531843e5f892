//! The automaton read back from the bytes of the two tables.

use crate::fold::Counters;
use crate::records::{branch_byte, Guard, Record, EDGE, LOCATION, NODES, NO_GUARD, ONE, RECORD, TWO_OR_MORE};

/// An edge as its record tells it.
#[derive(Clone, Copy, PartialEq, Eq, Debug)]
pub struct Edge {
    pub branch: u8,
    pub from: usize,
    pub to: usize,
    /// The first guard and the second.
    pub guards: [Guard; 2],
    pub updates: [u16; NODES],
}

/// The records in use of both tables.
pub struct Automaton {
    pub locations: Vec<Record>,
    pub edges: Vec<Edge>,
    leaving: Vec<Vec<usize>>,
}

/// Where a run of the automaton stands.
#[derive(Clone, PartialEq, Eq, Debug)]
pub struct Configuration {
    pub location: usize,
    pub counters: Counters,
}

fn two_bytes(record: &[u8], at: usize) -> u16 {
    u16::from(record[at]) | u16::from(record[at + 1]) << 8
}

/// The fields of an E record, whatever its bytes are.
pub fn decode_edge(record: &Record) -> Edge {
    let mut updates = [0; NODES];
    for (number, update) in updates.iter_mut().enumerate() {
        *update = two_bytes(record, 8 + 2 * number);
    }
    let first = Guard { kind: record[6], node: usize::from(record[7]) };
    let second = Guard { kind: record[1] >> 1 & 3, node: usize::from(record[1] >> 3 & 15) };
    Edge {
        branch: record[1] & 1,
        from: usize::from(two_bytes(record, 2)),
        to: usize::from(two_bytes(record, 4)),
        guards: [first, second],
        updates,
    }
}

/// The E record with these fields.
pub fn encode_edge(edge: &Edge) -> Record {
    let [first, second] = edge.guards;
    let mut record = [0; RECORD];
    record[0] = EDGE;
    record[1] = branch_byte(edge.branch, second);
    record[2..4].copy_from_slice(&(edge.from as u16).to_le_bytes());
    record[4..6].copy_from_slice(&(edge.to as u16).to_le_bytes());
    record[6] = first.kind;
    record[7] = first.node as u8;
    for (bytes, update) in record[8..].chunks_exact_mut(2).zip(edge.updates) {
        bytes.copy_from_slice(&update.to_le_bytes());
    }
    record
}

fn read_edge(record: &Record) -> Result<Edge, String> {
    let edge = decode_edge(record);
    let sound = record[0] == EDGE
        && record[1] & 0x80 == 0
        && edge.guards.iter().all(is_guard)
        && edge.updates.iter().all(|&update| update >> 12 <= 2);
    if sound {
        Ok(edge)
    } else {
        Err(format!("a record that is no edge: {record:02x?}"))
    }
}

fn is_guard(guard: &Guard) -> bool {
    guard.kind <= TWO_OR_MORE && guard.node < NODES && (guard.kind != NO_GUARD || guard.node == 0)
}

fn holds(guard: &Guard, counters: &Counters) -> bool {
    match guard.kind {
        NO_GUARD => true,
        ONE => counters[guard.node] == 1,
        _ => counters[guard.node] >= 2,
    }
}

impl Automaton {
    /// Reads so many records of each table; what follows them must be zero.
    pub fn read(locations: &[u8], location_count: usize, edges: &[u8], edge_count: usize) -> Result<Automaton, String> {
        let location_records = used_records(locations, location_count)?;
        let edge_records = used_records(edges, edge_count)?;
        for record in &location_records {
            if record[0] != LOCATION {
                return Err(format!("a record that is no location: {record:02x?}"));
            }
        }
        let edges: Vec<Edge> = edge_records.iter().map(read_edge).collect::<Result<_, _>>()?;
        let mut leaving = vec![Vec::new(); location_count];
        for (number, edge) in edges.iter().enumerate() {
            if edge.from >= location_count || edge.to >= location_count {
                return Err(format!("an edge of no location: {edge:?}"));
            }
            leaving[edge.from].push(number);
        }
        Ok(Automaton { locations: location_records, edges, leaving })
    }

    /// The numbers of the edges that leave a location.
    pub fn leaving(&self, location: usize) -> &[usize] {
        &self.leaving[location]
    }

    /// Whether the edge of this number may be taken: it leaves the location
    /// and both guards hold.
    pub fn enabled(&self, at: &Configuration, number: u64) -> bool {
        if number >= self.edges.len() as u64 {
            return false;
        }
        let edge = &self.edges[number as usize];
        edge.from == at.location && edge.guards.iter().all(|guard| holds(guard, &at.counters))
    }

    /// Takes the edge of this number, or answers false and changes nothing.
    pub fn feed(&self, at: &mut Configuration, number: u64) -> bool {
        if !self.enabled(at, number) {
            return false;
        }
        let edge = &self.edges[number as usize];
        let target = &self.locations[edge.to];
        let mut counters = [0; NODES];
        if target[2] == 0 {
            let nodes = usize::from(target[3]).min(NODES);
            for (counter, &update) in counters[..nodes].iter_mut().zip(&edge.updates) {
                let sum = added(update, &at.counters);
                // The constant is kept with one added to it. Tables that are
                // wrong may go below 0 here; they are found out afterwards.
                *counter = (sum + u64::from(update >> 12)).wrapping_sub(1);
            }
        }
        at.location = edge.to;
        at.counters = counters;
        true
    }
}

fn added(update: u16, counters: &Counters) -> u64 {
    (0..NODES).filter(|old| update >> old & 1 == 1).map(|old| counters[old]).sum()
}

fn used_records(table: &[u8], count: usize) -> Result<Vec<Record>, String> {
    if count > table.len() / RECORD {
        return Err(format!("{count} records in {} bytes", table.len()));
    }
    let (used, rest) = table.split_at(count * RECORD);
    if rest.iter().any(|&byte| byte != 0) {
        return Err("bytes after the last record are not zero".to_string());
    }
    let as_record = |bytes: &[u8]| Record::try_from(bytes).expect("32 bytes");
    Ok(used.chunks(RECORD).map(as_record).collect())
}

#[cfg(test)]
mod tests {
    use super::*;

    /// An edge from location 0 to itself with these bytes 1, 6 and 7.
    fn edge(byte_1: u8, kind: u8, node: u8) -> Record {
        let mut record = [0; RECORD];
        record[..2].copy_from_slice(&[EDGE, byte_1]);
        record[6..8].copy_from_slice(&[kind, node]);
        record
    }

    #[test]
    fn every_byte_1() {
        for byte in 0..=255u8 {
            let (kind, node) = (byte / 2 % 4, usize::from(byte / 8 % 16));
            let sound = byte < 128 && kind < 3 && node < 12 && (kind != 0 || node == 0);
            match read_edge(&edge(byte, 2, 11)) {
                Ok(read) => {
                    assert!(sound, "{byte:08b}");
                    assert_eq!(read.branch, byte % 2);
                    assert_eq!(read.guards, [Guard { kind: 2, node: 11 }, Guard { kind, node }]);
                }
                Err(_) => assert!(!sound, "{byte:08b}"),
            }
        }
    }

    #[test]
    fn both_guards_are_looked_at() {
        // A location with two nodes; the second guard is that of node 1.
        let mut place = [0; RECORD];
        place[..4].copy_from_slice(&[LOCATION, 0, 0, 2]);
        let kinds = [(0, 0), (1, 0), (2, 0), (0, 1), (1, 1), (1, 2), (2, 1), (2, 2)];
        let byte_1 = |kind: u8| if kind == 0 { 0 } else { kind << 1 | 1 << 3 };
        let edges: Vec<u8> = kinds.iter().flat_map(|&(first, second)| edge(byte_1(second), first, 0)).collect();
        let automaton = Automaton::read(&place, 1, &edges, kinds.len()).expect("sound tables");
        for (one, other) in [(1, 1), (1, 2), (2, 1), (2, 2), (5, 9)] {
            let mut at = Configuration { location: 0, counters: [0; NODES] };
            at.counters[..2].copy_from_slice(&[one, other]);
            let fits = |kind: u8, counter: u64| kind == 0 || (kind == 1) == (counter == 1);
            for (number, &(first, second)) in kinds.iter().enumerate() {
                let due = fits(first, one) && fits(second, other);
                assert_eq!(automaton.enabled(&at, number as u64), due, "{first} {second} at {one} {other}");
                assert_eq!(automaton.feed(&mut at.clone(), number as u64), due);
            }
        }
    }
}
