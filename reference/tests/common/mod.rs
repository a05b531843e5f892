//! Records and tables, written out by hand for the tests.

#![allow(dead_code)]

pub mod layout;
pub mod program;
pub mod random;
pub mod shapes;
pub mod small;

use reference::{translate, Node, Refusal, Translated};

pub type Record = [u8; 32];
pub const NULL: u8 = 0xfe;
pub const UNDEF: u8 = 0xff;
pub const UNUSED: u8 = 0xfd;
pub const NULLS: [u8; 6] = [NULL; 6];

/// An S record.
pub fn s(op: u8, u: u8, w: u8, first: u8, second: u8) -> Record {
    let mut record = [0; 32];
    record[..6].copy_from_slice(&[0x53, op, u, w, first, second]);
    record
}

pub fn stop() -> Record {
    s(0, 0, 0, 0, 0)
}

fn shape(kind: u8, statement: u8, pointers: [u8; 6], successors: &[u8]) -> Record {
    let mut record = [0; 32];
    record[..4].copy_from_slice(&[kind, statement, 0, successors.len() as u8]);
    record[4..10].copy_from_slice(&pointers);
    record[10..10 + successors.len()].copy_from_slice(successors);
    record
}

/// An H record.
pub fn h(pointers: [u8; 6], successors: &[u8]) -> Record {
    shape(0x48, 0, pointers, successors)
}

/// An L record without a fault.
pub fn l(statement: u8, pointers: [u8; 6], successors: &[u8]) -> Record {
    shape(0x4c, statement, pointers, successors)
}

/// An L record with a fault.
pub fn faulted(statement: u8, fault: u8) -> Record {
    let mut record = [0; 32];
    record[..3].copy_from_slice(&[0x4c, statement, fault]);
    record
}

/// An E record from location 0.
pub fn e(branch: u8, to: u8, guard: u8, node: u8, updates: &[u16]) -> Record {
    let mut record = [0; 32];
    record[..8].copy_from_slice(&[0x45, branch, 0, 0, to, 0, guard, node]);
    for (number, update) in updates.iter().enumerate() {
        record[8 + 2 * number] = *update as u8;
        record[9 + 2 * number] = (*update >> 8) as u8;
    }
    record
}

/// The same edge with a second guard.
pub fn second(guard: u8, node: u8, mut edge: Record) -> Record {
    edge[1] |= guard << 1 | node << 3;
    edge
}

/// The same edge from another location.
pub fn from(location: u8, mut edge: Record) -> Record {
    edge[2] = location;
    edge
}

/// The first pointers as given, the others null.
pub fn pointers(first: &[u8]) -> [u8; 6] {
    let mut all = NULLS;
    all[..first.len()].copy_from_slice(first);
    all
}

/// A refusal at place 0.
pub fn at_0(number: u8) -> Refusal {
    Refusal::at(number, 0)
}

/// A refusal that tells a node.
pub fn at_node(number: u8, place: usize, node: u8) -> Refusal {
    Refusal { number, place, node: Node(node) }
}

pub fn input(records: &[Record]) -> Vec<u8> {
    records.concat()
}

/// A translation with its tables.
pub struct Tables {
    pub answer: Translated,
    pub locations: Vec<u8>,
    pub edges: Vec<u8>,
}

/// Translates into tables of these lengths that are filled with other bytes.
pub fn into_tables(input: &[u8], location_bytes: usize, edge_bytes: usize) -> Tables {
    let mut locations = vec![0xa7; location_bytes];
    let mut edges = vec![0x5b; edge_bytes];
    let answer = translate(input, &mut locations, &mut edges);
    Tables { answer, locations, edges }
}

/// Wants exactly these records in tables that are longer, every byte of them.
#[track_caller]
pub fn check_listing(records: &[Record], locations: &[Record], edges: &[Record]) {
    let got = into_tables(&input(records), 32 * 1024 + 11, 32 * 2048 + 5);
    let want = Translated { refusal: 0, place: 0, node: Node(0), locations: locations.len(), edges: edges.len() };
    assert_eq!(got.answer, want);
    check_table(&got.locations, locations);
    check_table(&got.edges, edges);
}

/// Wants these records from the start and zeros after them.
#[track_caller]
pub fn check_table(table: &[u8], records: &[Record]) {
    for (number, record) in records.iter().enumerate() {
        let place = &table[32 * number..32 * number + 32];
        assert_eq!(place, record, "record {number}");
    }
    assert!(table[32 * records.len()..].iter().all(|&byte| byte == 0));
}

/// Wants a refusal at a place without a node, and zeros all over both tables.
#[track_caller]
pub fn check_refusal(input: &[u8], refusal: u8, place: usize) {
    check_due(input, Refusal::at(refusal, place));
}

/// Wants this refusal, and zeros all over both tables.
#[track_caller]
pub fn check_due(input: &[u8], due: Refusal) {
    for (location_bytes, edge_bytes) in [(32 * 1024, 32 * 2048), (700, 333), (1, 0), (0, 0)] {
        check_told(&into_tables(input, location_bytes, edge_bytes), due);
    }
}

#[track_caller]
pub fn check_refused(got: &Tables, refusal: u8, place: usize) {
    check_told(got, Refusal::at(refusal, place));
}

#[track_caller]
pub fn check_told(got: &Tables, due: Refusal) {
    let want = Translated { refusal: due.number, place: due.place, node: due.node, locations: 0, edges: 0 };
    assert_eq!(got.answer, want);
    check_table(&got.locations, &[]);
    check_table(&got.edges, &[]);
}

pub fn hex(bytes: &[u8]) -> String {
    bytes.iter().map(|byte| format!("{byte:02x}")).collect()
}
