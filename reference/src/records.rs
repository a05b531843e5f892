//! The 32-byte records: statements (S), shapes (H, L) and edges (E).
//!
//! A shape is kept as the bytes of its record and is never worked upon; the
//! translator only unfolds it and compares it.

use crate::heap::{Value, POINTERS};

/// The bytes of one record.
pub type Record = [u8; RECORD];
/// The length of a record.
pub const RECORD: usize = 32;
/// The most nodes a shape has.
pub const NODES: usize = 12;
/// The most statements of a routine; targets of a plain step are below it.
pub const STATEMENTS: usize = 64;
/// The most starting shapes.
pub const SHAPES: usize = 16;

pub const STATEMENT: u8 = 0x53;
pub const START: u8 = 0x48;
pub const LOCATION: u8 = 0x4c;
pub const EDGE: u8 = 0x45;

pub const NULL: u8 = 0xfe;
pub const UNDEFINED: u8 = 0xff;
/// The mark of a cell that is not in use, in heap images only.
pub const UNUSED: u8 = 0xfd;

/// The kinds of a guard.
pub const NO_GUARD: u8 = 0;
pub const ONE: u8 = 1;
pub const TWO_OR_MORE: u8 = 2;

/// A guard of an edge: its kind, and the node whose counter it looks at.
#[derive(Clone, Copy, PartialEq, Eq, Debug)]
pub struct Guard {
    pub kind: u8,
    pub node: usize,
}

/// The guard that is absent.
pub const ABSENT: Guard = Guard { kind: NO_GUARD, node: 0 };

/// Offsets within H and L records.
pub const POINTERS_AT: usize = 4;
pub const SUCCESSORS_AT: usize = POINTERS_AT + POINTERS;
const SUCCESSORS_END: usize = SUCCESSORS_AT + NODES;

/// How many nodes an H or L record has.
pub fn node_count(record: &Record) -> usize {
    usize::from(record[3])
}

/// The byte of a pointer, in an H or L record.
pub fn pointer_byte(record: &Record, pointer: usize) -> u8 {
    record[POINTERS_AT + pointer]
}

/// The byte of a node's successor, in an H or L record.
pub fn successor_byte(record: &Record, node: usize) -> u8 {
    record[SUCCESSORS_AT + node]
}

/// The byte of a value. `Cell(n)` is written as n: a node or a cell number.
pub fn value_byte(value: Value) -> u8 {
    match value {
        Value::Cell(number) => u8::try_from(number).expect("a number that fits a byte"),
        Value::Null => NULL,
        Value::Undefined => UNDEFINED,
    }
}

/// The value of a byte that is a number, null or undefined.
pub fn byte_value(byte: u8) -> Value {
    match byte {
        NULL => Value::Null,
        UNDEFINED => Value::Undefined,
        number => Value::Cell(usize::from(number)),
    }
}

/// Byte 1 of an E record: bit 0 is the branch, bits 1 and 2 are the second
/// guard, bits 3 to 6 its node.
pub fn branch_byte(branch: u8, second: Guard) -> u8 {
    branch | second.kind << 1 | (second.node as u8) << 3
}

/// Whether a record is no H record by its layout alone (refusal 8).
pub fn breaks_layout(record: &Record) -> bool {
    let nodes = node_count(record);
    if record[..3] != [START, 0, 0] || nodes > NODES {
        return true;
    }
    let is_value = |&byte: &u8| usize::from(byte) < nodes || byte == NULL || byte == UNDEFINED;
    let (successors, past) = record[SUCCESSORS_AT..SUCCESSORS_END].split_at(nodes);
    !(record[POINTERS_AT..SUCCESSORS_AT].iter().all(is_value)
        && successors.iter().all(is_value)
        && past.iter().all(|&byte| byte == 0)
        && record[SUCCESSORS_END..].iter().all(|&byte| byte == 0))
}

/// The location of a statement with the shape of an H record.
pub fn location(statement: u8, shape: &Record) -> Record {
    let mut record = *shape;
    record[0] = LOCATION;
    record[1] = statement;
    record
}

/// The location of a statement with a fault.
pub fn fault_location(statement: u8, fault: u8) -> Record {
    let mut record = [0; RECORD];
    record[..3].copy_from_slice(&[LOCATION, statement, fault]);
    record
}

/// The H record with the shape of a location that has no fault.
pub fn shape_of(location: &Record) -> Record {
    let mut record = *location;
    record[0] = START;
    record[1] = 0;
    record
}

/// A record as 64 hex digits.
pub fn hex(bytes: &[u8]) -> String {
    bytes.iter().map(|byte| format!("{byte:02x}")).collect()
}

#[cfg(test)]
mod tests {
    use super::*;

    fn one_node() -> Record {
        let mut record = [0; RECORD];
        record[..11].copy_from_slice(&[START, 0, 0, 1, 0, NULL, NULL, NULL, NULL, NULL, NULL]);
        record
    }

    #[test]
    fn layout() {
        assert!(!breaks_layout(&one_node()));
        let changes =
            [(0, LOCATION), (1, 1), (2, 1), (3, 0), (3, 13), (4, 1), (4, UNUSED), (10, 1), (11, NULL), (21, 1), (22, 1), (31, 1)];
        for (at, byte) in changes {
            let mut record = one_node();
            record[at] = byte;
            assert!(breaks_layout(&record), "byte {at} set to {byte}");
        }
    }

    #[test]
    fn byte_1_of_an_edge() {
        let byte = |branch, kind, node| branch_byte(branch, Guard { kind, node });
        assert_eq!([branch_byte(0, ABSENT), branch_byte(1, ABSENT)], [0, 1]);
        assert_eq!([byte(0, ONE, 0), byte(0, TWO_OR_MORE, 0)], [0b10, 0b100]);
        assert_eq!([byte(0, ONE, 1), byte(1, TWO_OR_MORE, 11)], [0b1010, 0b101_1101]);
    }

    #[test]
    fn locations_and_shapes() {
        let place = location(7, &one_node());
        assert_eq!(place[..4], [LOCATION, 7, 0, 1]);
        assert_eq!(shape_of(&place), one_node());
        assert_eq!(fault_location(3, 2)[..5], [LOCATION, 3, 2, 0, 0]);
    }
}
