//! Records as they stand in files and tables, read into named parts.

pub const SIZE: usize = 32;
pub const NULL: u8 = 0xfe;
pub const UNDEFINED: u8 = 0xff;
pub const POINTERS: usize = 6;
pub const NODES: usize = 12;

pub type Record = [u8; SIZE];

/// A record from its hex digits, or what is wrong with them.
pub fn from_hex(digits: &str) -> Result<Record, String> {
    let value = |(at, c): (usize, char)| match c.to_digit(16) {
        // below 16
        Some(value) => Ok(value as u8),
        None => Err(format!("character {}, `{}`, is none", at + 1, c.escape_debug())),
    };
    let values: Vec<u8> = digits.chars().enumerate().map(value).collect::<Result<_, _>>()?;
    if values.len() != 2 * SIZE {
        return Err(format!("there are {}", values.len()));
    }
    Ok(std::array::from_fn(|at| 16 * values[2 * at] + values[2 * at + 1]))
}

/// The statements, in the order of their numbers.
#[derive(Clone, Copy, PartialEq, Eq, Debug)]
pub enum Op {
    Stop,
    SetNull,
    Copy,
    ReadNext,
    WriteNull,
    WriteNext,
    New,
    Free,
    TestNull,
    TestEqual,
    Choose,
    Skip,
    Relink,
    Drop,
}

use Op::*;

impl Op {
    pub const ALL: [Op; 14] =
        [Stop, SetNull, Copy, ReadNext, WriteNull, WriteNext, New, Free, TestNull, TestEqual, Choose, Skip, Relink, Drop];

    pub fn uses_u(self) -> bool {
        !matches!(self, Stop | Choose | Skip)
    }

    pub fn uses_w(self) -> bool {
        matches!(self, Copy | ReadNext | WriteNext | TestEqual | Relink)
    }

    pub fn uses_first(self) -> bool {
        self != Stop
    }

    pub fn uses_second(self) -> bool {
        matches!(self, TestNull | TestEqual | Choose)
    }
}

/// An S record. A part that the op does not use is 0.
#[derive(Clone, Copy, PartialEq, Eq, Debug)]
pub struct Statement {
    pub op: Op,
    pub u: u8,
    pub w: u8,
    pub first: u8,
    pub second: u8,
}

impl Statement {
    /// Of a record that the proved checks have passed.
    pub fn read(record: &[u8]) -> Statement {
        let op = Op::ALL[record[1] as usize];
        Statement { op, u: record[2], w: record[3], first: record[4], second: record[5] }
    }

    pub fn write(&self) -> Record {
        let mut record = [0; SIZE];
        record[..6].copy_from_slice(&[b'S', self.op as u8, self.u, self.w, self.first, self.second]);
        record
    }
}

/// The shape of an H or L record. A value is a node, NULL or UNDEFINED.
#[derive(Clone, Copy, PartialEq, Eq, Debug)]
pub struct Shape {
    pub count: usize,
    pub pointers: [u8; POINTERS],
    pub successors: [u8; NODES],
}

impl Shape {
    pub fn read(record: &[u8]) -> Shape {
        let mut shape = Shape { count: record[3] as usize, pointers: [0; POINTERS], successors: [0; NODES] };
        shape.pointers.copy_from_slice(&record[4..10]);
        shape.successors.copy_from_slice(&record[10..22]);
        shape
    }

    /// As a starting shape: statement 0, no fault.
    pub fn write(&self) -> Record {
        let mut record = [0; SIZE];
        record[0] = b'H';
        record[3] = self.count as u8;
        record[4..10].copy_from_slice(&self.pointers);
        record[10..22].copy_from_slice(&self.successors);
        record
    }
}

/// The records of a routine that the proved checks have passed.
#[derive(Clone, Debug)]
pub struct Routine {
    pub statements: Vec<Statement>,
    pub shapes: Vec<Shape>,
}

impl Routine {
    pub fn read(records: &[u8]) -> Routine {
        let of = |kind: u8| records.chunks_exact(SIZE).filter(move |r| r[0] == kind);
        Routine { statements: of(b'S').map(Statement::read).collect(), shapes: of(b'H').map(Shape::read).collect() }
    }

    /// Pointers that no statement names and that are null in every starting shape: they are null in every location.
    pub fn idle_pointers(&self) -> Vec<usize> {
        let named =
            |p: usize| self.statements.iter().any(|s| s.op.uses_u() && s.u as usize == p || s.op.uses_w() && s.w as usize == p);
        let null = |p: usize| self.shapes.iter().all(|s| s.pointers[p] == NULL);
        (0..POINTERS).filter(|&p| !named(p) && null(p)).collect()
    }
}
