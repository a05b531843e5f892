//! Statements: the ops, the fields each of them uses, and reading an S record.

use crate::heap::POINTERS;
use crate::records::{Record, STATEMENT};

#[derive(Clone, Copy, PartialEq, Eq, Debug)]
pub enum Op {
    Stop,
    SetNull,
    Copy,
    LoadNext,
    CutNext,
    StoreNext,
    New,
    Free,
    TestNull,
    TestEqual,
    Choose,
    Skip,
    Relink,
    Drop,
}

/// The ops by their number.
pub const OPS: [Op; 14] = [
    Op::Stop,
    Op::SetNull,
    Op::Copy,
    Op::LoadNext,
    Op::CutNext,
    Op::StoreNext,
    Op::New,
    Op::Free,
    Op::TestNull,
    Op::TestEqual,
    Op::Choose,
    Op::Skip,
    Op::Relink,
    Op::Drop,
];

impl Op {
    pub fn uses_u(self) -> bool {
        !matches!(self, Op::Stop | Op::Choose | Op::Skip)
    }

    pub fn uses_w(self) -> bool {
        matches!(self, Op::Copy | Op::LoadNext | Op::StoreNext | Op::TestEqual | Op::Relink)
    }

    pub fn uses_first(self) -> bool {
        self != Op::Stop
    }

    pub fn uses_second(self) -> bool {
        matches!(self, Op::TestNull | Op::TestEqual | Op::Choose)
    }

    /// Which of the bytes 2 to 5 of an S record the op uses.
    pub fn used_fields(self) -> [bool; 4] {
        [self.uses_u(), self.uses_w(), self.uses_first(), self.uses_second()]
    }
}

/// A statement whose record passed the checks.
#[derive(Clone, Copy, PartialEq, Eq, Debug)]
pub struct Statement {
    pub op: Op,
    pub u: usize,
    pub w: usize,
    pub first: u8,
    pub second: u8,
}

impl Statement {
    /// The pointers that the statement reads, writes or frees through, in the
    /// order in which they are looked at.
    pub fn through(&self) -> Vec<usize> {
        match self.op {
            Op::LoadNext => vec![self.w],
            Op::CutNext | Op::StoreNext | Op::Free => vec![self.u],
            Op::Relink => vec![self.w, self.u],
            _ => Vec::new(),
        }
    }
}

/// Reads an S record of a routine with so many statements, or refuses it
/// with 5, 6 or 7. That byte 0 is 0x53 has been seen to before.
pub fn read_statement(record: &Record, statements: usize) -> Result<Statement, u8> {
    debug_assert_eq!(record[0], STATEMENT);
    let op = *OPS.get(usize::from(record[1])).ok_or(5u8)?;
    let used = op.used_fields();
    let is_pointer = |byte: u8| usize::from(byte) < POINTERS;
    let is_target = |byte: u8| usize::from(byte) < statements;
    for field in 0..2 {
        if used[field] && !is_pointer(record[2 + field]) {
            return Err(6);
        }
    }
    for (field, used) in used.iter().enumerate() {
        if !used && record[2 + field] != 0 {
            return Err(6);
        }
    }
    if record[6..].iter().any(|&byte| byte != 0) {
        return Err(6);
    }
    for field in 2..4 {
        if used[field] && !is_target(record[2 + field]) {
            return Err(7);
        }
    }
    Ok(Statement { op, u: usize::from(record[2]), w: usize::from(record[3]), first: record[4], second: record[5] })
}

#[cfg(test)]
mod tests {
    use super::*;

    fn record(fields: [u8; 5]) -> Record {
        let mut record = [0; 32];
        record[0] = STATEMENT;
        record[1..6].copy_from_slice(&fields);
        record
    }

    #[test]
    fn every_field_that_an_op_does_not_use_is_zero() {
        for (number, op) in OPS.iter().enumerate() {
            let number = number as u8;
            assert!(read_statement(&record([number, 0, 0, 0, 0]), 1).is_ok());
            for (field, used) in op.used_fields().iter().enumerate() {
                let mut changed = record([number, 0, 0, 0, 0]);
                changed[2 + field] = 1;
                let want = if *used { None } else { Some(6) };
                assert_eq!(read_statement(&changed, 2).err(), want, "{op:?} {field}");
                changed[2 + field] = 6;
                let want = if *used && field >= 2 { 7 } else { 6 };
                assert_eq!(read_statement(&changed, 6), Err(want), "{op:?} {field}");
            }
            for at in 6..32 {
                let mut changed = record([number, 0, 0, 0, 0]);
                changed[at] = 0x80;
                assert_eq!(read_statement(&changed, 64), Err(6));
            }
        }
    }

    #[test]
    fn the_lowest_number_comes_first() {
        for op in 14..=255 {
            assert_eq!(read_statement(&record([op, 9, 9, 9, 9]), 1), Err(5));
        }
        assert_eq!(read_statement(&record([12, 9, 9, 9, 9]), 1), Err(6));
        assert_eq!(read_statement(&record([12, 5, 5, 9, 0]), 1), Err(7));
        assert!(read_statement(&record([12, 5, 5, 0, 0]), 1).is_ok());
        // A drop uses u and the first target alone.
        assert_eq!(read_statement(&record([13, 6, 0, 9, 0]), 1), Err(6));
        assert_eq!(read_statement(&record([13, 5, 1, 9, 0]), 1), Err(6));
        assert_eq!(read_statement(&record([13, 5, 0, 9, 1]), 1), Err(6));
        assert_eq!(read_statement(&record([13, 5, 0, 9, 0]), 1), Err(7));
        assert!(read_statement(&record([13, 5, 0, 0, 0]), 1).is_ok());
        assert_eq!(read_statement(&record([2, 0, 6, 9, 0]), 1), Err(6));
        assert_eq!(read_statement(&record([2, 0, 0, 9, 1]), 1), Err(6));
        assert_eq!(read_statement(&record([2, 0, 0, 9, 0]), 1), Err(7));
        assert_eq!(read_statement(&record([2, 0, 0, 9, 0]), 9), Err(7));
        assert!(read_statement(&record([2, 0, 0, 9, 0]), 10).is_ok());
    }
}
