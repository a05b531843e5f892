//! Reading the input of the translator, and its refusals 1 to 10, 18 and 19.

use crate::records::{Record, RECORD, SHAPES, START, STATEMENT, STATEMENTS};
use crate::refusal::{refuse, Refusal};
use crate::statement::{read_statement, Statement};
use crate::unfold::check_shape;

/// A routine that passed the checks, with its starting shapes as H records.
#[derive(Clone, PartialEq, Eq, Debug)]
pub struct Routine {
    pub statements: Vec<Statement>,
    pub shapes: Vec<Record>,
}

/// Reads a whole input.
pub fn read_routine(input: &[u8]) -> Result<Routine, Refusal> {
    let records = split_records(input)?;
    let statements = count_statements(&records)?;
    let (statement_records, shape_records) = records.split_at(statements);
    let mut routine = Routine { statements: Vec::new(), shapes: Vec::new() };
    for (place, record) in statement_records.iter().enumerate() {
        match read_statement(record, statements) {
            Ok(statement) => routine.statements.push(statement),
            Err(number) => return refuse(number, place),
        }
    }
    for (place, record) in shape_records.iter().enumerate() {
        let place = statements + place;
        check_shape(record).map_err(|refusal| Refusal { place, ..refusal })?;
        if routine.shapes.contains(record) {
            return refuse(10, place);
        }
        routine.shapes.push(*record);
    }
    Ok(routine)
}

fn split_records(input: &[u8]) -> Result<Vec<Record>, Refusal> {
    if input.is_empty() || !input.len().is_multiple_of(RECORD) {
        return refuse(1, 0);
    }
    let as_record = |bytes: &[u8]| Record::try_from(bytes).expect("32 bytes");
    Ok(input.chunks(RECORD).map(as_record).collect())
}

/// How many S records stand before the H records; looks at the whole input
/// in the order 4, 2, 3.
fn count_statements(records: &[Record]) -> Result<usize, Refusal> {
    let mut statements = 0;
    let mut shapes = 0;
    for (place, record) in records.iter().enumerate() {
        match record[0] {
            STATEMENT if shapes == 0 => statements += 1,
            START => shapes += 1,
            _ => return refuse(4, place),
        }
    }
    if !(1..=STATEMENTS).contains(&statements) {
        return refuse(2, 0);
    }
    if !(1..=SHAPES).contains(&shapes) {
        return refuse(3, 0);
    }
    Ok(statements)
}
