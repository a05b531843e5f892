//! The three calls on heap images: fold, unfold and one plain step.

use crate::fold::{fold_heap, Counters};
use crate::image::{lengths_fit, read_image, write_image};
use crate::machine::{run, Outcome};
use crate::records::{node_count, Record, NODES, RECORD, STATEMENT, STATEMENTS};
use crate::refusal::Refusal;
use crate::statement::{read_statement, Op, Statement};
use crate::unfold::{check_shape, unfold_shape};

/// A refusal of these calls: the place is 0 for every number. Only a shape
/// that is refused tells a node.
fn refusal(number: u8) -> Refusal {
    Refusal::at(number, 0)
}

/// The answer of [`fold`]. On a refusal the record and the counters are zero.
#[derive(Clone, Copy, PartialEq, Eq, Debug)]
pub struct Folded {
    /// 13 or 14, if there is one.
    pub refusal: Option<Refusal>,
    /// The H record of the shape.
    pub record: Record,
    /// The cells of each node, 0 past the last node.
    pub counters: [u32; NODES],
}

/// Folds a heap image into a shape and counters.
pub fn fold(pointers: &[u8], cells: &[u8]) -> Folded {
    match read_image(pointers, cells) {
        Ok(heap) => {
            let (record, counters) = fold_heap(&heap);
            Folded { refusal: None, record, counters: counters.map(|counter| counter as u32) }
        }
        Err(number) => Folded { refusal: Some(refusal(number)), record: [0; RECORD], counters: [0; NODES] },
    }
}

/// Unfolds a shape with counters into a lent heap image, whose contents do
/// not matter. Refuses with 13, 8, 9, 18, 19 or 15, in this order; then nothing
/// is written. A list of counters that is not twelve long is refused with 15.
pub fn unfold(record: &[u8], counters: &[u32], pointers: &mut [u8], cells: &mut [u8]) -> Result<(), Refusal> {
    if !lengths_fit(pointers, cells) {
        return Err(refusal(13));
    }
    let record = Record::try_from(record).map_err(|_| refusal(8))?;
    check_shape(&record)?;
    let counters = read_counters(counters, node_count(&record), cells.len()).map_err(refusal)?;
    write_image(&unfold_shape(&record, &counters), pointers, cells);
    Ok(())
}

/// Takes the counters of a shape with so many nodes, or refuses them with 15:
/// there are twelve, each node and nothing past the nodes has one, and the
/// cells suffice for all of them.
fn read_counters(counters: &[u32], nodes: usize, cells: usize) -> Result<Counters, u8> {
    let counters = <[u32; NODES]>::try_from(counters).map_err(|_| 15u8)?;
    let counters = counters.map(u64::from);
    let (present, past) = counters.split_at(nodes);
    let fit = present.iter().all(|&counter| counter != 0)
        && past.iter().all(|&counter| counter == 0)
        && present.iter().sum::<u64>() <= cells as u64;
    if fit {
        Ok(counters)
    } else {
        Err(15)
    }
}

/// The answer of [`step`].
#[derive(Clone, Copy, PartialEq, Eq, Debug)]
pub enum Stepped {
    /// 13, 14, 4, 5, 6, 7 or 16; the heap stays.
    Refused(Refusal),
    /// The statement is a stop; the heap stays.
    Stop,
    /// 1, 2 or 3; the heap stays.
    Fault(u8),
    /// The branch taken and the next statement.
    Moved { branch: u8, next: u8 },
}

/// Carries out one statement on a heap image. `pick` is read by choose only
/// and `cell` by new only.
pub fn step(pointers: &mut [u8], cells: &mut [u8], statement: &[u8], pick: u64, cell: u64) -> Stepped {
    let mut heap = match read_image(pointers, cells) {
        Ok(heap) => heap,
        Err(number) => return Stepped::Refused(refusal(number)),
    };
    let statement = match read_single(statement) {
        Ok(statement) => statement,
        Err(number) => return Stepped::Refused(refusal(number)),
    };
    let unused = |number: u64| number < cells.len() as u64 && !heap.in_use(number as usize);
    let refused = match statement.op {
        Op::Choose => pick > 1,
        Op::New => !unused(cell),
        _ => false,
    };
    if refused {
        return Stepped::Refused(refusal(16));
    }
    match run(&mut heap, &statement, pick, cell as usize) {
        Outcome::Stop => Stepped::Stop,
        Outcome::Fault(fault) => Stepped::Fault(fault),
        Outcome::Moved { branch, next } => {
            write_image(&heap, pointers, cells);
            Stepped::Moved { branch, next }
        }
    }
}

/// Reads the statement of a plain step, or refuses it with 4, 5, 6 or 7.
fn read_single(record: &[u8]) -> Result<Statement, u8> {
    let record = Record::try_from(record).map_err(|_| 4u8)?;
    if record[0] != STATEMENT {
        return Err(4);
    }
    read_statement(&record, STATEMENTS)
}
