//! The routine on a heap, by proved steps, and whether the automaton beside it describes that heap.

use crate::automaton::{Automaton, Refusal};
use crate::moves::Configuration;
use crate::record::{Record, Shape, NODES, POINTERS};

/// As many cells as a heap image has.
pub const CELLS: usize = 240;
const UNUSED: u8 = 0xfd;

/// The routine: its heap and the statement that is next, or the one that faulted.
#[derive(Clone)]
pub struct Machine {
    pub pointers: [u8; POINTERS],
    pub cells: [u8; CELLS],
    pub statement: usize,
    pub fault: u8,
}

/// What became of a step.
#[derive(Clone, Copy, PartialEq, Eq, Debug)]
pub enum Stepped {
    Made { branch: u8 },
    Stopped,
    Refused(Refusal),
}

impl Machine {
    /// The heap of a starting shape with these counters, unfolded by the proved library.
    pub fn start(shape: &Record, counters: &[u32]) -> Result<Machine, Refusal> {
        let mut all = [0; NODES];
        all[..counters.len()].copy_from_slice(counters);
        let mut machine = Machine { pointers: [0; POINTERS], cells: [0; CELLS], statement: 0, fault: 0 };
        match currantplane::unfold(shape, &all, &mut machine.pointers, &mut machine.cells) {
            Refusal { number: 0, .. } => Ok(machine),
            refusal => Err(refusal),
        }
    }

    /// How many cells were in use in the heap before and are not in this one.
    pub fn gone_since(&self, before: &Machine) -> usize {
        let each = before.cells.iter().zip(&self.cells);
        each.filter(|(&old, &new)| old != UNUSED && new == UNUSED).count()
    }

    /// A step of the proved library; new takes the lowest cell that is not in use. A fault is a step of branch 0.
    pub fn step(&mut self, statement: &Record, pick: u8) -> Stepped {
        let cell = self.cells.iter().position(|&c| c == UNUSED).unwrap_or(CELLS);
        let (refusal, [fault, stop, branch, next]) =
            currantplane::step(&mut self.pointers, &mut self.cells, statement, pick, cell);
        match (refusal.number, fault, stop) {
            (0, 0, 0) => self.statement = next as usize,
            (0, 0, _) => return Stepped::Stopped,
            (0, fault, _) => self.fault = fault,
            _ => return Stepped::Refused(refusal),
        }
        Stepped::Made { branch }
    }
}

/// Whether the location with its counters describes the heap, which the proved library folds; the message says how not.
pub fn compare(automaton: &Automaton, at: &Configuration, machine: &Machine) -> Result<(), String> {
    let location = &automaton.locations[at.location as usize];
    if (location.statement, location.fault) != (machine.statement, machine.fault) {
        return Err(format!(
            "the location has statement {} and fault {}, the routine statement {} and fault {}",
            location.statement, location.fault, machine.statement, machine.fault
        ));
    }
    if machine.fault != 0 {
        return Ok(());
    }
    let (refusal, record, counters) = currantplane::fold(&machine.pointers, &machine.cells);
    if refusal.number != 0 {
        return Err(format!("the heap is no heap image: refusal {}", refusal.number));
    }
    if location.shape != Shape::read(&record) {
        return Err("the heap has another shape than the location".into());
    }
    if counters != at.counters {
        let folded = &counters[..location.shape.count];
        return Err(format!("the heap's counters are {folded:?}, the automaton's {:?}", automaton.counters(at)));
    }
    Ok(())
}
