//! Location records just outside a clause, and just inside.

use super::draft::Draft;
use super::{any_of, pick, within};
use crate::clause::Clause;
use crate::random::Random;
use crate::records::{NODES, NULL, POINTERS_AT, RECORD, SUCCESSORS_AT, UNDEFINED, UNUSED};

/// A byte that is no value of so many nodes.
fn no_value(random: &mut Random, nodes: usize) -> u8 {
    within(random, nodes, usize::from(UNUSED)) as u8
}

/// Breaks a location of a sound draft. Answers which, if there is one to break.
pub fn outside(random: &mut Random, draft: &mut Draft, clause: Clause) -> Option<usize> {
    let number = pick(random, draft.locations.len(), |number| match clause {
        Clause::FaultRest => draft.is_fault(number),
        Clause::NodeCount | Clause::PointerValue | Clause::LocationRest => !draft.is_fault(number),
        Clause::SuccessorValue => draft.nodes(number) > 0,
        Clause::AbsentSuccessor => !draft.is_fault(number) && draft.nodes(number) < NODES,
        _ => true,
    })?;
    let nodes = draft.nodes(number);
    let (at, byte) = match clause {
        Clause::LocationKind => (0, any_of(random, &[0x4b, 0x4d, 0x48, 0x45, 0x53, 0x6c, 0xcc, 0])),
        Clause::LocationStatement => (1, any_of(random, &[64, 65, 127, 128, 255])),
        Clause::LocationFault => (2, any_of(random, &[4, 5, 128, 255])),
        Clause::FaultRest => (within(random, 3, RECORD - 1), any_of(random, &[1, 0x80, NULL, UNDEFINED])),
        Clause::NodeCount => (3, any_of(random, &[13, 14, 128, 255])),
        Clause::PointerValue => (within(random, POINTERS_AT, SUCCESSORS_AT - 1), no_value(random, nodes)),
        Clause::SuccessorValue => (within(random, SUCCESSORS_AT, SUCCESSORS_AT + nodes - 1), no_value(random, nodes)),
        Clause::AbsentSuccessor => {
            let at = within(random, SUCCESSORS_AT + nodes, SUCCESSORS_AT + NODES - 1);
            (at, any_of(random, &[1, 0x80, NULL, UNDEFINED]))
        }
        _ => (within(random, SUCCESSORS_AT + NODES, RECORD - 1), any_of(random, &[1, 0x80, NULL, UNDEFINED])),
    };
    draft.locations[number][at] = byte;
    Some(number)
}

/// Changes a location of a sound draft to the last that the clause allows.
/// Answers which, if there is one to change.
pub fn inside(random: &mut Random, draft: &mut Draft, clause: Clause) -> Option<usize> {
    let number = pick(random, draft.locations.len(), |number| match clause {
        Clause::LocationFault | Clause::FaultRest => draft.is_fault(number),
        Clause::NodeCount | Clause::LocationRest => draft.nodes(number) == NODES,
        Clause::PointerValue | Clause::SuccessorValue | Clause::AbsentSuccessor => draft.nodes(number) > 0,
        _ => true,
    })?;
    let nodes = draft.nodes(number);
    let value = any_of(random, &[nodes.wrapping_sub(1) as u8, NULL, UNDEFINED]);
    let (at, byte) = match clause {
        Clause::LocationFault | Clause::FaultRest => (2, 3),
        Clause::PointerValue | Clause::NodeCount => (within(random, POINTERS_AT, SUCCESSORS_AT - 1), value),
        Clause::SuccessorValue => (within(random, SUCCESSORS_AT, SUCCESSORS_AT + nodes - 1), value),
        // The last successor that may be other than zero.
        Clause::AbsentSuccessor | Clause::LocationRest => (SUCCESSORS_AT + nodes - 1, value),
        _ => (1, 63),
    };
    draft.locations[number][at] = byte;
    Some(number)
}
