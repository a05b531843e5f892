//! Edge records just outside a clause, and just inside.

use super::draft::Draft;
use super::{any_of, low, pick, within};
use crate::automaton::{encode_edge, Edge};
use crate::clause::Clause;
use crate::random::Random;
use crate::records::{Guard, Record, NODES, NO_GUARD, TWO_OR_MORE};

/// Breaks an edge of a sound draft. Answers which, if there is one to break.
pub fn outside(random: &mut Random, draft: &mut Draft, clause: Clause) -> Option<usize> {
    if clause == Clause::BelowOne {
        return low::outside(random, draft);
    }
    let number = pick(random, draft.edges.len(), |number| {
        let edge = draft.edge(number);
        let [old, new] = draft.ends(number);
        let to_fault = draft.is_fault(edge.to);
        match clause {
            Clause::SecondGuardAbsent => edge.guards[1].kind == NO_GUARD,
            Clause::FirstGuardAbsent => edge.guards[0].kind == NO_GUARD,
            Clause::UpdateTopBits | Clause::UpdateConstant => new > 0,
            Clause::AbsentUpdate => !to_fault && new < NODES,
            Clause::FaultUpdate => to_fault,
            Clause::AddedNode => old < NODES && new > 0,
            Clause::AddedTwice => new > 1 && edge.updates.iter().any(|update| update & 0xfff != 0),
            _ => true,
        }
    })?;
    let [old, new] = draft.ends(number);
    let count = draft.locations.len();
    let kind = any_of(random, &[1, TWO_OR_MORE]);
    let mut record = draft.edges[number];
    match clause {
        Clause::EdgeKind => record[0] = any_of(random, &[0x44, 0x46, 0x4c, 0x48, 0x53, 0xc5, 0]),
        Clause::SecondGuardKind => record[1] |= 0b110,
        Clause::TopBit => record[1] |= 0x80,
        Clause::SecondGuardAbsent => record[1] |= any_of(random, &[1, 2, 4, 8, 11, 15]) << 3,
        Clause::FirstGuardKind => record[6] = any_of(random, &[3, 4, 128, 255]),
        Clause::FirstGuardAbsent => record[7] = any_of(random, &[1, 2, 11, 12, 255]),
        Clause::UpdateTopBits => set_bits(&mut record, random.below(new), any_of(random, &[0x4000, 0x8000, 0xc000])),
        Clause::UpdateConstant => set_bits(&mut record, random.below(new), 0x3000),
        Clause::AbsentUpdate | Clause::FaultUpdate => {
            // At best an old counter that no other update adds.
            let added = draft.edge(number).updates.iter().fold(0, |all, update| all | update & 0xfff);
            let bit = pick(random, old, |node| added >> node & 1 == 0).map_or(0x1000, |node| 1 << node);
            let at = within(random, new, NODES - 1);
            set_bits(&mut record, at, any_of(random, &[0x1000, 0x2000, bit, 0x8000]));
        }
        Clause::EdgeFrom => write_end(random, &mut record, 2, count),
        Clause::EdgeTo => write_end(random, &mut record, 4, count),
        Clause::FirstGuardNode => {
            record[6] = kind;
            record[7] = any_of(random, &[old as u8, 12, 255]);
        }
        Clause::SecondGuardNode => record[1] = record[1] & 1 | kind << 1 | any_of(random, &[old as u8, 12, 15]) << 3,
        Clause::AddedNode => {
            let node = any_of(random, &[old, NODES - 1]);
            set_bits(&mut record, random.below(new), 1 << node);
        }
        // Clause::AddedTwice
        _ => {
            let edge = draft.edge(number);
            let adds = pick(random, new, |entry| edge.updates[entry] & 0xfff != 0)?;
            let other = (adds + random.between(1, new - 1)) % new;
            let node = (edge.updates[adds] & 0xfff).trailing_zeros();
            set_bits(&mut record, other, 1 << node);
        }
    }
    draft.edges[number] = record;
    Some(number)
}

/// Sets bits of an update.
fn set_bits(record: &mut Record, entry: usize, bits: u16) {
    let [low, high] = bits.to_le_bytes();
    record[8 + 2 * entry] |= low;
    record[9 + 2 * entry] |= high;
}

/// Writes an end that is not below the count: the first such number, or one
/// that would be below it in fewer bits.
fn write_end(random: &mut Random, record: &mut Record, at: usize, count: usize) {
    let end = any_of(random, &[count as u16, count as u16 + 1, 256.max(count as u16), 1024, 0x8000, 0xffff]);
    record[at..at + 2].copy_from_slice(&end.to_le_bytes());
}

/// Changes an edge of a sound draft to the last that the clause allows.
/// Answers which, if there is one to change.
pub fn inside(random: &mut Random, draft: &mut Draft, clause: Clause) -> Option<usize> {
    if clause == Clause::BelowOne {
        return low::inside(random, draft);
    }
    let number = pick(random, draft.edges.len(), |number| {
        let [first, second] = draft.edge(number).guards;
        let [old, new] = draft.ends(number);
        match clause {
            // A guard >= 2 in place of none only takes counters away.
            Clause::SecondGuardKind | Clause::SecondGuardNode => second.kind == NO_GUARD && old > 0,
            Clause::TopBit => second.kind == NO_GUARD && old > 8,
            Clause::SecondGuardAbsent => second.kind == NO_GUARD && old > 1,
            Clause::FirstGuardKind | Clause::FirstGuardNode => first.kind == NO_GUARD && old > 0,
            Clause::FirstGuardAbsent => first.kind == NO_GUARD && old > 1,
            Clause::FaultUpdate => draft.is_fault(draft.edge(number).to) && old > 0,
            Clause::UpdateTopBits | Clause::UpdateConstant | Clause::AbsentUpdate => new > 0,
            Clause::AddedNode => new > 0 && old > 0,
            Clause::AddedTwice => new > 1,
            _ => true,
        }
    })?;
    let [old, new] = draft.ends(number);
    let last = draft.locations.len() - 1;
    let mut edge = draft.edge(number);
    let on = |node| Guard { kind: TWO_OR_MORE, node };
    match clause {
        Clause::SecondGuardKind | Clause::SecondGuardNode => edge.guards[1] = on(old - 1),
        Clause::TopBit => edge.guards[1] = on(random.between(8, old - 1)),
        Clause::SecondGuardAbsent => edge.guards[1] = on(random.between(1, old - 1)),
        Clause::FirstGuardKind | Clause::FirstGuardNode => edge.guards[0] = on(old - 1),
        Clause::FirstGuardAbsent => edge.guards[0] = on(random.between(1, old - 1)),
        Clause::FaultUpdate => edge.guards = [on(random.below(old)), on(old - 1)],
        Clause::UpdateTopBits | Clause::UpdateConstant => set_constant_one(&mut edge.updates[random.below(new)]),
        Clause::AbsentUpdate => set_constant_one(&mut edge.updates[new - 1]),
        Clause::EdgeFrom => edge = draft.random_edge(random, last, edge.to),
        Clause::EdgeTo => edge = draft.random_edge(random, edge.from, last),
        Clause::AddedNode => move_added(&mut edge, old - 1, random.below(new)),
        Clause::AddedTwice if old > 0 => move_added(&mut edge, random.below(old), random.below(new)),
        _ => {}
    }
    draft.edges[number] = encode_edge(&edge);
    Some(number)
}

fn set_constant_one(update: &mut u16) {
    *update = *update & 0xfff | 0x2000;
}

/// Makes an update the only one that adds this counter. The others then give 1
/// or more by their constants.
fn move_added(edge: &mut Edge, node: usize, entry: usize) {
    for update in edge.updates.iter_mut().filter(|update| **update >> node & 1 == 1) {
        *update &= !(1 << node);
        set_constant_one(update);
    }
    edge.updates[entry] |= 1 << node;
}
