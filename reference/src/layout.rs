//! Whether two tables keep the layout, clause by clause.

use crate::automaton::{decode_edge, Edge};
use crate::clause::Clause;
use crate::lowest::could_give_less_than_one;
use crate::records::{
    Guard, Record, EDGE, LOCATION, NODES, NO_GUARD, NULL, POINTERS_AT, RECORD, STATEMENTS, SUCCESSORS_AT, TWO_OR_MORE, UNDEFINED,
};
use crate::translate::{places, EDGES, LOCATIONS};

/// The kinds of faults go from 1 to this one.
const LAST_FAULT: u8 = 3;
/// Where the successors of a location end and the zeros begin.
const SUCCESSORS_END: usize = SUCCESSORS_AT + NODES;

/// The first clause of [`Clause::ALL`] that the tables break, wherever they
/// break it.
pub fn broken_clause(locations: &[u8], edges: &[u8], location_count: usize, edge_count: usize) -> Option<Clause> {
    broken_clauses(locations, edges, location_count, edge_count).first().copied()
}

/// All clauses that the tables break, in their order and each once.
///
/// What a clause leans on must be there: if a count is above the places, no
/// record is looked at; if an end of an edge is no location, or one whose fault
/// or node count is none, the nodes of that end are not looked at; and how low
/// an update goes is asked of sound guards and updates only.
pub fn broken_clauses(locations: &[u8], edges: &[u8], location_count: usize, edge_count: usize) -> Vec<Clause> {
    let mut broken = Broken { found: [false; Clause::ALL.len()] };
    let counts_fit = broken.unless(location_count <= places(locations, LOCATIONS), Clause::LocationCount)
        & broken.unless(edge_count <= places(edges, EDGES), Clause::EdgeCount);
    if counts_fit {
        let locations = used(locations, location_count);
        for location in locations {
            check_location(&mut broken, location);
        }
        for record in used(edges, edge_count) {
            check_edge(&mut broken, record, locations);
        }
    }
    Clause::ALL.iter().copied().filter(|&clause| broken.found[clause as usize]).collect()
}

/// The records in use, of which there are places for so many.
pub fn used(table: &[u8], count: usize) -> &[Record] {
    let (records, _) = table.as_chunks::<RECORD>();
    &records[..count]
}

/// How many nodes the shape of a location has, if its bytes 2 and 3 tell; a
/// fault has none.
pub fn nodes_of(location: &Record) -> Option<usize> {
    match location[2] {
        0 => Some(usize::from(location[3])).filter(|&nodes| nodes <= NODES),
        1..=LAST_FAULT => Some(0),
        _ => None,
    }
}

/// The clauses found to be broken so far.
struct Broken {
    found: [bool; Clause::ALL.len()],
}

impl Broken {
    /// Notes the clause unless it is kept. Answers whether it is.
    fn unless(&mut self, kept: bool, clause: Clause) -> bool {
        self.found[clause as usize] |= !kept;
        kept
    }
}

fn all_zero(bytes: &[u8]) -> bool {
    bytes.iter().all(|&byte| byte == 0)
}

fn check_location(broken: &mut Broken, record: &Record) {
    broken.unless(record[0] == LOCATION, Clause::LocationKind);
    broken.unless(usize::from(record[1]) < STATEMENTS, Clause::LocationStatement);
    match record[2] {
        0 => check_shape_bytes(broken, record),
        fault if broken.unless(fault <= LAST_FAULT, Clause::LocationFault) => {
            broken.unless(all_zero(&record[3..]), Clause::FaultRest);
        }
        _ => {}
    }
}

fn check_shape_bytes(broken: &mut Broken, record: &Record) {
    broken.unless(all_zero(&record[SUCCESSORS_END..]), Clause::LocationRest);
    let nodes = usize::from(record[3]);
    if broken.unless(nodes <= NODES, Clause::NodeCount) {
        let is_value = |&byte: &u8| usize::from(byte) < nodes || byte == NULL || byte == UNDEFINED;
        let (successors, past) = record[SUCCESSORS_AT..SUCCESSORS_END].split_at(nodes);
        broken.unless(record[POINTERS_AT..SUCCESSORS_AT].iter().all(is_value), Clause::PointerValue);
        broken.unless(successors.iter().all(is_value), Clause::SuccessorValue);
        broken.unless(all_zero(past), Clause::AbsentSuccessor);
    }
}

fn check_edge(broken: &mut Broken, record: &Record, locations: &[Record]) {
    let edge = decode_edge(record);
    let [first, second] = edge.guards;
    broken.unless(record[0] == EDGE, Clause::EdgeKind);
    broken.unless(record[1] & 0x80 == 0, Clause::TopBit);
    broken.unless(first.kind <= TWO_OR_MORE, Clause::FirstGuardKind);
    broken.unless(second.kind <= TWO_OR_MORE, Clause::SecondGuardKind);
    broken.unless(first.kind != NO_GUARD || first.node == 0, Clause::FirstGuardAbsent);
    broken.unless(second.kind != NO_GUARD || second.node == 0, Clause::SecondGuardAbsent);
    check_updates(broken, &edge.updates);
    let source = locations.get(edge.from);
    let target = locations.get(edge.to);
    broken.unless(source.is_some(), Clause::EdgeFrom);
    broken.unless(target.is_some(), Clause::EdgeTo);
    let old = source.and_then(nodes_of);
    let new = target.and_then(nodes_of);
    if let (Some(target), Some(new)) = (target, new) {
        let clause = if target[2] == 0 { Clause::AbsentUpdate } else { Clause::FaultUpdate };
        broken.unless(edge.updates[new..].iter().all(|&update| update == 0), clause);
    }
    if let Some(old) = old {
        check_old_nodes(broken, &edge, old, new);
    }
}

/// What holds of the twelve updates whatever the ends of the edge are.
fn check_updates(broken: &mut Broken, updates: &[u16; NODES]) {
    let mut seen = 0;
    for update in updates {
        let added = update & 0xfff;
        broken.unless(update >> 14 == 0, Clause::UpdateTopBits);
        broken.unless(update >> 12 & 3 != 3, Clause::UpdateConstant);
        broken.unless(added & seen == 0, Clause::AddedTwice);
        seen |= added;
    }
}

/// What hangs on the old nodes, and on the new ones if they are known.
fn check_old_nodes(broken: &mut Broken, edge: &Edge, old: usize, new: Option<usize>) {
    let [first, second] = &edge.guards;
    let fits = |guard: &Guard| !(1..=TWO_OR_MORE).contains(&guard.kind) || guard.node < old;
    broken.unless(fits(first), Clause::FirstGuardNode);
    broken.unless(fits(second), Clause::SecondGuardNode);
    let names_old = |update: u16| u32::from(update & 0xfff) >> old == 0;
    broken.unless(edge.updates.iter().all(|&update| names_old(update)), Clause::AddedNode);
    let guards_sound = edge.guards.iter().all(|guard| guard.kind <= TWO_OR_MORE && fits(guard));
    if let (Some(new), true) = (new, guards_sound) {
        let sound = |&&update: &&u16| update >> 12 < 3 && names_old(update);
        let low = edge.updates[..new].iter().filter(sound).any(|&update| could_give_less_than_one(update, &edge.guards));
        broken.unless(!low, Clause::BelowOne);
    }
}
