//! Exactness of a listing: each location once and reachable, and the edges
//! of each in their place and order.

use super::counts::Counts;
use super::drop_counts::count_ways;
use super::{drops, relinks, undefined};
use crate::automaton::{Automaton, Edge};
use crate::input::Routine;
use crate::records::{fault_location, location, pointer_byte, shape_of, Guard, Record};
use crate::records::{ABSENT, NODES, NULL, ONE, TWO_OR_MORE, UNDEFINED};
use crate::statement::{Op, Statement};
use crate::unfold::check_shape;
use std::collections::HashSet;

pub fn test(counts: &mut Counts, automaton: &Automaton, routine: &Routine) -> Result<(), String> {
    starting_shapes_come_first(automaton, routine)?;
    locations_are_distinct_and_sound(automaton, routine)?;
    locations_are_numbered_as_found(automaton, routine)?;
    for number in 0..automaton.locations.len() {
        edges_of(counts, automaton, routine, number)?;
    }
    Ok(())
}

fn starting_shapes_come_first(automaton: &Automaton, routine: &Routine) -> Result<(), String> {
    for (number, shape) in routine.shapes.iter().enumerate() {
        if automaton.locations.get(number) != Some(&location(0, shape)) {
            return Err(format!("location {number} is not its starting shape"));
        }
    }
    Ok(())
}

fn locations_are_distinct_and_sound(automaton: &Automaton, routine: &Routine) -> Result<(), String> {
    let mut met = HashSet::new();
    for (number, record) in automaton.locations.iter().enumerate() {
        let sound = match record[2] {
            0 => check_shape(&shape_of(record)).is_ok(),
            1..=3 => record[3..].iter().all(|&byte| byte == 0),
            _ => false,
        };
        if !sound || usize::from(record[1]) >= routine.statements.len() {
            return Err(format!("location {number} is unsound"));
        }
        if !met.insert(record) {
            return Err(format!("location {number} stands twice"));
        }
    }
    Ok(())
}

/// Every location past the starting shapes takes its number from the first
/// edge that leads to it, so all are reachable; and edges stand in the order
/// in which the locations are explored.
fn locations_are_numbered_as_found(automaton: &Automaton, routine: &Routine) -> Result<(), String> {
    let mut found = routine.shapes.len();
    let mut exploring = 0;
    for (number, edge) in automaton.edges.iter().enumerate() {
        if edge.from < exploring || edge.from >= found {
            return Err(format!("edge {number} stands out of order"));
        }
        exploring = edge.from;
        if edge.to > found {
            return Err(format!("edge {number} skips a location"));
        }
        if edge.to == found {
            found += 1;
        }
    }
    if found == automaton.locations.len() {
        Ok(())
    } else {
        Err("some location is never found".to_string())
    }
}

/// The branches, guards and nodes that the op asks for, in order.
fn edges_of(counts: &mut Counts, automaton: &Automaton, routine: &Routine, number: usize) -> Result<(), String> {
    let record = &automaton.locations[number];
    let edges: Vec<&Edge> = automaton.leaving(number).iter().map(|&edge| &automaton.edges[edge]).collect();
    let guards: Vec<[Guard; 2]> = edges.iter().map(|edge| edge.guards).collect();
    let statement = &routine.statements[usize::from(record[1])];
    if guards != expected_guards(record, statement) {
        return Err(format!("location {number} has the guards {guards:?}"));
    }
    if statement.op == Op::Drop {
        count_ways(&mut counts.drops.listed, &drops::check_location(automaton, statement, number)?);
    }
    let branches: Vec<u8> = edges.iter().map(|edge| edge.branch).collect();
    let fits = match statement.op {
        Op::Choose => branches == [0, 1] || record[2] != 0,
        Op::TestNull | Op::TestEqual => edges.iter().all(|edge| edge_of_a_test(counts, automaton, statement, edge)),
        Op::Relink => edges.iter().all(|edge| edge_of_a_relink(counts, automaton, statement, edge)),
        _ => branches.iter().all(|&branch| branch == 0),
    };
    if !fits {
        return Err(format!("location {number} has other edges than those due: {edges:?}"));
    }
    for edge in edges {
        updates_fit(automaton, edge)?;
    }
    Ok(())
}

/// A test that looks at an undefined pointer leads to fault 2 of its statement
/// on branch 0. Every other test goes by what is held and changes nothing.
fn edge_of_a_test(counts: &mut Counts, automaton: &Automaton, statement: &Statement, edge: &Edge) -> bool {
    let record = &automaton.locations[edge.from];
    let held = |pointer| pointer_byte(record, pointer);
    let target = &automaton.locations[edge.to];
    if let Some(way) = undefined::way(statement, |pointer| held(pointer) == UNDEFINED) {
        counts.undefined_listed[way] += 1;
        return edge.branch == 0 && *target == fault_location(record[1], undefined::FAULT);
    }
    let other = if statement.op == Op::TestNull { NULL } else { held(statement.w) };
    let (branch, next) = if held(statement.u) == other { (0, statement.first) } else { (1, statement.second) };
    let carried = (0..usize::from(record[3])).all(|node| edge.updates[node] == 0x1000 | 1 << node);
    edge.branch == branch && *target == location(next, &shape_of(record)) && carried
}

fn edge_of_a_relink(counts: &mut Counts, automaton: &Automaton, statement: &Statement, edge: &Edge) -> bool {
    let way = relinks::check_edge(automaton, statement, edge);
    if let Some(way) = way {
        counts.relinks_listed[way] += 1;
    }
    way.is_some()
}

fn expected_guards(record: &Record, statement: &Statement) -> Vec<[Guard; 2]> {
    if record[2] != 0 {
        return Vec::new();
    }
    let none = [ABSENT; 2];
    let pointer = match statement.op {
        Op::Stop => return Vec::new(),
        Op::Choose => return vec![none, none],
        Op::Relink => return guards_of_a_relink(record, statement),
        Op::LoadNext => statement.w,
        Op::CutNext | Op::StoreNext | Op::Free => statement.u,
        _ => return vec![none],
    };
    let byte = pointer_byte(record, pointer);
    let guard = |kind| Guard { kind, node: usize::from(byte) };
    if byte < record[3] {
        vec![[guard(ONE), ABSENT], [guard(TWO_OR_MORE), ABSENT]]
    } else {
        vec![none]
    }
}

/// "u's counter = 1 and w's = 1; u's = 1 and w's >= 2; u's >= 2".
fn guards_of_a_relink(record: &Record, statement: &Statement) -> Vec<[Guard; 2]> {
    let [u, w] = [statement.u, statement.w].map(|pointer| pointer_byte(record, pointer));
    if u == w || u >= record[3] || w >= record[3] {
        return vec![[ABSENT; 2]];
    }
    let guard = |kind, node| Guard { kind, node: usize::from(node) };
    vec![[guard(ONE, u), guard(ONE, w)], [guard(ONE, u), guard(TWO_OR_MORE, w)], [guard(TWO_OR_MORE, u), ABSENT]]
}

/// Entries past the nodes are zero, the others are not, no old counter is
/// added twice, and an old counter past the nodes is never added. Under = 1
/// alone there are no constants, since the node's own counter is carried.
fn updates_fit(automaton: &Automaton, edge: &Edge) -> Result<(), String> {
    let old_nodes = automaton.locations[edge.from][3];
    let target = &automaton.locations[edge.to];
    let alone = edge.guards[0].kind == ONE && edge.guards[1].kind != TWO_OR_MORE;
    let mut seen = 0u16;
    for new in 0..NODES {
        let update = edge.updates[new];
        let added = update & 0xfff;
        if (new < usize::from(target[3])) != (update != 0) || added & seen != 0 {
            return Err(format!("the updates of {edge:?} do not fit"));
        }
        if alone && update != 0 && update >> 12 != 1 {
            return Err(format!("{edge:?} has a constant"));
        }
        seen |= added;
    }
    if seen >> old_nodes != 0 {
        return Err(format!("{edge:?} adds counters that are not there"));
    }
    Ok(())
}
