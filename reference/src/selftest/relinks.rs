//! Relinks, told apart by what they find and by whether they leak.

use super::describes::is_core;
use crate::automaton::{Automaton, Edge};
use crate::heap::{Heap, Value};
use crate::records::{byte_value, fault_location, location, pointer_byte, shape_of, ONE, TWO_OR_MORE};
use crate::statement::{Op, Statement};

/// The ways of a relink, and the fault of each as the request numbers it.
pub const WAYS: [(&str, u8); 10] = [
    ("w null", 1),
    ("w undefined", 2),
    ("u null", 1),
    ("u undefined", 2),
    ("u and w at one cell", 0),
    ("u = 1 and w = 1", 0),
    ("u = 1 and w = 1, leak", 3),
    ("u = 1 and w >= 2", 0),
    ("u = 1 and w >= 2, leak", 3),
    ("u >= 2", 3),
];

/// The way in which u and w are at different cells whose counters are 1, or
/// are not.
fn way_of_two(u_is_one: bool, w_is_one: bool, leak: bool) -> usize {
    match (u_is_one, w_is_one) {
        (true, true) => 5 + usize::from(leak),
        (true, false) => 7 + usize::from(leak),
        (false, _) => 9,
    }
}

/// The way in which one of them is at no cell, or both are at the same. The
/// values are those of the pointers, be they cells or nodes.
fn way_at_once(u: Value, w: Value) -> Option<usize> {
    match (w, u) {
        (Value::Null, _) => Some(0),
        (Value::Undefined, _) => Some(1),
        (_, Value::Null) => Some(2),
        (_, Value::Undefined) => Some(3),
        _ => (u == w).then_some(4),
    }
}

/// Whether a core cell is a segment by itself.
fn is_alone(heap: &Heap, cell: usize) -> bool {
    match heap.next(cell) {
        Value::Cell(next) => is_core(heap, next),
        _ => true,
    }
}

/// The heap that a relink leaves behind if it leads to no fault.
fn relinked(heap: &Heap, u: Value, w: Value) -> Heap {
    let mut changed = heap.clone();
    if let (Value::Cell(u), Value::Cell(w)) = (u, w) {
        changed.cells[u] = heap.cells[w];
    }
    changed
}

/// The number of the way of a step, if it is a relink. Wants the fault of that
/// way, the heap with the one next changed, and a leak only if it loses cells.
pub fn check_step(statement: &Statement, before: &Heap, after: &Heap, fault: u8) -> Result<Option<usize>, String> {
    if statement.op != Op::Relink {
        return Ok(None);
    }
    let (u, w) = (before.pointers[statement.u], before.pointers[statement.w]);
    let changed = relinked(before, u, w);
    let way = match (way_at_once(u, w), u, w) {
        (None, Value::Cell(u), Value::Cell(w)) => way_of_two(is_alone(before, u), is_alone(before, w), changed.leaks()),
        (way, ..) => way.ok_or("a relink in no way")?,
    };
    let due = if WAYS[way].1 == 0 { &changed } else { before };
    if fault == WAYS[way].1 && after == due {
        Ok(Some(way))
    } else {
        Err(format!("a relink with {} has fault {fault} or another heap", WAYS[way].0))
    }
}

/// The number of the way of an edge that leaves a relink, unless it is not
/// the edge that is due.
pub fn check_edge(automaton: &Automaton, statement: &Statement, edge: &Edge) -> Option<usize> {
    let record = &automaton.locations[edge.from];
    let target = &automaton.locations[edge.to];
    let held = |pointer| byte_value(pointer_byte(record, pointer));
    let [first, second] = edge.guards.map(|guard| guard.kind);
    let way = way_at_once(held(statement.u), held(statement.w))
        .unwrap_or_else(|| way_of_two(first == ONE, second == ONE, target[2] != 0));
    let due = match WAYS[way].1 {
        0 if way == 4 => *target == location(statement.first, &shape_of(record)) && updates_of_none_changed(record[3], edge),
        0 => target[1..3] == [statement.first, 0] && updates_of_a_relink(automaton, statement, edge),
        fault => *target == fault_location(record[1], fault),
    };
    (edge.branch == 0 && due).then_some(way)
}

fn updates_of_none_changed(nodes: u8, edge: &Edge) -> bool {
    (0..usize::from(nodes)).all(|node| edge.updates[node] == 0x1000 | 1 << node)
}

/// All old counters are carried, that of u by the node where u is afterwards.
/// With w = 1 the same holds of w. With w >= 2 the node where w is afterwards
/// is one cell, one other takes the rest, and no more constants are there.
fn updates_of_a_relink(automaton: &Automaton, statement: &Statement, edge: &Edge) -> bool {
    let record = &automaton.locations[edge.from];
    let target = &automaton.locations[edge.to];
    let update_at = |pointer| edge.updates[usize::from(pointer_byte(target, pointer))];
    let adds = |update: u16, pointer| update >> pointer_byte(record, pointer) & 1 == 1;
    let all = edge.updates.iter().fold(0, |all, update| all | update & 0xfff);
    let with_constant =
        |constant: u16| edge.updates[..usize::from(target[3])].iter().filter(move |&&update| update >> 12 == constant);
    let carried = all == (1 << record[3]) - 1 && adds(update_at(statement.u), statement.u);
    let (less, more) = (with_constant(0).count(), with_constant(2).count());
    if edge.guards[1].kind == TWO_OR_MORE {
        let tail = with_constant(0).all(|&update| adds(update, statement.w));
        carried && update_at(statement.w) == 0x2000 && tail && (less, more) == (1, 1)
    } else {
        carried && adds(update_at(statement.w), statement.w) && (less, more) == (0, 0)
    }
}
