//! Whether a shape with counters describes a heap, straight from the words
//! of the definition and without folding.

use crate::fold::Counters;
use crate::heap::{Heap, Value};
use crate::records::{byte_value, node_count, pointer_byte, successor_byte, Record, NODES};

/// Tells what does not fit, if anything.
pub fn describes(record: &Record, counters: &Counters, heap: &Heap) -> Result<(), String> {
    let heads = find_heads(record, counters, heap)?;
    let owners = claim_cells(record, counters, heap, &heads)?;
    for (cell, owner) in owners.into_iter().enumerate() {
        if !heap.in_use(cell) {
            continue;
        }
        let owner = owner.ok_or(format!("cell {cell} is in no segment"))?;
        if is_core(heap, cell) != (heads[owner] == cell) {
            return Err(format!("cell {cell} is a head and not core, or the reverse"));
        }
    }
    first_visits(record)
}

/// The head of each node, from what the pointers and the last cells hold.
fn find_heads(record: &Record, counters: &Counters, heap: &Heap) -> Result<Vec<usize>, String> {
    let nodes = node_count(record);
    let mut heads: [Option<usize>; NODES] = [None; NODES];
    let mut agree = |named: Value, held: Value, what: &str| -> Result<Option<usize>, String> {
        match (named, held) {
            (Value::Cell(node), Value::Cell(cell)) => {
                let known = heads[node].replace(cell);
                match known {
                    None => Ok(Some(node)),
                    Some(known) if known == cell => Ok(None),
                    Some(_) => Err(format!("{what} leads into node {node} past its head")),
                }
            }
            _ if named == held => Ok(None),
            _ => Err(format!("{what} holds {held:?} and not {named:?}")),
        }
    };
    let mut to_walk = Vec::new();
    for (pointer, &held) in heap.pointers.iter().enumerate() {
        let named = byte_value(pointer_byte(record, pointer));
        if let Some(node) = agree(named, held, &format!("pointer {pointer}"))? {
            let Value::Cell(head) = held else { continue };
            to_walk.push((node, head));
        }
    }
    while let Some((node, head)) = to_walk.pop() {
        let last = last_cell(heap, head, counters[node])?;
        let held = heap.next(last);
        let named = byte_value(successor_byte(record, node));
        if let Some(node) = agree(named, held, &format!("the end of node {node}"))? {
            let Value::Cell(head) = held else { continue };
            to_walk.push((node, head));
        }
    }
    (0..nodes).map(|node| heads[node].ok_or(format!("node {node} has no head"))).collect()
}

/// The last of so many cells from a head on.
fn last_cell(heap: &Heap, head: usize, cells: u64) -> Result<usize, String> {
    if cells == 0 || cells > heap.cells.len() as u64 {
        return Err(format!("a counter of {cells}"));
    }
    let mut at = head;
    for _ in 1..cells {
        match heap.next(at) {
            Value::Cell(cell) => at = cell,
            _ => return Err("a segment ends too early".to_string()),
        }
    }
    Ok(at)
}

/// The node of each cell; no cell may be in two of them, or twice in one.
fn claim_cells(record: &Record, counters: &Counters, heap: &Heap, heads: &[usize]) -> Result<Vec<Option<usize>>, String> {
    let mut owners = vec![None; heap.cells.len()];
    for (node, &head) in heads.iter().enumerate() {
        let mut at = Value::Cell(head);
        for _ in 0..counters[node] {
            let Value::Cell(cell) = at else {
                return Err(format!("node {node} ends too early"));
            };
            if owners[cell].replace(node).is_some() {
                return Err(format!("cell {cell} is met twice"));
            }
            at = heap.next(cell);
        }
    }
    if counters[node_count(record)..].iter().any(|&counter| counter != 0) {
        return Err("a counter past the nodes".to_string());
    }
    Ok(owners)
}

pub(super) fn is_core(heap: &Heap, cell: usize) -> bool {
    let held = Value::Cell(cell);
    let holders = heap.cells.iter().filter(|&&next| next == Some(held)).count();
    heap.pointers.contains(&held) || holders >= 2
}

/// Whether the nodes are numbered in the order of their first visit.
fn first_visits(record: &Record) -> Result<(), String> {
    let mut visited = 0;
    for pointer in 0..6 {
        let mut at = pointer_byte(record, pointer);
        while let Value::Cell(node) = byte_value(at) {
            if node > visited {
                return Err(format!("node {node} is visited too early"));
            }
            if node < visited {
                break;
            }
            visited += 1;
            at = successor_byte(record, node);
        }
    }
    if visited == node_count(record) {
        Ok(())
    } else {
        Err("a node is never visited".to_string())
    }
}
