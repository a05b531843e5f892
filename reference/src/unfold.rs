//! Unfolding a shape with counters into a heap, and what a shape must be.

use crate::fold::{core_cells, number_heads, Counters};
use crate::heap::{Heap, Value};
use crate::records::{breaks_layout, byte_value, node_count, pointer_byte, successor_byte, Record, NODES};
use crate::refusal::{refuse, Node, Refusal};

/// Unfolds a shape whose layout is sound, with a counter of at least 1 for
/// each node. Cells are numbered from 0, node by node, head to tail.
pub fn unfold_shape(record: &Record, counters: &Counters) -> Heap {
    let nodes = node_count(record);
    let mut heads = [0usize; NODES];
    let mut total = 0;
    for node in 0..nodes {
        heads[node] = total;
        total += counters[node] as usize;
    }
    let in_cells = |byte: u8| match byte_value(byte) {
        Value::Cell(node) => Value::Cell(heads[node]),
        other => other,
    };
    let mut heap = Heap::empty();
    for (pointer, value) in heap.pointers.iter_mut().enumerate() {
        *value = in_cells(pointer_byte(record, pointer));
    }
    heap.cells.reserve(total);
    for node in 0..nodes {
        let last = heads[node] + counters[node] as usize - 1;
        for cell in heads[node]..last {
            heap.cells.push(Some(Value::Cell(cell + 1)));
        }
        heap.cells.push(Some(in_cells(successor_byte(record, node))));
    }
    heap
}

/// Refuses a record that is no shape, with 8, 9, 18 or 19 at place 0.
///
/// It is looked at as the heap with one cell for each node: cell n is then the
/// head of node n. Each of the last three tells the first node concerned.
pub fn check_shape(record: &Record) -> Result<(), Refusal> {
    if breaks_layout(record) {
        return refuse(8, 0);
    }
    let heap = unfold_shape(record, &[1; NODES]);
    if let Some(node) = heap.reachable().iter().position(|&reachable| !reachable) {
        return refuse_node(9, node);
    }
    let core = core_cells(&heap);
    if let Some(node) = core.iter().position(|&core| !core) {
        return refuse_node(18, node);
    }
    // As all are core, these are all nodes in the order of their first visit.
    let visits = number_heads(&heap, &core);
    let number_of = |node: usize| visits.iter().position(|&visited| visited == node);
    match (0..visits.len()).find(|&node| number_of(node) != Some(node)) {
        Some(node) => refuse_node(19, node),
        None => Ok(()),
    }
}

fn refuse_node(number: u8, node: usize) -> Result<(), Refusal> {
    Err(Refusal { number, place: 0, node: Node(node as u8) })
}

#[cfg(test)]
mod tests {
    use super::*;
    use crate::fold::fold_heap;
    use crate::records::{NULL, START, UNDEFINED};

    fn shape(pointers: [u8; 6], successors: &[u8]) -> Record {
        let mut record = [0; 32];
        record[0] = START;
        record[3] = successors.len() as u8;
        record[4..10].copy_from_slice(&pointers);
        record[10..10 + successors.len()].copy_from_slice(successors);
        record
    }

    #[test]
    fn cells_are_numbered_node_by_node() {
        let record = shape([0, 2, NULL, UNDEFINED, NULL, NULL], &[1, 1, 1]);
        let mut counters = [0; NODES];
        counters[..3].copy_from_slice(&[2, 3, 1]);
        let heap = unfold_shape(&record, &counters);
        let nexts = [1, 2, 3, 4, 2, 2].map(|cell| Some(Value::Cell(cell)));
        assert_eq!(heap.cells, nexts);
        assert_eq!(heap.pointers[0], Value::Cell(0));
        assert_eq!(heap.pointers[1], Value::Cell(5));
        assert_eq!(heap.pointers[3], Value::Undefined);
        assert_eq!(fold_heap(&heap), (record, counters));
    }

    #[test]
    fn what_is_no_shape() {
        let pointers = [0, NULL, NULL, NULL, NULL, NULL];
        assert_eq!(check_shape(&shape(pointers, &[NULL])), Ok(()));
        assert_eq!(check_shape(&shape(pointers, &[0])), Ok(()));
        assert_eq!(check_shape(&shape(pointers, &[1, 1])), Ok(()));
        // Unreachable, and two rings of which one is lost.
        assert_eq!(check_shape(&shape(pointers, &[NULL, 0])), refuse_node(9, 1));
        assert_eq!(check_shape(&shape(pointers, &[0, 1])), refuse_node(9, 1));
        // Not core, and the first of two that are not.
        assert_eq!(check_shape(&shape(pointers, &[1, NULL])), refuse_node(18, 1));
        assert_eq!(check_shape(&shape(pointers, &[1, 2, NULL])), refuse_node(18, 1));
        // Another numbering, from the first node and from the second.
        let swapped = [1, 0, NULL, NULL, NULL, NULL];
        assert_eq!(check_shape(&shape(swapped, &[NULL, NULL])), refuse_node(19, 0));
        assert_eq!(check_shape(&shape([0, 1, NULL, NULL, NULL, NULL], &[2, 2, NULL])), refuse_node(19, 1));
        assert_eq!(check_shape(&shape(swapped, &[2, NULL])), refuse(8, 0));
    }

    #[test]
    fn which_of_them_comes_first() {
        let swapped = [1, 0, NULL, NULL, NULL, NULL];
        // Nodes 0 and 1 are numbered otherwise, node 2 is not core, node 3 is lost.
        assert_eq!(check_shape(&shape(swapped, &[NULL, 2, NULL, NULL])), refuse_node(9, 3));
        assert_eq!(check_shape(&shape(swapped, &[NULL, 2, NULL])), refuse_node(18, 2));
        assert_eq!(check_shape(&shape(swapped, &[NULL, NULL])), refuse_node(19, 0));
    }
}
