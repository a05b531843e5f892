//! Folding a heap into a shape with counters.

use crate::heap::{Heap, Value};
use crate::records::{value_byte, Record, NODES, POINTERS_AT, RECORD, START, SUCCESSORS_AT};

/// The number of cells of each node, 0 past the last node. Heaps have no
/// limit, so these are wider than the counters of a heap image.
pub type Counters = [u64; NODES];

/// Folds a heap in which every cell in use is reachable.
pub fn fold_heap(heap: &Heap) -> (Record, Counters) {
    let core = core_cells(heap);
    let heads = number_heads(heap, &core);
    let mut node_of = vec![NODES; heap.cells.len()];
    for (node, &head) in heads.iter().enumerate() {
        node_of[head] = node;
    }
    let in_nodes = |value: Value| match value {
        Value::Cell(cell) => Value::Cell(node_of[cell]),
        other => other,
    };
    let mut record = [0; RECORD];
    record[0] = START;
    record[3] = heads.len() as u8;
    for (pointer, &value) in heap.pointers.iter().enumerate() {
        record[POINTERS_AT + pointer] = value_byte(in_nodes(value));
    }
    let mut counters = [0; NODES];
    for (node, &head) in heads.iter().enumerate() {
        let (length, last) = walk_segment(heap, &core, head);
        record[SUCCESSORS_AT + node] = value_byte(in_nodes(last));
        counters[node] = length;
    }
    (record, counters)
}

/// The node of each cell of such a heap, by cell number; none for a cell that
/// is not in use.
pub fn nodes_of_cells(heap: &Heap) -> Vec<Option<usize>> {
    let core = core_cells(heap);
    let mut nodes = vec![None; heap.cells.len()];
    for (node, head) in number_heads(heap, &core).into_iter().enumerate() {
        let (length, _) = walk_segment(heap, &core, head);
        let mut at = Value::Cell(head);
        for _ in 0..length {
            let Value::Cell(cell) = at else { break };
            nodes[cell] = Some(node);
            at = heap.next(cell);
        }
    }
    nodes
}

/// For each cell, whether a pointer holds it or the next of two or more cells.
pub fn core_cells(heap: &Heap) -> Vec<bool> {
    let mut holders = vec![0usize; heap.cells.len()];
    for &next in heap.cells.iter().flatten() {
        if let Value::Cell(cell) = next {
            holders[cell] += 1;
        }
    }
    let mut core: Vec<bool> = holders.iter().map(|&count| count >= 2).collect();
    for &pointer in &heap.pointers {
        if let Value::Cell(cell) = pointer {
            core[cell] = true;
        }
    }
    core
}

/// The core cells in the order of their first visit. With six pointers there
/// are never more than twelve: each one that no pointer holds uses up two of
/// the segments' ends.
pub fn number_heads(heap: &Heap, core: &[bool]) -> Vec<usize> {
    let mut heads = Vec::with_capacity(NODES);
    let mut visited = vec![false; heap.cells.len()];
    for &pointer in &heap.pointers {
        let mut at = pointer;
        while let Value::Cell(cell) = at {
            if visited[cell] {
                break;
            }
            visited[cell] = true;
            if core[cell] {
                heads.push(cell);
            }
            at = heap.next(cell);
        }
    }
    heads
}

/// The number of cells of a segment, and what its last cell holds.
fn walk_segment(heap: &Heap, core: &[bool], head: usize) -> (u64, Value) {
    let mut length = 1;
    let mut at = heap.next(head);
    loop {
        match at {
            Value::Cell(cell) if !core[cell] => {
                length += 1;
                at = heap.next(cell);
            }
            end => return (length, end),
        }
    }
}

#[cfg(test)]
mod tests {
    use super::*;
    use crate::records::{NULL, UNDEFINED};

    #[test]
    fn the_empty_heap() {
        let (record, counters) = fold_heap(&Heap::empty());
        let mut want = [0; RECORD];
        want[0] = START;
        want[4..10].fill(NULL);
        assert_eq!(record, want);
        assert_eq!(counters, [0; NODES]);
    }

    #[test]
    fn shared_tail_ring_and_undefined() {
        // Pointers 1 and 4 lead over 2 and 1 cells into a ring of three.
        let mut heap = Heap::empty();
        heap.pointers[0] = Value::Undefined;
        heap.pointers[1] = Value::Cell(9);
        heap.pointers[4] = Value::Cell(0);
        heap.cells = vec![None; 10];
        for (cell, next) in [(9, 3), (3, 5), (0, 5), (5, 6), (6, 7), (7, 5)] {
            heap.cells[cell] = Some(Value::Cell(next));
        }
        let (record, counters) = fold_heap(&heap);
        assert_eq!(record[3], 3);
        assert_eq!(record[4..10], [UNDEFINED, 0, NULL, NULL, 2, NULL]);
        assert_eq!(record[10..14], [1, 1, 1, 0]);
        assert_eq!(counters[..4], [2, 3, 1, 0]);
        let nodes = [Some(2), None, None, Some(0), None, Some(1), Some(1), Some(1), None, Some(0)];
        assert_eq!(nodes_of_cells(&heap), nodes);
    }
}
