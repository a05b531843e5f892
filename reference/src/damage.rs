//! H records that keep the layout and are no shapes. Each is made on purpose
//! from a sound shape, so that its refusal and the first node concerned are
//! known beforehand.

use crate::fold::fold_heap;
use crate::heap::{Heap, Value, POINTERS};
use crate::random::{random_value, Random};
use crate::records::{node_count, value_byte, Record, NODES, POINTERS_AT, SUCCESSORS_AT};
use crate::refusal::{Node, Refusal};

/// The refusals of such records, each with the last node at which it can come.
/// 19 cannot come at the last node of a shape: where the walk numbers all the
/// others as they stand, the one number left is that of the last. The last
/// node there can be is 11, so 19 never comes there.
pub const DAMAGES: [(u8, usize); 3] = [(9, NODES - 1), (18, NODES - 1), (19, NODES - 2)];

/// One of these refusals, and the node at which it is to come.
pub type Damage = (u8, usize);

/// Each of these refusals at each node at which it can come.
pub fn all_damages() -> Vec<Damage> {
    DAMAGES.iter().flat_map(|&(number, last)| (0..=last).map(move |node| (number, node))).collect()
}

/// A record for this one of [`all_damages`], with its refusal at place 0. It
/// often has more defects: of the same kind at later nodes, and of the kinds
/// that are looked for later at any nodes.
pub fn damaged_shape(random: &mut Random, (number, node): Damage) -> (Record, Refusal) {
    let record = match number {
        9 => {
            let others = random.between(node, NODES - 1);
            let mut record = reachable_nodes(random, others);
            insert_nodes(random, &mut record, node, insert_lost);
            record
        }
        18 => {
            // There is at least one node for it to stand after.
            let others = random.between(node.max(1), NODES - 1);
            let mut record = core_nodes(random, others);
            insert_nodes(random, &mut record, node, insert_split);
            record
        }
        _ => {
            let nodes = random.between(node + 2, NODES);
            let mut record = sound_shape(random, nodes);
            renumber_from(random, &mut record, node);
            record
        }
    };
    (record, Refusal { number, place: 0, node: Node(node as u8) })
}

/// A sound shape with exactly so many nodes. Each that no pointer is sure to
/// hold has two ends that hold it; the values left over are any.
///
/// Then all are core, and therefore reachable: nodes that are lost are held by
/// lost nodes only, each of which holds one at most, so not all have two.
fn sound_shape(random: &mut Random, nodes: usize) -> Record {
    let held = random.between(nodes.div_ceil(2), nodes.min(POINTERS));
    let mut ends: Vec<Value> = (held..nodes).flat_map(|node| [Value::Cell(node); 2]).collect();
    while ends.len() < nodes {
        ends.push(random_value(random, nodes, 60));
    }
    random.shuffle(&mut ends);
    let mut heap = Heap::empty();
    heap.cells = ends.into_iter().map(Some).collect();
    for pointer in 0..POINTERS {
        heap.pointers[pointer] = if pointer < held { Value::Cell(pointer) } else { random_value(random, nodes, 40) };
    }
    random.shuffle(&mut heap.pointers);
    fold_heap(&heap).0
}

/// So many nodes that are all core, at times numbered otherwise.
fn core_nodes(random: &mut Random, nodes: usize) -> Record {
    let mut record = sound_shape(random, nodes);
    if nodes >= 2 && random.chance(40) {
        let first = random.below(nodes - 1);
        renumber_from(random, &mut record, first);
    }
    record
}

/// So many nodes that are all reachable, at times some of them not core.
fn reachable_nodes(random: &mut Random, nodes: usize) -> Record {
    let splits = if nodes >= 2 && random.chance(50) { random.between(1, usize::min(3, nodes - 1)) } else { 0 };
    let mut record = core_nodes(random, nodes - splits);
    for _ in 0..splits {
        let at = random.between(0, node_count(&record));
        insert_split(random, &mut record, at);
    }
    record
}

/// Inserts a node with this number and at times more of them behind it, so
/// that it stays the first.
fn insert_nodes(random: &mut Random, record: &mut Record, first: usize, insert: fn(&mut Random, &mut Record, usize)) {
    insert(random, record, first);
    while node_count(record) < NODES && random.chance(25) {
        let at = random.between(first, node_count(record));
        insert(random, record, at);
    }
}

/// Inserts a node that nothing leads to, whatever it leads to itself: which
/// others are reachable stays the same.
fn insert_lost(random: &mut Random, record: &mut Record, at: usize) {
    insert_node(record, at);
    let next = random_value(random, node_count(record), 70);
    record[SUCCESSORS_AT + at] = value_byte(next);
}

/// Inserts a node between another one and its successor. It has one holder, so
/// it is not core. The others have as many holders as before.
fn insert_split(random: &mut Random, record: &mut Record, at: usize) {
    // After the node before it, the walk numbers it as it stands.
    let before = if at > 0 && random.chance(50) { at - 1 } else { random.below(node_count(record)) };
    insert_node(record, at);
    let before = before + usize::from(before >= at);
    record[SUCCESSORS_AT + at] = record[SUCCESSORS_AT + before];
    record[SUCCESSORS_AT + before] = at as u8;
}

/// Puts a node in with this number; those from there on get the next numbers.
fn insert_node(record: &mut Record, at: usize) {
    let nodes = node_count(record);
    relabel(record, |node| node + usize::from(node >= at));
    record[SUCCESSORS_AT + at..=SUCCESSORS_AT + nodes].rotate_right(1);
    record[3] += 1;
}

/// Gives the nodes of a sound shape other numbers: the walk numbers this one
/// otherwise, and none before it.
fn renumber_from(random: &mut Random, record: &mut Record, first: usize) {
    let nodes = node_count(record);
    let mut to: Vec<usize> = (0..nodes).collect();
    to.swap(first, random.between(first + 1, nodes - 1));
    if random.chance(50) {
        random.shuffle(&mut to[first + 1..]);
    }
    relabel(record, |node| to[node]);
    let ends = record[SUCCESSORS_AT..SUCCESSORS_AT + nodes].to_vec();
    for (end, node) in ends.into_iter().zip(to) {
        record[SUCCESSORS_AT + node] = end;
    }
}

/// Changes the number of each node wherever it is held.
fn relabel(record: &mut Record, number: impl Fn(usize) -> usize) {
    let nodes = node_count(record);
    for byte in &mut record[POINTERS_AT..SUCCESSORS_AT + nodes] {
        if usize::from(*byte) < nodes {
            *byte = number(usize::from(*byte)) as u8;
        }
    }
}
