//! What a drop does to a shape, worked out on its nodes by the words of the
//! request, without a heap.

use crate::heap::{Value, POINTERS};
use crate::records::{byte_value, node_count, pointer_byte, successor_byte, value_byte};
use crate::records::{Record, NODES, POINTERS_AT, RECORD, START, SUCCESSORS_AT};

/// What the pointers and the ends of the nodes hold.
#[derive(Clone, Debug)]
pub struct Shape {
    pub pointers: [Value; POINTERS],
    pub ends: Vec<Value>,
}

impl Shape {
    /// Reads an H or L record that is sound.
    pub fn of(record: &Record) -> Shape {
        let mut pointers = [Value::Null; POINTERS];
        for (pointer, value) in pointers.iter_mut().enumerate() {
            *value = byte_value(pointer_byte(record, pointer));
        }
        let ends = (0..node_count(record)).map(|node| byte_value(successor_byte(record, node))).collect();
        Shape { pointers, ends }
    }

    /// How many pointers are at a node.
    pub fn pointers_at(&self, node: usize) -> usize {
        self.pointers.iter().filter(|&&value| value == Value::Cell(node)).count()
    }

    /// How many of these nodes lead to a node.
    pub fn ends_at(&self, node: usize, among: &[bool]) -> usize {
        let leads = |&(&end, &counts): &(&Value, &bool)| counts && end == Value::Cell(node);
        self.ends.iter().zip(among).filter(leads).count()
    }

    /// The nodes from a value on, until the walk ends or repeats.
    fn walk(&self, from: Value) -> Vec<usize> {
        let mut walk = Vec::new();
        let mut at = from;
        while let Value::Cell(node) = at {
            if walk.contains(&node) {
                break;
            }
            walk.push(node);
            at = self.ends[node];
        }
        walk
    }

    /// Whether the walk from a node comes back to it.
    pub fn on_a_ring(&self, node: usize) -> bool {
        let last = self.walk(Value::Cell(node)).pop();
        last.is_some_and(|last| self.ends[last] == Value::Cell(node))
    }

    fn reached(&self) -> Vec<bool> {
        let mut reached = vec![false; self.ends.len()];
        for &pointer in &self.pointers {
            for node in self.walk(pointer) {
                reached[node] = true;
            }
        }
        reached
    }
}

/// A shape whose pointer u is dropped. The nodes have their old numbers.
pub struct Dropped {
    pub before: Shape,
    /// The same with u null, its lost nodes still there.
    pub after: Shape,
    /// Which nodes stay.
    pub stays: Vec<bool>,
    /// Which of these are still core: "a node that is no longer core merges as
    /// usual". What vanished holds nothing any more.
    pub core: Vec<bool>,
}

impl Dropped {
    pub fn of(record: &Record, u: usize) -> Dropped {
        let before = Shape::of(record);
        let mut after = before.clone();
        after.pointers[u] = Value::Null;
        let stays = after.reached();
        let is_core = |node: usize| after.pointers_at(node) > 0 || after.ends_at(node, &stays) >= 2;
        let core = (0..stays.len()).map(|node| stays[node] && is_core(node)).collect();
        Dropped { before, after, stays, core }
    }

    /// The bits of the counters that are carried.
    pub fn carried(&self) -> u16 {
        (0..self.stays.len()).filter(|&node| self.stays[node]).map(|node| 1 << node).sum()
    }

    /// The nodes that are core, in the order of their first visit, each with
    /// the bits of the counters that it adds: its own and those of the nodes
    /// that merge into it.
    pub fn numbered(&self) -> Vec<(usize, u16)> {
        let mut numbered: Vec<(usize, u16)> = Vec::new();
        let mut visited = vec![false; self.stays.len()];
        for &pointer in &self.after.pointers {
            for node in self.after.walk(pointer) {
                if visited[node] {
                    break;
                }
                visited[node] = true;
                match numbered.last_mut() {
                    // Its only holder is the end of the node before it.
                    Some((_, added)) if !self.core[node] => *added |= 1 << node,
                    _ => numbered.push((node, 1 << node)),
                }
            }
        }
        numbered
    }

    /// The H record of the shape afterwards, and the updates of the edge.
    pub fn due(&self) -> (Record, [u16; NODES]) {
        let numbered = self.numbered();
        let number_of = |node: usize| numbered.iter().position(|&(other, _)| other == node);
        let renumbered = |value: Value| match value {
            Value::Cell(node) => Value::Cell(number_of(node).expect("a core node is held")),
            other => other,
        };
        let mut record = [0; RECORD];
        record[0] = START;
        record[3] = numbered.len() as u8;
        for (pointer, &value) in self.after.pointers.iter().enumerate() {
            record[POINTERS_AT + pointer] = value_byte(renumbered(value));
        }
        let mut updates = [0; NODES];
        for (number, &(node, added)) in numbered.iter().enumerate() {
            record[SUCCESSORS_AT + number] = value_byte(renumbered(self.end_of(node)));
            updates[number] = 0x1000 | added;
        }
        (record, updates)
    }

    /// What the last cell of a node holds after the merging.
    fn end_of(&self, node: usize) -> Value {
        let mut end = self.after.ends[node];
        while let Value::Cell(next) = end {
            if self.core[next] {
                break;
            }
            end = self.after.ends[next];
        }
        end
    }
}
