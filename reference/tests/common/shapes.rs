//! What is wrong with the nodes of an H record, by the words of the request
//! and on the bytes of the record alone.

use super::Record;

/// The nodes, in node order, that are unreachable, that are not core, and that
/// the walk does not number as they stand, if it numbers them at all.
#[derive(Clone, PartialEq, Eq, Debug)]
pub struct Defects {
    pub lost: Vec<u8>,
    pub not_core: Vec<u8>,
    pub otherwise: Vec<u8>,
}

impl Defects {
    /// Looks at a record that keeps the layout.
    pub fn of(record: &Record) -> Defects {
        let count = record[3];
        let (pointers, successors) = (&record[4..10], &record[10..10 + usize::from(count)]);
        let reached = reached(pointers, successors);
        let visits = visits(pointers, successors);
        let holders = |node: u8| successors.iter().filter(|&&next| next == node).count();
        let is_core = |node: u8| pointers.contains(&node) || holders(node) >= 2;
        let walk_number = |node: u8| visits.iter().position(|&visit| visit == node);
        let all = |wrong: &dyn Fn(u8) -> bool| (0..count).filter(|&node| wrong(node)).collect();
        Defects {
            lost: all(&|node| !reached.contains(&node)),
            not_core: all(&|node| !is_core(node)),
            otherwise: all(&|node| walk_number(node) != Some(usize::from(node))),
        }
    }

    /// The refusal and its node, unless the record is a shape.
    pub fn refusal(&self) -> Option<(u8, u8)> {
        let first = |number: u8, nodes: &[u8]| nodes.first().map(|&node| (number, node));
        first(9, &self.lost).or(first(18, &self.not_core)).or(first(19, &self.otherwise))
    }
}

/// The nodes that some chain of holders joins to a pointer.
fn reached(pointers: &[u8], successors: &[u8]) -> Vec<u8> {
    let nodes = 0..successors.len() as u8;
    let mut reached: Vec<u8> = nodes.clone().filter(|node| pointers.contains(node)).collect();
    for _ in nodes.clone() {
        let next = |node: &u8| successors[usize::from(*node)];
        let more: Vec<u8> = reached.iter().map(next).filter(|next| nodes.contains(next)).collect();
        reached.extend(more);
        reached.sort();
        reached.dedup();
    }
    reached
}

/// The nodes in the order of their first visit.
fn visits(pointers: &[u8], successors: &[u8]) -> Vec<u8> {
    let mut visits: Vec<u8> = Vec::new();
    for &pointer in pointers {
        let mut at = pointer;
        while usize::from(at) < successors.len() && !visits.contains(&at) {
            visits.push(at);
            at = successors[usize::from(at)];
        }
    }
    visits
}
