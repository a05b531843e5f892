//! All small shapes, and the edges of their listings, decoded once more.

use super::{h, pointers, Record, NULL, UNDEF};
use reference::unfold;

/// All lists of this length over the values of so many nodes.
pub fn all_lists(length: usize, nodes: usize) -> Vec<Vec<u8>> {
    let mut values: Vec<u8> = (0..nodes as u8).collect();
    values.extend([NULL, UNDEF]);
    let mut lists = vec![Vec::new()];
    for _ in 0..length {
        lists = lists.iter().flat_map(|list| values.iter().map(|&value| [&list[..], &[value]].concat())).collect();
    }
    lists
}

/// All shapes of three pointers and at most so many nodes.
pub fn all_shapes(most: usize) -> Vec<Record> {
    let mut shapes = Vec::new();
    for nodes in 0..=most {
        let successor_lists = all_lists(nodes, nodes);
        for first in all_lists(3, nodes) {
            for successors in &successor_lists {
                let record = h(pointers(&first), successors);
                let mut counters = [0; 12];
                counters[..nodes].fill(1);
                if unfold(&record, &counters, &mut [0; 6], &mut [0; 12]).is_ok() {
                    shapes.push(record);
                }
            }
        }
    }
    shapes
}

/// An edge from location 0; a guard is its kind and its node.
pub struct Edge {
    pub guards: [(u8, usize); 2],
    pub to: usize,
    pub updates: Vec<u16>,
}

impl Edge {
    pub fn decode(record: &[u8]) -> Edge {
        assert_eq!((record[0], record[1] & 0x81, record[2], record[3]), (0x45, 0, 0, 0));
        let second = (record[1] >> 1 & 3, usize::from(record[1] >> 3));
        let updates = record[8..].chunks(2).map(|pair| u16::from_le_bytes([pair[0], pair[1]])).collect();
        Edge { guards: [(record[6], usize::from(record[7])), second], to: usize::from(record[4]), updates }
    }

    pub fn enabled(&self, counters: &[u32; 12]) -> bool {
        self.guards.iter().all(|&(kind, node)| match kind {
            0 => node == 0,
            1 => counters[node] == 1,
            2 => counters[node] >= 2,
            _ => false,
        })
    }

    pub fn apply(&self, counters: &[u32; 12], nodes: usize) -> [u32; 12] {
        let mut after = [0; 12];
        for (new, update) in self.updates.iter().take(nodes).enumerate() {
            let sum: u32 = (0..12).filter(|old| update >> old & 1 == 1).map(|old| counters[old]).sum();
            after[new] = sum + u32::from(update >> 12) - 1;
        }
        after
    }
}
