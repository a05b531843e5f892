//! The layout of the two tables and single moves, once more by the words of the
//! request. How low an update goes is told by a formula here.

use super::{NULL, UNDEF};
use reference::Configuration;

/// The records in use, unless a count is above its table's places.
fn records(table: &[u8], count: usize, most: usize) -> Option<Vec<&[u8]>> {
    let places = most.min(table.len() / 32);
    (count <= places).then(|| table.chunks(32).take(count).collect())
}

/// The nodes that a location's shape has.
fn nodes(location: &[u8]) -> usize {
    if location[2] == 0 {
        usize::from(location[3])
    } else {
        0
    }
}

fn location_keeps(record: &[u8]) -> bool {
    if record[0] != 0x4c || record[1] > 63 || record[2] > 3 {
        return false;
    }
    if record[2] > 0 {
        return record[3..] == [0; 29];
    }
    let count = nodes(record);
    let is_value = |byte: u8| usize::from(byte) < count || byte == NULL || byte == UNDEF;
    count <= 12 && (4..10 + count).all(|at| is_value(record[at])) && (10 + count..32).all(|at| record[at] == 0)
}

/// An edge, whatever its bytes are. A guard is its kind and its node.
struct Edge {
    ends: [usize; 2],
    guards: [(u8, usize); 2],
    /// For each new counter, the old ones that it adds, its constant plus one
    /// and what follows.
    updates: Vec<(Vec<usize>, u32, u32)>,
}

impl Edge {
    fn decode(record: &[u8]) -> Edge {
        let two = |at: usize| u32::from(record[at]) + 256 * u32::from(record[at + 1]);
        let update = |at: usize| {
            let bits = two(at);
            let added = (0..12).filter(|node| bits / (1 << node) % 2 == 1).collect();
            (added, bits / 4096 % 4, bits / 16384)
        };
        Edge {
            ends: [two(2) as usize, two(4) as usize],
            guards: [(record[6], usize::from(record[7])), (record[1] / 2 % 4, usize::from(record[1] / 8 % 16))],
            updates: (8..32).step_by(2).map(update).collect(),
        }
    }

    fn keeps(&self, locations: &[&[u8]]) -> bool {
        let [Some(from), Some(to)] = self.ends.map(|end| locations.get(end)) else {
            return false;
        };
        let (old, new) = (nodes(from), nodes(to));
        let guard_keeps = |&(kind, node): &(u8, usize)| match kind {
            0 => node == 0,
            1 | 2 => node < old,
            _ => false,
        };
        let mut added: Vec<usize> = self.updates.iter().flat_map(|(added, _, _)| added.clone()).collect();
        let all = added.len();
        added.sort();
        added.dedup();
        self.guards.iter().all(guard_keeps)
            && self.updates.iter().all(|&(_, constant, rest)| constant < 3 && rest == 0)
            && self.updates[new..].iter().all(|(added, constant, _)| added.is_empty() && *constant == 0)
            && added.len() == all
            && added.iter().all(|&node| node < old)
            && (self.contradicts() || self.updates[..new].iter().all(|update| self.least(update) >= 2))
    }

    /// Whether no counters satisfy both guards.
    fn contradicts(&self) -> bool {
        let [(first, one), (second, other)] = self.guards;
        one == other && first != 0 && second != 0 && first != second
    }

    /// The least new counter, plus one.
    fn least(&self, (added, constant, _): &(Vec<usize>, u32, u32)) -> u32 {
        let least = |node: usize| if self.guards.contains(&(2, node)) { 2 } else { 1 };
        constant + added.iter().map(|&node| least(node)).sum::<u32>()
    }
}

/// Whether tables keep the layout.
pub fn tables_keep(locations: &[u8], edges: &[u8], location_count: usize, edge_count: usize) -> bool {
    let (Some(locations), Some(edges)) = (records(locations, location_count, 1024), records(edges, edge_count, 2048)) else {
        return false;
    };
    let edge_keeps = |record: &&[u8]| record[0] == 0x45 && record[1] < 0x80 && Edge::decode(record).keeps(&locations);
    locations.iter().all(|record| location_keeps(record)) && edges.iter().all(edge_keeps)
}

/// Whether a configuration keeps the layout, on tables that do.
pub fn configuration_keeps(locations: &[u8], location_count: usize, at: &Configuration) -> bool {
    let number = at.location as usize;
    number < location_count && {
        let count = nodes(&locations[32 * number..]);
        (0..12).all(|node| (at.counters[node] != 0) == (node < count))
    }
}

/// A move on tables and from a configuration that keep the layout.
pub fn moved(locations: &[u8], edges: &[u8], edge_count: usize, at: &Configuration, edge: usize) -> Result<Configuration, u8> {
    if edge >= edge_count {
        return Err(20);
    }
    let edge = Edge::decode(&edges[32 * edge..]);
    let holds = |&(kind, node): &(u8, usize)| kind == 0 || (kind == 1) == (at.counters[node] == 1);
    if edge.ends[0] != at.location as usize || !edge.guards.iter().all(holds) {
        return Err(20);
    }
    let mut after = Configuration { location: edge.ends[1] as u32, counters: [0; 12] };
    for (node, (added, constant, _)) in edge.updates.iter().enumerate().take(nodes(&locations[32 * edge.ends[1]..])) {
        let sum: i64 = added.iter().map(|&node| i64::from(at.counters[node])).sum();
        let value = sum + i64::from(*constant) - 1;
        if value >= 1 << 32 {
            return Err(21);
        }
        after.counters[node] = value as u32;
    }
    Ok(after)
}
