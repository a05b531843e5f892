//! What a drop leaves of a shape, by the sentences of the request and the bytes of the record alone: neither the proved
//! library nor the second translator is asked.

const NULL: u8 = 0xfe;
const UNDEFINED: u8 = 0xff;

/// What a drop may meet. One of the first six holds of each; the others may hold beside it. Several nodes that vanish
/// are a stem and its ring: the second has no pointer, so it is core by two cells that vanish too.
pub const WAYS: [&str; 14] = [
    "u null",
    "u undefined",
    "still held",
    "still reached",
    "one node vanishes",
    "several nodes vanish",
    "a ring vanishes",
    "everything vanishes",
    "a shared tail loses one of two and merges",
    "a shared tail stays core",
    "the node of u merges",
    "the node of u stays core",
    "twelve nodes",
    "nodes change their order",
];

/// A shape whose pointer u is dropped. Values that are no nodes are null or undefined, which are above all nodes.
pub struct Dropped {
    held: u8,
    /// What the pointers hold afterwards, and what each node leads to.
    pointers: Vec<u8>,
    ends: Vec<u8>,
    pub stays: Vec<bool>,
}

impl Dropped {
    /// Of an H or L record that is no fault's.
    pub fn of(record: &[u8], u: u8) -> Dropped {
        let (mut pointers, ends) = (record[4..10].to_vec(), record[10..10 + usize::from(record[3])].to_vec());
        let held = std::mem::replace(&mut pointers[usize::from(u)], NULL);
        let mut dropped = Dropped { held, pointers, stays: vec![false; ends.len()], ends };
        // a node stays where a pointer holds it, or a node that stays leads to it; as often as there are nodes
        for _ in 0..dropped.ends.len() {
            dropped.stays = dropped.nodes().map(|node| dropped.pointed(node) || dropped.leading(node) > 0).collect();
        }
        dropped
    }

    fn nodes(&self) -> std::ops::Range<usize> {
        0..self.ends.len()
    }

    /// Whether a pointer is at the node afterwards.
    fn pointed(&self, node: usize) -> bool {
        self.pointers.contains(&(node as u8))
    }

    /// How many nodes that stay lead to it.
    fn leading(&self, node: usize) -> usize {
        self.nodes().filter(|&from| self.stays[from] && usize::from(self.ends[from]) == node).count()
    }

    /// Nodes that vanished no longer count.
    fn core(&self, node: usize) -> bool {
        self.stays[node] && (self.pointed(node) || self.leading(node) >= 2)
    }

    fn merges(&self, node: usize) -> bool {
        self.stays[node] && !self.core(node)
    }

    fn node_of(&self, value: u8) -> Option<usize> {
        Some(usize::from(value)).filter(|&node| node < self.ends.len())
    }

    /// The nodes that are left, by their old numbers, in the order of the walk.
    fn order(&self) -> Vec<usize> {
        let mut order = Vec::new();
        for &pointer in &self.pointers {
            let mut at = self.node_of(pointer);
            while let Some(node) = at.filter(|node| !order.contains(node)) {
                if self.core(node) {
                    order.push(node);
                }
                at = self.node_of(self.ends[node]);
            }
        }
        order
    }

    /// A node with those behind it that are merged into it: the update, and what its last cell leads to.
    fn segment(&self, first: usize) -> (u16, u8) {
        let (mut update, mut end) = (0x1000 | 1 << first, self.ends[first]);
        while let Some(node) = self.node_of(end).filter(|&node| self.merges(node)) {
            update |= 1 << node;
            end = self.ends[node];
        }
        (update, end)
    }

    /// Bytes 3 to 31 of the location that is due, and the twelve updates.
    pub fn due(&self) -> ([u8; 29], [u16; 12]) {
        let order = self.order();
        let number = |value: u8| order.iter().position(|&old| old == usize::from(value)).map_or(value, |new| new as u8);
        let (mut shape, mut updates) = ([0; 29], [0; 12]);
        shape[0] = order.len() as u8;
        self.pointers.iter().enumerate().for_each(|(p, &value)| shape[1 + p] = number(value));
        for (new, &old) in order.iter().enumerate() {
            let (update, end) = self.segment(old);
            (updates[new], shape[7 + new]) = (update, number(end));
        }
        (shape, updates)
    }

    /// The ways that hold.
    pub fn ways(&self) -> Vec<&'static str> {
        let gone: Vec<usize> = self.nodes().filter(|&node| !self.stays[node]).collect();
        let of_u = self.node_of(self.held);
        let first = match (self.held, gone.len()) {
            (NULL, _) => 0,
            (UNDEFINED, _) => 1,
            (_, 0) if of_u.is_some_and(|node| self.pointed(node)) => 2,
            (_, n) => 3 + n.min(2),
        };
        let behind: Vec<usize> = gone.iter().filter_map(|&node| self.node_of(self.ends[node])).collect();
        let met = [
            !gone.is_empty() && behind.len() == gone.len() && behind.iter().all(|&node| !self.stays[node]),
            !gone.is_empty() && gone.len() == self.ends.len(),
            behind.iter().any(|&node| self.merges(node)),
            behind.iter().any(|&node| self.core(node)),
            of_u.is_some_and(|node| self.merges(node)),
            of_u.is_some_and(|node| self.core(node) && !self.pointed(node)),
            self.ends.len() == 12,
            !self.order().is_sorted(),
        ];
        let more = WAYS[6..].iter().zip(met).filter(|(_, met)| *met).map(|(name, _)| *name);
        std::iter::once(WAYS[first]).chain(more).collect()
    }
}
