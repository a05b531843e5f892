//! Every canonical shape over a few pointers, a fixed sample of shapes over six, and every statement over these pointers.

use crate::damage::many_nodes;
use crate::draw::{image, uses_u, uses_w, Draw};
use crate::joined::joined_image;
use crate::rings::s_record;

type Record = [u8; 32];

const NULL: u8 = 0xfe;
const UNDEFINED: u8 = 0xff;

/// Every canonical shape whose first pointers, so many, hold anything, and whose others are null; fewer nodes first. By the
/// sentences of the request alone: neither the proved library nor the second translator is asked.
pub fn shapes(pointers: usize) -> Vec<Record> {
    let mut found = Vec::new();
    Walk::default().read_on(pointers, &mut found);
    found.sort_by_key(|shape| shape[3]);
    found
}

/// A shape as far as the walk that numbers its nodes has read it: "from pointer 0 along successors until the walk ends or
/// repeats, then pointer 1, and so on".
#[derive(Clone, Default)]
struct Walk {
    pointers: Vec<u8>,
    successors: Vec<u8>,
    /// How many nodes were visited. The last one's successor may not be read yet.
    visited: u8,
}

impl Walk {
    /// The next value is null, undefined, a node that was visited before, or a new node, which has the next number; what a
    /// new node leads to is read next.
    fn read_on(&self, pointers: usize, found: &mut Vec<Record>) {
        let at_node = self.successors.len() < usize::from(self.visited);
        if !at_node && self.pointers.len() == pointers {
            found.extend((0..self.visited).all(|node| self.core(node)).then(|| self.record()));
            return;
        }
        // A node that no pointer holds wants two that lead to it, and each leads to one: so there are at most as many of these
        // as of the others.
        let new = (usize::from(self.visited) < 2 * pointers).then_some(self.visited);
        for value in [NULL, UNDEFINED].into_iter().chain(0..self.visited).chain(new) {
            let mut next = self.clone();
            let read = if at_node { &mut next.successors } else { &mut next.pointers };
            read.push(value);
            next.visited += u8::from(value == self.visited);
            next.read_on(pointers, found);
        }
    }

    /// "A core cell is held by a pointer or by the next of two or more cells."
    fn core(&self, node: u8) -> bool {
        self.pointers.contains(&node) || self.successors.iter().filter(|&&next| next == node).count() >= 2
    }

    fn record(&self) -> Record {
        let mut record = [0; 32];
        (record[0], record[3]) = (0x48, self.visited);
        record[4..10].fill(NULL);
        record[4..][..self.pointers.len()].copy_from_slice(&self.pointers);
        record[10..][..self.successors.len()].copy_from_slice(&self.successors);
        record
    }
}

/// Every record with so many nodes whose first pointers, so many, hold anything, and whose others are null.
pub fn every_record(nodes: u8, pointers: usize, mut f: impl FnMut(&Record)) {
    let held: Vec<u8> = (0..nodes).chain([0xfe, 0xff]).collect();
    let places: Vec<usize> = (4..4 + pointers).chain((10..).take(nodes.into())).collect();
    let mut record = [0; 32];
    (record[0], record[3]) = (0x48, nodes);
    record[4..10].fill(0xfe);
    for number in 0..held.len().pow(places.len() as u32) {
        let mut left = number;
        for &at in &places {
            record[at] = held[left % held.len()];
            left /= held.len();
        }
        f(&record);
    }
}

/// The most nodes, and how many shapes of each number of nodes the sample has.
const NODES: usize = 12;
const EACH: usize = 30;

/// Shapes over six pointers, as many of each number of nodes, fewer nodes first. They are always the same.
pub fn sample() -> Vec<Record> {
    let (mut d, mut by_nodes) = (Draw::new(15), vec![Vec::new(); NODES + 1]);
    for i in 0.. {
        let shape = drawn_shape(&mut d, i);
        let alike = &mut by_nodes[usize::from(shape[3])];
        if alike.len() < EACH && !alike.contains(&shape) {
            alike.push(shape);
        }
        if by_nodes.iter().all(|alike| alike.len() == EACH) {
            break;
        }
    }
    by_nodes.concat()
}

fn drawn_shape(d: &mut Draw, i: usize) -> Record {
    let (pointers, cells) = match i % 4 {
        0 => return many_nodes(d),
        1 => image(d, 14),
        2 => joined_image(d, 1),
        _ => joined_image(d, 3),
    };
    reference::fold(&pointers, &cells).record
}

/// Every statement over the first pointers, so many: each op with each choice of u and w. Its targets are 1 and 2.
pub fn statements(pointers: u8) -> Vec<Record> {
    let choices = |used: bool| 0..if used { pointers } else { 1 };
    let mut all = Vec::new();
    for op in 0..14 {
        let [first, second] = [usize::from(op != 0), if matches!(op, 8..=10) { 2 } else { 0 }];
        for u in choices(uses_u(op)) {
            all.extend(choices(uses_w(op)).map(|w| s_record(op, u, w, first, second)));
        }
    }
    all
}

/// Counters of k nodes, each 1, 2 or 3, by the digits of a number.
pub fn counters(k: u8, number: usize) -> [u32; 12] {
    let (mut counters, mut left) = ([0; 12], number);
    for counter in &mut counters[..k.into()] {
        *counter = 1 + (left % 3) as u32;
        left /= 3;
    }
    counters
}

/// The statement on the shape: both targets are stops.
pub fn input(statement: &Record, shape: &Record) -> Vec<u8> {
    let stop = s_record(0, 0, 0, 0, 0);
    [*statement, stop, stop, *shape].concat()
}

/// Pairs of numbers of shapes and of statements, one in so many. Where this number has no divisor with that of the statements in
/// common, each statement comes with one of any so many shapes in a row.
pub fn spread(shapes: usize, statements: usize, one_in: usize) -> impl Iterator<Item = (usize, usize)> {
    (0..shapes * statements).step_by(one_in).map(move |pair| (pair / statements, pair % statements))
}
