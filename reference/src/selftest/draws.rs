//! What a run or a call is fed, drawn at random.

use crate::automaton::{Automaton, Configuration};
use crate::heap::Heap;
use crate::random::Random;
use crate::records::{NULL, UNDEFINED, UNUSED};

/// An edge number: often one that leaves the location, now and then any.
pub fn random_edge_number(random: &mut Random, automaton: &Automaton, at: &Configuration) -> u64 {
    let leaving = automaton.leaving(at.location);
    match random.below(20) {
        0 => random.next(),
        1 => random.below(automaton.edges.len() + 2) as u64,
        2 => automaton.edges.len() as u64,
        _ if leaving.is_empty() => random.below(automaton.edges.len() + 1) as u64,
        _ => leaving[random.below(leaving.len())] as u64,
    }
}

/// A cell that is not in use, be it past the end.
pub fn any_unused_cell(random: &mut Random, heap: &Heap) -> usize {
    loop {
        let cell = random.below(heap.cells.len() + 3);
        if !heap.in_use(cell) {
            return cell;
        }
    }
}

/// Bytes of this length or, now and then, any below `most`; often such bytes
/// as sound images and records have.
pub fn draw_bytes(random: &mut Random, length: usize, most: usize) -> Vec<u8> {
    const USUAL: [u8; 8] = [0, 0, 1, 2, 3, NULL, UNDEFINED, UNUSED];
    let length = if random.chance(80) { length } else { random.below(most) };
    let usual = random.chance(70);
    let mut draw = || {
        if usual {
            USUAL[random.below(8)]
        } else {
            random.byte()
        }
    };
    (0..length).map(|_| draw()).collect()
}
