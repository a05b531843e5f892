//! Updates that could give less than 1, and updates that just cannot.

use super::draft::Draft;
use super::{any_of, pick};
use crate::automaton::{encode_edge, Edge};
use crate::random::Random;
use crate::records::{Guard, ABSENT, NODES, ONE, TWO_OR_MORE};

/// The constants of an update, in its bits.
const MINUS_ONE: u16 = 0;
const ZERO: u16 = 0x1000;
const PLUS_ONE: u16 = 0x2000;

/// An edge whose updates are all 1, but for one that is yet to be written.
struct Bare {
    number: usize,
    edge: Edge,
    entry: usize,
    /// Two nodes of the source.
    nodes: [usize; 2],
}

fn bare(random: &mut Random, draft: &Draft) -> Option<Bare> {
    let fits = |number: usize| draft.ends(number)[0] > 1 && draft.ends(number)[1] > 0;
    let number = pick(random, draft.edges.len(), fits)?;
    let [old, new] = draft.ends(number);
    let one = random.below(old);
    let other = (one + random.between(1, old - 1)) % old;
    let mut updates = [0; NODES];
    updates[..new].fill(PLUS_ONE);
    let edge = Edge { guards: [ABSENT; 2], updates, ..draft.edge(number) };
    Some(Bare { number, edge, entry: random.below(new), nodes: [one, other] })
}

impl Bare {
    fn write(mut self, random: &mut Random, draft: &mut Draft, update: u16, mut guards: [Guard; 2]) -> Option<usize> {
        if random.chance(50) {
            guards.reverse();
        }
        self.edge.updates[self.entry] = update;
        self.edge.guards = guards;
        draft.edges[self.number] = encode_edge(&self.edge);
        Some(self.number)
    }
}

/// Makes an update that could give less than 1.
pub fn outside(random: &mut Random, draft: &mut Draft) -> Option<usize> {
    let bare = bare(random, draft)?;
    let [one, other] = bare.nodes;
    let bit = 1 << one;
    let is_one = |node| Guard { kind: ONE, node };
    let is_more = |node| Guard { kind: TWO_OR_MORE, node };
    let (update, guards) = match random.below(8) {
        0 => (ZERO, [ABSENT; 2]),
        1 => (MINUS_ONE, [ABSENT; 2]),
        2 => (MINUS_ONE, [is_more(one), is_more(other)]),
        3 => (MINUS_ONE | bit, [ABSENT; 2]),
        4 => (MINUS_ONE | bit, [ABSENT, is_one(one)]),
        5 => (MINUS_ONE | bit, [ABSENT, is_more(other)]),
        6 => (MINUS_ONE | bit, [is_one(one), is_more(other)]),
        _ => (ZERO, [is_one(one), is_more(other)]),
    };
    bare.write(random, draft, update, guards)
}

/// Makes an update that gives 1 at the least, or never gives anything.
pub fn inside(random: &mut Random, draft: &mut Draft) -> Option<usize> {
    let bare = bare(random, draft)?;
    let [one, other] = bare.nodes;
    let [bit, both] = [1 << one, 1 << one | 1 << other];
    let is_one = |node| Guard { kind: ONE, node };
    let is_more = |node| Guard { kind: TWO_OR_MORE, node };
    let (update, guards) = match random.below(9) {
        0 => (PLUS_ONE, [ABSENT; 2]),
        1 => (ZERO | bit, [ABSENT, is_one(one)]),
        2 => (MINUS_ONE | both, [ABSENT; 2]),
        3 => (MINUS_ONE | both, [is_one(one), is_one(other)]),
        4 => (MINUS_ONE | bit, [ABSENT, is_more(one)]),
        5 => (MINUS_ONE | bit, [is_more(one); 2]),
        6 => (MINUS_ONE | bit, [is_more(one), is_one(other)]),
        _ => return excluding(random, draft, bare),
    };
    bare.write(random, draft, update, guards)
}

/// Makes an edge whose two guards exclude each other, with a low update.
pub fn never_enabled(random: &mut Random, draft: &mut Draft) -> Option<usize> {
    let bare = bare(random, draft)?;
    excluding(random, draft, bare)
}

fn excluding(random: &mut Random, draft: &mut Draft, bare: Bare) -> Option<usize> {
    let [one, other] = bare.nodes;
    let node = any_of(random, &[one, other]);
    let update = any_of(random, &[MINUS_ONE, ZERO, MINUS_ONE | 1 << one]);
    bare.write(random, draft, update, [Guard { kind: ONE, node }, Guard { kind: TWO_OR_MORE, node }])
}
