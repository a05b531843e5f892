//! Routines made on purpose: listings about as large as the bench's tables, or with exactly so many locations and edges.

use crate::draw::Draw;
use reference::Translated;
use std::collections::HashSet;

/// The bytes of tables that every accepted listing fits.
pub const FULL: [usize; 2] = [32_768, 65_536];

type Record = [u8; 32];

/// The answer of the second translator with full tables.
pub fn full(input: &[u8]) -> Translated {
    reference::translate(input, &mut vec![0; FULL[0]], &mut vec![0; FULL[1]])
}

pub fn s_record(op: u8, u: u8, w: u8, first: usize, second: usize) -> Record {
    let mut record = [0; 32];
    record[..6].copy_from_slice(&[0x53, op, u, w, first as u8, second as u8]);
    record
}

/// Statements that lead around, with the shapes that they start from.
pub struct Ring {
    statements: Vec<Record>,
    shapes: Vec<Record>,
}

/// Two cells held by pointers 0 and 1, pointer 2 beside pointer 0, the others null or undefined.
fn ring_shape(d: &mut Draw) -> Record {
    let cells = [[0xfe, 0xfe], [0xff, 0xfe], [1, 0xfe], [0xfe, 0], [0xff, 0xff], [0, 1]][d.below(6)];
    let mut pointers = [0, 1, 0, 0xfe, 0xfe, 0xfe];
    pointers[3..].iter_mut().for_each(|pointer| *pointer = 0xfe + d.below(2) as u8);
    reference::fold(&pointers, &cells).record
}

/// Chooses and relinks for the most part: so many statements times shapes as the size says. Statement 0 is not of the
/// ring.
pub fn ring(d: &mut Draw, size: usize) -> Ring {
    let drawn: HashSet<Record> = (0..1 + d.below(12)).map(|_| ring_shape(d)).collect();
    let mut shapes: Vec<Record> = drawn.into_iter().collect();
    shapes.sort();
    let n = (size / shapes.len()).clamp(2, 56);
    let relinks = d.below(8);
    let statement = |at: usize, d: &mut Draw| {
        let (next, other) = (1 + (at + 1) % n, 1 + d.below(n));
        let (mark, pair) = (3 + d.below(3) as u8, d.below(2) as u8);
        match d.below(12) {
            _ if d.below(8) < relinks => s_record(12, pair, 1 - pair, next, 0),
            0 => s_record(11, 0, 0, next, 0),
            1 => s_record([1, 13][d.below(2)], mark, 0, next, 0),
            2 => s_record(8, mark, 0, next, other),
            3 => s_record(4, 0, 0, next, 0),
            _ => s_record(10, 0, 0, next, other),
        }
    };
    Ring { statements: (0..n).map(|at| statement(at, d)).collect(), shapes }
}

/// A ring whose listing is about as large as the bench's tables.
pub fn ring_at_border(d: &mut Draw) -> Ring {
    let size = 30 + d.below(60);
    ring(d, size)
}

/// Statement 0 sends the ring's shapes into the ring, and one more shape along chooses and skips to a stop. So each
/// choose is one location and two edges more, and each skip one location and one edge.
pub fn fork(ring: &Ring, chooses: usize, skips: usize) -> Vec<u8> {
    let chain = 1 + ring.statements.len();
    let mut statements = vec![s_record(8, 2, 0, chain, 1)];
    statements.extend_from_slice(&ring.statements);
    for at in chain..chain + chooses {
        statements.push(s_record(10, 0, 0, at + 1, at + 1));
    }
    for at in chain + chooses..chain + chooses + skips {
        statements.push(s_record(11, 0, 0, at + 1, 0));
    }
    statements.push(s_record(0, 0, 0, 0, 0));
    let alone = reference::fold(&[0xff, 0xff, 0xfe, 0xff, 0xff, 0xff], &[]).record;
    [&statements[..], &ring.shapes[..], &[alone]].concat().concat()
}

/// A routine whose full listing has numbers of locations and edges as wanted.
pub fn exact(d: &mut Draw, wanted: fn(usize, usize) -> bool) -> (Vec<u8>, Translated) {
    loop {
        let ring = ring_at_border(d);
        let (base, room) = (full(&fork(&ring, 0, 0)), 62 - ring.statements.len());
        let chains = (0..=room).flat_map(|chooses| (0..=room - chooses).map(move |skips| (chooses, skips)));
        let fits = |&(c, s): &(usize, usize)| wanted(base.locations + c + s, base.edges + 2 * c + s);
        let found: Vec<_> = chains.filter(fits).collect();
        if base.refusal == 0 && !found.is_empty() {
            let (chooses, skips) = found[d.below(found.len())];
            let input = fork(&ring, chooses, skips);
            let listed = full(&input);
            assert!(listed.refusal == 0 && wanted(listed.locations, listed.edges), "{listed:?}");
            return (input, listed);
        }
    }
}

/// n statements in a ring over so many shapes without nodes; the first ones choose, the others skip.
pub fn plain_ring(d: &mut Draw, n: usize, shapes: usize, chooses: usize) -> (Vec<u8>, Translated) {
    let first = d.below(64);
    let mut input = Vec::new();
    for at in 0..n {
        let op = if at < chooses { 10 } else { 11 };
        let second = if at < chooses { d.below(n) } else { 0 };
        input.extend_from_slice(&s_record(op, 0, 0, (at + 1) % n, second));
    }
    for shape in first..first + shapes {
        let pointers: Vec<u8> = (0..6).map(|bit| 0xfe + (shape >> bit & 1) as u8).collect();
        input.extend_from_slice(&reference::fold(&pointers, &[]).record);
    }
    let listed = full(&input);
    assert_eq!((listed.locations, listed.edges), (n * shapes, (n + chooses) * shapes));
    (input, listed)
}
