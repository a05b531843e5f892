//! Random heap images, statements and counters, valid and damaged.

use crate::joined::joined_image;

/// xorshift64*: small, fast, and the same everywhere.
pub struct Draw(u64);

impl Draw {
    pub fn new(seed: u64) -> Draw {
        Draw(seed.wrapping_mul(0x9e37_79b9_7f4a_7c15) | 1)
    }

    pub fn number(&mut self) -> u64 {
        self.0 ^= self.0 >> 12;
        self.0 ^= self.0 << 25;
        self.0 ^= self.0 >> 27;
        self.0.wrapping_mul(0x2545_f491_4f6c_dd1d) >> 16
    }

    pub fn below(&mut self, n: usize) -> usize {
        (self.number() % n.max(1) as u64) as usize
    }

    pub fn one_in(&mut self, n: usize) -> bool {
        self.below(n) == 0
    }
}

/// The pointers and the cells of a heap.
pub type Image = (Vec<u8>, Vec<u8>);

/// A value: a cell below n, or null or undefined.
fn value(d: &mut Draw, n: usize) -> u8 {
    match d.below(8) {
        0 => 0xfe,
        1 => 0xff,
        _ if n == 0 => 0xfe,
        _ => d.below(n) as u8,
    }
}

/// Mostly lists: a cell's next is often the cell after it.
fn next_value(d: &mut Draw, i: usize, n: usize) -> u8 {
    if i + 1 < n && !d.one_in(4) {
        (i + 1) as u8
    } else {
        value(d, n)
    }
}

/// An image without lost cells and without a value that names no cell in use.
pub fn image(d: &mut Draw, most: usize) -> Image {
    let n = d.below(most + 1);
    let mut cells: Vec<u8> = (0..n).map(|i| if d.one_in(12) { 0xfd } else { next_value(d, i, n) }).collect();
    let mut pointers: Vec<u8> = (0..6).map(|_| value(d, n)).collect();
    if n > 0 && !d.one_in(4) {
        pointers[0] = 0;
    }
    let used: Vec<bool> = cells.iter().map(|&b| b != 0xfd).collect();
    let mend = |b: u8| if (b as usize) < n && !used[b as usize] { 0xff } else { b };
    pointers.iter_mut().for_each(|b| *b = mend(*b));
    cells.iter_mut().filter(|b| **b != 0xfd).for_each(|b| *b = mend(*b));
    let reached = reached(&pointers, &cells);
    (0..n).filter(|&c| !reached[c]).for_each(|c| cells[c] = 0xfd);
    (pointers, cells)
}

/// Which cells a pointer reaches, over the nexts.
pub fn reached(pointers: &[u8], cells: &[u8]) -> Vec<bool> {
    let mut seen = vec![false; cells.len()];
    for &p in pointers {
        let mut b = p as usize;
        while b < cells.len() && !seen[b] {
            seen[b] = true;
            b = cells[b] as usize;
        }
    }
    seen
}

/// The same, now and then with a byte changed, a byte added or cut off.
pub fn damaged_image(d: &mut Draw, most: usize) -> Image {
    let (mut pointers, mut cells) = image(d, most);
    match d.below(10) {
        0 => pointers[d.below(6)] = d.number() as u8,
        1 if !cells.is_empty() => {
            let at = d.below(cells.len());
            cells[at] = d.number() as u8;
        }
        2 if !cells.is_empty() => {
            let at = d.below(cells.len());
            cells[at] = 0xfe;
        }
        3 if d.one_in(4) => pointers.truncate(d.below(6)),
        4 if d.one_in(4) => pointers.push(0xfe),
        5 if d.one_in(4) => cells.resize(241 + d.below(20), 0xfd),
        _ => {}
    }
    (pointers, cells)
}

/// An S record, now and then damaged, and now and then of the first op that there is not; targets below 64.
pub fn statement(d: &mut Draw) -> Vec<u8> {
    let op = if d.one_in(60) { 14 } else { d.below(14) as u8 };
    let mut r = vec![0; 32];
    r[0] = 0x53;
    r[1] = op;
    if uses_u(op) {
        r[2] = d.below(6) as u8;
    }
    if uses_w(op) {
        r[3] = d.below(6) as u8;
    }
    if op != 0 {
        r[4] = d.below(64) as u8;
    }
    if (8..=10).contains(&op) {
        r[5] = d.below(64) as u8;
    }
    damage_record(d, &mut r);
    r
}

/// One byte changed in about one record of ten, another length in one of forty.
pub fn damage_record(d: &mut Draw, r: &mut Vec<u8>) {
    if d.one_in(10) {
        let at = if d.one_in(3) { d.below(32) } else { d.below(14) };
        r[at] = d.number() as u8;
    } else if d.one_in(40) {
        let n = d.below(40);
        r.resize(n, 0);
    }
}

/// Whether the op uses the pointers u and w.
pub fn uses_u(op: u8) -> bool {
    matches!(op, 1..=9 | 12 | 13)
}

pub fn uses_w(op: u8) -> bool {
    matches!(op, 2 | 3 | 5 | 9 | 12)
}

/// Every op, those that walk and choose more often.
const ANY: [u8; 20] = [1, 2, 2, 3, 3, 3, 4, 5, 5, 6, 6, 7, 8, 9, 10, 10, 11, 12, 13, 0];
/// Many relinks, among ops that make, walk and link.
const RELINKING: [u8; 16] = [1, 2, 3, 3, 5, 6, 6, 7, 10, 11, 12, 12, 12, 12, 12, 0];
/// Many drops, among ops that make, walk and link.
const DROPPING: [u8; 18] = [1, 2, 2, 3, 3, 4, 5, 5, 6, 6, 10, 12, 13, 13, 13, 13, 13, 0];
/// Cells freed, pointers copied, and many tests.
const TESTING: [u8; 15] = [1, 2, 2, 3, 6, 7, 7, 8, 8, 9, 9, 9, 10, 10, 0];

/// A routine in records: S records and starting shapes, small or large by i.
pub fn routine(d: &mut Draw, i: usize) -> Vec<u8> {
    routine_of(d, i, &ANY, small_image)
}

/// A routine whose tests often look at an undefined pointer.
pub fn testing_routine(d: &mut Draw, i: usize) -> Vec<u8> {
    routine_of(d, i, &TESTING, small_image)
}

/// A routine that often relinks.
pub fn relinking_routine(d: &mut Draw, i: usize) -> Vec<u8> {
    routine_of(d, i, &RELINKING, small_image)
}

/// A routine that often drops, on lists and rings that meet.
pub fn dropping_routine(d: &mut Draw, i: usize) -> Vec<u8> {
    let mut out = routine_of(d, i, &DROPPING, |d| {
        let longest = [2, 3, 5, 40][d.below(4)];
        joined_image(d, longest)
    });
    // most often the first statement too, so that a drop meets the starting shapes as they are
    if !d.one_in(4) {
        out[1..4].copy_from_slice(&[13, d.below(6) as u8, 0]);
        out[5] = 0;
    }
    out
}

fn small_image(d: &mut Draw) -> Image {
    image(d, 14)
}

/// Statements, and starting shapes of images so drawn.
fn routine_of(d: &mut Draw, i: usize, ops: &[u8], drawn: fn(&mut Draw) -> Image) -> Vec<u8> {
    let mut out = statements_of(d, i, ops);
    let mut shapes: Vec<[u8; 32]> = Vec::new();
    let most = if d.one_in(8) { 16 } else { 2 };
    for _ in 0..1 + d.below(most) {
        let (p, c) = drawn(d);
        let shape = reference::fold(&p, &c).record;
        if !shapes.contains(&shape) || d.one_in(20) {
            shapes.push(shape);
        }
    }
    shapes.iter().for_each(|s| out.extend_from_slice(s));
    out
}

fn statements_of(d: &mut Draw, i: usize, ops: &[u8]) -> Vec<u8> {
    let n = match i % 10 {
        0 => 1 + d.below(64),
        1 | 2 => 8 + d.below(24),
        _ => 1 + d.below(7),
    };
    let pointers = 1 + d.below(if i % 10 < 3 { 5 } else { 6 });
    let mut out = Vec::new();
    for s in 0..n {
        let op = ops[d.below(ops.len())];
        let op = if i % 10 < 3 && op == 0 && !d.one_in(4) { 10 } else { op };
        let mut r = [0u8; 32];
        r[0] = 0x53;
        r[1] = op;
        if uses_u(op) {
            r[2] = d.below(pointers) as u8;
        }
        if uses_w(op) {
            r[3] = d.below(pointers) as u8;
        }
        let mut target = || if d.one_in(3) { d.below(n) as u8 } else { ((s + 1) % n) as u8 };
        if op != 0 {
            r[4] = target();
        }
        if (8..=10).contains(&op) {
            r[5] = target();
        }
        out.extend_from_slice(&r);
    }
    out
}
