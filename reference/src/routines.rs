//! Random routines and starting shapes for the selftest.

use crate::fold::fold_heap;
use crate::heap::{Heap, Value, POINTERS};
use crate::random::{composed_heap, random_heap, ring_and_list, Random};
use crate::records::{Record, RECORD, STATEMENT};
use crate::statement::OPS;

/// The records of a routine and of its starting shapes.
pub struct Drawn {
    pub statements: Vec<Record>,
    pub shapes: Vec<Record>,
}

impl Drawn {
    pub fn input(&self) -> Vec<u8> {
        [self.statements.concat(), self.shapes.concat()].concat()
    }
}

/// How often each op is drawn.
pub type Weights = [usize; OPS.len()];

/// A routine that passes all checks. Most are short; some are as long as may
/// be, some are made so that their listings grow large, some so that they
/// compare what they freed, some so that they relink, and some so that they
/// drop.
pub fn random_routine(random: &mut Random) -> Drawn {
    match random.below(100) {
        0..=3 => return ring_walk(random),
        4..=14 => return free_and_compare(random),
        15..=33 => return relink_often(random),
        34..=41 => return drop_often(random),
        _ => {}
    }
    let (statements, shapes) = match random.below(100) {
        0..=69 => (random.between(1, 8), random.between(1, 3)),
        70..=94 => (random.between(6, 24), random.between(1, 5)),
        _ => (random.between(25, 64), random.between(1, 16)),
    };
    let pointers = random.between(1, POINTERS);
    let weights = OP_WEIGHTS[random.weighted(&[5, 2, 3])];
    let statements = (0..statements).map(|number| random_statement(random, number, statements, pointers, &weights)).collect();
    Drawn { statements, shapes: random_shapes(random, shapes) }
}

/// All kinds, few that leak, many that read and write.
const OP_WEIGHTS: [Weights; 3] = [
    [1, 2, 4, 5, 2, 4, 3, 2, 3, 3, 4, 1, 2, 2],
    [1, 0, 1, 1, 0, 1, 1, 1, 3, 4, 5, 2, 1, 1],
    [1, 1, 5, 9, 1, 7, 4, 3, 2, 2, 4, 1, 5, 2],
];

/// Pointers that wander over rings by choice: they seldom fault, and stand to
/// each other in very many ways.
fn ring_walk(random: &mut Random) -> Drawn {
    const WEIGHTS: Weights = [0, 0, 1, 8, 0, 1, 0, 0, 1, 1, 6, 1, 0, 0];
    let count = random.between(3, 12);
    // The last pointer keeps all cells reachable and is never moved.
    let pointers = random.between(2, POINTERS - 1);
    let statements = (0..count).map(|number| random_statement(random, number, count, pointers, &WEIGHTS)).collect();
    let mut heap = Heap::empty();
    let cells = random.between(1, 8);
    for cell in 0..cells {
        let next = if cell + 1 < cells { cell + 1 } else { random.below(cells) };
        heap.cells.push(Some(Value::Cell(next)));
    }
    heap.pointers = heap.pointers.map(|_| Value::Cell(random.below(cells)));
    heap.pointers[POINTERS - 1] = Value::Cell(0);
    Drawn { statements, shapes: vec![fold_heap(&heap).0] }
}

/// Few pointers, most of them at one node, which is freed and then compared:
/// many tests look at undefined pointers.
fn free_and_compare(random: &mut Random) -> Drawn {
    const FREE: Weights = [0, 0, 0, 0, 0, 0, 0, 1, 0, 0, 0, 0, 0, 0];
    const TEST: Weights = [0, 0, 0, 0, 0, 0, 0, 0, 1, 4, 0, 0, 0, 0];
    const ANY: Weights = [1, 1, 5, 0, 0, 0, 3, 3, 3, 9, 5, 1, 0, 0];
    let count = random.between(3, 12);
    let pointers = random.between(2, 4);
    let weights = |number| [&FREE, &TEST, &ANY][usize::min(number, 2)];
    let statements = (0..count).map(|number| random_statement(random, number, count, pointers, weights(number))).collect();
    let mut heap = Heap::empty();
    heap.cells = vec![Some(Value::Null), Some(Value::Undefined)];
    let others = [Value::Cell(1), Value::Null, Value::Undefined];
    heap.pointers = heap.pointers.map(|_| if random.chance(75) { Value::Cell(0) } else { others[random.below(3)] });
    heap.collect();
    Drawn { statements, shapes: vec![fold_heap(&heap).0] }
}

/// Few pointers over few cells: they relink, and then move and relink.
fn relink_often(random: &mut Random) -> Drawn {
    const WEIGHTS: Weights = [1, 1, 4, 5, 0, 1, 1, 1, 0, 0, 4, 1, 12, 1];
    let count = random.between(2, 12);
    let pointers = random.between(2, 4);
    let mut statements: Vec<Record> =
        (0..count).map(|number| random_statement(random, number, count, pointers, &WEIGHTS)).collect();
    let most = random.between(2, 9);
    let heap = random_heap(random, most);
    let (heap, first) = any_relink(random, &heap);
    statements[0] = first;
    statements[0][4] = random.below(count) as u8;
    Drawn { statements, shapes: vec![fold_heap(&heap).0] }
}

/// A relink of two pointers to statement 0, and the heap with both at cells,
/// if there are any, or with one of them at none. Some take the only way into
/// a ring away, on a heap of their own.
pub fn any_relink(random: &mut Random, heap: &Heap) -> (Heap, Record) {
    let kind = random.below(8);
    if kind < 2 {
        return (ring_and_list(random), relink(0, 1));
    }
    let u = random.below(POINTERS);
    let w = (u + random.between(1, POINTERS - 1)) % POINTERS;
    let mut changed = heap.clone();
    let used: Vec<usize> = (0..heap.cells.len()).filter(|&cell| heap.in_use(cell)).collect();
    if !used.is_empty() {
        changed.pointers[u] = Value::Cell(used[random.below(used.len())]);
        changed.pointers[w] = Value::Cell(used[random.below(used.len())]);
    }
    let none = [Value::Null, Value::Undefined][random.below(2)];
    match kind {
        2 => changed.pointers[w] = none,
        3 | 4 => changed.pointers[u] = none,
        _ => {}
    }
    changed.collect();
    (changed, relink(u, w))
}

fn relink(u: usize, w: usize) -> Record {
    let mut record = [0; RECORD];
    record[..4].copy_from_slice(&[STATEMENT, 12, u as u8, w as u8]);
    record
}

/// Lists and rings of all kinds, which are let go at once or after the
/// pointers moved. In most of them a drop is reached.
pub fn drop_often(random: &mut Random) -> Drawn {
    const WEIGHTS: Weights = [1, 1, 5, 5, 1, 4, 4, 1, 1, 1, 4, 1, 1, 9];
    let count = random.between(1, 12);
    let pointers = random.between(2, POINTERS);
    let mut statements: Vec<Record> =
        (0..count).map(|number| random_statement(random, number, count, pointers, &WEIGHTS)).collect();
    if random.chance(85) {
        statements[0] = drop_of(random.below(POINTERS));
        statements[0][4] = random.below(count) as u8;
    }
    let shapes = random.between(1, 4);
    Drawn { statements, shapes: different_shapes(random, shapes, heap_to_drop) }
}

fn heap_to_drop(random: &mut Random) -> Heap {
    if random.chance(75) {
        let longest = random.between(1, 3);
        composed_heap(random, longest)
    } else {
        random_heap(random, 18)
    }
}

/// A drop of a pointer of this heap, to statement 0: most often of one that is
/// at a cell, if there are any.
pub fn any_drop(random: &mut Random, heap: &Heap) -> Record {
    let at_cells: Vec<usize> = (0..POINTERS).filter(|&u| matches!(heap.pointers[u], Value::Cell(_))).collect();
    if at_cells.is_empty() || random.chance(20) {
        drop_of(random.below(POINTERS))
    } else {
        drop_of(at_cells[random.below(at_cells.len())])
    }
}

fn drop_of(u: usize) -> Record {
    let mut record = [0; RECORD];
    record[..3].copy_from_slice(&[STATEMENT, 13, u as u8]);
    record
}

/// A statement that passes all checks, at this number of so many.
pub fn random_statement(random: &mut Random, number: usize, statements: usize, pointers: usize, weights: &Weights) -> Record {
    let mut record = [0; RECORD];
    record[0] = STATEMENT;
    let op = random.weighted(weights);
    record[1] = op as u8;
    for (field, used) in OPS[op].used_fields().into_iter().enumerate() {
        if !used {
            continue;
        }
        let value = match field {
            0 | 1 => random.below(pointers),
            2 if random.chance(70) => (number + 1) % statements,
            _ => random.below(statements),
        };
        record[2 + field] = value as u8;
    }
    record
}

/// Shapes of any kind.
fn random_shapes(random: &mut Random, count: usize) -> Vec<Record> {
    different_shapes(random, count, |random| {
        let most = random.between(0, 18);
        random_heap(random, most)
    })
}

/// Different shapes of heaps so drawn, at least one and at most so many.
fn different_shapes(random: &mut Random, count: usize, draw: fn(&mut Random) -> Heap) -> Vec<Record> {
    let mut shapes: Vec<Record> = Vec::new();
    for _ in 0..count {
        let (shape, _) = fold_heap(&draw(random));
        if !shapes.contains(&shape) {
            shapes.push(shape);
        }
    }
    shapes
}
