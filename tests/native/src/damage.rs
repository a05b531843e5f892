//! Routines and shapes of every kind, whole and damaged: what a caller may send, whatever it is.

use crate::draw::{dropping_routine, image, relinking_routine, routine, testing_routine, Draw};

type Record = [u8; 32];

/// A shape with as many nodes as there can be, or nearly: six cells that are held by pointers come together two by two,
/// and the last one leads to itself, to null or nowhere.
pub fn many_nodes(d: &mut Draw) -> Record {
    let mut cells = vec![0; 6];
    let mut roots: Vec<usize> = (0..6).collect();
    while roots.len() > 1 + d.below(2) {
        for _ in 0..2 {
            let root = roots.swap_remove(d.below(roots.len()));
            cells[root] = cells.len() as u8;
        }
        roots.push(cells.len());
        cells.push(0xfe);
    }
    let end = [0xfe, 0xff, cells.len() as u8][d.below(3)];
    cells.push(if usize::from(end) == cells.len() { end } else { 0xfd });
    roots.iter().for_each(|&root| cells[root] = end);
    reference::fold(&[0, 1, 2, 3, 4, 5], &cells).record
}

/// Small and large routines of four kinds, one of three damaged.
pub fn drawn_routine(d: &mut Draw, i: usize) -> Vec<u8> {
    // more large ones than the routines' own numbering gives
    let size = [0, 1, 2, 5, 5][i % 5];
    let mut input = [routine, relinking_routine, testing_routine, dropping_routine][i % 4](d, size);
    if d.one_in(6) {
        let shape = many_nodes(d);
        let last = input.len() - 32;
        input[last..].copy_from_slice(&shape);
    }
    match d.below(9) {
        0 => damage_anywhere(d, &mut input),
        1 | 2 => damage_towards(d, &mut input, 1 + i % 10),
        _ => {}
    }
    input
}

/// A byte changed, an end cut off, a record or statements added.
fn damage_anywhere(d: &mut Draw, input: &mut Vec<u8>) {
    match d.below(4) {
        0 => input.truncate(d.below(input.len() + 1)),
        1 => input.extend_from_within(..32),
        2 => (0..d.below(66)).for_each(|_| drop(input.splice(0..0, input[..32].to_vec()))),
        _ => {
            let at = d.below(input.len());
            input[at] = d.number() as u8;
        }
    }
}

/// Damage that most often gives this refusal.
fn damage_towards(d: &mut Draw, input: &mut Vec<u8>, refusal: usize) {
    let statements = input.chunks(32).filter(|record| record[0] == 0x53).count();
    let shapes = input.len() / 32 - statements;
    let (s, h) = (32 * d.below(statements), 32 * (statements + d.below(shapes)));
    let any = d.number() as u8;
    match refusal {
        1 if d.one_in(4) => input.clear(),
        1 => input.truncate(input.len() - 1 - d.below(31)),
        2 if d.one_in(3) => drop(input.drain(..32 * statements)),
        2 => (statements..65).for_each(|_| drop(input.splice(0..0, input[..32].to_vec()))),
        3 if d.one_in(3) => input.truncate(32 * statements),
        3 => (shapes..17).for_each(|_| input.extend_from_within(h..h + 32)),
        4 if d.one_in(2) => input.extend_from_within(s..s + 32),
        4 => input[32 * d.below(statements + shapes)] = any,
        // often the first op that there is not
        5 => input[s + 1] = if d.one_in(3) { 14 } else { any.max(14) },
        6 if d.one_in(2) => input[s + 2 + d.below(2)] = any.max(6),
        6 => input[s + 6 + d.below(26)] = any.max(1),
        7 => input[s + 4 + d.below(2)] = any.max(statements as u8),
        8 => input[h + [1, 2, 3, 4, 10, 22, 31][d.below(7)]] = any,
        // 18 and 19 too
        9 => spoil_shape(d, &mut input[h..h + 32]),
        _ => input.extend_from_within(h..h + 32),
    }
}

/// Two nodes of a shape swapped, a pointer or a node that lets go, or a node more: one that nothing reaches, or one between a node
/// and its successor.
pub fn spoil_shape(d: &mut Draw, record: &mut [u8]) {
    let nodes = usize::from(record[3]);
    match d.below(4) {
        0 if nodes > 1 => {
            // often neighbours
            let (one, apart) = (d.below(nodes), if d.one_in(2) { 1 } else { 1 + d.below(nodes - 1) });
            swap_nodes(record, one, (one + apart) % nodes);
        }
        1 if nodes > 0 => record[4 + d.below(6 + nodes)] = 0xfe,
        2 if nodes > 0 && nodes < 12 => {
            let before = 10 + d.below(nodes);
            record[10 + nodes] = record[before];
            record[before] = nodes as u8;
            record[3] += 1;
        }
        _ if nodes < 12 => {
            record[10 + nodes] = 0xfe;
            record[3] += 1;
        }
        _ => {}
    }
}

fn swap_nodes(record: &mut [u8], one: usize, other: usize) {
    let end = 10 + usize::from(record[3]);
    record.swap(10 + one, 10 + other);
    for value in &mut record[4..end] {
        *value = match usize::from(*value) {
            node if node == one => other as u8,
            node if node == other => one as u8,
            _ => *value,
        };
    }
}

/// A shape spoiled once or several times.
pub fn spoiled(d: &mut Draw) -> Record {
    let mut record = if d.one_in(2) { many_nodes(d) } else { sound_shape(d) };
    (0..1 + d.below(3)).for_each(|_| spoil_shape(d, &mut record));
    record
}

/// A record that keeps the layout, whatever its nodes are.
pub fn any_values(d: &mut Draw) -> Record {
    let nodes = d.below(13);
    let mut record = [0; 32];
    (record[0], record[3]) = (0x48, nodes as u8);
    record[4..10 + nodes].fill_with(|| if nodes > 0 && !d.one_in(5) { d.below(nodes) } else { 0xfe + d.below(2) } as u8);
    record
}

fn sound_shape(d: &mut Draw) -> Record {
    let (pointers, cells) = image(d, 14);
    reference::fold(&pointers, &cells).record
}

/// A routine with this record among its starting shapes, and the number of the record. Those before it pass the checks and are
/// different. After it there may be another record that is to be refused, which comes too late.
pub fn among_shapes(d: &mut Draw, record: &Record) -> (Vec<u8>, usize) {
    let size = [0, 5, 5, 5][d.below(4)];
    let routine = routine(d, size);
    let statements: Vec<Record> = routine.chunks(32).filter(|r| r[0] == 0x53).map(|r| r.try_into().unwrap()).collect();
    let mut shapes: Vec<Record> = Vec::new();
    for _ in 0..d.below(15) {
        let shape = sound_shape(d);
        if shape != *record && !shapes.contains(&shape) {
            shapes.push(shape);
        }
    }
    let at = d.below(shapes.len() + 1);
    shapes.insert(at, *record);
    match d.below(4) {
        0 => shapes.push(*record),
        1 => shapes.push(any_values(d)),
        2 => shapes.push([0x48; 32]),
        _ => {}
    }
    (([&statements[..], &shapes]).concat().concat(), statements.len() + at)
}

/// Counters that would fit the record, were it a shape, in 240 cells; or others.
pub fn counters_of(d: &mut Draw, record: &Record) -> Vec<u32> {
    let mut counters = vec![0; 12];
    counters[..record[3].into()].fill_with(|| 1 + d.below(20) as u32);
    match d.below(4) {
        0 => counters[d.below(12)] = d.below(2) as u32,
        1 => counters.resize(d.below(15), 1),
        _ => {}
    }
    counters
}
