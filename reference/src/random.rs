//! Random numbers and heaps for the selftest.

use crate::heap::{Heap, Value, POINTERS};

/// A small generator (splitmix64): the same seed gives the same numbers.
pub struct Random {
    state: u64,
}

impl Random {
    pub fn new(seed: u64) -> Random {
        Random { state: seed }
    }

    pub fn next(&mut self) -> u64 {
        self.state = self.state.wrapping_add(0x9e37_79b9_7f4a_7c15);
        let mut mixed = self.state;
        mixed = (mixed ^ mixed >> 30).wrapping_mul(0xbf58_476d_1ce4_e5b9);
        mixed = (mixed ^ mixed >> 27).wrapping_mul(0x94d0_49bb_1331_11eb);
        mixed ^ mixed >> 31
    }

    /// A number below `limit`, which is not 0.
    pub fn below(&mut self, limit: usize) -> usize {
        (self.next() % limit as u64) as usize
    }

    /// A number from `low` to `high`, both included.
    pub fn between(&mut self, low: usize, high: usize) -> usize {
        low + self.below(high - low + 1)
    }

    pub fn byte(&mut self) -> u8 {
        self.next() as u8
    }

    /// True so many times in a hundred.
    pub fn chance(&mut self, percent: usize) -> bool {
        self.below(100) < percent
    }

    pub fn shuffle<T>(&mut self, items: &mut [T]) {
        for end in (1..items.len()).rev() {
            items.swap(end, self.below(end + 1));
        }
    }

    /// The number of one of the weights, in proportion to them.
    pub fn weighted(&mut self, weights: &[usize]) -> usize {
        let mut at = self.below(weights.iter().sum());
        for (number, &weight) in weights.iter().enumerate() {
            if at < weight {
                return number;
            }
            at -= weight;
        }
        unreachable!("the sum of the weights was passed")
    }
}

/// A heap with at most so many cells, in which every cell is reachable.
pub fn random_heap(random: &mut Random, most: usize) -> Heap {
    if most >= 12 && random.chance(10) {
        return many_nodes(random, most);
    }
    let mut heap = Heap::empty();
    let cells = random.between(0, most);
    // Long chains, or else many shared cells and rings.
    let chain = [10, 50, 90, 97][random.below(4)];
    for cell in 0..cells {
        let next = if random.chance(chain) && cell + 1 < cells { Value::Cell(cell + 1) } else { random_value(random, cells, 60) };
        heap.cells.push(Some(next));
    }
    let held = [40, 60, 90][random.below(3)];
    for pointer in 0..POINTERS {
        heap.pointers[pointer] = random_value(random, cells, held);
    }
    heap.collect();
    heap
}

/// A cell so many times in a hundred, otherwise null or undefined.
pub fn random_value(random: &mut Random, cells: usize, percent: usize) -> Value {
    if cells > 0 && random.chance(percent) {
        Value::Cell(random.below(cells))
    } else if random.chance(65) {
        Value::Null
    } else {
        Value::Undefined
    }
}

/// Six heads and six cells with two holders each: as many nodes as can be,
/// unless some ring is lost. Segments are lengthened while there is room.
fn many_nodes(random: &mut Random, most: usize) -> Heap {
    let mut heap = Heap::empty();
    let mut nexts: Vec<usize> = (12..24).map(|holder| 6 + (holder - 12) / 2).collect();
    random.shuffle(&mut nexts);
    heap.cells = nexts.iter().map(|&next| Some(Value::Cell(next))).collect();
    for pointer in 0..POINTERS {
        heap.pointers[pointer] = Value::Cell(pointer);
    }
    random.shuffle(&mut heap.pointers);
    heap.collect();
    let longer = random.between(0, most - 12);
    lengthen(random, &mut heap, longer);
    heap
}

/// Puts at most so many cells into a heap that has some, each between a cell
/// and its next.
pub fn lengthen(random: &mut Random, heap: &mut Heap, longer: usize) {
    for _ in 0..longer {
        let after = random.below(heap.cells.len());
        if let Some(next) = heap.cells[after] {
            heap.cells[after] = Some(Value::Cell(heap.cells.len()));
            heap.cells.push(Some(next));
        }
    }
}

/// Pointer 0 leads into a ring, most often over one cell, and pointer 1 is at a
/// list, which seldom leads there as well. The others are null or at that list.
pub fn ring_and_list(random: &mut Random) -> Heap {
    let mut heap = Heap::empty();
    let stem = if random.chance(75) { 1 } else { 2 };
    let ring = random.between(1, 3);
    let list = random.between(1, 3);
    let cells = stem + ring + list;
    heap.cells = (1..=cells).map(|next| Some(Value::Cell(next))).collect();
    heap.cells[stem + ring - 1] = Some(Value::Cell(stem));
    heap.cells[cells - 1] = Some(random_value(random, cells, 20));
    for pointer in 1..POINTERS {
        if pointer == 1 || random.chance(20) {
            heap.pointers[pointer] = Value::Cell(stem + ring);
        }
    }
    heap.pointers[0] = Value::Cell(0);
    heap
}

/// A heap put together pointer by pointer, in any order of them, with lists,
/// rings and ways into what is there already. Each pointer brings at most
/// twice `longest` cells.
pub fn composed_heap(random: &mut Random, longest: usize) -> Heap {
    let mut heap = Heap::empty();
    let mut order: Vec<usize> = (0..POINTERS).collect();
    random.shuffle(&mut order);
    let held = [40, 70, 95][random.below(3)];
    for pointer in order {
        let value = if random.chance(held) { compose(random, &mut heap, longest) } else { random_value(random, 0, 0) };
        heap.pointers[pointer] = value;
    }
    heap
}

/// What one more pointer of such a heap holds: a cell that is there, or the
/// first of some new cells.
fn compose(random: &mut Random, heap: &mut Heap, longest: usize) -> Value {
    let first = heap.cells.len();
    let stem = random.between(1, longest);
    match random.below(10) {
        0 | 1 if first > 0 => return Value::Cell(random.below(first)),
        2..=5 if first > 0 => {
            // Often where another cell leads already.
            let there = random.below(first);
            let end = match heap.next(there) {
                next @ Value::Cell(_) if random.chance(60) => next,
                _ => Value::Cell(there),
            };
            append(heap, stem, end);
        }
        6 => append(heap, stem, Value::Cell(first)),
        7 => {
            let ring = random.between(1, longest);
            append(heap, stem + ring, Value::Cell(first + stem));
        }
        _ => {
            let end = random_value(random, 0, 0);
            append(heap, stem, end);
        }
    }
    Value::Cell(first)
}

/// Puts in so many cells, each of which leads to the next one, and the last
/// to this end.
fn append(heap: &mut Heap, count: usize, end: Value) {
    for _ in 1..count {
        heap.cells.push(Some(Value::Cell(heap.cells.len() + 1)));
    }
    heap.cells.push(Some(end));
}

/// The same heap with its cells at other numbers below `room`, which is at
/// least the number of cells in use.
pub fn rename(random: &mut Random, heap: &Heap, room: usize) -> Heap {
    let mut places: Vec<usize> = (0..room).collect();
    random.shuffle(&mut places);
    let mut free = places.into_iter();
    let mut to = vec![None; heap.cells.len()];
    for (cell, next) in heap.cells.iter().enumerate() {
        if next.is_some() {
            to[cell] = free.next();
        }
    }
    let renamed_value = |value: Value| match value {
        Value::Cell(cell) => Value::Cell(to[cell].expect("a cell in use")),
        other => other,
    };
    let mut renamed = Heap::empty();
    renamed.pointers = heap.pointers.map(renamed_value);
    renamed.cells = vec![None; room];
    for (cell, next) in heap.cells.iter().enumerate() {
        if let (Some(next), Some(place)) = (next, to[cell]) {
            renamed.cells[place] = Some(renamed_value(*next));
        }
    }
    renamed
}
