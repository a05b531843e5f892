//! The heap of the plain machine: six pointers and any number of cells.
//!
//! There is no limit on the cells here; only heap images (see `image`) have one.

/// How many pointers the machine has.
pub const POINTERS: usize = 6;

/// What a pointer, or the next of a cell, holds.
#[derive(Clone, Copy, PartialEq, Eq, Debug)]
pub enum Value {
    Cell(usize),
    Null,
    Undefined,
}

/// Six pointers and the cells by number. `None` is a cell that is not in use.
#[derive(Clone, PartialEq, Eq, Debug)]
pub struct Heap {
    pub pointers: [Value; POINTERS],
    pub cells: Vec<Option<Value>>,
}

impl Heap {
    /// All pointers null and no cells.
    pub fn empty() -> Heap {
        Heap { pointers: [Value::Null; POINTERS], cells: Vec::new() }
    }

    /// Whether the cell of this number is in use.
    pub fn in_use(&self, cell: usize) -> bool {
        matches!(self.cells.get(cell), Some(Some(_)))
    }

    /// The next of a cell in use.
    pub fn next(&self, cell: usize) -> Value {
        self.cells[cell].expect("only cells in use are held")
    }

    /// Puts a cell in use, with its next undefined.
    pub fn bring(&mut self, cell: usize) {
        if self.cells.len() <= cell {
            self.cells.resize(cell + 1, None);
        }
        self.cells[cell] = Some(Value::Undefined);
    }

    /// Takes a cell away; all that held it becomes undefined.
    pub fn release(&mut self, cell: usize) {
        self.cells[cell] = None;
        let gone = Value::Cell(cell);
        for pointer in self.pointers.iter_mut() {
            if *pointer == gone {
                *pointer = Value::Undefined;
            }
        }
        for next in self.cells.iter_mut().flatten() {
            if *next == gone {
                *next = Value::Undefined;
            }
        }
    }

    /// For each cell number, whether a walk from some pointer meets it.
    pub fn reachable(&self) -> Vec<bool> {
        let mut met = vec![false; self.cells.len()];
        for &pointer in &self.pointers {
            let mut at = pointer;
            while let Value::Cell(cell) = at {
                if met[cell] {
                    break;
                }
                met[cell] = true;
                at = self.next(cell);
            }
        }
        met
    }

    /// Whether some cell in use is not reachable.
    pub fn leaks(&self) -> bool {
        let met = self.reachable();
        self.cells.iter().zip(met).any(|(cell, met)| cell.is_some() && !met)
    }

    /// Takes away every cell that is not reachable. What stays is reachable, and
    /// so is what it holds: nothing in use holds a cell that goes.
    pub fn collect(&mut self) {
        let met = self.reachable();
        for (cell, met) in self.cells.iter_mut().zip(met) {
            if !met {
                *cell = None;
            }
        }
    }

    /// The lowest cell number that is not in use.
    pub fn lowest_unused(&self) -> usize {
        self.cells.iter().position(Option::is_none).unwrap_or(self.cells.len())
    }
}

#[cfg(test)]
mod tests {
    use super::*;

    fn ring_with_stem() -> Heap {
        let mut heap = Heap::empty();
        heap.pointers[2] = Value::Cell(0);
        heap.cells = vec![Some(Value::Cell(1)), Some(Value::Cell(3)), None, Some(Value::Cell(1))];
        heap
    }

    #[test]
    fn a_ring_is_walked_once() {
        let heap = ring_with_stem();
        assert_eq!(heap.reachable(), [true, true, false, true]);
        assert!(!heap.leaks());
        assert_eq!(heap.lowest_unused(), 2);
    }

    #[test]
    fn release_undefines_every_holder() {
        let mut heap = ring_with_stem();
        heap.pointers[5] = Value::Cell(1);
        heap.release(1);
        assert_eq!(heap.pointers[5], Value::Undefined);
        assert_eq!(heap.next(0), Value::Undefined);
        assert_eq!(heap.next(3), Value::Undefined);
        assert!(heap.leaks());
    }

    #[test]
    fn collect_takes_what_is_lost_and_nothing_else() {
        let mut heap = ring_with_stem();
        heap.collect();
        assert_eq!(heap, ring_with_stem());
        // The stem goes; the ring stays, as a pointer is left on it.
        heap.pointers[2] = Value::Cell(3);
        heap.collect();
        assert_eq!(heap.cells, [None, Some(Value::Cell(3)), None, Some(Value::Cell(1))]);
        heap.pointers[2] = Value::Undefined;
        heap.collect();
        assert_eq!(heap.cells, [None; 4]);
    }

    #[test]
    fn bring_takes_any_number() {
        let mut heap = Heap::empty();
        heap.bring(4);
        assert_eq!(heap.cells.len(), 5);
        assert!(heap.in_use(4) && !heap.in_use(3) && !heap.in_use(9));
        assert_eq!(heap.next(4), Value::Undefined);
    }
}
