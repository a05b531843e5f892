//! The plain machine: one statement carried out on a heap.

use crate::heap::{Heap, Value};
use crate::statement::{Op, Statement};

/// Reading or writing through null.
pub const THROUGH_NULL: u8 = 1;
/// Reading or writing through undefined, freeing it, or looking at it in a test.
pub const THROUGH_UNDEFINED: u8 = 2;
/// The finished effect leaves a cell unreachable.
pub const LEAK: u8 = 3;

/// What came of one statement.
#[derive(Clone, Copy, PartialEq, Eq, Debug)]
pub enum Outcome {
    Stop,
    Fault(u8),
    Moved { branch: u8, next: u8 },
}

/// Carries out a statement. `fresh` is a cell not in use, read by new only.
/// At a stop or a fault the heap stays as it was.
pub fn run(heap: &mut Heap, statement: &Statement, pick: u64, fresh: usize) -> Outcome {
    if statement.op == Op::Stop {
        return Outcome::Stop;
    }
    let mut changed = heap.clone();
    if let Err(fault) = effect(&mut changed, statement, fresh) {
        return Outcome::Fault(fault);
    }
    if changed.leaks() {
        return Outcome::Fault(LEAK);
    }
    let branch = branch(heap, statement, pick);
    *heap = changed;
    let next = if branch == 0 { statement.first } else { statement.second };
    Outcome::Moved { branch, next }
}

/// A true test and a first choice take branch 0, the others branch 1. A test
/// that gets here has looked at null and cells only.
fn branch(heap: &Heap, statement: &Statement, pick: u64) -> u8 {
    let first = match statement.op {
        Op::TestNull => heap.pointers[statement.u] == Value::Null,
        Op::TestEqual => heap.pointers[statement.u] == heap.pointers[statement.w],
        Op::Choose => pick == 0,
        _ => true,
    };
    u8::from(!first)
}

fn effect(heap: &mut Heap, statement: &Statement, fresh: usize) -> Result<(), u8> {
    let Statement { op, u, w, .. } = *statement;
    match op {
        Op::Stop | Op::Choose | Op::Skip => {}
        Op::SetNull => heap.pointers[u] = Value::Null,
        Op::Copy => heap.pointers[u] = heap.pointers[w],
        Op::LoadNext => heap.pointers[u] = heap.next(cell_of(heap, w)?),
        Op::CutNext => {
            let cell = cell_of(heap, u)?;
            heap.cells[cell] = Some(Value::Null);
        }
        Op::StoreNext => {
            let cell = cell_of(heap, u)?;
            heap.cells[cell] = Some(heap.pointers[w]);
        }
        Op::Relink => relink(heap, u, w)?,
        Op::New => {
            heap.bring(fresh);
            heap.pointers[u] = Value::Cell(fresh);
        }
        Op::Free => match heap.pointers[u] {
            Value::Cell(cell) => heap.release(cell),
            Value::Null => {}
            Value::Undefined => return Err(THROUGH_UNDEFINED),
        },
        // "u becomes null and every cell that this leaves unreachable is gone."
        // Every cell was reachable before, so none is lost by anything else.
        Op::Drop => {
            heap.pointers[u] = Value::Null;
            heap.collect();
        }
        // "From now on a test that looks at an undefined pointer, in op 8 or
        // 9, is fault 2, on branch 0, even if both are the same."
        Op::TestNull => look_at(heap, u)?,
        Op::TestEqual => {
            look_at(heap, u)?;
            look_at(heap, w)?;
        }
    }
    Ok(())
}

/// "Looking at w comes first, for null and for undefined, then u."
fn relink(heap: &mut Heap, u: usize, w: usize) -> Result<(), u8> {
    let next = heap.next(cell_of(heap, w)?);
    let cell = cell_of(heap, u)?;
    heap.cells[cell] = Some(next);
    Ok(())
}

/// The cell that a pointer holds, or the fault of going through it.
fn cell_of(heap: &Heap, pointer: usize) -> Result<usize, u8> {
    match heap.pointers[pointer] {
        Value::Cell(cell) => Ok(cell),
        Value::Null => Err(THROUGH_NULL),
        Value::Undefined => Err(THROUGH_UNDEFINED),
    }
}

/// The fault of a test that looks at a pointer, if there is one.
fn look_at(heap: &Heap, pointer: usize) -> Result<(), u8> {
    match heap.pointers[pointer] {
        Value::Cell(_) | Value::Null => Ok(()),
        Value::Undefined => Err(THROUGH_UNDEFINED),
    }
}

#[cfg(test)]
mod tests {
    use super::*;

    fn statement(op: Op, u: usize, w: usize) -> Statement {
        let (first, second) = (4, 5);
        Statement { op, u, w, first, second }
    }

    /// Pointer 0 at cell 0, pointer 1 at cell 1, pointer 2 undefined; 0 leads to 1.
    fn two_cells() -> Heap {
        let mut heap = Heap::empty();
        heap.pointers[0] = Value::Cell(0);
        heap.pointers[1] = Value::Cell(1);
        heap.pointers[2] = Value::Undefined;
        heap.cells = vec![Some(Value::Cell(1)), Some(Value::Null)];
        heap
    }

    #[test]
    fn faults_leave_the_heap() {
        let cases = [
            (Op::LoadNext, 0, 3, THROUGH_NULL),
            (Op::LoadNext, 0, 2, THROUGH_UNDEFINED),
            (Op::CutNext, 3, 0, THROUGH_NULL),
            (Op::CutNext, 2, 0, THROUGH_UNDEFINED),
            (Op::StoreNext, 3, 0, THROUGH_NULL),
            (Op::StoreNext, 2, 0, THROUGH_UNDEFINED),
            (Op::Free, 2, 0, THROUGH_UNDEFINED),
            (Op::TestNull, 2, 0, THROUGH_UNDEFINED),
            (Op::TestEqual, 2, 2, THROUGH_UNDEFINED),
            (Op::TestEqual, 2, 3, THROUGH_UNDEFINED),
            (Op::TestEqual, 0, 2, THROUGH_UNDEFINED),
            (Op::Relink, 0, 3, THROUGH_NULL),
            (Op::Relink, 0, 2, THROUGH_UNDEFINED),
            (Op::Relink, 3, 0, THROUGH_NULL),
            (Op::Relink, 2, 0, THROUGH_UNDEFINED),
            (Op::Relink, 2, 3, THROUGH_NULL),
            (Op::Relink, 3, 2, THROUGH_UNDEFINED),
            (Op::Relink, 3, 3, THROUGH_NULL),
            (Op::Relink, 2, 2, THROUGH_UNDEFINED),
            (Op::SetNull, 0, 0, LEAK),
            (Op::Copy, 0, 1, LEAK),
            (Op::New, 0, 0, LEAK),
            (Op::LoadNext, 0, 0, LEAK),
        ];
        for (op, u, w, fault) in cases {
            let mut heap = two_cells();
            let outcome = run(&mut heap, &statement(op, u, w), 0, 2);
            assert_eq!(outcome, Outcome::Fault(fault), "{op:?} {u} {w}");
            assert_eq!(heap, two_cells());
        }
    }

    #[test]
    fn branches() {
        let cases = [
            (Op::TestNull, 3, 0, 0, 0),
            (Op::TestNull, 0, 0, 0, 1),
            (Op::TestEqual, 0, 0, 0, 0),
            (Op::TestEqual, 0, 1, 0, 1),
            (Op::TestEqual, 3, 3, 0, 0),
            (Op::TestEqual, 3, 4, 0, 0),
            (Op::TestEqual, 0, 3, 0, 1),
            (Op::TestEqual, 3, 0, 0, 1),
            (Op::Choose, 0, 0, 0, 0),
            (Op::Choose, 0, 0, 1, 1),
            (Op::Skip, 0, 0, 1, 0),
            (Op::Free, 3, 0, 1, 0),
        ];
        for (op, u, w, pick, branch) in cases {
            let mut heap = two_cells();
            let outcome = run(&mut heap, &statement(op, u, w), pick, 2);
            let next = 4 + branch;
            assert_eq!(outcome, Outcome::Moved { branch, next }, "{op:?} {u} {w}");
            assert_eq!(heap, two_cells());
        }
    }

    /// What a test may find: null, undefined, and two cells.
    const HELD: [Value; 4] = [Value::Null, Value::Undefined, Value::Cell(0), Value::Cell(1)];

    /// Pointer 5 and cell 1 keep both cells held, whatever the others hold.
    fn holding(u: usize, first: Value, w: usize, second: Value) -> Heap {
        let mut heap = Heap::empty();
        heap.cells = vec![Some(Value::Undefined), Some(Value::Cell(0))];
        heap.pointers[5] = Value::Cell(1);
        heap.pointers[u] = first;
        heap.pointers[w] = second;
        heap
    }

    /// The outcome of a test that is fault 2, or true, or false.
    fn decided(fault: bool, equal: bool) -> Outcome {
        match (fault, equal) {
            (true, _) => Outcome::Fault(THROUGH_UNDEFINED),
            (_, true) => Outcome::Moved { branch: 0, next: 4 },
            _ => Outcome::Moved { branch: 1, next: 5 },
        }
    }

    #[test]
    fn every_pairing_that_a_test_may_find() {
        let mut faults = 0;
        for first in HELD {
            for pointer in 0..5 {
                let before = holding(pointer, first, pointer, first);
                let undefined = first == Value::Undefined;
                for (op, w, equal) in [(Op::TestNull, 0, first == Value::Null), (Op::TestEqual, pointer, true)] {
                    let mut heap = before.clone();
                    let outcome = run(&mut heap, &statement(op, pointer, w), 1, 9);
                    assert_eq!(outcome, decided(undefined, equal), "{op:?} {pointer} at {first:?}");
                    assert_eq!(heap, before);
                    faults += u32::from(undefined);
                }
            }
            for second in HELD {
                for (u, w) in [(0, 1), (1, 0), (2, 4)] {
                    let before = holding(u, first, w, second);
                    let undefined = [first, second].contains(&Value::Undefined);
                    let mut heap = before.clone();
                    let outcome = run(&mut heap, &statement(Op::TestEqual, u, w), 1, 9);
                    assert_eq!(outcome, decided(undefined, first == second), "{first:?} and {second:?}");
                    assert_eq!(heap, before);
                    faults += u32::from(undefined);
                }
            }
        }
        // Five pointers by both ops, and seven of the sixteen pairs at three places.
        assert_eq!(faults, 10 + 21);
    }

    #[test]
    fn a_test_looks_at_its_own_pointers_only() {
        // Other pointers, and the next of a cell, may be undefined.
        let mut heap = holding(0, Value::Cell(0), 1, Value::Null);
        heap.pointers[2] = Value::Undefined;
        heap.pointers[3] = Value::Undefined;
        for (op, u, w, equal) in [(Op::TestNull, 0, 0, false), (Op::TestNull, 1, 0, true), (Op::TestEqual, 0, 1, false)] {
            assert_eq!(run(&mut heap, &statement(op, u, w), 0, 9), decided(false, equal), "{op:?} {u} {w}");
        }
    }

    #[test]
    fn a_freed_cell_may_not_be_compared() {
        let mut heap = two_cells();
        heap.pointers[4] = Value::Cell(1);
        run(&mut heap, &statement(Op::Free, 1, 0), 0, 0);
        let freed = heap.clone();
        let fault = Outcome::Fault(THROUGH_UNDEFINED);
        assert_eq!(run(&mut heap, &statement(Op::TestNull, 4, 0), 0, 0), fault);
        assert_eq!(run(&mut heap, &statement(Op::TestEqual, 1, 4), 0, 0), fault);
        assert_eq!(run(&mut heap, &statement(Op::TestEqual, 1, 1), 0, 0), fault);
        assert_eq!(heap, freed);
        run(&mut heap, &statement(Op::SetNull, 4, 0), 0, 0);
        assert_eq!(run(&mut heap, &statement(Op::TestNull, 4, 0), 0, 0), decided(false, true));
    }

    /// Relinks pointer u by w and wants this next at the cell of u, or a fault
    /// that leaves the heap.
    fn check_relink(heap: &Heap, (u, w): (usize, usize), due: Result<Value, u8>) {
        let mut changed = heap.clone();
        let outcome = run(&mut changed, &statement(Op::Relink, u, w), 1, 9);
        let mut after = heap.clone();
        let wanted = match (due, heap.pointers[u]) {
            (Ok(next), Value::Cell(cell)) => {
                after.cells[cell] = Some(next);
                Outcome::Moved { branch: 0, next: 4 }
            }
            (due, _) => Outcome::Fault(due.expect_err("a fault, as u is at no cell")),
        };
        assert_eq!((outcome, changed), (wanted, after), "{u} {w}");
    }

    #[test]
    fn relinks_of_every_pairing() {
        for first in HELD {
            for second in HELD {
                let heap = holding(0, first, 1, second);
                // Cell 1 leads to cell 0, whose next is undefined. If cell 1 lets
                // go of cell 0, w still holds it.
                let due = match (second, first) {
                    (Value::Null, _) => Err(1),
                    (Value::Undefined, _) => Err(2),
                    (_, Value::Null) => Err(1),
                    (_, Value::Undefined) => Err(2),
                    (Value::Cell(0), _) => Ok(Value::Undefined),
                    (Value::Cell(_), _) => Ok(Value::Cell(0)),
                };
                check_relink(&heap, (0, 1), due);
            }
            let itself = match first {
                Value::Cell(cell) => Ok(holding(0, first, 0, first).next(cell)),
                Value::Null => Err(1),
                Value::Undefined => Err(2),
            };
            check_relink(&holding(0, first, 0, first), (0, 0), itself);
        }
    }

    #[test]
    fn relinks_and_lost_cells() {
        // Pointer 0 at 0, 1, 2 and pointer 1 at 3, 2: both lead to cell 2.
        let mut heap = Heap::empty();
        heap.cells = [1, 2, 4, 2].map(|next| Some(Value::Cell(next))).to_vec();
        heap.cells.push(Some(Value::Null));
        heap.pointers[0] = Value::Cell(0);
        heap.pointers[1] = Value::Cell(3);
        check_relink(&heap, (0, 1), Err(LEAK));
        // The other way round cell 3 comes before cell 1, and none is lost.
        check_relink(&heap, (1, 0), Ok(Value::Cell(1)));
        heap.pointers[2] = Value::Cell(1);
        check_relink(&heap, (0, 1), Ok(Value::Cell(2)));
        // Cell 2 by itself, then with what follows it.
        check_relink(&heap, (2, 1), Ok(Value::Cell(2)));
        heap.pointers[3] = Value::Cell(2);
        check_relink(&heap, (2, 3), Ok(Value::Cell(4)));
        check_relink(&heap, (3, 2), Err(LEAK));
        heap.pointers[4] = Value::Cell(4);
        check_relink(&heap, (3, 2), Ok(Value::Cell(2)));
        check_relink(&heap, (3, 4), Ok(Value::Null));
    }

    #[test]
    fn effects() {
        let mut heap = two_cells();
        let fresh = run(&mut heap, &statement(Op::New, 5, 0), 0, 7);
        assert_eq!(fresh, Outcome::Moved { branch: 0, next: 4 });
        assert_eq!(heap.pointers[5], Value::Cell(7));
        assert_eq!(heap.next(7), Value::Undefined);
        run(&mut heap, &statement(Op::StoreNext, 5, 5), 0, 0);
        assert_eq!(heap.next(7), Value::Cell(7));
        run(&mut heap, &statement(Op::Free, 5, 0), 0, 0);
        assert!(!heap.in_use(7));
        assert_eq!(heap.pointers[5], Value::Undefined);
        run(&mut heap, &statement(Op::Free, 1, 0), 0, 0);
        assert_eq!(heap.next(0), Value::Undefined);
        run(&mut heap, &statement(Op::LoadNext, 4, 0), 0, 0);
        assert_eq!(heap.pointers[4], Value::Undefined);
        run(&mut heap, &statement(Op::CutNext, 0, 0), 0, 0);
        assert_eq!(heap.next(0), Value::Null);
        let stop = run(&mut heap, &statement(Op::Stop, 0, 0), 0, 0);
        assert_eq!(stop, Outcome::Stop);
    }
}
