//! Routines that compare a pointer to a freed cell, or to none yet: fault 2.

mod common;

use common::*;
use reference::{step, Stepped};

#[test]
fn a_cell_that_is_made_freed_and_compared() {
    // For new, free and then each test of p0; a longer list would leak.
    for test in [s(8, 0, 0, 3, 3), s(9, 0, 0, 3, 3), s(9, 0, 1, 3, 3), s(9, 1, 0, 3, 3)] {
        check_listing(
            &[s(6, 0, 0, 1, 0), s(7, 0, 0, 2, 0), test, stop(), h(NULLS, &[])],
            &[l(0, NULLS, &[]), l(1, pointers(&[0]), &[UNDEF]), l(2, pointers(&[UNDEF]), &[]), faulted(1, 3), faulted(2, 2)],
            &[e(0, 1, 0, 0, &[0x2000]), from(1, e(0, 2, 1, 0, &[])), from(1, e(0, 3, 2, 0, &[])), from(2, e(0, 4, 0, 0, &[]))],
        );
    }
}

#[test]
fn a_loop_that_compares_what_it_freed() {
    // While p0 is not null, free p0: the second look is the fault.
    let list = pointers(&[0]);
    check_listing(
        &[s(8, 0, 0, 2, 1), s(7, 0, 0, 0, 0), stop(), h(list, &[NULL])],
        &[l(0, list, &[NULL]), l(1, list, &[NULL]), l(0, pointers(&[UNDEF]), &[]), faulted(1, 3), faulted(0, 2)],
        &[e(1, 1, 0, 0, &[0x1001]), from(1, e(0, 2, 1, 0, &[])), from(1, e(0, 3, 2, 0, &[])), from(2, e(0, 4, 0, 0, &[]))],
    );
}

/// Steps from statement 0 until a step does not move. Answers it, its
/// statement and the heap, which that step has left as it was.
fn run_steps(routine: &[Record], held: &[u8], cells: &[u8]) -> (Stepped, usize, Vec<u8>, Vec<u8>) {
    let (mut held, mut cells) = (held.to_vec(), cells.to_vec());
    let mut at = 0;
    for _ in 0..100 {
        let before = (held.clone(), cells.clone());
        let unused = cells.iter().position(|&cell| cell == UNUSED).unwrap_or(cells.len());
        match step(&mut held, &mut cells, &routine[at], 0, unused as u64) {
            Stepped::Moved { next, .. } => at = usize::from(next),
            other => {
                assert_eq!((&held, &cells), (&before.0, &before.1));
                return (other, at, held, cells);
            }
        }
    }
    panic!("the routine does not end");
}

#[test]
fn freed_cells_step_by_step() {
    // p1 := p0, free p0, and a test of both, of one twice, or of one.
    for test in [s(9, 0, 1, 3, 3), s(9, 1, 1, 3, 3), s(8, 1, 0, 3, 3), s(9, 1, 4, 3, 3), s(9, 2, 1, 3, 3)] {
        let routine = [s(2, 1, 0, 1, 0), s(7, 0, 0, 2, 0), test, stop()];
        let ended = run_steps(&routine, &pointers(&[1, NULL, 0]), &[NULL, NULL]);
        let held = pointers(&[UNDEF, UNDEF, 0]).to_vec();
        assert_eq!(ended, (Stepped::Fault(2), 2, held, vec![NULL, UNUSED]), "{test:?}");
    }
    // What was not freed may be compared, and so may a pointer set again.
    for test in [s(9, 2, 4, 3, 4), s(8, 2, 0, 3, 4)] {
        let routine = [s(2, 1, 0, 1, 0), s(7, 0, 0, 2, 0), test, stop(), stop()];
        assert_eq!(run_steps(&routine, &pointers(&[1, NULL, 0]), &[NULL, NULL]).1, 4);
    }
    for set in [s(1, 0, 0, 2, 0), s(2, 0, 3, 2, 0), s(6, 0, 0, 2, 0)] {
        let routine = [s(7, 0, 0, 1, 0), set, s(8, 0, 0, 3, 3), stop()];
        assert_eq!(run_steps(&routine, &pointers(&[0]), &[NULL]).0, Stepped::Stop, "{set:?}");
    }
}

#[test]
fn an_undefined_next_is_met_once_it_is_read() {
    // p1 := p0.next where that cell was freed, and where the cell is new.
    let freed = [s(3, 1, 0, 1, 0), s(7, 1, 0, 2, 0), s(3, 2, 0, 3, 0), s(8, 2, 0, 4, 4), stop()];
    let ended = run_steps(&freed, &pointers(&[0]), &[1, NULL]);
    assert_eq!(ended, (Stepped::Fault(2), 3, pointers(&[0, UNDEF, UNDEF]).to_vec(), vec![UNDEF, UNUSED]));
    let made = [s(6, 0, 0, 1, 0), s(8, 0, 0, 4, 2), s(3, 1, 0, 3, 0), s(9, 1, 0, 4, 4), stop()];
    let ended = run_steps(&made, &NULLS, &[UNUSED]);
    assert_eq!(ended, (Stepped::Fault(2), 3, pointers(&[0, UNDEF]).to_vec(), vec![UNDEF]));
}
