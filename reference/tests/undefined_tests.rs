//! "A test that looks at an undefined pointer, in op 8 or 9, is fault 2, on
//! branch 0, even if both are the same": all pairings, through translate and
//! through step.

mod common;

use common::program::check;
use common::*;
use reference::{step, Stepped};

/// What a pointer holds: null, undefined, or the head of one of two lists.
#[derive(Clone, Copy, PartialEq, Eq, Debug)]
enum Held {
    Null,
    Undefined,
    One,
    Other,
}

use Held::{Null, One, Other, Undefined};

const ALL: [Held; 4] = [Null, Undefined, One, Other];

/// A test and all six pointers.
#[derive(Clone, Copy, Debug)]
struct Case {
    op: u8,
    u: u8,
    w: u8,
    held: [Held; 6],
}

/// What comes of a test.
#[derive(Clone, Copy, PartialEq, Eq, Debug)]
enum Due {
    Fault,
    First,
    Second,
}

/// Both tests on every pointer or pair of pointers, with everything that they
/// may hold, while all the others are null, undefined, or at a list.
fn all_cases() -> Vec<Case> {
    let mut cases = Vec::new();
    for others in [Null, Undefined, One] {
        for u in 0..6 {
            for first in ALL {
                let mut held = [others; 6];
                held[usize::from(u)] = first;
                cases.push(Case { op: 8, u, w: 0, held });
                cases.push(Case { op: 9, u, w: u, held });
                for w in (0..6).filter(|&w| w != u) {
                    for second in ALL {
                        let mut held = held;
                        held[usize::from(w)] = second;
                        cases.push(Case { op: 9, u, w, held });
                    }
                }
            }
        }
    }
    cases
}

impl Case {
    fn statement(&self) -> Record {
        s(self.op, self.u, self.w, 1, 2)
    }

    fn due(&self) -> Due {
        let first = self.held[usize::from(self.u)];
        let second = if self.op == 8 { Null } else { self.held[usize::from(self.w)] };
        match (first, second) {
            (Undefined, _) | (_, Undefined) => Due::Fault,
            _ if first == second => Due::First,
            _ => Due::Second,
        }
    }

    /// The pointers and successors of the shape. One list ends in null, the
    /// other in undefined; they are numbered as they are met.
    fn shape(&self) -> ([u8; 6], Vec<u8>) {
        let mut met: Vec<Held> = Vec::new();
        let bytes = self.held.map(|held| match held {
            Null => NULL,
            Undefined => UNDEF,
            list => {
                let known = met.iter().position(|&known| known == list).unwrap_or(met.len());
                if known == met.len() {
                    met.push(list);
                }
                known as u8
            }
        });
        (bytes, met.iter().map(|&list| if list == One { NULL } else { UNDEF }).collect())
    }

    /// A heap image of it: one list is the cells 3 and 1, the other is cell 0.
    fn image(&self) -> ([u8; 6], [u8; 4]) {
        let bytes = self.held.map(|held| match held {
            Null => NULL,
            Undefined => UNDEF,
            One => 3,
            Other => 0,
        });
        let mut cells = [UNUSED; 4];
        if self.held.contains(&One) {
            cells[3] = 1;
            cells[1] = NULL;
        }
        if self.held.contains(&Other) {
            cells[0] = UNDEF;
        }
        (bytes, cells)
    }
}

#[test]
fn how_many_cases_there_are() {
    let count = |op: u8, due: Due| all_cases().iter().filter(|case| case.op == op && case.due() == due).count();
    // Six pointers and three kinds of others, one of the four values undefined.
    assert_eq!([count(8, Due::Fault), count(8, Due::First), count(8, Due::Second)], [18, 18, 36]);
    // The same for one pointer twice; for thirty pairs, seven of the sixteen
    // have an undefined pointer and three are equal.
    assert_eq!(count(9, Due::Fault), 18 + 3 * 30 * 7);
    assert_eq!(count(9, Due::First), 54 + 3 * 30 * 3);
    assert_eq!(count(9, Due::Second), 3 * 30 * 6);
}

#[test]
fn every_pairing_through_translate() {
    for case in all_cases() {
        let (held, successors) = case.shape();
        let carried: Vec<u16> = (0..successors.len()).map(|node| 0x1000 | 1 << node).collect();
        let (target, edge) = match case.due() {
            Due::Fault => (faulted(0, 2), e(0, 1, 0, 0, &[])),
            Due::First => (l(1, held, &successors), e(0, 1, 0, 0, &carried)),
            Due::Second => (l(2, held, &successors), e(1, 1, 0, 0, &carried)),
        };
        check_listing(&[case.statement(), stop(), stop(), h(held, &successors)], &[l(0, held, &successors), target], &[edge]);
    }
}

#[test]
fn every_pairing_through_step() {
    for (number, case) in all_cases().into_iter().enumerate() {
        let (held, cells) = case.image();
        let (mut to_held, mut to_cells) = (held, cells);
        // Pick and cell are not read by a test.
        let (pick, cell) = (number as u64 % 4, number as u64 % 300);
        let got = step(&mut to_held, &mut to_cells, &case.statement(), pick, cell);
        // A fault tells neither a branch nor a next statement.
        let due = match case.due() {
            Due::Fault => Stepped::Fault(2),
            Due::First => Stepped::Moved { branch: 0, next: 1 },
            Due::Second => Stepped::Moved { branch: 1, next: 2 },
        };
        assert_eq!(got, due, "{case:?}");
        assert_eq!((to_held, to_cells), (held, cells), "{case:?}");
    }
}

#[test]
fn refusals_come_before_the_fault() {
    let refused = |held: [u8; 6], cells: &[u8], statement: Record, number: u8| {
        let (mut to_held, mut to_cells) = (held, cells.to_vec());
        let got = step(&mut to_held, &mut to_cells, &statement, 0, 0);
        assert_eq!(got, Stepped::Refused(at_0(number)));
        assert_eq!((to_held, &to_cells[..]), (held, cells));
    };
    let undefined = [UNDEF; 6];
    refused(undefined, &[7], s(8, 0, 0, 0, 0), 13);
    refused(undefined, &[UNDEF], s(8, 0, 0, 0, 0), 14);
    refused(undefined, &[], s(8, 0, 1, 0, 0), 6);
    refused(undefined, &[], s(9, 0, 6, 0, 0), 6);
    refused(undefined, &[], s(8, 0, 0, 64, 0), 7);
    refused(undefined, &[], s(9, 0, 0, 0, 64), 7);
}

#[test]
fn other_statements_on_undefined_pointers_are_as_before() {
    let held = pointers(&[UNDEF, UNDEF, 0]);
    let moved = Stepped::Moved { branch: 0, next: 9 };
    let cases = [
        (s(1, 0, 0, 9, 0), moved, pointers(&[NULL, UNDEF, 0]), [NULL, UNUSED]),
        (s(2, 3, 0, 9, 0), moved, pointers(&[UNDEF, UNDEF, 0, UNDEF]), [NULL, UNUSED]),
        (s(5, 2, 1, 9, 0), moved, held, [UNDEF, UNUSED]),
        (s(6, 0, 0, 9, 0), moved, pointers(&[1, UNDEF, 0]), [NULL, UNDEF]),
        (s(10, 0, 0, 9, 8), moved, held, [NULL, UNUSED]),
        (s(11, 0, 0, 9, 0), moved, held, [NULL, UNUSED]),
        (s(0, 0, 0, 0, 0), Stepped::Stop, held, [NULL, UNUSED]),
        (s(3, 0, 1, 9, 0), Stepped::Fault(2), held, [NULL, UNUSED]),
        (s(7, 1, 0, 9, 0), Stepped::Fault(2), held, [NULL, UNUSED]),
    ];
    for (statement, due, held_after, cells_after) in cases {
        let (mut to_held, mut to_cells) = (held, [NULL, UNUSED]);
        assert_eq!(step(&mut to_held, &mut to_cells, &statement, 0, 1), due, "{statement:?}");
        assert_eq!((to_held, to_cells), (held_after, cells_after), "{statement:?}");
    }
}

#[test]
fn nodes_of_the_shape_do_not_show_at_the_fault() {
    // Two lists into a ring, and the last pointer undefined.
    let held = [0, 2, NULL, NULL, NULL, UNDEF];
    let shape = h(held, &[1, 1, 1]);
    for test in [s(8, 5, 0, 1, 1), s(9, 5, 5, 1, 1), s(9, 0, 5, 1, 1), s(9, 5, 1, 1, 1), s(9, 5, 3, 1, 1)] {
        check_listing(&[test, stop(), shape], &[l(0, held, &[1, 1, 1]), faulted(0, 2)], &[e(0, 1, 0, 0, &[])]);
    }
}

#[test]
fn a_statement_has_one_location_for_its_fault() {
    // Two starting shapes that fault at statement 0 share it, and the test
    // may have itself as both targets.
    let (one, both) = (pointers(&[UNDEF]), pointers(&[UNDEF, UNDEF]));
    check_listing(
        &[s(9, 0, 1, 0, 0), h(one, &[]), h(both, &[])],
        &[l(0, one, &[]), l(0, both, &[]), faulted(0, 2)],
        &[e(0, 2, 0, 0, &[]), from(1, e(0, 2, 0, 0, &[]))],
    );
    // Other statements have others.
    check_listing(
        &[s(10, 0, 0, 1, 2), s(8, 0, 0, 0, 0), s(9, 0, 0, 0, 0), h(one, &[])],
        &[l(0, one, &[]), l(1, one, &[]), l(2, one, &[]), faulted(1, 2), faulted(2, 2)],
        &[e(0, 1, 0, 0, &[]), e(1, 2, 0, 0, &[]), from(1, e(0, 3, 0, 0, &[])), from(2, e(0, 4, 0, 0, &[]))],
    );
}

#[test]
fn places_for_the_fault() {
    let p11 = input(&[s(9, 0, 1, 1, 2), stop(), stop(), h(pointers(&[UNDEF, UNDEF]), &[])]);
    let got = into_tables(&p11, 64, 32);
    assert_eq!((got.answer.refusal, got.answer.locations, got.answer.edges), (0, 2, 1));
    check_refused(&into_tables(&p11, 63, 32), 11, 0);
    check_refused(&into_tables(&p11, 64, 31), 12, 0);
    check_refused(&into_tables(&p11, 63, 31), 11, 0);
}

#[test]
fn p11_in_the_program() {
    let p11 = input(&[s(9, 0, 1, 1, 2), stop(), stop(), h(pointers(&[UNDEF, UNDEF]), &[])]);
    let zeros = |count| "0".repeat(count);
    let lines =
        [format!("4c000000fffffefefefe{}\n", zeros(44)), format!("4c0002{}\n", zeros(58)), format!("4500000001{}\n", zeros(54))];
    check(&["translate"], &p11, 0, &lines.concat());
}
