//! All small heap images: which are refused, that folding and unfolding give
//! an image of the same heap, and every statement on each of them, against a
//! machine written once more on the bytes themselves.

mod common;

use common::*;
use reference::{fold, step, unfold, Stepped};

type Cells = [u8; 3];

/// Every image with three pointers and three cells over the small values.
fn all_images() -> Vec<([u8; 6], Cells)> {
    let held = [0, 1, 2, NULL, UNDEF, UNUSED, 3];
    let mut images = Vec::new();
    let count = held.len();
    for number in 0..count.pow(6) {
        let value = |place: u32| held[number / count.pow(place) % count];
        // Past the names of cells, one wrong value in few places suffices.
        let wrong = |place: u32| matches!(value(place), UNUSED | 3);
        if (0..2).any(wrong) || (3..6).any(|place| value(place) == 3 && place != 4) {
            continue;
        }
        let first = [value(0), value(1), value(2)];
        images.push((pointers(&first), [value(3), value(4), value(5)]));
    }
    images
}

fn used(cells: &Cells, byte: u8) -> bool {
    byte < 3 && cells[usize::from(byte)] != UNUSED
}

/// The cells that some chain of holders joins to a pointer.
fn reached(held: &[u8; 6], cells: &Cells) -> [bool; 3] {
    let mut reached = [false; 3];
    for _ in 0..4 {
        for cell in 0..3 {
            let holds = |before: usize| reached[before] && cells[before] == cell as u8;
            if used(cells, cell as u8) && (held.contains(&(cell as u8)) || (0..3).any(holds)) {
                reached[cell] = true;
            }
        }
    }
    reached
}

fn due_refusal(held: &[u8; 6], cells: &Cells) -> u8 {
    let is_value = |&byte: &u8| byte == NULL || byte == UNDEF || used(cells, byte);
    if !held.iter().all(is_value) || !cells.iter().all(|byte| *byte == UNUSED || is_value(byte)) {
        return 13;
    }
    let reached = reached(held, cells);
    u8::from((0..3).any(|cell| cells[cell] != UNUSED && !reached[cell])) * 14
}

fn in_use(cells: &Cells) -> usize {
    cells.iter().filter(|&&byte| byte != UNUSED).count()
}

/// Walks both images from the pointers and pairs their cells off.
fn same_heap(one: (&[u8; 6], &Cells), other: (&[u8; 6], &Cells)) -> bool {
    let mut pairs: Vec<(u8, u8)> = one.0.iter().copied().zip(other.0.iter().copied()).collect();
    let mut at = 0;
    while at < pairs.len() {
        let (left, right) = pairs[at];
        at += 1;
        match (left < 3, right < 3) {
            (true, true) => {
                let next = (one.1[usize::from(left)], other.1[usize::from(right)]);
                if !pairs.contains(&next) {
                    pairs.push(next);
                }
            }
            (false, false) if left == right => {}
            _ => return false,
        }
    }
    // Each cell has one partner only.
    let alone = |pair: &(u8, u8)| {
        let clash = |two: &&(u8, u8)| two.0 < 3 && (two.0 == pair.0) != (two.1 == pair.1);
        !pairs.iter().any(|two| clash(&two))
    };
    pairs.iter().all(alone) && in_use(one.1) == in_use(other.1)
}

#[test]
fn refusals_and_round_trips() {
    let mut met = [0; 15];
    for (held, cells) in all_images() {
        let due = due_refusal(&held, &cells);
        let folded = fold(&held, &cells);
        let refusal = (due != 0).then(|| at_0(due));
        assert_eq!(folded.refusal, refusal, "{held:?} {cells:?}");
        met[usize::from(due)] += 1;
        if due == 0 {
            let (mut to_held, mut to_cells) = ([7; 6], [7; 3]);
            let answer = unfold(&folded.record, &folded.counters, &mut to_held, &mut to_cells);
            assert_eq!(answer, Ok(()), "{held:?} {cells:?}");
            let same = same_heap((&held, &cells), (&to_held, &to_cells));
            assert!(same, "{held:?} {cells:?} became {to_held:?} {to_cells:?}");
            assert_eq!(fold(&to_held, &to_cells), folded);
        }
    }
    assert!(met[0] > 1000 && met[13] > 1000 && met[14] > 1000, "{met:?}");
}

/// The statement on the bytes, without the leak: a fault, or whether the
/// first target is taken.
fn effect(held: &mut [u8; 6], cells: &mut Cells, fields: [u8; 3], pick: u64, cell: u8) -> Result<bool, u8> {
    let [op, u, w] = fields.map(usize::from);
    let through = |byte: u8| match byte {
        NULL => Err(1),
        UNDEF => Err(2),
        cell => Ok(usize::from(cell)),
    };
    match op {
        1 => held[u] = NULL,
        2 => held[u] = held[w],
        3 => held[u] = cells[through(held[w])?],
        4 => cells[through(held[u])?] = NULL,
        5 => cells[through(held[u])?] = held[w],
        12 => {
            let next = cells[through(held[w])?];
            cells[through(held[u])?] = next;
        }
        6 => {
            cells[usize::from(cell)] = UNDEF;
            held[u] = cell;
        }
        7 if held[u] != NULL => {
            let gone = through(held[u])? as u8;
            for byte in held.iter_mut().chain(cells.iter_mut()) {
                if *byte == gone {
                    *byte = UNDEF;
                }
            }
            cells[usize::from(gone)] = UNUSED;
        }
        13 => {
            held[u] = NULL;
            let reached = reached(held, cells);
            for (cell, byte) in cells.iter_mut().enumerate() {
                if !reached[cell] {
                    *byte = UNUSED;
                }
            }
        }
        8 if held[u] == UNDEF => return Err(2),
        8 => return Ok(held[u] == NULL),
        9 if held[u] == UNDEF || held[w] == UNDEF => return Err(2),
        9 => return Ok(held[u] == held[w]),
        10 => return Ok(pick == 0),
        _ => {}
    }
    Ok(true)
}

fn due_step(held: &mut [u8; 6], cells: &mut Cells, fields: [u8; 3], pick: u64, cell: u8) -> Stepped {
    match fields[0] {
        0 => return Stepped::Stop,
        6 if cell >= 3 || used(cells, cell) => return Stepped::Refused(at_0(16)),
        10 if pick > 1 => return Stepped::Refused(at_0(16)),
        _ => {}
    }
    let (before_held, before_cells) = (*held, *cells);
    let done = effect(held, cells, fields, pick, cell);
    let stepped = match done {
        Err(fault) => Stepped::Fault(fault),
        Ok(_) if due_refusal(held, cells) == 14 => Stepped::Fault(3),
        Ok(true) => Stepped::Moved { branch: 0, next: 41 },
        Ok(false) => Stepped::Moved { branch: 1, next: 42 },
    };
    if let Stepped::Fault(_) = stepped {
        (*held, *cells) = (before_held, before_cells);
    }
    stepped
}

/// Every statement over three pointers, with the fields that its op uses.
fn all_statements() -> Vec<Record> {
    let mut statements = vec![stop(), s(10, 0, 0, 41, 42), s(11, 0, 0, 41, 0)];
    for u in 0..3 {
        statements.extend([1, 4, 6, 7, 13].map(|op| s(op, u, 0, 41, 0)));
        statements.push(s(8, u, 0, 41, 42));
        for w in 0..3 {
            statements.extend([2, 3, 5, 12].map(|op| s(op, u, w, 41, 0)));
            statements.push(s(9, u, w, 41, 42));
        }
    }
    statements
}

#[test]
fn every_statement() {
    let statements = all_statements();
    let mut faults = [0; 4];
    let mut tests = [0; 2];
    let mut relinks = [0; 4];
    let mut collected = [0; 4];
    let sound = all_images().into_iter().filter(|(held, cells)| due_refusal(held, cells) == 0);
    for (number, (held, cells)) in sound.enumerate() {
        for statement in &statements {
            let (pick, cell) = (number as u64 % 3, (number / 3 % 4) as u8);
            let (mut due_held, mut due_cells) = (held, cells);
            let fields = [statement[1], statement[2], statement[3]];
            let due = due_step(&mut due_held, &mut due_cells, fields, pick, cell);
            let (mut to_held, mut to_cells) = (held, cells);
            let got = step(&mut to_held, &mut to_cells, statement, pick, cell.into());
            assert_eq!(got, due, "{statement:?} on {held:?} {cells:?}");
            assert_eq!((to_held, to_cells), (due_held, due_cells));
            let fault = if let Stepped::Fault(fault) = got { fault } else { 0 };
            faults[usize::from(fault)] += 1;
            match fields[0] {
                op @ (8 | 9) if fault != 0 => tests[usize::from(op - 8)] += 1,
                12 => relinks[usize::from(fault)] += 1,
                13 => collected[in_use(&cells) - in_use(&to_cells)] += 1,
                _ => {}
            }
        }
    }
    assert!(faults[1..].iter().all(|&count| count > 500), "{faults:?}");
    assert!(tests.iter().all(|&count| count > 500), "{tests:?}");
    assert!(relinks.iter().all(|&count| count > 100), "{relinks:?}");
    assert!(collected.iter().all(|&count| count > 40), "{collected:?}");
}
