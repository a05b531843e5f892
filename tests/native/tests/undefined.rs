//! Tests that look at an undefined pointer, in listings and in plain steps: the proved library against the second translator's answers,
//! and both against the sentence itself. What came is counted, and too few fail.

use native::compare::listing;
use native::draw::{image, testing_routine, Draw};
use native::edges::leaving;
use reference::Stepped;

const UNDEFINED: u8 = 0xff;
const NULL: u8 = 0xfe;

/// How a test meets an undefined pointer.
const WAYS: [&str; 5] = ["op 8", "op 9 on one pointer twice", "op 9 on two", "op 9, u alone", "op 9, w alone"];

/// The way, by the statement and the six pointers' bytes; none where it is no test or what it looks at is defined.
fn way(statement: &[u8], pointers: &[u8]) -> Option<usize> {
    let [u, w] = [statement[2], statement[3]].map(|p| pointers[p as usize] == UNDEFINED);
    match (statement[1], statement[2] == statement[3], u, w) {
        (8, _, true, _) => Some(0),
        (9, true, true, _) => Some(1),
        (9, false, true, true) => Some(2),
        (9, false, true, false) => Some(3),
        (9, false, false, true) => Some(4),
        _ => None,
    }
}

/// The branch of a test that looks at nothing undefined.
fn branch(statement: &[u8], pointers: &[u8]) -> u8 {
    let held = |p: u8| pointers[p as usize];
    let other = if statement[1] == 8 { NULL } else { held(statement[3]) };
    u8::from(held(statement[2]) != other)
}

/// The edge and the target that the location of a test is to have, but for the target's number.
fn expected(input: &[u8], location: &[u8]) -> ([u8; 32], Vec<u8>) {
    let at = location[1] as usize;
    let statement = &input[32 * at..][..32];
    let (mut edge, mut target) = ([0; 32], vec![0; 32]);
    edge[0] = 0x45;
    if way(statement, &location[4..10]).is_some() {
        target[..3].copy_from_slice(&[0x4c, location[1], 2]);
        return (edge, target);
    }
    edge[1] = branch(statement, &location[4..10]);
    for node in 0..location[3] as usize {
        edge[8 + 2 * node..][..2].copy_from_slice(&(0x1000 | 1u16 << node).to_le_bytes());
    }
    target.copy_from_slice(location);
    target[1] = statement[4 + edge[1] as usize];
    (edge, target)
}

/// Looks at the edges of every location of a test in a listing, and marks the ways that were met.
fn judge(input: &[u8], locations: &[u8], edges: &[u8], met: &mut [bool; 5]) -> usize {
    let mut tests = 0;
    for (number, location) in locations.chunks(32).enumerate() {
        let statement = &input[32 * location[1] as usize..][..32];
        if location[2] != 0 || !matches!(statement[1], 8 | 9) {
            continue;
        }
        tests += 1;
        let leaving = leaving(edges, number);
        let (mut edge, target) = expected(input, location);
        assert_eq!(leaving.len(), 1, "edges of location {number} of {input:x?}");
        edge[2..6].copy_from_slice(&leaving[0][2..6]);
        assert_eq!(leaving[0], edge, "edge of location {number} of {input:x?}");
        assert_eq!(native::edges::target(&edge, locations), target, "target of location {number} of {input:x?}");
        if let Some(way) = way(statement, &location[4..10]) {
            met[way] = true;
        }
    }
    tests
}

#[test]
fn listings_agree_where_a_test_looks_at_an_undefined_pointer() {
    let (mut d, mut inputs, mut ways, mut tests) = (Draw::new(6), 0, [0; 5], 0);
    for i in 0..20_000 {
        let input = testing_routine(&mut d, i);
        let (l, e) = listing(&input);
        let mut met = [false; 5];
        tests += judge(&input, &l, &e, &mut met);
        inputs += usize::from(met.contains(&true));
        ways.iter_mut().zip(met).for_each(|(n, met)| *n += usize::from(met));
    }
    println!("inputs in which a test meets an undefined pointer: {inputs}; {:?}; locations of tests: {tests}", pairs(ways));
    assert!(inputs >= 5_000, "only {inputs} inputs in which a test meets an undefined pointer");
    assert!(ways.iter().all(|&n| n >= 500), "too few of some: {:?}", pairs(ways));
}

fn pairs(counts: [usize; 5]) -> Vec<(&'static str, usize)> {
    WAYS.into_iter().zip(counts).collect()
}

#[test]
fn steps_agree_where_a_test_looks_at_an_undefined_pointer() {
    let (mut d, mut ways, mut goes) = (Draw::new(7), [0; 5], [0; 2]);
    for _ in 0..50_000 {
        let (mut pointers, mut cells) = image(&mut d, 12);
        let second = d.below(64) as u8;
        let mut statement = [0; 32];
        statement[..6].copy_from_slice(&[0x53, 8, d.below(6) as u8, 0, d.below(64) as u8, second]);
        if d.one_in(2) {
            statement[1] = 9;
            statement[3] = d.below(6) as u8;
        }
        let (mut p, mut c) = (pointers.clone(), cells.clone());
        let before = (p.clone(), c.clone());
        // a test reads neither pick nor cell
        let (pick, cell) = (d.number() as u8, d.number() as usize);
        let (refusal, answer) = native::step(&mut pointers, &mut cells, &statement, pick, cell);
        let theirs = reference::step(&mut p, &mut c, &statement, pick.into(), cell as u64);
        let way = way(&statement, &before.0);
        let branch = branch(&statement, &before.0);
        let expected = match way {
            Some(_) => (Stepped::Fault(2), [2, 0, 0, 0]),
            None => {
                let next = statement[4 + branch as usize];
                (Stepped::Moved { branch, next }, [0, 0, branch, next])
            }
        };
        assert_eq!((theirs, refusal.number, answer), (expected.0, 0, expected.1), "{statement:x?} on {before:x?}");
        assert_eq!((&(pointers, cells), &(p, c)), (&before, &before), "{statement:x?}");
        match way {
            Some(way) => ways[way] += 1,
            None => goes[branch as usize] += 1,
        }
    }
    println!("steps of tests: {:?}; by branch: {goes:?}", pairs(ways));
    assert!(ways.iter().chain(&goes).all(|&n| n >= 250), "too few of some: {:?}, {goes:?}", pairs(ways));
}
