//! Relinks, in listings, on heaps and in plain steps: the proved library against the second translator's answers, and both against
//! the sentences themselves. What came is counted, and too few fail.

use native::compare::listing;
use native::counts::Counts;
use native::draw::{image, reached, relinking_routine, Draw};
use native::edges::{described, enabled, leaving, target, updated, updates};
use reference::Stepped;

const UNDEFINED: u8 = 0xff;
const NULL: u8 = 0xfe;

/// What a relink meets, by the bytes that w and u hold: a fault, one node, or two.
#[derive(Clone, Copy, PartialEq)]
enum Meets {
    Fault(u8),
    One,
    Two { u: u8, w: u8 },
}

/// w is looked at first, then u.
fn meets(statement: &[u8], pointers: &[u8]) -> Meets {
    let [u, w] = [statement[2], statement[3]].map(|p| pointers[p as usize]);
    match (w, u) {
        (NULL, _) => Meets::Fault(1),
        (UNDEFINED, _) => Meets::Fault(2),
        (_, NULL) => Meets::Fault(1),
        (_, UNDEFINED) => Meets::Fault(2),
        _ if u == w => Meets::One,
        _ => Meets::Two { u, w },
    }
}

fn fault_name(statement: &[u8], pointers: &[u8]) -> &'static str {
    let [u, w] = [statement[2], statement[3]].map(|p| pointers[p as usize]);
    match (w, u) {
        (NULL, UNDEFINED) => "w null, u undefined",
        (UNDEFINED, NULL) => "w undefined, u null",
        (NULL, _) => "w null",
        (UNDEFINED, _) => "w undefined",
        (_, NULL) => "u null",
        _ => "u undefined",
    }
}

/// Byte 1, and bytes 6 and 7, of the edges of a relink, in order.
fn guards(meets: Meets) -> Vec<[u8; 3]> {
    let second = |test: u8, node: u8| 2 * test + 8 * node;
    match meets {
        Meets::Fault(_) | Meets::One => vec![[0, 0, 0]],
        Meets::Two { u, w } => vec![[second(1, w), 1, u], [second(2, w), 1, u], [0, 2, u]],
    }
}

/// The edges of a location with a relink: their number, order and guards; the fault, or the same shape, or a leak at the last.
fn judge(location: &[u8], statement: &[u8], leaving: &[&[u8]], locations: &[u8], counts: &mut Counts) {
    let meets = meets(statement, &location[4..10]);
    let found: Vec<[u8; 3]> = leaving.iter().map(|e| [e[1], e[6], e[7]]).collect();
    assert_eq!(found, guards(meets), "edges of {statement:x?} at {location:x?}");
    let target = |e: &[u8]| target(e, locations);
    match meets {
        Meets::Fault(fault) => {
            assert_eq!(target(leaving[0])[..3], [0x4c, location[1], fault], "{statement:x?} at {location:x?}");
            counts.add(fault_name(statement, &location[4..10]));
        }
        Meets::One => {
            let mut same = location.to_vec();
            same[1] = statement[4];
            assert_eq!(target(leaving[0]), same, "{statement:x?} at {location:x?}");
            let carried = |n: usize| if n < location[3] as usize { 0x1000 | 1u16 << n } else { 0 };
            let updates: Vec<u8> = (0..12).flat_map(|n| carried(n).to_le_bytes()).collect();
            assert_eq!(leaving[0][8..], updates, "{statement:x?} at {location:x?}");
            counts.add(if statement[2] == statement[3] { "one pointer twice" } else { "two pointers at one node" });
        }
        Meets::Two { u, w } => {
            assert_eq!(target(leaving[2])[..3], [0x4c, location[1], 3], "{statement:x?} at {location:x?}");
            let [next_u, next_w] = [u, w].map(|n| location[10 + n as usize]);
            counts.add(if next_u == next_w { "both successors equal" } else { "successors differ" });
            if next_u == w && next_w == u {
                counts.add("u and w on one ring");
            } else if next_u == w {
                counts.add("u before w");
            }
            if next_w == UNDEFINED {
                counts.add("w's successor undefined");
            }
        }
    }
}

/// One heap that the location describes: its step is what the one enabled edge says.
fn on_a_heap(d: &mut Draw, location: &[u8], statement: &[u8], leaving: &[&[u8]], locations: &[u8], counts: &mut Counts) {
    let (counters, mut pointers, mut cells) = described(d, location);
    let on: Vec<usize> = (0..leaving.len()).filter(|&i| enabled(leaving[i], &counters)).collect();
    assert_eq!(on.len(), 1, "enabled edges of {statement:x?} at {location:x?} with {counters:?}");
    let edge = leaving[on[0]];
    let target = target(edge, locations);
    let (refusal, answer) = native::step(&mut pointers, &mut cells, statement, 0, 0);
    assert_eq!((refusal.number, answer[0]), (0, target[2]), "{statement:x?} at {location:x?} with {counters:?}");
    if leaving.len() == 3 {
        let [goes, leaks] = [["1 goes", "1 leaks"], ["2 goes", "2 leaks"], ["3 goes", "3 leaks"]][on[0]];
        counts.add(if target[2] == 0 { goes } else { leaks });
    }
    if target[2] == 0 {
        let (_, record, sizes) = native::fold(&pointers, &cells);
        assert_eq!(record[3..], target[3..], "{statement:x?} at {location:x?} with {counters:?}");
        let due = updated(&updates(edge), &counters, target[3] as usize);
        assert_eq!(sizes, due, "{statement:x?} at {location:x?} with {counters:?}");
        if leaving.len() == 3 && target[3] < location[3] {
            counts.add("nodes merge");
        }
    }
}

const EVERY: [&str; 19] = [
    "w null",
    "w undefined",
    "u null",
    "u undefined",
    "w null, u undefined",
    "w undefined, u null",
    "one pointer twice",
    "two pointers at one node",
    "both successors equal",
    "successors differ",
    "u and w on one ring",
    "u before w",
    "w's successor undefined",
    "1 goes",
    "1 leaks",
    "2 goes",
    "2 leaks",
    "3 leaks",
    "nodes merge",
];

#[test]
fn listings_agree_where_a_routine_relinks() {
    let (mut d, mut inputs, mut counts) = (Draw::new(8), 0, Counts::default());
    for i in 0..40_000 {
        let input = relinking_routine(&mut d, i);
        let (l, e) = listing(&input);
        let mut met = false;
        for (number, location) in l.chunks(32).enumerate() {
            let statement = &input[32 * location[1] as usize..][..32];
            if location[2] != 0 || statement[1] != 12 {
                continue;
            }
            met = true;
            let leaving = leaving(&e, number);
            judge(location, statement, &leaving, &l, &mut counts);
            on_a_heap(&mut d, location, statement, &leaving, &l, &mut counts);
        }
        inputs += usize::from(met);
    }
    println!("inputs with a location of a relink: {inputs}");
    assert!(inputs >= 20_000, "only {inputs} inputs with a location of a relink");
    counts.at_least(100, &EVERY);
}

/// The relink on an image, by the sentence: w's next into u's cell.
fn relinked(meets: Meets, pointers: &[u8], cells: &[u8]) -> Option<Vec<u8>> {
    let mut after = cells.to_vec();
    match meets {
        Meets::Fault(_) => return None,
        Meets::One => {}
        Meets::Two { u, w } => after[u as usize] = cells[w as usize],
    }
    let reached = reached(pointers, &after);
    (0..cells.len()).all(|c| reached[c] || after[c] == 0xfd).then_some(after)
}

#[test]
fn steps_agree_where_a_statement_relinks() {
    let (mut d, mut counts) = (Draw::new(9), Counts::default());
    for _ in 0..50_000 {
        let (mut pointers, mut cells) = image(&mut d, 12);
        let mut statement = [0; 32];
        statement[..5].copy_from_slice(&[0x53, 12, d.below(6) as u8, d.below(6) as u8, d.below(64) as u8]);
        let (mut p, mut c) = (pointers.clone(), cells.clone());
        let before = (p.clone(), c.clone());
        // a relink reads neither pick nor cell
        let (pick, cell) = (d.number() as u8, d.number() as usize);
        let (refusal, answer) = native::step(&mut pointers, &mut cells, &statement, pick, cell);
        let theirs = reference::step(&mut p, &mut c, &statement, pick.into(), cell as u64);
        let meets = meets(&statement, &before.0);
        let after = relinked(meets, &before.0, &before.1);
        let (fault, name) = match (meets, &after) {
            (Meets::Fault(f), _) => (f, fault_name(&statement, &before.0)),
            (_, None) => (3, "leaks"),
            (Meets::One, _) => (0, "one cell"),
            _ => (0, "goes"),
        };
        counts.add(name);
        let moved = Stepped::Moved { branch: 0, next: statement[4] };
        let expected = if fault == 0 { (moved, [0, 0, 0, statement[4]]) } else { (Stepped::Fault(fault), [fault, 0, 0, 0]) };
        assert_eq!((theirs, refusal.number, answer), (expected.0, 0, expected.1), "{statement:x?} on {before:x?}");
        let left = (before.0.clone(), after.unwrap_or(before.1.clone()));
        assert_eq!((&(pointers, cells), &(p, c)), (&left, &left), "{statement:x?} on {before:x?}");
    }
    let faults = ["w null", "w undefined", "u null", "u undefined", "w null, u undefined", "w undefined, u null"];
    counts.at_least(250, &[&faults[..], &["leaks", "one cell", "goes"]].concat());
}
