//! Drops, in listings, on heaps and in plain steps: the proved library against the second translator's answers, and
//! both against the sentences themselves. What came is counted, and too few fail.

use native::compare::{listing, stepping, told, translation};
use native::counts::Counts;
use native::draw::{dropping_routine, reached, Draw, Image};
use native::dropped::{Dropped, WAYS};
use native::edges::{described, leaving, target, updated, updates};
use native::joined::{any_image, drop_of};
use native::Refusal;

const UNDEFINED: u8 = 0xff;
const NULL: u8 = 0xfe;
const UNUSED: u8 = 0xfd;

/// The edge of a location with a drop, sentence by sentence, and then as a whole.
fn judge(location: &[u8], statement: &[u8], leaving: &[&[u8]], locations: &[u8], counts: &mut Counts) {
    let say = format!("{statement:x?} at {location:x?}: {leaving:x?}");
    let dropped = Dropped::of(location, statement[2]);
    assert_eq!(leaving.len(), 1, "one edge of {say}");
    let edge = leaving[0];
    assert_eq!(edge[1], 0, "branch 0 and no second guard of {say}");
    assert_eq!(edge[6..8], [0, 0], "no guard of {say}");
    let target = target(edge, locations);
    assert_eq!(target[..3], [0x4c, statement[4], 0], "no fault, and the first target of {say}");
    assert_eq!(target[4 + statement[2] as usize], NULL, "u of {say}");
    let updates = updates(edge);
    for (node, update) in updates.iter().enumerate() {
        // the constant is the code less one
        assert_eq!(update >> 12, u16::from(node < target[3].into()), "constant {node} of {say}");
    }
    for old in 0..12 {
        let times = updates.iter().filter(|&update| update >> old & 1 == 1).count();
        let carried = dropped.stays.get(old).copied().unwrap_or(false);
        assert_eq!(times, usize::from(carried), "old counter {old} of {say}");
    }
    assert_eq!((&target[3..], &updates[..]), (&dropped.due().0[..], &dropped.due().1[..]), "due of {say}");
    dropped.ways().into_iter().for_each(|way| counts.add(way));
}

/// One heap that the location describes: its step is what the edge says.
fn on_a_heap(d: &mut Draw, location: &[u8], statement: &[u8], edge: &[u8], locations: &[u8]) {
    let (counters, pointers, cells) = described(d, location);
    let target = target(edge, locations);
    let (after, _) = drop_on(d, &(pointers, cells), statement);
    let (record, sizes) = folded(&after);
    assert_eq!(record[3..], target[3..], "{statement:x?} at {location:x?} with {counters:?}");
    let due = updated(&updates(edge), &counters, target[3] as usize);
    assert_eq!(sizes, due, "{statement:x?} at {location:x?} with {counters:?}");
}

#[test]
fn listings_agree_where_a_routine_drops() {
    let (mut d, mut inputs, mut locations, mut counts) = (Draw::new(12), 0, 0, Counts::default());
    for i in 0..27_000 {
        let input = dropping_routine(&mut d, i);
        let (l, e) = listing(&input);
        let mut met = 0;
        for (number, location) in l.chunks(32).enumerate() {
            let statement = &input[32 * location[1] as usize..][..32];
            // a location of a fault at a drop would be looked at too, and has no edge
            if statement[1] != 13 {
                continue;
            }
            met += 1;
            let leaving = leaving(&e, number);
            judge(location, statement, &leaving, &l, &mut counts);
            on_a_heap(&mut d, location, statement, leaving[0], &l);
        }
        inputs += usize::from(met > 0);
        locations += met;
    }
    println!("inputs with a location of a drop: {inputs}, such locations: {locations}");
    assert!(inputs >= 20_000, "only {inputs} inputs with a location of a drop");
    counts.at_least(500, &WAYS);
}

/// The drop of u by the sentence: u is null, and what no pointer reaches is not in use.
fn due_image(before: &Image, u: u8) -> Image {
    let (mut pointers, mut cells) = before.clone();
    pointers[u as usize] = NULL;
    let reached = reached(&pointers, &cells);
    (0..cells.len()).filter(|&cell| !reached[cell]).for_each(|cell| cells[cell] = UNUSED);
    (pointers, cells)
}

fn in_use(image: &Image) -> u32 {
    image.1.iter().filter(|&&cell| cell != UNUSED).count() as u32
}

/// The shape of an image and its counters, which count the cells in use.
fn folded(image: &Image) -> ([u8; 32], [u32; 12]) {
    let (refusal, shape, counters) = native::fold(&image.0, &image.1);
    assert_eq!((refusal, counters.iter().sum()), (told(None), in_use(image)), "fold of {image:x?}");
    (shape, counters)
}

/// One drop on an image, by both machines and by the sentence. Gives the image after it, and how many cells were
/// collected: those before it are these and those after it, and the counters add up likewise.
fn drop_on(d: &mut Draw, before: &Image, statement: &[u8]) -> (Image, u32) {
    // a drop reads neither pick nor cell
    let (pick, cell) = (d.number() as u8, d.number() as usize);
    let (answer, after) = stepping(&before.0, &before.1, statement, pick, cell);
    assert_eq!(answer, (told(None), [0, 0, 0, statement[4]]), "{statement:x?} on {before:x?}");
    assert_eq!(after, due_image(before, statement[2]), "{statement:x?} on {before:x?}");
    let collected = before.1.iter().zip(&after.1).filter(|&(was, is)| *was != UNUSED && *is == UNUSED).count() as u32;
    assert_eq!(in_use(before), in_use(&after) + collected, "{statement:x?} on {before:x?}");
    let [sum, sum_after] = [before, &after].map(|image| folded(image).1.iter().sum::<u32>());
    assert_eq!(sum, sum_after + collected, "{statement:x?} on {before:x?}");
    (after, collected)
}

/// The shape and the counters after a drop, from those before it and the nodes that stay.
fn fold_after(before: &Image, after: &Image, dropped: &Dropped) {
    let ((_, counters), (record, sizes)) = (folded(before), folded(after));
    let (shape, updates) = dropped.due();
    assert_eq!((&record[..3], &record[3..]), (&[0x48, 0, 0][..], &shape[..]), "{before:x?}, then {after:x?}");
    assert_eq!(sizes, updated(&updates, &counters, shape[0].into()), "{before:x?}, then {after:x?}");
}

const SIZES: [&str; 8] = [
    "one cell collected",
    "several cells collected",
    "100 cells collected or more",
    "no cells",
    "an odd number of cells",
    "240 cells, some not in use",
    "240 cells, all in use",
    "240 cells collected",
];

/// Which of the sizes came.
fn sizes(before: &Image, collected: u32) -> impl Iterator<Item = &'static str> {
    let (cells, used) = (before.1.len(), in_use(before));
    let all = cells == 240;
    let met = [
        collected == 1,
        collected > 1,
        collected >= 100,
        cells == 0,
        cells % 2 == 1,
        all && used < 240,
        all && used == 240,
        collected == 240,
    ];
    SIZES.into_iter().zip(met).filter(|(_, met)| *met).map(|(name, _)| name)
}

#[test]
fn steps_agree_where_a_statement_drops() {
    let (mut d, mut counts, mut cells) = (Draw::new(13), Counts::default(), 0);
    const ROUNDS: usize = 40_000;
    for i in 0..ROUNDS {
        let before = any_image(&mut d, i);
        let statement = drop_of(&mut d, &before.0);
        let dropped = Dropped::of(&folded(&before).0, statement[2]);
        let (after, collected) = drop_on(&mut d, &before, &statement);
        fold_after(&before, &after, &dropped);
        dropped.ways().into_iter().chain(sizes(&before, collected)).for_each(|name| counts.add(name));
        cells += collected;
    }
    println!("drop steps: {ROUNDS}, cells collected: {cells}");
    counts.at_least(300, &[&WAYS[..], &SIZES[..]].concat());
}

/// What a statement leaves before lost cells are looked for, or its fault, 1 or 2. The op is one of those below.
fn effect(statement: &[u8], before: &Image, cell: usize) -> Result<Image, u8> {
    let (mut after, [u, w]) = (before.clone(), [2, 3].map(|at: usize| usize::from(statement[at])));
    let through = |pointer: usize| match before.0[pointer] {
        NULL => Err(1),
        UNDEFINED => Err(2),
        cell => Ok(usize::from(cell)),
    };
    match statement[1] {
        1 => after.0[u] = NULL,
        2 => after.0[u] = before.0[w],
        3 => after.0[u] = before.1[through(w)?],
        4 => after.1[through(u)?] = NULL,
        5 => after.1[through(u)?] = before.0[w],
        6 => (after.0[u], after.1[cell]) = (cell as u8, UNDEFINED),
        7 if before.0[u] == NULL => {}
        7 => {
            let freed = through(u)?;
            let holders = after.0.iter_mut().chain(&mut after.1).filter(|value| usize::from(**value) == freed);
            holders.for_each(|value| *value = UNDEFINED);
            after.1[freed] = UNUSED;
        }
        _ => {
            let next = before.1[through(w)?];
            after.1[through(u)?] = next;
        }
    }
    Ok(after)
}

/// The statements that can lose a cell, and what is counted of them.
const LEAKS: [(u8, &str); 8] = [
    (1, "u := null"),
    (2, "u := w"),
    (3, "u := w.next"),
    (4, "u.next := null"),
    (5, "u.next := w"),
    (6, "u := new"),
    (7, "free u"),
    (12, "u.next := w.next"),
];

/// The fault, 0 for none, and the image afterwards.
fn due_step(statement: &[u8], before: &Image, cell: usize) -> (u8, Image) {
    match effect(statement, before, cell) {
        Err(fault) => (fault, before.clone()),
        Ok(after) => {
            let reached = reached(&after.0, &after.1);
            let lost = (0..after.1.len()).any(|cell| after.1[cell] != UNUSED && !reached[cell]);
            if lost {
                (3, before.clone())
            } else {
                (0, after)
            }
        }
    }
}

/// A statement of this op, which uses w or does not.
fn statement_of(d: &mut Draw, op: u8) -> [u8; 32] {
    let mut statement = [0; 32];
    statement[..5].copy_from_slice(&[0x53, op, d.below(6) as u8, 0, d.below(64) as u8]);
    if matches!(op, 2 | 3 | 5 | 12) {
        statement[3] = d.below(6) as u8;
    }
    statement
}

#[test]
fn other_statements_still_leak() {
    let (mut d, mut counts, mut leaks) = (Draw::new(14), Counts::default(), 0);
    for i in 0..40_000 {
        let before = any_image(&mut d, i / 8);
        let (op, name) = LEAKS[i % 8];
        let statement = statement_of(&mut d, op);
        let cell = before.1.iter().position(|&cell| cell == UNUSED);
        if op == 6 && cell.is_none() {
            continue;
        }
        let (fault, due) = due_step(&statement, &before, cell.unwrap_or(0));
        let (answer, after) = stepping(&before.0, &before.1, &statement, 0, cell.unwrap_or(0));
        let next = if fault == 0 { statement[4] } else { 0 };
        assert_eq!((answer, after), ((told(None), [fault, 0, 0, next]), due), "{statement:x?} on {before:x?}");
        if fault == 3 {
            counts.add(name);
            leaks += 1;
        }
    }
    println!("leaks of other statements: {leaks}");
    counts.at_least(500, &LEAKS.map(|(_, name)| name));
}

/// The refusal of a drop of pointer 5 to statement 1 with one byte changed, where targets are to be below this.
fn refusal_of(at: usize, value: u8, targets: u8) -> u8 {
    match (at, value) {
        (1, 13) | (2, ..=5) => 0,
        (1, _) => 5,
        (4, target) => 7 * u8::from(target >= targets),
        (_, value) => 6 * u8::from(value != 0),
    }
}

/// Every value of every byte of a drop's record but the first, and of its op every value from 13 on; in a translation
/// of two statements, and in a step.
#[test]
fn each_byte_of_a_drop() {
    let (pointers, cells) = ([0; 6], [0]);
    let shape = native::fold(&pointers, &cells).1;
    let bytes = (1..32).flat_map(|at| (0..=255).map(move |value| (at, value)));
    for (at, value) in bytes.filter(|&(at, value)| at > 1 || value >= 13) {
        let mut input = [[0; 32], [0; 32], shape];
        input[0][..5].copy_from_slice(&[0x53, 13, 5, 0, 1]);
        input[1][0] = 0x53;
        input[0][at] = value;
        let (refusal, ..) = translation(&input.concat(), [96, 64], 0x5a);
        assert_eq!(refusal, Refusal { number: refusal_of(at, value, 2), ..told(None) }, "byte {at} is {value:x}");
        let ((refusal, _), after) = stepping(&pointers, &cells, &input[0], 0, 0);
        assert_eq!(refusal, Refusal { number: refusal_of(at, value, 64), ..told(None) }, "byte {at} is {value:x}");
        let mut due = pointers;
        if refusal.number == 0 {
            due[usize::from(input[0][2])] = NULL;
        }
        assert_eq!(after, (due.to_vec(), cells.to_vec()), "byte {at} is {value:x}");
    }
}
