//! Folds and steps compared and timed: by the proved library, by the second translator and, where they were linked, in C.

use super::ratios::Ratio;
use super::turns::{in_turns, shown, By, Times};
use native::draw::{damaged_image, statement, Draw, Image};
use native::joined::{any_image, drop_of};
use std::hint::black_box;

const BAR: f64 = 1.5;

type Folded = (u8, [u8; 32], [u32; 12]);
type Stepped = (u8, [u8; 4]);

/// The fold in C, where it was linked: the refusal's number, the shape and its counters.
#[cfg(peer)]
fn peer_fold(pointers: &[u8], cells: &[u8]) -> Option<Folded> {
    extern "C" {
        fn peer_fold(p: *const u8, p_len: usize, c: *const u8, c_len: usize, record: *mut u8, counters: *mut u32) -> i32;
    }
    let (mut record, mut counters) = ([0xaa; 32], [0xaaaa_aaaa; 12]);
    let refusal = unsafe {
        peer_fold(pointers.as_ptr(), pointers.len(), cells.as_ptr(), cells.len(), record.as_mut_ptr(), counters.as_mut_ptr())
    };
    Some((refusal as u8, record, counters))
}

#[cfg(not(peer))]
fn peer_fold(_: &[u8], _: &[u8]) -> Option<Folded> {
    None
}

/// The step in C, where it was linked: the refusal's number, then fault, stop, branch and next statement.
#[cfg(peer)]
fn peer_step(pointers: &mut [u8], cells: &mut [u8], statement: &[u8], pick: u8, cell: usize) -> Option<Stepped> {
    extern "C" {
        fn peer_step(
            pointers: *mut u8,
            pointers_len: usize,
            cells: *mut u8,
            cells_len: usize,
            statement: *const u8,
            statement_len: usize,
            pick: u8,
            cell: usize,
            answer: *mut u8,
        ) -> i32;
    }
    let mut answer = [0xaa; 4];
    let refusal = unsafe {
        peer_step(
            pointers.as_mut_ptr(),
            pointers.len(),
            cells.as_mut_ptr(),
            cells.len(),
            statement.as_ptr(),
            statement.len(),
            pick,
            cell,
            answer.as_mut_ptr(),
        )
    };
    Some((refusal as u8, answer))
}

#[cfg(not(peer))]
fn peer_step(_: &mut [u8], _: &mut [u8], _: &[u8], _: u8, _: usize) -> Option<Stepped> {
    None
}

/// One fold by the proved library and in C: number, shape and counters. Gives the number, none where there is no C.
fn agree_on_fold((pointers, cells): &Image) -> Option<u8> {
    let theirs = peer_fold(pointers, cells)?;
    let (refusal, shape, counters) = native::fold(pointers, cells);
    assert_eq!((refusal.number, shape, counters), theirs, "the fold in C of {pointers:x?} {cells:x?}");
    Some(theirs.0)
}

/// One step by both: number, answer and every byte of the heap.
fn agree_on_step((pointers, cells): &Image, statement: &[u8], pick: u8, cell: usize) -> Option<u8> {
    let (mut p, mut c) = (pointers.clone(), cells.clone());
    let theirs = peer_step(&mut p, &mut c, statement, pick, cell)?;
    let (mut q, mut e) = (pointers.clone(), cells.clone());
    let (refusal, answer) = native::step(&mut q, &mut e, statement, pick, cell);
    let say = || format!("the step in C of {statement:x?} with {pick} and {cell} on {pointers:x?} {cells:x?}");
    assert_eq!(((refusal.number, answer), q, e), (theirs, p, c), "{}", say());
    Some(theirs.0)
}

/// Lists and rings that meet, of every size; and one of two drawn otherwise, and now and then damaged.
fn drawn_image(d: &mut Draw, i: usize) -> Image {
    match i % 2 {
        0 => damaged_image(d, [3, 8, 16, 60, 240][i / 2 % 5]),
        _ => any_image(d, i / 2),
    }
}

/// Any statement, now and then damaged, or a drop; with a pick and a cell that are often good.
fn drawn_step(d: &mut Draw, (pointers, cells): &Image) -> (Vec<u8>, u8, usize) {
    let drop = pointers.len() == 6 && d.one_in(5);
    let record = if drop { drop_of(d, pointers).to_vec() } else { statement(d) };
    let pick = if d.one_in(5) { d.number() as u8 } else { d.below(2) as u8 };
    let unused = cells.iter().position(|&next| next == 0xfd).filter(|_| d.one_in(2));
    let any = if d.one_in(20) { usize::MAX - d.below(2) } else { d.below(cells.len() + 2) };
    (record, pick, unused.unwrap_or(any))
}

/// Drawn images, good and damaged, folded and stepped by the proved library and in C.
pub fn agreement() {
    let (mut d, mut folds, mut steps) = (Draw::new(2), [0; 20], [0; 20]);
    for i in 0..20_000 {
        let image = drawn_image(&mut d, i);
        let Some(refusal) = agree_on_fold(&image) else { return };
        folds[usize::from(refusal)] += 1;
        let (record, pick, cell) = drawn_step(&mut d, &image);
        steps[usize::from(agree_on_step(&image, &record, pick, cell).expect("it was linked"))] += 1;
    }
    println!("the same as in C: refusal, shape and counters of drawn folds, by refusal {folds:?}");
    println!("the same as in C: refusal, answer and heap of drawn steps, by refusal {steps:?}");
}

/// An image that is folded, or stepped by a statement: a step begins from a copy of it.
struct Work {
    image: Image,
    copy: Image,
    record: [u8; 32],
}

impl Work {
    fn new(pointers: &[u8], cells: &[u8], statement: [u8; 4]) -> Work {
        let mut record = [0; 32];
        record[..4].copy_from_slice(&statement);
        let image = (pointers.to_vec(), cells.to_vec());
        Work { copy: image.clone(), image, record }
    }

    /// The image as it was at first.
    fn begin(&mut self) -> (&mut [u8], &mut [u8], &[u8]) {
        self.copy.0.copy_from_slice(&self.image.0);
        self.copy.1.copy_from_slice(&self.image.1);
        (black_box(&mut self.copy.0), black_box(&mut self.copy.1), &self.record)
    }
}

fn fold_times(pointers: &[u8], cells: &[u8]) -> Times {
    let by = By {
        proved: |w: &mut Work| {
            black_box(native::fold(black_box(&w.image.0), black_box(&w.image.1)));
        },
        second: |w: &mut Work| {
            black_box(reference::fold(black_box(&w.image.0), black_box(&w.image.1)));
        },
        c: |w: &mut Work| {
            black_box(peer_fold(black_box(&w.image.0), black_box(&w.image.1)));
        },
    };
    in_turns(&mut Work::new(pointers, cells, [0; 4]), by)
}

fn step_times(pointers: &[u8], cells: &[u8], statement: [u8; 4]) -> Times {
    let by = By {
        proved: |w: &mut Work| {
            let (p, c, record) = w.begin();
            black_box(native::step(p, c, record, 0, 0));
        },
        second: |w: &mut Work| {
            let (p, c, record) = w.begin();
            black_box(reference::step(p, c, record, 0, 0));
        },
        c: |w: &mut Work| {
            let (p, c, record) = w.begin();
            black_box(peer_step(p, c, record, 0, 0));
        },
    };
    in_turns(&mut Work::new(pointers, cells, statement), by)
}

/// Prints a row. Gives the ratio to C, none where it was not linked.
fn row(what: &str, t: Times) -> Option<Ratio> {
    let [proved, second, c] = [Some(t.proved), Some(t.second), t.c].map(|time| shown(time, 0, " ns"));
    println!("{what:<36} {proved:>9} {second:>9} {c:>9} {:>13.1} {:>9}", t.second / t.proved, shown(t.ratio(), 2, ""));
    t.ratio().map(|ratio| Ratio { name: what.into(), ratio, bar: BAR })
}

/// The table, and the ratios to C.
pub fn images() -> Vec<Ratio> {
    println!("\n{:<36} {:>9} {:>9} {:>9} {:>13} {:>9}", "images", "proved", "second", "C", "second/proved", "proved/C");
    // one list of 240 cells, and six lists of 40
    let list: Vec<u8> = (0..240).map(|i| if i == 239 { 0xfe } else { i as u8 + 1 }).collect();
    let six: Vec<u8> = (0..240).map(|i| if i % 40 == 39 { 0xfe } else { i as u8 + 1 }).collect();
    let one = [0, 0xfe, 0xfe, 0xfe, 0xfe, 0xfe];
    let heads = [0, 40, 80, 120, 160, 200];
    let rows = [
        row("fold, a list of 240 cells", fold_times(&one, &list)),
        row("fold, six lists of 40 cells", fold_times(&heads, &six)),
        row("step, p1 := p0.next on 240 cells", step_times(&one, &list, [0x53, 3, 1, 0])),
        row("step, test p0 = p1 on 240 cells", step_times(&one, &list, [0x53, 9, 0, 1])),
        row("step, drop p0 of 240 cells", step_times(&one, &list, [0x53, 13, 0, 0])),
    ];
    rows.into_iter().flatten().collect()
}
