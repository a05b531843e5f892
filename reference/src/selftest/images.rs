//! Heap images: folding, unfolding and single steps.

use super::counts::Counts;
use super::describes::describes;
use super::drop_counts::count_ways;
use super::refusals::{any_bytes, lost_cell, named_wrongly, wrong_unfolding};
use super::{drops, relinks, undefined};
use crate::calls::{fold, step, unfold, Folded, Stepped};
use crate::heap::{Heap, Value};
use crate::image::{write_image, IMAGE_CELLS};
use crate::machine::{run, Outcome};
use crate::random::{random_heap, rename, Random};
use crate::records::{Record, STATEMENTS, UNDEFINED, UNUSED};
use crate::refusal::Refusal;
use crate::routines::{any_relink, random_statement};
use crate::statement::{read_statement, Op, OPS};

/// The bytes of a heap image.
#[derive(Clone, PartialEq, Eq, Debug)]
pub(super) struct Image {
    pub(super) pointers: Vec<u8>,
    pub(super) cells: Vec<u8>,
}

impl Image {
    pub(super) fn of(heap: &Heap, length: usize) -> Image {
        let mut image = Image { pointers: vec![0; 6], cells: vec![0; length] };
        write_image(heap, &mut image.pointers, &mut image.cells);
        image
    }

    pub(super) fn fold(&self) -> Folded {
        fold(&self.pointers, &self.cells)
    }
}

/// Tests one heap; the refusals take turns by `number`.
pub fn test(random: &mut Random, counts: &mut Counts, number: u64) -> Result<(), String> {
    let most = [4, 12, 40, IMAGE_CELLS][random.below(4)];
    let heap = random_heap(random, most);
    let length = random.between(heap.cells.len(), IMAGE_CELLS);
    let folded = round_trip(random, counts, &heap, length)?;
    let any = random_statement(random, 0, STATEMENTS, 6, &[1; OPS.len()]);
    single_step(random, counts, &heap, length, &any)?;
    let (with_undefined, comparison) = undefined_comparison(random, &heap);
    single_step(random, counts, &with_undefined, length, &comparison)?;
    let (with_two, relink) = any_relink(random, &heap);
    let room = length.max(with_two.cells.len());
    single_step(random, counts, &with_two, room, &relink)?;
    let refusal = 13 + (number % 3) as u8;
    match refusal {
        13 => named_wrongly(random, counts, &heap, length)?,
        14 => lost_cell(random, counts, &heap, length)?,
        _ => wrong_unfolding(random, counts, &folded)?,
    }
    any_bytes(random)
}

pub(super) fn want(fits: bool, what: &str) -> Result<(), String> {
    if fits {
        Ok(())
    } else {
        Err(what.to_string())
    }
}

/// What is due of a call on an image that is refused for no node: the place
/// is always 0.
pub(super) fn due_refusal(number: u8) -> Refusal {
    Refusal::at(number, 0)
}

fn round_trip(random: &mut Random, counts: &mut Counts, heap: &Heap, length: usize) -> Result<Folded, String> {
    let folded = Image::of(heap, length).fold();
    counts.heaps += 1;
    counts.nodes = counts.nodes.max(u64::from(folded.record[3]));
    want(folded.refusal.is_none(), "a sound heap is refused")?;
    let counters = folded.counters.map(u64::from);
    describes(&folded.record, &counters, heap)?;
    let renamed = rename(random, heap, length);
    want(Image::of(&renamed, length).fold() == folded, "a renamed heap folds to something else")?;
    let sum = counters.iter().sum::<u64>() as usize;
    let room = random.between(sum, IMAGE_CELLS);
    let mut image = Image { pointers: vec![random.byte(); 6], cells: vec![random.byte(); room] };
    let answer = unfold(&folded.record, &folded.counters, &mut image.pointers, &mut image.cells);
    want(answer.is_ok(), "what was folded does not unfold")?;
    want(image.fold() == folded, "what was unfolded folds to something else")?;
    let (used, rest) = image.cells.split_at(sum);
    want(!used.contains(&UNUSED) && rest.iter().all(|&byte| byte == UNUSED), "unfolding does not number the cells from 0")?;
    Ok(folded)
}

/// A test, and the heap with one or both of its pointers made undefined. Op 8
/// does not look at the second, which is pointer 0 there.
fn undefined_comparison(random: &mut Random, heap: &Heap) -> (Heap, Record) {
    let record = random_statement(random, 0, STATEMENTS, 6, &[0, 0, 0, 0, 0, 0, 0, 0, 1, 2, 0, 0, 0, 0]);
    let both = [usize::from(record[2]), usize::from(record[3])];
    let made_undefined = [&both[..1], &both[1..], &both[..]][random.below(3)];
    let mut changed = heap.clone();
    for &pointer in made_undefined {
        changed.pointers[pointer] = Value::Undefined;
    }
    changed.collect();
    (changed, record)
}

/// A single step on the image against the machine without a limit.
fn single_step(random: &mut Random, counts: &mut Counts, heap: &Heap, length: usize, record: &Record) -> Result<(), String> {
    let statement =
        read_statement(record, STATEMENTS).map_err(|refusal| format!("a sound statement is refused with {refusal}"))?;
    let pick = random.next() & 3;
    let cell = random.below(length + 2);
    let mut image = Image::of(heap, length);
    let before = image.clone();
    let stepped = step(&mut image.pointers, &mut image.cells, record, pick, cell as u64);
    let refused = match statement.op {
        Op::Choose => pick > 1,
        Op::New => cell >= length || before.cells[cell] != UNUSED,
        _ => false,
    };
    let mut after = heap.clone();
    let due = if refused {
        counts.refused(16);
        Stepped::Refused(due_refusal(16))
    } else {
        match run(&mut after, &statement, pick, cell) {
            Outcome::Stop => Stepped::Stop,
            Outcome::Fault(fault) => Stepped::Fault(fault),
            Outcome::Moved { branch, next } => Stepped::Moved { branch, next },
        }
    };
    want(stepped == due, "a step on an image differs")?;
    want(image == Image::of(&after, length), "a step leaves another image")?;
    let stays = !matches!(stepped, Stepped::Moved { .. });
    want(!stays || image == before, "a step that is none changes the image")?;
    let way = undefined::way(&statement, |pointer| before.pointers[pointer] == UNDEFINED);
    if let Some(way) = way {
        counts.undefined_stepped[way] += 1;
    }
    let fault = if let Stepped::Fault(fault) = stepped { fault } else { 0 };
    if let Some(way) = relinks::check_step(&statement, heap, &after, fault)? {
        counts.relinks_stepped[way] += 1;
    }
    let ways = drops::check_step(&statement, heap, &after, fault)?;
    count_ways(&mut counts.drops.stepped, &ways);
    undefined::check(&statement, way, fault)
}
