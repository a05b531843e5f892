//! Heap images: the refusals of folding, unfolding and single steps.

use super::counts::Counts;
use super::draws::draw_bytes;
use super::images::{due_refusal, want, Image};
use crate::calls::{step, unfold, Folded, Stepped};
use crate::damage::{all_damages, damaged_shape};
use crate::heap::{Heap, Value};
use crate::image::IMAGE_CELLS;
use crate::random::Random;
use crate::records::{NODES, NULL, RECORD, START, STATEMENT, UNUSED};
use crate::refusal::{Node, Refusal};

/// Wants the same refusal from fold and from step, and the image unchanged.
fn want_image_refusal(counts: &mut Counts, image: &Image, number: u8) -> Result<(), String> {
    let refusal = due_refusal(number);
    let folded = image.fold();
    let zero = Folded { refusal: Some(refusal), record: [0; RECORD], counters: [0; NODES] };
    want(folded == zero, "a refused fold gives something else")?;
    counts.refused(number);
    let mut after = image.clone();
    // The image is looked at before the statement, which is none here.
    let stepped = step(&mut after.pointers, &mut after.cells, &[], 9, 999);
    want(stepped == Stepped::Refused(refusal), "a step refuses otherwise")?;
    want(after == *image, "a refused step changes the image")
}

pub fn named_wrongly(random: &mut Random, counts: &mut Counts, heap: &Heap, length: usize) -> Result<(), String> {
    let mut image = Image::of(heap, length);
    match random.below(4) {
        0 => image.pointers.resize([0, 5, 7][random.below(3)], NULL),
        1 => image.cells.resize(random.between(241, 300), UNUSED),
        2 => image.pointers[random.below(6)] = random.between(length, 0xfd) as u8,
        _ => {
            // A cell that is not in use is named, be it past the end.
            let unused = image.cells.iter().position(|&byte| byte == UNUSED);
            image.pointers[random.below(6)] = unused.unwrap_or(length) as u8;
        }
    }
    want_image_refusal(counts, &image, 13)
}

pub fn lost_cell(random: &mut Random, counts: &mut Counts, heap: &Heap, length: usize) -> Result<(), String> {
    let mut lost = heap.clone();
    let cell = lost.lowest_unused();
    if cell >= length {
        return Ok(());
    }
    lost.bring(cell);
    if random.chance(50) {
        lost.cells[cell] = Some(Value::Cell(cell));
    }
    want_image_refusal(counts, &Image::of(&lost, length), 14)
}

/// Counters that do not go with what was folded, and how many cells are lent.
fn wrong_counters(random: &mut Random, folded: &Folded) -> (Vec<u32>, usize) {
    let nodes = usize::from(folded.record[3]);
    let mut counters = folded.counters.to_vec();
    let mut room = IMAGE_CELLS;
    match random.below(4) {
        0 if nodes > 0 => counters[random.below(nodes)] = 0,
        1 if nodes > 0 => {
            room = counters.iter().sum::<u32>() as usize - 1;
            // Sums that do not fit 32 bits are above the length as well.
            if random.chance(30) {
                counters[random.below(nodes)] = u32::MAX;
            }
        }
        2 => {
            // Not twelve, though each is right that is there.
            let other = random.below(2 * NODES);
            counters.resize(other + usize::from(other >= NODES), 0);
        }
        _ if nodes < NODES => counters[random.between(nodes, NODES - 1)] = 1,
        _ => counters[0] = 0,
    }
    (counters, room)
}

/// Wrong counters, and now and then something that is looked at before them.
pub fn wrong_unfolding(random: &mut Random, counts: &mut Counts, folded: &Folded) -> Result<(), String> {
    let (counters, room) = wrong_counters(random, folded);
    let mut record = folded.record.to_vec();
    let mut image = Image { pointers: vec![random.byte(); 6], cells: vec![random.byte(); room] };
    let mut due = due_refusal(15);
    if random.chance(25) {
        let all = all_damages();
        let damage = all[random.below(all.len())];
        let (damaged, refusal) = damaged_shape(random, damage);
        record = damaged.to_vec();
        due = refusal;
    }
    if random.chance(25) {
        match random.below(2) {
            0 => record.resize([0, 31, 33][random.below(3)], 0),
            _ => record[RECORD - 1] = 1,
        }
        due = due_refusal(8);
    }
    if random.chance(25) {
        match random.below(2) {
            0 => image.pointers.resize([0, 5, 7][random.below(3)], NULL),
            _ => image.cells.resize(random.between(241, 300), UNUSED),
        }
        due = due_refusal(13);
    }
    let before = image.clone();
    let answer = unfold(&record, &counters, &mut image.pointers, &mut image.cells);
    want(answer == Err(due), "a wrong unfolding is refused otherwise")?;
    want(image == before, "a refused unfolding writes something")?;
    counts.refused(due.number);
    Ok(())
}

/// Bytes and lengths of any kind: no call panics, and a refusal changes
/// nothing and has place 0, and a node only if it may tell one.
pub fn any_bytes(random: &mut Random) -> Result<(), String> {
    let pointers = draw_bytes(random, 6, 9);
    let most = if random.chance(50) { 5 } else { 300 };
    let length = random.below(most);
    let cells = draw_bytes(random, length, most);
    let mut record = draw_bytes(random, RECORD, 40);
    if let Some(first) = record.first_mut() {
        *first = [START, STATEMENT][random.below(2)];
    }
    let counters = vec![1; random.below(2 * NODES)];
    let at_0 = |refusal: Refusal| refusal.place == 0 && (refusal.node == Node(0) || refusal.tells_a_node());
    let before = Image { pointers, cells };
    let folded = before.fold();
    want(folded.refusal.map_or(folded.record[0] == START, at_0), "a fold tells nothing, or a place")?;
    let mut image = before.clone();
    let fits = match unfold(&record, &counters, &mut image.pointers, &mut image.cells) {
        Ok(()) => counters.len() == NODES,
        Err(refusal) => at_0(refusal) && image == before,
    };
    want(fits, "a refused unfolding writes, or has a place")?;
    let mut image = before.clone();
    let stepped = step(&mut image.pointers, &mut image.cells, &record, random.next(), random.next());
    let fits = match stepped {
        Stepped::Moved { .. } => true,
        Stepped::Refused(refusal) => at_0(refusal) && image == before,
        Stepped::Stop | Stepped::Fault(_) => image == before,
    };
    want(fits, "a step that is none writes, or has a place")
}
