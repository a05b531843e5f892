//! Drops on heap images, byte by byte.

use super::counts::Counts;
use super::drop_counts::count_ways;
use super::drops::ways;
use super::images::{want, Image};
use super::nodes::Dropped;
use crate::calls::{step, Folded, Stepped};
use crate::heap::Heap;
use crate::image::IMAGE_CELLS;
use crate::random::{composed_heap, lengthen, random_heap, rename, Random};
use crate::records::{NODES, NULL, RECORD, STATEMENT, UNDEFINED, UNUSED};
use crate::routines::any_drop;

/// Steps one random image of at most 240 cells.
pub fn test(random: &mut Random, counts: &mut Counts) -> Result<(), String> {
    let heap = any_heap(random);
    let mut record = any_drop(random, &heap);
    record[4] = random.below(64) as u8;
    let length = random.between(heap.cells.len(), IMAGE_CELLS);
    let before = Image::of(&rename(random, &heap, length), length);
    let u = usize::from(record[2]);
    let mut after = before.clone();
    let stepped = step(&mut after.pointers, &mut after.cells, &record, random.next(), random.next());
    want(stepped == Stepped::Moved { branch: 0, next: record[4] }, "a drop on an image does not move")?;
    want(after == due_image(&before, u), "a drop leaves another image")?;
    let [folded, folded_after] = [before.fold(), after.fold()];
    let collected = check_counts(counts, [&before, &after], [&folded, &folded_after])?;
    check_counters(&folded, &folded_after, u)?;
    count_ways(&mut counts.drops.stepped, &ways(&folded.record, u));
    match collected.first() {
        Some(&cell) => take_again(&after, u, cell),
        None => Ok(()),
    }
}

/// Short segments or long ones, at times with all the cells of an image.
fn any_heap(random: &mut Random) -> Heap {
    if random.chance(30) {
        let most = [12, 12, 40, IMAGE_CELLS][random.below(4)];
        return random_heap(random, most);
    }
    let longest = [1, 1, 2, 3, 20][random.below(5)];
    let mut heap = composed_heap(random, longest);
    if !heap.cells.is_empty() && random.chance(15) {
        let room = IMAGE_CELLS - heap.cells.len();
        let longer = if random.chance(30) { room } else { random.between(0, room) };
        lengthen(random, &mut heap, longer);
    }
    heap
}

/// The image that is due: u is null, a cell stays if a pointer holds it or a
/// cell that stays, and all others are marked as not in use.
fn due_image(before: &Image, u: usize) -> Image {
    let mut pointers = before.pointers.clone();
    pointers[u] = NULL;
    let mut cells = vec![UNUSED; before.cells.len()];
    let mut held = pointers.clone();
    while let Some(byte) = held.pop() {
        if byte == NULL || byte == UNDEFINED {
            continue;
        }
        let cell = usize::from(byte);
        if cells[cell] == UNUSED {
            cells[cell] = before.cells[cell];
            held.push(cells[cell]);
        }
    }
    Image { pointers, cells }
}

fn in_use(image: &Image) -> u64 {
    image.cells.iter().filter(|&&byte| byte != UNUSED).count() as u64
}

/// The cells that a drop collected. Those before it are these and those after
/// it, and the counters add up to the same.
fn check_counts(counts: &mut Counts, images: [&Image; 2], folded: [&Folded; 2]) -> Result<Vec<usize>, String> {
    let [before, after] = images;
    let went = |&cell: &usize| before.cells[cell] != UNUSED && after.cells[cell] == UNUSED;
    let collected: Vec<usize> = (0..before.cells.len()).filter(went).collect();
    let gone = collected.len() as u64;
    want(folded.iter().all(|folded| folded.refusal.is_none()), "a heap is refused before a drop or after it")?;
    let sum = |folded: &Folded| folded.counters.map(u64::from).iter().sum::<u64>();
    let [sum_before, sum_after] = folded.map(sum);
    want([sum_before, sum_after] == images.map(in_use), "the counters are not the cells in use")?;
    want(sum_before == sum_after + gone, "the cells before a drop are not those after it and those collected")?;
    counts.drops.images += 1;
    counts.drops.full_images += u64::from(sum_before == IMAGE_CELLS as u64);
    counts.drops.cells_before += sum_before;
    counts.drops.cells_after += sum_after;
    counts.drops.cells_collected += gone;
    Ok(collected)
}

/// Shape and counters afterwards, from those before it and the nodes alone.
fn check_counters(before: &Folded, after: &Folded, u: usize) -> Result<(), String> {
    let (shape, updates) = Dropped::of(&before.record, u).due();
    want(after.record == shape, "a drop leaves another shape")?;
    let carried = |update: u16| (0..NODES).filter(move |old| update >> old & 1 == 1);
    let counters = updates.map(|update| carried(update).map(|old| before.counters[old]).sum::<u32>());
    want(after.counters == counters, "a drop leaves other counters")
}

/// A cell that was collected is free for new, by the pointer that let it go.
fn take_again(after: &Image, u: usize, cell: usize) -> Result<(), String> {
    let mut image = after.clone();
    let mut record = [0; RECORD];
    record[..3].copy_from_slice(&[STATEMENT, 6, u as u8]);
    let stepped = step(&mut image.pointers, &mut image.cells, &record, 0, cell as u64);
    let mut due = after.clone();
    due.pointers[u] = cell as u8;
    due.cells[cell] = UNDEFINED;
    want(stepped == Stepped::Moved { branch: 0, next: 0 } && image == due, "a collected cell is not free for new")
}
