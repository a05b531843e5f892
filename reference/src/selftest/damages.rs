//! Damaged H records, in inputs and in unfolding: the refusals 9, 18 and 19
//! with the first node concerned, and what is told before and after them.

use super::counts::{ByNode, Counts};
use super::images::{due_refusal, want, Image};
use super::mutate::{break_layout, with};
use super::tables::want_refusal;
use crate::calls::unfold;
use crate::damage::{all_damages, damaged_shape, Damage, DAMAGES};
use crate::image::IMAGE_CELLS;
use crate::random::Random;
use crate::records::{node_count, pointer_byte, successor_byte, Record, NODES, NULL};
use crate::refusal::Refusal;
use crate::routines::Drawn;

/// What else is wrong beside a damage, and comes before it or after it. The
/// first four take turns in inputs and the next three in unfolding; the others
/// come up by themselves. In an input a damaged record is never equal to an
/// earlier one that passes, so 10 is seen at other records only.
pub const ORDERS: [&str; 11] = [
    "in inputs, 8 before it",
    "in inputs, 10 of the same record again after it",
    "in inputs, 10 of a later record after it",
    "in inputs, 10 of an earlier record before it",
    "in unfolding, 13 before it",
    "in unfolding, 8 before it",
    "in unfolding, 15 after it",
    "in inputs, 9 before a lower node not core",
    "in inputs, 18 before a lower node numbered otherwise",
    "in unfolding, 9 before a lower node not core",
    "in unfolding, 18 before a lower node numbered otherwise",
];

/// Tests damaged records in inputs and in unfolding. The damages take turns by
/// `number`, and so do the orders.
pub fn test(random: &mut Random, counts: &mut Counts, drawn: &Drawn, number: u64) -> Result<(), String> {
    let all = all_damages();
    let turn = number as usize;
    let damage = all[turn % all.len()];
    in_an_input(random, counts, drawn, damage)?;
    in_unfolding(random, counts, damage)?;
    let any = all[random.below(all.len())];
    order_in_an_input(random, counts, drawn, any, turn % 4)?;
    order_in_unfolding(random, counts, any, 4 + turn % 3)
}

fn count_node(by_node: &mut ByNode, due: Refusal) {
    for (count, (number, _)) in by_node.iter_mut().zip(DAMAGES) {
        count[usize::from(due.node.0)] += u64::from(number == due.number);
    }
}

fn in_an_input(random: &mut Random, counts: &mut Counts, drawn: &Drawn, damage: Damage) -> Result<(), String> {
    let (record, due) = damaged_shape(random, damage);
    let mut shapes = drawn.shapes.clone();
    let at = random.below(shapes.len());
    shapes[at] = record;
    let input = with(&drawn.statements, &shapes);
    let lengths = [random.below(3000), random.below(3000)];
    let place = drawn.statements.len() + at;
    want_refusal(random, counts, &input, lengths, Refusal { place, ..due })?;
    count_node(&mut counts.nodes_in_inputs, due);
    let [above_not_core, above_otherwise] = lower_defects(&record, due)?;
    counts.orders[7] += u64::from(above_not_core);
    counts.orders[8] += u64::from(above_otherwise);
    Ok(())
}

/// A sound shape stands first, and then what the order asks for.
fn order_in_an_input(
    random: &mut Random,
    counts: &mut Counts,
    drawn: &Drawn,
    damage: Damage,
    order: usize,
) -> Result<(), String> {
    let (record, due) = damaged_shape(random, damage);
    let mut broken = record;
    break_layout(random, &mut broken);
    let sound = drawn.shapes[0];
    let (shapes, due) = match order {
        0 => (vec![sound, broken], due_refusal(8)),
        1 => (vec![sound, record, record], due),
        2 => (vec![sound, record, sound], due),
        _ => (vec![sound, sound, record], due_refusal(10)),
    };
    let place = drawn.statements.len() + 1;
    let input = with(&drawn.statements, &shapes);
    let lengths = [random.below(3000), random.below(3000)];
    want_refusal(random, counts, &input, lengths, Refusal { place, ..due })?;
    counts.orders[order] += 1;
    Ok(())
}

/// Wants this refusal of an unfolding into a heap of these lengths, and the
/// heap unchanged.
fn want_unfolding(random: &mut Random, record: &[u8], counters: &[u32], lengths: [usize; 2], due: Refusal) -> Result<(), String> {
    let mut image = Image { pointers: vec![random.byte(); lengths[0]], cells: vec![random.byte(); lengths[1]] };
    let before = image.clone();
    let answer = unfold(record, counters, &mut image.pointers, &mut image.cells);
    want(answer == Err(due), &format!("{answer:?} where {due:?} is due of {record:02x?}"))?;
    want(image == before, "a refused unfolding writes something")
}

/// Counters that would fit the record if it were a shape.
fn fitting_counters(random: &mut Random, record: &Record) -> [u32; NODES] {
    let mut counters = [0; NODES];
    for counter in counters.iter_mut().take(node_count(record)) {
        *counter = random.between(1, IMAGE_CELLS / NODES) as u32;
    }
    counters
}

fn in_unfolding(random: &mut Random, counts: &mut Counts, damage: Damage) -> Result<(), String> {
    let (record, due) = damaged_shape(random, damage);
    let counters = fitting_counters(random, &record);
    want_unfolding(random, &record, &counters, [6, IMAGE_CELLS], due)?;
    counts.refused(due.number);
    count_node(&mut counts.nodes_in_unfolding, due);
    let [above_not_core, above_otherwise] = lower_defects(&record, due)?;
    counts.orders[9] += u64::from(above_not_core);
    counts.orders[10] += u64::from(above_otherwise);
    Ok(())
}

fn order_in_unfolding(random: &mut Random, counts: &mut Counts, damage: Damage, order: usize) -> Result<(), String> {
    let (mut record, mut due) = damaged_shape(random, damage);
    let mut counters = fitting_counters(random, &record);
    let mut lengths = [6, IMAGE_CELLS];
    match order {
        4 => {
            lengths = [[5, 0], [6, IMAGE_CELLS + 1]][random.below(2)];
            due = due_refusal(13);
        }
        5 => {
            break_layout(random, &mut record);
            due = due_refusal(8);
        }
        // Too few cells, or the counter of the first node 0.
        _ if random.chance(50) => lengths[1] = 0,
        _ => counters[0] = 0,
    }
    want_unfolding(random, &record, &counters, lengths, due)?;
    counts.refused(due.number);
    counts.orders[order] += 1;
    Ok(())
}

/// For 9, whether a lower node is not core, and for 18, whether the walk
/// numbers a lower node otherwise. Looks at the bytes alone, and wants the due
/// refusal to be what they show.
fn lower_defects(record: &Record, due: Refusal) -> Result<[bool; 2], String> {
    let visits = visits(record);
    let nodes = 0..record[3];
    let first = |wrong: &dyn Fn(u8) -> bool| nodes.clone().find(|&node| wrong(node));
    let lost = first(&|node| !visits.contains(&node));
    let not_core = first(&|node| !is_core(record, node));
    let otherwise = first(&|node| visits.iter().position(|&visit| visit == node) != Some(usize::from(node)));
    let shown = match (lost, not_core, otherwise) {
        (Some(node), _, _) => (9, node),
        (_, Some(node), _) => (18, node),
        (_, _, Some(node)) => (19, node),
        _ => (0, 0),
    };
    want(shown == (due.number, due.node.0), &format!("{record:02x?} is not damaged by {due:?}"))?;
    let lower = |node: Option<u8>| node.is_some_and(|node| node < due.node.0);
    Ok([due.number == 9 && lower(not_core), due.number == 18 && lower(otherwise)])
}

/// The nodes in the order in which the walk visits them first.
fn visits(record: &Record) -> Vec<u8> {
    let mut visits = Vec::new();
    for pointer in 0..6 {
        let mut at = pointer_byte(record, pointer);
        while at < NULL && !visits.contains(&at) {
            visits.push(at);
            at = successor_byte(record, usize::from(at));
        }
    }
    visits
}

fn is_core(record: &Record, node: u8) -> bool {
    let ends = (0..node_count(record)).filter(|&end| successor_byte(record, end) == node).count();
    ends >= 2 || (0..6).any(|pointer| pointer_byte(record, pointer) == node)
}
