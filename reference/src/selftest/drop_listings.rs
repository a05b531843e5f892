//! Routines that drop: their listings, and the edge of each location at a drop
//! against plain steps on heaps of its shape.

use super::counts::Counts;
use super::images::{want, Image};
use super::{exact, runs, tables};
use crate::automaton::{Automaton, Configuration};
use crate::calls::{step, unfold, Stepped};
use crate::image::IMAGE_CELLS;
use crate::input::{read_routine, Routine};
use crate::machine::LEAK;
use crate::random::Random;
use crate::records::{location, node_count, shape_of, Record, NODES, RECORD, STATEMENT, UNUSED};
use crate::statement::{Op, Statement};

/// How many heaps are stepped at each location.
const HEAPS: usize = 2;

/// Tests an input that passes all checks.
pub fn test(random: &mut Random, counts: &mut Counts, input: &[u8]) -> Result<(), String> {
    let routine = read_routine(input).map_err(|refusal| format!("a sound routine is refused: {refusal:?}"))?;
    let Some(full) = tables::translate_full(random, counts, input)? else {
        return Ok(());
    };
    let automaton = Automaton::read(&full.locations, full.answer.locations, &full.edges, full.answer.edges)?;
    exact::test(counts, &automaton, &routine)?;
    let at_drops = locations_at_drops(&automaton, &routine);
    counts.drops.inputs += u64::from(!at_drops.is_empty());
    counts.drops.locations += at_drops.len() as u64;
    for number in at_drops {
        for _ in 0..HEAPS {
            step_a_heap(random, counts, &automaton, &routine, number)?;
        }
    }
    runs::follow_the_routine(random, counts, &routine, &automaton)?;
    runs::follow_the_edges(random, counts, &routine, &automaton)
}

fn locations_at_drops(automaton: &Automaton, routine: &Routine) -> Vec<usize> {
    let is_drop = |number: &usize| {
        let record = &automaton.locations[*number];
        routine.statements[usize::from(record[1])].op == Op::Drop
    };
    (0..automaton.locations.len()).filter(is_drop).collect()
}

/// The record of a statement of this op that uses u and the first target.
fn record_of(op: u8, statement: &Statement) -> Record {
    let mut record = [0; RECORD];
    record[..3].copy_from_slice(&[STATEMENT, op, statement.u as u8]);
    record[4] = statement.first;
    record
}

fn random_counters(random: &mut Random, nodes: usize) -> [u32; NODES] {
    let longest = [1, 2, 5, IMAGE_CELLS / NODES][random.below(4)];
    let mut counters = [0; NODES];
    for counter in counters.iter_mut().take(nodes) {
        *counter = random.between(1, longest) as u32;
    }
    counters
}

/// Unfolds the shape of a location with any counters, drops, and wants the
/// target and its counters from folding.
fn step_a_heap(
    random: &mut Random,
    counts: &mut Counts,
    automaton: &Automaton,
    routine: &Routine,
    number: usize,
) -> Result<(), String> {
    let record = &automaton.locations[number];
    let statement = &routine.statements[usize::from(record[1])];
    let counters = random_counters(random, node_count(record));
    let sum = counters.iter().sum::<u32>() as usize;
    let mut image = Image { pointers: vec![0; 6], cells: vec![0; random.between(sum, IMAGE_CELLS)] };
    let unfolded = unfold(&shape_of(record), &counters, &mut image.pointers, &mut image.cells);
    want(unfolded.is_ok(), "a shape of a listing does not unfold")?;
    let before = image.clone();
    let stepped = step(&mut image.pointers, &mut image.cells, &record_of(13, statement), random.next(), random.next());
    want(stepped == Stepped::Moved { branch: 0, next: statement.first }, "a drop does not move")?;
    let folded = image.fold();
    let mut at = Configuration { location: number, counters: counters.map(u64::from) };
    let edge = automaton.leaving(number)[0];
    want(automaton.feed(&mut at, edge as u64), "the edge of a drop is not enabled")?;
    let target = &automaton.locations[at.location];
    want(*target == location(statement.first, &folded.record), "the target of a drop is another shape")?;
    want(at.counters == folded.counters.map(u64::from), "the updates of a drop give other counters")?;
    counts.drops.heaps += 1;
    beside_null(statement, before, &image)
}

/// In place of a drop, u := null does the same, or leaks if the drop lets
/// cells go.
fn beside_null(statement: &Statement, mut image: Image, dropped: &Image) -> Result<(), String> {
    let unused = |image: &Image| image.cells.iter().filter(|&&byte| byte == UNUSED).count();
    let lost = unused(&image) != unused(dropped);
    let stepped = step(&mut image.pointers, &mut image.cells, &record_of(1, statement), 0, 0);
    let fits = match stepped {
        Stepped::Fault(LEAK) => lost,
        Stepped::Moved { branch: 0, next } => !lost && next == statement.first && image == *dropped,
        _ => false,
    };
    want(fits, "u := null and a drop differ otherwise than by a leak")
}
