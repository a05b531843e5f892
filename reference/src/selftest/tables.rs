//! The lent tables: every byte of them, and too short ones.

use super::counts::Counts;
use crate::automaton::Automaton;
use crate::random::Random;
use crate::records::RECORD;
use crate::refusal::{Node, Refusal};
use crate::translate::{translate, Translated, EDGES, LOCATIONS};

/// Tables as they stand after a translation.
pub struct Full {
    pub answer: Translated,
    pub locations: Vec<u8>,
    pub edges: Vec<u8>,
}

/// Translates into tables of these lengths, filled with some byte before.
fn translate_into(random: &mut Random, input: &[u8], lengths: [usize; 2]) -> Full {
    let mut locations = vec![random.byte(); lengths[0]];
    let mut edges = vec![random.byte(); lengths[1]];
    let answer = translate(input, &mut locations, &mut edges);
    Full { answer, locations, edges }
}

/// Translates into tables of any lengths and wants this refusal, with every
/// byte zero.
pub fn want_refusal(
    random: &mut Random,
    counts: &mut Counts,
    input: &[u8],
    lengths: [usize; 2],
    due: Refusal,
) -> Result<(), String> {
    let full = translate_into(random, input, lengths);
    let wanted = Translated { refusal: due.number, place: due.place, node: due.node, locations: 0, edges: 0 };
    if full.answer != wanted {
        return Err(format!("{:?} where {wanted:?} is due", full.answer));
    }
    all_zero(&full)?;
    counts.refused(due.number);
    Ok(())
}

fn all_zero(full: &Full) -> Result<(), String> {
    let zero = |table: &[u8]| table.iter().all(|&byte| byte == 0);
    if zero(&full.locations) && zero(&full.edges) {
        Ok(())
    } else {
        Err("a refusal leaves bytes that are not zero".to_string())
    }
}

/// Translates into tables with all the places there may be, or more. `None`
/// when even these do not suffice.
pub fn translate_full(random: &mut Random, counts: &mut Counts, input: &[u8]) -> Result<Option<Full>, String> {
    let lengths = [LOCATIONS * RECORD + random.below(70), EDGES * RECORD + random.below(70)];
    let full = translate_into(random, input, lengths);
    match full.answer {
        Translated { refusal: 0, place: 0, node: Node(0), .. } => Ok(Some(full)),
        Translated { refusal: 11 | 12, node: Node(0), locations: 0, edges: 0, .. } => {
            all_zero(&full)?;
            counts.refused(full.answer.refusal);
            Ok(None)
        }
        answer => Err(format!("a sound routine gives {answer:?}")),
    }
}

/// Lends fewer places, or just enough: the refusal and its place follow from
/// the whole listing, and the records do not change.
pub fn test_short_tables(
    random: &mut Random,
    counts: &mut Counts,
    input: &[u8],
    full: &Full,
    shapes: usize,
    automaton: &Automaton,
) -> Result<(), String> {
    let location_places = random_places(random, full.answer.locations);
    let edge_places = random_places(random, full.answer.edges);
    let lengths = [location_places * RECORD + random.below(RECORD), edge_places * RECORD + random.below(RECORD)];
    if let Some(due) = due_refusal(automaton, shapes, location_places, edge_places) {
        return want_refusal(random, counts, input, lengths, due);
    }
    let short = translate_into(random, input, lengths);
    let alike =
        short.answer == full.answer && same_bytes(&short.locations, &full.locations) && same_bytes(&short.edges, &full.edges);
    if alike {
        Ok(())
    } else {
        Err("shorter tables give another listing".to_string())
    }
}

/// Often just enough, or one less.
fn random_places(random: &mut Random, needed: usize) -> usize {
    match random.below(4) {
        0 => random.between(0, needed + 1),
        1 => needed.saturating_sub(1),
        _ => needed,
    }
}

/// Both have the same bytes as far as both go, and zeros from there on.
fn same_bytes(one: &[u8], other: &[u8]) -> bool {
    let common = one.len().min(other.len());
    let rest_is_zero = |table: &[u8]| table[common..].iter().all(|&byte| byte == 0);
    one[..common] == other[..common] && rest_is_zero(one) && rest_is_zero(other)
}

/// The refusal that so few places bring about, by the listing itself.
fn due_refusal(automaton: &Automaton, shapes: usize, location_places: usize, edge_places: usize) -> Option<Refusal> {
    if location_places < shapes {
        return Some(Refusal::at(11, location_places));
    }
    for (number, edge) in automaton.edges.iter().enumerate() {
        if edge.to >= location_places {
            return Some(Refusal::at(11, edge.from));
        }
        if number >= edge_places {
            return Some(Refusal::at(12, edge.from));
        }
    }
    None
}
