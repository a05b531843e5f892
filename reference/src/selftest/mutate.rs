//! Sound inputs made unsound in a known way, for the refusals 1 to 10, 18 and
//! 19, and inputs with any bytes.

use super::counts::Counts;
use super::tables::want_refusal;
use crate::damage::{all_damages, damaged_shape, Damage};
use crate::random::Random;
use crate::records::{Record, NODES, RECORD, SHAPES, START, STATEMENT, STATEMENTS, UNUSED};
use crate::refusal::{Node, Refusal};
use crate::routines::Drawn;
use crate::statement::{Op, OPS};
use crate::translate::translate;

/// An input with the refusal that is due.
pub type Due = (Vec<u8>, Refusal);

/// The refusals of an input, whatever the tables are.
pub const CHECKS: [u8; 12] = [1, 2, 3, 4, 5, 6, 7, 8, 9, 10, 18, 19];

/// Tests one change of an input; all changes take turns by `number`.
pub fn test(random: &mut Random, counts: &mut Counts, drawn: &Drawn, number: u64) -> Result<(), String> {
    let (input, due) = change(random, drawn, CHECKS[number as usize % CHECKS.len()]);
    let lengths = [random.below(3000), random.below(3000)];
    want_refusal(random, counts, &input, lengths, due)?;
    any_bytes(random, drawn)
}

/// An input of this one of the refusals.
pub fn change(random: &mut Random, drawn: &Drawn, refusal: u8) -> Due {
    match refusal {
        1 => length(random, drawn),
        2 => statement_count(random, drawn),
        3 => shape_count(random, drawn),
        4 => kind(random, drawn),
        5..=7 => statement(random, drawn, refusal),
        8 => layout(random, drawn),
        9 | 18 | 19 => no_shape(random, drawn, refusal),
        _ => repeated(random, drawn),
    }
}

pub fn with(statements: &[Record], shapes: &[Record]) -> Vec<u8> {
    [statements.concat(), shapes.concat()].concat()
}

fn length(random: &mut Random, drawn: &Drawn) -> Due {
    let mut input = drawn.input();
    if random.chance(10) {
        input.clear();
    } else {
        let records = random.below(input.len() / RECORD);
        input.truncate(records * RECORD + random.between(1, RECORD - 1));
    }
    (input, Refusal::at(1, 0))
}

fn statement_count(random: &mut Random, drawn: &Drawn) -> Due {
    let mut statements = Vec::new();
    if random.chance(70) {
        statements = drawn.statements.clone();
        statements.resize(STATEMENTS + random.between(1, 3), drawn.statements[0]);
    }
    (with(&statements, &drawn.shapes), Refusal::at(2, 0))
}

fn shape_count(random: &mut Random, drawn: &Drawn) -> Due {
    let mut shapes = Vec::new();
    if random.chance(70) {
        shapes = drawn.shapes.clone();
        shapes.resize(SHAPES + random.between(1, 3), drawn.shapes[0]);
    }
    (with(&drawn.statements, &shapes), Refusal::at(3, 0))
}

fn kind(random: &mut Random, drawn: &Drawn) -> Due {
    let mut input = drawn.input();
    let records = input.len() / RECORD;
    let place = random.below(records + 1);
    if place == records {
        input.extend(drawn.statements[0]);
    } else {
        let byte = random.byte();
        let other = if byte == STATEMENT || byte == START { 0x4c } else { byte };
        input[place * RECORD] = other;
    }
    (input, Refusal::at(4, place))
}

fn statement(random: &mut Random, drawn: &Drawn, refusal: u8) -> Due {
    let mut statements = drawn.statements.clone();
    let place = random.below(statements.len());
    let count = statements.len();
    let record = &mut statements[place];
    let op = OPS[usize::from(record[1])];
    match refusal {
        5 => record[1] = random.between(14, 255) as u8,
        6 if op.uses_u() && random.chance(50) => {
            let field = if op.uses_w() { 2 + random.below(2) } else { 2 };
            record[field] = random.between(6, 255) as u8;
        }
        6 => {
            let unused: Vec<usize> = (0..4).filter(|&field| !op.used_fields()[field]).collect();
            let field = match unused[..] {
                [] => random.between(6, RECORD - 1),
                _ if random.chance(50) => random.between(6, RECORD - 1),
                _ => 2 + unused[random.below(unused.len())],
            };
            record[field] = random.between(1, 255) as u8;
        }
        _ => {
            if op == Op::Stop {
                // A stop has no target; a skip has one.
                record[1] = 11;
            }
            let field = if op.uses_second() { 4 + random.below(2) } else { 4 };
            record[field] = random.between(count, 255) as u8;
        }
    }
    (with(&statements, &drawn.shapes), Refusal::at(refusal, place))
}

fn layout(random: &mut Random, drawn: &Drawn) -> Due {
    let mut shapes = drawn.shapes.clone();
    let place = random.below(shapes.len());
    break_layout(random, &mut shapes[place]);
    let input = with(&drawn.statements, &shapes);
    (input, Refusal::at(8, drawn.statements.len() + place))
}

/// Makes a record break the layout, which it kept.
pub fn break_layout(random: &mut Random, record: &mut Record) {
    let nodes = usize::from(record[3]);
    let no_value = random.between(nodes, usize::from(UNUSED)) as u8;
    match random.below(6) {
        0 => record[1] = random.between(1, 255) as u8,
        1 => record[2] = random.between(1, 255) as u8,
        2 => record[3] = random.between(NODES + 1, 255) as u8,
        3 => record[4 + random.below(6)] = no_value,
        4 if nodes > 0 => record[10 + random.below(nodes)] = no_value,
        _ => record[random.between(10 + nodes, RECORD - 1)] = random.between(1, 255) as u8,
    }
}

/// An input in which some shape is damaged, at any node.
fn no_shape(random: &mut Random, drawn: &Drawn, refusal: u8) -> Due {
    let nodes: Vec<Damage> = all_damages().into_iter().filter(|&(number, _)| number == refusal).collect();
    let mut shapes = drawn.shapes.clone();
    let at = random.below(shapes.len());
    let damage = nodes[random.below(nodes.len())];
    let (record, due) = damaged_shape(random, damage);
    shapes[at] = record;
    let place = drawn.statements.len() + at;
    (with(&drawn.statements, &shapes), Refusal { place, ..due })
}

fn repeated(random: &mut Random, drawn: &Drawn) -> Due {
    let mut shapes = drawn.shapes.clone();
    let copy = shapes[random.below(shapes.len())];
    if shapes.len() == SHAPES {
        shapes.pop();
        let copy = shapes[random.below(shapes.len())];
        shapes.push(copy);
    } else {
        shapes.push(copy);
    }
    let place = drawn.statements.len() + shapes.len() - 1;
    (with(&drawn.statements, &shapes), Refusal::at(10, place))
}

/// Bytes changed anywhere: whatever comes of it, counts and tables agree.
fn any_bytes(random: &mut Random, drawn: &Drawn) -> Result<(), String> {
    let mut input = drawn.input();
    for _ in 0..random.between(1, 3) {
        let at = random.below(input.len());
        input[at] = random.byte();
    }
    let mut locations = vec![random.byte(); random.below(1500)];
    let mut edges = vec![random.byte(); random.below(1500)];
    let answer = translate(&input, &mut locations, &mut edges);
    let used = |table: &[u8]| {
        let last = table.iter().rposition(|&byte| byte != 0);
        last.map_or(0, |at| at / RECORD + 1)
    };
    // No record is all zero, so the last byte that is not tells the count.
    if used(&locations) != answer.locations || used(&edges) != answer.edges {
        return Err(format!("{answer:?} does not count the records"));
    }
    let refused = (1..=12).contains(&answer.refusal) || [18, 19].contains(&answer.refusal);
    if refused == (answer.locations > 0) || (!refused && answer.refusal != 0) {
        return Err(format!("{answer:?} is neither a result nor a refusal"));
    }
    let told = Refusal { number: answer.refusal, place: answer.place, node: answer.node };
    if told.node != Node(0) && !told.tells_a_node() {
        return Err(format!("{answer:?} tells a node"));
    }
    Ok(())
}
