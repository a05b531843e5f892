//! Records from a text.

use super::parser::{parse, Label, Line};
use super::{Error, Named};
use crate::record::Statement;
use std::collections::HashMap;

/// The records, and where in the text they come from.
#[derive(Debug)]
pub struct Assembled {
    pub records: Vec<u8>,
    /// First and last line of each record.
    pub lines: Vec<(usize, usize)>,
    /// The labels of each statement.
    pub labels: Vec<Vec<String>>,
    /// The names of each starting shape's nodes, by number, and where they stand.
    pub nodes: Vec<Vec<Named>>,
}

pub fn assemble(text: &str) -> Result<Assembled, Error> {
    let parsed = parse(text)?;
    let places = label_places(&parsed.lines)?;
    let mut out = Assembled { records: Vec::new(), lines: Vec::new(), labels: Vec::new(), nodes: Vec::new() };
    for (number, line) in parsed.lines.iter().enumerate() {
        let next = if number + 1 < parsed.lines.len() { Some(number as u8 + 1) } else { None };
        out.records.extend(statement(line, next, &places)?.write());
        out.lines.push((line.spot.line, line.spot.line));
        out.labels.push(line.labels.iter().map(|l| l.name.clone()).collect());
    }
    for block in &parsed.blocks {
        let (shape, names) = block.shape();
        out.records.extend(shape.write());
        out.lines.push((block.first_line, block.last_line));
        out.nodes.push(names);
    }
    Ok(out)
}

/// The statement of each label.
fn label_places(lines: &[Line]) -> Result<HashMap<&str, u8>, Error> {
    let mut places: HashMap<&str, u8> = HashMap::new();
    for (number, line) in lines.iter().enumerate() {
        for label in &line.labels {
            if let Some(earlier) = places.insert(&label.name, number as u8) {
                let expected = format!("a new label (line {} has this one)", lines[earlier as usize].spot.line);
                return Err(Error::new(label.spot, format!("`{}` again", label.name), expected));
            }
        }
    }
    Ok(places)
}

fn statement(line: &Line, next: Option<u8>, places: &HashMap<&str, u8>) -> Result<Statement, Error> {
    let target = |label: &Option<Label>, word: &str| match label {
        Some(label) => places.get(label.name.as_str()).copied().ok_or_else(|| unknown(label, places)),
        None => next.ok_or_else(|| {
            let expected = format!("`{word}` and a label, since no statement follows");
            Error::new(line.end, "the end of the line", expected)
        }),
    };
    let first = if line.op.uses_first() { target(&line.first, "goto")? } else { 0 };
    let second = if line.op.uses_second() { target(&line.second, "else")? } else { 0 };
    Ok(Statement { op: line.op, u: line.u, w: line.w, first, second })
}

fn unknown(label: &Label, places: &HashMap<&str, u8>) -> Error {
    let mut known: Vec<(u8, &str)> = places.iter().map(|(name, place)| (*place, *name)).collect();
    known.sort();
    let names: Vec<String> = known.iter().take(8).map(|(_, name)| format!("`{name}`")).collect();
    let more = if known.len() > 8 { ", .." } else { "" };
    let expected = match names.len() {
        0 => "a label of a statement (there is none)".into(),
        _ => format!("a label of a statement: {}{more}", names.join(", ")),
    };
    Error::new(label.spot, format!("`{}`", label.name), expected)
}
