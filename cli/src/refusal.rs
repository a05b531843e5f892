//! Refusals in words: the number and its place come from the proved library, the words from here.

use crate::automaton::{Places, Refusal};
use crate::nodes;
use crate::record::{Op, NODES, NULL, POINTERS, SIZE};
use crate::source::{Failure, Source, REFUSED};
use crate::style::paragraph;

/// What each number from 1 on means, and what to change.
const MEANINGS: [(&str, &str); 23] = [
    (
        "the input is empty, or its length is no multiple of 32 bytes",
        "records have 32 bytes each and no header: complete the last one or cut it off",
    ),
    ("a routine has 1 to 64 statements", "leave statements out, or write two routines"),
    ("a routine has 1 to 16 starting shapes", "translate the routine twice, each time from some of the shapes"),
    (
        "a record is neither S nor H, or an S stands after an H",
        "put statements (byte 0 is 0x53) first and starting shapes (byte 0 is 0x48) after them",
    ),
    ("the op of a statement is above 13", "use an op from 0 (stop) to 13 (drop u)"),
    (
        "a pointer that the statement uses is above 5, or a byte that it does not use is not zero",
        "use pointers 0 to 5, and set all other bytes to zero",
    ),
    ("a target is no statement", "name a statement of this routine as the target"),
    ("a starting shape breaks the layout of its record", "write the shape as text and let `assemble` lay it out"),
    ("no pointer reaches a node of a starting shape", "let a pointer lead to the node, or leave it out"),
    ("a starting shape stands there twice", "leave one of the two out"),
    (
        "the table has no place for a new location",
        "set pointers to null when they are no longer needed, use fewer of them or fewer starting shapes; or give a \
         larger --locations, at most 1024",
    ),
    (
        "the table has no place for an edge",
        "set pointers to null when they are no longer needed, use fewer of them or fewer starting shapes; or give a \
         larger --edges, at most 2048",
    ),
    ("a heap has six pointers and at most 240 cells, and its values name cells in use", "use fewer cells"),
    ("no pointer reaches a cell of the heap", "let a pointer lead to every cell"),
    (
        "each node stands for at least one cell, and a heap here has at most 240 cells",
        "give numbers from 1 on to --heap that sum to 240 at most",
    ),
    (
        "a pick is neither 0 nor 1, or no cell is left for new",
        "give only 0 and 1 to --picks, or fewer cells to --heap, which has 240 in all",
    ),
    ("no record of the table that is meant has this number", "give a number that is in use; `translate` lists them all"),
    (
        "a node of a starting shape is not core: no pointer leads to it, and one node alone does",
        "leave the node out: its cells belong to the node that leads to it, which stands for a row of any length",
    ),
    (
        "the nodes of a starting shape are not numbered at first visit: from pointer 0 along successors, then from pointer 1, \
         and so on",
        "number the nodes as they are visited, or write the shape as text and let `assemble` number it",
    ),
    (
        "a move is made along an edge of the table that leaves the location and whose guards hold, from counters of 1 or more, \
         and a walk has at most 4,096 moves",
        "name edges as `translate` lists them, each from the location that the one before it leads to, and there with guards \
         that hold",
    ),
    ("a counter has at most 32 bits", "give smaller numbers to --heap, or end the walk before this edge"),
    (
        "the range of a counter goes from a lowest value of 1 or more to a highest of 65,535 or less, which is not below it",
        "give numbers from 1 to 65535 to --counters, or ranges of them with the lowest value first",
    ),
    (
        "a path starts at a location of the table and has at most 4,096 edges, each of which leaves the location that the one \
         before it leads to, whatever its guards say",
        "name locations and edges as `translate` lists them, each edge from the location that the one before it leads to",
    ),
];

/// What a number means and what to change.
pub fn meaning(number: u8) -> (&'static str, &'static str) {
    MEANINGS[number as usize - 1]
}

/// The line that the program `translate` prints: the node stands there for three numbers only.
pub fn line(refusal: Refusal) -> String {
    let Refusal { number, place, node } = refusal;
    match nodes::has_node(number) {
        true => format!("refused {number} {place} {}\n", node.0),
        false => format!("refused {number} {place}\n"),
    }
}

pub fn failure(refusal: Refusal, source: &Source, places: Places) -> Failure {
    Failure { status: REFUSED, message: words(refusal, source, places) }
}

/// The explanation of a refusal, which tables of so many places may have caused.
pub fn words(refusal: Refusal, source: &Source, places: Places) -> String {
    let Some(words) = nodes::words(refusal, source) else {
        return explained(refusal, source, here(refusal, source, places));
    };
    let (means, _) = meaning(refusal.number);
    let instead = words.instead.map_or(String::new(), |record| format!("  instead: {}\n", hex(&record)));
    told(refusal, source, [means, &words.change], Some(words.here)) + &instead
}

/// The explanation of a refusal with what is wrong in this case.
pub fn explained(refusal: Refusal, source: &Source, here: Option<String>) -> String {
    let (means, change) = meaning(refusal.number);
    told(refusal, source, [means, change], here)
}

/// The same with other words for what it means and what to change.
pub fn told(refusal: Refusal, source: &Source, [means, change]: [&str; 2], here: Option<String>) -> String {
    let mut out = format!("{}: refused {}{}\n", source.name, refusal.number, place_words(refusal, source));
    out.push_str(&lines_of(refusal, source));
    if nodes::has_node(refusal.number) {
        out.push_str(&paragraph("  node:    ", 11, &nodes::which(refusal, source)));
    }
    out.push_str(&paragraph("  meaning: ", 11, means));
    if let Some(here) = here {
        out.push_str(&paragraph("  here:    ", 11, &here));
    }
    out + &paragraph("  change:  ", 11, change)
}

/// How many S records there are.
fn statements(source: &Source) -> usize {
    source.records.chunks_exact(SIZE).filter(|r| r[0] == b'S').count()
}

fn place_words(refusal: Refusal, source: &Source) -> String {
    let Refusal { number, place, .. } = refusal;
    match number {
        4 => format!(" at record {place}"),
        5..=7 => format!(" at record {place}, which is statement {place}"),
        8..=10 | 18 | 19 => format!(" at record {place}, which is starting shape {}", place - statements(source).min(place)),
        22 => format!(" at counter c{place}"),
        _ => String::new(),
    }
}

/// The lines of the text that the record comes from; for too many records, the first that is too many.
fn lines_of(refusal: Refusal, source: &Source) -> String {
    let record = match refusal.number {
        2 => 64,
        3 => statements(source) + 16,
        4..=10 | 18 | 19 => refusal.place,
        _ => return String::new(),
    };
    let Some(text) = &source.text else { return hex_of(refusal, source) };
    let Some(&(first, last)) = text.assembled.lines.get(record) else { return String::new() };
    let shown = text.content.lines().enumerate().skip(first - 1).take(last + 1 - first);
    let node = nodes::spot(refusal, source);
    let under = |at: usize, line: &str| match node {
        Some(spot) if spot.line == at => format!("      | {}\n", spot.caret(line)),
        _ => String::new(),
    };
    shown.map(|(at, line)| format!(" {:>4} | {}\n{}", at + 1, line.trim_end(), under(at + 1, line))).collect()
}

fn hex_of(refusal: Refusal, source: &Source) -> String {
    match refusal.number {
        4..=10 | 18 | 19 => format!("  record:  {}\n", hex(source.record(refusal.place))),
        _ => String::new(),
    }
}

pub fn hex(bytes: &[u8]) -> String {
    bytes.iter().map(|b| format!("{b:02x}")).collect()
}

/// What is wrong in this input, as far as it is more than the meaning.
fn here(refusal: Refusal, source: &Source, places: Places) -> Option<String> {
    let Refusal { number, place, .. } = refusal;
    let record = source.record(place);
    match number {
        1 => Some(format!("it has {} bytes{}", source.records.len(), taken_as_records(source))),
        2 => Some(format!("there are {}", statements(source))),
        3 => Some(format!("there are {}", source.records.len() / SIZE - statements(source))),
        4 if record[0] == b'S' => Some("an S record stands after an H record".into()),
        4 => Some(format!("byte 0 is 0x{:02x}{}", record[0], taken_as_records(source))),
        5 => Some(format!("the op is {}", record[1])),
        6 => pointer_words(record),
        7 => target_words(record, statements(source)),
        8 => Some(layout_words(record)),
        10 => equal_words(source, place),
        11 if place == places.locations => {
            Some(format!("starting shape {place} finds no place: the table has {}", places.locations))
        }
        11 => Some(format!("all {} places were in use when location {place} was explored", places.locations)),
        12 => Some(format!("all {} places were in use when location {place} was explored", places.edges)),
        _ => None,
    }
}

/// For a text that was none: why it was not read as one.
fn taken_as_records(source: &Source) -> &'static str {
    match source.records.is_empty() {
        true => "",
        false => " (the file is taken as records, since it holds a zero byte or is not UTF-8)",
    }
}

fn pointer_words(record: &[u8]) -> Option<String> {
    let op = *Op::ALL.get(record[1] as usize)?;
    let used = [(2, "u", op.uses_u()), (3, "w", op.uses_w())];
    if let Some((at, name, _)) = used.into_iter().find(|&(at, _, used)| used && record[at] as usize >= POINTERS) {
        return Some(format!("pointer {name} (byte {at}) is {}", record[at]));
    }
    let uses = |at: usize| match at {
        0 | 1 => true,
        2 => op.uses_u(),
        3 => op.uses_w(),
        4 => op.uses_first(),
        5 => op.uses_second(),
        _ => false,
    };
    let at = (0..SIZE).find(|&at| !uses(at) && record[at] != 0)?;
    Some(format!("op {} does not use byte {at}, and it is {}", record[1], record[at]))
}

fn target_words(record: &[u8], count: usize) -> Option<String> {
    let op = *Op::ALL.get(record[1] as usize)?;
    let used = [(4, "first", op.uses_first()), (5, "second", op.uses_second())];
    let (at, name, _) = used.into_iter().find(|&(at, _, used)| used && record[at] as usize >= count)?;
    Some(format!("the {name} target (byte {at}) is {}, and the statements are 0 to {}", record[at], count - 1))
}

fn layout_words(record: &[u8]) -> String {
    let count = record[3] as usize;
    if count > NODES {
        return format!("the node count (byte 3) is {count}, and at most {NODES} is allowed");
    }
    let value = |b: u8| (b as usize) < count || b >= NULL;
    let right = |at: usize| match at {
        0 | 3 => true,
        4..=9 => value(record[at]),
        10..=21 if at < 10 + count => value(record[at]),
        _ => record[at] == 0,
    };
    let wanted = |at: usize| match at {
        4..=21 if at < 10 + count => format!("a node below {count}, 0xfe for null or 0xff for undefined"),
        _ => "0".into(),
    };
    match (0..SIZE).find(|&at| !right(at)) {
        Some(at) => format!("byte {at} is 0x{:02x} and must be {}", record[at], wanted(at)),
        None => "the record is not whole".into(),
    }
}

fn equal_words(source: &Source, place: usize) -> Option<String> {
    let first = statements(source);
    let earlier = (first..place).find(|&p| source.record(p) == source.record(place))?;
    let line = source.text.as_ref().and_then(|t| t.assembled.lines.get(earlier));
    let on_line = line.map_or(String::new(), |(line, _)| format!(", line {line}"));
    Some(format!("it is equal to starting shape {} (record {earlier}{on_line})", earlier - first))
}
