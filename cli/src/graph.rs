//! The automaton as a graph for Graphviz, and as a picture through it.

use crate::automaton::{Automaton, Edge};
use crate::drawing::shape_lines;
use crate::listing::idle_note;
use crate::names;
use crate::record::{Op, Routine};
use crate::source::{Failure, Source};
use std::fmt::Write as _;
use std::io::Write as _;
use std::process::{Command, Stdio};

/// Longer lines of a box or an edge are broken.
const WIDTH: usize = 52;

/// A box for each location, an arrow for each edge. Starts have a thick border, stops a double one, faults a light red ground.
pub fn dot(source: &Source, routine: &Routine, automaton: &Automaton) -> String {
    let mut out = String::from("digraph automaton {\n");
    out.push_str(
        "  graph [rankdir=TB, ranksep=0.35, nodesep=0.3, fontname=\"monospace\", fontsize=11, labelloc=b, labeljust=l]\n",
    );
    out.push_str("  node [shape=box, fontname=\"monospace\", fontsize=11, margin=\"0.12,0.08\"]\n");
    out.push_str("  edge [fontname=\"monospace\", fontsize=10, arrowsize=0.7]\n");
    writeln!(out, "  label=<{}>", label(&legend(routine))).unwrap();
    for number in 0..automaton.locations.len() {
        let (lines, look) = location(source, routine, automaton, number);
        writeln!(out, "  l{number} [label=<<B>{}</B><BR ALIGN=\"LEFT\"/>{}>{look}]", lines[0], label(&lines[1..])).unwrap();
    }
    for edge in &automaton.edges {
        let label = roomy_label(&edge_lines(routine, automaton, edge));
        writeln!(out, "  l{} -> l{} [label={label}]", edge.from, edge.to).unwrap();
    }
    out + "}\n"
}

/// A line as Graphviz takes it: its signs quoted, and spaces kept where there are several.
fn quoted(line: &str) -> String {
    line.replace('&', "&amp;").replace('<', "&lt;").replace('>', "&gt;").replace("  ", "&#160;&#160;")
}

/// Lines as a label, each kept to the left.
fn label(lines: &[String]) -> String {
    lines.iter().map(|line| quoted(line) + "<BR ALIGN=\"LEFT\"/>").collect()
}

/// The same with room around it, so that it does not touch its arrow.
fn roomy_label(lines: &[String]) -> String {
    if lines.is_empty() {
        return "\"\"".into();
    }
    format!("<<TABLE BORDER=\"0\" CELLPADDING=\"3\"><TR><TD>{}</TD></TR></TABLE>>", label(lines))
}

fn legend(routine: &Routine) -> Vec<String> {
    let mut lines: Vec<String> = [
        "",
        "n0(c0) is node 0, which stands for c0 cells in a row; c0' is the counter after the edge.",
        "An edge without updates keeps the counters that are left. Thick border: start. Double border: stop. Filled: fault.",
    ]
    .map(String::from)
    .into();
    let idle = idle_note(routine);
    lines.extend(idle.lines().map(String::from));
    lines
}

fn location(source: &Source, routine: &Routine, automaton: &Automaton, number: usize) -> (Vec<String>, &'static str) {
    let location = &automaton.locations[number];
    let statement = &routine.statements[location.statement];
    let name = match source.label(location.statement) {
        Some(label) => format!("{} {}", location.statement, names::short(label)),
        None => location.statement.to_string(),
    };
    let start = number < routine.shapes.len();
    let kind = match (location.fault, start, statement.op) {
        (0, true, _) => ", start".into(),
        (0, false, _) => String::new(),
        (fault, ..) => format!(", FAULT {fault}"),
    };
    let mut lines = vec![format!("location {number}{kind}"), format!("{name}: {}", names::statement(statement))];
    if location.fault != 0 {
        lines.extend(names::fault(location.fault, statement, &automaton.reached_with(number)));
        return (lines, ", style=filled, fillcolor=\"#ffdcdc\"");
    }
    for pieces in shape_lines(&location.shape, &routine.idle_pointers()) {
        lines.extend(broken(&pieces));
    }
    let look = match (start, statement.op == Op::Stop) {
        (true, true) => ", peripheries=2, penwidth=2.5",
        (true, false) => ", penwidth=2.5",
        (false, true) => ", peripheries=2",
        (false, false) => "",
    };
    (lines, look)
}

fn edge_lines(routine: &Routine, automaton: &Automaton, edge: &Edge) -> Vec<String> {
    let from = &automaton.locations[edge.from];
    let mut lines = Vec::new();
    let condition = names::condition(edge, &routine.statements[from.statement], &automaton.locations[edge.to]);
    if !condition.is_empty() {
        lines.push(condition);
    }
    if !names::keeps_counters(edge, from.shape.count) {
        lines.extend(names::updates(edge, from.shape.count));
    }
    lines
}

/// Pieces as lines of a box.
fn broken(pieces: &[String]) -> Vec<String> {
    let mut lines: Vec<String> = Vec::new();
    for piece in pieces {
        match lines.last_mut() {
            Some(line) if line.len() + 1 + piece.len() <= WIDTH => *line = format!("{line} {piece}"),
            Some(_) => lines.push(format!("    {piece}")),
            None => lines.push(piece.clone()),
        }
    }
    lines
}

/// The picture that Graphviz draws of a graph.
pub fn svg(dot: &str) -> Result<Vec<u8>, Failure> {
    let started = Command::new("dot").arg("-Tsvg").stdin(Stdio::piped()).stdout(Stdio::piped()).stderr(Stdio::piped()).spawn();
    let mut child = started.map_err(|e| {
        Failure::bad_use(format!(
            "the program `dot` of Graphviz does not start: {e}\n\
             Install the Debian package `graphviz`, or use --dot, which works without it."
        ))
    })?;
    let mut input = child.stdin.take().expect("a pipe");
    let text = dot.to_string();
    // in a thread of its own, so that neither side waits for the other
    let writer = std::thread::spawn(move || input.write_all(text.as_bytes()));
    let output = child.wait_with_output().map_err(|e| Failure::bad_use(format!("dot: {e}")))?;
    let written = writer.join().expect("the writer");
    if !output.status.success() || written.is_err() {
        return Err(Failure::bad_use(format!("dot failed: {}", String::from_utf8_lossy(&output.stderr).trim())));
    }
    Ok(output.stdout)
}
