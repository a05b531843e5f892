//! A text from records.

use crate::chains::{chains, End};
use crate::names;
use crate::record::{Routine, Shape, Statement};
use std::fmt::Write;

/// The text of records that the proved checks have passed. Assembling it gives the same records.
pub fn disassemble(routine: &Routine) -> String {
    let statements = &routine.statements;
    let named = jumped_to(statements);
    let mut out = String::new();
    for (number, statement) in statements.iter().enumerate() {
        let label = if named[number] { format!("L{number}:") } else { String::new() };
        let line = format!("{label:<5} {}{}", names::statement(statement), jumps(statement, number, statements.len()));
        writeln!(out, "{line}").unwrap();
    }
    for shape in &routine.shapes {
        out.push_str(&shape_text(shape));
    }
    out
}

/// Whether a target must be written: it is not the statement that follows.
fn written(target: u8, number: usize, count: usize) -> bool {
    target as usize != number + 1 || number + 1 == count
}

fn jumped_to(statements: &[Statement]) -> Vec<bool> {
    let mut named = vec![false; statements.len()];
    for (number, s) in statements.iter().enumerate() {
        let targets = [(s.op.uses_first(), s.first), (s.op.uses_second(), s.second)];
        for (_, target) in targets.into_iter().filter(|(used, target)| *used && written(*target, number, statements.len())) {
            named[target as usize] = true;
        }
    }
    named
}

fn jumps(s: &Statement, number: usize, count: usize) -> String {
    let mut out = String::new();
    if s.op.uses_first() && written(s.first, number, count) {
        write!(out, " goto L{}", s.first).unwrap();
    }
    if s.op.uses_second() && written(s.second, number, count) {
        write!(out, " else L{}", s.second).unwrap();
    }
    out
}

/// Nodes 0 to 11 as letters a to l.
pub fn node_name(node: u8) -> String {
    char::from(b'a' + node).to_string()
}

fn shape_text(shape: &Shape) -> String {
    let mut out = String::from("\nshape\n");
    for chain in chains(&shape.pointers, &shape.successors) {
        let mut parts = vec![chain.heads()];
        parts.extend(chain.members.iter().map(|&n| node_name(n)));
        parts.push(chain.end_name(node_name));
        // null is what a pointer is when nothing is said of it
        if chain.is_list() || chain.end == End::Undefined {
            writeln!(out, "      {}", parts.join(" -> ")).unwrap();
        }
    }
    out
}
