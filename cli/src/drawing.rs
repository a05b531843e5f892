//! Shapes and heaps drawn as lists.

use crate::chains::{chains, Chain, End};
use crate::record::Shape;
use crate::style::fill;

/// The pieces of a line, between which it may be broken.
pub type Pieces = Vec<String>;

/// A shape: each node with its counter where it first stands.
pub fn shape_lines(shape: &Shape, idle: &[usize]) -> Vec<Pieces> {
    let with_counter = |members: &[u8]| members.iter().map(|n| format!("n{n}(c{n})")).collect();
    lines(chains(&shape.pointers, &shape.successors), idle, with_counter, |n| format!("n{n}"))
}

/// A heap: each cell by its number, with long rows shortened.
pub fn heap_lines(pointers: &[u8], cells: &[u8], idle: &[usize]) -> Vec<Pieces> {
    let all = chains(pointers, cells);
    let ends: Vec<u8> = all.iter().filter_map(|c| if let End::At(cell) = c.end { Some(cell) } else { None }).collect();
    let held = |c: u8| ends.contains(&c) || pointers.contains(&c);
    lines(all, idle, |members| shortened(members, held), |c| c.to_string())
}

/// Lists first, then on one line the pointers that lead nowhere, without the idle ones.
fn lines(all: Vec<Chain>, idle: &[usize], members: impl Fn(&[u8]) -> Pieces, name: impl Fn(u8) -> String) -> Vec<Pieces> {
    let (mut out, mut rest) = (Vec::new(), Vec::new());
    for mut chain in all {
        if !chain.is_list() {
            chain.pointers.retain(|p| !idle.contains(p));
        }
        if chain.pointers.is_empty() {
            continue;
        }
        let mut pieces = vec![chain.heads()];
        pieces.extend(members(&chain.members).iter().map(|m| format!("-> {m}")));
        pieces.push(format!("-> {}", chain.end_name(&name)));
        if chain.is_list() {
            out.push(pieces);
        } else {
            rest.push(pieces.join(" "));
        }
    }
    if out.is_empty() && rest.is_empty() {
        rest.push("no cells".into());
    }
    if !rest.is_empty() {
        out.push(vec![rest.join("   ")]);
    }
    out
}

/// Each line at an indent, its continuation further in.
pub fn indented(lines: &[Pieces], indent: usize) -> String {
    lines.iter().map(|pieces| fill(&" ".repeat(indent), indent + 4, pieces)).collect()
}

/// Rows of so many cells that nothing else leads into are shortened.
const LONG: usize = 6;

/// The cells' names, with long rows cut in the middle; a cell that is held elsewhere always stands.
fn shortened(members: &[u8], held: impl Fn(u8) -> bool) -> Pieces {
    let mut out = Vec::new();
    let mut rest = members;
    while !rest.is_empty() {
        let length = 1 + rest[1..].iter().take_while(|&&c| !held(c)).count();
        let (row, after) = rest.split_at(length);
        if length < LONG {
            out.extend(row.iter().map(u8::to_string));
        } else {
            out.extend(row[..2].iter().map(u8::to_string));
            out.push(format!(".. {} more ..", length - 3));
            out.push(row[length - 1].to_string());
        }
        rest = after;
    }
    out
}
