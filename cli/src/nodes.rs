//! Words about a node of a starting shape, for the refusals that are about one. Which node it is, the proved library tells; what
//! leads to it and where it leads is read from the record.

use crate::automaton::{Node, Refusal};
use crate::chains::chains;
use crate::record::{Record, Shape, NODES, NULL, SIZE, UNDEFINED};
use crate::source::Source;
use crate::text::{Named, Spot};

/// Whether a refusal of this number is told with a node.
pub fn has_node(number: u8) -> bool {
    matches!(number, 9 | 18 | 19)
}

/// What is wrong in this case and what to change; for records, also the record as it should be.
pub struct Words {
    pub here: String,
    pub change: String,
    pub instead: Option<Record>,
}

/// None for other refusals, and where the record does not bear out what was told.
pub fn words(refusal: Refusal, source: &Source) -> Option<Words> {
    let Refusal { number, place, node: Node(node) } = refusal;
    let nodes = Nodes::of(source, place).filter(|nodes| (node as usize) < nodes.shape.count)?;
    match number {
        9 => nodes.unreached(node),
        18 => nodes.not_core(node),
        19 => nodes.numbered_otherwise(node),
        _ => None,
    }
}

/// Which node it is, in the text or in the record.
pub fn which(refusal: Refusal, source: &Source) -> String {
    let Node(node) = refusal.node;
    match named(source, refusal.place, node) {
        Some(Named { name, spot }) => format!("`{name}` on line {} (node {node} of the record)", spot.line),
        None if (node as usize) < NODES => format!("{node} (its successor is byte {})", 10 + node),
        None => node.to_string(),
    }
}

/// Where the text names the node first.
pub fn spot(refusal: Refusal, source: &Source) -> Option<Spot> {
    let named = named(source, refusal.place, refusal.node.0).filter(|_| has_node(refusal.number))?;
    Some(named.spot)
}

/// The name that the text gives a node of the shape in this record.
fn named(source: &Source, place: usize, node: u8) -> Option<&Named> {
    let made = &source.text.as_ref()?.assembled;
    made.nodes.get(place.checked_sub(made.labels.len())?)?.get(node as usize)
}

/// `a, b and c`
fn listed(names: &[String]) -> String {
    match names {
        [before @ .., last] if !before.is_empty() => format!("{} and {last}", before.join(", ")),
        _ => names.concat(),
    }
}

/// What is wrong with other nodes too, in words for one and for several, and that they are to be looked at.
fn also(others: &[String], [one, several]: [&str; 2]) -> [String; 2] {
    let names = listed(others);
    let more = match others.len() {
        0 => return Default::default(),
        1 => format!("; nor is {names} {one}"),
        _ => format!("; nor are {names} {several}"),
    };
    [more, format!("; then look at {names} likewise")]
}

/// The nodes of the shape in a record.
struct Nodes<'a> {
    source: &'a Source,
    place: usize,
    shape: Shape,
}

impl Nodes<'_> {
    /// Of a record that keeps the layout.
    fn of(source: &Source, place: usize) -> Option<Nodes<'_>> {
        let record = source.record(place);
        if record.len() != SIZE || record[0] != b'H' || record[3] as usize > NODES {
            return None;
        }
        let shape = Shape::read(record);
        let mut values = shape.pointers.iter().chain(&shape.successors[..shape.count]);
        values.all(|&v| (v as usize) < shape.count || v >= NULL).then_some(Nodes { source, place, shape })
    }

    fn name(&self, node: u8) -> String {
        named(self.source, self.place, node).map_or(format!("node {node}"), |named| format!("`{}`", named.name))
    }

    /// The nodes other than this one that pass, by their names.
    fn others(&self, node: u8, passes: impl Fn(u8) -> bool) -> Vec<String> {
        (0..self.shape.count as u8).filter(|&n| n != node && passes(n)).map(|n| self.name(n)).collect()
    }

    /// The nodes in the order of first visit.
    fn visited(&self) -> Vec<u8> {
        chains(&self.shape.pointers, &self.shape.successors).into_iter().flat_map(|chain| chain.members).collect()
    }

    /// The nodes that lead to this one.
    fn holders(&self, node: u8) -> Vec<u8> {
        (0..self.shape.count as u8).filter(|&n| self.shape.successors[n as usize] == node).collect()
    }

    fn core(&self, node: u8) -> bool {
        self.shape.pointers.contains(&node) || self.holders(node).len() > 1
    }

    fn unreached(&self, node: u8) -> Option<Words> {
        let (visited, name) = (self.visited(), self.name(node));
        if visited.contains(&node) {
            return None;
        }
        let holders = self.holders(node);
        let mut leading = self.others(node, |n| holders.contains(&n));
        leading.extend(holders.contains(&node).then(|| "itself".into()));
        let but = if leading.is_empty() { String::new() } else { format!(" but {}", listed(&leading)) };
        let [more, then] = also(&self.others(node, |n| !visited.contains(&n)), ["reached", "reached"]);
        let here = format!("no pointer reaches {name}: nothing{but} leads to it{more}");
        let change = format!("let a pointer lead to {name}, or two nodes that are reached, or leave {name} out{then}");
        Some(Words { here, change, instead: None })
    }

    fn not_core(&self, node: u8) -> Option<Words> {
        let [holder] = self.holders(node)[..] else { return None };
        if holder == node || self.core(node) {
            return None;
        }
        let (name, before) = (self.name(node), self.name(holder));
        let next = match self.shape.successors[node as usize] {
            NULL => "null".into(),
            UNDEFINED => "undefined".into(),
            value if value == holder => "itself".into(),
            value => self.name(value),
        };
        let [more, then] = also(&self.others(node, |n| !self.core(n)), ["a node of its own", "nodes of their own"]);
        let here = format!("nothing but {before} leads to {name}, so the cells of {name} belong to {before}{more}");
        let row = "a node stands for a row of cells, of any length";
        let change = format!("leave {name} out and let {before} lead to {next}: {row}{then}");
        Some(Words { here, change, instead: self.instead() })
    }

    fn numbered_otherwise(&self, node: u8) -> Option<Words> {
        let visited = self.visited();
        let number = visited.iter().position(|&n| n == node).filter(|&number| number != node as usize)?;
        let moved = visited.iter().enumerate().filter(|&(number, &n)| number != n as usize);
        let numbers: Vec<String> = moved.map(|(number, n)| format!("{n} becomes {number}")).collect();
        let here = format!("the walk gives {} the number {number}", self.name(node));
        let text = "write the shape as text and let `assemble` number it";
        let change = format!("number the nodes as they are visited: {}; or {text}", numbers.join(", "));
        Some(Words { here, change, instead: self.instead() })
    }

    /// For records: the shape of the heap that has each node as a cell, folded by the proved library.
    fn instead(&self) -> Option<Record> {
        let (refusal, record, _) = currantplane::fold(&self.shape.pointers, &self.shape.successors[..self.shape.count]);
        (refusal.number == 0 && self.source.text.is_none()).then_some(record)
    }
}
