//! Refusals: a number, a place and, for three of them, a node.

use std::fmt;

/// The number of a node. A type of its own, so that none is taken for a place.
#[derive(Clone, Copy, PartialEq, Eq, PartialOrd, Ord, Debug, Default)]
pub struct Node(pub u8);

/// A refusal number with its place and node.
#[derive(Clone, Copy, PartialEq, Eq, Debug)]
pub struct Refusal {
    pub number: u8,
    pub place: usize,
    /// The first node concerned, for 9, 18 and 19; 0 for all others.
    pub node: Node,
}

impl Refusal {
    /// A refusal that concerns no node.
    pub const fn at(number: u8, place: usize) -> Refusal {
        Refusal { number, place, node: Node(0) }
    }

    /// Whether it is one of the three that concern a node.
    pub fn tells_a_node(&self) -> bool {
        matches!(self.number, 9 | 18 | 19)
    }
}

/// The words that the programs print after `refused`: "the programs print the
/// node after the place for these three only".
impl fmt::Display for Refusal {
    fn fmt(&self, out: &mut fmt::Formatter) -> fmt::Result {
        write!(out, "{} {}", self.number, self.place)?;
        if self.tells_a_node() {
            write!(out, " {}", self.node.0)?;
        }
        Ok(())
    }
}

/// A refusal that concerns no node, as an error.
pub fn refuse<T>(number: u8, place: usize) -> Result<T, Refusal> {
    Err(Refusal::at(number, place))
}

#[cfg(test)]
mod tests {
    use super::*;

    #[test]
    fn the_node_is_printed_for_three_only() {
        for number in 0..=30 {
            let node = Node(if [9, 18, 19].contains(&number) { 11 } else { 0 });
            let words = Refusal { number, place: 40, node }.to_string();
            let due = if node == Node(11) { format!("{number} 40 11") } else { format!("{number} 40") };
            assert_eq!(words, due);
        }
        assert_eq!(Refusal { number: 9, place: 0, node: Node(0) }.to_string(), "9 0 0");
        assert_eq!(Refusal::at(8, 4).to_string(), "8 4");
    }
}
