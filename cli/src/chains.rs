//! Pointers and successors drawn as lists: `p0, p1 -> a -> b -> null`. Used for shapes, for heaps and for the text form.

use crate::record::{NULL, UNDEFINED};

/// Where a list ends.
#[derive(Clone, Copy, PartialEq, Eq, Debug)]
pub enum End {
    Null,
    Undefined,
    /// At a member of this list or of one before it.
    At(u8),
}

/// Pointers to the same place, and the members from there that no chain before has.
#[derive(Debug)]
pub struct Chain {
    pub pointers: Vec<usize>,
    pub members: Vec<u8>,
    pub end: End,
}

impl Chain {
    /// The pointers as text.
    pub fn heads(&self) -> String {
        let names: Vec<String> = self.pointers.iter().map(|p| format!("p{p}")).collect();
        names.join(", ")
    }

    /// Whether the pointers lead to a cell.
    pub fn is_list(&self) -> bool {
        !self.members.is_empty() || matches!(self.end, End::At(_))
    }

    /// The end as text, by a member's name.
    pub fn end_name(&self, name: impl Fn(u8) -> String) -> String {
        match self.end {
            End::Null => "null".into(),
            End::Undefined => "undefined".into(),
            End::At(member) => name(member),
        }
    }
}

/// The chains from each pointer in turn, pointers to the same place together.
pub fn chains(pointers: &[u8], successors: &[u8]) -> Vec<Chain> {
    let mut out: Vec<Chain> = Vec::new();
    let mut seen = [false; 256];
    for (p, &value) in pointers.iter().enumerate() {
        if pointers[..p].contains(&value) {
            continue;
        }
        let together = (p..pointers.len()).filter(|&q| pointers[q] == value).collect();
        let (mut at, mut members) = (value, Vec::new());
        while at < NULL && !seen[at as usize] {
            seen[at as usize] = true;
            members.push(at);
            at = successors[at as usize];
        }
        let end = match at {
            NULL => End::Null,
            UNDEFINED => End::Undefined,
            member => End::At(member),
        };
        out.push(Chain { pointers: together, members, end });
    }
    out
}
