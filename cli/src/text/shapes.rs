//! Starting shapes from tokens, and their nodes numbered as in records.

use super::lexer::Kind;
use super::parser::Parser;
use super::{Error, Spot};
use crate::record::{Shape, NODES, NULL, POINTERS, UNDEFINED};

/// A node, NULL or UNDEFINED, and the line that gave it.
type Given = Option<(u8, usize)>;

/// A node's name and where it stands first.
#[derive(Clone, PartialEq, Eq, Debug)]
pub struct Named {
    pub name: String,
    pub spot: Spot,
}

/// A `shape` with its chains. Nodes are counted as they appear.
#[derive(Debug)]
pub struct Block {
    pub first_line: usize,
    pub last_line: usize,
    names: Vec<Named>,
    pointers: [Given; POINTERS],
    successors: Vec<Given>,
}

/// What stands left of an arrow.
enum Head {
    Pointer(u8),
    Node(u8),
}

pub fn blocks(parser: &mut Parser) -> Result<Vec<Block>, Error> {
    let mut out = Vec::new();
    loop {
        match parser.peek().kind {
            Kind::Keyword("shape") => out.push(block(parser)?),
            Kind::EndOfText if !out.is_empty() => return Ok(out),
            _ if out.is_empty() => return parser.wrong("`shape`"),
            _ => return parser.wrong("a pointer, a node or `shape`"),
        }
    }
}

fn block(parser: &mut Parser) -> Result<Block, Error> {
    let line = parser.take().spot.line;
    let mut block =
        Block { first_line: line, last_line: line, names: Vec::new(), pointers: [None; POINTERS], successors: Vec::new() };
    if !parser.accept(&Kind::EndOfLine) {
        return parser.wrong("the end of the line");
    }
    while matches!(parser.peek().kind, Kind::Pointer(_) | Kind::Name(_)) {
        block.last_line = parser.peek().spot.line;
        block.chain(parser)?;
    }
    Ok(block)
}

impl Block {
    fn chain(&mut self, parser: &mut Parser) -> Result<(), Error> {
        let mut heads = vec![self.head(parser)?];
        while parser.accept_sign(",") {
            heads.push(self.head(parser)?);
        }
        if !parser.accept_sign("->") {
            return parser.wrong("`->` or `,`");
        }
        loop {
            let (value, spot) = self.value(parser)?;
            for (head, head_spot) in heads {
                self.give(head, head_spot, value, spot)?;
            }
            if parser.accept(&Kind::EndOfLine) {
                return Ok(());
            }
            if value >= NULL {
                return parser.wrong("the end of the line");
            }
            if !parser.accept_sign("->") {
                return parser.wrong("`->` or the end of the line");
            }
            heads = vec![(Head::Node(value), spot)];
        }
    }

    fn head(&mut self, parser: &mut Parser) -> Result<(Head, Spot), Error> {
        let spot = parser.peek().spot;
        let head = match parser.peek().kind.clone() {
            Kind::Pointer(p) => Head::Pointer(p),
            Kind::Name(name) => Head::Node(self.node(name, spot)?),
            _ => return parser.wrong("a pointer or a node"),
        };
        parser.take();
        Ok((head, spot))
    }

    fn value(&mut self, parser: &mut Parser) -> Result<(u8, Spot), Error> {
        let spot = parser.peek().spot;
        let value = match parser.peek().kind.clone() {
            Kind::Keyword("null") => NULL,
            Kind::Keyword("undefined") => UNDEFINED,
            Kind::Name(name) => self.node(name, spot)?,
            _ => return parser.wrong("a node, `null` or `undefined`"),
        };
        parser.take();
        Ok((value, spot))
    }

    /// The node of this name, a new one at its first mention.
    fn node(&mut self, name: String, spot: Spot) -> Result<u8, Error> {
        if let Some(at) = self.names.iter().position(|n| n.name == name) {
            return Ok(at as u8);
        }
        if self.names.len() == NODES {
            let found = format!("`{name}`, which would be the 13th node of the shape");
            return Err(Error::new(spot, found, format!("at most {NODES} nodes")));
        }
        self.names.push(Named { name, spot });
        self.successors.push(None);
        Ok(self.names.len() as u8 - 1)
    }

    fn give(&mut self, head: Head, head_spot: Spot, value: u8, spot: Spot) -> Result<(), Error> {
        match head {
            Head::Pointer(p) => match self.pointers[p as usize] {
                Some((_, line)) => {
                    let expected = format!("each pointer once in a shape (it stands on line {line} already)");
                    Err(Error::new(head_spot, format!("`p{p}` again"), expected))
                }
                None => {
                    self.pointers[p as usize] = Some((value, spot.line));
                    Ok(())
                }
            },
            Head::Node(n) => match self.successors[n as usize] {
                Some((known, line)) if known != value => {
                    let expected = format!("`{}`, which follows `{}` on line {line}", self.name(known), self.name(n));
                    Err(Error::new(spot, format!("`{}`", self.name(value)), expected))
                }
                _ => {
                    self.successors[n as usize] = Some((value, spot.line));
                    Ok(())
                }
            },
        }
    }

    fn name(&self, value: u8) -> &str {
        match value {
            NULL => "null",
            UNDEFINED => "undefined",
            node => &self.names[node as usize].name,
        }
    }

    /// The shape with its nodes numbered at first visit, and their names in that order. Nodes that no walk reaches come last, as
    /// they appear: the proved check then tells that there are some.
    pub fn shape(&self) -> (Shape, Vec<Named>) {
        let successor = |n: u8| self.successors[n as usize].map_or(NULL, |g| g.0);
        let mut order: Vec<u8> = Vec::new();
        for start in self.pointers.iter().flatten() {
            let mut value = start.0;
            while value < NULL && !order.contains(&value) {
                order.push(value);
                value = successor(value);
            }
        }
        for node in 0..self.names.len() as u8 {
            if !order.contains(&node) {
                order.push(node);
            }
        }
        let number = |value: u8| order.iter().position(|&n| n == value).map_or(value, |at| at as u8);
        let mut shape = Shape { count: order.len(), pointers: [NULL; POINTERS], successors: [0; NODES] };
        for (p, given) in self.pointers.iter().enumerate() {
            shape.pointers[p] = given.map_or(NULL, |g| number(g.0));
        }
        for (at, &node) in order.iter().enumerate() {
            shape.successors[at] = number(successor(node));
        }
        (shape, order.iter().map(|&n| self.names[n as usize].clone()).collect())
    }
}
