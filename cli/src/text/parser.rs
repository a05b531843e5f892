//! Statements from tokens.

use super::lexer::{tokens, Kind, Token};
use super::shapes::{self, Block};
use super::{Error, Spot};
use crate::record::Op;

/// More than the proved translator takes, which refuses from 65 on; a target is one byte.
pub const MOST_STATEMENTS: usize = 255;

#[derive(Debug)]
pub struct Label {
    pub name: String,
    pub spot: Spot,
}

/// A statement as written: a target that is not given is the next statement.
#[derive(Debug)]
pub struct Line {
    pub labels: Vec<Label>,
    pub op: Op,
    pub u: u8,
    pub w: u8,
    pub first: Option<Label>,
    pub second: Option<Label>,
    pub spot: Spot,
    pub end: Spot,
}

#[derive(Debug)]
pub struct Parsed {
    pub lines: Vec<Line>,
    pub blocks: Vec<Block>,
}

pub struct Parser {
    tokens: Vec<Token>,
    at: usize,
}

impl Parser {
    pub fn peek(&self) -> &Token {
        &self.tokens[self.at]
    }

    fn peek_second(&self) -> Option<&Kind> {
        self.tokens.get(self.at + 1).map(|t| &t.kind)
    }

    /// The token here; the end of the text stays.
    pub fn take(&mut self) -> Token {
        let token = self.peek().clone();
        self.at = (self.at + 1).min(self.tokens.len() - 1);
        token
    }

    /// Goes on past the token if it is this one.
    pub fn accept(&mut self, kind: &Kind) -> bool {
        let is = self.peek().kind == *kind;
        if is {
            self.take();
        }
        is
    }

    pub fn accept_sign(&mut self, sign: &'static str) -> bool {
        self.accept(&Kind::Sign(sign))
    }

    fn accept_keyword(&mut self, word: &'static str) -> bool {
        self.accept(&Kind::Keyword(word))
    }

    pub fn wrong<T>(&self, expected: impl Into<String>) -> Result<T, Error> {
        Err(Error::new(self.peek().spot, self.peek().found(), expected))
    }

    fn expect_sign(&mut self, sign: &'static str) -> Result<(), Error> {
        if self.accept_sign(sign) {
            Ok(())
        } else {
            self.wrong(format!("`{sign}`"))
        }
    }

    /// `next`, and no `.next` after it.
    fn expect_next(&mut self) -> Result<(), Error> {
        if !self.accept_keyword("next") {
            return self.wrong("`next`");
        }
        match self.peek().kind {
            Kind::Sign(".") => self.wrong("at most one `.next` on a side of `:=`"),
            _ => Ok(()),
        }
    }

    fn pointer(&mut self, expected: &str) -> Result<u8, Error> {
        match self.peek().kind {
            Kind::Pointer(p) => {
                self.take();
                Ok(p)
            }
            _ => self.wrong(expected),
        }
    }

    fn label(&mut self) -> Result<Label, Error> {
        match &self.peek().kind {
            Kind::Name(name) => {
                let label = Label { name: name.clone(), spot: self.peek().spot };
                self.take();
                Ok(label)
            }
            Kind::Sign(_) | Kind::EndOfLine | Kind::EndOfText => self.wrong("a label"),
            _ => self.wrong("a label, which is no word of the language and no pointer"),
        }
    }

    /// The labels before a statement, which may stand on lines of their own.
    fn labels(&mut self) -> Result<Vec<Label>, Error> {
        let mut out = Vec::new();
        loop {
            while self.accept(&Kind::EndOfLine) {}
            // a pointer before `:` is more likely an assignment gone wrong
            let word = matches!(self.peek().kind, Kind::Name(_) | Kind::Keyword(_) | Kind::Strange(_));
            if !word || self.peek_second() != Some(&Kind::Sign(":")) {
                return Ok(out);
            }
            out.push(self.label()?);
            self.take();
        }
    }

    /// The op with its pointers, and what may follow it on the line.
    fn effect(&mut self, labelled: bool) -> Result<(Op, u8, u8, &'static str), Error> {
        let then = "`goto` or the end of the line";
        let either = "`goto`, `else` or the end of the line";
        match self.peek().kind {
            Kind::Keyword("stop") => self.single(Op::Stop, "the end of the line, since `stop` goes nowhere"),
            Kind::Keyword("skip") => self.single(Op::Skip, then),
            Kind::Keyword("choose") => self.single(Op::Choose, either),
            Kind::Keyword(word @ "free") => self.pointer_alone(Op::Free, word),
            Kind::Keyword(word @ "drop") => self.pointer_alone(Op::Drop, word),
            Kind::Keyword("test") => {
                self.take();
                let u = self.pointer("a pointer, p0 to p5")?;
                self.expect_sign("=")?;
                if self.accept_keyword("null") {
                    return Ok((Op::TestNull, u, 0, either));
                }
                Ok((Op::TestEqual, u, self.pointer("`null` or a pointer, p0 to p5")?, either))
            }
            Kind::Pointer(u) => self.assignment(u),
            _ if labelled => self.wrong("a statement for the label before it"),
            _ => self.wrong("a statement, a label with `:`, or `shape`"),
        }
    }

    fn single(&mut self, op: Op, then: &'static str) -> Result<(Op, u8, u8, &'static str), Error> {
        self.take();
        Ok((op, 0, 0, then))
    }

    /// `free` or `drop` and its pointer: what a next leads to must be held by a pointer first.
    fn pointer_alone(&mut self, op: Op, word: &str) -> Result<(Op, u8, u8, &'static str), Error> {
        self.take();
        let (u, then) = (self.pointer("a pointer, p0 to p5")?, "`goto` or the end of the line");
        match self.peek().kind {
            Kind::Sign(".") => self.wrong(format!("{then}, since `{word}` takes a pointer alone")),
            _ => Ok((op, u, 0, then)),
        }
    }

    fn assignment(&mut self, u: u8) -> Result<(Op, u8, u8, &'static str), Error> {
        let then = "`goto` or the end of the line";
        self.take();
        if self.accept_sign(".") {
            self.expect_next()?;
            self.expect_sign(":=")?;
            if self.accept_keyword("null") {
                return Ok((Op::WriteNull, u, 0, then));
            }
            let w = self.pointer("`null` or a pointer, p0 to p5")?;
            return self.right_side(u, w, Op::WriteNext, Op::Relink);
        }
        if !self.accept_sign(":=") {
            return self.wrong("`:=` or `.next`");
        }
        if self.accept_keyword("null") {
            return Ok((Op::SetNull, u, 0, then));
        }
        if self.accept_keyword("new") {
            return Ok((Op::New, u, 0, then));
        }
        let w = self.pointer("`null`, `new` or a pointer, p0 to p5")?;
        self.right_side(u, w, Op::Copy, Op::ReadNext)
    }

    /// The one op where the pointer on the right stands alone, the other where `.next` follows it.
    fn right_side(&mut self, u: u8, w: u8, alone: Op, through: Op) -> Result<(Op, u8, u8, &'static str), Error> {
        if !self.accept_sign(".") {
            return Ok((alone, u, w, "`.next`, `goto` or the end of the line"));
        }
        self.expect_next()?;
        Ok((through, u, w, "`goto` or the end of the line"))
    }

    fn line(&mut self, labels: Vec<Label>) -> Result<Line, Error> {
        let spot = self.peek().spot;
        let (op, u, w, mut then) = self.effect(!labels.is_empty())?;
        let (mut first, mut second) = (None, None);
        if op.uses_first() && self.accept_keyword("goto") {
            first = Some(self.label()?);
            then = if op.uses_second() { "`else` or the end of the line" } else { "the end of the line" };
        }
        if op.uses_second() && self.accept_keyword("else") {
            second = Some(self.label()?);
            then = "the end of the line";
        }
        let end = self.peek().spot;
        if !self.accept(&Kind::EndOfLine) {
            return self.wrong(then);
        }
        Ok(Line { labels, op, u, w, first, second, spot, end })
    }
}

pub fn parse(text: &str) -> Result<Parsed, Error> {
    let mut parser = Parser { tokens: tokens(text), at: 0 };
    let mut lines = Vec::new();
    loop {
        let labels = parser.labels()?;
        let closes = matches!(parser.peek().kind, Kind::Keyword("shape") | Kind::EndOfText);
        if closes && labels.is_empty() && !lines.is_empty() {
            break;
        }
        if lines.len() == MOST_STATEMENTS {
            let found = format!("statement {MOST_STATEMENTS}, counted from 0");
            return Err(Error::new(parser.peek().spot, found, format!("at most {MOST_STATEMENTS} statements")));
        }
        if closes && labels.is_empty() {
            return parser.wrong("a statement");
        }
        lines.push(parser.line(labels)?);
    }
    Ok(Parsed { lines, blocks: shapes::blocks(&mut parser)? })
}
