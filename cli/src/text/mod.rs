//! The text form: a routine and its starting shapes as people write them. The grammar stands in docs/TEXT.md.

mod assemble;
mod disassemble;
mod lexer;
mod parser;
mod shapes;

pub use assemble::{assemble, Assembled};
pub use disassemble::{disassemble, node_name};
pub use shapes::Named;

/// Where something stands in a text, both from 1; columns count characters.
#[derive(Clone, Copy, PartialEq, Eq, Debug)]
pub struct Spot {
    pub line: usize,
    pub column: usize,
}

impl Spot {
    /// A caret under the place in its line. Tabs stay tabs, so that it stands there at any width of a tab.
    pub fn caret(self, line: &str) -> String {
        let before = line.chars().take(self.column - 1).map(|c| if c == '\t' { '\t' } else { ' ' });
        before.chain(['^']).collect()
    }
}

/// What is wrong with a text.
#[derive(Clone, PartialEq, Eq, Debug)]
pub struct Error {
    pub spot: Spot,
    pub found: String,
    pub expected: String,
}

impl Error {
    pub fn new(spot: Spot, found: impl Into<String>, expected: impl Into<String>) -> Error {
        Error { spot, found: found.into(), expected: expected.into() }
    }

    /// The message with the line and a caret under the place.
    pub fn show(&self, file: &str, text: &str) -> String {
        let Spot { line, column } = self.spot;
        let shown = text.lines().nth(line - 1).unwrap_or("");
        let caret = self.spot.caret(shown);
        let number = line.to_string();
        let margin = " ".repeat(number.len());
        format!(
            "{file}:{line}:{column}: found {}, expected {}\n {number} | {shown}\n {margin} | {caret}\n",
            self.found, self.expected
        )
    }
}
