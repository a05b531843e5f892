//! A routine from a file: text or records.

use crate::automaton::{check, tables, Automaton, Places, Refusal};
use crate::names;
use crate::record::{Routine, SIZE};
use crate::text::{assemble, Assembled};
use std::io::Read;

/// Why a command ends without its result, with the exit status.
#[derive(Debug)]
pub struct Failure {
    pub status: u8,
    pub message: String,
}

pub const REFUSED: u8 = 1;
pub const BAD_USE: u8 = 2;

impl Failure {
    pub fn bad_use(message: impl Into<String>) -> Failure {
        Failure { status: BAD_USE, message: format!("currantplane: {}\n", message.into()) }
    }
}

/// What the text says of the records.
#[derive(Debug)]
pub struct Text {
    pub content: String,
    pub assembled: Assembled,
}

#[derive(Debug)]
pub struct Source {
    pub name: String,
    pub records: Vec<u8>,
    pub text: Option<Text>,
}

/// Every S and H record holds a zero byte, and no text does. An empty file is no records.
pub fn is_records(bytes: &[u8]) -> bool {
    bytes.is_empty() || bytes.contains(&0) || std::str::from_utf8(bytes).is_err()
}

/// The bytes of a file, or of standard input for `-`.
pub fn bytes(name: &str) -> Result<Vec<u8>, Failure> {
    let mut out = Vec::new();
    let read = match name {
        "-" => std::io::stdin().read_to_end(&mut out).map(|_| ()),
        _ => std::fs::read(name).map(|b| out = b),
    };
    read.map_err(|e| Failure::bad_use(format!("cannot read {name}: {e}")))?;
    Ok(out)
}

impl Source {
    pub fn open(name: &str) -> Result<Source, Failure> {
        let bytes = bytes(name)?;
        let name = if name == "-" { "standard input" } else { name };
        Source::of_bytes(name, bytes)
    }

    pub fn of_bytes(name: &str, bytes: Vec<u8>) -> Result<Source, Failure> {
        let name = name.to_string();
        if is_records(&bytes) {
            return Ok(Source { name, records: bytes, text: None });
        }
        let content = String::from_utf8_lossy(&bytes).into_owned();
        match assemble(&content) {
            Ok(assembled) => Ok(Source { name, records: assembled.records.clone(), text: Some(Text { content, assembled }) }),
            Err(error) => Err(Failure { status: BAD_USE, message: error.show(&name, &content) }),
        }
    }

    /// The records in parts, if the proved checks of the input pass.
    pub fn routine(&self) -> Result<Routine, Refusal> {
        check(&self.records)?;
        Ok(Routine::read(&self.records))
    }

    pub fn automaton(&self, places: Places) -> Result<Automaton, Refusal> {
        tables(&self.records, places).map(Automaton::read)
    }

    /// The label of a statement, if the text gives one.
    pub fn label(&self, statement: usize) -> Option<&str> {
        let labels = self.text.as_ref()?.assembled.labels.get(statement)?;
        labels.first().map(String::as_str)
    }

    /// `statement 3` or `statement 3 (loop)`
    pub fn statement_name(&self, statement: usize) -> String {
        match self.label(statement) {
            Some(label) => format!("statement {statement} ({})", names::short(label)),
            None => format!("statement {statement}"),
        }
    }

    pub fn record(&self, place: usize) -> &[u8] {
        let from = (SIZE * place).min(self.records.len());
        &self.records[from..(from + SIZE).min(self.records.len())]
    }
}
