//! The words of the command line.

use crate::bounds::Range;
use crate::record::{from_hex, Record};
use crate::source::{bytes, Failure};
use std::str::FromStr;

/// A command's options: which take a value.
pub type Known = &'static [(&'static str, bool)];

/// A command's file, the words after it, and options.
#[derive(Debug)]
pub struct Arguments {
    command: String,
    pub file: String,
    pub words: Vec<String>,
    options: Vec<(&'static str, String)>,
}

/// A wrong use, with how to get the right one.
pub fn wrong(command: &str, message: impl std::fmt::Display) -> Failure {
    Failure::bad_use(format!("{command}: {message}\nTry `currantplane help {command}`."))
}

impl Arguments {
    /// One FILE, and options.
    pub fn read(command: &str, words: &[String], known: Known) -> Result<Arguments, Failure> {
        Arguments::read_words(command, words, known, &[])
    }

    /// One FILE, a word for each name, and options.
    pub fn read_words(command: &str, words: &[String], known: Known, names: &[&str]) -> Result<Arguments, Failure> {
        let mut plain: Vec<String> = Vec::new();
        let mut options: Vec<(&'static str, String)> = Vec::new();
        let mut rest = words.iter();
        while let Some(word) = rest.next() {
            if !word.starts_with('-') || word == "-" {
                plain.push(word.clone());
                continue;
            }
            let (name, mut value) = match word.split_once('=') {
                Some((name, value)) => (name, Some(value.to_string())),
                None => (word.as_str(), None),
            };
            let Some(&(name, takes)) = known.iter().find(|(k, _)| *k == name) else {
                return Err(wrong(command, format!("there is no option {name}")));
            };
            if takes && value.is_none() {
                value = rest.next().cloned();
            }
            if takes != value.is_some() {
                return Err(wrong(command, format!("{name} takes {}", if takes { "a value" } else { "no value" })));
            }
            if options.iter().any(|(n, _)| *n == name) {
                return Err(wrong(command, format!("{name} stands there twice")));
            }
            options.push((name, value.unwrap_or_default()));
        }
        if plain.len() == 1 + names.len() {
            let file = plain.remove(0);
            return Ok(Arguments { command: command.into(), file, words: plain, options });
        }
        let needed = match names {
            [] => "one FILE is needed (`-` for standard input)".into(),
            _ => format!("FILE {} are needed", names.join(" ")),
        };
        Err(wrong(command, format!("{needed}, and {} given", plain.len())))
    }

    pub fn has(&self, name: &str) -> bool {
        self.value(name).is_some()
    }

    pub fn value(&self, name: &str) -> Option<&str> {
        self.options.iter().find(|(n, _)| *n == name).map(|(_, value)| value.as_str())
    }

    /// The file that an option names for the result; `-` is standard output, as when none is named.
    pub fn output(&self, name: &str) -> Option<String> {
        self.value(name).filter(|file| *file != "-").map(String::from)
    }

    /// A number of at most `most`; `usual` where none is given.
    pub fn number(&self, name: &str, usual: usize, most: usize) -> Result<usize, Failure> {
        let Some(word) = self.value(name) else { return Ok(usual) };
        match word.parse() {
            Ok(n) if n <= most => Ok(n),
            _ => Err(wrong(&self.command, format!("{name} takes a number from 0 to {most}, not `{word}`"))),
        }
    }

    /// Numbers with commas between them; none where nothing is given.
    pub fn numbers<T: FromStr>(&self, name: &str) -> Result<Vec<T>, Failure> {
        let words = self.value(name).unwrap_or("");
        self.read_numbers(name, words.split(',').map(str::trim).filter(|_| !words.is_empty()))
    }

    /// Numbers and ranges with commas between them, as in `1..12,3`; none where nothing is given.
    pub fn ranges(&self, name: &str) -> Result<Vec<Range>, Failure> {
        let words = self.value(name).unwrap_or("");
        let read = |word: &str| word.parse().map_err(|why| wrong(&self.command, format!("{name}{why}")));
        words.split(',').map(str::trim).filter(|_| !words.is_empty()).map(read).collect()
    }

    /// Numbers with commas between them, or for `-` those of standard input, where white space too may stand between them.
    pub fn numbers_or_input<T: FromStr>(&self, name: &str) -> Result<Vec<T>, Failure> {
        if self.value(name) != Some("-") {
            return self.numbers(name);
        }
        let words = self.input(name)?;
        self.read_numbers(name, words.split(|c: char| c == ',' || c.is_whitespace()).filter(|word| !word.is_empty()))
    }

    fn read_numbers<'a, T: FromStr>(&self, name: &str, words: impl Iterator<Item = &'a str>) -> Result<Vec<T>, Failure> {
        let too_large = |word: &str| !word.is_empty() && word.bytes().all(|b| b.is_ascii_digit());
        let read = |word: &str| {
            word.parse().map_err(|_| match too_large(word) {
                true => wrong(&self.command, format!("{name}: {word} is too large")),
                false => wrong(&self.command, format!("{name} takes numbers with commas between them, not `{word}`")),
            })
        };
        words.map(read).collect()
    }

    /// The record that a word gives in hex digits, or for `-` standard input; white space may stand around them.
    pub fn record_or_input(&self, name: &str, word: &str) -> Result<Record, Failure> {
        let digits = if word == "-" { self.input(name)? } else { word.into() };
        from_hex(digits.trim()).map_err(|why| wrong(&self.command, format!("{name} is 64 hex digits, and {why}")))
    }

    /// Standard input for what has this name, where it is not the FILE.
    fn input(&self, name: &str) -> Result<String, Failure> {
        if self.file == "-" {
            return Err(wrong(&self.command, format!("FILE and {name} cannot both be standard input")));
        }
        Ok(String::from_utf8_lossy(&bytes("-")?).into_owned())
    }

    /// At most one of these may be given.
    pub fn only_one(&self, names: &[&str]) -> Result<(), Failure> {
        let given: Vec<&str> = names.iter().copied().filter(|n| self.has(n)).collect();
        if given.len() > 1 {
            return Err(wrong(&self.command, format!("{} do not go together", given.join(" and "))));
        }
        Ok(())
    }
}
