//! The line-based text form of heaps, records, tables and counters.

use std::str::FromStr;

use crate::records::{hex, NODES, NULL, UNDEFINED, UNUSED};

/// One line: its number from 1, its name and the words after the name.
struct Line<'a> {
    number: usize,
    name: &'a str,
    words: Vec<&'a str>,
}

/// The lines of an input, each name at most once.
pub struct Lines<'a> {
    lines: Vec<Line<'a>>,
}

impl<'a> Lines<'a> {
    /// Takes an input apart; `names` are those that may stand there.
    pub fn read(input: &'a [u8], names: &[&str]) -> Result<Lines<'a>, String> {
        let text = std::str::from_utf8(input).map_err(|error| {
            let before = &input[..error.valid_up_to()];
            let line = 1 + before.iter().filter(|&&byte| byte == b'\n').count();
            format!("line {line}: not plain text")
        })?;
        let mut lines: Vec<Line> = Vec::new();
        for (index, line) in text.lines().enumerate() {
            let number = index + 1;
            let said = line.split('#').next().unwrap_or("");
            let mut words = said.split_whitespace();
            let Some(name) = words.next() else { continue };
            if !names.contains(&name) {
                let names = names.join(", ");
                return Err(format!("line {number}: '{name}' is none of: {names}"));
            }
            if let Some(earlier) = lines.iter().find(|earlier| earlier.name == name) {
                let earlier = earlier.number;
                return Err(format!("line {number}: '{name}' stands in line {earlier} already"));
            }
            lines.push(Line { number, name, words: words.collect() });
        }
        Ok(Lines { lines })
    }

    pub fn has(&self, name: &str) -> bool {
        self.lines.iter().any(|line| line.name == name)
    }

    fn line(&self, name: &str) -> Result<&Line<'a>, String> {
        let found = self.lines.iter().find(|line| line.name == name);
        found.ok_or_else(|| format!("no line '{name}'"))
    }

    /// The values of a line as bytes.
    pub fn values(&self, name: &str) -> Result<Vec<u8>, String> {
        let line = self.line(name)?;
        line.words.iter().map(|word| line.check(value(word))).collect()
    }

    /// The bytes of a line of hex digits.
    pub fn bytes(&self, name: &str) -> Result<Vec<u8>, String> {
        let line = self.line(name)?;
        line.check(from_hex(line.only_word()?))
    }

    /// The bytes of a line of hex digits, of which there may be none.
    pub fn table(&self, name: &str) -> Result<Vec<u8>, String> {
        let line = self.line(name)?;
        match line.words[..] {
            [] => Ok(Vec::new()),
            [word] => line.check(from_hex(word)),
            _ => line.check(Err(format!("'{name}' is followed by at most one word"))),
        }
    }

    /// The only number of a line.
    pub fn number(&self, name: &str) -> Result<u64, String> {
        let line = self.line(name)?;
        line.check(number(line.only_word()?))
    }

    /// The only number of a line, which may be left out.
    pub fn number_or_zero(&self, name: &str) -> Result<u64, String> {
        if self.has(name) {
            self.number(name)
        } else {
            Ok(0)
        }
    }

    /// The only two numbers of a line.
    pub fn two_numbers(&self, name: &str) -> Result<[u64; 2], String> {
        let line = self.line(name)?;
        match line.words[..] {
            [first, second] => Ok([line.check(number(first))?, line.check(number(second))?]),
            _ => line.check(Err(format!("'{name}' is followed by exactly two words"))),
        }
    }

    /// A length, which is kept within what is worth lending.
    pub fn length(&self, name: &str) -> Result<usize, String> {
        let line = self.line(name)?;
        let length: u64 = line.check(number(line.only_word()?))?;
        if length > 65_536 {
            return line.check(Err(format!("{length} is above 65536")));
        }
        Ok(length as usize)
    }

    /// The only number of a line, which is below 2^32.
    pub fn short_number(&self, name: &str) -> Result<u32, String> {
        let line = self.line(name)?;
        line.check(number(line.only_word()?))
    }

    /// The numbers of a line, which are below 2^32, however many there are.
    pub fn short_numbers(&self, name: &str) -> Result<Vec<u32>, String> {
        let line = self.line(name)?;
        line.words.iter().map(|word| line.check(number(word))).collect()
    }

    /// The same, of which there are exactly twelve.
    pub fn twelve_numbers(&self, name: &str) -> Result<[u32; NODES], String> {
        let line = self.line(name)?;
        let numbers = <[u32; NODES]>::try_from(self.short_numbers(name)?);
        line.check(numbers.map_err(|_| format!("'{name}' is followed by exactly twelve words")))
    }
}

impl Line<'_> {
    fn only_word(&self) -> Result<&str, String> {
        match self.words[..] {
            [word] => Ok(word),
            _ => self.check(Err(format!("'{}' is followed by exactly one word", self.name))),
        }
    }

    /// Puts the line number before an error.
    fn check<T>(&self, result: Result<T, String>) -> Result<T, String> {
        result.map_err(|error| format!("line {}: {error}", self.number))
    }
}

fn number<T: FromStr>(word: &str) -> Result<T, String> {
    // Only digits: a sign would be read as well.
    let digits = word.bytes().all(|byte| byte.is_ascii_digit());
    match word.parse() {
        Ok(number) if digits => Ok(number),
        _ => Err(format!("'{word}' is no number, or too large")),
    }
}

fn value(word: &str) -> Result<u8, String> {
    match word {
        "null" => Ok(NULL),
        "undef" => Ok(UNDEFINED),
        "unused" => Ok(UNUSED),
        _ => match number::<u8>(word) {
            Ok(byte) if byte < UNUSED => Ok(byte),
            _ => Err(format!("'{word}' is no number from 0 to 252, null, undef or unused")),
        },
    }
}

fn from_hex(word: &str) -> Result<Vec<u8>, String> {
    let digits: Option<Vec<u8>> = word.chars().map(|digit| digit.to_digit(16).map(|digit| digit as u8)).collect();
    match digits {
        Some(digits) if digits.len() % 2 == 0 => Ok(digits.chunks(2).map(|pair| pair[0] << 4 | pair[1]).collect()),
        _ => Err(format!("'{word}' is not made of pairs of hex digits")),
    }
}

/// A line of values.
pub fn write_values(name: &str, bytes: &[u8]) -> String {
    let word = |&byte: &u8| match byte {
        NULL => " null".to_string(),
        UNDEFINED => " undef".to_string(),
        UNUSED => " unused".to_string(),
        number => format!(" {number}"),
    };
    let words: String = bytes.iter().map(word).collect();
    format!("{name}{words}\n")
}

/// A line with the hex digits of a record.
pub fn write_record(name: &str, bytes: &[u8]) -> String {
    format!("{name} {}\n", hex(bytes))
}

/// A line of all twelve counters.
pub fn write_counters(name: &str, counters: &[u32; NODES]) -> String {
    let words: String = counters.iter().map(|counter| format!(" {counter}")).collect();
    format!("{name}{words}\n")
}

#[cfg(test)]
mod tests {
    use super::*;

    #[test]
    fn values_are_read_and_written() {
        let input = b"# a heap\n\ncells 1 null unused # three\npointers 0 undef 252\n";
        let lines = Lines::read(input, &["pointers", "cells"]).unwrap();
        assert_eq!(lines.values("cells"), Ok(vec![1, NULL, UNUSED]));
        assert_eq!(lines.values("pointers"), Ok(vec![0, UNDEFINED, 252]));
        assert_eq!(write_values("cells", &[1, NULL, UNUSED, UNDEFINED]), "cells 1 null unused undef\n");
    }

    #[test]
    fn counters_are_read_however_many() {
        for count in [0, 1, 11, 12, 13, 1000] {
            let counters: Vec<u32> = (0..count).map(|number| u32::MAX - number).collect();
            let words: Vec<String> = counters.iter().map(u32::to_string).collect();
            let input = format!("counters {}\n", words.join(" "));
            let lines = Lines::read(input.as_bytes(), &["counters"]).unwrap();
            let twelve = lines.twelve_numbers("counters").map(|twelve| twelve.to_vec());
            if count == 12 {
                assert_eq!(twelve.as_ref(), Ok(&counters));
            } else {
                assert_eq!(twelve, Err("line 1: 'counters' is followed by exactly twelve words".to_string()));
            }
            assert_eq!(lines.short_numbers("counters"), Ok(counters));
        }
    }

    #[test]
    fn errors_name_the_line() {
        let error = |input: &[u8]| match Lines::read(input, &["counters", "record"]) {
            Err(error) => error,
            Ok(lines) => lines.short_numbers("counters").and_then(|_| lines.bytes("record")).expect_err("an error"),
        };
        assert!(error(b"\npointers 0").starts_with("line 2: 'pointers' is none of"));
        assert!(error(b"record 00\ncounters 1\nrecord 00").starts_with("line 3: 'record' stands"));
        assert!(error(b"\n\ncounters \xff").starts_with("line 3: not plain"));
        assert!(error(b"counters 4294967296").starts_with("line 1: '4294967296' is no number"));
        assert!(error(b"counters +1").starts_with("line 1: '+1' is no number"));
        assert!(error(b"counters\nrecord 123").starts_with("line 2: '123' is not made of pairs"));
        assert!(error(b"counters\nrecord 00 00").starts_with("line 2: 'record' is followed by"));
        assert_eq!(error(b"counters 1"), "no line 'record'");
    }

    #[test]
    fn tables_and_pairs_of_numbers() {
        let names = ["locations", "edges", "counts"];
        let lines = Lines::read(b"counts 0 18446744073709551615\nedges\nlocations 00fF7a", &names).unwrap();
        assert_eq!(lines.table("locations"), Ok(vec![0, 0xff, 0x7a]));
        assert_eq!(lines.table("edges"), Ok(vec![]));
        assert_eq!(lines.two_numbers("counts"), Ok([0, u64::MAX]));
        let lines = Lines::read(b"locations 0\nedges 00 00\ncounts 1", &names).unwrap();
        assert_eq!(lines.table("locations"), Err("line 1: '0' is not made of pairs of hex digits".to_string()));
        assert_eq!(lines.table("edges"), Err("line 2: 'edges' is followed by at most one word".to_string()));
        assert_eq!(lines.two_numbers("counts"), Err("line 3: 'counts' is followed by exactly two words".to_string()));
    }
}
