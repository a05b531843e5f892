//! Ranges of counters: as they are written, and as the proved library takes and gives them.

use crate::record::NODES;
use std::fmt;
use std::str::FromStr;

/// A lowest and a highest value, both included.
#[derive(Clone, Copy, PartialEq, Eq, Debug)]
pub struct Range {
    pub lowest: u32,
    pub highest: u32,
}

impl Range {
    pub fn of_one(value: u32) -> Range {
        Range { lowest: value, highest: value }
    }
}

/// `1..12`, or `3` for one value.
impl fmt::Display for Range {
    fn fmt(&self, to: &mut fmt::Formatter) -> fmt::Result {
        match self.lowest == self.highest {
            true => write!(to, "{}", self.lowest),
            false => write!(to, "{}..{}", self.lowest, self.highest),
        }
    }
}

/// The same read again; an error follows the name of the option.
impl FromStr for Range {
    type Err = String;

    fn from_str(word: &str) -> Result<Range, String> {
        let number = |part: &str| {
            part.trim().parse().map_err(|_| match !part.is_empty() && part.bytes().all(|b| b.is_ascii_digit()) {
                true => format!(": {part} is too large"),
                false => format!(" takes numbers and ranges such as 1..12 with commas between them, not `{word}`"),
            })
        };
        match word.split_once("..") {
            Some((lowest, highest)) => Ok(Range { lowest: number(lowest)?, highest: number(highest)? }),
            None => number(word).map(Range::of_one),
        }
    }
}

/// The lowest values of twelve counters, then the highest, 0 past those given.
pub fn laid(ranges: &[Range]) -> [u32; currantplane::RANGES] {
    let mut numbers = [0; currantplane::RANGES];
    for (counter, range) in ranges.iter().enumerate().take(NODES) {
        numbers[counter] = range.lowest;
        numbers[NODES + counter] = range.highest;
    }
    numbers
}

/// The ranges of so many counters.
pub fn read(numbers: &[u32; currantplane::RANGES], count: usize) -> Vec<Range> {
    (0..count).map(|counter| Range { lowest: numbers[counter], highest: numbers[NODES + counter] }).collect()
}
