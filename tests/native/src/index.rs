//! The index of the known locations, replayed from a listing: how many records each search of a translation looks at. The hash is read
//! from the text of the code, so that the count follows the code.

use crate::walks::Tables;

const RECORD: usize = 32;

/// A hash of records: words of four bytes, each times a number, are added up; the sum is divided, and what is left of that by the number
/// of hashes counts.
#[derive(Clone, Debug, PartialEq)]
pub struct Hash {
    /// Where each word begins, and what it is taken times.
    pub words: Vec<(usize, u64)>,
    pub divisor: u64,
    pub hashes: u64,
}

impl Hash {
    /// The one in crates/index.
    pub fn of_the_code() -> Hash {
        let path = concat!(env!("CARGO_MANIFEST_DIR"), "/../../crates/index/src/lib.rt");
        let text = std::fs::read_to_string(path).unwrap_or_else(|error| panic!("{path}: {error}"));
        Hash::read(&text).unwrap_or_else(|why| panic!("{path}: {why}"))
    }

    /// The function `hash` of such a text; or what of it is not as it is expected.
    pub fn read(text: &str) -> Result<Hash, String> {
        let function = between(text, "pub fn hash(rec: &[u8]) -> usize\n", "\n}\n")?;
        let (_, body) = function.split_once("{\n    let sum = ").ok_or("no 'let sum = ' begins the body of `hash`")?;
        let (sum, rest) = body.split_once(";\n").ok_or("no ';' ends the sum of `hash`")?;
        let words = sum.split('+').map(|term| word(term.trim())).collect::<Result<_, _>>()?;
        let (divisor, hashes) = divided(rest.trim())?;
        let told = number(between(text, "pub const HASHES: usize = ", ";")?)?;
        if hashes != told {
            return Err(format!("`hash` is below {hashes}, and HASHES is {told}"));
        }
        Ok(Hash { words, divisor, hashes })
    }

    pub fn of(&self, record: &[u8]) -> usize {
        let four = |at: usize| u64::from(u32::from_le_bytes([record[at], record[at + 1], record[at + 2], record[at + 3]]));
        let sum: u64 = self.words.iter().map(|&(at, times)| four(at) * times).sum();
        (sum / self.divisor % self.hashes) as usize
    }
}

/// What stands between two words of a text, from the first of them on.
fn between<'a>(text: &'a str, before: &str, after: &str) -> Result<&'a str, String> {
    let begun = text.split_once(before).and_then(|(_, rest)| rest.split_once(after));
    begun.map(|(part, _)| part).ok_or_else(|| format!("no {before:?} with {after:?} after it"))
}

/// A word of the sum: 'four(rec, PLACE) as u64 * NUMBER'.
fn word(term: &str) -> Result<(usize, u64), String> {
    let parts = term.strip_prefix("four(rec, ").and_then(|rest| rest.split_once(") as u64 * "));
    let (at, times) = parts.ok_or_else(|| format!("'{term}' is no 'four(rec, PLACE) as u64 * NUMBER'"))?;
    match number(at)? as usize {
        at if at <= RECORD - 4 => Ok((at, number(times)?)),
        at => Err(format!("a word at {at} does not stand in a record")),
    }
}

/// What is made of the sum: '(sum / DIVISOR % HASHES) as usize'.
fn divided(end: &str) -> Result<(u64, u64), String> {
    let inner = end.strip_prefix("(sum / ").and_then(|rest| rest.strip_suffix(") as usize"));
    let parts = inner.and_then(|inner| inner.split_once(" % "));
    let (divisor, hashes) = parts.ok_or_else(|| format!("'{end}' is no '(sum / DIVISOR % HASHES) as usize'"))?;
    match (number(divisor)?, number(hashes)?) {
        (0, _) | (_, 0) => Err(format!("'{end}' divides by 0")),
        both => Ok(both),
    }
}

/// A number in decimal or hex digits, with underscores.
fn number(text: &str) -> Result<u64, String> {
    let digits = text.replace('_', "");
    let read = digits.strip_prefix("0x").map_or_else(|| digits.parse(), |hex| u64::from_str_radix(hex, 16));
    read.map_err(|_| format!("'{text}' is no number"))
}

/// One search: the number that its target gets, whether that is a known one, and how many records it looks at, by the index and without
/// one, from the newest back.
pub struct Look {
    pub target: usize,
    pub known: bool,
    pub by_index: usize,
    pub linear: usize,
}

/// The locations entered so far: the newest one with each hash, and for each the newest one before it with the same hash.
struct Index<'a> {
    hash: &'a Hash,
    records: Vec<&'a [u8]>,
    newest: Vec<Option<usize>>,
    before: Vec<Option<usize>>,
}

impl<'a> Index<'a> {
    fn new(hash: &'a Hash) -> Index<'a> {
        Index { hash, records: vec![], newest: vec![None; hash.hashes as usize], before: vec![] }
    }

    fn enter(&mut self, record: &'a [u8]) {
        let newest = &mut self.newest[self.hash.of(record)];
        self.before.push(newest.replace(self.records.len()));
        self.records.push(record);
    }

    /// The record is looked for, and entered where it is not known.
    fn look(&mut self, record: &'a [u8]) -> Look {
        let (count, mut by_index) = (self.records.len(), 0);
        let mut at = self.newest[self.hash.of(record)];
        while let Some(number) = at {
            by_index += 1;
            if self.records[number] == record {
                return Look { target: number, known: true, by_index, linear: count - number };
            }
            at = self.before[number];
        }
        self.enter(record);
        Look { target: count, known: false, by_index, linear: count }
    }
}

/// How many starting shapes a routine has. They are its first locations.
pub fn starts(input: &[u8]) -> usize {
    input.chunks(RECORD).filter(|record| record[0] == 0x48).count()
}

/// The searches of the translation that wrote these tables, one for each edge, with such a hash.
pub fn replay(t: &Tables, starts: usize, hash: &Hash) -> Vec<Look> {
    let mut index = Index::new(hash);
    t.locations.chunks(RECORD).take(starts).for_each(|record| index.enter(record));
    (0..t.counts[1] as u32).map(|edge| index.look(t.location(target(t, edge) as u32))).collect()
}

/// The number of the location that an edge leads to.
pub fn target(t: &Tables, edge: u32) -> usize {
    u16::from_le_bytes([t.edge(edge)[4], t.edge(edge)[5]]).into()
}

/// Of these, on average.
pub fn average(looked: impl Iterator<Item = usize>) -> f64 {
    let (count, sum) = looked.fold((0, 0), |(count, sum), records| (count + 1, sum + records));
    sum as f64 / count as f64
}
