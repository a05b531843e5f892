//! What the selftest counts of searches.

use crate::records::RECORD;
use crate::search_draw::DrawnSearch;
use crate::translate::LOCATIONS;

/// The searches that are drawn for each routine.
pub const DRAWN: u64 = 5;

/// A drawn search and what came of it.
pub struct Searched<'a> {
    drawn: &'a DrawnSearch,
    answer: Option<usize>,
    /// The places that the length has, those of them that count, and the count
    /// cut to these.
    whole: usize,
    places: usize,
    limit: usize,
    /// How many equal records stand below the cut count and from it on.
    below: usize,
    past: usize,
}

impl Searched<'_> {
    pub fn new(drawn: &DrawnSearch, answer: Option<usize>) -> Searched<'_> {
        let whole = drawn.table.len() / RECORD;
        let places = whole.min(LOCATIONS);
        let limit = drawn.count.min(places);
        let below = drawn.equal.iter().filter(|&&number| number < limit).count();
        Searched { drawn, answer, whole, places, limit, below, past: drawn.equal.len() - below }
    }

    fn length(&self) -> usize {
        self.drawn.record.len()
    }

    fn is_zero(&self) -> bool {
        self.length() == RECORD && self.drawn.record.iter().all(|&byte| byte == 0)
    }

    fn misses(&self) -> bool {
        self.answer.is_none() && self.length() == RECORD
    }

    /// Whether a record that is searched has this to do with the record.
    fn some(&self, alike: fn(&[u8], &[u8]) -> bool) -> bool {
        self.drawn.table.chunks(RECORD).take(self.limit).any(|record| alike(record, &self.drawn.record))
    }

    fn rest(&self) -> &[u8] {
        &self.drawn.table[self.whole * RECORD..]
    }
}

/// Whether all bytes are equal but that one.
fn differs_at(one: &[u8], other: &[u8], at: usize) -> bool {
    one[..at] == other[..at] && one[at] != other[at] && one[at + 1..] == other[at + 1..]
}

/// A way of drawn searches: its name, and whether it is met.
type Way = (&'static str, fn(&Searched) -> bool);

pub const WAYS: [Way; 32] = [
    ("table without bytes", |s| s.drawn.table.is_empty()),
    ("table shorter than a record", |s| s.whole == 0 && !s.rest().is_empty()),
    ("table with bytes past its last place", |s| s.whole > 0 && !s.rest().is_empty()),
    ("table of 1024 places", |s| s.whole == LOCATIONS),
    ("table of more than 1024 places", |s| s.whole > LOCATIONS),
    ("count 0", |s| s.drawn.count == 0),
    ("count below the places", |s| (1..s.places).contains(&s.drawn.count)),
    ("count of all places", |s| s.places > 0 && s.drawn.count == s.places),
    ("count cut to the length", |s| s.whole <= LOCATIONS && s.drawn.count > s.whole),
    ("count cut to 1024", |s| s.drawn.count > LOCATIONS && s.drawn.count <= s.whole),
    ("count that has too many bytes for a size", |s| s.drawn.count > usize::MAX / RECORD),
    ("record without bytes", |s| s.length() == 0),
    ("record that others begin with", |s| (1..RECORD).contains(&s.length()) && s.some(|other, record| other.starts_with(record))),
    ("record that begins with another", |s| s.length() > RECORD && s.some(|other, record| record.starts_with(other))),
    ("found in the only place", |s| s.limit == 1 && s.answer == Some(0)),
    ("found at the newest", |s| s.limit > 1 && s.answer == Some(s.limit - 1)),
    ("found at the oldest", |s| s.limit > 1 && s.answer == Some(0)),
    ("found between them", |s| s.answer.is_some_and(|number| (1..s.limit - 1).contains(&number))),
    ("found of one", |s| s.answer.is_some() && s.below == 1 && s.past == 0),
    ("found of several", |s| s.answer.is_some() && s.below > 1 && s.below < s.limit),
    ("found where all are equal", |s| s.answer.is_some() && s.below > 1 && s.below == s.limit),
    ("found, and past the count as well", |s| s.answer.is_some() && s.past > 0),
    ("found below a count that is cut", |s| s.answer.is_some() && s.drawn.count > s.limit),
    ("found at 1023", |s| s.answer == Some(LOCATIONS - 1)),
    ("found, all zeros", |s| s.answer.is_some() && s.is_zero()),
    ("none, but at the count", |s| s.misses() && s.limit < s.places && s.drawn.equal.first() == Some(&s.limit)),
    ("none, but past the count", |s| s.misses() && s.limit < s.places && s.drawn.equal.first() > Some(&s.limit)),
    ("none, but past 1024 places", |s| s.misses() && s.limit == LOCATIONS && s.past > 0),
    ("none, but across two places", |s| s.misses() && s.drawn.across.is_some_and(|offset| offset + RECORD <= s.limit * RECORD)),
    ("none, but equal up to the last byte", |s| s.misses() && s.some(|one, other| differs_at(one, other, RECORD - 1))),
    ("none, but equal from the second byte on", |s| s.misses() && s.some(|one, other| differs_at(one, other, 0))),
    ("none, but begun past the last place", |s| s.misses() && s.rest().len() > 1 && s.drawn.record.starts_with(s.rest())),
];

/// How far back the searches of listings go.
pub const DISTANCES: [&str; 4] = ["a new location", "the newest", "one of the last eight", "one further back"];

/// What was met of searches.
#[derive(Clone, Debug, Default, PartialEq, Eq)]
pub struct SearchCounts {
    /// Searches on drawn tables, and those that were found.
    pub on_drawn: u64,
    pub found: u64,
    /// The searches on drawn tables by their ways.
    pub drawn: [u64; WAYS.len()],
    /// The searches of listings by how far back they go.
    pub listed: [u64; DISTANCES.len()],
}

impl SearchCounts {
    /// What is only told.
    pub fn totals(&self) -> [(&'static str, u64); 2] {
        [("searches on drawn tables", self.on_drawn), ("searches that found one there", self.found)]
    }

    /// What is to be met more than once.
    pub fn ways(&self) -> Vec<(String, u64)> {
        let drawn = WAYS.iter().zip(self.drawn).map(|((way, _), count)| (format!("search on drawn tables, {way}"), count));
        let listed =
            DISTANCES.iter().zip(self.listed).map(|(distance, count)| (format!("search in listings, {distance}"), count));
        drawn.chain(listed).collect()
    }

    /// The ways that were met less often than this, if there are any.
    pub fn too_few(&self, floor: u64) -> Option<String> {
        let few = self.ways().into_iter().filter(|&(_, count)| count < floor);
        let all: Vec<String> = few.map(|(name, count)| format!("{name} ({count} of {floor})")).collect();
        (!all.is_empty()).then(|| all.join(", "))
    }
}
