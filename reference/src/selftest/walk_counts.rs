//! What the selftest counts of walks.

use crate::clause::Clause;

/// The walks that are drawn for each routine, and the clauses that are tried on
/// its tables.
pub const DRAWN: u64 = 4;
pub const TRIED: usize = 3;

const CLAUSES: usize = Clause::ALL.len();

/// How a walk ends.
pub const ENDS: [&str; 4] = ["whole", "refused 20 at the first move", "refused 20 later", "refused 21"];

/// What was met of walks.
#[derive(Clone, Debug, Default, PartialEq, Eq)]
pub struct WalkCounts {
    /// Walks on tables of listings and on tables drawn by hand, and the moves
    /// that they made.
    pub on_listings: u64,
    pub on_drawn: u64,
    pub moves: u64,
    /// Walks with no edges, with 4,096 that were all taken, and with 4,097, and
    /// those from a configuration that breaks the layout.
    pub empty: u64,
    pub longest: u64,
    pub too_long: u64,
    pub misplaced: u64,
    /// Walks on drawn tables that made moves before 21.
    pub overflowed_later: u64,
    /// Walks on tables that keep the layout, by their end.
    pub ends_on_listings: [u64; ENDS.len()],
    pub ends_on_drawn: [u64; ENDS.len()],
    /// Tables just outside each clause and just inside: drawn by hand, and
    /// listings with a record broken. The counts of listings are not broken.
    pub outside: [u64; CLAUSES],
    pub inside: [u64; CLAUSES],
    pub listings: [u64; CLAUSES],
}

impl WalkCounts {
    /// What is only told.
    pub fn totals(&self) -> [(&'static str, u64); 3] {
        [("walks on listings", self.on_listings), ("walks on drawn tables", self.on_drawn), ("moves of walks", self.moves)]
    }

    /// What is to be met more than once.
    pub fn ways(&self) -> Vec<(String, u64)> {
        let lengths = [
            ("with no edges", self.empty),
            ("with 4096 moves", self.longest),
            ("with 4097 edges", self.too_long),
            ("from a wrong configuration", self.misplaced),
            ("with moves before 21", self.overflowed_later),
        ];
        let mut all: Vec<(String, u64)> = lengths.map(|(name, count)| (format!("walk {name}"), count)).to_vec();
        for (place, counts) in [("listings", self.ends_on_listings), ("drawn tables", self.ends_on_drawn)] {
            all.extend(ENDS.iter().zip(counts).map(|(end, count)| (format!("walk on {place}, {end}"), count)));
        }
        // The first two clauses are of the counts, which have no records.
        let records = &Clause::ALL[2..];
        for (place, clauses, counts) in [
            ("outside", Clause::ALL, &self.outside),
            ("inside", Clause::ALL, &self.inside),
            ("listing outside", records, &self.listings),
        ] {
            let named = |clause: &Clause| (format!("layout {place}, {}", clause.name()), counts[*clause as usize]);
            all.extend(clauses.iter().map(named));
        }
        all
    }
}
