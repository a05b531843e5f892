//! Paths from counters within ranges, on listings and on tables drawn by hand:
//! computed, and start by start.

use super::counts::Counts;
use super::images::want;
use crate::ranges::Ranged;
use crate::ranges_draw::{draw_ranges, DrawnRanges, RangesClause};

/// The calls that are drawn for each routine.
pub const DRAWN: u64 = 2;

/// What was met of paths from ranges.
#[derive(Clone, Debug, Default, PartialEq, Eq)]
pub struct RangesCounts {
    /// All calls, those on listings, and those that were also searched.
    pub calls: u64,
    pub on_listings: u64,
    pub searched: u64,
    /// How often each clause was met.
    pub clauses: [u64; RangesClause::ALL.len()],
}

impl RangesCounts {
    /// What is only told.
    pub fn totals(&self) -> [(&'static str, u64); 3] {
        let on_listings = ("ranges on listings", self.on_listings);
        [("ranges with a path", self.calls), on_listings, ("ranges that were searched", self.searched)]
    }

    /// What is to be met more than once.
    pub fn ways(&self) -> Vec<(String, u64)> {
        let named = |(clause, count): (&RangesClause, u64)| (format!("ranges, {}", clause.name()), count);
        RangesClause::ALL.iter().zip(self.clauses).map(named).collect()
    }

    /// The clauses that were met less often than this, if there are any.
    pub fn too_few(&self, floor: u64) -> Option<String> {
        let few = self.ways().into_iter().filter(|&(_, count)| count < floor);
        let all: Vec<String> = few.map(|(name, count)| format!("{name} ({count} of {floor})")).collect();
        (!all.is_empty()).then(|| all.join(", "))
    }
}

/// A call drawn by hand.
pub fn on_drawn_tables(counts: &mut Counts, seed: u64) -> Result<(), String> {
    let drawn = draw_ranges(seed);
    test_drawn(counts, &drawn).map_err(|difference| format!("{difference}, in {drawn:?}"))
}

fn test_drawn(counts: &mut Counts, drawn: &DrawnRanges) -> Result<(), String> {
    let answer = drawn.answer();
    if let Some(due) = drawn.searched() {
        want(answer == due, &format!("{answer:?} where {due:?} is due"))?;
        counts.ranges.searched += 1;
    }
    if let Ranged::Refused { number, .. } = answer {
        counts.refused(number);
    }
    counts.ranges.calls += 1;
    counts.ranges.on_listings += u64::from(drawn.listed);
    for clause in RangesClause::met(drawn, &answer) {
        counts.ranges.clauses[clause as usize] += 1;
    }
    Ok(())
}
