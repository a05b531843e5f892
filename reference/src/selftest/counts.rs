//! What the selftest counts and prints.

use std::fmt;

use super::drop_counts::{wanted, DropCounts};
use super::ranges::RangesCounts;
use super::search_counts::SearchCounts;
use super::walk_counts::WalkCounts;
use super::{damages, relinks, undefined};
use crate::damage::DAMAGES;
use crate::records::NODES;

/// One more of each kind is wanted for each so many routines.
const EACH: u64 = 100;

/// For each of the refusals that tell a node, how often it told which.
pub type ByNode = [[u64; NODES]; DAMAGES.len()];

/// Index 0 of the last two arrays is not used: faults and refusals count from
/// 1.
#[derive(Clone, Debug, Default, PartialEq, Eq)]
pub struct Counts {
    pub routines: u64,
    pub accepted: u64,
    pub locations: u64,
    pub edges: u64,
    /// Routines with at least 200 locations, and the most of one routine.
    pub large: u64,
    pub largest: u64,
    pub runs: u64,
    pub steps: u64,
    pub stops: u64,
    pub refused_entries: u64,
    pub refused_edges: u64,
    pub heaps: u64,
    /// The most nodes of one heap.
    pub nodes: u64,
    /// Tests that look at an undefined pointer, by their way: locations of
    /// listings, steps of runs, and single steps on images.
    pub undefined_listed: [u64; undefined::WAYS.len()],
    pub undefined_run: [u64; undefined::WAYS.len()],
    pub undefined_stepped: [u64; undefined::WAYS.len()],
    /// Steps of runs that test a pointer whose cell the run freed.
    pub freed_run: u64,
    /// Relinks by their way: edges of listings, steps of runs, and single
    /// steps on images.
    pub relinks_listed: [u64; relinks::WAYS.len()],
    pub relinks_run: [u64; relinks::WAYS.len()],
    pub relinks_stepped: [u64; relinks::WAYS.len()],
    /// Drops, in routines and on images of their own and elsewhere.
    pub drops: DropCounts,
    /// Walks, and the clauses that tables broke.
    pub walks: WalkCounts,
    /// Searches among the locations of listings and on drawn tables.
    pub searches: SearchCounts,
    /// Paths from counters within ranges.
    pub ranges: RangesCounts,
    /// Damaged H records by refusal and node, and what else was wrong there.
    pub nodes_in_inputs: ByNode,
    pub nodes_in_unfolding: ByNode,
    pub orders: [u64; damages::ORDERS.len()],
    pub faults: [u64; 4],
    pub refusals: [u64; 24],
}

impl Counts {
    /// Counts a refusal; 0 is none.
    pub fn refused(&mut self, number: u8) {
        if let Some(count) = self.refusals.get_mut(usize::from(number)) {
            *count += u64::from(number != 0);
        }
    }

    pub fn faulted(&mut self, number: u8) {
        self.faults[usize::from(number)] += 1;
    }

    /// The refusals and faults that were never met, if there are any.
    pub fn never_met(&self) -> Option<String> {
        let missing = |name: &str, counts: &[u64]| -> Vec<String> {
            (1..counts.len()).filter(|&number| counts[number] == 0).map(|number| format!("{name} {number}")).collect()
        };
        let mut all = missing("fault", &self.faults);
        all.extend(missing("refusal", &self.refusals));
        (!all.is_empty()).then(|| all.join(", "))
    }

    /// The tests of undefined pointers by place and way.
    fn undefined_tests(&self) -> Vec<(String, u64)> {
        let places = [("listings", self.undefined_listed), ("runs", self.undefined_run), ("steps", self.undefined_stepped)];
        let mut all = vec![("undefined in runs, test of a freed cell".to_string(), self.freed_run)];
        for (place, counts) in places {
            let named = |(way, count): (&&str, u64)| (format!("undefined in {place}, test {way}"), count);
            all.extend(undefined::WAYS.iter().zip(counts).map(named));
        }
        all
    }

    /// The relinks by place and way.
    fn relinks(&self) -> Vec<(String, u64)> {
        let mut all = Vec::new();
        for (place, counts) in [("listings", self.relinks_listed), ("runs", self.relinks_run), ("steps", self.relinks_stepped)] {
            let named = |((way, _), count): (&(&str, u8), u64)| (format!("relink in {place}, {way}"), count);
            all.extend(relinks::WAYS.iter().zip(counts).map(named));
        }
        all
    }

    /// What was wrong beside a damaged H record.
    fn orders(&self) -> Vec<(String, u64)> {
        let named = |(order, count): (&&str, u64)| (format!("damage {order}"), count);
        damages::ORDERS.iter().zip(self.orders).map(named).collect()
    }

    /// For each place and each refusal that tells a node, its counts for all
    /// nodes at which it can come.
    fn by_node(&self) -> Vec<(String, &[u64])> {
        let mut all = Vec::new();
        for (place, by_node) in [("inputs", &self.nodes_in_inputs), ("unfolding", &self.nodes_in_unfolding)] {
            for ((number, last), counts) in DAMAGES.into_iter().zip(by_node) {
                all.push((format!("refusal {number} in {place}"), &counts[..=last]));
            }
        }
        all
    }

    /// The same one by one.
    fn single_nodes(&self) -> Vec<(String, u64)> {
        let single = |(name, counts): (String, &[u64])| -> Vec<(String, u64)> {
            counts.iter().enumerate().map(|(node, &count)| (format!("{name} at node {node}"), count)).collect()
        };
        self.by_node().into_iter().flat_map(single).collect()
    }

    /// What is to be met more than once, by name, but for the single nodes.
    fn kinds(&self) -> Vec<(String, u64)> {
        [self.undefined_tests(), self.relinks(), self.drops.ways(), self.walks.ways(), self.orders()].concat()
    }

    /// How many tests of undefined pointers, relinks, drops, walks, broken
    /// clauses, damaged H records, searches and paths from ranges are wanted at
    /// each place in each way.
    pub fn floor(&self) -> u64 {
        1 + self.routines / EACH
    }

    /// The kinds that came too seldom, if there are any.
    pub fn too_few(&self) -> Option<String> {
        let each = self.kinds().into_iter().chain(self.single_nodes()).map(|kind| (kind, self.floor()));
        let drawn = self.drops.drawn().map(|(name, count)| ((name.to_string(), count), wanted(self.routines)));
        let few = each.chain(drawn).filter(|&((_, count), floor)| count < floor);
        let all: Vec<String> = few.map(|((name, count), floor)| format!("{name} ({count} of {floor})")).collect();
        (!all.is_empty()).then(|| all.join(", "))
    }
}

impl fmt::Display for Counts {
    fn fmt(&self, out: &mut fmt::Formatter) -> fmt::Result {
        let lines = [
            ("routines", self.routines),
            ("accepted", self.accepted),
            ("locations", self.locations),
            ("edges", self.edges),
            ("listings of 200 locations or more", self.large),
            ("most locations of a listing", self.largest),
            ("runs", self.runs),
            ("steps", self.steps),
            ("runs that met a stop", self.stops),
            ("refused entries", self.refused_entries),
            ("refused edge numbers", self.refused_edges),
            ("heaps folded", self.heaps),
            ("most nodes of a heap", self.nodes),
        ];
        let totals = self.drops.totals().into_iter().chain(self.walks.totals()).chain(self.searches.totals());
        let totals = totals.chain(self.ranges.totals());
        for (name, count) in lines.into_iter().chain(self.drops.drawn()).chain(totals) {
            writeln!(out, "{name}: {count}")?;
        }
        for (name, count) in self.kinds().into_iter().chain(self.searches.ways()).chain(self.ranges.ways()) {
            writeln!(out, "{name}: {count}")?;
        }
        for (name, counts) in self.by_node() {
            let counts: Vec<String> = counts.iter().map(u64::to_string).collect();
            writeln!(out, "{name}, node by node: {}", counts.join(" "))?;
        }
        for (number, count) in self.faults.iter().enumerate().skip(1) {
            writeln!(out, "fault {number}: {count}")?;
        }
        for (number, count) in self.refusals.iter().enumerate().skip(1) {
            writeln!(out, "refusal {number}: {count}")?;
        }
        Ok(())
    }
}
