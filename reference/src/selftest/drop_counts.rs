//! What the selftest counts of drops.

use super::drops::WAYS;

/// The inputs and the images that are drawn for each routine.
pub const INPUTS: u64 = 2;
pub const IMAGES: u64 = 4;

/// What was met of drops.
#[derive(Clone, Debug, Default, PartialEq, Eq)]
pub struct DropCounts {
    /// Inputs drawn for drops whose listing has a location at one, and these
    /// locations.
    pub inputs: u64,
    pub locations: u64,
    /// Heaps that were unfolded at such locations and stepped.
    pub heaps: u64,
    /// Images that were stepped, those with all 240 cells in use, and the
    /// cells of all of them.
    pub images: u64,
    pub full_images: u64,
    pub cells_before: u64,
    pub cells_after: u64,
    pub cells_collected: u64,
    /// Drops by their ways: locations of listings, steps of runs, and single
    /// steps on images.
    pub listed: [u64; WAYS.len()],
    pub run: [u64; WAYS.len()],
    pub stepped: [u64; WAYS.len()],
}

impl DropCounts {
    /// What is only told.
    pub fn totals(&self) -> [(&'static str, u64); 6] {
        [
            ("drop locations of such inputs", self.locations),
            ("drop heaps unfolded there", self.heaps),
            ("drop images with all cells in use", self.full_images),
            ("drop images, cells before", self.cells_before),
            ("drop images, cells after", self.cells_after),
            ("drop images, cells collected", self.cells_collected),
        ]
    }

    /// How many inputs and images there are.
    pub fn drawn(&self) -> [(&'static str, u64); 2] {
        [("drop inputs with a location at a drop", self.inputs), ("drop images", self.images)]
    }

    /// The drops by place and way.
    pub fn ways(&self) -> Vec<(String, u64)> {
        let mut all = Vec::new();
        for (place, counts) in [("listings", self.listed), ("runs", self.run), ("steps", self.stepped)] {
            let named = |(way, count): (&&str, u64)| (format!("drop in {place}, {way}"), count);
            all.extend(WAYS.iter().zip(counts).map(named));
        }
        all
    }
}

/// How many inputs with a location at a drop, and how many images, are wanted
/// for so many routines: 20,000 for the 12,000 that are usual.
pub fn wanted(routines: u64) -> u64 {
    routines * 5 / 3
}

/// Counts one more of each of these ways.
pub fn count_ways(counts: &mut [u64; WAYS.len()], ways: &[usize]) {
    for &way in ways {
        counts[way] += 1;
    }
}
