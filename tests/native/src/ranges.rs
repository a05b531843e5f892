//! Paths from counters that are known within ranges: what both tell, and every number that is written or left.

use crate::draw::Draw;
use crate::walks::Tables;
use crate::{follow_ranges, tell_ranges, Ranged, RANGES};
use reference::ranges_draw::DrawnRanges;

const NODES: usize = 12;
/// So many numbers stand on each side of a slice that is lent.
const SIDE: usize = 3;

/// The second translator's form of ranges: each counter's lowest value, then its highest.
pub fn pairs(given: &[u32]) -> Vec<u32> {
    let number = |at: usize| given.get(at).copied().unwrap_or(0);
    (0..NODES).flat_map(|counter| [number(counter), number(NODES + counter)]).collect()
}

/// And back: all lowest values, then all highest. A number that is not there is 0.
pub fn laid(pairs: &[u32]) -> Vec<u32> {
    let number = |at: usize| pairs.get(at).copied().unwrap_or(0);
    (0..RANGES).map(|at| number(2 * (at % NODES) + at / NODES)).collect()
}

/// Ranges as they are lent, of these ends.
pub fn of_ends(ends: &[(u32, u32)]) -> Vec<u32> {
    laid(&ends.iter().flat_map(|&(lowest, highest)| [lowest, highest]).collect::<Vec<u32>>())
}

/// What is due in numbers: the refusal, the answer, and the ranges where some are written.
pub fn due(told: &reference::Ranged) -> (u8, [usize; 3], Vec<u32>) {
    match told {
        reference::Ranged::Follows { location, ranges } => (0, [0, 1, *location], of_ends(ranges)),
        reference::Ranged::Ends { position } => (0, [*position, 0, 0], Vec::new()),
        reference::Ranged::Refused { number, place } => (*number, [*place, 0, 0], Vec::new()),
    }
}

/// The same as the bindings tell it.
fn in_words(told: &reference::Ranged) -> Ranged {
    match *told {
        reference::Ranged::Follows { location, .. } => Ranged::Follows(location),
        reference::Ranged::Ends { position } => Ranged::EndsAt(position),
        reference::Ranged::Refused { number, place } => Ranged::Refused(crate::Refusal { number, place, node: crate::Node(0) }),
    }
}

/// The numbers with any others on both sides.
fn among<T: Copy>(d: &mut Draw, any: fn(u64) -> T, numbers: &[T]) -> Vec<T> {
    let mut side = || (0..SIDE).map(|_| any(d.number())).collect::<Vec<T>>();
    [side(), numbers.to_vec(), side()].concat()
}

/// Numbers written over the start of others, as far as these reach.
fn written<T: Copy>(numbers: &[T], over: &mut [T]) {
    numbers.iter().zip(over).for_each(|(&number, place)| *place = number);
}

impl Tables {
    /// Those of a drawn call.
    pub fn of_ranges(drawn: &DrawnRanges) -> Tables {
        let (locations, edges) = (drawn.locations.clone(), drawn.edges.clone());
        Tables { locations, edges, counts: [drawn.location_count, drawn.edge_count] }
    }

    /// By the second translator alone.
    pub fn ranges_second(&self, start: usize, given: &[u32], path: &[u32]) -> reference::Ranged {
        reference::ranges(&self.locations, &self.edges, self.counts[0], self.counts[1], start, &pairs(given), path)
    }

    /// By the proved library alone, with the ranges then.
    pub fn ranges_proved(&self, start: usize, given: &[u32], path: &[u32]) -> (Ranged, Vec<u32>) {
        let mut ranges = given.to_vec();
        let told = follow_ranges(&self.locations, &self.edges, self.counts, start, path, &mut ranges);
        (told, ranges)
    }

    /// By both, which agree: every number of the ranges and of an answer of so many numbers afterwards, and what
    /// stands beside them.
    pub fn ranges_into(&self, d: &mut Draw, start: usize, given: &[u32], path: &[u32], answers: usize) -> reference::Ranged {
        let second = self.ranges_second(start, given, path);
        let (number, told, new) = due(&second);
        let before: Vec<usize> = (0..answers).map(|_| !d.number() as usize).collect();
        let mut ranges = among(d, |any| any as u32, given);
        let mut answer = among(d, |any| any as usize, &before);
        let (mut ranges_due, mut answer_due) = (ranges.clone(), answer.clone());
        written(&new, &mut ranges_due[SIDE..][..given.len()]);
        written(&told, &mut answer_due[SIDE..][..answers]);
        let (lent, lent_answer) = (&mut ranges[SIDE..][..given.len()], &mut answer[SIDE..][..answers]);
        let refusal = tell_ranges(&self.locations, &self.edges, self.counts, start, path, lent, lent_answer);
        let what = || format!("{given:?} from {start} along {path:?} in {self:x?}");
        assert_eq!((refusal, &answer), (number, &answer_due), "{}", what());
        assert_eq!(ranges, ranges_due, "{}", what());
        second
    }

    /// By both, which agree, into slices that just fit.
    pub fn ranges(&self, start: usize, given: &[u32], path: &[u32]) -> reference::Ranged {
        let second = self.ranges_into(&mut Draw::new(1), start, given, path, 3);
        let mut ranges = given.to_vec();
        written(&due(&second).2, &mut ranges);
        assert_eq!(self.ranges_proved(start, given, path), (in_words(&second), ranges), "{given:?} along {path:?}");
        second
    }
}
