//! A start that follows a path, found from the ranges that the proved library tells along it. Nothing here is proved:
//! a proved walk tells whether the start is one.

use crate::automaton::{Automaton, Edge, Guard};
use crate::bounds::Range;
use crate::moves::{configuration, Configuration, Followed, Reached};
use crate::names;
use crate::style::paragraph;

/// What is reached along a path that some start follows: at its start, and after each edge, as the library tells it
/// of the path up to there. None where it tells of one that it is not followed, which never happens.
pub fn stages(automaton: &Automaton, start: usize, ranges: &[Range], path: &[u32]) -> Option<Vec<Reached>> {
    let told = |length: usize| match automaton.follow_ranges(start, ranges, &path[..length]) {
        Followed::To(reached) => Some(reached),
        _ => None,
    };
    (0..=path.len()).map(told).collect()
}

/// The values of a range for which a guard on its counter holds.
fn cut(guards: &[Guard], counter: usize, range: Range) -> Range {
    guards.iter().fold(range, |left, guard| match guard {
        Guard::IsOne(node) if *node == counter => Range { highest: left.highest.min(1), ..left },
        Guard::AtLeastTwo(node) if *node == counter => Range { lowest: left.lowest.max(2), ..left },
        _ => left,
    })
}

/// Counters within the ranges from which an edge leads to these. An old counter is added in one update at most, so each update
/// finds its own: the lowest values, and then higher ones as far as its sum asks for more.
fn source(edge: &Edge, ranges: &[Range], to: &[u32]) -> Vec<u32> {
    let open: Vec<Range> = ranges.iter().enumerate().map(|(counter, &range)| cut(&edge.guards, counter, range)).collect();
    let mut from: Vec<u32> = open.iter().map(|range| range.lowest).collect();
    for (update, &value) in edge.updates.iter().zip(to) {
        let sum: i64 = update.constant + update.added().map(|old| i64::from(from[old])).sum::<i64>();
        let mut lacking = i64::from(value) - sum;
        for old in update.added() {
            // at most what the range has above its lowest value
            let more = lacking.min(i64::from(open[old].highest) - i64::from(open[old].lowest)).max(0);
            from[old] += more as u32;
            lacking -= more;
        }
    }
    from
}

/// A start within the first ranges that follows the path to these counters within the last, going back from them.
pub fn start(automaton: &Automaton, stages: &[Reached], path: &[u32], last: &[u32]) -> Configuration {
    let mut counters = last.to_vec();
    for (&edge, before) in path.iter().zip(stages).rev() {
        counters = source(&automaton.edges[edge as usize], &before.ranges, &counters);
    }
    configuration(stages[0].location, &counters)
}

/// The lowest value of each counter.
pub fn lowest(reached: &Reached) -> Vec<u32> {
    reached.ranges.iter().map(|range| range.lowest).collect()
}

/// Walks a start along a path by the proved library. What is said where it does not end as it must, which never happens.
pub fn astray(automaton: &Automaton, start: &Configuration, path: &[u32], due: &Configuration) -> Option<String> {
    let mut at = *start;
    let (refusal, made) = automaton.make_walk(&mut at, path);
    let words = |at: &Configuration| format!("location {} with counters {:?}", at.location, at.counters);
    let told = format!(
        " the start found, at {}, is to follow {} to {}; its walk gave refusal {refusal} after {} at {}.",
        words(start),
        names::count(path.len(), "edge"),
        words(due),
        names::count(made, "move"),
        words(&at)
    );
    ((refusal, at) != (0, *due)).then(|| paragraph("INTERNAL ERROR:", 4, &told))
}
