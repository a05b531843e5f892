//! What drawn calls meet of the words of the request.

use super::DrawnRanges;
use crate::automaton::{decode_edge, Edge};
use crate::layout::{broken_clause, nodes_of, used};
use crate::ranges::{ranges, Ranged, HIGHEST};
use crate::records::NO_GUARD;
use crate::walk::LONGEST;

/// A clause of the request, by how a call meets it.
#[derive(Clone, Copy, PartialEq, Eq, PartialOrd, Ord, Debug)]
pub enum RangesClause {
    /// Some start follows the path.
    Followed,
    /// The same, and the path leads to a fault.
    FollowedToFault,
    /// The same, and an edge of the path leaves a fault.
    FollowedFromFault,
    /// The same, to a counter above 65,535.
    FollowedAboveHighest,
    /// The same, along 4,096 edges.
    FollowedLongest,
    /// The same, along none.
    FollowedEmpty,
    /// The same, from a fault along none.
    FollowedAtFault,
    /// None can go on at position 0.
    EndsAtOnce,
    /// None can go on at a later position.
    EndsLater,
    /// None can go on at an edge whose guards exclude each other.
    EndsExcluded,
    /// 23: the tables break the layout.
    Tables,
    /// 23: the start is not below the count.
    Start,
    /// 23: more than 4,096 edges.
    PathTooLong,
    /// 23: an edge that is not in the table.
    EdgeMissing,
    /// 23: an edge that does not leave the location reached.
    EdgeElsewhere,
    /// One of these two behind a position where none can go on.
    EdgePastEnd,
    /// One of these two, and a range is wrong as well.
    EdgeBeforeRange,
    /// 22: the lowest value is 0.
    LowestZero,
    /// 22: the highest value is above 65,535.
    HighestAbove,
    /// 22: both ends are from 1 to 65,535, in the wrong order.
    Swapped,
    /// 22: the range is not there, or half of it.
    TooFew,
    /// 22: the first wrong range is not that of counter 0.
    LaterCounter,
    /// 22: a range after it is wrong as well.
    FirstOfSeveral,
    /// Numbers past the start's counters that are no range, and no refusal.
    PastNotRead,
}

use RangesClause::*;

impl RangesClause {
    pub const ALL: [RangesClause; 24] = [
        Followed,
        FollowedToFault,
        FollowedFromFault,
        FollowedAboveHighest,
        FollowedLongest,
        FollowedEmpty,
        FollowedAtFault,
        EndsAtOnce,
        EndsLater,
        EndsExcluded,
        Tables,
        Start,
        PathTooLong,
        EdgeMissing,
        EdgeElsewhere,
        EdgePastEnd,
        EdgeBeforeRange,
        LowestZero,
        HighestAbove,
        Swapped,
        TooFew,
        LaterCounter,
        FirstOfSeveral,
        PastNotRead,
    ];

    pub fn name(self) -> &'static str {
        match self {
            Followed => "followed",
            FollowedToFault => "followed to a fault",
            FollowedFromFault => "followed from a fault on",
            FollowedAboveHighest => "followed to a counter above 65535",
            FollowedLongest => "followed along 4096 edges",
            FollowedEmpty => "followed along none",
            FollowedAtFault => "followed along none at a fault",
            EndsAtOnce => "none can go on at position 0",
            EndsLater => "none can go on later",
            EndsExcluded => "none can go on at guards that exclude each other",
            Tables => "refused 23 for the tables",
            Start => "refused 23 for the start",
            PathTooLong => "refused 23 for 4097 edges",
            EdgeMissing => "refused 23 for an edge that is not there",
            EdgeElsewhere => "refused 23 for an edge from elsewhere",
            EdgePastEnd => "refused 23 where none can go on before",
            EdgeBeforeRange => "refused 23 where a range is wrong as well",
            LowestZero => "refused 22 for a lowest value of 0",
            HighestAbove => "refused 22 for a highest value above 65535",
            Swapped => "refused 22 for the order of the ends",
            TooFew => "refused 22 for a range that is not there",
            LaterCounter => "refused 22 at a later counter",
            FirstOfSeveral => "refused 22 at the first of several",
            PastNotRead => "numbers past the counters not read",
        }
    }

    /// The clauses that a call with this answer meets, in their order.
    pub fn met(drawn: &DrawnRanges, answer: &Ranged) -> Vec<RangesClause> {
        let mut met = match *answer {
            Ranged::Follows { location, ref ranges } => followed(drawn, location, ranges),
            Ranged::Ends { position } => ended(drawn, position),
            Ranged::Refused { number: 23, place } => refused_path(drawn, place),
            Ranged::Refused { place, .. } => refused_range(drawn, place),
        };
        let refused = matches!(answer, Ranged::Refused { .. });
        if !refused && (drawn.counters()..drawn.ranges.len().div_ceil(2)).any(|counter| drawn.is_wrong(counter)) {
            met.push(PastNotRead);
        }
        met
    }
}

/// What these look at; the tables are sound wherever they are asked.
impl DrawnRanges {
    fn is_fault(&self, location: usize) -> bool {
        used(&self.locations, self.location_count)[location][2] != 0
    }

    fn counters(&self) -> usize {
        nodes_of(&used(&self.locations, self.location_count)[self.start]).unwrap_or(0)
    }

    fn edge(&self, number: u32) -> Option<Edge> {
        used(&self.edges, self.edge_count).get(number as usize).map(decode_edge)
    }

    fn end(&self, at: usize) -> u32 {
        self.ranges.get(at).copied().unwrap_or(0)
    }

    fn is_wrong(&self, counter: usize) -> bool {
        let [lowest, highest] = [self.end(2 * counter), self.end(2 * counter + 1)];
        lowest == 0 || highest > HIGHEST || lowest > highest
    }
}

/// Those of the clauses that are met.
fn those(clauses: &[(RangesClause, bool)]) -> Vec<RangesClause> {
    clauses.iter().filter(|(_, is_met)| *is_met).map(|(clause, _)| *clause).collect()
}

fn followed(drawn: &DrawnRanges, location: usize, ranges: &[(u32, u32)]) -> Vec<RangesClause> {
    let path = &drawn.path;
    let leaves_fault = |&number: &u32| drawn.edge(number).is_some_and(|edge| drawn.is_fault(edge.from));
    those(&[
        (Followed, true),
        (FollowedToFault, !path.is_empty() && drawn.is_fault(location)),
        (FollowedFromFault, path.iter().any(leaves_fault)),
        (FollowedAboveHighest, ranges.iter().any(|&(_, highest)| highest > HIGHEST)),
        (FollowedLongest, path.len() == LONGEST),
        (FollowedEmpty, path.is_empty()),
        (FollowedAtFault, path.is_empty() && drawn.is_fault(location)),
    ])
}

fn ended(drawn: &DrawnRanges, position: usize) -> Vec<RangesClause> {
    let exclude = |edge: Edge| {
        let [first, second] = edge.guards;
        let present = first.kind != NO_GUARD && second.kind != NO_GUARD;
        present && first.node == second.node && first.kind != second.kind
    };
    let excluded = drawn.edge(drawn.path[position]).is_some_and(exclude);
    those(&[(EndsAtOnce, position == 0), (EndsLater, position > 0), (EndsExcluded, excluded)])
}

fn refused_path(drawn: &DrawnRanges, place: usize) -> Vec<RangesClause> {
    let [locations, edges] = [&drawn.locations, &drawn.edges];
    if broken_clause(locations, edges, drawn.location_count, drawn.edge_count).is_some() {
        return vec![Tables];
    }
    if drawn.start >= drawn.location_count {
        return vec![Start];
    }
    if drawn.path.len() > LONGEST {
        return vec![PathTooLong];
    }
    let missing = drawn.edge(drawn.path[place]).is_none();
    let before = &drawn.path[..place];
    let without = ranges(locations, edges, drawn.location_count, drawn.edge_count, drawn.start, &drawn.ranges, before);
    those(&[
        (EdgeMissing, missing),
        (EdgeElsewhere, !missing),
        (EdgePastEnd, matches!(without, Ranged::Ends { .. })),
        (EdgeBeforeRange, (0..drawn.counters()).any(|counter| drawn.is_wrong(counter))),
    ])
}

fn refused_range(drawn: &DrawnRanges, place: usize) -> Vec<RangesClause> {
    let [lowest, highest] = [drawn.end(2 * place), drawn.end(2 * place + 1)];
    let is_there = 2 * place + 1 < drawn.ranges.len();
    let both_inside = [lowest, highest].iter().all(|end| (1..=HIGHEST).contains(end));
    those(&[
        (LowestZero, is_there && lowest == 0),
        (HighestAbove, is_there && highest > HIGHEST),
        (Swapped, both_inside && lowest > highest),
        (TooFew, !is_there),
        (LaterCounter, place > 0),
        (FirstOfSeveral, (place + 1..drawn.counters()).any(|counter| drawn.is_wrong(counter))),
    ])
}
