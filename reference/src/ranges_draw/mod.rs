//! Random calls of [`ranges`](crate::ranges) for comparisons: tables of
//! listings, tables drawn by hand, sound or broken, with a start, ranges and a
//! path.

mod bounds;
mod clauses;
mod routes;

pub use clauses::RangesClause;

use crate::automaton::encode_edge;
use crate::clause::Clause;
use crate::layout::used;
use crate::random::Random;
use crate::ranges::{ranges, Ranged};
use crate::ranges_search::ranges_by_search;
use crate::records::RECORD;
use crate::routines::random_routine;
use crate::translate::translate;
use crate::walk::{Configuration, LONGEST};
use crate::walk_damage::{self, any_of, break_clause, never_enabled, pick, spare, spoil, Draft, DrawnWalk};

/// What a call is drawn for.
#[derive(Clone, Copy, PartialEq, Eq, Debug)]
pub enum RangesAim {
    /// A path that some start can follow up to its end or nearly.
    Sound,
    /// The same with counters near 65,535.
    NearHighest,
    /// The same with ranges of any size.
    Wide,
    /// A path most of which is drawn without regard to guards.
    GuardsAside,
    /// A path with an edge whose guards exclude each other.
    NeverEnabled,
    /// A number in the path that can hardly be right.
    WrongEdge,
    /// The same behind edges drawn without regard to guards.
    WrongEdgeLate,
    /// A range that is wrong, or several.
    WrongRange,
    /// The same, and a number in the path that can hardly be right.
    WrongRangeAndEdge,
    /// A start that is not below the count.
    WrongStart,
    /// No edges.
    EmptyPath,
    /// A start at a fault, which an edge may leave.
    AtFault,
    /// 4,096 edges.
    LongestPath,
    /// One more.
    TooLongPath,
    /// Tables just outside a clause of the layout, just inside, or of any bytes.
    Damaged,
}

/// How many turns each aim has.
const TURNS: [(RangesAim, usize); 15] = [
    (RangesAim::Sound, 6),
    (RangesAim::NearHighest, 3),
    (RangesAim::Wide, 2),
    (RangesAim::GuardsAside, 4),
    (RangesAim::NeverEnabled, 1),
    (RangesAim::WrongEdge, 2),
    (RangesAim::WrongEdgeLate, 2),
    (RangesAim::WrongRange, 4),
    (RangesAim::WrongRangeAndEdge, 1),
    (RangesAim::WrongStart, 1),
    (RangesAim::EmptyPath, 1),
    (RangesAim::AtFault, 2),
    (RangesAim::LongestPath, 1),
    (RangesAim::TooLongPath, 1),
    (RangesAim::Damaged, 3),
];

/// All aims, each as often as it has turns.
pub fn ranges_aims() -> Vec<RangesAim> {
    TURNS.iter().flat_map(|&(aim, turns)| vec![aim; turns]).collect()
}

/// One call.
#[derive(Clone, PartialEq, Eq, Debug)]
pub struct DrawnRanges {
    pub aim: RangesAim,
    /// Whether the tables are those of a listing, be they changed or not.
    pub listed: bool,
    pub locations: Vec<u8>,
    pub edges: Vec<u8>,
    pub location_count: usize,
    pub edge_count: usize,
    pub start: usize,
    pub ranges: Vec<u32>,
    pub path: Vec<u32>,
}

impl DrawnRanges {
    /// The answer of this call.
    pub fn answer(&self) -> Ranged {
        let [locations, edges] = [&self.locations, &self.edges];
        ranges(locations, edges, self.location_count, self.edge_count, self.start, &self.ranges, &self.path)
    }

    /// The answer by search, unless there are too many starts.
    pub fn searched(&self) -> Option<Ranged> {
        let [locations, edges] = [&self.locations, &self.edges];
        ranges_by_search(locations, edges, self.location_count, self.edge_count, self.start, &self.ranges, &self.path)
    }
}

/// Draws a call. Seeds one after the other take turns in the aims, and the same
/// seed gives the same call again.
pub fn draw_ranges(seed: u64) -> DrawnRanges {
    let aims = ranges_aims();
    let aim = aims[(seed % aims.len() as u64) as usize];
    let mut random = Random::new(seed);
    loop {
        // Not all tables have what the aim needs.
        if let Some(drawn) = try_draw(&mut random, aim) {
            return drawn;
        }
    }
}

/// Sound tables, and whether they are those of a listing.
struct Source {
    draft: Draft,
    listed: bool,
}

impl Source {
    fn draw(random: &mut Random) -> Source {
        let listed = random.chance(30);
        let draft = if listed { listing(random) } else { Draft::sound(random) };
        Source { draft, listed }
    }

    fn with(&self, random: &mut Random, aim: RangesAim, start: usize, ranges: Vec<u32>, path: Vec<u32>) -> DrawnRanges {
        DrawnRanges {
            aim,
            listed: self.listed,
            locations: spare(random, &self.draft.locations),
            edges: spare(random, &self.draft.edges),
            location_count: self.draft.locations.len(),
            edge_count: self.draft.edges.len(),
            start,
            ranges,
            path,
        }
    }
}

/// The listing of a routine that is not too large for many calls.
fn listing(random: &mut Random) -> Draft {
    loop {
        let input = random_routine(random).input();
        let [mut locations, mut edges] = [vec![0; 30 * RECORD], vec![0; 60 * RECORD]];
        let answer = translate(&input, &mut locations, &mut edges);
        // One without edges is a routine that stops at once.
        if answer.edges > 1 {
            return Draft { locations: used(&locations, answer.locations).to_vec(), edges: used(&edges, answer.edges).to_vec() };
        }
    }
}

fn try_draw(random: &mut Random, aim: RangesAim) -> Option<DrawnRanges> {
    match aim {
        RangesAim::NeverEnabled => never_enabled_on_the_way(random),
        RangesAim::AtFault => at_a_fault(random),
        RangesAim::LongestPath => Some(long(random, aim, LONGEST)),
        RangesAim::TooLongPath => Some(long(random, aim, LONGEST + 1)),
        RangesAim::Damaged => Some(if random.chance(30) { damaged_listing(random)? } else { damaged(random) }),
        _ => on_sound_tables(random, aim),
    }
}

/// Sound tables with a start, ranges and a path, one of which may be spoilt.
fn on_sound_tables(random: &mut Random, aim: RangesAim) -> Option<DrawnRanges> {
    let source = Source::draw(random);
    let draft = &source.draft;
    let mut start = routes::start(random, draft);
    let near = aim == RangesAim::NearHighest || random.chance(5);
    let counters = bounds::counters(random, draft.nodes(start), near);
    let mut numbers = match aim {
        RangesAim::Wide => bounds::wide(random, &counters),
        _ => bounds::around(random, &counters, 300),
    };
    let aside = match aim {
        RangesAim::GuardsAside | RangesAim::WrongEdgeLate => 60,
        _ => any_of(random, &[0, 0, 10, 30]),
    };
    let most = if aim == RangesAim::EmptyPath { 0 } else { any_of(random, &[1, 2, 3, 5, 8, 15, 30]) };
    let mut path = routes::path(random, draft, routes::at(start, &counters), most, aside);
    if matches!(aim, RangesAim::WrongEdge | RangesAim::WrongEdgeLate | RangesAim::WrongRangeAndEdge) {
        if aim == RangesAim::WrongEdgeLate && path.len() > 1 {
            routes::spoil_late(random, draft, &mut path);
        } else {
            spoil(random, draft, &mut path);
        }
    }
    bounds::more(random, &mut numbers);
    if matches!(aim, RangesAim::WrongRange | RangesAim::WrongRangeAndEdge) {
        bounds::spoil(random, &mut numbers, draft.nodes(start))?;
    }
    if aim == RangesAim::WrongStart {
        let count = draft.locations.len();
        start = any_of(random, &[count, count + 1, start + 1024, start + 65_536, start + (1 << 32), usize::MAX]);
    }
    Some(source.with(random, aim, start, numbers, path))
}

/// Guards that exclude each other, at once or after other edges.
fn never_enabled_on_the_way(random: &mut Random) -> Option<DrawnRanges> {
    let mut source = Source::draw(random);
    let edge = never_enabled(random, &mut source.draft)?;
    let draft = &mut source.draft;
    let start = draft.edge(edge).from;
    let counters = bounds::counters(random, draft.nodes(start), false);
    let mut path = routes::around(random, draft, start);
    path.push(edge as u32);
    let to = draft.edge(edge).to;
    let behind = bounds::counters(random, draft.nodes(to), false);
    path.extend(routes::path(random, draft, routes::at(to, &behind), 4, 30));
    let numbers = bounds::around(random, &counters, 300);
    Some(source.with(random, RangesAim::NeverEnabled, start, numbers, path))
}

/// A start at a fault, with nothing more or with an edge that leaves it.
fn at_a_fault(random: &mut Random) -> Option<DrawnRanges> {
    let mut source = Source::draw(random);
    let draft = &mut source.draft;
    let start = pick(random, draft.locations.len(), |location| draft.is_fault(location))?;
    let mut path = Vec::new();
    if random.chance(70) {
        let to = random.below(draft.locations.len());
        let edge = draft.random_edge(random, start, to);
        let number = random.between(0, draft.edges.len());
        draft.edges.insert(number, encode_edge(&edge));
        path = routes::path(random, draft, routes::at(start, &[]), 6, 20);
    }
    let mut numbers = Vec::new();
    bounds::more(random, &mut numbers);
    Some(source.with(random, RangesAim::AtFault, start, numbers, path))
}

/// A path of so many edges, nearly all of which are the same one.
fn long(random: &mut Random, aim: RangesAim, length: usize) -> DrawnRanges {
    let mut source = Source::draw(random);
    let draft = &mut source.draft;
    let start = routes::start(random, draft);
    let near = random.chance(40);
    let counters = bounds::counters(random, draft.nodes(start), near);
    let path = routes::long(random, draft, routes::at(start, &counters), length);
    let mut numbers = bounds::around(random, &counters, 2);
    bounds::more(random, &mut numbers);
    source.with(random, aim, start, numbers, path)
}

/// A listing in which a record is broken.
fn damaged_listing(random: &mut Random) -> Option<DrawnRanges> {
    let mut source = Source { draft: listing(random), listed: true };
    let draft = &mut source.draft;
    let start = routes::start(random, draft);
    let counters = bounds::counters(random, draft.nodes(start), false);
    let path = routes::path(random, draft, routes::at(start, &counters), 4, 10);
    let clause = any_of(random, Clause::ALL);
    break_clause(random, draft, clause)?;
    let numbers = bounds::around(random, &counters, 300);
    Some(source.with(random, RangesAim::Damaged, start, numbers, path))
}

/// The tables, the location and the path of a walk drawn for a clause.
fn damaged(random: &mut Random) -> DrawnRanges {
    use walk_damage::Aim::{AnyBytes, Inside, Outside};
    let aims = walk_damage::aims();
    let turns = aims.len() as u64;
    let is_meant = |number: usize| matches!(aims[number], Outside(_) | Inside(_) | AnyBytes);
    let turn = pick(random, aims.len(), is_meant).expect("there are clauses") as u64;
    // Half of all numbers, so that the sum is one as well.
    let walk = walk_damage::draw(random.next() / 2 / turns * turns + turn);
    let DrawnWalk { locations, edges, location_count, edge_count, configuration, path, .. } = walk;
    let Configuration { location, counters } = configuration;
    let present: Vec<u32> = counters.into_iter().filter(|&counter| counter != 0).collect();
    let mut ranges = bounds::around(random, &present, 300);
    bounds::more(random, &mut ranges);
    let start = location as usize;
    DrawnRanges { aim: RangesAim::Damaged, listed: false, locations, edges, location_count, edge_count, start, ranges, path }
}
