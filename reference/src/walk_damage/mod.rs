//! Random walks for comparisons: small tables, sound or broken on purpose, with
//! a configuration and a path.

mod draft;
mod low;
mod of_edges;
mod of_locations;
mod starts;

pub(crate) use draft::Draft;
pub(crate) use low::never_enabled;
pub(crate) use starts::{near_the_limit, spoil};

use crate::automaton::encode_edge;
use crate::clause::Clause;
use crate::random::Random;
use crate::records::RECORD;
use crate::translate::{EDGES, LOCATIONS};
use crate::walk::{Configuration, LONGEST};

/// What a walk is drawn for.
#[derive(Clone, Copy, PartialEq, Eq, Debug)]
pub enum Aim {
    /// Sound tables, and a path that can be walked up to its end or nearly.
    Sound,
    /// Tables just outside a clause; others may be broken by the same bytes.
    Outside(Clause),
    /// Tables just inside a clause, which keep the layout.
    Inside(Clause),
    /// Sound tables, and an early move to a counter near 2^32.
    NearTheLimit,
    /// Sound tables, and a path to an edge whose guards exclude each other.
    NeverEnabled,
    /// Sound tables, and a configuration that breaks the layout.
    WrongConfiguration,
    /// Sound tables, and a number in the path that can hardly be taken.
    WrongEdge,
    /// Sound tables and no moves.
    EmptyPath,
    /// Sound tables and 4,096 moves, all of which can be made, or all but one.
    LongestPath,
    /// The same with one more.
    TooLongPath,
    /// Tables of any bytes.
    AnyBytes,
}

/// One call of a walk.
#[derive(Clone, PartialEq, Eq, Debug)]
pub struct DrawnWalk {
    pub aim: Aim,
    pub locations: Vec<u8>,
    pub edges: Vec<u8>,
    pub location_count: usize,
    pub edge_count: usize,
    pub configuration: Configuration,
    pub path: Vec<u32>,
}

/// All aims, each as often as it has turns.
pub fn aims() -> Vec<Aim> {
    let mut aims = vec![Aim::Sound; 10];
    aims.extend([Aim::NearTheLimit; 8]);
    aims.extend([Aim::NeverEnabled, Aim::WrongConfiguration, Aim::WrongConfiguration, Aim::WrongEdge, Aim::WrongEdge]);
    aims.extend([Aim::EmptyPath, Aim::LongestPath, Aim::TooLongPath, Aim::AnyBytes]);
    for &clause in Clause::ALL {
        // How low updates go has many cases.
        let turns = if clause == Clause::BelowOne { 4 } else { 1 };
        for _ in 0..turns {
            aims.extend([Aim::Outside(clause), Aim::Inside(clause)]);
        }
    }
    aims
}

/// Draws a walk. Seeds one after the other take turns in the aims, and the same
/// seed gives the same walk again.
pub fn draw(seed: u64) -> DrawnWalk {
    let aims = aims();
    let aim = aims[(seed % aims.len() as u64) as usize];
    let mut random = Random::new(seed);
    loop {
        // Not all drafts have what the aim needs.
        if let Some(drawn) = try_draw(&mut random, aim) {
            return drawn;
        }
    }
}

fn try_draw(random: &mut Random, aim: Aim) -> Option<DrawnWalk> {
    let mut draft = Draft::sound(random);
    match aim {
        Aim::Sound => Some(walk_on(random, aim, &draft, None)),
        Aim::Outside(clause) => outside(random, aim, draft, clause),
        Aim::Inside(clause) => inside(random, aim, draft, clause),
        Aim::NearTheLimit => {
            let (edge, start) = near_the_limit(random, &draft)?;
            let most = random.between(1, 4);
            let mut path = starts::path(random, &draft, start, Some(edge), most);
            if random.chance(40) {
                // Some moves before it that change nothing.
                let around = draft.loop_at(start.location as usize);
                path.splice(..0, vec![draft.edges.len() as u32; random.between(1, 3)]);
                draft.edges.push(encode_edge(&around));
            }
            Some(with_spare(random, aim, &draft, start, path))
        }
        Aim::NeverEnabled => {
            let edge = never_enabled(random, &mut draft)?;
            Some(walk_on(random, aim, &draft, Some(edge)))
        }
        Aim::WrongConfiguration => {
            let mut drawn = walk_on(random, aim, &draft, None);
            drawn.configuration = starts::wrong(random, &draft, drawn.configuration);
            Some(drawn)
        }
        Aim::WrongEdge => {
            let mut drawn = walk_on(random, aim, &draft, None);
            starts::spoil(random, &draft, &mut drawn.path);
            Some(drawn)
        }
        Aim::EmptyPath => Some(DrawnWalk { path: Vec::new(), ..walk_on(random, aim, &draft, None) }),
        Aim::LongestPath => long_walk(random, aim, draft, LONGEST),
        Aim::TooLongPath => long_walk(random, aim, draft, LONGEST + 1),
        Aim::AnyBytes => {
            let mut drawn = walk_on(random, aim, &draft, None);
            let usual = random.chance(50);
            for byte in drawn.locations.iter_mut().chain(&mut drawn.edges) {
                if !usual || random.chance(2) {
                    *byte = random.byte();
                }
            }
            Some(drawn)
        }
    }
}

/// A walk on a draft that keeps the layout, from the source of an edge, if one
/// is given, and often along it.
fn walk_on(random: &mut Random, aim: Aim, draft: &Draft, edge: Option<usize>) -> DrawnWalk {
    let location = edge.map_or_else(|| starts::location(random, draft), |edge| draft.edge(edge).from);
    let configuration = starts::configuration(random, draft, location);
    let first = edge.filter(|_| random.chance(60));
    let most = any_of(random, &[0, 1, 2, 5, 12, 30]);
    let path = starts::path(random, draft, configuration, first, most);
    with_spare(random, aim, draft, configuration, path)
}

/// The bytes of a table, often with more of them than are in use: any, or the
/// same records again.
pub(crate) fn spare(random: &mut Random, records: &[[u8; RECORD]]) -> Vec<u8> {
    let used = records.as_flattened();
    let more = match random.below(6) {
        0 | 1 => Vec::new(),
        2 => vec![random.byte(); random.below(RECORD)],
        3 => vec![random.byte(); random.below(3 * RECORD)],
        _ => used.to_vec(),
    };
    [used, &more].concat()
}

/// A walk on the tables of a draft.
fn with_spare(random: &mut Random, aim: Aim, draft: &Draft, configuration: Configuration, path: Vec<u32>) -> DrawnWalk {
    DrawnWalk {
        aim,
        locations: spare(random, &draft.locations),
        edges: spare(random, &draft.edges),
        location_count: draft.locations.len(),
        edge_count: draft.edges.len(),
        configuration,
        path,
    }
}

fn is_of_locations(clause: Clause) -> bool {
    clause < Clause::EdgeKind
}

/// Breaks a record of the clause's table, in tables that keep the layout.
/// Answers which, if there is one to break; the counts have no records.
pub(crate) fn break_clause(random: &mut Random, draft: &mut Draft, clause: Clause) -> Option<usize> {
    if matches!(clause, Clause::LocationCount | Clause::EdgeCount) {
        None
    } else if is_of_locations(clause) {
        of_locations::outside(random, draft, clause)
    } else {
        of_edges::outside(random, draft, clause)
    }
}

/// The walk is drawn on the sound draft, so that the broken record is all that
/// is wrong, be it on the way or not.
fn outside(random: &mut Random, aim: Aim, draft: Draft, clause: Clause) -> Option<DrawnWalk> {
    if matches!(clause, Clause::LocationCount | Clause::EdgeCount) {
        let mut drawn = walk_on(random, aim, &draft, None);
        set_count(random, &mut drawn, clause, 1);
        return Some(drawn);
    }
    let mut broken = draft.clone();
    let number = break_clause(random, &mut broken, clause)?;
    let edge = (!is_of_locations(clause)).then_some(number);
    let DrawnWalk { configuration, path, .. } = walk_on(random, aim, &draft, edge);
    Some(with_spare(random, aim, &broken, configuration, path))
}

/// Either the last that the clause allows, or a record outside it that is just
/// not in use.
fn inside(random: &mut Random, aim: Aim, mut draft: Draft, clause: Clause) -> Option<DrawnWalk> {
    if matches!(clause, Clause::LocationCount | Clause::EdgeCount) {
        let mut drawn = walk_on(random, aim, &draft, None);
        set_count(random, &mut drawn, clause, 0);
        return Some(drawn);
    }
    if random.chance(30) || matches!(clause, Clause::LocationKind | Clause::EdgeKind) {
        let mut drawn = walk_on(random, aim, &draft, None);
        let number = break_clause(random, &mut draft, clause)?;
        let (table, count, record) = if is_of_locations(clause) {
            (&mut drawn.locations, drawn.location_count, &draft.locations[number])
        } else {
            (&mut drawn.edges, drawn.edge_count, &draft.edges[number])
        };
        table.splice(count * RECORD.., record.iter().copied());
        return Some(drawn);
    }
    if is_of_locations(clause) {
        of_locations::inside(random, &mut draft, clause)?;
        Some(walk_on(random, aim, &draft, None))
    } else {
        let edge = of_edges::inside(random, &mut draft, clause)?;
        Some(walk_on(random, aim, &draft, Some(edge)))
    }
}

/// Makes a count as large as its table's places and so many more. Now and then
/// the table is longer than the places that it can have.
fn set_count(random: &mut Random, drawn: &mut DrawnWalk, clause: Clause, more: usize) {
    let (table, count, most) = if clause == Clause::LocationCount {
        (&mut drawn.locations, &mut drawn.location_count, LOCATIONS)
    } else {
        (&mut drawn.edges, &mut drawn.edge_count, EDGES)
    };
    if *count > 0 && random.chance(10) {
        // Every place has the first record again.
        let first = table[..RECORD].to_vec();
        table.truncate(*count * RECORD);
        table.extend(first.repeat(most + 2 - *count));
        table.truncate(most * RECORD + random.between(more * RECORD, 2 * RECORD));
        *count = most + more;
        return;
    }
    table.truncate(*count * RECORD + random.below(RECORD));
    *count += more;
    if more > 0 && random.chance(30) {
        *count = any_of(random, &[usize::MAX, 1 << 59, LOCATIONS + 1, EDGES + 1]);
    }
}

fn long_walk(random: &mut Random, aim: Aim, mut draft: Draft, length: usize) -> Option<DrawnWalk> {
    starts::endless(random, &mut draft);
    let location = pick(random, draft.locations.len(), |location| !draft.is_fault(location))?;
    let mut start = starts::configuration(random, &draft, location);
    start.counters = start.counters.map(|counter| counter.min(1 << 20));
    let mut path = starts::path(random, &draft, start, None, length);
    if random.chance(30) {
        let at = any_of(random, &[0, length / 2, length - 1]);
        path[at] = draft.edges.len() as u32;
    }
    Some(with_spare(random, aim, &draft, start, path))
}

/// One of these.
pub(crate) fn any_of<T: Copy>(random: &mut Random, items: &[T]) -> T {
    items[random.below(items.len())]
}

/// A number from `low` to `high`, often one of these two.
fn within(random: &mut Random, low: usize, high: usize) -> usize {
    match random.below(3) {
        0 => low,
        1 => high,
        _ => random.between(low, high),
    }
}

/// One of the numbers below this one that fit, if there is any.
pub(crate) fn pick(random: &mut Random, below: usize, fits: impl Fn(usize) -> bool) -> Option<usize> {
    let all: Vec<usize> = (0..below).filter(|&number| fits(number)).collect();
    if all.is_empty() {
        None
    } else {
        Some(any_of(random, &all))
    }
}
