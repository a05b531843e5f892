//! Drawn calls: computed with ranges, and start by start.

mod common;

use common::layout::tables_keep;
use reference::ranges_draw::{draw_ranges, ranges_aims, DrawnRanges, RangesAim, RangesClause};
use reference::Ranged;
use std::collections::BTreeMap;

/// So many turns of all aims: 23,800 calls.
const TURNS: u64 = 700;

/// How often each clause is to be met, and how often where starts were tried or
/// the refusal was found by walks.
const FLOOR: u64 = 250;
const FLOOR_BY_SEARCH: u64 = 200;

fn draws(turns: u64) -> impl Iterator<Item = DrawnRanges> {
    (0..turns * ranges_aims().len() as u64).map(draw_ranges)
}

#[test]
fn both_ways_agree_and_every_clause_is_met() {
    let mut met: BTreeMap<RangesClause, [u64; 2]> = BTreeMap::new();
    let (mut calls, mut searched, mut tried, mut listed) = (0, 0, 0, 0);
    for drawn in draws(TURNS) {
        let answer = drawn.answer();
        let due = drawn.searched();
        assert!(due.as_ref().is_none_or(|due| *due == answer), "{answer:?} where {due:?} is due, in {drawn:?}");
        for clause in RangesClause::met(&drawn, &answer) {
            let counts = met.entry(clause).or_default();
            counts[0] += 1;
            counts[1] += u64::from(due.is_some());
        }
        calls += 1;
        searched += u64::from(due.is_some());
        tried += u64::from(due.is_some_and(|due| !matches!(due, Ranged::Refused { .. })));
        listed += u64::from(drawn.listed);
    }
    println!("{calls} calls, {searched} searched, {tried} with starts tried, {listed} on listings: {met:?}");
    assert!(calls >= 20_000 && searched >= 15_000 && tried >= 10_000 && listed >= 5_000);
    for clause in RangesClause::ALL {
        let counts = met.get(&clause).copied().unwrap_or_default();
        assert!(counts[0] >= FLOOR && counts[1] >= FLOOR_BY_SEARCH, "{clause:?} is met {counts:?} times");
    }
}

#[test]
fn aims_are_met() {
    let mut broken = 0;
    for drawn in draws(60) {
        let answer = drawn.answer();
        let met = RangesClause::met(&drawn, &answer);
        let keeps = tables_keep(&drawn.locations, &drawn.edges, drawn.location_count, drawn.edge_count);
        assert_eq!(met == [RangesClause::Tables], !keeps, "{drawn:?}");
        let refused = |number: u8| matches!(answer, Ranged::Refused { number: told, .. } if told == number);
        let as_aimed = match drawn.aim {
            RangesAim::Damaged => true,
            RangesAim::WrongStart => met == [RangesClause::Start],
            RangesAim::TooLongPath => met == [RangesClause::PathTooLong],
            RangesAim::WrongRange => refused(22),
            RangesAim::WrongRangeAndEdge => refused(22) || refused(23),
            RangesAim::WrongEdge | RangesAim::WrongEdgeLate | RangesAim::LongestPath => !refused(22),
            RangesAim::EmptyPath => met.contains(&RangesClause::FollowedEmpty),
            RangesAim::NeverEnabled => matches!(answer, Ranged::Ends { .. }),
            _ => !refused(22) && !refused(23),
        };
        assert!(as_aimed, "{met:?} in {drawn:?}");
        broken += u64::from(!keeps);
    }
    assert!(broken >= 50, "{broken}");
}

#[test]
fn what_is_reached_is_within_what_wider_ranges_reach() {
    for drawn in draws(30) {
        let wider = DrawnRanges { ranges: [1, 65_535].repeat(12), ..drawn.clone() };
        match (drawn.answer(), wider.answer()) {
            (Ranged::Follows { location, ranges }, Ranged::Follows { location: same, ranges: wider }) => {
                assert_eq!((location, ranges.len()), (same, wider.len()));
                assert!(ranges.iter().zip(&wider).all(|(one, other)| other.0 <= one.0 && one.1 <= other.1), "{drawn:?}");
            }
            (Ranged::Ends { position }, Ranged::Ends { position: later }) => assert!(position <= later, "{drawn:?}"),
            (Ranged::Ends { .. }, Ranged::Follows { .. }) => {}
            (one, other) => {
                // Refused for what is no range, or not any more.
                let refused = matches!(one, Ranged::Refused { number: 22, .. });
                assert!(refused != (one == other) && !matches!(other, Ranged::Refused { number: 22, .. }), "{drawn:?}");
            }
        }
    }
}

#[test]
fn a_longer_path_narrows_what_can_be_followed() {
    for mut drawn in draws(20) {
        if drawn.path.len() > 100 {
            continue;
        }
        let whole = drawn.answer();
        let mut followed = true;
        for length in 0..drawn.path.len() {
            let before = DrawnRanges { path: drawn.path[..length].to_vec(), ..drawn.clone() }.answer();
            match (&before, &whole) {
                (Ranged::Refused { number: 22, .. } | Ranged::Ends { .. }, Ranged::Refused { number: 23, place }) => {
                    assert!(length <= *place);
                }
                (Ranged::Refused { .. } | Ranged::Ends { .. }, _) => assert_eq!(before, whole),
                (Ranged::Follows { .. }, _) => assert!(followed),
            }
            followed &= matches!(before, Ranged::Follows { .. });
        }
        // Records past the counts do not matter.
        for (table, count) in [(&mut drawn.locations, drawn.location_count), (&mut drawn.edges, drawn.edge_count)] {
            if count <= table.len() / 32 {
                table.truncate(32 * count);
                table.extend([0xd3; 31]);
            }
        }
        assert_eq!(drawn.answer(), whole);
    }
}

#[test]
fn the_same_seed_draws_the_same() {
    let turn = ranges_aims().len() as u64;
    for seed in [0, 1, 17, 12_345, u64::MAX] {
        assert_eq!(draw_ranges(seed), draw_ranges(seed));
        assert_ne!(draw_ranges(seed), draw_ranges(seed.wrapping_add(turn)));
    }
    assert_eq!(RangesClause::ALL.len(), 24);
    assert!(RangesClause::ALL.is_sorted_by(|one, next| one < next));
}
