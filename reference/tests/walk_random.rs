//! Random walks on tables drawn by hand, sound and broken: against the layout
//! and the move written down once more, and against single moves.

mod common;

use common::at_0;
use common::layout::{configuration_keeps, moved, tables_keep};
use reference::walk_damage::{aims, draw, Aim, DrawnWalk};
use reference::{broken_clause, broken_clauses, configuration_fits, move_along, walk, Clause, Walked};
use std::collections::BTreeMap;

/// So many turns of all aims.
const TURNS: u64 = 600;

fn draws(turns: u64) -> impl Iterator<Item = DrawnWalk> {
    (0..turns * aims().len() as u64).map(draw)
}

fn broken(drawn: &DrawnWalk) -> Vec<Clause> {
    let clauses = broken_clauses(&drawn.locations, &drawn.edges, drawn.location_count, drawn.edge_count);
    let first = broken_clause(&drawn.locations, &drawn.edges, drawn.location_count, drawn.edge_count);
    assert_eq!(first, clauses.first().copied());
    assert!(clauses.is_sorted_by(|one, next| one < next));
    clauses
}

fn walked(drawn: &DrawnWalk) -> Walked {
    walk(&drawn.locations, &drawn.edges, drawn.location_count, drawn.edge_count, drawn.configuration, &drawn.path)
}

/// The walk by the oracle.
fn due(drawn: &DrawnWalk) -> Walked {
    let mut due = Walked { refusal: None, made: 0, configuration: drawn.configuration };
    let sound = tables_keep(&drawn.locations, &drawn.edges, drawn.location_count, drawn.edge_count)
        && configuration_keeps(&drawn.locations, drawn.location_count, &drawn.configuration)
        && drawn.path.len() <= 4096;
    if !sound {
        due.refusal = Some(at_0(20));
        return due;
    }
    for &edge in &drawn.path {
        match moved(&drawn.locations, &drawn.edges, drawn.edge_count, &due.configuration, edge as usize) {
            Ok(configuration) => due.configuration = configuration,
            Err(number) => {
                due.refusal = Some(at_0(number));
                break;
            }
        }
        due.made += 1;
    }
    due
}

#[test]
fn clauses_are_broken_just_outside_and_kept_just_inside() {
    let mut met: BTreeMap<(Clause, bool), u64> = BTreeMap::new();
    let mut alone: BTreeMap<Clause, u64> = BTreeMap::new();
    for drawn in draws(TURNS) {
        let broken = broken(&drawn);
        let keeps = tables_keep(&drawn.locations, &drawn.edges, drawn.location_count, drawn.edge_count);
        assert_eq!(broken.is_empty(), keeps, "{drawn:?}");
        match drawn.aim {
            Aim::Outside(clause) => {
                assert!(broken.contains(&clause), "{broken:?} of {drawn:?}");
                *met.entry((clause, false)).or_default() += 1;
                *alone.entry(clause).or_default() += u64::from(broken == [clause]);
            }
            Aim::Inside(clause) => {
                assert_eq!(broken, [], "{drawn:?}");
                *met.entry((clause, true)).or_default() += 1;
            }
            Aim::AnyBytes => {}
            _ => assert_eq!(broken, [], "{drawn:?}"),
        }
    }
    for &clause in Clause::ALL {
        for inside in [false, true] {
            let count = met[&(clause, inside)];
            assert!(count >= TURNS, "{clause:?} {inside} is met {count} times");
        }
        // In most of them nothing else is wrong.
        assert!(alone[&clause] * 10 >= met[&(clause, false)] * 7, "{clause:?} alone: {} times", alone[&clause]);
    }
}

#[test]
fn walks_are_what_the_oracle_says() {
    let mut met: BTreeMap<(String, Option<u8>), u64> = BTreeMap::new();
    let (mut moves, mut longest) = (0, 0);
    for drawn in draws(TURNS) {
        let got = walked(&drawn);
        assert_eq!(got, due(&drawn), "{drawn:?}");
        let name = format!("{:?}", drawn.aim);
        let name = name.split('(').next().unwrap_or_default().to_string();
        *met.entry((name, got.refusal.map(|refusal| refusal.number))).or_default() += 1;
        moves += got.made;
        longest += u64::from(got.made == 4096);
    }
    let count = |aim: &str, refusal: Option<u8>| met.get(&(aim.to_string(), refusal)).copied().unwrap_or(0);
    for aim in ["Sound", "Inside"] {
        assert!(count(aim, None) >= 1000 && count(aim, Some(20)) >= 200, "{met:?}");
    }
    for refusal in [None, Some(20), Some(21)] {
        assert!(count("NearTheLimit", refusal) >= 200, "{met:?}");
    }
    for aim in ["Outside", "TooLongPath", "WrongConfiguration"] {
        assert!(count(aim, None) == 0 && count(aim, Some(21)) == 0 && count(aim, Some(20)) >= TURNS, "{met:?}");
    }
    assert_eq!(count("EmptyPath", None), TURNS);
    assert!(count("NeverEnabled", Some(20)) >= TURNS / 3 && count("WrongEdge", Some(20)) >= TURNS, "{met:?}");
    assert!(longest >= TURNS / 2 && moves >= 1_000_000, "{longest} {moves}");
}

#[test]
fn a_walk_is_its_single_moves() {
    for drawn in draws(100) {
        if matches!(drawn.aim, Aim::LongestPath | Aim::TooLongPath) {
            continue;
        }
        let tables = (&drawn.locations[..], &drawn.edges[..], drawn.location_count, drawn.edge_count);
        let mut by_moves = Walked { refusal: None, made: 0, configuration: drawn.configuration };
        for &edge in &drawn.path {
            match move_along(tables.0, tables.1, tables.2, tables.3, by_moves.configuration, edge as usize) {
                Ok(configuration) => by_moves.configuration = configuration,
                Err(refusal) => {
                    by_moves.refusal = Some(refusal);
                    break;
                }
            }
            by_moves.made += 1;
        }
        if drawn.path.is_empty() {
            // There is no move to tell of a broken layout.
            let fits =
                broken(&drawn).is_empty() && configuration_fits(&drawn.locations, drawn.location_count, &drawn.configuration);
            by_moves.refusal = (!fits).then(|| at_0(20));
        }
        assert_eq!(walked(&drawn), by_moves, "{drawn:?}");
    }
}

#[test]
fn what_is_walked_to_fits() {
    for drawn in draws(50) {
        if matches!(drawn.aim, Aim::Sound | Aim::Inside(_) | Aim::NearTheLimit | Aim::LongestPath) {
            assert!(configuration_fits(&drawn.locations, drawn.location_count, &walked(&drawn).configuration), "{drawn:?}");
        }
    }
}

#[test]
fn records_past_the_counts_do_not_matter() {
    for mut drawn in draws(50) {
        if matches!(drawn.aim, Aim::Outside(Clause::LocationCount | Clause::EdgeCount) | Aim::TooLongPath) {
            continue;
        }
        let (before, broken_before) = (walked(&drawn), broken(&drawn));
        for (table, count) in [(&mut drawn.locations, drawn.location_count), (&mut drawn.edges, drawn.edge_count)] {
            table.truncate(32 * count);
            table.extend([0xd3; 77]);
        }
        assert_eq!((walked(&drawn), broken(&drawn)), (before, broken_before));
    }
}

#[test]
fn the_same_seed_draws_the_same() {
    let turn = aims().len() as u64;
    for seed in [0, 1, 17, 12_345, u64::MAX] {
        assert_eq!(draw(seed), draw(seed));
        assert_ne!(draw(seed), draw(seed.wrapping_add(turn)));
    }
    let sound: Vec<DrawnWalk> = draws(20).filter(|drawn| drawn.aim == Aim::Sound).collect();
    assert!(sound.iter().any(|drawn| drawn.edge_count == 0) && sound.iter().any(|drawn| drawn.edge_count == 12));
    assert!(sound.iter().any(|drawn| drawn.location_count == 1) && sound.iter().any(|drawn| drawn.location_count == 8));
    assert!(sound.iter().any(|drawn| drawn.locations.len() % 32 != 0) && sound.iter().any(|drawn| drawn.edges.len() % 32 != 0));
}
