//! Walks on the tables of listings and on tables drawn by hand.

use super::counts::Counts;
use super::draws::random_edge_number;
use super::images::{due_refusal, want};
use super::tables::Full;
use super::walk_counts::{ENDS, TRIED};
use crate::automaton::{Automaton, Configuration as Wide};
use crate::clause::Clause;
use crate::layout::{broken_clause, broken_clauses, used};
use crate::random::Random;
use crate::records::{NODES, RECORD};
use crate::walk::{configuration_fits, move_along, walk, Configuration, Walked, LONGEST};
use crate::walk_damage::{break_clause, draw, near_the_limit, Aim, Draft, DrawnWalk};

/// The longest walk on a listing.
const STEPS: usize = 40;

/// What is due of a walk on tables that keep the layout, from a configuration
/// that does, by the automaton without a limit for counters.
fn due_walk(automaton: &Automaton, start: Configuration, path: &[u32]) -> Walked {
    let mut due = Walked { refusal: None, made: 0, configuration: start };
    if path.len() > LONGEST {
        due.refusal = Some(due_refusal(20));
    }
    for &edge in path.iter().take_while(|_| path.len() <= LONGEST) {
        let Configuration { location, counters } = due.configuration;
        let mut at = Wide { location: location as usize, counters: counters.map(u64::from) };
        let fed = automaton.feed(&mut at, u64::from(edge));
        if !fed || at.counters.iter().any(|&counter| counter >= 1 << 32) {
            due.refusal = Some(due_refusal(if fed { 21 } else { 20 }));
            break;
        }
        due.configuration = Configuration { location: at.location as u32, counters: at.counters.map(|counter| counter as u32) };
        due.made += 1;
    }
    due
}

/// Which of the ends a walk had.
fn end(walked: &Walked) -> usize {
    match walked.refusal.map(|refusal| refusal.number) {
        None => 0,
        Some(20) => 1 + usize::from(walked.made > 0),
        _ => 3,
    }
}

fn count_walk(counts: &mut Counts, ends: fn(&mut Counts) -> &mut [u64; ENDS.len()], walked: &Walked) {
    ends(counts)[end(walked)] += 1;
    counts.walks.moves += walked.made as u64;
    counts.refused(walked.refusal.map_or(0, |refusal| refusal.number));
}

/// The tables of a listing keep the layout. A walk on them is what the automaton
/// makes of it and what its single moves give, and a clause that is broken on
/// purpose is told.
pub fn on_a_listing(random: &mut Random, counts: &mut Counts, full: &Full, automaton: &Automaton) -> Result<(), String> {
    let [location_count, edge_count] = [full.answer.locations, full.answer.edges];
    let broken = broken_clause(&full.locations, &full.edges, location_count, edge_count);
    want(broken.is_none(), &format!("a listing breaks the layout: {broken:?}"))?;
    let (start, path) = random_walk(random, full, automaton);
    let walked = walk(&full.locations, &full.edges, location_count, edge_count, start, &path);
    let due = due_walk(automaton, start, &path);
    want(walked == due, &format!("{walked:?} where {due:?} is due, from {start:?} along {path:?}"))?;
    want(configuration_fits(&full.locations, location_count, &walked.configuration), "a walk leads to what does not fit")?;
    if let Some(&edge) = path.get(walked.made) {
        let moved = move_along(&full.locations, &full.edges, location_count, edge_count, walked.configuration, edge as usize);
        want(moved.err() == walked.refusal, "a single move is refused otherwise")?;
    }
    counts.walks.on_listings += 1;
    count_walk(counts, |counts| &mut counts.walks.ends_on_listings, &walked);
    for _ in 0..TRIED {
        break_listing(random, counts, full, start)?;
    }
    Ok(())
}

/// A location with counters, and edges most of which can be taken. Some begin
/// with a move to a counter near 2^32.
fn random_walk(random: &mut Random, full: &Full, automaton: &Automaton) -> (Configuration, Vec<u32>) {
    if random.chance(40) {
        if let Some((edge, start)) = near_the_limit(random, &draft_of(full)) {
            return (start, vec![edge as u32]);
        }
    }
    let any = random.below(automaton.locations.len());
    let location = if random.chance(80) && !automaton.edges.is_empty() {
        automaton.edges[random.below(automaton.edges.len())].from
    } else {
        any
    };
    let nodes = usize::from(automaton.locations[location][3]);
    let least = [1, 1, 1 << 31][random.below(3)];
    let mut counters = [0; NODES];
    for counter in &mut counters[..nodes] {
        *counter = least + random.below(3) as u32;
    }
    let start = Configuration { location: location as u32, counters };
    let mut at = Wide { location, counters: counters.map(u64::from) };
    let mut path = Vec::new();
    for _ in 0..random.below(STEPS) {
        let number = random_edge_number(random, automaton, &at) as u32;
        // Often another one, where this one cannot be taken.
        if automaton.feed(&mut at, u64::from(number)) || random.chance(10) {
            path.push(number);
        }
    }
    (start, path)
}

fn draft_of(full: &Full) -> Draft {
    Draft {
        locations: used(&full.locations, full.answer.locations).to_vec(),
        edges: used(&full.edges, full.answer.edges).to_vec(),
    }
}

/// Breaks a clause in a copy of the tables, if there is a record for it.
fn break_listing(random: &mut Random, counts: &mut Counts, full: &Full, start: Configuration) -> Result<(), String> {
    let clause = Clause::ALL[random.below(Clause::ALL.len())];
    let mut draft = draft_of(full);
    if break_clause(random, &mut draft, clause).is_none() {
        return Ok(());
    }
    let (locations, edges) = (draft.locations.as_flattened(), draft.edges.as_flattened());
    let [location_count, edge_count] = [locations.len() / RECORD, edges.len() / RECORD];
    let broken = broken_clauses(locations, edges, location_count, edge_count);
    want(broken.contains(&clause), &format!("{broken:?} where {clause:?} is broken"))?;
    let walked = walk(locations, edges, location_count, edge_count, start, &[]);
    let due = Walked { refusal: Some(due_refusal(20)), made: 0, configuration: start };
    want(walked == due, &format!("{walked:?} where {clause:?} is broken"))?;
    counts.walks.listings[clause as usize] += 1;
    Ok(())
}

/// A walk drawn by hand: its tables break what they are to break, and the walk
/// is what the automaton makes of it.
pub fn on_drawn_tables(counts: &mut Counts, seed: u64) -> Result<(), String> {
    let drawn = draw(seed);
    test_drawn(counts, &drawn).map_err(|difference| format!("{difference}, in {drawn:?}"))
}

fn test_drawn(counts: &mut Counts, drawn: &DrawnWalk) -> Result<(), String> {
    let DrawnWalk { aim, ref locations, ref edges, location_count, edge_count, configuration, ref path } = *drawn;
    let broken = broken_clauses(locations, edges, location_count, edge_count);
    let as_aimed = match aim {
        Aim::Outside(clause) => broken.contains(&clause),
        Aim::AnyBytes => true,
        _ => broken.is_empty(),
    };
    want(as_aimed, &format!("{broken:?} is broken"))?;
    let walked = walk(locations, edges, location_count, edge_count, configuration, path);
    let fits = broken.is_empty() && configuration_fits(locations, location_count, &configuration);
    let due = if fits {
        let [locations, edges] = [&locations[..location_count * RECORD], &edges[..edge_count * RECORD]];
        due_walk(&Automaton::read(locations, location_count, edges, edge_count)?, configuration, path)
    } else {
        Walked { refusal: Some(due_refusal(20)), made: 0, configuration }
    };
    want(walked == due, &format!("{walked:?} where {due:?} is due"))?;
    counts.walks.on_drawn += 1;
    if fits {
        count_walk(counts, |counts| &mut counts.walks.ends_on_drawn, &walked);
    }
    counts.walks.empty += u64::from(path.is_empty());
    counts.walks.longest += u64::from(walked.made == LONGEST);
    counts.walks.too_long += u64::from(path.len() > LONGEST);
    counts.walks.misplaced += u64::from(broken.is_empty() && !fits);
    counts.walks.overflowed_later += u64::from(end(&walked) == 3 && walked.made > 0);
    match aim {
        Aim::Outside(clause) => counts.walks.outside[clause as usize] += 1,
        Aim::Inside(clause) => counts.walks.inside[clause as usize] += 1,
        _ => {}
    }
    Ok(())
}
