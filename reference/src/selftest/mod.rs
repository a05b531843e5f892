//! Random tests: the tables against the plain machine, folding against
//! unfolding, and every refusal.

mod counts;
mod damages;
mod describes;
mod draws;
mod drop_counts;
mod drop_images;
mod drop_listings;
mod drops;
mod exact;
mod images;
mod mutate;
mod nodes;
mod parts;
mod ranges;
mod refusals;
mod relinks;
mod runs;
mod search_counts;
mod searches;
mod tables;
mod undefined;
mod walk_counts;
mod walks;

use crate::automaton::Automaton;
use crate::damage::{all_damages, damaged_shape};
use crate::input::read_routine;
use crate::random::Random;
use crate::records::{hex, Record};
use crate::refusal::Refusal;
use crate::routines::{drop_often, random_routine};

pub use counts::Counts;
pub use drop_counts::DropCounts;
pub use ranges::RangesCounts;
pub use search_counts::SearchCounts;
pub use walk_counts::WalkCounts;

/// The seed and the number of routines if none are given.
pub const SEED: u64 = 1;
pub const ROUTINES: u64 = 12_000;

/// Tests so many routines. Answers what was counted, or what differs, or
/// which refusal or fault was never met, or which tests of undefined pointers,
/// relinks, drops, damaged H records, walks, searches or paths from ranges were
/// too few.
pub fn run(seed: u64, routines: u64) -> Result<Counts, String> {
    let mut random = Random::new(seed);
    // What a seed draws elsewhere does not hang on the parts, the damages, the
    // drops, the walks, the searches and the ranges.
    let mut part_random = Random::new(!seed);
    let mut damage_random = Random::new(seed.rotate_left(32));
    let mut drop_random = Random::new(seed.rotate_left(16));
    let mut walk_random = Random::new(seed.rotate_left(48));
    let first_walk = walk_random.next();
    let [first_search, first_ranges] = [8, 24].map(|by| Random::new(seed.rotate_left(by)).next());
    let mut counts = Counts::default();
    for number in 0..routines {
        let drawn = random_routine(&mut random);
        let input = drawn.input();
        let told = |difference: String| {
            let input = hex(&input);
            format!("seed {seed}, routine {number}: {difference}\nits records: {input}")
        };
        test_routine([&mut random, &mut part_random, &mut walk_random], &mut counts, &input).map_err(told)?;
        mutate::test(&mut random, &mut counts, &drawn, number).map_err(told)?;
        damages::test(&mut damage_random, &mut counts, &drawn, number).map_err(told)?;
        images::test(&mut random, &mut counts, number)
            .map_err(|difference| format!("seed {seed}, heap {number}: {difference}"))?;
        let told = |difference: String| format!("seed {seed}, drops {number}: {difference}");
        test_drops(&mut drop_random, &mut counts).map_err(told)?;
        test_drawn_tables(&mut counts, [first_walk, first_search, first_ranges], number)?;
    }
    if let Some(missing) = counts.never_met() {
        return Err(format!("{counts}never met: {missing}"));
    }
    let floor = counts.floor();
    let few = [counts.too_few(), counts.searches.too_few(floor), counts.ranges.too_few(floor)];
    let few: Vec<String> = few.into_iter().flatten().collect();
    if few.is_empty() {
        Ok(counts)
    } else {
        Err(format!("{counts}too few: {}", few.join(", ")))
    }
}

/// Walks, searches and paths from ranges, each from its seeds on.
fn test_drawn_tables(counts: &mut Counts, first: [u64; 3], number: u64) -> Result<(), String> {
    let [walk, search, ranges] = first;
    for turn in 0..walk_counts::DRAWN {
        walks::on_drawn_tables(counts, walk.wrapping_add(number * walk_counts::DRAWN + turn))?;
    }
    for turn in 0..search_counts::DRAWN {
        searches::on_a_drawn_table(counts, search.wrapping_add(number * search_counts::DRAWN + turn))?;
    }
    for turn in 0..ranges::DRAWN {
        ranges::on_drawn_tables(counts, ranges.wrapping_add(number * ranges::DRAWN + turn))?;
    }
    Ok(())
}

/// Inputs and images that are drawn for their drops.
fn test_drops(random: &mut Random, counts: &mut Counts) -> Result<(), String> {
    for _ in 0..drop_counts::INPUTS {
        let input = drop_often(random).input();
        let told = |difference: String| format!("{difference}\nits records: {}", hex(&input));
        drop_listings::test(random, counts, &input).map_err(told)?;
    }
    for _ in 0..drop_counts::IMAGES {
        drop_images::test(random, counts)?;
    }
    Ok(())
}

/// Inputs that pass all checks, without end. A seed gives the same ones again.
pub fn sound_inputs(seed: u64) -> impl Iterator<Item = Vec<u8>> {
    let mut random = Random::new(seed);
    std::iter::repeat_with(move || random_routine(&mut random).input())
}

/// Inputs that pass all checks and have lists to let go, without end. In most
/// of them, more than nine of ten, the listing has a location at a drop.
pub fn drop_inputs(seed: u64) -> impl Iterator<Item = Vec<u8>> {
    let mut random = Random::new(seed);
    std::iter::repeat_with(move || drop_often(&mut random).input())
}

/// Inputs that fail a check, without end, each with its refusal. The refusals
/// 1 to 10, 18 and 19 take turns.
pub fn unsound_inputs(seed: u64) -> impl Iterator<Item = (Vec<u8>, Refusal)> {
    let mut random = Random::new(seed);
    mutate::CHECKS.into_iter().cycle().map(move |refusal| {
        let drawn = random_routine(&mut random);
        mutate::change(&mut random, &drawn, refusal)
    })
}

/// H records that keep the layout and are no shapes, without end, each with
/// its refusal at place 0. 9 and 18 at the nodes 0 to 11 and 19 at the nodes 0
/// to 10 take turns, so 35 in all. Many records have several defects at once,
/// of which the refusal tells the one that is looked for first.
pub fn damaged_shapes(seed: u64) -> impl Iterator<Item = (Record, Refusal)> {
    let mut random = Random::new(seed);
    all_damages().into_iter().cycle().map(move |damage| damaged_shape(&mut random, damage))
}

/// Everything about one input that passes the checks.
fn test_routine(randoms: [&mut Random; 3], counts: &mut Counts, input: &[u8]) -> Result<(), String> {
    let [random, part_random, walk_random] = randoms;
    counts.routines += 1;
    let routine = read_routine(input).map_err(|refusal| format!("a sound routine is refused: {refusal:?}"))?;
    let Some(full) = tables::translate_full(random, counts, input)? else {
        return Ok(());
    };
    let automaton = Automaton::read(&full.locations, full.answer.locations, &full.edges, full.answer.edges)?;
    counts.accepted += 1;
    counts.locations += automaton.locations.len() as u64;
    counts.edges += automaton.edges.len() as u64;
    counts.large += u64::from(automaton.locations.len() >= 200);
    counts.largest = counts.largest.max(automaton.locations.len() as u64);
    exact::test(counts, &automaton, &routine)?;
    tables::test_short_tables(random, counts, input, &full, routine.shapes.len(), &automaton)?;
    parts::test(part_random, counts, &full)?;
    walks::on_a_listing(walk_random, counts, &full, &automaton)?;
    searches::on_a_listing(counts, &full, routine.shapes.len(), &automaton)?;
    for _ in 0..3 {
        runs::follow_the_routine(random, counts, &routine, &automaton)?;
        runs::follow_the_edges(random, counts, &routine, &automaton)?;
    }
    Ok(())
}
