//! Ranges, right and wrong.

use crate::random::Random;
use crate::ranges::HIGHEST;
use crate::walk_damage::any_of;

/// Counters of a start: small ones, or many near the highest.
pub fn counters(random: &mut Random, count: usize, near: bool) -> Vec<u32> {
    let counter = |_| {
        if near && random.chance(70) {
            HIGHEST - random.below(4) as u32
        } else {
            any_of(random, &[1, 1, 2, 2, 3, 4, 12])
        }
    };
    (0..count).map(counter).collect()
}

/// Ranges with these counters within them, as far as they may be so high. They
/// have at most so many combinations.
pub fn around(random: &mut Random, counters: &[u32], most: usize) -> Vec<u32> {
    let mut room = most;
    let mut numbers = vec![0; 2 * counters.len()];
    // In any order, since the last ones find little room.
    let mut order: Vec<usize> = (0..counters.len()).collect();
    random.shuffle(&mut order);
    for node in order {
        let counter = counters[node].min(HIGHEST);
        let size = random.between(1, room.min(5));
        let lowest = counter.saturating_sub(random.below(size) as u32).max(1);
        let highest = (lowest + size as u32 - 1).min(HIGHEST);
        numbers[2 * node] = lowest;
        numbers[2 * node + 1] = highest;
        room /= size;
    }
    numbers
}

/// Ranges of any size with these counters within them.
pub fn wide(random: &mut Random, counters: &[u32]) -> Vec<u32> {
    let mut range = |&counter: &u32| {
        let lowest = any_of(random, &[1, counter, counter]);
        let any = random.between(counter as usize, HIGHEST as usize) as u32;
        [lowest, any_of(random, &[HIGHEST, HIGHEST - 1, counter, any, any])]
    };
    counters.iter().flat_map(&mut range).collect()
}

/// Puts numbers behind, most of which are no ends of ranges.
pub fn more(random: &mut Random, numbers: &mut Vec<u32>) {
    let count = any_of(random, &[0, 0, 1, 2, 3, 24]);
    numbers.extend((0..count).map(|_| any_of(random, &[0, HIGHEST + 1, u32::MAX, 7])));
}

/// Makes one range or two wrong, or the numbers fewer than the counters need.
/// None if there are no counters.
pub fn spoil(random: &mut Random, numbers: &mut Vec<u32>, counters: usize) -> Option<()> {
    if counters == 0 {
        return None;
    }
    let turns = if random.chance(30) { 2 } else { 1 };
    for _ in 0..turns {
        let node = random.below(counters);
        let pair = &mut numbers[2 * node..][..2];
        let wrong = wrong_range(random, [pair[0], pair[1]]);
        pair.copy_from_slice(&wrong);
    }
    if random.chance(25) {
        numbers.truncate(random.below(2 * counters));
    }
    Some(())
}

/// A range that is wrong, made of one that is right.
fn wrong_range(random: &mut Random, [lowest, highest]: [u32; 2]) -> [u32; 2] {
    let above = any_of(random, &[HIGHEST + 1, HIGHEST + 1, HIGHEST + 2, u32::MAX]);
    match random.below(9) {
        0 | 1 => [0, highest],
        2 => [0, 0],
        3 | 4 => [lowest, above],
        5 => [above, above],
        6 => [lowest, 0],
        _ if lowest < highest => [highest, lowest],
        _ => any_of(random, &[[HIGHEST, 1], [2, 1], [HIGHEST, HIGHEST - 1]]),
    }
}
