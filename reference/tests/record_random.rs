//! One record out of random tables, against the three conditions of refusal
//! 17 written down once more.

mod common;

use common::random::Random;
use common::*;
use reference::record_part;
use std::collections::BTreeMap;

/// One call: the lengths and counts of both tables, the mark and the number.
#[derive(Debug)]
struct Call {
    lengths: [usize; 2],
    counts: [usize; 2],
    mark: usize,
    number: usize,
}

fn draw(random: &mut Random) -> Call {
    let mut length = |most: usize| match random.below(3) {
        0 => random.below(100),
        1 => random.below(32 * most),
        _ => 32 * most - 40 + random.below(120),
    };
    let lengths = [length(1024), length(2048)];
    let counts = [random.near((lengths[0] / 32).min(1024)), random.near((lengths[1] / 32).min(2048))];
    let mark = match random.below(5) {
        0 => [2, usize::MAX, random.next().max(2)][random.below(3)],
        _ => random.below(2),
    };
    let number = random.near(counts[mark % 2]);
    Call { lengths, counts, mark, number }
}

/// What holds of a call that matters for refusal 17.
#[derive(Clone, Copy, PartialEq, Eq, PartialOrd, Ord, Debug)]
enum Reason {
    MarkAboveOne,
    LocationCount,
    EdgeCount,
    NumberNotBelow,
}

/// All conditions that a call meets; without a table that is meant there is
/// no count for the number.
fn reasons(call: &Call) -> Vec<Reason> {
    let mut met = Vec::new();
    if call.mark > 1 {
        met.push(Reason::MarkAboveOne);
    }
    if call.counts[0] > call.lengths[0] / 32 || call.counts[0] > 1024 {
        met.push(Reason::LocationCount);
    }
    if call.counts[1] > call.lengths[1] / 32 || call.counts[1] > 2048 {
        met.push(Reason::EdgeCount);
    }
    if call.mark == 0 && call.number >= call.counts[0] || call.mark == 1 && call.number >= call.counts[1] {
        met.push(Reason::NumberNotBelow);
    }
    met
}

fn random_bytes(random: &mut Random, length: usize) -> Vec<u8> {
    (0..length).map(|_| random.next() as u8).collect()
}

/// Carries out random calls and counts them by mark (2 for all above 1) and
/// by the conditions that they meet.
fn count_calls(calls: usize) -> BTreeMap<(usize, Vec<Reason>), usize> {
    let mut random = Random(0x2545_f491_4f6c_dd1d);
    let bytes = [random_bytes(&mut random, 32 * 1030), random_bytes(&mut random, 32 * 2060)];
    let mut met = BTreeMap::new();
    for _ in 0..calls {
        let call = draw(&mut random);
        let tables = [&bytes[0][..call.lengths[0]], &bytes[1][..call.lengths[1]]];
        let answer = record_part(tables[0], tables[1], call.counts[0], call.counts[1], call.mark, call.number);
        let reasons = reasons(&call);
        if reasons.is_empty() {
            let part = answer.unwrap_or_else(|refusal| panic!("{call:?} gives {refusal:?}"));
            let due = &tables[call.mark][32 * call.number..][..32];
            // The addresses, since a copy has the same bytes.
            assert_eq!(part.as_ptr_range(), due.as_ptr_range(), "{call:?}");
        } else {
            assert_eq!(answer, Err(at_0(17)), "{call:?}");
        }
        *met.entry((call.mark.min(2), reasons)).or_insert(0) += 1;
    }
    met
}

#[test]
fn every_condition_is_met_by_itself() {
    let met = count_calls(400_000);
    let all = [Reason::LocationCount, Reason::EdgeCount, Reason::NumberNotBelow];
    let mut due = vec![(2, vec![Reason::MarkAboveOne])];
    for mark in [0, 1] {
        due.push((mark, vec![]));
        // Of the two counts one is that of the table meant, one the other's.
        due.extend(all.map(|reason| (mark, vec![reason])));
        due.push((mark, all.to_vec()));
    }
    for kind in due {
        let count = met.get(&kind).copied().unwrap_or(0);
        assert!(count >= 1000, "{kind:?} is met {count} times, of all {met:?}");
    }
}
