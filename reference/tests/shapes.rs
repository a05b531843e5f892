//! What is a shape, by the words of the definition, for all small records.

mod common;

use common::shapes::Defects;
use common::small::all_lists;
use common::*;
use reference::unfold;

/// The answer that is due of an unfolding, if only the record matters.
fn due(record: &Record) -> Result<(), reference::Refusal> {
    match Defects::of(record).refusal() {
        Some((number, node)) => Err(at_node(number, 0, node)),
        None => Ok(()),
    }
}

#[test]
fn refusals_9_18_and_19_for_all_small_records() {
    let mut passed = 0;
    let mut met = [[0; 4]; 20];
    for nodes in 0..=4 {
        let successor_lists = all_lists(nodes, nodes);
        for first in all_lists(3, nodes) {
            for successors in &successor_lists {
                let held = pointers(&first);
                let mut counters = [0; 12];
                counters[..nodes].fill(2);
                let (mut to_pointers, mut to_cells) = ([0; 6], [0; 8]);
                let record = h(held, successors);
                let answer = unfold(&record, &counters, &mut to_pointers, &mut to_cells);
                assert_eq!(answer, due(&record), "{held:?} {successors:?}");
                match answer {
                    Ok(()) => passed += 1,
                    Err(refusal) => met[usize::from(refusal.number)][usize::from(refusal.node.0)] += 1,
                }
            }
        }
    }
    assert!(passed > 500, "only {passed} shapes were met");
    // 19 cannot come at the last of four nodes: all numbers but its own are taken.
    assert!(met[9].iter().chain(&met[18]).chain(&met[19][..3]).all(|&count| count > 50), "{met:?}");
    assert_eq!(met[19][3], 0);
}

#[test]
fn twelve_nodes() {
    // Six lists that meet in pairs, in a ring of six.
    let mut held = NULLS;
    let mut successors = [0; 12];
    held[0] = 0;
    successors[0] = 1;
    for ring in 0..6 {
        successors[1 + ring] = if ring == 5 { 1 } else { 2 + ring as u8 };
    }
    for pointer in 1..6 {
        held[pointer] = 6 + pointer as u8;
        successors[6 + pointer] = 1 + pointer as u8;
    }
    assert_eq!(due(&h(held, &successors)), Ok(()));
    let (mut to_pointers, mut to_cells) = ([0; 6], [0; 240]);
    let mut unfold_with = |counters: &[u32]| {
        let record = h(held, &successors);
        unfold(&record, counters, &mut to_pointers, &mut to_cells)
    };
    assert_eq!(unfold_with(&[20; 11]), Err(at_0(15)));
    assert_eq!(unfold_with(&[18; 13]), Err(at_0(15)));
    assert_eq!(unfold_with(&[20; 12]), Ok(()));
    let folded = reference::fold(&to_pointers, &to_cells);
    assert_eq!((folded.record, folded.counters), (h(held, &successors), [20; 12]));
}
