//! The tables of accepted translations: they keep the layout, and moves from
//! the starting shapes agree with the plain machine and with folding.

mod common;

use common::random::Random;
use common::*;
use reference::selftest::{drop_inputs, sound_inputs};
use reference::{broken_clause, fold, move_along, step, unfold, walk, Configuration, Stepped, Walked};

/// A routine at a statement of its own, on a heap image.
struct Running<'a> {
    statements: &'a [u8],
    statement: u8,
    fault: u8,
    pointers: [u8; 6],
    cells: [u8; 240],
}

impl Running<'_> {
    /// Makes the step of this branch. Answers false at a stop or past a fault.
    fn steps(&mut self, branch: u8) -> bool {
        let record = &self.statements[32 * usize::from(self.statement)..][..32];
        let unused = self.cells.iter().position(|&cell| cell == UNUSED).expect("an unused cell");
        if self.fault != 0 {
            return false;
        }
        match step(&mut self.pointers, &mut self.cells, record, u64::from(branch), unused as u64) {
            Stepped::Moved { branch: made, next } => {
                assert_eq!(made, branch);
                self.statement = next;
                true
            }
            Stepped::Fault(fault) => {
                assert_eq!(branch, 0);
                self.fault = fault;
                true
            }
            other => {
                assert_eq!(other, Stepped::Stop);
                false
            }
        }
    }

    /// Wants the location and the counters to be those of the heap.
    fn matches(&self, locations: &[u8], at: &Configuration) {
        let location = &locations[32 * at.location as usize..][..32];
        if self.fault != 0 {
            assert_eq!(location, faulted(self.statement, self.fault));
            assert_eq!(at.counters, [0; 12]);
            return;
        }
        let folded = fold(&self.pointers, &self.cells);
        assert_eq!(folded.refusal, None);
        assert_eq!(location[1..3], [self.statement, 0]);
        assert_eq!((&location[3..], at.counters), (&folded.record[3..], folded.counters));
    }
}

#[derive(Default)]
struct Met {
    accepted: u64,
    moves: u64,
    stops: u64,
    faults: u64,
}

/// Walks from a starting shape with small counters along edges that can be
/// taken, and steps the plain machine along. At its end no edge can be taken.
fn follow(random: &mut Random, input: &[u8], met: &mut Met) {
    let got = into_tables(input, 32 * 1024, 32 * 2048);
    if got.answer.refusal != 0 {
        return;
    }
    let counts = [got.answer.locations, got.answer.edges];
    assert_eq!(broken_clause(&got.locations, &got.edges, counts[0], counts[1]), None);
    met.accepted += 1;
    let statements = input.chunks(32).take_while(|record| record[0] == 0x53).count();
    let (statements, shapes) = input.split_at(32 * statements);
    let start = random.below(shapes.len() / 32);
    let shape = &shapes[32 * start..][..32];
    let mut counters = [0; 12];
    counters[..usize::from(shape[3])].fill_with(|| [1, 1, 2, 3, 1 + random.below(9) as u32][random.below(5)]);
    let mut running = Running { statements, statement: 0, fault: 0, pointers: [0; 6], cells: [0; 240] };
    unfold(shape, &counters, &mut running.pointers, &mut running.cells).expect("a starting shape unfolds");
    let first = Configuration { location: start as u32, counters };
    let (mut at, mut path) = (first, Vec::new());
    running.matches(&got.locations, &at);
    while path.len() < 25 {
        let leaves = |&edge: &usize| got.edges[32 * edge + 2..][..2] == (at.location as u16).to_le_bytes();
        let moved = |edge| move_along(&got.locations, &got.edges, counts[0], counts[1], at, edge).ok().map(|to| (edge, to));
        let ways: Vec<(usize, Configuration)> = (0..counts[1]).filter(leaves).filter_map(moved).collect();
        if ways.is_empty() {
            assert!(!running.steps(0));
            met.stops += u64::from(running.fault == 0);
            met.faults += u64::from(running.fault != 0);
            break;
        }
        // Each branch has one way for these counters.
        let branch = |edge: usize| got.edges[32 * edge + 1] & 1;
        let branches: Vec<u8> = ways.iter().map(|&(edge, _)| branch(edge)).collect();
        assert!(branches == [0] || branches == [1] || branches == [0, 1], "{branches:?}");
        let (edge, to) = ways[random.below(ways.len())];
        assert!(running.steps(branch(edge)));
        path.push(edge as u32);
        at = to;
        running.matches(&got.locations, &at);
        met.moves += 1;
    }
    let walked = walk(&got.locations, &got.edges, counts[0], counts[1], first, &path);
    assert_eq!(walked, Walked { refusal: None, made: path.len(), configuration: at });
}

#[test]
fn moves_agree_with_the_plain_machine() {
    let mut random = Random(0x9d1c_03f7_52ab_e641);
    let mut met = Met::default();
    for input in sound_inputs(4071).take(3000).chain(drop_inputs(4072).take(1500)) {
        follow(&mut random, &input, &mut met);
    }
    assert!(met.accepted >= 4400 && met.moves >= 10_000, "{} {}", met.accepted, met.moves);
    assert!(met.stops >= 150 && met.faults >= 1500, "{} {}", met.stops, met.faults);
}

#[test]
fn tables_of_accepted_translations_keep_the_layout() {
    let mut largest = [0; 2];
    for input in sound_inputs(4073).take(6000) {
        let got = into_tables(&input, 32 * 1024, 32 * 2048);
        let counts = [got.answer.locations, got.answer.edges];
        assert_eq!(broken_clause(&got.locations, &got.edges, counts[0], counts[1]), None);
        // One record more is a place of zeros, which is none.
        if got.answer.refusal == 0 && counts[0] < 1024 && counts[1] < 2048 {
            assert!(broken_clause(&got.locations, &got.edges, counts[0] + 1, counts[1]).is_some());
            assert!(broken_clause(&got.locations, &got.edges, counts[0], counts[1] + 1).is_some());
        }
        largest = [largest[0].max(counts[0]), largest[1].max(counts[1])];
    }
    assert!(largest[0] >= 500 && largest[1] >= 1000, "{largest:?}");
}
