//! H records that keep the layout and are no shapes, among the starting shapes of a routine and in unfoldings: the proved library
//! against the second translator's answers, and both against the sentences themselves: which of 9, 18 and 19 comes, and at which
//! node. What came is counted by refusal and node, and too few fail.

use native::compare::{told, translation, unfolding};
use native::damage::{among_shapes, any_values, counters_of, spoiled};
use native::draw::Draw;
use native::small::every_record;
use native::{Node, Refusal};
use reference::selftest::damaged_shapes;

type Record = [u8; 32];

/// A value is a node below k, or null or undefined, which are above.
fn node_of(record: &Record, value: u8) -> Option<usize> {
    (value < record[3]).then_some(value.into())
}

/// The nodes that the walk visits, in the order of their first visit.
fn walk(record: &Record) -> Vec<usize> {
    let mut visits = Vec::new();
    for &pointer in &record[4..10] {
        let mut at = node_of(record, pointer);
        while let Some(node) = at.filter(|node| !visits.contains(node)) {
            visits.push(node);
            at = node_of(record, record[10 + node]);
        }
    }
    visits
}

/// What is due of a record that keeps the layout, none for a shape: the first node that no pointer reaches; else the first that is
/// held by no pointer and by fewer than two nodes; else the first that the walk numbers otherwise.
fn due(record: &Record) -> Option<Refusal> {
    let visits = walk(record);
    let (pointers, ends) = (&record[4..10], &record[10..10 + usize::from(record[3])]);
    let holders = |values: &[u8], node: usize| values.iter().filter(|&&value| usize::from(value) == node).count();
    let lost = |node: usize| !visits.contains(&node);
    let not_core = |node: usize| holders(pointers, node) == 0 && holders(ends, node) < 2;
    // where none is lost, the walk visits as many as there are
    let otherwise = |node: usize| visits[node] != node;
    let first = |number: u8, wrong: &dyn Fn(usize) -> bool| {
        let node = (0..ends.len()).find(|&node| wrong(node))?;
        Some(Refusal { number, place: 0, node: Node(node as u8) })
    };
    first(9, &lost).or_else(|| first(18, &not_core)).or_else(|| first(19, &otherwise))
}

/// How often each of 9, 18 and 19 came at each node, in translations and in unfoldings.
#[derive(Default)]
struct Counts([[[usize; 12]; 20]; 2]);

impl Counts {
    fn add(&mut self, call: usize, refusal: Refusal) {
        self.0[call][usize::from(refusal.number)][usize::from(refusal.node.0)] += 1;
    }

    /// 19 cannot come at the last node: the walk's numbers are all different, so the one that is left is its own.
    fn at_least(&self, each: usize, all: usize) {
        for (call, counts) in ["translations", "unfoldings"].into_iter().zip(&self.0) {
            for (number, nodes) in [(9, 12), (18, 12), (19, 11)] {
                println!("{number} in {call}, by node: {:?}", &counts[number][..nodes]);
                assert!(counts[number][..nodes].iter().all(|&times| times >= each), "too few of {number} at some node in {call}");
                assert!(counts[number][nodes..].iter().all(|&times| times == 0));
            }
        }
        let sum: usize = self.0.iter().flatten().flatten().sum();
        println!("damaged H records in all: {sum}");
        assert!(sum >= all, "only {sum} damaged H records");
    }
}

/// The record at a random place among the starting shapes of a routine, and in an unfolding into a heap that suffices.
fn compare(d: &mut Draw, record: &Record, counts: &mut Counts) {
    let (input, place) = among_shapes(d, record);
    let (refusal, listed, _) = translation(&input, [d.below(3000), d.below(3000)], d.number() as u8);
    let counters = counters_of(d, record);
    let unfolded = unfolding(record, &counters, [6, 240], d.number() as u8);
    match due(record) {
        Some(due) => {
            assert_eq!((refusal, listed), (Refusal { place, ..due }, [0, 0]), "record {place} of {input:x?}");
            assert_eq!(unfolded, due, "unfold of {record:x?} {counters:?}");
            counts.add(0, refusal);
            counts.add(1, unfolded);
        }
        None => {
            assert!(refusal.place != place || !matches!(refusal.number, 8 | 9 | 18 | 19), "record {place} of {input:x?}");
            assert!(matches!(unfolded.number, 0 | 15), "unfold of {record:x?} {counters:?}");
        }
    }
}

#[test]
fn each_refusal_at_each_node() {
    let (mut d, mut counts) = (Draw::new(10), Counts::default());
    for (record, refusal) in damaged_shapes(10).take(35 * 500) {
        assert_eq!(due(&record), Some(told(Some(refusal))), "{record:x?}");
        compare(&mut d, &record, &mut counts);
    }
    counts.at_least(500, 30_000);
}

#[test]
fn shapes_spoiled_and_any_values() {
    let (mut d, mut counts) = (Draw::new(11), Counts::default());
    for i in 0..100_000 {
        let record = if i % 2 == 0 { spoiled(&mut d) } else { any_values(&mut d) };
        compare(&mut d, &record, &mut counts);
    }
    counts.at_least(20, 100_000);
}

#[test]
fn every_small_record() {
    let (mut damaged, mut shapes) = (0, 0);
    let mut stop = [0; 64];
    stop[0] = 0x53;
    for (nodes, pointers) in [(0, 6), (1, 6), (2, 6), (3, 3), (4, 2)] {
        every_record(nodes, pointers, |record| {
            let due = due(record);
            stop[32..].copy_from_slice(record);
            let refusal = translation(&stop, [32, 0], 0x5a).0;
            assert_eq!(refusal, due.map_or(told(None), |due| Refusal { place: 1, ..due }), "{record:x?}");
            let ones: Vec<u32> = (0..12).map(|node| u32::from(node < nodes)).collect();
            assert_eq!(unfolding(record, &ones, [6, 12], 0x5a), due.unwrap_or(told(None)), "{record:x?}");
            damaged += usize::from(due.is_some());
            shapes += usize::from(due.is_none());
        });
    }
    println!("records: {damaged} damaged, {shapes} shapes");
    assert!(damaged > 50_000 && shapes > 20_000);
}
