//! All small shapes: every canonical shape over three pointers with every statement over these, and a fixed sample over six. The proved
//! library and the second translator agree on every byte of each listing, and its edges, read from the library's bytes, are what steps
//! of heaps do that the shape describes. What came is counted, and too few fail. `tests/small-shapes` has the definitions compute the
//! same inputs.

use native::compare::{folding, stepping, told, translation, unfolding};
use native::counts::Counts;
use native::draw::{Draw, Image};
use native::edges::{enabled, leaving, target, updated, updates};
use native::rings::s_record;
use native::small::{counters, every_record, input, sample, shapes, statements};
use std::collections::HashSet;

type Record = [u8; 32];

/// A heap that a shape describes, with its counters and the first cell that is not in use.
struct Described {
    counters: [u32; 12],
    image: Image,
    unused: usize,
}

impl Described {
    /// Unfolded by both, and folded back by both.
    fn of(shape: &Record, counters: [u32; 12]) -> Described {
        let used = counters.iter().sum::<u32>() as usize;
        assert_eq!(unfolding(shape, &counters, [6, used + 1], 0x5a), told(None), "{shape:x?} {counters:?}");
        let mut image = (vec![0; 6], vec![0; used + 1]);
        native::unfold(shape, &counters, &mut image.0, &mut image.1);
        assert_eq!(folding(&image.0, &image.1), (told(None), *shape, counters), "{image:x?}");
        let unused = image.1.iter().position(|&next| next == 0xfd).expect("one cell more than there must be");
        Described { counters, image, unused }
    }
}

/// A statement on a shape, with the locations and the edges of its listing.
struct Listed {
    statement: Record,
    locations: Vec<u8>,
    edges: Vec<u8>,
}

impl Listed {
    /// By both, in tables of 16 places.
    fn of(statement: &Record, shape: &Record) -> Listed {
        let input = input(statement, shape);
        let (refusal, counts, [mut locations, mut edges]) = translation(&input, [512, 512], 0x5a);
        assert_eq!(refusal, told(None), "{input:x?}");
        locations.truncate(32 * counts[0]);
        edges.truncate(32 * counts[1]);
        // the targets are stops
        assert_eq!(leaving(&edges, 0).len(), counts[1], "{input:x?}");
        Listed { statement: *statement, locations, edges }
    }

    fn say(&self, heap: &Described) -> String {
        format!("{:x?} at {:x?} with {:?}", &self.statement[..6], &self.locations[..32], heap.counters)
    }

    /// The numbers of the edges that are enabled, with their branches.
    fn enabled(&self, heap: &Described) -> Vec<(usize, u8)> {
        let edges = self.edges.chunks(32).enumerate().filter(|(_, edge)| enabled(edge, &heap.counters));
        edges.map(|(number, edge)| (number, edge[1] & 1)).collect()
    }

    /// One step by both: exactly one edge of its branch is enabled, and says what it does. Gives the number of that edge; a stop has
    /// none.
    fn step(&self, heap: &Described, pick: u8) -> (Option<usize>, [u8; 4]) {
        let ((refusal, answer), after) = stepping(&heap.image.0, &heap.image.1, &self.statement, pick, heap.unused);
        assert_eq!((refusal, answer[1]), (told(None), u8::from(self.statement[1] == 0)), "{}", self.say(heap));
        let due = match self.statement[1] {
            0 => vec![],
            10 => vec![0, 1],
            _ => vec![answer[2]],
        };
        let enabled = self.enabled(heap);
        let branches: Vec<u8> = enabled.iter().map(|&(_, branch)| branch).collect();
        assert_eq!(branches, due, "branches enabled: {}", self.say(heap));
        let edge = enabled.iter().find(|(_, branch)| *branch == answer[2]).map(|&(number, _)| number);
        match edge {
            Some(number) => self.agree(&self.edges[32 * number..][..32], heap, answer, &after),
            None => assert_eq!(after, heap.image, "{}", self.say(heap)),
        }
        (edge, answer)
    }

    /// An edge leads to what a step left, as both fold it, or to its fault, and its updates give the folded counters. A fault is at
    /// statement 0, which is what the step then answers as the next, and leaves the heap.
    fn agree(&self, edge: &[u8], heap: &Described, [fault, _, _, next]: [u8; 4], after: &Image) {
        let (_, mut due, mut counters) = folding(&after.0, &after.1);
        if fault > 0 {
            assert_eq!(after, &heap.image, "{}", self.say(heap));
            (due, counters) = ([0; 32], [0; 12]);
        }
        due[..3].copy_from_slice(&[0x4c, next, fault]);
        let (target, updates) = (target(edge, &self.locations), updates(edge));
        let (present, absent) = updates.split_at(target[3].into());
        assert_eq!(target, due, "{}", self.say(heap));
        assert_eq!(updated(present, &heap.counters, present.len()), counters, "{}", self.say(heap));
        assert!(absent.iter().all(|&update| update == 0), "{}", self.say(heap));
    }

    /// Counts what there is to be met.
    fn count(&self, counts: &mut Counts) {
        counts.add("pairs");
        let two_guards = |edge: &&[u8]| edge[6] != 0 && edge[1] >> 1 & 3 != 0;
        self.edges.chunks(32).filter(two_guards).for_each(|_| counts.add(LISTED[0]));
        if self.statement[1] == 13 {
            let carried = updates(&self.edges).iter().fold(0, |all, update| all | update & 0xfff);
            let all = (1 << self.locations[3]) - 1;
            counts.add(LISTED[if carried == all { 2 } else { 1 }]);
        }
    }
}

/// By the fault, 0 for none.
const STEPS: [&str; 4] = ["steps without a fault", "steps to fault 1", "steps to fault 2", "steps to fault 3"];
const LISTED: [&str; 3] = ["edges with two guards", "drops by which a counter vanishes", "drops by which none does"];

/// Every statement on a shape: its listing, and steps of heaps with these counters, by which each of its edges must be met.
fn judge(shape: &Record, statements: &[Record], counters: impl Iterator<Item = [u32; 12]>, counts: &mut Counts) {
    let heaps: Vec<Described> = counters.map(|counters| Described::of(shape, counters)).collect();
    for statement in statements {
        let listed = Listed::of(statement, shape);
        listed.count(counts);
        let mut met = vec![false; listed.edges.len() / 32];
        // choose alone reads the pick
        let picks = if statement[1] == 10 { 2 } else { 1 };
        for (heap, pick) in heaps.iter().flat_map(|heap| (0..picks).map(move |pick| (heap, pick))) {
            let (edge, [fault, ..]) = listed.step(heap, pick);
            edge.into_iter().for_each(|number| met[number] = true);
            counts.add(STEPS[usize::from(fault)]);
        }
        assert!(met.iter().all(|&met| met), "an edge of {statement:x?} on {shape:x?} was never enabled");
    }
}

#[test]
fn every_statement_on_every_shape_over_three_pointers() {
    let (shapes, statements, mut counts) = (shapes(3), statements(3), Counts::default());
    assert_eq!((shapes.len(), statements.len()), (768, 66));
    for shape in &shapes {
        let every = (0..3usize.pow(shape[3].into())).map(|number| counters(shape[3], number));
        judge(shape, &statements, every, &mut counts);
    }
    counts.at_least(900, &[&LISTED[..], &STEPS].concat());
}

/// Counters such that, over ten rows, any two nodes have 1 and 1, 1 and more, more and 1, and more and more: by each bit of the
/// node's number, and the other way round. No number has the last bit.
fn two_by_two(d: &mut Draw, k: u8, row: usize) -> [u32; 12] {
    let mut counters = [0; 12];
    for (node, counter) in counters[..k.into()].iter_mut().enumerate() {
        let more = node >> (row / 2) & 1 == row % 2;
        *counter = if more { 2 + d.below(2) as u32 } else { 1 };
    }
    counters
}

#[test]
fn every_statement_on_a_sample_over_six_pointers() {
    let (shapes, statements, mut d, mut counts) = (sample(), statements(6), Draw::new(16), Counts::default());
    let nodes: HashSet<u8> = shapes.iter().map(|shape| shape[3]).collect();
    assert_eq!((shapes.len(), statements.len(), nodes), (390, 219, (0..=12).collect()));
    for shape in &shapes {
        judge(shape, &statements, (0..10).map(|row| two_by_two(&mut d, shape[3], row)), &mut counts);
    }
    counts.at_least(900, &[&LISTED[..], &STEPS].concat());
}

/// The shapes over three pointers are different, pass both checks of H records, and are what the images over three pointers fold
/// into: all of up to five cells, and of six those that can have six nodes, which three pointers hold a cell each.
#[test]
fn the_shapes_over_three_pointers_are_all_that_there_are() {
    let all = shapes(3);
    let known: HashSet<Record> = all.iter().copied().collect();
    assert_eq!((all.len(), known.len()), (768, 768));
    for shape in &all {
        let stop = s_record(0, 0, 0, 0, 0);
        assert_eq!(translation(&[stop, *shape].concat(), [32, 0], 0x5a).0, told(None), "{shape:x?}");
        assert_eq!(unfolding(shape, &counters(shape[3], 0), [6, 12], 0x5a), told(None), "{shape:x?}");
    }
    let (mut met, mut images) = (HashSet::new(), 0);
    let mut fold = |record: &Record, pointers: &[u8]| {
        let (refusal, shape, _) = folding(pointers, &record[10..10 + usize::from(record[3])]);
        if refusal == told(None) {
            images += 1;
            met.insert(shape);
        }
    };
    (0..=5).for_each(|cells| every_record(cells, 3, |record| fold(record, &record[4..10])));
    every_record(6, 0, |record| fold(record, &[0, 1, 2, 0xfe, 0xfe, 0xfe]));
    println!("images folded: {images}");
    assert_eq!(met, known);
}
