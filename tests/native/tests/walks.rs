//! Moves and walks of the proved library against the second translator's: on drawn tables, sound, just outside each clause of the layout
//! and just inside; on the listings of routines, beside the plain step and the fold; on changed records; and at the limits. What came
//! is counted, and too few fail.

use native::counts::Counts;
use native::draw::Draw;
use native::walks::{drawn_routine, edge, nodes, shipped, standing, Record, Tables, Walked};
use native::Configuration;
use reference::walk_damage::{aims, draw, Aim, DrawnWalk};
use reference::{broken_clauses, Clause};
use std::collections::BTreeMap;

const MAX: u32 = u32::MAX;
const MOST: usize = 4096;
/// So many turns of all aims.
const TURNS: u64 = 1_000;

fn draws(turns: u64) -> impl Iterator<Item = DrawnWalk> {
    (0..turns * aims().len() as u64).map(draw)
}

/// An aim without its clause.
fn kind(aim: Aim) -> &'static str {
    match aim {
        Aim::Sound => "sound",
        Aim::Outside(_) => "just outside a clause",
        Aim::Inside(_) => "just inside a clause",
        Aim::NearTheLimit => "near 2^32",
        Aim::NeverEnabled => "never enabled",
        Aim::WrongConfiguration => "wrong configuration",
        Aim::WrongEdge => "wrong edge",
        Aim::EmptyPath => "empty path",
        Aim::LongestPath => "4,096 edges",
        Aim::TooLongPath => "4,097 edges",
        Aim::AnyBytes => "any bytes",
    }
}

/// In place of a floor: what cannot come.
const NEVER: usize = usize::MAX;

/// Refusals by number: 0, 20 and 21.
#[derive(Default)]
struct Refusals(BTreeMap<&'static str, [usize; 3]>);

impl Refusals {
    fn add(&mut self, name: &'static str, refusal: u8) {
        let which = [0, 20, 21].iter().position(|&number| number == refusal);
        self.0.entry(name).or_default()[which.expect("0, 20 or 21")] += 1;
    }

    /// Prints what came. Fails where one came less often, or came at all where it cannot.
    fn at_least(&self, what: &str, least: &[(&'static str, [usize; 3])]) {
        println!("{what}, by refusal 0, 20 and 21: {:?}", self.0);
        for (name, least) in least {
            for (came, least) in self.0[name].into_iter().zip(least) {
                let good = if *least == NEVER { came == 0 } else { came >= *least };
                assert!(good, "'{name}' of {what} came {came} times");
            }
        }
        assert_eq!(self.0.len(), least.len());
    }
}

/// Numbers for moves: the path's first, the same where only 32 bits or 16 are looked at, any, and some that are no edge.
fn numbers(d: &mut Draw, drawn: &DrawnWalk) -> [usize; 5] {
    let first = drawn.path.first().map_or(0, |&edge| edge as usize);
    let edges = drawn.edges.len() / 32;
    [first, first + (1 << 32), first + (1 << 16), d.below(edges + 2), [edges, usize::MAX, 1 << 59, 1 << 63][d.below(4)]]
}

/// How often 0, 20 and 21 are to come, by what a walk is drawn for, and by the kind of number that a move is given.
fn walk_floors(turns: usize) -> [(&'static str, [usize; 3]); 11] {
    [
        ("sound", [5 * turns, turns, turns / 20]),
        ("just outside a clause", [NEVER, 28 * turns, NEVER]),
        ("just inside a clause", [10 * turns, 5 * turns, turns / 2]),
        ("near 2^32", [turns, turns, 2 * turns]),
        ("never enabled", [turns / 10, turns / 2, 0]),
        ("wrong configuration", [NEVER, 2 * turns, NEVER]),
        ("wrong edge", [turns / 20, turns, 0]),
        ("empty path", [turns, NEVER, NEVER]),
        ("4,096 edges", [turns / 2, turns / 5, NEVER]),
        ("4,097 edges", [NEVER, turns, NEVER]),
        ("any bytes", [1, turns / 2, 0]),
    ]
}

const MOVE_FLOORS: [(&str, [usize; 3]); 5] = [
    ("first", [20_000, 40_000, 2_000]),
    ("33 bits", [NEVER, 50_000, NEVER]),
    ("17 bits", [NEVER, 50_000, NEVER]),
    ("any", [2_000, 40_000, 200]),
    ("no edge", [NEVER, 50_000, NEVER]),
];

#[test]
fn drawn_walks_and_moves_agree() {
    let (mut d, mut walks, mut moves) = (Draw::new(16), Refusals::default(), Refusals::default());
    let (mut counts, mut made) = (Counts::default(), 0);
    for drawn in draws(TURNS) {
        let (tables, start) = Tables::drawn(&drawn);
        let walked = tables.walk(start, &drawn.path);
        walks.add(kind(drawn.aim), walked.0);
        for (number, name) in numbers(&mut d, &drawn).into_iter().zip(["first", "33 bits", "17 bits", "any", "no edge"]) {
            moves.add(name, tables.move_along(start, number).0);
        }
        count(&mut counts, &start, &drawn.path, &walked);
        made += walked.1;
    }
    println!("drawn walks: {}, moves made: {made}", TURNS as usize * aims().len());
    assert!(TURNS as usize * aims().len() >= 50_000 && made >= 2_000_000, "{made} moves only");
    counts.at_least(500, &MET);
    walks.at_least("walks", &walk_floors(TURNS as usize));
    moves.at_least("moves", &MOVE_FLOORS);
}

const MET: [&str; 8] = [
    "no edge in the path",
    "a counter of 2^32 - 1 at the start",
    "a counter of 2^32 - 1 after moves",
    "refused at the first edge",
    "refused after moves",
    "21 after moves",
    "4,096 moves made",
    "twelve nodes",
];

fn count(counts: &mut Counts, start: &Configuration, path: &[u32], &(refusal, made, after): &Walked) {
    let met = [
        path.is_empty(),
        start.counters.contains(&MAX),
        made > 0 && after.counters.contains(&MAX),
        refusal != 0 && made == 0 && !path.is_empty(),
        refusal != 0 && made > 0,
        refusal == 21 && made > 0,
        made == MOST,
        start.counters[11] != 0,
    ];
    MET.into_iter().zip(met).filter(|(_, met)| *met).for_each(|(name, _)| counts.add(name));
}

/// Each clause: how often tables just outside it came, how often nothing else was wrong, and how often tables just inside.
#[test]
fn each_clause_of_the_layout() {
    let mut met: BTreeMap<Clause, [usize; 3]> = BTreeMap::new();
    for drawn in draws(TURNS) {
        let broken = broken_clauses(&drawn.locations, &drawn.edges, drawn.location_count, drawn.edge_count);
        let (tables, start) = Tables::drawn(&drawn);
        let wrong = !reference::configuration_fits(&drawn.locations, drawn.location_count, &drawn.configuration);
        assert_eq!(tables.keep(start), broken.is_empty() && !wrong, "{broken:?} of {drawn:?}");
        match drawn.aim {
            Aim::Outside(clause) => {
                assert!(broken.contains(&clause), "{broken:?} of {drawn:?}");
                let times = met.entry(clause).or_default();
                times[0] += 1;
                times[1] += usize::from(broken == [clause]);
            }
            Aim::Inside(clause) => {
                assert_eq!(broken, [], "{drawn:?}");
                met.entry(clause).or_default()[2] += 1;
            }
            _ => {}
        }
    }
    println!("clauses, with how often just outside, alone, and just inside:");
    for &clause in Clause::ALL {
        let [outside, alone, inside] = met[&clause];
        println!("  {:<56} {outside:>5} {alone:>5} {inside:>5}", clause.name());
        assert!(outside.min(inside) >= TURNS as usize && alone >= TURNS as usize / 2, "{clause:?} came too seldom");
    }
}

/// A routine at a statement of its own, on a heap image, by the proved library.
struct Running<'a> {
    input: &'a [u8],
    statement: u8,
    fault: u8,
    pointers: Vec<u8>,
    cells: Vec<u8>,
}

impl Running<'_> {
    fn record(&self) -> &[u8] {
        &self.input[32 * self.statement as usize..][..32]
    }

    fn unused(&self) -> Option<usize> {
        self.cells.iter().position(|&cell| cell == 0xfd)
    }

    /// A step with this pick. Gives its branch, none at a stop or past a fault.
    fn step(&mut self, pick: u8) -> Option<u8> {
        if self.fault != 0 {
            return None;
        }
        let (record, cell) = (self.record().to_vec(), self.unused().unwrap_or(0));
        let (refusal, [fault, stop, branch, next]) = native::step(&mut self.pointers, &mut self.cells, &record, pick, cell);
        assert_eq!(refusal.number, 0, "{record:x?}");
        self.fault = fault;
        if fault == 0 && stop == 0 {
            self.statement = next;
        }
        (stop == 0).then_some(branch)
    }

    /// The location and the counters are those of the heap.
    fn matches(&self, tables: &Tables, at: &Configuration) {
        let location = tables.location(at.location);
        assert_eq!(location[..3], [0x4c, self.statement, self.fault]);
        if self.fault == 0 {
            let (refusal, shape, counters) = native::fold(&self.pointers, &self.cells);
            assert_eq!((refusal.number, &location[3..], at.counters), (0, &shape[3..], counters));
        }
    }
}

/// A starting shape with small counters, and its heap in 240 cells.
fn start<'a>(d: &mut Draw, input: &'a [u8]) -> (Configuration, Running<'a>) {
    let shapes = input.len() / 32 - input.chunks(32).filter(|record| record[0] == 0x53).count();
    let number = d.below(shapes);
    let shape = &input[input.len() - 32 * (shapes - number)..][..32];
    let counters: Vec<u32> = (0..shape[3]).map(|_| [1, 1, 2, 3, 1 + d.below(12) as u32][d.below(5)]).collect();
    let at = standing(number as u32, &counters);
    let (mut pointers, mut cells) = (vec![0; 6], vec![0; 240]);
    assert_eq!(native::unfold(shape, &at.counters, &mut pointers, &mut cells).number, 0, "{shape:x?}");
    (at, Running { input, statement: 0, fault: 0, pointers, cells })
}

const ENDS: [&str; 7] = ["stops", "fault 1", "fault 2", "fault 3", "goes on", "relinks", "drops"];

/// Moves along edges that can be taken, and the routine's steps beside them. The path is then walked at once.
fn follow(d: &mut Draw, input: &[u8], tables: &Tables, counts: &mut Counts) -> usize {
    let (first, mut running) = start(d, input);
    let (mut at, mut path, most) = (first, Vec::new(), [3, 12, 40][d.below(3)]);
    running.matches(tables, &at);
    loop {
        let ways = tables.ways(&at);
        let Some(&edge) = ways.get(d.below(ways.len())) else {
            assert_eq!(running.step(0), None, "no edge leaves {at:?}");
            counts.add(ENDS[running.fault as usize]);
            break;
        };
        if path.len() == most || running.record()[1] == 6 && running.unused().is_none() {
            counts.add("goes on");
            break;
        }
        match running.record()[1] {
            12 => counts.add("relinks"),
            13 => counts.add("drops"),
            _ => {}
        }
        let branch = tables.edge(edge)[1] & 1;
        assert_eq!(running.step(branch), Some(branch), "edge {edge} from {at:?}");
        let (refusal, to) = tables.move_proved(at, edge as usize);
        assert_eq!((refusal, Some(to)), (0, tables.led(&at, edge)), "edge {edge} from {at:?}");
        running.matches(tables, &to);
        path.push(edge);
        at = to;
    }
    assert_eq!(tables.walk(first, &path), (0, path.len(), at));
    path.len()
}

#[test]
fn listings_are_walked_as_routines_run() {
    let (mut d, mut counts) = (Draw::new(17), Counts::default());
    let (mut listings, mut large, mut moves, mut starts) = (0, 0, 0, 0);
    let big = ["4-big-walk", "5-big-mixed", "6-big-make"].map(shipped);
    for i in 0..40_000 {
        let input = if i % 200 == 0 { big[i / 200 % 3].clone() } else { drawn_routine(&mut d, i) };
        let Some(tables) = Tables::listed(&input) else { continue };
        listings += 1;
        large += usize::from(tables.counts[0] >= 200);
        // never refused, from any starting shape with any counters
        for (number, shape) in input.chunks(32).filter(|record| record[0] == 0x48).enumerate() {
            let counters: Vec<u32> = (0..shape[3]).map(|_| [1, 2, MAX, 1 + d.below(MAX as usize) as u32][d.below(4)]).collect();
            assert!(tables.keep(standing(number as u32, &counters)), "{input:x?}");
            starts += 1;
        }
        moves += follow(&mut d, &input, &tables, &mut counts);
    }
    println!("listings: {listings}, of 200 locations or more: {large}, starting shapes: {starts}, moves: {moves}");
    assert!(listings >= 30_000 && large >= 300 && moves >= 150_000, "too few");
    counts.at_least(1_000, &ENDS);
}

/// Walks in listings from any location, with large counters, to 21 and to counters that just fit.
#[test]
fn large_counters_in_listings() {
    let (mut d, mut counts) = (Draw::new(18), Counts::default());
    for i in 0..10_000 {
        let Some(tables) = Tables::listed(&drawn_routine(&mut d, i)) else { continue };
        for _ in 0..4 {
            let location = d.below(tables.counts[0]) as u32;
            let nodes = tables.location(location)[3];
            let large = |d: &mut Draw| [MAX, MAX - 1, MAX - 2, 1 << 31, (1 << 31) - 1, 1, 2][d.below(7)];
            let at = standing(location, &(0..nodes).map(|_| large(&mut d)).collect::<Vec<u32>>());
            let (mut path, to) = tables.path(&mut d, at, 20);
            assert_eq!(tables.walk(at, &path), (0, path.len(), to));
            // where one more can be taken but for its counters
            let too_large = tables.ways(&to).into_iter().find(|&edge| tables.led(&to, edge).is_none());
            path.extend(too_large);
            if too_large.is_some() {
                assert_eq!(tables.walk(at, &path), (21, path.len() - 1, to));
                counts.add("21");
            }
            counts.add("walks");
            if !path.is_empty() && to.counters.contains(&MAX) {
                counts.add("a counter of 2^32 - 1 after moves");
            }
        }
    }
    counts.at_least(1_000, &["walks", "21", "a counter of 2^32 - 1 after moves"]);
}

/// A walk, then another from where it led, is the walk of both.
fn in_two(tables: &Tables, at: Configuration, path: &[u32], cut: usize) -> Walked {
    let (first, second) = path.split_at(cut);
    let walked = tables.walk_proved(at, first);
    if walked.0 != 0 {
        return walked;
    }
    let (refusal, made, to) = tables.walk_proved(walked.2, second);
    (refusal, cut + made, to)
}

#[test]
fn walks_cut_in_two_and_into_moves() {
    let (mut d, mut counts) = (Draw::new(19), Counts::default());
    for drawn in draws(TURNS / 2) {
        let ((tables, at), path) = (Tables::drawn(&drawn), &drawn.path[..drawn.path.len().min(MOST)]);
        let whole = tables.walk_proved(at, path);
        for cut in [0, 1, path.len() / 2, whole.1, whole.1 + 1, path.len(), d.below(path.len() + 1)] {
            let cut = cut.min(path.len());
            assert_eq!(in_two(&tables, at, path, cut), whole, "cut at {cut}: {drawn:?}");
            counts.add(if cut < whole.1 { "cut before the end" } else { "cut at the end or past it" });
        }
        if path.len() > 100 {
            continue;
        }
        let (mut by_moves, mut here) = ((0, 0), at);
        for &edge in path {
            let (refusal, to) = tables.move_proved(here, edge as usize);
            (by_moves.0, here) = (refusal, to);
            if refusal != 0 {
                break;
            }
            by_moves.1 += 1;
        }
        // an empty walk has no move to tell of the layout
        if !path.is_empty() {
            assert_eq!((by_moves.0, by_moves.1, here), whole, "{drawn:?}");
            counts.add("into moves");
        }
    }
    counts.at_least(10_000, &["cut before the end", "cut at the end or past it", "into moves"]);
}

#[test]
fn walks_of_4096_and_4097() {
    // edge 0 counts up, edge 1 leaves a location that is not reached
    let tables = Tables::of(&[nodes(1), nodes(1)], &[edge(0, 0, &[0x2001]), edge(1, 0, &[0x1001])]);
    for length in [0, 1, 2, 4095, 4096] {
        assert_eq!(tables.walk(standing(0, &[7]), &vec![0; length]), (0, length, standing(0, &[7 + length as u32])));
    }
    for length in [4097, 4098, 8192, 65_536, 70_000] {
        for first in [0, 1, 2] {
            assert_eq!(tables.walk(standing(0, &[7]), &vec![first; length]), (20, 0, standing(0, &[7])));
        }
        // 21 is not told there
        assert_eq!(tables.walk(standing(0, &[MAX]), &vec![0; length]), (20, 0, standing(0, &[MAX])));
    }
    for (refused, number, start) in [(1, 20, 7), (2, 20, 7), (MAX, 20, 7), (0, 21, MAX - 4095)] {
        let mut path = vec![0; 4096];
        path[4095] = refused;
        assert_eq!(tables.walk(standing(0, &[start]), &path), (number, 4095, standing(0, &[start + 4095])));
    }
}

/// The same in listings: long lists reversed, and the median.
#[test]
fn walks_of_4096_and_4097_in_listings() {
    for name in ["2-reverse", "3-median"] {
        let tables = Tables::listed(&shipped(name)).expect("a listing");
        let start = standing(0, &vec![5_000; tables.location(0)[3].into()]);
        let (path, to) = tables.path(&mut Draw::new(20), start, MOST);
        assert_eq!(tables.walk(start, &path), (0, MOST, to), "{name}");
        for wrong in [MAX, tables.counts[1] as u32, path[0]] {
            let longer = [&path[..], &[wrong]].concat();
            assert_eq!(tables.walk(start, &longer), (20, 0, start), "{name}");
            let last = [&path[..MOST - 1], &[MAX]].concat();
            let (refusal, made, at) = tables.walk(start, &last);
            assert_eq!((refusal, made, tables.led(&at, path[MOST - 1])), (20, MOST - 1, Some(to)), "{name}");
        }
    }
}

#[test]
fn counters_at_the_limit() {
    let updates = [0x1003, 0x0003, 0x2003, 0x2001, 0x0007, 0x1fff, 0x0fff, 0x2fff];
    let edges: Vec<Record> = updates.iter().map(|&update| edge(0, 1, &[update])).collect();
    let tables = Tables::of(&[nodes(12), nodes(1)], &edges);
    let (mut fits, mut passes) = (0, 0);
    let values = [1, 2, 3, 11, 12, 1 << 31, (1 << 31) - 1, (1 << 31) + 1, MAX - 13, MAX - 12, MAX - 11, MAX - 2, MAX - 1, MAX];
    for (first, second, rest) in values.iter().flat_map(|&a| values.iter().flat_map(move |&b| [1, 2, MAX].map(|c| (a, b, c)))) {
        let mut at = standing(0, &[rest; 12]);
        (at.counters[0], at.counters[1]) = (first, second);
        for number in 0..updates.len() as u32 {
            let due = tables.led(&at, number);
            assert_eq!(tables.move_along(at, number as usize), due.map_or((21, at), |to| (0, to)));
            assert_eq!(tables.walk(at, &[number]), due.map_or((21, 0, at), |to| (0, 1, to)));
            fits += usize::from(due.is_some_and(|to| to.counters[0] == MAX));
            passes += usize::from(due.is_none());
        }
    }
    println!("moves to 2^32 - 1: {fits}, past it: {passes}");
    assert!(fits >= 50 && passes >= 1_000);
}

/// Every value of every byte of the records of two listings: one with relinks and drops, one of list reversal.
#[test]
fn each_byte_of_listings() {
    let (mut kept, mut broken) = (0, 0);
    for input in [shipped("2-reverse"), relinks_and_drops()] {
        let mut tables = Tables::listed(&input).expect("a listing");
        let at = standing(0, &vec![1; input[input.len() - 29].into()]);
        assert!(tables.keep(at));
        for table in 0..2 {
            for byte in 0..32 * tables.counts[table] {
                let was = [&tables.locations, &tables.edges][table][byte];
                for value in 0..=255 {
                    [&mut tables.locations, &mut tables.edges][table][byte] = value;
                    // where only location 0 is another, the configuration may be what breaks the layout
                    *if tables.keep(at) { &mut kept } else { &mut broken } += 1;
                }
                [&mut tables.locations, &mut tables.edges][table][byte] = was;
            }
        }
    }
    println!("changed bytes: {kept} kept the layout, {broken} did not");
    assert!(kept >= 5_000 && broken >= 200_000, "{kept} and {broken}");
}

/// p0 and p1 at two lists: p0.next := p1.next, then either pointer is dropped.
fn relinks_and_drops() -> Vec<u8> {
    let statement = |op: u8, u: u8, w: u8, first: u8, second: u8| [&[0x53, op, u, w, first, second][..], &[0; 26]].concat();
    let statements = [statement(10, 0, 0, 1, 2), statement(12, 0, 1, 2, 0), statement(13, 0, 0, 3, 0), statement(13, 1, 0, 0, 0)];
    let shape = reference::fold(&[0, 2, 1, 0xfe, 0xfe, 0xff], &[1, 0xfe, 3, 0xff]).record;
    [statements.concat(), shape.to_vec()].concat()
}

/// One edge from three nodes to two: guards of every kind on every node, there or not, over updates with every constant and sum.
#[test]
fn each_update_under_each_guard() {
    let mut tables = Tables::of(&[nodes(3), nodes(2)], &[edge(0, 1, &[0x2000, 0x2000])]);
    let (at, mut kept) = (standing(0, &[1, 1, 1]), 0);
    let mut try_all = |second: u8, first: [u8; 2], updates: [u16; 2]| {
        tables.edges[1] = second;
        tables.edges[6..8].copy_from_slice(&first);
        tables.edges[8..10].copy_from_slice(&updates[0].to_le_bytes());
        tables.edges[10..12].copy_from_slice(&updates[1].to_le_bytes());
        kept += usize::from(tables.keep(at));
    };
    for second in 0..=255 {
        for first in (0..4).flat_map(|guard| (0..4).map(move |node| [guard, node])) {
            // the first update has every constant and sums of the three nodes and of one that is lacking
            for update in (0..4).flat_map(|constant| (0..16).map(move |added| constant << 12 | added)) {
                try_all(second, first, [update, 0x2000]);
            }
        }
    }
    for update in 0..=u16::MAX {
        try_all(0, [0, 0], [update, 0x2000]);
        try_all(2 << 1 | 1 << 3, [1, 0], [0x2000, update]);
    }
    // old counters in both, and in one alone
    for (one, other) in (0..16).flat_map(|one| (0..16).map(move |other| (one, other))) {
        try_all(0, [0, 0], [0x2000 | one, 0x2000 | other]);
    }
    println!("edges that keep the layout: {kept}");
    assert!(kept >= 2_000);
}

/// Two places more than tables can have; the edges lead around through the first 256 locations.
fn longest_tables() -> Tables {
    let edges: Vec<Record> = (0..2050).map(|i| edge((i % 256) as u8, ((i + 1) % 256) as u8, &[0x1001])).collect();
    Tables::of(&vec![nodes(1); 1026], &edges)
}

/// So many places as a table can have, and one more.
#[test]
fn limits_of_the_counts() {
    let (mut tables, at) = (longest_tables(), standing(0, &[5]));
    let path: Vec<u32> = (0..4096).map(|i| i % 2048).collect();
    for ([locations, edges], kept) in [
        ([1024, 2048], true),
        ([1025, 2048], false),
        ([1024, 2049], false),
        ([256, 2048], true),
        ([255, 2048], false),
        ([1, 0], true),
    ] {
        tables.counts = [locations, edges];
        assert_eq!(tables.keep(at), kept, "{:?}", tables.counts);
        let due = if kept { path.iter().take_while(|&&edge| (edge as usize) < edges).count() } else { 0 };
        let refusal = if due == 4096 { 0 } else { 20 };
        assert_eq!(tables.walk(at, &path), (refusal, due, standing(due as u32 % 256, &[5])));
    }
    // the last location and the last edge; those past the counts
    tables.counts = [256, 256];
    assert_eq!(tables.move_along(standing(255, &[5]), 255), (0, standing(0, &[5])));
    assert_eq!(tables.move_along(standing(256, &[5]), 255).0, 20);
    assert_eq!(tables.move_along(standing(0, &[5]), 256).0, 20);
}

/// The lengths decide, to the byte; also counts whose bytes are past all memory.
#[test]
fn lengths_of_the_tables() {
    let (tables, at) = (longest_tables(), standing(0, &[5]));
    for (counts, lengths, kept) in [
        ([256, 2], [8192, 64], true),
        ([256, 2], [8191, 64], false),
        ([256, 2], [8192, 63], false),
        ([256, 0], [8192, 0], true),
        ([1, 0], [32, 31], true),
        ([0, 0], [0, 0], false),
        ([1 << 59, 0], [32, 0], false),
        ([usize::MAX, 0], [8192, 0], false),
        ([256, usize::MAX], [8192, 64], false),
        ([256, 1 << 59], [8192, 64], false),
    ] {
        let cut =
            Tables { locations: tables.locations[..lengths[0]].to_vec(), edges: tables.edges[..lengths[1]].to_vec(), counts };
        assert_eq!(cut.keep(at), kept, "{counts:?} in {lengths:?}");
    }
}
