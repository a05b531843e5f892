//! Tables of other lengths than the full ones, above all those of the
//! controller bench: 128 locations and 256 edges. What a translation into them
//! must answer is derived from the full tables, without another translation.

mod common;

use common::random::Random;
use common::*;
use reference::selftest::{sound_inputs, unsound_inputs};
use reference::{Node, Translated};

const FULL: [usize; 2] = [32_768, 65_536];
const BENCH: [usize; 2] = [4_096, 8_192];

fn translated(input: &[u8], lengths: [usize; 2]) -> Tables {
    into_tables(input, lengths[0], lengths[1])
}

/// The tables do not tell how many locations are starting shapes.
fn starting_shapes(input: &[u8]) -> usize {
    input.chunks(32).filter(|record| record[0] == 0x48).count()
}

/// What finds no place: the refusal with its place, how many locations and
/// edges are listed by then, and whether it is a starting shape.
#[derive(Clone, Copy, PartialEq, Eq, Debug)]
struct Stuck {
    refusal: u8,
    place: usize,
    listed: [usize; 2],
    starting: bool,
}

/// The first that finds none of so many places, read off the full tables.
fn stuck(full: &Tables, shapes: usize, places: [usize; 2]) -> Option<Stuck> {
    if shapes > places[0] {
        return Some(Stuck { refusal: 11, place: places[0], listed: [places[0], 0], starting: true });
    }
    let mut known = shapes;
    for (number, edge) in full.edges.chunks(32).take(full.answer.edges).enumerate() {
        let [from, to] = [2, 4].map(|at| usize::from(edge[at]) + 256 * usize::from(edge[at + 1]));
        let lacking = |refusal| Some(Stuck { refusal, place: from, listed: [known, number], starting: false });
        // A target that is new takes the next number.
        assert!(to <= known && from < known, "edge {number} from {from} to {to} with {known} locations");
        if to == known && known == places[0] {
            return lacking(11);
        }
        if number == places[1] {
            return lacking(12);
        }
        known += usize::from(to == known);
    }
    assert_eq!(known, full.answer.locations, "a location that is no edge's target");
    None
}

/// What a translation into tables of these lengths must give, every byte of
/// the tables included, and what finds no place there.
fn due(full: &Tables, shapes: usize, lengths: [usize; 2]) -> (Tables, Option<Stuck>) {
    let places = [(lengths[0] / 32).min(1024), (lengths[1] / 32).min(2048)];
    let counts = [full.answer.locations, full.answer.edges];
    let stuck = stuck(full, shapes, places);
    let fits = counts[0] <= places[0] && counts[1] <= places[1];
    assert_eq!(stuck.is_none(), fits, "accepted exactly if the listing fits");
    let answer = match stuck {
        None => full.answer,
        Some(Stuck { refusal, place, .. }) => Translated { refusal, place, node: Node(0), locations: 0, edges: 0 },
    };
    let table = |number: usize, bytes: &[u8]| {
        let records = if fits { &bytes[..32 * counts[number]] } else { &[] };
        [records, &vec![0; lengths[number] - records.len()]].concat()
    };
    let (locations, edges) = (table(0, &full.locations), table(1, &full.edges));
    (Tables { answer, locations, edges }, stuck)
}

/// Translates into tables of these lengths, wants what is due there, and
/// answers what found no place.
#[track_caller]
fn check_lengths(input: &[u8], full: &Tables, lengths: [usize; 2]) -> Option<Stuck> {
    let (due, stuck) = due(full, starting_shapes(input), lengths);
    let got = translated(input, lengths);
    assert_eq!(got.answer, due.answer, "{lengths:?} for {}", hex(input));
    assert!(got.locations == due.locations && got.edges == due.edges, "{lengths:?} for {}", hex(input));
    stuck
}

/// How often a comparison was accepted, was refused with 11 at a starting
/// shape, with 11 later, and with 12.
#[derive(Default, Debug)]
struct Met([usize; 4]);

impl Met {
    fn count(&mut self, stuck: Option<Stuck>) {
        let kind = match stuck {
            None => 0,
            Some(Stuck { refusal: 11, starting, .. }) => 2 - usize::from(starting),
            Some(_) => 3,
        };
        self.0[kind] += 1;
    }
}

/// Lengths for a listing with so many starting shapes, locations and edges.
fn draw_lengths(random: &mut Random, shapes: usize, counts: [usize; 2]) -> Vec<[usize; 2]> {
    let exact = counts.map(|count| 32 * count);
    let less = |bytes: usize| [exact[0].saturating_sub(bytes), exact[1].saturating_sub(bytes)];
    let (byte, record) = (less(1), less(32));
    vec![
        exact,
        [byte[0], exact[1]],
        [exact[0], byte[1]],
        [record[0], exact[1] + random.below(64)],
        [exact[0] + random.below(64), record[1]],
        [byte, record][random.below(2)],
        [random.below(exact[0] + 40), random.below(exact[1] + 40)],
        [exact[0] + 32 * random.below(3), random.below(exact[1] + 40)],
        [random.below(32 * shapes), random.below(exact[1] + 40)],
        [random.below(2 * FULL[0]), random.below(2 * FULL[1])],
    ]
}

/// Compares translations of one routine into the bench's tables and into
/// those of so many other lengths, and counts the two kinds apart.
fn compare(random: &mut Random, input: &[u8], others: usize, [bench, met]: &mut [Met; 2]) {
    let full = translated(input, FULL);
    if full.answer.refusal != 0 {
        return check_too_large(input, &full);
    }
    bench.count(check_lengths(input, &full, BENCH));
    let longer = BENCH.map(|bytes| bytes + random.below(32));
    met.count(check_lengths(input, &full, longer));
    let counts = [full.answer.locations, full.answer.edges];
    for lengths in draw_lengths(random, starting_shapes(input), counts).into_iter().take(others) {
        met.count(check_lengths(input, &full, lengths));
    }
}

/// A listing that even the full tables cannot hold is refused by the bench as
/// well, and not later.
fn check_too_large(input: &[u8], full: &Tables) {
    let got = translated(input, BENCH);
    assert!([11, 12].contains(&full.answer.refusal) && [11, 12].contains(&got.answer.refusal), "{:?}", got.answer);
    assert!(got.answer.place <= full.answer.place);
    check_refused(&got, got.answer.refusal, got.answer.place);
}

#[test]
fn random_routines_into_tables_of_many_lengths() {
    let mut random = Random(0x9e37_79b9_7f4a_7c15);
    let mut all = [Met::default(), Met::default()];
    for input in sound_inputs(4).take(1_800) {
        compare(&mut random, &input, usize::MAX, &mut all);
    }
    for _ in 0..600 {
        let input = draw_net(&mut random);
        compare(&mut random, &input, 2, &mut all);
    }
    let [bench, met] = all;
    let comparisons: usize = bench.0.iter().chain(&met.0).sum();
    println!("{comparisons} comparisons: {bench:?} with the bench's tables, {met:?} with others");
    assert!(comparisons >= 20_000);
    assert!(met.0.iter().all(|&count| count >= 100));
    // There are at most 16 starting shapes, so the bench has places for them.
    let [accepted, starting, locations, edges] = bench.0;
    assert!(starting == 0 && accepted >= 100 && locations >= 100 && edges >= 100);
}

#[test]
fn a_failed_check_is_the_same_whatever_the_tables() {
    let mut random = Random(0x2545_f491_4f6c_dd1d);
    let mut met = [0; 20];
    for (input, refusal) in unsound_inputs(4).take(2_400) {
        let any = [random.below(5_000), random.below(9_000)];
        for lengths in [FULL, BENCH, [0, 0], [0, BENCH[1]], [BENCH[0], 0], any] {
            check_told(&translated(&input, lengths), refusal);
        }
        met[usize::from(refusal.number)] += 1;
    }
    assert!(met[0] == 0 && met[1..=10] == [200; 10] && met[11..18] == [0; 7] && met[18..] == [200; 2], "{met:?}");
}

#[test]
fn the_tables_alone_do_not_tell_the_starting_shapes() {
    // p0 := null, over and over: the second shape is the target of the first.
    let (undefined, null) = (h(pointers(&[UNDEF]), &[]), h(NULLS, &[]));
    let one = input(&[s(1, 0, 0, 0, 0), undefined]);
    let both = input(&[s(1, 0, 0, 0, 0), undefined, null]);
    let tables = [&one, &both].map(|input| translated(input, FULL));
    assert_eq!(tables[0].answer, tables[1].answer);
    assert!(tables[0].locations == tables[1].locations && tables[0].edges == tables[1].edges);
    check_refused(&translated(&one, [32, 64]), 11, 0);
    check_refused(&translated(&both, [32, 64]), 11, 1);
    assert_eq!(due(&tables[0], 1, [32, 64]).0.answer.place, 0);
    assert_eq!(due(&tables[1], 2, [32, 64]).0.answer.place, 1);
}

/// Some statements, as op, u and w, after which a shape is what it was before.
struct Block {
    letter: char,
    statements: &'static [[u8; 3]],
    /// How many locations each shape is led to, and by how many edges.
    locations: usize,
    edges: usize,
    /// The faults that it may be led to, the same ones for all shapes.
    faults: usize,
}

const fn block(letter: char, statements: &'static [[u8; 3]], locations: usize, edges: usize, faults: usize) -> Block {
    Block { letter, statements, locations, edges, faults }
}

/// Pointers 0 and 1 are at lists that meet, pointer 4 is on a ring, and
/// pointer 5 is null.
const BLOCKS: [Block; 13] = [
    // Skip, test p5 = null and test p0 = p1.
    block('s', &[[11, 0, 0]], 1, 1, 0),
    block('z', &[[8, 5, 0]], 1, 1, 0),
    block('e', &[[9, 0, 1]], 1, 1, 0),
    // p4.next := p4.next changes nothing.
    block('i', &[[12, 4, 4]], 1, 1, 0),
    // Choose, p4 := p4.next and p4.next := p4.
    block('c', &[[10, 0, 0]], 1, 2, 0),
    block('l', &[[3, 4, 4]], 1, 2, 0),
    block('t', &[[5, 4, 4]], 1, 2, 1),
    // p0.next := p1.next and p1.next := p0.next.
    block('r', &[[12, 0, 1]], 1, 3, 1),
    block('u', &[[12, 1, 0]], 1, 3, 1),
    // p5 := p0 and p5 := null.
    block('a', &[[2, 5, 0], [1, 5, 0]], 2, 2, 0),
    // p5 := p4.next stands on the ring's one node or parts it in two.
    block('d', &[[3, 5, 4], [1, 5, 0]], 3, 4, 0),
    // p5 := new, free p5 and p5 := null.
    block('n', &[[6, 5, 0], [7, 5, 0], [1, 5, 0]], 3, 4, 1),
    // The same with p5.next := null before the cell is freed.
    block('f', &[[6, 5, 0], [4, 5, 0], [7, 5, 0], [1, 5, 0]], 4, 6, 2),
];

fn blocks(letters: &str) -> impl Iterator<Item = &'static Block> + '_ {
    letters.chars().map(|letter| BLOCKS.iter().find(|block| block.letter == letter).expect("a letter of a block"))
}

/// A test of p3 for null, the blocks `before` for the early shapes alone, in
/// which it is null, the blocks `after` for all shapes, and a stop.
#[derive(Clone, Debug)]
struct Plan<'a> {
    early: usize,
    late: usize,
    before: &'a str,
    after: &'a str,
}

impl Plan<'_> {
    fn statements(&self) -> usize {
        let of = |letters: &str| blocks(letters).map(|block| block.statements.len()).sum::<usize>();
        2 + of(self.before) + of(self.after)
    }

    /// The locations and edges of the listing, counted block by block.
    fn counts(&self) -> [usize; 2] {
        let all = self.early + self.late;
        let mut counts = [2 * all, all];
        for (letters, shapes) in [(self.before, self.early), (self.after, all)] {
            for block in blocks(letters) {
                counts[0] += shapes * block.locations + block.faults;
                counts[1] += shapes * block.edges;
            }
        }
        counts
    }

    /// No more statements than there may be, and at least five different blocks.
    fn is_varied(&self) -> bool {
        let has = |block: &&Block| self.before.contains(block.letter) || self.after.contains(block.letter);
        self.statements() <= 64 && BLOCKS.iter().filter(has).count() >= 5
    }

    fn input(&self) -> Vec<u8> {
        let of = |letters: &str| blocks(letters).flat_map(|block| block.statements).copied().collect::<Vec<_>>();
        let (before, after) = (of(self.before), of(self.after));
        let mut records = vec![s(8, 3, 0, 1, 1 + before.len() as u8)];
        for &[op, u, w] in before.iter().chain(&after) {
            let next = records.len() as u8 + 1;
            // Tests go on with the next either way, choices also from the start.
            let second = if op == 8 || op == 9 { next } else { 0 };
            records.push(s(op, u, w, next, second));
        }
        records.push(stop());
        records.extend((0..self.early).map(|number| start(number, NULL)));
        records.extend((0..self.late).map(|number| start(number % 4, [0, 2][number / 4])));
        input(&records)
    }
}

/// A starting shape by its number, below 4, and its pointer 3.
fn start(number: usize, third: u8) -> Record {
    h([0, 2, [NULL, UNDEF, 0, 2][number], third, 3, NULL], &[1, NULL, 1, 3])
}

/// Single statements that keep their shapes, with targets anywhere. Many of
/// them are relinks, or few.
fn draw_net(random: &mut Random) -> Vec<u8> {
    let letters = ["szeicltr", "rururulc"][random.below(2)];
    let single: Vec<[u8; 3]> = blocks(letters).map(|block| block.statements[0]).collect();
    let count = 24 + random.below(41);
    let target = |number: usize, random: &mut Random| match random.below(8) {
        0 => random.below(count) as u8,
        _ => ((number + 1) % count) as u8,
    };
    let mut records = Vec::new();
    for number in 0..count {
        let [op, u, w] = single[random.below(single.len())];
        let first = target(number, random);
        let second = if (8..=10).contains(&op) { target(number, random) } else { 0 };
        records.push(s(op, u, w, first, second));
    }
    let shapes = 3 + random.below(6);
    records.extend((0..shapes).map(|number| start(number % 4, [NULL, 0][number / 4])));
    input(&records)
}

/// So many letters, more or less of them relinks.
fn draw_letters(random: &mut Random, count: usize) -> String {
    let relinks = [0, 40, 80, 95][random.below(4)];
    let mut letter = || match random.below(100) {
        number if number < relinks => ['r', 'u'][random.below(2)],
        _ => BLOCKS[random.below(BLOCKS.len())].letter,
    };
    (0..count).map(|_| letter()).collect()
}

/// The classes of listings that just fit the bench, or just do not.
fn class(counts: [usize; 2]) -> Option<usize> {
    match counts {
        [128, ..256] => Some(0),
        [129, ..=256] => Some(1),
        [..128, 256] => Some(2),
        [..=128, 257] => Some(3),
        [128, 256] => Some(4),
        _ => None,
    }
}

#[test]
fn drawn_routines_at_the_limits_of_the_bench() {
    let mut random = Random(0x5851_f42d_4c95_7f2d);
    let mut met = [0; 5];
    while met.iter().any(|&count| count < 5) {
        let (early, late) = (1 + random.below(4), random.below(9));
        let counts = [random.below(20), 1 + random.below(50)];
        let [before, after] = counts.map(|count| draw_letters(&mut random, count));
        let plan = Plan { early, late, before: &before, after: &after };
        let Some(class) = class(plan.counts()).filter(|&class| met[class] < 5 && plan.is_varied()) else {
            continue;
        };
        met[class] += 1;
        let stuck = check_plan(&plan).map(|stuck| (stuck.refusal, stuck.listed[usize::from(stuck.refusal) - 11]));
        let due = [None, Some((11, 128)), None, Some((12, 256)), None][class];
        assert_eq!(stuck, due, "{plan:?}");
    }
}

/// Wants the counts of a plan from the full tables and what is due from the
/// bench's, and answers what found no place there.
#[track_caller]
fn check_plan(plan: &Plan) -> Option<Stuck> {
    let input = plan.input();
    let full = translated(&input, FULL);
    let [locations, edges] = plan.counts();
    assert_eq!(full.answer, Translated { refusal: 0, place: 0, node: Node(0), locations, edges }, "{plan:?}");
    check_lengths(&input, &full, BENCH)
}

/// A routine made on purpose, which is a case of the shared folder: the counts
/// of its full listing, and what finds no place at the bench.
struct Made {
    case: &'static str,
    plan: Plan<'static>,
    counts: [usize; 2],
    stuck: Option<Stuck>,
}

const fn made(case: &'static str, [early, late]: [usize; 2], letters: [&'static str; 2], counts: [usize; 2]) -> Made {
    let plan = Plan { early, late, before: letters[0], after: letters[1] };
    Made { case, plan, counts, stuck: None }
}

const fn at(refusal: u8, place: usize, listed: [usize; 2], made: Made) -> Made {
    Made { stuck: Some(Stuck { refusal, place, listed, starting: false }), ..made }
}

const MADE: [Made; 11] = [
    made("292", [1, 3], ["", "lnfiitludfaeeccrl"], [128, 180]),
    at(11, 126, [128, 185], made("293", [2, 2], ["fsdazus", "cuznersuusfdcu"], [129, 188])),
    made("294", [1, 4], ["uezrtszciuald", "rrsuuruurrtruuur"], [125, 256]),
    at(12, 124, [126, 256], made("295", [1, 4], ["zntltdruert", "urrrrrrucuuuriru"], [126, 257])),
    made("296", [1, 3], ["cazrclrsuuciilsts", "rurruuruuurdurrruu"], [128, 256]),
    at(12, 113, [119, 256], made("297", [4, 0], ["ursrruuzuurrururrur", "luuuriduurzauuandturulura"], [253, 488])),
    at(11, 121, [128, 211], made("298", [2, 3], ["rudcfrurllfur", "zrrureruunsucuzuuurruriu"], [211, 401])),
    // As many as fit, and then a cell is made, which leads on.
    at(11, 120, [128, 256], made("299", [4, 4], ["", "suuuurrdurln"], [153, 288])),
    // The third edge of a relink, to a new fault: the first two took the rest.
    at(11, 121, [128, 256], made("300", [4, 1], ["ruzu", "zrrruutcururltueuurrurznuuurdurrcurl"], [257, 535])),
    // A target that is known, or finds the last place, and then 12.
    at(12, 126, [128, 256], made("301", [1, 3], ["uurtrurar", "uuuuuuureuirrurruureu"], [128, 257])),
    at(12, 122, [127, 256], made("302", [2, 2], ["", "trurruusrurlurunrruulirurruzrdrurufuu"], [216, 432])),
];

#[test]
fn routines_made_on_purpose() {
    let mut random = Random(0x1405_7b7e_f767_814f);
    for Made { case, plan, counts, stuck } in &MADE {
        assert!(plan.is_varied() && plan.counts() == *counts, "{case}");
        assert_eq!(check_plan(plan), *stuck, "{case}");
        let input = plan.input();
        compare(&mut random, &input, usize::MAX, &mut [Met::default(), Met::default()]);
        let path = format!("{}/../tests/cases/{case}.in", env!("CARGO_MANIFEST_DIR"));
        assert!(std::fs::read(&path).expect("the case") == input, "{case} is another input");
    }
}
