//! Whatever the input is, the tool answers: damaged texts and records, and options that make no sense.

mod common;

use common::{changed, edge, example, Draw, EXAMPLES};
use tool::automaton::{check, tables, Automaton, Places, ALL_PLACES};
use tool::commands::{perform, Screen};
use tool::listing::Listing;
use tool::record::{Routine, SIZE};
use tool::run::{End, Options, Run};
use tool::show::{Kind, Show};
use tool::source::Source;
use tool::style::Style;
use tool::text::{assemble, disassemble};

const PIECES: [&str; 25] = [
    "p0",
    "p5",
    "p6",
    ":=",
    "->",
    ".next",
    "null",
    "undefined",
    "shape\n",
    "goto loop",
    "else done",
    "loop:",
    "\n",
    " ",
    "#",
    ",",
    "=",
    "new",
    "free",
    "drop",
    "test",
    "choose",
    "é",
    "\t",
    "\r\n",
];

/// A text with some pieces put in, some characters cut out and some lines doubled.
fn damaged(d: &mut Draw, body: &str) -> String {
    let mut chars: Vec<char> = body.chars().collect();
    for _ in 0..1 + d.below(4) {
        let at = d.below(chars.len());
        match d.below(3) {
            0 => drop(chars.splice(at..at, PIECES[d.below(PIECES.len())].chars())),
            1 => drop(chars.drain(at..(at + 1 + d.below(6)).min(chars.len()))),
            _ => drop(chars.splice(at..at, chars.iter().copied().skip(at).take(30).collect::<Vec<_>>())),
        }
    }
    chars.into_iter().collect()
}

#[test]
fn damaged_texts() {
    let mut d = Draw::new(5);
    let (mut wrong, mut right) = (0, 0);
    for round in 0..20_000 {
        let body = damaged(&mut d, &example(EXAMPLES[round % EXAMPLES.len()]));
        match assemble(&body) {
            Err(error) => {
                let shown = error.show("f", &body);
                let line = body.lines().nth(error.spot.line - 1).unwrap_or("");
                assert!(error.spot.column <= line.chars().count() + 1, "{shown}");
                assert_eq!(shown.lines().count(), 3, "{shown}");
                wrong += 1;
            }
            Ok(made) => {
                right += 1;
                if check(&made.records).is_ok() {
                    let again = disassemble(&Routine::read(&made.records));
                    assert_eq!(assemble(&again).unwrap().records, made.records, "{body}");
                }
            }
        }
    }
    assert!(wrong > 5000 && right > 2000, "{wrong} wrong, {right} right");
}

#[test]
fn damaged_records() {
    let mut d = Draw::new(6);
    let mut met = [0; 20];
    for round in 0..30_000 {
        let mut records = d.routine(6);
        match d.below(8) {
            0 => records.truncate(d.below(records.len())),
            1 => records.extend_from_within(..32),
            2 => records.extend(records[records.len() - 32..].repeat(1 + d.below(17))),
            3 => drop(records.splice(0..0, records[..32].repeat(60 + d.below(6)))),
            _ => {
                let at = d.below(records.len() / 32) * 32 + if d.one_in(3) { d.below(32) } else { d.below(13) };
                records[at] = if d.one_in(2) { d.below(15) as u8 } else { d.below(256) as u8 };
            }
        }
        let places = if round % 3 == 0 { Places { locations: d.below(20), edges: d.below(20) } } else { ALL_PLACES };
        let source = Source { name: "f".into(), records, text: None };
        if let Err(refusal) = tables(&source.records, places) {
            met[refusal.number as usize] += 1;
            let said = tool::refusal::failure(refusal, &source, places).message;
            assert!(said.starts_with(&format!("f: refused {}", refusal.number)), "{said}");
            assert!(said.lines().all(|l| l.chars().count() <= 100), "{said}");
            // every refusal of the input says more than its meaning
            assert!(said.contains("\n  here:    "), "{said}");
        }
    }
    // 13 to 17 are about heaps, steps and records by their numbers
    assert!((1..=12).chain(18..=19).all(|number: usize| met[number] > 10), "{met:?}");
}

/// What the tool says of the tables of unlink with some bytes of an edge changed.
struct Changed {
    source: Source,
    routine: Routine,
    automaton: Automaton,
}

impl Changed {
    fn new(number: usize, bytes: &[(usize, u8)]) -> Changed {
        let source = Source::of_bytes("unlink", example("unlink").into_bytes()).unwrap();
        let (routine, whole) = (source.routine().unwrap(), source.automaton(ALL_PLACES).unwrap());
        let automaton = changed(&whole, &|t| bytes.iter().for_each(|&(at, byte)| edge(t, number)[at] = byte));
        Changed { source, routine, automaton }
    }

    /// What `show` says of the edge, the listing, the graph, and how a run on three cells ends.
    fn said(&self, edge: usize) -> (String, String, String, End) {
        let Changed { source, routine, automaton } = self;
        let listing = Listing { source, routine, automaton, style: Style::PLAIN };
        let whole = listing.text();
        let shown = Show { listing }.record(Kind::Edge, edge).unwrap();
        let options = Options { heap: vec![3], shape: 0, picks: Vec::new(), steps: 200 };
        let ran = Run { source, routine, automaton, style: Style::PLAIN }.go(&options).unwrap();
        (shown, whole, tool::graph::dot(source, routine, automaton), ran.end)
    }
}

/// Whether an edge that leaves a shape with so many nodes has guards as the layout of its record allows them.
fn right_guards(record: &[u8], count: u8) -> bool {
    let right = |kind: u8, node: u8| (kind, node) == (0, 0) || matches!(kind, 1 | 2) && node < count;
    let (kind, node) = (record[1] / 2 % 4, record[1] / 8 % 16);
    record[1] < 0x80 && right(record[6], record[7]) && right(kind, node)
}

/// Every value of bytes 1, 6 and 7 of each edge of a relink, and of two others: the tool answers and says which guards are
/// damaged, and no move is made in such tables.
#[test]
fn damaged_guards() {
    let (mut good, mut bad) = (0, 0);
    for edge in [0, 2, 6, 7, 8] {
        for (at, byte) in [1, 6, 7].into_iter().flat_map(|at| (0..=255).map(move |byte| (at, byte))) {
            let changed = Changed::new(edge, &[(at, byte)]);
            let tables = &changed.automaton.tables;
            let record = &tables.edges[SIZE * edge..][..SIZE];
            let count = tables.locations[SIZE * record[2] as usize + 3];
            let right = right_guards(record, count);
            let (shown, listing, graph, end) = changed.said(edge);
            for (said, mark) in [(&shown, "  never (damaged guard)  to "), (&listing, " never (damaged guard) ")] {
                assert_eq!(said.contains(mark), !right, "{said}");
            }
            assert_eq!(graph.contains(">never (damaged guard)<"), !right, "{graph}");
            assert_eq!(shown.contains(&format!("\nbyte 1         0x{:02x}: branch ", record[1])), record[1] > 1, "{shown}");
            assert!(shown.lines().chain(listing.lines()).all(|l| l.chars().count() <= 100), "{shown}{listing}");
            if !right {
                let broken = "the tables or the counters break the layout, so no move is made (refused 20)";
                assert_eq!(end, End::Mismatch(broken.into()));
            }
            good += usize::from(right);
            bad += usize::from(!right);
        }
    }
    assert!(good > 40 && bad > 3000, "{good} good, {bad} bad");
}

/// Byte 1 by its bits where it breaks the layout, and where a second guard stands alone, which does not.
#[test]
fn damaged_bytes_in_words() {
    let cases: [(&[(usize, u8)], &str); 6] = [
        (&[(1, 0x8c)], "0x8c: branch 0 (bit 0), second guard >= 2 (bits 1 and 2), its node 1 (bits 3 to 6), bit 7 is set"),
        (&[(1, 0x80)], "0x80: branch 0 (bit 0), no second guard (bits 1 and 2), its node 0 (bits 3 to 6), bit 7 is set"),
        (&[(1, 0x0e)], "0x0e: branch 0 (bit 0), second guard 3, which there is not (bits 1 and 2), its node 1 (bits 3 to 6)"),
        (&[(1, 0x08)], "0x08: branch 0 (bit 0), no second guard (bits 1 and 2), its node 1 (bits 3 to 6)"),
        (&[(1, 0x13)], "0x13: branch 1 (bit 0), second guard = 1 (bits 1 and 2), its node 2 (bits 3 to 6)"),
        (&[(6, 0), (7, 0)], "0x0c: branch 0 (bit 0), second guard >= 2 (bits 1 and 2), its node 1 (bits 3 to 6)"),
    ];
    for (bytes, expected) in cases {
        let (shown, ..) = Changed::new(7, bytes).said(7);
        let flat = shown.replace("\n               ", " ");
        assert!(flat.contains(&format!("\nbyte 1         {expected}\nedge 7 ")), "{expected} is not in\n{shown}");
        let condition = if bytes.len() == 1 { "never (damaged guard)" } else { "if c1 >= 2" };
        assert!(flat.contains(&format!("edge 7         from location 7  {condition}  to location 9: ")), "{shown}");
    }
}

#[test]
fn senseless_arguments() {
    let mut d = Draw::new(7);
    let words = [
        "translate",
        "run",
        "walk",
        "ranges",
        "assemble",
        "disassemble",
        "help",
        "--hex",
        "--dot",
        "--bench",
        "--heap",
        "--picks",
        "1,2",
        "0,1,2",
        "3",
        "-1",
        "",
        ",",
        "--shape",
        "--steps",
        "--locations=7",
        "--edges",
        "--start",
        "--counters",
        "1..3",
        "1..2,3..1",
        "..",
        "--heap=",
        "-x",
        "nowhere/none",
        "../examples/reverse.txt",
        "../examples/insert.txt",
        "--",
        "9999999999999999999999",
    ];
    for _ in 0..20_000 {
        let given: Vec<String> = (0..d.below(7)).map(|_| words[d.below(words.len())].to_string()).collect();
        match perform(&given, Screen { terminal: true, style: Style::PLAIN }) {
            Ok(done) => assert!(done.file.is_none() && !done.output.is_empty(), "{given:?}"),
            Err(failure) => assert!(failure.status > 0 && failure.message.ends_with('\n'), "{given:?}"),
        }
    }
}
