//! One record of an automaton in hex and in words.

mod common;

use common::{example, printed, text, tool, EXAMPLES};
use tool::automaton::ALL_PLACES;
use tool::listing::Listing;
use tool::record::SIZE;
use tool::refusal::hex;
use tool::show::{Kind, Show};
use tool::source::Source;
use tool::style::Style;

/// Every location and every edge of the examples: the record is that of the table, and its words are the listing's.
#[test]
fn every_record_of_the_examples() {
    let (mut edges, mut two_guards) = (0, 0);
    for name in EXAMPLES {
        let source = Source::of_bytes(name, example(name).into_bytes()).unwrap();
        let (automaton, routine) = (source.automaton(ALL_PLACES).unwrap(), source.routine().unwrap());
        let tables = &automaton.tables;
        let listing = Listing { source: &source, routine: &routine, automaton: &automaton, style: Style::PLAIN };
        let (whole, show) = (listing.text(), Show { listing });
        for (number, record) in tables.locations.chunks(SIZE).enumerate() {
            let shown = show.record(Kind::Location, number).unwrap();
            let (head, words) = shown.split_once(&format!("{}\n", hex(record))).expect("the record in hex");
            assert!(head.starts_with(&format!("{name}: location {number}; the locations are 0 to ")), "{head}");
            assert!(whole.contains(&format!("\n\n{words}\n")), "{words} is not in\n{whole}");
        }
        for (number, record) in tables.edges.chunks(SIZE).enumerate() {
            let shown = show.record(Kind::Edge, number).unwrap();
            let (head, mut words) = shown.split_once(&format!("{}\n", hex(record))).expect("the record in hex");
            assert!(head.starts_with(&format!("{name}: edge {number}; the edges are 0 to ")), "{head}");
            if let Some((bits, rest)) = words.strip_prefix("byte 1 ").and_then(|w| w.split_once('\n')) {
                assert!(bits.contains(&format!(" 0x{:02x}: branch ", record[1])), "{bits}");
                (words, two_guards) = (rest, two_guards + 1);
            }
            let from = automaton.edges[number].from;
            let start = format!("{:<15}from location {from}  ", format!("edge {number}"));
            let (line, ends) = words.split_once("\nlocation ").expect("the locations at its ends");
            let leads = line.strip_prefix(&start).expect(line);
            // the listing has spaces where conditions of several edges stand in a row
            let squeezed = |t: &str| t.split_whitespace().collect::<Vec<_>>().join(" ");
            assert!(squeezed(&whole).contains(&squeezed(&format!("edge {number} {leads}"))), "{leads} is not in\n{whole}");
            assert!(ends.starts_with(&format!("{from} ")), "{ends}");
            assert!(shown.lines().all(|l| l.chars().count() <= 100), "{shown}");
            edges += 1;
        }
    }
    assert!(edges > 100, "only {edges} edges");
    assert_eq!(two_guards, 4, "of the two examples that unlink");
}

#[test]
fn by_the_command() {
    let said = text(&printed(&["show", "examples/reverse.txt", "edge", "5"], b""));
    let expected = "\
edge 5         from location 4  if c0 >= 2  to location 6: c0' = c0 - 1, c1' = 1
location 4     statement 4: p0 := p0.next
";
    assert!(said.contains(expected), "{said}");
    let from_records = printed(&["show", "examples/reverse.records", "location", "17"], b"");
    assert!(text(&from_records).contains("record         4c"), "{}", text(&from_records));
}

/// An edge of a test that faults: no condition, and the pointer by its name.
#[test]
fn an_edge_to_a_fault() {
    let body = b"test p0 = p1\nstop\nshape\np1 -> undefined\nshape\np0, p1 -> undefined\n";
    let said = |number: &str| text(&printed(&["show", "-", "edge", number], body));
    let first = "\nedge 0         from location 0  to location 2, FAULT 2: p1 is undefined\nlocation 0     start, ";
    assert!(said("0").contains(first), "{}", said("0"));
    let second = "\nedge 1         from location 1  to location 2, FAULT 2: p0 and p1 are undefined\nlocation 1     start, ";
    assert!(said("1").contains(second), "{}", said("1"));
    let end = "\nlocation 2     FAULT 2 at statement 0: test p0 = p1\n               looks at p1, which is undefined: \
               its cell was freed, or it never had one\n";
    assert!(said("1").ends_with(end), "{}", said("1"));
    let location = text(&printed(&["show", "-", "location", "0"], body));
    assert!(location.ends_with("\n  edge 0       to location 2, FAULT 2: p1 is undefined\n"), "{location}");
}

/// The edges of a relink: both guards in hex, by the bits of byte 1 and in words. An edge with one guard has no line for byte 1.
#[test]
fn an_edge_with_two_guards() {
    let body = b"p0.next := p1.next\nstop\nshape\np0 -> a -> c -> null\np2 -> b -> c\np1 -> c\n";
    let said = |number: &str| text(&printed(&["show", "-", "edge", number], body));
    let zeros = |n: usize| "0".repeat(n);
    // c1 is p1's, since nodes are numbered from p0 along successors
    let first = format!(
        "record         450a000001000100{}{}
byte 1         0x0a: branch 0 (bit 0), second guard = 1 (bits 1 and 2), its node 1 (bits 3 to 6)
edge 0         from location 0  if c0 = 1 and c1 = 1  to location 1: counters kept
location 0     start, statement 0: p0.next := p1.next\n",
        "011002100410",
        zeros(36)
    );
    assert!(said("0").contains(&first), "{}", said("0"));
    let second = format!(
        "record         450c000002000100{}{}
byte 1         0x0c: branch 0 (bit 0), second guard >= 2 (bits 1 and 2), its node 1 (bits 3 to 6)
edge 1         from location 0  if c0 = 1 and c1 >= 2  to location 2: ",
        "0110020000200410",
        zeros(32)
    );
    assert!(said("1").contains(&second), "{}", said("1"));
    let third = format!(
        "record         4500000003000200{}
edge 2         from location 0  if c0 >= 2  to location 3, FAULT 3: leak\nlocation 0     start, ",
        zeros(48)
    );
    assert!(said("2").contains(&third), "{}", said("2"));
    assert!(said("1").lines().all(|l| l.chars().count() <= 100), "{}", said("1"));
}

/// The edge of a drop, in hex and in words: no guard, and no update where every cell went.
#[test]
fn the_edge_of_a_drop() {
    let body = b"drop p0\nstop\nshape\np0 -> a -> null\nshape\np0 -> a -> c -> null\np1 -> b -> c\n";
    let said = |number: &str| text(&printed(&["show", "-", "edge", number], body));
    let zeros = |n: usize| "0".repeat(n);
    let all = format!(
        "record         4500000002000000{}
edge 0         from location 0  to location 2
location 0     start, statement 0: drop p0
               p0 -> n0(c0) -> null
               p1 -> null
location 2     statement 1: stop
               p0, p1 -> null\n",
        zeros(48)
    );
    assert!(said("0").ends_with(&all), "{}", said("0"));
    let some = format!(
        "record         4500010003000000{}{}
edge 1         from location 1  to location 3: c0' = c1 + c2
location 1     start, statement 0: drop p0
               p0 -> n0(c0) -> n1(c1) -> null
               p1 -> n2(c2) -> n1
location 3     statement 1: stop
               p1 -> n0(c0) -> null
               p0 -> null\n",
        "0610",
        zeros(44)
    );
    assert!(said("1").ends_with(&some), "{}", said("1"));
}

/// Ten nodes, the second guard on the last: its number takes all of its four bits.
#[test]
fn a_second_guard_on_node_9() {
    let body = b"p4.next := p5.next\nstop\nshape\np0 -> a -> j -> k -> l -> m -> null
p1 -> b -> j\np2 -> c -> k\np3 -> d -> l\np4 -> e -> m\np5 -> f -> null\n";
    let said = |number: &str| text(&printed(&["show", "-", "edge", number], body));
    // m is no longer core, so its counter is added to that of l
    let updates = "0110021004101810201040108010 00110012".replace(' ', "");
    let first = format!(
        "record         454a000001000108{updates}{}
byte 1         0x4a: branch 0 (bit 0), second guard = 1 (bits 1 and 2), its node 9 (bits 3 to 6)
edge 0         from location 0  if c8 = 1 and c9 = 1  to location 1: c0' = c0, ",
        "0".repeat(48 - updates.len())
    );
    assert!(said("0").contains(&first), "{}", said("0"));
    let bits = "\nbyte 1         0x4c: branch 0 (bit 0), second guard >= 2 (bits 1 and 2), its node 9 (bits 3 to 6)\n";
    assert!(said("1").contains("record         454c000002000108") && said("1").contains(bits), "{}", said("1"));
    assert!(said("2").contains("record         4500000003000208"), "{}", said("2"));
}

/// A number that is not in use is refused by the library, and explained with those that are.
#[test]
fn numbers_that_are_not_in_use() {
    let most = usize::MAX.to_string();
    let cases = [
        ("examples/reverse.txt", "location", "20", "here:    the locations are 0 to 19\n"),
        ("examples/reverse.txt", "edge", "24", "here:    the edges are 0 to 23\n"),
        ("examples/reverse.txt", "edge", most.as_str(), "here:    the edges are 0 to 23\n"),
        ("-", "location", "1", "here:    the only location is 0\n"),
        ("-", "edge", "0", "here:    there is no edge\n"),
    ];
    for (file, kind, number, expected) in cases {
        let done = tool(&["show", file, kind, number], b"stop\nshape\n");
        let said = text(&done.stderr);
        assert_eq!((done.status.code(), done.stdout.len()), (Some(1), 0), "{said}");
        assert!(said.contains(": refused 17\n  meaning: ") && said.contains(expected), "{said}");
    }
    // a routine that is refused has no records
    let done = tool(&["show", "-", "location", "0"], b"stop\nshape\np0 -> a -> b\n");
    assert!(text(&done.stderr).contains("refused 18 at record 1"), "{}", text(&done.stderr));
}
