//! The location that has a record.

mod common;

use common::{changed, example, location, printed, text, tool, Draw, EXAMPLES};
use tool::automaton::{Automaton, ALL_PLACES};
use tool::find::{Find, Found};
use tool::listing::Listing;
use tool::record::{from_hex, Record, SIZE};
use tool::refusal::hex;
use tool::show::Show;
use tool::source::Source;
use tool::style::Style;

const FILE: &str = "examples/reverse.txt";

/// The lines of `translate --hex`: those of the locations, and those of the edges.
fn hex_lines(file: &str) -> [Vec<String>; 2] {
    let lines = text(&printed(&["translate", file, "--hex"], b""));
    ["4c", "45"].map(|kind| lines.lines().filter(|line| line.starts_with(kind)).map(String::from).collect())
}

/// What is found in this automaton of a routine.
fn found_in(automaton: &Automaton, source: &Source, record: &[u8]) -> Found {
    let routine = source.routine().unwrap();
    let listing = Listing { source, routine: &routine, automaton, style: Style::PLAIN };
    let record: Record = record.try_into().unwrap();
    Find { show: Show { listing } }.record(&record).unwrap()
}

/// What is said where no location is found.
fn none_found(words: &[&str], input: &[u8]) -> String {
    let done = tool(&[&["find"], words].concat(), input);
    let said = text(&done.stdout);
    assert_eq!((done.status.code(), text(&done.stderr)), (Some(1), String::new()), "{said}");
    assert!(said.lines().all(|l| l.chars().count() <= 100), "{said}");
    said.replace("\n    ", " ")
}

/// What is said of a wrong RECORD.
fn bad_record(file: &str, record: &str, input: &[u8]) -> String {
    let done = tool(&["find", file, record], input);
    let said = text(&done.stderr);
    assert_eq!((done.status.code(), done.stdout.len()), (Some(2), 0), "{said}");
    let said = said.strip_suffix("\nTry `currantplane help find`.\n").expect("how to get the right use");
    said.strip_prefix("currantplane: find: ").expect("the command").into()
}

/// Each location, by the hex that is printed for it, is found at its own number and shown as it is by that number.
#[test]
fn every_location_by_the_command() {
    for (file, count) in [(FILE, 20), ("examples/insert.txt", 40)] {
        let [locations, _] = hex_lines(file);
        assert_eq!(locations.len(), count, "{file}");
        for (number, record) in locations.iter().enumerate() {
            let said = printed(&["find", file, record], b"");
            assert!(text(&said).starts_with(&format!("{file}: location {number}; the locations are 0 to {}\n", count - 1)));
            assert_eq!(text(&said), text(&printed(&["show", file, "location", &number.to_string()], b"")));
        }
    }
}

/// The same in all examples and in routines drawn at random, where no edge's record is found.
#[test]
fn every_location_and_no_edge() {
    let mut sources: Vec<Source> = EXAMPLES.iter().map(|n| Source::of_bytes(n, example(n).into_bytes()).unwrap()).collect();
    sources.extend((0..40).map(|seed| Source::of_bytes("drawn", Draw::new(seed).routine(12)).unwrap()));
    let (mut locations, mut edges) = (0, 0);
    for source in sources {
        // one that is too large has no tables
        let Ok(automaton) = source.automaton(ALL_PLACES) else { continue };
        for (number, record) in automaton.tables.locations.chunks(SIZE).enumerate() {
            let found = found_in(&automaton, &source, record);
            assert_eq!(found.number, Some(number), "{}", source.name);
            assert!(found.text.starts_with(&format!("{}: location {number}; ", source.name)), "{}", found.text);
            locations += 1;
        }
        for record in automaton.tables.edges.chunks(SIZE) {
            let found = found_in(&automaton, &source, record);
            assert_eq!((found.number, found.text.contains("no location")), (None, true), "{}", found.text);
            edges += 1;
        }
    }
    assert!(locations > 400 && edges > 400, "only {locations} locations and {edges} edges");
}

/// The answer is the library's: of equal records the highest number is told. A translation never writes such tables.
#[test]
fn the_newest_of_equal_records() {
    let source = Source::of_bytes("reverse", example("reverse").into_bytes()).unwrap();
    let whole = source.automaton(ALL_PLACES).unwrap();
    let record = whole.tables.locations[4 * SIZE..][..SIZE].to_vec();
    for newest in 5..20 {
        let twice = changed(&whole, &|tables| location(tables, newest).copy_from_slice(&record));
        assert_eq!(found_in(&twice, &source, &record).number, Some(newest));
    }
    let gone = changed(&whole, &|tables| location(tables, 4)[31] ^= 1);
    assert_eq!(found_in(&gone, &source, &record).number, None);
}

#[test]
fn no_location_has_it() {
    let none = format!("{FILE}: no location of this routine has this record");
    let [locations, edges] = hex_lines(FILE);
    // each byte but the first counts
    let record = from_hex(&locations[4]).unwrap();
    for at in 1..SIZE {
        let mut other = record;
        other[at] ^= 0x80;
        assert_eq!(none_found(&[FILE, &hex(&other)], b""), format!("{none}.\n"), "byte {at}");
    }
    let begins = "records of locations begin with 4c, and this one begins with";
    for (record, first) in
        [(edges[4].clone(), "45"), ("0".repeat(64), "00"), ("F".repeat(64), "ff"), (locations[4].replacen("4c", "6c", 1), "6c")]
    {
        assert_eq!(none_found(&[FILE, &record], b""), format!("{none}: {begins} {first}.\n"));
    }
    // a starting shape is a location, and its record in the input is another
    let shape = "48".to_string() + &locations[0][2..];
    let said = none_found(&["-", &shape], example("reverse").as_bytes());
    assert_eq!(said, format!("standard input: no location of this routine has this record: {begins} 48.\n"));
    // a location of another routine
    let [others, _] = hex_lines("examples/ring.txt");
    assert!(!locations.contains(&others[3]));
    assert_eq!(none_found(&[FILE, &others[3]], b""), format!("{none}.\n"));
}

/// From a text or from records, in either case of the digits, as a word or from standard input.
#[test]
fn ways_to_give_it() {
    let [locations, _] = hex_lines(FILE);
    let expected = printed(&["show", FILE, "location", "9"], b"");
    let lower = locations[9].as_str();
    let upper = lower.to_uppercase();
    assert_ne!(lower, upper);
    let mixed = "4C".to_string() + &lower[2..];
    for record in [lower, &upper, &mixed] {
        assert_eq!(printed(&["find", FILE, record], b""), expected);
        for input in [record.to_string(), format!("{record}\n"), format!(" \t{record}\r\n\n")] {
            assert_eq!(printed(&["find", FILE, "-"], input.as_bytes()), expected);
        }
    }
    let records = "examples/reverse.records";
    assert_eq!(printed(&["find", records, lower], b""), printed(&["show", records, "location", "9"], b""));
    let from_input = text(&printed(&["find", "-", lower], example("reverse").as_bytes()));
    assert_eq!(from_input.replacen("standard input", FILE, 1), text(&expected));
}

#[test]
fn digits_that_are_none() {
    let whole = hex_lines(FILE)[0][4].clone();
    for (at, wrong, shown) in [
        (0, "g", "g"),
        (1, "G", "G"),
        (5, "x", "x"),
        (8, " ", " "),
        (9, "\n", "\\n"),
        (20, "+", "+"),
        (31, "-", "-"),
        (62, "\u{e9}", "\u{e9}"),
        (63, "\u{ff11}", "\u{ff11}"),
    ] {
        let record = whole[..at].to_string() + wrong + &whole[at + 1..];
        let expected = format!("RECORD is 64 hex digits, and character {}, `{shown}`, is none", at + 1);
        assert_eq!(bad_record(FILE, &record, b""), expected);
        assert_eq!(bad_record(FILE, "-", record.as_bytes()), expected);
    }
    // of a record that is too long or too short as well, the digit is told
    assert_eq!(bad_record(FILE, "0x4c", b""), "RECORD is 64 hex digits, and character 2, `x`, is none");
    let lines = format!("{whole}\n{whole}\n");
    assert_eq!(bad_record(FILE, "-", lines.as_bytes()), "RECORD is 64 hex digits, and character 65, `\\n`, is none");
    assert_eq!(bad_record(FILE, "-", b"4c\xff"), "RECORD is 64 hex digits, and character 3, `\u{fffd}`, is none");
}

#[test]
fn other_lengths() {
    let whole = hex_lines(FILE)[0][4].repeat(2);
    for length in [0, 1, 2, 32, 62, 63, 65, 66, 128] {
        let expected = format!("RECORD is 64 hex digits, and there are {length}");
        assert_eq!(bad_record(FILE, &whole[..length], b""), expected);
        assert_eq!(bad_record(FILE, "-", &whole.as_bytes()[..length]), expected);
    }
    assert_eq!(bad_record("-", "-", b"stop\nshape\n"), "FILE and RECORD cannot both be standard input");
    // a wrong record is told before the file is looked at
    assert_eq!(bad_record("examples/none.txt", "4c", b""), "RECORD is 64 hex digits, and there are 2");
}

/// A routine that is refused has no locations: it is explained as by other commands.
#[test]
fn routines_that_are_refused() {
    let record = &hex_lines(FILE)[0][0];
    for body in ["stop\nshape\np0 -> a -> b\n", "stop\n", "stop\nshape\np0 -> a\nb -> a\n", "stp\n", ""] {
        let found = tool(&["find", "-", record], body.as_bytes());
        assert_eq!(found, tool(&["show", "-", "location", "0"], body.as_bytes()));
        assert!(found.status.code() > Some(0) && found.stdout.is_empty() && !found.stderr.is_empty(), "{body}");
    }
    let found = tool(&["find", "-", record], b"stop\nshape\np0 -> a -> b\n");
    assert_eq!(found.status.code(), Some(1));
    assert!(text(&found.stderr).starts_with("standard input: refused 18 at record 1"), "{}", text(&found.stderr));
}
