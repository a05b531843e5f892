//! The command `record`: its text, its refusals and its errors.

mod common;

use common::program::*;
use common::*;

/// A table of so many places, each filled with its number and a letter.
fn table(letter: u8, places: usize) -> Vec<u8> {
    (0..places).flat_map(|number| [[letter, number as u8, (number >> 8) as u8, 0]; 8].concat()).collect()
}

fn text(tables: [&[u8]; 2], counts: &str, mark: &str, number: &str) -> Vec<u8> {
    let [locations, edges] = tables.map(hex);
    format!("locations {locations}\nedges {edges}\ncounts {counts}\ntable {mark}\nnumber {number}\n").into_bytes()
}

#[track_caller]
fn check_17(tables: [&[u8]; 2], counts: &str, mark: &str, number: &str) {
    check(&["record"], &text(tables, counts, mark, number), 1, "refused 17 0\n");
}

#[track_caller]
fn check_part(tables: [&[u8]; 2], counts: &str, mark: usize, number: usize) {
    let begin = 32 * number;
    let record = hex(&tables[mark][begin..begin + 32]);
    let input = text(tables, counts, &mark.to_string(), &number.to_string());
    check(&["record"], &input, 0, &format!("part {begin} 32\nrecord {record}\n"));
}

#[test]
fn parts_are_printed() {
    let (locations, edges) = (table(b'L', 3), table(b'E', 4));
    for number in 0..3 {
        check_part([&locations, &edges], "3 4", 0, number);
    }
    for number in 0..4 {
        check_part([&locations, &edges], "3 4", 1, number);
    }
    check_part([&[], &edges[..33]], "0 1", 1, 0);
    check_part([&locations[..95], &[]], "2 0", 0, 1);
}

#[test]
fn the_lines_written_out() {
    let digits = "0123456789abcdef".repeat(4);
    let upper = digits.to_uppercase();
    let input = format!("# any order\r\nnumber 01 # one\r\n\r\ntable 1\r\nedges {upper}{upper}ff\r\ncounts 0 2\r\nlocations\r\n");
    let due = format!("part 32 32\nrecord {digits}\n");
    check(&["record"], input.as_bytes(), 0, &due);
    let ran = run_in_pieces(&["record"], input.as_bytes(), 1);
    assert_eq!((ran.status, ran.output), (0, due));
}

#[test]
fn full_tables() {
    let (locations, edges) = (table(b'L', 1025), table(b'E', 2049));
    check_part([&locations, &edges], "1024 2048", 0, 1023);
    check_part([&locations, &edges], "1024 2048", 1, 2047);
    check_17([&locations, &edges], "1025 2048", "0", "0");
    check_17([&locations, &edges], "1025 2048", "1", "0");
    check_17([&locations, &edges], "1024 2049", "0", "0");
    check_17([&locations, &edges], "1024 2049", "1", "0");
    check_17([&locations, &edges], "1024 2048", "0", "1024");
    check_17([&locations, &edges], "1024 2048", "1", "2048");
}

#[test]
fn refusals() {
    let (locations, edges) = (table(b'L', 3), table(b'E', 4));
    check(&["record"], b"locations\nedges\ncounts 0 0\ntable 0\nnumber 0\n", 1, "refused 17 0\n");
    check_17([&locations, &edges], "3 4", "2", "0");
    check_17([&locations, &edges], "4 4", "0", "0");
    check_17([&locations, &edges], "4 4", "1", "0");
    check_17([&locations, &edges], "3 5", "0", "0");
    check_17([&locations, &edges], "3 5", "1", "0");
    check_17([&locations, &edges], "2 4", "0", "2");
    check_17([&locations, &edges], "3 3", "1", "3");
}

#[test]
fn numbers_below_2_to_the_64() {
    let (locations, edges) = (table(b'L', 3), table(b'E', 4));
    // Times 32 the third is 0 and the fourth 32, if only 64 bits are kept.
    for large in ["18446744073709551615", "4294967296", "576460752303423488", "576460752303423489"] {
        check_17([&locations, &edges], &format!("{large} 4"), "1", "0");
        check_17([&locations, &edges], &format!("3 {large}"), "0", "0");
        check_17([&locations, &edges], "3 4", large, "0");
        check_17([&locations, &edges], "3 4", "0", large);
        check_17([&locations, &edges], "3 4", "1", large);
        check_17([&locations, &edges], &format!("{large} {large}"), large, large);
    }
    let above = "18446744073709551616";
    let wrong = |counts: &str, mark: &str, number: &str, line: usize| {
        let message = format!("line {line}: '{above}' is no number, or too large");
        check_wrong(&["record"], &text([&locations, &edges], counts, mark, number), &message);
    };
    wrong(&format!("{above} 4"), "0", "0", 3);
    wrong(&format!("3 {above}"), "0", "0", 3);
    wrong("3 4", above, "0", 4);
    wrong("3 4", "0", above, 5);
}

#[test]
fn bad_text_is_named_by_its_line() {
    let wrong = |input: &str, message: &str| check_wrong(&["record"], input.as_bytes(), message);
    wrong("locations 0\n", "line 1: '0' is not made of pairs");
    wrong("locations\nedges 0x\n", "line 2: '0x' is not made of pairs");
    wrong("locations 00 00\n", "line 1: 'locations' is followed by at most one word");
    let tables = "locations\nedges\n";
    for counts in ["", " 1", " 1 2 3"] {
        wrong(&format!("{tables}counts{counts}\n"), "line 3: 'counts' is followed by exactly two words");
    }
    wrong(&format!("{tables}counts 1 -2\n"), "line 3: '-2' is no number");
    wrong(&format!("{tables}counts +1 2\n"), "line 3: '+1' is no number");
    wrong(&format!("{tables}counts 0 0\ntable\n"), "line 4: 'table' is followed by exactly one word");
    wrong(&format!("{tables}counts 0 0\ntable edges\n"), "line 4: 'edges' is no number");
    wrong(&format!("{tables}counts 0 0\ntable 0\nnumber 0 0\n"), "line 5: 'number' is followed by exactly one word");
    wrong("pick 0\n", "line 1: 'pick' is none of: locations, edges, counts, table, number");
    wrong("edges\n\nedges\n", "line 3: 'edges' stands in line 1");
}

#[test]
fn no_line_may_be_left_out() {
    let lines = ["locations", "edges", "counts 0 0", "table 0", "number 0"];
    for missing in lines {
        let others: Vec<&str> = lines.into_iter().filter(|&line| line != missing).collect();
        let name = missing.split(' ').next().unwrap_or_default();
        check_wrong(&["record"], others.join("\n").as_bytes(), &format!("no line '{name}'"));
    }
}

#[test]
fn the_lines_of_translate_come_back() {
    let p1 = input(&[s(7, 0, 0, 1, 0), stop(), h(pointers(&[0]), &[NULL])]);
    let listing = run(&["translate"], &p1).output;
    let lines: Vec<&str> = listing.lines().collect();
    let (locations, edges) = lines.split_at(3);
    for (mark, records) in [locations, edges].into_iter().enumerate() {
        for (number, record) in records.iter().enumerate() {
            let (locations, edges) = (locations.concat(), edges.concat());
            let input = format!("locations {locations}\nedges {edges}\ncounts 3 2\ntable {mark}\nnumber {number}\n");
            check(&["record"], input.as_bytes(), 0, &format!("part {} 32\nrecord {record}\n", 32 * number));
        }
    }
}
