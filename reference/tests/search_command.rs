//! The command `search`: its text and its errors.

mod common;

use common::program::*;
use common::*;

fn text(table: &[u8], count: &str, record: &[u8]) -> Vec<u8> {
    let [table, record] = [table, record].map(hex);
    format!("locations {table}\ncount {count}\nrecord {record}\n").into_bytes()
}

#[track_caller]
fn check_found(table: &[u8], count: &str, record: &[u8], number: usize) {
    check(&["search"], &text(table, count, record), 0, &format!("found {number}\n"));
}

#[track_caller]
fn check_none(table: &[u8], count: &str, record: &[u8]) {
    check(&["search"], &text(table, count, record), 0, "none\n");
}

#[test]
fn answers_are_printed() {
    let table = [[1; 32], [2; 32], [1; 32], [3; 32]].concat();
    check_found(&table, "4", &[1; 32], 2);
    check_found(&table, "2", &[1; 32], 0);
    check_found(&table, "2", &[2; 32], 1);
    check_none(&table, "1", &[2; 32]);
    check_none(&table, "3", &[3; 32]);
    check_none(&table, "0", &[1; 32]);
    check_none(&table, "4", &[4; 32]);
    check_none(&[], "0", &[0; 32]);
}

#[test]
fn records_of_any_length() {
    let table = [1; 128];
    for length in [0, 1, 31, 33, 64, 128] {
        check_none(&table, "4", &table[..length]);
    }
    check_none(&[], "4", &[]);
    check_none(&table[..31], "4", &table[..31]);
}

#[test]
fn counts_below_2_to_the_64() {
    let table = [1; 130];
    // Times 32 the third is 0 and the fourth 32, if only 64 bits are kept.
    for large in ["5", "4294967296", "576460752303423488", "576460752303423489", "18446744073709551615"] {
        check_found(&table, large, &[1; 32], 3);
        check_none(&table, large, &[2; 32]);
    }
    let above = "18446744073709551616";
    check_wrong(&["search"], &text(&table, above, &[1; 32]), &format!("line 2: '{above}' is no number, or too large"));
}

#[test]
fn a_long_table() {
    let mut table = vec![1; 32 * 1025];
    check_found(&table, "1025", &[1; 32], 1023);
    check_found(&table, "1023", &[1; 32], 1022);
    table[..32 * 1024].fill(2);
    check_none(&table, "1025", &[1; 32]);
}

#[test]
fn the_lines_in_any_order() {
    let digits = "0123456789abcdef".repeat(4);
    let upper = digits.to_uppercase();
    let input = format!("# a search\r\nrecord {digits}\r\n\r\ncount 02 # two\r\nlocations {upper}{upper}ff\r\n");
    check(&["search"], input.as_bytes(), 0, "found 1\n");
    let ran = run_in_pieces(&["search"], input.as_bytes(), 1);
    assert_eq!((ran.status, &ran.output[..]), (0, "found 1\n"));
}

#[test]
fn bad_text_is_named_by_its_line() {
    let wrong = |input: &str, message: &str| check_wrong(&["search"], input.as_bytes(), message);
    wrong("locations 0\n", "line 1: '0' is not made of pairs");
    wrong("locations 00 00\n", "line 1: 'locations' is followed by at most one word");
    wrong("locations\ncount\n", "line 2: 'count' is followed by exactly one word");
    wrong("locations\ncount 1 2\n", "line 2: 'count' is followed by exactly one word");
    wrong("locations\ncount -1\n", "line 2: '-1' is no number");
    wrong("locations\ncount 1\nrecord 0x\n", "line 3: '0x' is not made of pairs");
    wrong("locations\ncount 1\nrecord 00 00\n", "line 3: 'record' is followed by at most one word");
    wrong("edges\n", "line 1: 'edges' is none of: locations, count, record");
    wrong("count 1\n\ncount 1\n", "line 3: 'count' stands in line 1");
    check_wrong(&["search", "x"], b"", "'x' is not expected; see 'reference search --help'");
}

#[test]
fn no_line_may_be_left_out() {
    let lines = ["locations", "count 0", "record"];
    for missing in lines {
        let others: Vec<&str> = lines.into_iter().filter(|&line| line != missing).collect();
        let name = missing.split(' ').next().unwrap_or_default();
        check_wrong(&["search"], others.join("\n").as_bytes(), &format!("no line '{name}'"));
    }
}

#[test]
fn help_tells_of_it() {
    let general = run(&["--help"], b"");
    assert!(general.output.contains("  search "));
    let own = run(&["search", "--help"], b"");
    assert_eq!(own.status, 0);
    assert!(own.output.starts_with("usage: reference search"));
    check(&["help", "search"], b"", 0, &own.output);
    assert!(own.output.lines().all(|line| line.len() <= 80));
}

#[test]
fn the_lines_of_translate_are_found() {
    let p1 = input(&[s(7, 0, 0, 1, 0), stop(), h(pointers(&[0]), &[NULL])]);
    let listing = run(&["translate"], &p1).output;
    let locations: Vec<&str> = listing.lines().take(3).collect();
    for (number, record) in locations.iter().enumerate() {
        for count in 0..5 {
            let input = format!("locations {}\ncount {count}\nrecord {record}\n", locations.concat());
            let due = if number < count { format!("found {number}\n") } else { "none\n".to_string() };
            check(&["search"], input.as_bytes(), 0, &due);
        }
    }
}
