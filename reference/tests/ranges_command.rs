//! The command `ranges`: its text, its refusals and its errors.

mod common;

use common::program::*;
use common::*;

/// Location 0 has two nodes, location 1 one, and location 2 is a fault.
fn tables() -> String {
    let locations = [l(7, pointers(&[0, 1]), &[1, NULL]), l(8, pointers(&[0]), &[NULL]), faulted(7, 3)].concat();
    let edges = [
        e(0, 1, 1, 0, &[0x1003]),
        e(0, 2, 2, 0, &[]),
        from(1, e(0, 0, 0, 0, &[0x2001, 0x2000])),
        from(1, e(0, 0, 2, 0, &[0x0001, 0x2000])),
    ];
    format!("locations {}\nedges {}\n", hex(&locations), hex(&edges.concat()))
}

fn text(counts: &str, start: &str, ranges: &str, path: &str) -> Vec<u8> {
    let tables = tables();
    format!("{tables}counts {counts}\nstart {start}\nranges {ranges}\npath {path}\n").into_bytes()
}

#[track_caller]
fn answers(start: u32, ranges: &str, path: &str, due: &str) {
    check(&["ranges"], &text("3 4", &start.to_string(), ranges, path), 0, due);
}

#[track_caller]
fn refused(input: &[u8], number: u8, place: usize) {
    check(&["ranges"], input, 1, &format!("refused {number} {place}\n"));
}

#[test]
fn answers_are_printed() {
    answers(0, "1 12 5 6", "0", "follows 1\nranges 6 7\n");
    answers(0, "1 12 5 6", "0 3", "follows 0\nranges 5 6 1 1\n");
    answers(0, "1 12 5 6", "1", "follows 2\nranges\n");
    answers(0, "1 12 5 6", "", "follows 0\nranges 1 12 5 6\n");
    answers(0, "1 65535 65535 65535", "0", "follows 1\nranges 65536 65536\n");
    answers(2, "", "", "follows 2\nranges\n");
    answers(2, "0 0 9", "", "follows 2\nranges\n");
    answers(1, "3 4 0 0", "2", "follows 0\nranges 4 5 1 1\n");
    answers(0, "2 12 5 6", "0", "ends 0\n");
    answers(0, "1 1 1 1", "0 3 0 3 0 2 0", "ends 6\n");
}

#[test]
fn refusals_are_printed() {
    let asked = |ranges: &str, path: &str| text("3 4", "0", ranges, path);
    refused(&asked("1 12 5 6", "0 0"), 23, 1);
    refused(&asked("1 12 5 6", "4294967295"), 23, 0);
    refused(&asked("2 2 5 6", "0 3 0 4"), 23, 3);
    refused(&asked("", "0 3 0 4"), 23, 3);
    refused(&asked("", "0"), 22, 0);
    refused(&asked("1 12 5", "0"), 22, 1);
    refused(&asked("1 12 0 5", "0"), 22, 1);
    refused(&asked("1 65536 1 1", "0"), 22, 0);
    refused(&asked("1 1 4294967295 4294967295", ""), 22, 1);
    refused(&asked("12 1 6 5", "0"), 22, 0);
    for counts in ["4 4", "3 5", "18446744073709551615 4", "3 18446744073709551615", "1 4"] {
        refused(&text(counts, "0", "1 12 5 6", "0"), 23, 0);
    }
    for start in ["3", "4294967296", "18446744073709551615"] {
        refused(&text("3 4", start, "1 12 5 6", "0"), 23, 0);
    }
    refused(b"locations\nedges\ncounts 0 0\nstart 0\nranges\npath\n", 23, 0);
}

#[test]
fn long_paths() {
    let path = |length: usize| "0 3 ".repeat(length / 2) + if length % 2 == 1 { "0" } else { "" };
    answers(0, "1 1 1 2", &path(2), "follows 0\nranges 1 2 1 1\n");
    answers(0, "1 1 1 2", &path(4096), "follows 0\nranges 1 1 1 1\n");
    refused(&text("3 4", "0", "1 1 1 2", &path(4097)), 23, 0);
}

#[test]
fn the_lines_in_any_order() {
    let tables = tables();
    let input = format!("# a store\r\npath 00 # one\r\n\r\nranges 01 12 5 06\r\nstart 0\r\ncounts 3 04\r\n{tables}");
    let due = "follows 1\nranges 6 7\n";
    check(&["ranges"], input.as_bytes(), 0, due);
    let ran = run_in_pieces(&["ranges"], input.as_bytes(), 1);
    assert_eq!((ran.status, &ran.output[..]), (0, due));
}

#[test]
fn bad_text_is_named_by_its_line() {
    let wrong = |counts: &str, start: &str, ranges: &str, path: &str, message: &str| {
        check_wrong(&["ranges"], &text(counts, start, ranges, path), message);
    };
    wrong("3", "0", "1 1 1 1", "0", "line 3: 'counts' is followed by exactly two words");
    wrong("3 4", "18446744073709551616", "1 1 1 1", "0", "line 4: '18446744073709551616' is no number, or too large");
    wrong("3 4", "0 0", "1 1 1 1", "0", "line 4: 'start' is followed by exactly one word");
    wrong("3 4", "0", "1 4294967296", "0", "line 5: '4294967296' is no number, or too large");
    wrong("3 4", "0", "1-12", "0", "line 5: '1-12' is no number, or too large");
    wrong("3 4", "0", "1 1 1 1", "-1", "line 6: '-1' is no number");
    wrong("3 4", "0", "1 1 1 1", "4294967296", "line 6: '4294967296' is no number, or too large");
    check_wrong(&["ranges"], b"location 0\n", "line 1: 'location' is none of: locations, edges, counts, start, ranges, path");
    check_wrong(&["ranges", "x"], b"", "'x' is not expected; see 'reference ranges --help'");
}

#[test]
fn no_line_may_be_left_out() {
    let lines = ["locations", "edges", "counts 0 0", "start 0", "ranges", "path"];
    for missing in lines {
        let others: Vec<&str> = lines.into_iter().filter(|&line| line != missing).collect();
        let name = missing.split(' ').next().unwrap_or_default();
        check_wrong(&["ranges"], others.join("\n").as_bytes(), &format!("no line '{name}'"));
    }
}

#[test]
fn the_lines_of_translate_can_be_followed() {
    let p1 = input(&[s(7, 0, 0, 1, 0), stop(), h(pointers(&[0]), &[NULL])]);
    let listing = run(&["translate"], &p1).output;
    let lines: Vec<&str> = listing.lines().collect();
    let (locations, edges) = lines.split_at(3);
    let asked = |ranges: &str, edge: u32| {
        let (locations, edges) = (locations.concat(), edges.concat());
        let input = format!("locations {locations}\nedges {edges}\ncounts 3 2\nstart 0\nranges {ranges}\npath {edge}\n");
        run(&["ranges"], input.as_bytes()).output
    };
    assert_eq!(asked("1 12", 0), "follows 1\nranges\n");
    assert_eq!(asked("1 12", 1), "follows 2\nranges\n");
    assert_eq!(asked("2 12", 0), "ends 0\n");
}
