//! The command `walk`: its text, its refusals and its errors.

mod common;

use common::program::*;
use common::*;

const ZEROS: &str = " 0 0 0 0 0 0 0 0 0 0";

/// Location 0 has two nodes, location 1 one, and location 2 is a fault.
fn tables() -> String {
    let locations = [l(7, pointers(&[0, 1]), &[1, NULL]), l(8, pointers(&[0]), &[NULL]), faulted(7, 3)].concat();
    let edges = [
        e(0, 1, 1, 0, &[0x1003]),
        e(0, 2, 2, 0, &[]),
        from(1, e(0, 0, 0, 0, &[0x2001, 0x2000])),
        from(1, e(0, 0, 2, 0, &[0x0001, 0x2000])),
    ];
    format!("locations {}\nedges {}\n", hex(&locations), hex(&edges.concat()))
}

fn text(counts: &str, location: &str, counters: &str, path: &str) -> Vec<u8> {
    let tables = tables();
    format!("{tables}counts {counts}\nlocation {location}\ncounters {counters}\npath {path}\n").into_bytes()
}

#[track_caller]
fn goes(location: u32, counters: &str, path: &str, due: &str) {
    check(&["walk"], &text("3 4", &location.to_string(), &format!("{counters}{ZEROS}"), path), 0, due);
}

#[track_caller]
fn refused(input: &[u8], number: u8, due: &str) {
    check(&["walk"], input, 1, &format!("refused {number} 0\n{due}"));
}

#[test]
fn walks_are_printed() {
    goes(0, "1 5", "0", &format!("made 1\nlocation 1\ncounters 6 0{ZEROS}\n"));
    goes(0, "1 5", "0 2 1", &format!("made 3\nlocation 2\ncounters 0 0{ZEROS}\n"));
    goes(0, "1 5", "0 3", &format!("made 2\nlocation 0\ncounters 5 1{ZEROS}\n"));
    goes(0, "1 5", "", &format!("made 0\nlocation 0\ncounters 1 5{ZEROS}\n"));
    goes(2, "0 0", "", &format!("made 0\nlocation 2\ncounters 0 0{ZEROS}\n"));
    goes(1, "4294967295 0", "3", &format!("made 1\nlocation 0\ncounters 4294967294 1{ZEROS}\n"));
}

#[test]
fn refusals_tell_what_was_reached() {
    let start = |counters: &str, path: &str| text("3 4", "0", &format!("{counters}{ZEROS}"), path);
    refused(&start("2 5", "0 1"), 20, &format!("made 0\nlocation 0\ncounters 2 5{ZEROS}\n"));
    refused(&start("1 5", "0 1"), 20, &format!("made 1\nlocation 1\ncounters 6 0{ZEROS}\n"));
    refused(&start("1 5", "0 4294967295 2"), 20, &format!("made 1\nlocation 1\ncounters 6 0{ZEROS}\n"));
    refused(&start("1 4294967295", "0"), 21, &format!("made 0\nlocation 0\ncounters 1 4294967295{ZEROS}\n"));
    refused(&start("1 4294967294", "0 2"), 21, &format!("made 1\nlocation 1\ncounters 4294967295 0{ZEROS}\n"));
    refused(&start("0 5", ""), 20, &format!("made 0\nlocation 0\ncounters 0 5{ZEROS}\n"));
    for counts in ["4 4", "3 5", "18446744073709551615 4", "1 4"] {
        refused(&text(counts, "0", &format!("1 5{ZEROS}"), ""), 20, &format!("made 0\nlocation 0\ncounters 1 5{ZEROS}\n"));
    }
    for location in ["3", "4294967295"] {
        refused(
            &text("3 4", location, &format!("1 5{ZEROS}"), "0"),
            20,
            &format!("made 0\nlocation {location}\ncounters 1 5{ZEROS}\n"),
        );
    }
    let none = format!("locations\nedges\ncounts 0 0\nlocation 0\ncounters 0 0{ZEROS}\npath\n");
    refused(none.as_bytes(), 20, &format!("made 0\nlocation 0\ncounters 0 0{ZEROS}\n"));
}

#[test]
fn long_paths() {
    let path = |length: usize| "0 3 ".repeat(length / 2) + if length % 2 == 1 { "0" } else { "" };
    let due = format!("made 4096\nlocation 0\ncounters 1 1{ZEROS}\n");
    goes(0, "1 1", &path(4096), &due);
    let start = text("3 4", "0", &format!("1 1{ZEROS}"), &path(4097));
    refused(&start, 20, &format!("made 0\nlocation 0\ncounters 1 1{ZEROS}\n"));
}

#[test]
fn the_lines_in_any_order() {
    let tables = tables();
    let input = format!("# a walk\r\npath 00 # one\r\n\r\ncounters 01 5{ZEROS}\r\nlocation 0\r\ncounts 3 04\r\n{tables}");
    let due = format!("made 1\nlocation 1\ncounters 6 0{ZEROS}\n");
    check(&["walk"], input.as_bytes(), 0, &due);
    let ran = run_in_pieces(&["walk"], input.as_bytes(), 1);
    assert_eq!((ran.status, ran.output), (0, due));
}

#[test]
fn bad_text_is_named_by_its_line() {
    let wrong = |counts: &str, location: &str, counters: &str, path: &str, message: &str| {
        check_wrong(&["walk"], &text(counts, location, counters, path), message);
    };
    let sound = format!("1 5{ZEROS}");
    wrong("3", "0", &sound, "0", "line 3: 'counts' is followed by exactly two words");
    wrong("3 18446744073709551616", "0", &sound, "0", "line 3: '18446744073709551616' is no number");
    wrong("3 4", "4294967296", &sound, "0", "line 4: '4294967296' is no number, or too large");
    wrong("3 4", "0 0", &sound, "0", "line 4: 'location' is followed by exactly one word");
    for counters in ["", "1", &sound[..sound.len() - 2], &format!("{sound} 0")] {
        wrong("3 4", "0", counters, "0", "line 5: 'counters' is followed by exactly twelve words");
    }
    wrong("3 4", "0", &format!("1 4294967296{ZEROS}"), "0", "line 5: '4294967296' is no number, or too large");
    wrong("3 4", "0", &sound, "0 -1", "line 6: '-1' is no number");
    wrong("3 4", "0", &sound, "4294967296", "line 6: '4294967296' is no number, or too large");
    check_wrong(&["walk"], b"table 0\n", "line 1: 'table' is none of: locations, edges, counts, location, counters, path");
    check_wrong(&["walk", "x"], b"", "'x' is not expected; see 'reference walk --help'");
}

#[test]
fn no_line_may_be_left_out() {
    let counters = format!("counters 0 0{ZEROS}");
    let lines = ["locations", "edges", "counts 0 0", "location 0", &counters, "path"];
    for missing in lines {
        let others: Vec<&str> = lines.into_iter().filter(|&line| line != missing).collect();
        let name = missing.split(' ').next().unwrap_or_default();
        check_wrong(&["walk"], others.join("\n").as_bytes(), &format!("no line '{name}'"));
    }
}

#[test]
fn the_lines_of_translate_can_be_walked() {
    let p1 = input(&[s(7, 0, 0, 1, 0), stop(), h(pointers(&[0]), &[NULL])]);
    let listing = run(&["translate"], &p1).output;
    let lines: Vec<&str> = listing.lines().collect();
    let (locations, edges) = lines.split_at(3);
    let walk = |counter: u32, edge: u32| {
        let (locations, edges) = (locations.concat(), edges.concat());
        let input =
            format!("locations {locations}\nedges {edges}\ncounts 3 2\nlocation 0\ncounters {counter} 0{ZEROS}\npath {edge}\n");
        run(&["walk"], input.as_bytes()).output
    };
    assert_eq!(walk(1, 0), format!("made 1\nlocation 1\ncounters 0 0{ZEROS}\n"));
    assert_eq!(walk(2, 1), format!("made 1\nlocation 2\ncounters 0 0{ZEROS}\n"));
    assert_eq!(walk(2, 0), format!("refused 20 0\nmade 0\nlocation 0\ncounters 2 0{ZEROS}\n"));
}
