//! The program: commands, text, exit status, and how it reads.

mod common;

use common::program::*;
use common::*;

fn p1() -> Vec<u8> {
    input(&[s(7, 0, 0, 1, 0), stop(), h(pointers(&[0]), &[NULL])])
}

fn p1_output() -> String {
    let zeros = |count| "0".repeat(count);
    [
        format!("4c00000100fefefefefefe{}\n", zeros(42)),
        format!("4c010000fffefefefefe{}\n", zeros(44)),
        format!("4c000300{}\n", zeros(56)),
        format!("4500000001000100{}\n", zeros(48)),
        format!("4500000002000200{}\n", zeros(48)),
    ]
    .concat()
}

#[test]
fn translate_prints_the_tables() {
    check(&["translate"], &p1(), 0, &p1_output());
}

#[test]
fn translate_reads_one_byte_at_a_time() {
    let ran = run_in_pieces(&["translate"], &p1(), 1);
    assert_eq!((ran.status, ran.output), (0, p1_output()));
    let ran = run_in_pieces(&["translate"], &p1()[..95], 1);
    assert_eq!((ran.status, &ran.output[..]), (1, "refused 1 0\n"));
}

#[test]
fn translate_refuses() {
    check(&["translate"], &[], 1, "refused 1 0\n");
    let twice = [p1(), h(pointers(&[0]), &[NULL]).to_vec()].concat();
    check(&["translate"], &twice, 1, "refused 10 3\n");
}

#[test]
fn translate_reads_at_most_4096_bytes() {
    // 64 statements and 64 shapes fill them: too many shapes, in whole
    // records. What follows would make it another refusal.
    let mut long = input(&[stop(); 64]);
    long.extend(input(&[h(NULLS, &[]); 64]));
    assert_eq!(long.len(), 4096);
    check(&["translate"], &long, 1, "refused 3 0\n");
    long.push(0);
    check(&["translate"], &long, 1, "refused 3 0\n");
    long.resize(200_000, 0);
    check(&["translate"], &long, 1, "refused 3 0\n");
    let ran = run_in_pieces(&["translate"], &long[..4300], 1);
    assert_eq!((ran.status, &ran.output[..]), (1, "refused 3 0\n"));
}

/// 64 times the same op on pointers 0 and 1 in a circle, from so many shapes:
/// two lists that meet, and other pointers null or undefined.
fn circle(op: u8, shapes: u8) -> Vec<u8> {
    let next = |number: u8| (number + 1) % 64;
    let statement = |number| if op == 10 { s(10, 0, 0, next(number), next(number)) } else { s(op, 0, 1, next(number), 0) };
    let other = |number: u8| if number == 0 { NULL } else { UNDEF };
    let shape = |number: u8| h([0, 2, other(number & 1), other(number & 2), NULL, NULL], &[1, NULL, 1]);
    let records: Vec<Record> = (0..64).map(statement).chain((0..shapes).map(shape)).collect();
    input(&records)
}

#[test]
fn translate_with_the_tables_of_the_bench() {
    let bench = ["translate", "--bench"];
    check(&bench, &p1(), 0, &p1_output());
    // 128 locations and 256 edges fill the tables.
    let full = run(&["translate"], &circle(10, 2));
    assert_eq!((full.status, full.output.lines().count()), (0, 128 + 256));
    check(&bench, &circle(10, 2), 0, &full.output);
    // Of three shapes, each location leads to the third after it.
    let full = run(&["translate"], &circle(10, 3));
    assert_eq!((full.status, full.output.lines().count()), (0, 192 + 384));
    check(&bench, &circle(10, 3), 1, "refused 11 125\n");
    // Relinks have three edges. The 86th location that is no fault is the
    // second one of statement 21, after 4 and 20 times 5 and a fault.
    let full = run(&["translate"], &circle(12, 4));
    assert_eq!((full.status, full.output.lines().count()), (0, 320 + 768));
    check(&bench, &circle(12, 4), 1, "refused 12 106\n");
}

#[test]
fn a_failed_check_prints_the_same_for_the_bench() {
    let bench = ["translate", "--bench"];
    check(&bench, &[], 1, "refused 1 0\n");
    let twice = [p1(), h(pointers(&[0]), &[NULL]).to_vec()].concat();
    check(&bench, &twice, 1, "refused 10 3\n");
    // Read at most 4,096 bytes, too: 64 statements and 64 shapes.
    let long = [input(&[stop(); 64]), input(&[h(NULLS, &[]); 64]), vec![0]].concat();
    check(&bench, &long, 1, "refused 3 0\n");
}

#[test]
fn fold_and_unfold() {
    let heap = b"# a heap\npointers 2 null null null undef null\n\ncells null unused 0\n";
    let record = hex(&h([0, NULL, NULL, NULL, UNDEF, NULL], &[NULL]));
    let folded = format!("record {record}\ncounters 2 0 0 0 0 0 0 0 0 0 0 0\n");
    check(&["fold"], heap, 0, &folded);
    let unfolded = "pointers 0 null null null undef null\ncells 1 null unused\n";
    check(&["unfold"], (folded.clone() + "length 3\n").as_bytes(), 0, unfolded);
    let lent = "pointers 9 9 9 9 9 9\ncells 7 undef null # any\n";
    check(&["unfold"], (folded.clone() + lent).as_bytes(), 0, unfolded);
    let ran = run_in_pieces(&["fold"], heap, 1);
    assert_eq!((ran.status, ran.output), (0, folded));
}

#[test]
fn fold_refuses() {
    check(&["fold"], b"pointers\ncells\n", 1, "refused 13 0\n");
    let lost = b"pointers null null null null null null\r\ncells 0\r\n";
    check(&["fold"], lost, 1, "refused 14 0\n");
}

/// Wants this refusal at place 0, or node 0, of an unfolding with these counters.
#[track_caller]
fn check_unfold(record: &[u8], counters: &[u32], length: usize, number: u8) {
    let words: String = counters.iter().map(|word| format!(" {word}")).collect();
    let record = hex(record);
    let text = format!("record {record}\ncounters{words}\nlength {length}\n");
    let node = if number == 9 { " 0" } else { "" };
    let due = format!("refused {number} 0{node}\n");
    check(&["unfold"], text.as_bytes(), 1, &due);
}

#[test]
fn unfold_refuses() {
    let one = h(pointers(&[0]), &[NULL]);
    let mut counters = [0; 12];
    counters[0] = 2;
    check_unfold(&one, &counters, 1, 15);
    check_unfold(&h(NULLS, &[NULL]), &counters, 2, 9);
    check_unfold(&one[..31], &counters, 2, 8);
    check_unfold(&one, &counters, 241, 13);
}

#[test]
fn unfold_takes_any_number_of_counters() {
    let one = h(pointers(&[0]), &[NULL]);
    let mut longer = [0; 13];
    longer[0] = 1;
    // None is filled up with zeros, and none is cut.
    let lists: [&[u32]; 6] = [&[], &[1], &longer[..11], &longer, &[0; 100], &[u32::MAX; 300]];
    for counters in lists {
        check_unfold(&one, counters, 1, 15);
        check_unfold(&h(NULLS, &[]), counters, 0, 15);
        check_unfold(&h(NULLS, &[NULL]), counters, 1, 9);
        check_unfold(&l(0, pointers(&[0]), &[NULL]), counters, 1, 8);
        check_unfold(&[0x48], counters, 1, 8);
        check_unfold(&one, counters, 241, 13);
        check_unfold(&[0x48], counters, 241, 13);
    }
}

#[test]
fn step_in_text() {
    let with = |statement: Record, rest: &str| {
        let heap = "pointers 0 null null null undef null\ncells 1 null unused\n";
        format!("{heap}statement {}\n{rest}", hex(&statement)).into_bytes()
    };
    let stays = "pointers 0 null null null undef null\ncells 1 null unused\n";
    let new = with(s(6, 1, 0, 7, 0), "cell 2\n");
    let after = "pointers 0 2 null null undef null\ncells 1 null undef\n";
    check(&["step"], &new, 0, &format!("moved 0 7\n{after}"));
    let choose = with(s(10, 0, 0, 7, 9), "pick 1\n");
    check(&["step"], &choose, 0, &format!("moved 1 9\n{stays}"));
    check(&["step"], &with(stop(), ""), 0, &format!("stop\n{stays}"));
    let leak = with(s(1, 0, 0, 0, 0), "");
    check(&["step"], &leak, 0, &format!("fault 3\n{stays}"));
    for test in [s(8, 4, 0, 7, 9), s(9, 4, 4, 7, 9), s(9, 0, 4, 7, 9), s(9, 4, 1, 7, 9)] {
        check(&["step"], &with(test, ""), 0, &format!("fault 2\n{stays}"));
    }
    for (relink, fault) in [(s(12, 0, 1, 7, 0), 1), (s(12, 0, 4, 7, 0), 2), (s(12, 4, 1, 7, 0), 1), (s(12, 1, 4, 7, 0), 2)] {
        check(&["step"], &with(relink, ""), 0, &format!("fault {fault}\n{stays}"));
    }
    check(&["step"], &with(s(12, 0, 0, 7, 0), ""), 0, &format!("moved 0 7\n{stays}"));
    let null = |pointers: &str, cells: &str| format!("moved 0 7\npointers {pointers}\ncells {cells}\n");
    let dropped = [
        (0, null("null null null null undef null", "unused unused unused")),
        (1, null("0 null null null undef null", "1 null unused")),
        (4, null("0 null null null null null", "1 null unused")),
    ];
    for (u, text) in dropped {
        check(&["step"], &with(s(13, u, 0, 7, 0), "pick 9\ncell 9\n"), 0, &text);
    }
    let test = with(s(9, 0, 1, 7, 9), "");
    check(&["step"], &test, 0, &format!("moved 1 9\n{stays}"));
}

#[test]
fn step_refuses() {
    let refused = |pointers: &str, statement: Record, number: u8| {
        let statement = hex(&statement);
        let text = format!("pointers {pointers}\ncells null null unused\nstatement {statement}\n");
        let text = text + "pick 2\ncell 3\n";
        let due = format!("refused {number} 0\n");
        check(&["step"], text.as_bytes(), 1, &due);
    };
    refused("0 1", s(14, 9, 9, 99, 99), 13);
    refused("0 2 null null null 1", [0; 32], 13);
    refused("0 null null null null null", [0; 32], 14);
    let sound = "null null null null 1 0";
    refused(sound, [0; 32], 4);
    refused(sound, s(14, 9, 9, 99, 99), 5);
    refused(sound, s(13, 0, 1, 99, 0), 6);
    refused(sound, s(13, 5, 0, 64, 0), 7);
    refused(sound, s(12, 9, 9, 99, 99), 6);
    refused(sound, s(12, 5, 5, 99, 0), 7);
    refused(sound, s(10, 0, 1, 99, 99), 6);
    refused(sound, s(10, 0, 0, 63, 99), 7);
    refused(sound, s(10, 0, 0, 63, 63), 16);
    refused(sound, s(6, 0, 0, 63, 0), 16);
}

#[test]
fn bad_text_is_named_by_its_line() {
    check_wrong(&["fold"], b"pointers 0\n\ncells x\n", "line 3: 'x'");
    check_wrong(&["fold"], b"pointers 253\ncells\n", "line 1: '253'");
    check_wrong(&["fold"], b"pointers 0\n", "no line 'cells'");
    check_wrong(&["fold"], b"cells\nrecord 00\n", "line 2: 'record'");
    check_wrong(&["fold"], b"cells\ncells\n", "line 2: 'cells' stands in line 1");
    check_wrong(&["fold"], b"cells\n\xff\n", "line 2: not plain text");
    check_wrong(&["unfold"], b"record 0\n", "line 1: '0' is not made of pairs");
    check_wrong(&["unfold"], b"record zz\n", "line 1: 'zz'");
    let both = b"record 00\ncounters\nlength 1\ncells\n";
    check_wrong(&["unfold"], both, "'length' stands beside");
    let counter = b"record 00\ncounters 0 4294967296\nlength 0\n";
    check_wrong(&["unfold"], counter, "line 2: '4294967296'");
    let large = b"record 00\ncounters\nlength 65537\n";
    check_wrong(&["unfold"], large, "line 3: 65537");
    let pick = b"pointers\ncells\nstatement 00\npick -1\n";
    check_wrong(&["step"], pick, "line 4: '-1'");
}

#[test]
fn wrong_usage() {
    check_wrong(&[], b"", "no command");
    check_wrong(&["fly"], b"", "no command 'fly'");
    check_wrong(&["help", "fly"], b"", "no command 'fly'");
    check_wrong(&["translate", "x"], b"", "'x' is not expected");
    check_wrong(&["translate", "--bench", "x"], b"", "'x' is not expected; see 'reference translate --help'");
    check_wrong(&["translate", "x", "--bench"], b"", "'x' is not expected");
    check_wrong(&["translate", "--bench", "--bench"], b"", "'--bench' is not expected");
    check_wrong(&["fold", "--bench"], b"", "'--bench' is not expected");
    check_wrong(&["fold", "x"], b"", "reference fold --help");
    check_wrong(&["record", "x"], b"", "reference record --help");
    check_wrong(&["selftest", "--seed"], b"", "--seed asks for a number");
    check_wrong(&["selftest", "--seed", "x"], b"", "--seed asks for a number");
    check_wrong(&["selftest", "--speed", "1"], b"", "no option '--speed'");
}

#[test]
fn help_tells_of_every_command() {
    let general = run(&["--help"], b"");
    assert_eq!(general.status, 0);
    for command in ["translate", "fold", "unfold", "step", "record", "walk", "ranges", "search", "selftest"] {
        assert!(general.output.contains(&format!("  {command} ")));
        let own = run(&[command, "--help"], b"");
        assert_eq!(own.status, 0);
        assert!(own.output.contains(&format!("usage: reference {command}")));
        check(&["help", command], b"", 0, &own.output);
        assert!(own.output.lines().all(|line| line.len() <= 80));
    }
    assert!(run(&["help", "translate"], b"").output.contains("reference translate [--bench]"));
    check(&["help"], b"", 0, &general.output);
}

#[test]
fn selftest_from_the_command_line() {
    let ran = run(&["selftest", "--seed", "5", "--routines", "300"], b"");
    assert_eq!(ran.status, 0, "{}", ran.output);
    assert!(ran.output.starts_with("routines: 300\n"));
    assert!(ran.output.ends_with("all agree\n"));
    let few = run(&["selftest", "--routines", "1"], b"");
    assert_eq!(few.status, 1);
    assert!(few.output.contains("never met"));
}
