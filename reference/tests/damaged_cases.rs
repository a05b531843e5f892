//! Damaged H records made on purpose: cases of the shared folder, and what the
//! program prints of them, in translate and in unfolding.

mod common;

use common::program::*;
use common::*;

fn case_path(case: &str, ending: &str) -> String {
    format!("{}/../tests/cases/{case}.{ending}", env!("CARGO_MANIFEST_DIR"))
}

/// Two lists, and the same shape with its nodes numbered otherwise.
fn two_lists() -> Record {
    h(pointers(&[0, 1]), &[NULL, UNDEF])
}

fn renumbered() -> Record {
    h(pointers(&[1, 0]), &[UNDEF, NULL])
}

/// Nodes 0 and 6 to 9 lead into the ring of the nodes 1 to 5, and pointer 5 is
/// at node 10. All eleven are core and numbered as they are visited.
fn eleven_nodes(successor_of_10: u8, successor_of_11: u8) -> Record {
    h([0, 6, 7, 8, 9, 10], &[1, 2, 3, 4, 5, 1, 2, 3, 4, 5, successor_of_10, successor_of_11])
}

/// Nodes 0 and 7 to 11 lead into the ring of the nodes 1 to 6, but 10 and 11
/// have changed places.
fn twelve_nodes() -> Record {
    h([0, 7, 8, 9, 11, 10], &[1, 2, 3, 4, 5, 6, 1, 2, 3, 4, 6, 5])
}

/// Nodes 0 and 1 are numbered otherwise, node 2 is not core, and nothing leads
/// to node 3.
fn all_three() -> Record {
    h(pointers(&[1, 0]), &[NULL, 2, NULL, NULL])
}

/// The same, and it breaks the layout.
fn broken() -> Record {
    let mut record = all_three();
    record[31] = 1;
    record
}

/// 64 statements, 15 shapes without nodes, and then this record.
fn last_of_all(record: Record) -> Vec<Record> {
    let mut records = vec![stop(); 64];
    for number in 0..15u8 {
        let held = [0, 1, 2, 3, 4, 5].map(|bit| if number >> bit & 1 == 1 { UNDEF } else { NULL });
        records.push(h(held, &[]));
    }
    records.push(record);
    records
}

/// The cases with their records and with what is printed of them.
fn made() -> Vec<(&'static str, Vec<Record>, &'static str)> {
    let (stop, nulls, first) = (stop(), h(NULLS, &[]), pointers(&[0]));
    let [lists, otherwise] = [two_lists(), renumbered()];
    vec![
        ("303", vec![stop, h(pointers(&[1]), &[NULL, NULL])], "9 1 0"),
        ("304", vec![stop, nulls, eleven_nodes(NULL, 11)], "9 2 11"),
        ("305", vec![stop, h(first, &[NULL, 2, 1])], "9 1 1"),
        ("306", vec![stop, h(pointers(&[1]), &[NULL, 0])], "18 1 0"),
        ("307", vec![s(11, 0, 0, 1, 0), stop, eleven_nodes(11, UNDEF)], "18 2 11"),
        ("308", vec![stop, h(first, &[1, 0])], "18 1 1"),
        ("309", vec![stop, h(pointers(&[1, 0]), &[NULL, NULL])], "19 1 0"),
        ("310", vec![stop, h(pointers(&[0, 1]), &[2, 2, NULL])], "19 1 1"),
        ("311", vec![stop, nulls, lists, twelve_nodes()], "19 3 10"),
        ("312", vec![stop, h(first, &[1, NULL, NULL])], "9 1 2"),
        ("313", vec![stop, h(pointers(&[1, 0]), &[2, NULL, NULL])], "18 1 2"),
        ("314", vec![stop, all_three()], "9 1 3"),
        ("315", vec![stop, broken()], "8 1"),
        // An equal record was refused before it could be repeated. Nor is one
        // equal to another whose nodes have other numbers.
        ("316", vec![stop, otherwise, otherwise], "19 1 0"),
        ("317", vec![stop, lists, otherwise], "19 2 0"),
        ("318", vec![stop, lists, lists, otherwise], "10 2"),
        ("319", vec![stop, lists, otherwise, lists], "19 2 0"),
        ("320", vec![stop, h(first, &[1, NULL]), broken()], "18 1 1"),
        ("321", last_of_all(eleven_nodes(11, UNDEF)), "18 79 11"),
    ]
}

#[test]
fn cases_made_on_purpose() {
    for (case, records, words) in made() {
        let text = format!("refused {words}\n");
        let read = |ending| std::fs::read(case_path(case, ending)).expect("the case");
        assert!(read("in") == input(&records), "{case} is another input");
        assert_eq!(String::from_utf8_lossy(&read("out")), text, "{case}");
        assert!(!std::path::Path::new(&case_path(case, "bench")).exists(), "the bench prints the same of {case}");
        check(&["translate"], &input(&records), 1, &text);
        check(&["translate", "--bench"], &input(&records), 1, &text);
    }
}

/// The shapes of the cases one by one: in unfolding the place is 0, and the
/// node stands after it for 9, 18 and 19 only.
#[test]
fn the_same_records_in_unfolding() {
    let told = |record: Record, counters: &str, length: usize, words: &str| {
        let text = format!("record {}\ncounters {counters}\nlength {length}\n", hex(&record));
        check(&["unfold"], text.as_bytes(), 1, &format!("refused {words}\n"));
    };
    let ones = "1 1 1 1 1 1 1 1 1 1 1 1";
    told(eleven_nodes(NULL, 11), ones, 12, "9 0 11");
    told(eleven_nodes(11, UNDEF), ones, 12, "18 0 11");
    told(twelve_nodes(), ones, 12, "19 0 10");
    told(all_three(), "1 1 1 1 0 0 0 0 0 0 0 0", 4, "9 0 3");
    told(renumbered(), "1 1 0 0 0 0 0 0 0 0 0 0", 2, "19 0 0");
    // The lengths and the layout come before it, the counters after it.
    told(twelve_nodes(), ones, 241, "13 0");
    told(broken(), ones, 240, "8 0");
    told(twelve_nodes(), ones, 11, "19 0 10");
    told(eleven_nodes(11, UNDEF), "0 0", 240, "18 0 11");
    told(two_lists(), ones, 240, "15 0");
}

#[test]
fn help_tells_of_the_node() {
    for command in ["translate", "unfold"] {
        let told = run(&["help", command], b"").output;
        assert!(told.contains("9, 18 and 19") && told.contains("'refused NUMBER PLACE NODE'"), "{told}");
    }
    for command in ["fold", "step", "record"] {
        assert!(!run(&["help", command], b"").output.contains("NODE"));
    }
}
