//! Every refusal in words, with its place.

mod common;

use common::{example, records, text, tool};
use tool::automaton::{Node, Refusal};
use tool::record::{Routine, NULL, SIZE};
use tool::text::assemble;

const SMALL: &str = "p0 := p1.next\nchoose else last\nlast: stop\nshape\np0 -> a -> b\np1 -> b\nshape\n";

/// What is said of these records, which must be refused with this number.
fn said_of(input: &[u8], number: u8) -> String {
    let done = tool(&["translate", "-"], input);
    let said = text(&done.stderr);
    assert_eq!(done.status.code(), Some(1), "{said}");
    assert!(done.stdout.is_empty());
    assert!(said.starts_with(&format!("standard input: refused {number}")), "{number}: {said}");
    assert!(said.contains("\n  meaning: ") && said.contains("\n  change:  "), "{said}");
    assert!(said.lines().all(|l| l.chars().count() <= 100), "{said}");
    // the bench's tables have nothing to do with the checks of the input
    assert_eq!(tool(&["translate", "-", "--bench"], input), done, "{said}");
    said
}

/// SMALL in records with one byte changed.
fn changed(record: usize, byte: usize, to: u8) -> Vec<u8> {
    let mut records = assemble(SMALL).unwrap().records;
    records[SIZE * record + byte] = to;
    records
}

/// The same, where statement 0 is a relink.
fn relinked(byte: usize, to: u8) -> Vec<u8> {
    let mut records = changed(0, 1, 12);
    records[byte] = to;
    records
}

/// The same, where statement 0 is a drop: it has no w.
fn dropped(byte: usize, to: u8) -> Vec<u8> {
    let mut records = changed(0, 1, 13);
    records[3] = 0;
    records[byte] = to;
    records
}

#[test]
fn records_that_are_refused() {
    let whole = assemble(SMALL).unwrap().records;
    let many = |statements: usize, shapes: usize| [whole[..32].repeat(statements), whole[96..128].repeat(shapes)].concat();
    let cases: [(Vec<u8>, u8, &str); 34] = [
        (Vec::new(), 1, "here:    it has 0 bytes"),
        (whole[..95].to_vec(), 1, "here:    it has 95 bytes"),
        (many(65, 1), 2, "here:    there are 65"),
        (many(0, 1), 2, "here:    there are 0"),
        (many(1, 17), 3, "here:    there are 17"),
        (many(2, 0), 3, "here:    there are 0"),
        (changed(1, 0, 0x54), 4, "at record 1\n  record:  540a0000"),
        (changed(1, 0, 0x54), 4, "here:    byte 0 is 0x54"),
        (changed(4, 0, 0x53), 4, "here:    an S record stands after an H record"),
        (changed(1, 1, 14), 5, "at record 1, which is statement 1\n"),
        (changed(1, 1, 14), 5, "here:    the op is 14"),
        (changed(1, 1, 14), 5, "meaning: the op of a statement is above 13\n"),
        (changed(1, 1, 14), 5, "change:  use an op from 0 (stop) to 13 (drop u)\n"),
        (changed(1, 1, 255), 5, "here:    the op is 255"),
        (changed(0, 3, 6), 6, "here:    pointer w (byte 3) is 6"),
        (relinked(3, 6), 6, "here:    pointer w (byte 3) is 6"),
        (changed(1, 1, 12), 6, "here:    op 12 does not use byte 5, and it is 2"),
        (dropped(2, 6), 6, "here:    pointer u (byte 2) is 6"),
        (dropped(3, 1), 6, "here:    op 13 does not use byte 3, and it is 1"),
        (dropped(3, 6), 6, "here:    op 13 does not use byte 3, and it is 6"),
        (changed(1, 1, 13), 6, "here:    op 13 does not use byte 5, and it is 2"),
        (dropped(31, 9), 6, "here:    op 13 does not use byte 31, and it is 9"),
        (dropped(4, 3), 7, "here:    the first target (byte 4) is 3, and the statements are 0 to 2"),
        (dropped(4, 255), 7, "here:    the first target (byte 4) is 255, and the statements are 0 to 2"),
        (changed(2, 4, 1), 6, "here:    op 0 does not use byte 4, and it is 1"),
        (changed(1, 5, 3), 7, "here:    the second target (byte 5) is 3, and the statements are 0 to 2"),
        (changed(3, 1, 1), 8, "at record 3, which is starting shape 0\n"),
        (changed(3, 3, 13), 8, "here:    the node count (byte 3) is 13, and at most 12 is allowed"),
        (changed(3, 9, 2), 8, "here:    byte 9 is 0x02 and must be a node below 2, 0xfe for null or 0xff for undefined"),
        (changed(4, 10, 7), 8, "here:    byte 10 is 0x07 and must be 0"),
        (changed(3, 4, 0xfe), 9, "here:    no pointer reaches node 0"),
        (changed(3, 5, 0xfe), 18, "here:    nothing but node 0 leads to node 1, so the cells of node 1 belong to node 0"),
        (changed(3, 4, 1), 9, "here:    no pointer reaches node 0"),
        ([&whole[..], &whole[96..128]].concat(), 10, "here:    it is equal to starting shape 0 (record 3)"),
    ];
    for (input, number, expected) in cases {
        let said = said_of(&input, number);
        let flat = said.replace("\n           ", " ");
        assert!(flat.contains(expected), "{expected} is not in\n{said}");
    }
}

/// With a byte that is allowed the same records pass, so that it is the other one which is refused.
#[test]
fn a_drop_that_is_not_refused() {
    for input in [dropped(2, 5), dropped(4, 2)] {
        let done = tool(&["translate", "-", "--hex"], &input);
        assert_eq!((done.status.code(), text(&done.stderr)), (Some(0), String::new()), "{}", text(&done.stdout));
    }
}

#[test]
fn another_numbering() {
    let mut records = assemble("stop\nshape\np0 -> a\np1 -> b\n").unwrap().records;
    records.swap(SIZE + 4, SIZE + 5);
    assert!(said_of(&records, 19).contains("here:    the walk gives node 0 the number 1\n"));
}

/// Where nodes are wrong in several ways, 9 is told before 18 and 18 before 19, also at a later node; and the first shape is told.
#[test]
fn shapes_with_several_faults() {
    let (lost, inner, turned): ([u8; 4], [u8; 4], [u8; 2]) = ([2, NULL, NULL, 3], [1, NULL, 3, NULL], [NULL; 2]);
    let cases: [(Vec<u8>, &str); 8] = [
        (records(&[(&[0, 1], &lost)]), "refused 9 1 3\n"),
        (records(&[(&[1, 0], &lost)]), "refused 9 1 3\n"),
        (records(&[(&[2, 0], &inner)]), "refused 18 1 1\n"),
        (records(&[(&[1, 0], &lost[..3])]), "refused 18 1 2\n"),
        (records(&[(&[0, 1], &turned), (&[1, 0], &turned), (&[1], &lost)]), "refused 19 2 0\n"),
        (records(&[(&[1, 0], &turned), (&[1, 0], &turned)]), "refused 19 1 0\n"),
        (records(&[(&[0, 1], &turned), (&[0, 1], &turned), (&[1], &lost)]), "refused 10 2\n"),
        (records(&[(&[0, 5], &lost), (&[1], &lost)]), "refused 8 1\n"),
    ];
    for (input, printed) in cases {
        let done = tool(&["translate", "-", "--hex"], &input);
        assert_eq!((done.status.code(), text(&done.stdout)), (Some(1), printed.into()));
        let said = text(&tool(&["translate", "-"], &input).stderr);
        let (number, _) = printed["refused ".len()..].split_once(' ').unwrap();
        assert!(said.starts_with(&format!("standard input: refused {number} at record ")), "{said}");
        assert_eq!(said.contains("\n  node:    "), matches!(number, "9" | "18" | "19"), "{said}");
    }
}

#[test]
fn the_node_is_printed_for_three_numbers_only() {
    for number in 1..=23 {
        let told = [9, 18, 19].contains(&number);
        let expected = format!("refused {number} 4{}\n", if told { " 2" } else { "" });
        assert_eq!(tool::refusal::line(Refusal { number, place: 4, node: Node(if told { 2 } else { 0 }) }), expected);
    }
    assert_eq!(tool::refusal::line(Refusal { number: 9, place: 0, node: Node(0) }), "refused 9 0 0\n");
}

#[test]
fn texts_that_are_refused() {
    let statements = "skip\n".repeat(64) + "stop\nshape\n";
    let cases = [
        (statements.as_str(), 2, "   65 | stop\n"),
        (
            "stop\nshape\np0 -> a -> b -> null\n",
            18,
            "at record 1, which is starting shape 0\n    2 | shape\n    3 | p0 -> a -> b -> null\n",
        ),
        ("stop\nshape\np0 -> a -> b -> null\n", 18, "nothing but `a` leads to `b`, so the cells of `b` belong to `a`"),
        ("stop\nshape\np0 -> a\nc -> a\n", 9, "no pointer reaches `c`"),
        ("stop\nshape\np0 -> a\nshape # again\np0 -> b\n", 10, "    4 | shape # again\n    5 | p0 -> b\n"),
        ("stop\nshape\np0 -> a\nshape # again\np0 -> b\n", 10, "it is equal to starting shape 0 (record 1, line 2)"),
    ];
    for (body, number, expected) in cases {
        let said = said_of(body.as_bytes(), number);
        assert!(said.contains(expected), "{expected} is not in\n{said}");
    }
    let shapes: String = (0..17u32)
        .map(|n| {
            "shape\n".to_string()
                + &(0..5).filter(|p| n >> p & 1 == 1).map(|p| format!("p{p} -> undefined\n")).collect::<String>()
        })
        .collect();
    let said = said_of(format!("stop\n{shapes}").as_bytes(), 3);
    assert!(said.contains(" | shape\n") && said.contains(" | p4 -> undefined\n") && said.contains("there are 17"), "{said}");
}

/// Neither makes records or a text of what the checks of the input refuse.
#[test]
fn assemble_and_disassemble_refuse() {
    let twice = "stop\nshape\np0 -> a\nshape\np0 -> b\n";
    let inner = "stop\nshape\np0 -> a -> b\n";
    let lost = "stop\nshape\np0 -> a\nb -> a\n";
    for (body, number) in [(twice, 10), (inner, 18), (lost, 9)] {
        let records = assemble(body).unwrap().records;
        for done in [tool(&["assemble", "-"], body.as_bytes()), tool(&["disassemble", "-"], &records)] {
            assert_eq!((done.status.code(), done.stdout.len()), (Some(1), 0));
            assert!(text(&done.stderr).contains(&format!(": refused {number} at record ")), "{}", text(&done.stderr));
        }
    }
}

#[test]
fn tables_that_are_full() {
    let refused = |words: &[&str], expected: &str| {
        let mut all = vec!["translate", "examples/insert.txt"];
        all.extend(words);
        let done = tool(&all, b"");
        let said = text(&done.stderr).replace("\n           ", " ");
        assert_eq!(done.status.code(), Some(1));
        assert!(done.stdout.is_empty() && said.contains(expected), "{expected} is not in\n{said}");
    };
    refused(&["--locations", "1"], "refused 11\n  meaning: the table has no place for a new location");
    refused(&["--locations", "1"], "here:    starting shape 1 finds no place: the table has 1");
    refused(&["--locations=12"], "here:    all 12 places were in use when location ");
    refused(&["--edges", "3"], "refused 12\n  meaning: the table has no place for an edge");
    refused(&["--edges", "3"], "here:    all 3 places were in use when location 3 was explored");
    let done = tool(&["translate", "examples/insert.txt", "--hex", "--edges", "3"], b"");
    assert_eq!((done.status.code(), text(&done.stdout)), (Some(1), "refused 12 3\n".into()));
    let routine = Routine::read(&assemble(&example("insert")).unwrap().records);
    assert_eq!(routine.shapes.len(), 2);
}

#[test]
fn heaps_and_picks_that_are_refused() {
    let run = |words: &[&str], number: u8| {
        let mut all = vec!["run", "examples/insert.txt"];
        all.extend(words);
        let done = tool(&all, b"");
        let said = text(&done.stdout) + &text(&done.stderr);
        assert_eq!(done.status.code(), Some(1), "{said}");
        assert!(said.contains(&format!("examples/insert.txt: refused {number}\n  meaning: ")), "{said}");
    };
    run(&["--heap", "241"], 15);
    run(&["--heap", "0"], 15);
    run(&["--heap", "240"], 16);
    run(&["--heap", "3", "--picks", "2"], 16);
}

#[test]
fn every_number_has_its_own_words() {
    let all: Vec<_> = (1..=23).map(tool::refusal::meaning).collect();
    for (i, words) in all.iter().enumerate() {
        assert!(all[..i].iter().all(|w| w.0 != words.0), "{}", i + 1);
    }
}
