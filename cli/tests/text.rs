//! The text form: its errors to the letter, its page's examples, and that texts and records come back.

mod common;

use common::{example, root, text, tool, Draw};
use tool::record::Routine;
use tool::text::{assemble, disassemble};

/// The words of the language.
const WORDS: [&str; 13] =
    ["choose", "drop", "else", "free", "goto", "new", "next", "null", "shape", "skip", "stop", "test", "undefined"];

/// The first line of what is said of a wrong text.
fn message(body: &str) -> String {
    let error = assemble(body).expect_err(body);
    error.show("f", body).lines().next().unwrap().to_string()
}

#[test]
fn errors_in_statements() {
    let cases = [
        ("stp\nshape\n", "f:1:1: found `stp`, expected a statement, a label with `:`, or `shape`"),
        ("", "f:1:1: found the end of the text, expected a statement"),
        ("# nothing\n\n", "f:2:1: found the end of the text, expected a statement"),
        ("shape\n", "f:1:1: found `shape`, expected a statement"),
        ("stop\n", "f:1:5: found the end of the text, expected `shape`"),
        ("a: b:\nshape\n", "f:2:1: found `shape`, expected a statement for the label before it"),
        ("stop p0\nshape\n", "f:1:6: found `p0`, expected the end of the line, since `stop` goes nowhere"),
        ("  p6 := null\nshape\n", "f:1:3: found `p6`, expected a statement, a label with `:`, or `shape`"),
        ("p0 = null\nshape\n", "f:1:4: found `=`, expected `:=` or `.next`"),
        ("p0 := 0\nshape\n", "f:1:7: found `0`, expected `null`, `new` or a pointer, p0 to p5"),
        ("p0 := p1.nxt\nshape\n", "f:1:10: found `nxt`, expected `next`"),
        ("p0.next = p1\nshape\n", "f:1:9: found `=`, expected `:=`"),
        ("p0.next := new\nshape\n", "f:1:12: found `new`, expected `null` or a pointer, p0 to p5"),
        ("p0 := p1 p2\nshape\n", "f:1:10: found `p2`, expected `.next`, `goto` or the end of the line"),
        ("free null\nshape\n", "f:1:6: found `null`, expected a pointer, p0 to p5"),
        ("free # it\nshape\n", "f:1:5: found the end of the line, expected a pointer, p0 to p5"),
        ("test p0 := null\nshape\n", "f:1:9: found `:=`, expected `=`"),
        ("test p0 = new\nshape\n", "f:1:11: found `new`, expected `null` or a pointer, p0 to p5"),
        ("a: skip else a\nshape\n", "f:1:9: found `else`, expected `goto` or the end of the line"),
        ("a: choose else a goto a\nshape\n", "f:1:18: found `goto`, expected the end of the line"),
        ("a: choose goto a a\nshape\n", "f:1:18: found `a`, expected `else` or the end of the line"),
        ("skip goto p0\nshape\n", "f:1:11: found `p0`, expected a label, which is no word of the language and no pointer"),
        ("a: skip goto b\nshape\n", "f:1:14: found `b`, expected a label of a statement: `a`"),
        ("skip goto b\nshape\n", "f:1:11: found `b`, expected a label of a statement (there is none)"),
        ("a: skip\na: stop\nshape\n", "f:2:1: found `a` again, expected a new label (line 1 has this one)"),
        ("skip # last\nshape\n", "f:1:5: found the end of the line, expected `goto` and a label, since no statement follows"),
        (
            "a: choose goto a\nshape\n",
            "f:1:17: found the end of the line, expected `else` and a label, since no statement follows",
        ),
        ("p0 := null; stop\nshape\n", "f:1:11: found `;`, expected `goto` or the end of the line"),
        (
            "next: skip goto next\nshape\n",
            "f:1:1: found `next`, expected a label, which is no word of the language and no pointer",
        ),
        ("p0 : = null\nshape\n", "f:1:4: found `:`, expected `:=` or `.next`"),
        ("skip goto\nshape\n", "f:1:10: found the end of the line, expected a label"),
        ("größe: stop\nshape\n", "f:1:1: found `größe`, expected a label, which is no word of the language and no pointer"),
    ];
    for (body, expected) in cases {
        assert_eq!(message(body), expected, "{body}");
    }
}

#[test]
fn errors_in_relinks() {
    let once = "found `.`, expected at most one `.next` on a side of `:=`";
    let cases = [
        ("p0.next := p1.next.next\nshape\n", format!("f:1:19: {once}")),
        ("p0.next.next := p1.next\nshape\n", format!("f:1:8: {once}")),
        ("p0.next.next := p1\nshape\n", format!("f:1:8: {once}")),
        ("p0 := p1.next.next\nshape\n", format!("f:1:14: {once}")),
        ("p0.next := p1 p2\nshape\n", "f:1:15: found `p2`, expected `.next`, `goto` or the end of the line".into()),
        ("p0.next := p1.nxt\nshape\n", "f:1:15: found `nxt`, expected `next`".into()),
        ("p0.next := p1.\nshape\n", "f:1:15: found the end of the line, expected `next`".into()),
        ("p0.next := p6.next\nshape\n", "f:1:12: found `p6`, expected `null` or a pointer, p0 to p5".into()),
        ("p0.next := next\nshape\n", "f:1:12: found `next`, expected `null` or a pointer, p0 to p5".into()),
        ("p0.next := null.next\nshape\n", "f:1:16: found `.`, expected `goto` or the end of the line".into()),
        ("p0.next = p1.next\nshape\n", "f:1:9: found `=`, expected `:=`".into()),
        ("p0.next := p1.next p2\nshape\n", "f:1:20: found `p2`, expected `goto` or the end of the line".into()),
        ("a: p0.next := p1.next else a\nshape\n", "f:1:23: found `else`, expected `goto` or the end of the line".into()),
        (
            "p0.next := p1.next # last\nshape\n",
            "f:1:19: found the end of the line, expected `goto` and a label, since no statement follows".into(),
        ),
    ];
    for (body, expected) in cases {
        assert_eq!(message(body), expected, "{body}");
    }
}

#[test]
fn errors_in_drops() {
    let alone = "`goto` or the end of the line, since `drop` takes a pointer alone";
    let cases = [
        ("drop\nshape\n", "f:1:5: found the end of the line, expected a pointer, p0 to p5".to_string()),
        ("drop # it\nshape\n", "f:1:5: found the end of the line, expected a pointer, p0 to p5".into()),
        ("drop null\nshape\n", "f:1:6: found `null`, expected a pointer, p0 to p5".into()),
        ("drop list\nshape\n", "f:1:6: found `list`, expected a pointer, p0 to p5".into()),
        ("drop p6\nshape\n", "f:1:6: found `p6`, expected a pointer, p0 to p5".into()),
        ("a: drop goto a\nshape\n", "f:1:9: found `goto`, expected a pointer, p0 to p5".into()),
        ("drop p0.next\nshape\n", format!("f:1:8: found `.`, expected {alone}")),
        ("a: drop p0 . next goto a\nshape\n", format!("f:1:12: found `.`, expected {alone}")),
        ("free p0.next\nshape\n", format!("f:1:8: found `.`, expected {}", alone.replace("drop", "free"))),
        ("drop p0, p1\nshape\n", "f:1:8: found `,`, expected `goto` or the end of the line".into()),
        ("drop p0 p1\nshape\n", "f:1:9: found `p1`, expected `goto` or the end of the line".into()),
        ("drop p0 := null\nshape\n", "f:1:9: found `:=`, expected `goto` or the end of the line".into()),
        ("a: drop p0 else a\nshape\n", "f:1:12: found `else`, expected `goto` or the end of the line".into()),
        ("a: drop p0 goto a a\nshape\n", "f:1:19: found `a`, expected the end of the line".into()),
        ("p0 := drop\nshape\n", "f:1:7: found `drop`, expected `null`, `new` or a pointer, p0 to p5".into()),
        ("Drop p0\nshape\n", "f:1:1: found `Drop`, expected a statement, a label with `:`, or `shape`".into()),
        (
            "drop p0 # last\nshape\n",
            "f:1:8: found the end of the line, expected `goto` and a label, since no statement follows".into(),
        ),
        (
            "drop: skip goto drop\nshape\n",
            "f:1:1: found `drop`, expected a label, which is no word of the language and no pointer".into(),
        ),
        ("stop\nshape\np0 -> drop\n", "f:3:7: found `drop`, expected a node, `null` or `undefined`".into()),
    ];
    for (body, expected) in cases {
        assert_eq!(message(body), expected, "{body}");
    }
}

#[test]
fn errors_in_shapes() {
    let cases = [
        ("p0\n", "f:3:3: found the end of the line, expected `->` or `,`"),
        ("p0 -> p1\n", "f:3:7: found `p1`, expected a node, `null` or `undefined`"),
        ("p0 -> null -> a\n", "f:3:12: found `->`, expected the end of the line"),
        ("p0 -> a b\n", "f:3:9: found `b`, expected `->` or the end of the line"),
        ("p0, -> a\n", "f:3:5: found `->`, expected a pointer or a node"),
        ("p0 -> next\n", "f:3:7: found `next`, expected a node, `null` or `undefined`"),
        (
            "p0 -> a\np1, p0 -> a\n",
            "f:4:5: found `p0` again, expected each pointer once in a shape (it stands on line 3 already)",
        ),
        ("p0 -> a -> b\nshape\np0 -> a -> null\na -> b\n", "f:6:6: found `b`, expected `null`, which follows `a` on line 5"),
        ("p0 -> a -> b -> c\np1 -> b -> a\n", "f:4:12: found `a`, expected `c`, which follows `b` on line 3"),
        ("stop\n", "f:3:1: found `stop`, expected a pointer, a node or `shape`"),
        ("p0 := null\n", "f:3:4: found `:=`, expected `->` or `,`"),
        ("null -> p0\n", "f:3:1: found `null`, expected a pointer, a node or `shape`"),
    ];
    for (chains, expected) in cases {
        assert_eq!(message(&format!("stop\nshape\n{chains}")), expected, "{chains}");
    }
    assert_eq!(message("stop\nshape p0\n"), "f:2:7: found `p0`, expected the end of the line");
    let thirteen: Vec<String> = (0..13).map(|n| format!("n{n}")).collect();
    let chain = format!("stop\nshape\np0 -> {}\n", thirteen.join(" -> "));
    assert_eq!(message(&chain), "f:3:81: found `n12`, which would be the 13th node of the shape, expected at most 12 nodes");
}

#[test]
fn too_many_statements() {
    let body = "skip\n".repeat(255) + "stop\nshape\n";
    assert_eq!(message(&body), "f:256:1: found statement 255, counted from 0, expected at most 255 statements");
    let body = "skip\n".repeat(254) + "stop\nshape\n";
    assert_eq!(assemble(&body).unwrap().records.len(), 256 * 32);
}

#[test]
fn the_caret_stands_under_the_place() {
    let body = "a:\tskip\n\tp0 :- p1\nshape\n";
    let shown = assemble(body).unwrap_err().show("f", body);
    assert_eq!(shown, "f:2:5: found `:`, expected `:=` or `.next`\n 2 | \tp0 :- p1\n   | \t   ^\n");
}

#[test]
fn line_ends_marks_and_spaces_do_not_matter() {
    let plain = assemble("a: skip goto a\nshape\np0 -> x\n").unwrap().records;
    for same in [
        "\u{feff}a:skip goto a\r\nshape\r\np0->x\r\n",
        "a:\n\n  skip  goto a # x\n\tshape#\n\n p0 ->x",
        "b: a: skip goto b\nshape\np0 -> x -> null\np1, p2 -> null",
    ] {
        assert_eq!(assemble(same).unwrap().records, plain, "{same}");
    }
}

#[test]
fn nodes_are_numbered_at_first_visit() {
    let body = "stop\nshape\nz -> y -> undefined\np3 -> w -> y\np1 -> z\np0, p2 -> w\n";
    let made = assemble(body).unwrap();
    let names: Vec<&str> = made.nodes[0].iter().map(|node| node.name.as_str()).collect();
    let spots: Vec<_> = made.nodes[0].iter().map(|node| (node.spot.line, node.spot.column)).collect();
    assert_eq!((made.nodes.len(), names, spots), (1, vec!["w", "y", "z"], vec![(4, 7), (3, 6), (3, 1)]));
    assert_eq!(made.records[32..54], [0x48, 0, 0, 3, 0, 2, 0, 0, 0xfe, 0xfe, 1, 0xff, 1, 0, 0, 0, 0, 0, 0, 0, 0, 0]);
}

/// The blocks of code of a kind in docs/TEXT.md.
fn blocks(kind: &str) -> Vec<String> {
    let page = std::fs::read_to_string(root().join("docs/TEXT.md")).unwrap();
    let parts = page.split("\n```").collect::<Vec<_>>();
    parts.iter().filter_map(|p| p.strip_prefix(&format!("{kind}\n"))).map(|p| p.to_string() + "\n").collect()
}

#[test]
fn the_page_says_what_is_so() {
    let texts = blocks("text");
    assert_eq!(texts.len(), 3);
    for body in &texts {
        let made = assemble(body).unwrap_or_else(|e| panic!("{}", e.show("docs/TEXT.md", body)));
        tool::automaton::check(&made.records).unwrap_or_else(|r| panic!("{r:?} in\n{body}"));
    }
    let console = blocks("console");
    assert_eq!(console.len(), 2);
    for (shown, status) in console.iter().zip([2, 1]) {
        let (asked, answer) = shown.split_once('\n').unwrap();
        let body = asked.strip_prefix("$ printf '").and_then(|a| a.strip_suffix("' | currantplane assemble -")).unwrap();
        let done = tool(&["assemble", "-"], body.replace("\\n", "\n").as_bytes());
        assert_eq!((done.status.code(), text(&done.stderr)), (Some(status), answer.to_string()));
    }
    let grammar = blocks("ebnf").concat();
    for word in WORDS {
        assert!(grammar.contains(&format!("\"{word}\"")), "{word} is not in the grammar");
        let label = format!("{word}: stop\nshape\n");
        assert!(message(&label).ends_with(", which is no word of the language and no pointer"), "{word} is a label");
    }
}

#[test]
fn records_come_back() {
    let mut d = Draw::new(1);
    for round in 0..24_000 {
        let records = d.routine(if round % 8 == 0 { 64 } else { 9 });
        let body = disassemble(&Routine::read(&records));
        let made = assemble(&body).unwrap_or_else(|e| panic!("{}", e.show("text", &body)));
        assert_eq!(made.records, records, "{body}");
        assert_eq!(disassemble(&Routine::read(&made.records)), body);
    }
}

#[test]
fn a_relink_both_ways() {
    for (u, w) in (0..6u8).flat_map(|u| (0..6u8).map(move |w| (u, w))) {
        let body = format!("      skip\nL1:   p{u}.next := p{w}.next goto L1\n\nshape\n");
        let made = assemble(&body).unwrap();
        let mut expected = [0; 32];
        expected[..5].copy_from_slice(&[0x53, 12, u, w, 1]);
        assert_eq!(made.records[32..64], expected, "{body}");
        assert_eq!(disassemble(&Routine::read(&made.records)), body);
        for same in ["p{u} . next:=p{w}\t.next", "p{u}.next  :=  p{w}. next"] {
            let spaced = same.replace("{u}", &u.to_string()).replace("{w}", &w.to_string());
            assert_eq!(assemble(&format!("skip\na: {spaced} goto a\nshape\n")).unwrap().records, made.records, "{spaced}");
        }
    }
}

#[test]
fn a_drop_both_ways() {
    for u in 0..6u8 {
        let body = format!("      skip\nL1:   drop p{u} goto L1\n\nshape\n");
        let made = assemble(&body).unwrap();
        let mut expected = [0; 32];
        expected[..5].copy_from_slice(&[0x53, 13, u, 0, 1]);
        assert_eq!(made.records[32..64], expected, "{body}");
        assert_eq!(disassemble(&Routine::read(&made.records)), body);
        for same in ["a:drop\tp{u} goto a # x", "a:\n\n drop  p{u}  goto a"] {
            let spaced = same.replace("{u}", &u.to_string());
            assert_eq!(assemble(&format!("skip\n{spaced}\nshape\n")).unwrap().records, made.records, "{spaced}");
        }
        // without a target it leads to the next statement
        let next = format!("      drop p{u}\n      stop\n\nshape\n");
        let made = assemble(&next).unwrap();
        assert_eq!(made.records[..5], [0x53, 13, u, 0, 1], "{next}");
        assert_eq!(disassemble(&Routine::read(&made.records)), next);
    }
}

#[test]
fn examples_come_back() {
    for name in common::EXAMPLES {
        let made = assemble(&example(name)).unwrap();
        let body = disassemble(&Routine::read(&made.records));
        assert_eq!(assemble(&body).unwrap().records, made.records, "{name}");
    }
    let reverse = std::fs::read(root().join("examples/reverse.records")).unwrap();
    assert_eq!(assemble(&example("reverse")).unwrap().records, reverse);
}

#[test]
fn a_disassembled_text() {
    let made = assemble(&example("insert")).unwrap();
    let expected = "      p2 := new
      test p0 = null goto L13
      choose goto L13
      p1 := p0
L4:   p3 := p1.next
      test p3 = null goto L8
      choose goto L8
      p1 := p3 goto L4
L8:   p2.next := p3
      p1.next := p2
      p1 := null
      p3 := null
      p2 := null goto L16
L13:  p2.next := p0
      p0 := p2
      p2 := null
L16:  stop

shape
      p0 -> a -> null

shape
";
    assert_eq!(disassemble(&Routine::read(&made.records)), expected);
}
