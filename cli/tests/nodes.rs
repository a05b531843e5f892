//! The refusals that are about a node of a starting shape, 9, 18 and 19: which node, what is wrong with it, what to change.

mod common;

use common::{records, text, tool};
use tool::automaton::{Node, Refusal, ALL_PLACES};
use tool::record::{NULL, UNDEFINED};
use tool::refusal::words;
use tool::source::Source;

/// The meanings, as lines.
const UNREACHED: &str = "  meaning: no pointer reaches a node of a starting shape\n";
const NOT_CORE: &str = "  meaning: a node of a starting shape is not core: no pointer leads to it, and one node alone does\n";
const NUMBERED: &str = "  meaning: the nodes of a starting shape are not numbered at first visit: from pointer 0 along
           successors, then from pointer 1, and so on\n";

/// What is refused: number, place and node; and what is said of it, with the meaning left out.
type Case<'a> = (Vec<u8>, [u8; 3], &'a str);

/// Said of the refusal itself, and by the tool, which has it from the proved library; and the line that the program prints.
fn judge(cases: &[Case]) {
    for (input, [number, place, node], said) in cases {
        let means = [(9, UNREACHED), (18, NOT_CORE), (19, NUMBERED)].into_iter().find(|(n, _)| n == number).unwrap().1;
        let (before, after) = said.split_once("  here:").expect("what is wrong here");
        let record = usize::from(*place);
        let head = format!("standard input: refused {number} at record {place}, which is starting shape {}\n", record - 1);
        let expected = format!("{head}{before}{means}  here:{after}");
        let refusal = Refusal { number: *number, place: record, node: Node(*node) };
        let source = Source::of_bytes("standard input", input.clone()).unwrap();
        assert_eq!(words(refusal, &source, ALL_PLACES), expected);
        let (done, hex) = (tool(&["translate", "-"], input), tool(&["translate", "-", "--hex"], input));
        assert_eq!((done.status.code(), text(&done.stdout), text(&done.stderr)), (Some(1), String::new(), expected));
        assert_eq!((hex.status.code(), text(&hex.stdout)), (Some(1), format!("refused {number} {place} {node}\n")));
    }
}

/// A routine that stops, with these lines as its shapes.
fn stop(shapes: &str) -> Vec<u8> {
    format!("stop\n{shapes}").into_bytes()
}

#[test]
fn no_pointer_reaches_a_node_of_a_text() {
    judge(&[
        (
            stop("shape\nlost -> null\n"),
            [9, 1, 0],
            "    2 | shape
    3 | lost -> null
      | ^
  node:    `lost` on line 3 (node 0 of the record)
  here:    no pointer reaches `lost`: nothing leads to it
  change:  let a pointer lead to `lost`, or two nodes that are reached, or leave `lost` out\n",
        ),
        (
            stop("shape\np0, p1 -> list   # and nothing else\n  lost -> ring -> ring\np2 -> list\n"),
            [9, 1, 1],
            "    2 | shape
    3 | p0, p1 -> list   # and nothing else
    4 |   lost -> ring -> ring
      |   ^
    5 | p2 -> list
  node:    `lost` on line 4 (node 1 of the record)
  here:    no pointer reaches `lost`: nothing leads to it; nor is `ring` reached
  change:  let a pointer lead to `lost`, or two nodes that are reached, or leave `lost` out; then
           look at `ring` likewise\n",
        ),
    ]);
}

#[test]
fn no_pointer_reaches_several_nodes() {
    judge(&[
        // a name that is written in two ways
        (
            stop("shape\nshape\n  p0 -> head -> middle   # of the list\n  p1 -> middle\n\tmidle -> last -> null\n"),
            [9, 2, 2],
            "    3 | shape
    4 |   p0 -> head -> middle   # of the list
    5 |   p1 -> middle
    6 | \tmidle -> last -> null
      | \t^
  node:    `midle` on line 6 (node 2 of the record)
  here:    no pointer reaches `midle`: nothing leads to it; nor is `last` reached
  change:  let a pointer lead to `midle`, or two nodes that are reached, or leave `midle` out; then
           look at `last` likewise\n",
        ),
        (
            stop("shape\np0 -> a\nx -> x\ny, z, v -> x\n"),
            [9, 1, 1],
            "    2 | shape
    3 | p0 -> a
    4 | x -> x
      | ^
    5 | y, z, v -> x
  node:    `x` on line 4 (node 1 of the record)
  here:    no pointer reaches `x`: nothing but `y`, `z`, `v` and itself leads to it; nor are `y`,
           `z` and `v` reached
  change:  let a pointer lead to `x`, or two nodes that are reached, or leave `x` out; then look at
           `y`, `z` and `v` likewise\n",
        ),
    ]);
}

#[test]
fn a_node_of_a_text_is_not_core() {
    judge(&[
        (
            stop("shape\np0 -> head -> tail -> null\n"),
            [18, 1, 1],
            "    2 | shape
    3 | p0 -> head -> tail -> null
      |               ^
  node:    `tail` on line 3 (node 1 of the record)
  here:    nothing but `head` leads to `tail`, so the cells of `tail` belong to `head`
  change:  leave `tail` out and let `head` lead to null: a node stands for a row of cells, of any
           length\n",
        ),
        (
            stop("shape\np0 -> left -> join\np1 -> right -> join\nend -> undefined\njoin -> end\n"),
            [18, 1, 2],
            "    2 | shape
    3 | p0 -> left -> join
    4 | p1 -> right -> join
    5 | end -> undefined
      | ^
    6 | join -> end
  node:    `end` on line 5 (node 2 of the record)
  here:    nothing but `join` leads to `end`, so the cells of `end` belong to `join`
  change:  leave `end` out and let `join` lead to undefined: a node stands for a row of cells, of
           any length\n",
        ),
    ]);
}

#[test]
fn not_core_among_other_nodes() {
    judge(&[
        (
            stop("shape\np0 -> a -> b -> c -> d -> e -> c\n"),
            [18, 1, 1],
            "    2 | shape
    3 | p0 -> a -> b -> c -> d -> e -> c
      |            ^
  node:    `b` on line 3 (node 1 of the record)
  here:    nothing but `a` leads to `b`, so the cells of `b` belong to `a`; nor are `d` and `e`
           nodes of their own
  change:  leave `b` out and let `a` lead to `c`: a node stands for a row of cells, of any length;
           then look at `d` and `e` likewise\n",
        ),
        (
            stop("shape\np0 -> a -> b -> a\n"),
            [18, 1, 1],
            "    2 | shape
    3 | p0 -> a -> b -> a
      |            ^
  node:    `b` on line 3 (node 1 of the record)
  here:    nothing but `a` leads to `b`, so the cells of `b` belong to `a`
  change:  leave `b` out and let `a` lead to itself: a node stands for a row of cells, of any length\n",
        ),
    ]);
}

#[test]
fn no_pointer_reaches_a_node_of_a_record() {
    judge(&[
        (
            records(&[(&[1], &[1, NULL])]),
            [9, 1, 0],
            "  record:  4800000201fefefefefe01fe0000000000000000000000000000000000000000
  node:    0 (its successor is byte 10)
  here:    no pointer reaches node 0: nothing leads to it
  change:  let a pointer lead to node 0, or two nodes that are reached, or leave node 0 out\n",
        ),
        (
            records(&[(&[], &[]), (&[0, 1], &[NULL, NULL, 3, 3])]),
            [9, 2, 2],
            "  record:  480000040001fefefefefefe0303000000000000000000000000000000000000
  node:    2 (its successor is byte 12)
  here:    no pointer reaches node 2: nothing leads to it; nor is node 3 reached
  change:  let a pointer lead to node 2, or two nodes that are reached, or leave node 2 out; then
           look at node 3 likewise\n",
        ),
    ]);
}

#[test]
fn a_node_of_a_record_is_not_core() {
    judge(&[
        (
            records(&[(&[1], &[UNDEFINED, 0])]),
            [18, 1, 0],
            "  record:  4800000201fefefefefeff000000000000000000000000000000000000000000
  node:    0 (its successor is byte 10)
  here:    nothing but node 1 leads to node 0, so the cells of node 0 belong to node 1
  change:  leave node 0 out and let node 1 lead to undefined: a node stands for a row of cells, of
           any length
  instead: 4800000100fefefefefeff000000000000000000000000000000000000000000\n",
        ),
        (
            records(&[(&[0, 2], &[1, 3, 1, 4, NULL])]),
            [18, 1, 3],
            "  record:  480000050002fefefefe01030104fe0000000000000000000000000000000000
  node:    3 (its successor is byte 13)
  here:    nothing but node 1 leads to node 3, so the cells of node 3 belong to node 1; nor is node
           4 a node of its own
  change:  leave node 3 out and let node 1 lead to node 4: a node stands for a row of cells, of any
           length; then look at node 4 likewise
  instead: 480000030002fefefefe01fe0100000000000000000000000000000000000000\n",
        ),
    ]);
}

#[test]
fn nodes_of_a_record_are_numbered_otherwise() {
    judge(&[
        (
            records(&[(&[2, 0, 1], &[UNDEFINED, NULL, NULL])]),
            [19, 1, 0],
            "  record:  48000003020001fefefefffefe00000000000000000000000000000000000000
  node:    0 (its successor is byte 10)
  here:    the walk gives node 0 the number 1
  change:  number the nodes as they are visited: 2 becomes 0, 0 becomes 1, 1 becomes 2; or write the
           shape as text and let `assemble` number it
  instead: 48000003000102fefefefefffe00000000000000000000000000000000000000\n",
        ),
        (
            records(&[(&[], &[]), (&[0, 1], &[2, 2, NULL])]),
            [19, 2, 1],
            "  record:  480000030001fefefefe0202fe00000000000000000000000000000000000000
  node:    1 (its successor is byte 11)
  here:    the walk gives node 1 the number 2
  change:  number the nodes as they are visited: 2 becomes 1, 1 becomes 2; or write the shape as
           text and let `assemble` number it
  instead: 480000030002fefefefe01fe0100000000000000000000000000000000000000\n",
        ),
    ]);
}

/// Whatever number, place and node are told, also such as the records do not bear out, their meaning and the node are said.
#[test]
fn what_the_records_do_not_bear_out() {
    let good = tool::text::assemble("stop\nshape\np0 -> a -> b -> b\np1 -> c -> b\n").unwrap().records;
    let bad = records(&[(&[1], &[UNDEFINED, 0]), (&[7], &[NULL; 12]), (&[0], &[1, 2, 3])]);
    let cut = good[..40].to_vec();
    for input in [good, bad, cut, Vec::new(), stop("shape\np0 -> a -> b\nc -> c\n")] {
        let source = Source::of_bytes("f", input).unwrap();
        for (number, means) in [(9, UNREACHED), (18, NOT_CORE), (19, NUMBERED)] {
            for (place, node) in (0..6).flat_map(|place| (0..=255).map(move |node| (place, node))) {
                let said = words(Refusal { number, place, node: Node(node) }, &source, ALL_PLACES);
                assert!(said.starts_with(&format!("f: refused {number} at record {place}, ")), "{said}");
                assert!(said.contains(&format!("{means}  ")) && said.contains("\n  change:  "), "{said}");
                let named = said.contains(&format!("\n  node:    {node}")) || said.contains(&format!(" (node {node} of the "));
                assert!(named, "{said}");
            }
        }
    }
    // what nothing but itself leads to belongs to no other node, and a node that is reached is not lost
    let source = Source::of_bytes("f", stop("shape\np0 -> a -> b\nc -> c\n")).unwrap();
    for (number, node) in [(18, 2), (18, 0), (9, 0), (9, 1), (19, 0), (19, 2)] {
        let said = words(Refusal { number, place: 1, node: Node(node) }, &source, ALL_PLACES);
        assert!(!said.contains("\n  here:    "), "{said}");
    }
}
