//! Walks of the automaton by itself: what is shown of them, and why they are refused.

mod common;

use common::{changed, edge, example, printed, text, tool, Draw, EXAMPLES};
use std::collections::HashMap;
use tool::automaton::{Automaton, Tables, ALL_PLACES};
use tool::listing::Listing;
use tool::moves::{configuration, Configuration};
use tool::record::{Routine, NODES, SIZE};
use tool::run::{self, Run};
use tool::source::{Failure, Source};
use tool::style::Style;
use tool::walk::{difference, Options, Walk, Walked, Went};

fn open(name: &str, body: Vec<u8>) -> (Source, Routine, Automaton) {
    let source = Source::of_bytes(name, body).unwrap();
    let (routine, automaton) = (source.routine().unwrap(), source.automaton(ALL_PLACES).unwrap());
    (source, routine, automaton)
}

fn go((source, routine, automaton): &(Source, Routine, Automaton), options: &Options) -> Result<Went, Failure> {
    Walk { listing: Listing { source, routine, automaton, style: Style::PLAIN } }.go(options)
}

/// What is printed of a walk that is not refused.
fn shown(words: &[&str]) -> String {
    text(&printed(&[&["walk"], words].concat(), b""))
}

#[test]
fn a_walk_is_shown() {
    let expected = "\
examples/reverse.txt: starting shape 0, a walk along 6 edges
Not drawn: p3, p4, p5, which are null throughout.

start      location 0 at statement 0: p1 := null; c0 = 3
move 1     edge 0              to location 1 at statement 1 (loop): test p0 = null; c0 = 3
move 2     edge 1  false       to location 2 at statement 2: p2 := p1; c0 = 3
move 3     edge 2              to location 3 at statement 3: p1 := p0; c0 = 3
move 4     edge 3              to location 4 at statement 4: p0 := p0.next; c0 = 3
move 5     edge 5  if c0 >= 2  to location 6 at statement 5: p1.next := p2; c0 = 2, c1 = 1
move 6     edge 8  if c1 = 1   to location 9 at statement 6: p2 := null; c0 = 2, c1 = 1

location 9     statement 6: p2 := null
               p0 -> n0(c0) -> null
               p1 -> n1(c1) -> null
               p2 -> null
  edge 11      to location 11: counters kept

6 moves made. The walk stands at location 9.
";
    assert_eq!(shown(&["examples/reverse.txt", "--heap", "3", "--edges", "0,1,2,3,5,8"]), expected);
    let of_records = shown(&["examples/reverse.records", "--edges=0, 1, 2, 3, 5, 8", "--heap=3"]);
    assert_eq!(of_records, expected.replace("reverse.txt", "reverse.records").replace(" (loop)", ""));
}

#[test]
fn picks_faults_and_stops() {
    let insert = shown(&["examples/insert.txt", "--heap", "2", "--edges", "0,2,4,8"]);
    assert!(insert.contains("\nmove 3     edge 4  pick 0     to location 6 at statement 13 (front): "), "{insert}");
    let leak = shown(&["examples/leak.txt", "--heap", "1", "--edges", "0,1,2,4"]);
    let end = "
move 4     edge 4             to location 5: FAULT 3 at statement 3, leak

location 5     FAULT 3 at statement 3: p1 := null
               a cell is lost (leak): no pointer reaches it any more

4 moves made. The walk stands at location 5, which no edge leaves.
";
    assert!(leak.ends_with(end), "{leak}");
    let null = text(&printed(&["walk", "-", "--edges", "0"], b"p1 := p0.next\nstop\nshape\n"));
    assert!(null.contains("\nmove 1     edge 0  to location 1: FAULT 1 at statement 0, p0 is null\n"), "{null}");
    // a second starting shape, without a node
    let stop = shown(&["examples/unlink.txt", "--shape", "1", "--edges", "1"]);
    let end = "
start      location 1 at statement 0: test p0 = null
move 1     edge 1  true  to location 3 at statement 6 (done): stop

location 3     statement 6 (done): stop
               p0, p1 -> null

1 move made. The walk stands at location 3, which no edge leaves.
";
    assert!(stop.starts_with("examples/unlink.txt: starting shape 1, a walk along 1 edge\n") && stop.ends_with(end), "{stop}");
}

/// An empty walk shows the start, however it is asked for.
#[test]
fn an_empty_walk() {
    let expected = "\
examples/two-lists.txt: starting shape 0, a walk along 0 edges
Not drawn: p4, p5, which are null throughout.

start      location 0 at statement 0: p2 := p0; c0 = 1, c1 = 40

location 0     start, statement 0: p2 := p0
               p0 -> n0(c0) -> null
               p1 -> n1(c1) -> null
               p2, p3 -> null
  edge 0       to location 1: counters kept

0 moves made. The walk stands at location 0.
";
    let start = ["examples/two-lists.txt", "--heap", "1,40"];
    for edges in [&[][..], &["--edges="], &["--edges", ""], &["--edges", "-"]] {
        assert_eq!(shown(&[&start, edges].concat()), expected);
    }
}

#[test]
fn edges_from_standard_input() {
    let given = shown(&["examples/reverse.txt", "--heap", "3", "--edges", "0,1,2,3,5"]);
    for input in ["0,1,2,3,5", "0 1 2 3 5\n", "0,\n1,\n2,\n3,\n5\n", "\t0\r\n1, 2 ,,3\n\n5"] {
        assert_eq!(text(&printed(&["walk", "examples/reverse.txt", "--heap=3", "--edges=-"], input.as_bytes())), given);
    }
    for (file, input, expected) in [
        ("examples/reverse.txt", &b"0,1,x"[..], "--edges takes numbers with commas between them, not `x`"),
        ("examples/reverse.txt", b"0,-1", "--edges takes numbers with commas between them, not `-1`"),
        ("examples/reverse.txt", b"0 \xff", "--edges takes numbers with commas between them, not `\u{fffd}`"),
        ("examples/reverse.txt", b"4294967296", "--edges: 4294967296 is too large"),
        ("-", b"stop\nshape\n", "FILE and --edges cannot both be standard input"),
    ] {
        let done = tool(&["walk", file, "--heap", "3", "--edges", "-"], input);
        let said = format!("currantplane: walk: {expected}\nTry `currantplane help walk`.\n");
        assert_eq!((done.status.code(), text(&done.stderr), done.stdout.len()), (Some(2), said, 0));
    }
}

/// What is printed of a walk that is refused with this number at a move, and what it says of that.
fn refused(words: &[&str], number: u8) -> (String, String) {
    let done = tool(&[&["walk"], words].concat(), b"");
    let said = text(&done.stdout);
    assert_eq!((done.status.code(), text(&done.stderr)), (Some(1), String::new()), "{said}");
    let (before, after) = said.split_once(&format!("\n{}: refused {number}\n  meaning: ", words[0])).expect("a refusal");
    assert!(after.contains("\n  here:    ") && after.contains("\n  change:  "), "{said}");
    assert!(said.lines().all(|l| l.chars().count() <= 100), "{said}");
    (before.to_string(), after.replace("\n           ", " "))
}

#[test]
fn every_reason_of_a_refused_move() {
    let reverse = "examples/reverse.txt";
    let unlink = "examples/unlink.txt";
    let cases: [(&[&str], u8, usize, &str); 12] = [
        (&[reverse, "--heap", "3", "--edges", "24"], 20, 0, "edge 24 is not in the table; the edges are 0 to 23"),
        (&[reverse, "--heap=3", "--edges=0,4294967295"], 20, 1, "edge 4294967295 is not in the table; the edges are 0 to 23"),
        (&[reverse, "--heap", "3", "--edges", "1,0"], 20, 0, "edge 1 does not leave location 0: it leaves location 1"),
        (&[reverse, "--heap", "3", "--edges", "0,1,2,2"], 20, 3, "edge 2 does not leave location 3: it leaves location 2"),
        (
            &[reverse, "--heap", "1", "--edges", "0,1,2,3,4,6,10,12,12"],
            20,
            8,
            "edge 12 does not leave location 12: it leaves location 10",
        ),
        (
            &[reverse, "--heap", "3", "--edges", "0,1,2,3,4,6"],
            20,
            4,
            "edge 4 is not enabled: its guard c0 = 1 does not hold, with c0 = 3",
        ),
        (
            &[reverse, "--heap", "1", "--edges", "0,1,2,3,5"],
            20,
            4,
            "edge 5 is not enabled: its guard c0 >= 2 does not hold, with c0 = 1",
        ),
        (
            &[unlink, "--heap", "2", "--edges", "0,3,5,7"],
            20,
            3,
            "edge 7 is not enabled: its guards c0 = 1 and c1 >= 2 do not both hold, with c0 = 1, c1 = 1",
        ),
        (
            &[unlink, "--heap", "3", "--edges", "0,3,5,6"],
            20,
            3,
            "edge 6 is not enabled: its guards c0 = 1 and c1 = 1 do not both hold, with c0 = 1, c1 = 2",
        ),
        (
            &[unlink, "--heap", "3", "--edges", "0,3,5,8"],
            20,
            3,
            "edge 8 is not enabled: its guard c0 >= 2 does not hold, with c0 = 1",
        ),
        (
            &["examples/drop.txt", "--shape=1", "--heap=1,4294967295,1", "--edges=1,4,10,16"],
            21,
            3,
            "edge 16 would take a counter past 32 bits: c1' = c1 + c2, with c1 = 4294967295, c2 = 1",
        ),
        (
            &["examples/insert.txt", "--heap=4294967295", "--edges=0,2,4,8,12,15"],
            21,
            4,
            "edge 12 would take a counter past 32 bits: c0' = c0 + c1, with c0 = 4294967295, c1 = 1",
        ),
    ];
    for (words, number, made, here) in cases {
        let (before, after) = refused(words, number);
        assert!(after.contains(&format!("\n  here:    {here}\n")), "{here} is not in\n{before}\n{after}");
        assert_eq!(before.matches("\nmove ").count(), made, "{before}");
        let moves = if made == 1 { "1 move".into() } else { format!("{made} moves") };
        let (_, edge) = here.split_once(' ').unwrap();
        let closing = format!("\n\n{moves} made. The next one, along edge {}, is refused.", edge.split(' ').next().unwrap());
        assert!(before.ends_with(&closing), "{before}");
        // the location where it stands, with its edges
        let at = before.lines().rev().find(|l| l.starts_with("move ") || l.starts_with("start ")).unwrap();
        let location = at.split("location ").nth(1).unwrap().split(' ').next().unwrap();
        assert!(before.contains(&format!("\n\nlocation {location} ")), "{before}");
    }
}

/// A start that is none: nothing is shown of a walk.
#[test]
fn a_counter_of_0() {
    for (heap, edges, node) in [("0,1", "0", 0), ("1,0", "", 1), ("0,0", "7", 0)] {
        let done = tool(&["walk", "examples/two-lists.txt", "--heap", heap, "--edges", edges], b"");
        let said = text(&done.stderr);
        assert_eq!((done.status.code(), done.stdout.len()), (Some(1), 0), "{said}");
        assert!(said.starts_with("examples/two-lists.txt: refused 20\n  meaning: "), "{said}");
        let end = format!("  here:    c{node} = 0; no move was made\n  change:  give numbers from 1 on to --heap\n");
        assert!(said.ends_with(&end), "{said}");
    }
}

/// 4,096 moves are made; of a walk that is longer none is, even if its first edge alone would be refused otherwise.
#[test]
fn long_walks() {
    let file = common::folder("long walks").join("round.txt");
    std::fs::write(&file, "loop: skip goto loop\nshape\np0 -> a -> null\n").unwrap();
    let walk = |count: usize, first: &str| {
        let edges = first.to_string() + &",0".repeat(count - 1);
        let given = tool(&["walk", file.to_str().unwrap(), "--heap", "7", "--edges", &edges], b"");
        assert_eq!(tool(&["walk", file.to_str().unwrap(), "--heap", "7", "--edges", "-"], edges.as_bytes()), given);
        (given.status.code(), text(&given.stdout), text(&given.stderr))
    };
    let (status, said, error) = walk(4096, "0");
    assert_eq!((status, error), (Some(0), String::new()));
    assert_eq!(said.matches("\nmove ").count(), 4096);
    assert!(said.contains("\nmove 4096  edge 0  to location 0 at statement 0 (loop): skip; c0 = 7\n"), "{said}");
    assert!(said.ends_with("\n4096 moves made. The walk stands at location 0.\n"), "{said}");
    for first in ["0", "5"] {
        let (status, said, error) = walk(4097, first);
        assert_eq!((status, said), (Some(1), String::new()));
        assert!(error.contains(": refused 20\n  meaning: "), "{error}");
        let end = "  here:    there are 4097 numbers; no move was made\n  change:  give at most 4,096 numbers to --edges\n";
        assert!(error.ends_with(end), "{error}");
    }
}

/// Counters have 32 bits and no heap is made, so there may be more cells than in any heap image.
#[test]
fn counters_of_32_bits() {
    let most = shown(&["examples/two-lists.txt", "--heap", "4294967295,1"]);
    assert!(most.contains("\nstart      location 0 at statement 0: p2 := p0; c0 = 4294967295, c1 = 1\n"), "{most}");
    // a new cell is put before them: of one fewer the sum fits
    let edges = ["--edges=0,2,4,8,12,15"];
    let fits = shown(&[&["examples/insert.txt", "--heap=4294967294"], &edges[..]].concat());
    assert!(fits.contains("; c0 = 4294967295\n"), "{fits}");
    refused(&[&["examples/insert.txt", "--heap=4294967295"], &edges[..]].concat(), 21);
    // two lists of which the sum is too large, with no edge that adds them
    let both = shown(&["examples/two-lists.txt", "--heap", "4294967295,4294967295", "--edges", "0"]);
    assert!(both.contains("c0 = 4294967295, c1 = 4294967295\n"), "{both}");
}

/// A cell more for the node before: only the update that grows is named.
#[test]
fn a_counter_that_grows_by_one() {
    let body = "loop: p1 := p1.next goto loop\nshape\np0 -> a -> b -> null\np1 -> b\n";
    let opened = open("a", body.into());
    let went = go(&opened, &Options { heap: vec![u32::MAX - 1, 9], shape: 0, edges: vec![1, 1] }).unwrap();
    assert_eq!(went.walked, Walked { refusal: 21, made: 1, at: configuration(0, &[u32::MAX, 8]) });
    assert!(went.text.contains("\n  edge 1       if c1 >= 2  to location 0: c0' = c0 + 1, c1' = c1 - 1\n"), "{}", went.text);
    let here = "\n  here:    edge 1 would take a counter past 32 bits: c0' = c0 + 1, with c0 = 4294967295\n";
    assert!(went.text.contains(here), "{}", went.text);
}

#[test]
fn bad_use() {
    let file = "examples/two-lists.txt";
    let cases: [(&[&str], &str); 14] = [
        (&[], "walk: one FILE is needed"),
        (&[file, file], "walk: one FILE is needed"),
        (&["examples/none.txt"], "cannot read examples/none.txt"),
        (&[file], "--heap gives 0 numbers, and starting shape 0 needs 2, one for each node:\n    p0 -> n0(c0) -> null\n"),
        (&[file, "--heap", "1"], "--heap gives 1 number, and starting shape 0 needs 2"),
        (&[file, "--heap", "1,2,3"], "--heap gives 3 numbers, and starting shape 0 needs 2"),
        (&[file, "--heap", "1,x"], "walk: --heap takes numbers with commas between them, not `x`"),
        (&[file, "--heap", "1,4294967296"], "walk: --heap: 4294967296 is too large"),
        (&[file, "--heap", "1,1", "--shape", "1"], "--shape 1: the routine has 1 starting shape, counted from 0"),
        (&[file, "--heap", "1,1", "--edges"], "walk: --edges takes a value"),
        (&[file, "--heap", "1,1", "--edges", "0,,1"], "walk: --edges takes numbers with commas between them, not ``"),
        (&[file, "--heap", "1,1", "--edges=-1"], "walk: --edges takes numbers with commas between them, not `-1`"),
        (&[file, "--heap", "1,1", "--edges", "0", "--edges", "1"], "walk: --edges stands there twice"),
        (&[file, "--heap", "1,1", "--picks", "0"], "walk: there is no option --picks"),
    ];
    for (words, expected) in cases {
        let done = tool(&[&["walk"], words].concat(), b"");
        let said = text(&done.stderr);
        assert_eq!((done.status.code(), done.stdout.len()), (Some(2), 0), "{words:?} {said}");
        assert!(said.starts_with(&format!("currantplane: {expected}")), "{expected} is not in {said}");
    }
    // a routine that is refused has no automaton
    let done = tool(&["walk", "-", "--heap", "1,1"], b"stop\nshape\np0 -> a -> b\n");
    assert_eq!((done.status.code(), done.stdout.len()), (Some(1), 0));
    assert!(text(&done.stderr).starts_with("standard input: refused 18 at record 1"), "{}", text(&done.stderr));
}

/// The location and the counters that each line with one of these leads tells of.
fn places(text: &str, leads: &[&str]) -> Vec<String> {
    let flat = text.replace(&format!("\n{}", " ".repeat(15)), " ");
    let place = |line: &str| {
        let (_, told) = line.split_once("location ").expect("a location");
        let location = told.split([' ', ':']).next().unwrap();
        let counters = told.split([';', ',']).map(str::trim).filter(|part| part.starts_with('c') && part.contains(" = "));
        counters.fold(location.to_string(), |place, counter| place + " " + counter)
    };
    flat.lines().filter(|line| leads.iter().any(|lead| line.starts_with(lead))).map(place).collect()
}

/// Along the edges that a run takes, a walk passes the locations and the counters of that run.
#[test]
fn walks_along_runs() {
    let mut d = Draw::new(11);
    for name in EXAMPLES {
        let opened = open(name, example(name).into_bytes());
        let (source, routine, automaton) = &opened;
        for _ in 0..40 {
            let shape = d.below(routine.shapes.len());
            let heap: Vec<u32> = (0..routine.shapes[shape].count).map(|_| 1 + d.below(7) as u32).collect();
            let picks = (0..60).map(|_| d.below(2) as u8).collect();
            let options = run::Options { heap: heap.clone(), shape, picks, steps: 120 };
            let ran = Run { source, routine, automaton, style: Style::PLAIN }.go(&options).unwrap();
            let taken = ran.text.lines().filter_map(|l| l.strip_prefix("  edge ")?.split(' ').next()?.parse().ok());
            let went = go(&opened, &Options { heap, shape, edges: taken.collect() }).unwrap();
            assert_eq!((went.walked.refusal, went.walked.made, went.agreed), (0, ran.steps, true), "{}", went.text);
            let [walked, matched] = [places(&went.text, &["start ", "move "]), places(&ran.text, &["  match "])];
            assert!(walked.len() == ran.steps + 1 && walked == matched, "{}{}", went.text, ran.text);
        }
    }
}

/// A move by the bytes of the tables, or the refusal and why.
fn moved(tables: &Tables, at: &Configuration, number: usize) -> Result<Configuration, (u8, &'static str)> {
    let record = tables.edges.chunks(SIZE).nth(number).ok_or((20, " is not in the table; "))?;
    let word = |at: usize| u16::from_le_bytes([record[at], record[at + 1]]);
    if u32::from(word(2)) != at.location {
        return Err((20, " does not leave location "));
    }
    let holds = |kind: u8, node: u8| match kind {
        0 => true,
        1 => at.counters[node as usize] == 1,
        _ => at.counters[node as usize] >= 2,
    };
    if !holds(record[6], record[7]) || !holds(record[1] >> 1 & 3, record[1] >> 3 & 15) {
        return Err((20, " is not enabled: its guard"));
    }
    let nodes = tables.locations[SIZE * word(4) as usize + 3] as usize;
    let mut after = Configuration { location: u32::from(word(4)), counters: [0; NODES] };
    for (node, counter) in after.counters[..nodes].iter_mut().enumerate() {
        let update = word(8 + 2 * node);
        let added = (0..NODES).filter(|old| update >> old & 1 == 1).map(|old| u64::from(at.counters[old]));
        let sum = u64::from(update >> 12) + added.sum::<u64>() - 1;
        *counter = u32::try_from(sum).map_err(|_| (21, " would take a counter past 32 bits: "))?;
    }
    Ok(after)
}

/// A path that goes on for some moves, and perhaps ends with an edge of any number; how it must end, with why it is refused.
fn path(d: &mut Draw, tables: &Tables, start: Configuration) -> (Vec<u32>, Walked, &'static str) {
    let (count, mut edges, mut at) = (tables.edges.len() / SIZE, Vec::new(), start);
    for _ in 0..d.below(60) {
        let leaves = |n: &usize| tables.edges[SIZE * n + 2..][..2] == (at.location as u16).to_le_bytes();
        let open: Vec<usize> = (0..count).filter(leaves).collect();
        let number = if open.is_empty() || d.one_in(12) { d.below(count + 2) } else { open[d.below(open.len())] };
        edges.push(number as u32);
        match moved(tables, &at, number) {
            Ok(after) => at = after,
            // most edges that cannot be taken are left out
            Err((20, _)) if !d.one_in(4) => drop(edges.pop()),
            Err((refusal, why)) => {
                let made = edges.len() - 1;
                edges.extend((0..d.below(3)).map(|_| d.below(count) as u32));
                return (edges, Walked { refusal, made, at }, why);
            }
        }
    }
    let made = edges.len();
    (edges, Walked { refusal: 0, made, at }, "")
}

/// Random walks end as the bytes of the tables say, and say why.
#[test]
fn random_walks() {
    let mut d = Draw::new(12);
    let (mut moves, mut met) = (0, HashMap::new());
    for round in 0..1000 {
        let source = Source::of_bytes("a", d.routine(if round % 4 == 0 { 40 } else { 9 })).unwrap();
        let Ok(automaton) = source.automaton(ALL_PLACES) else { continue };
        let routine = source.routine().unwrap();
        let opened = (source, routine, automaton);
        for large in [false, false, true] {
            let shape = d.below(opened.1.shapes.len());
            let counter = |_| if large { u32::MAX - d.below(2) as u32 } else { 1 + d.below(3) as u32 };
            let heap: Vec<u32> = (0..opened.1.shapes[shape].count).map(counter).collect();
            let (edges, expected, why) = path(&mut d, &opened.2.tables, configuration(shape, &heap));
            let went = go(&opened, &Options { heap, shape, edges }).unwrap_or_else(|f| panic!("{}", f.message));
            let flat = went.text.replace("\n           ", " ");
            assert_eq!((went.walked, went.agreed), (expected, true), "{}", went.text);
            assert_eq!(went.text.matches("\nmove ").count(), expected.made, "{}", went.text);
            assert_eq!(flat.contains("\n  here:    edge "), expected.refusal != 0, "{}", went.text);
            assert!(flat.contains(why), "{why} is not in\n{}", went.text);
            assert!(went.text.lines().all(|l| l.chars().count() <= 100), "{}", went.text);
            let last = places(&went.text, &["start ", "move "]).pop().unwrap();
            let counters = expected.at.counters.iter().enumerate().filter(|(_, &c)| c > 0);
            let told: String = counters.map(|(node, c)| format!(" c{node} = {c}")).collect();
            assert_eq!(last, format!("{}{told}", expected.at.location), "{}", went.text);
            moves += expected.made;
            *met.entry(why).or_insert(0) += 1;
        }
    }
    assert!(moves > 10_000 && met.len() == 5 && met.values().all(|&n| n > 60), "{moves} moves, {met:?}");
}

/// Ten nodes, counters of ten digits and a long label: lines are broken, and nothing is left out.
#[test]
fn wide_walks() {
    let label = "x".repeat(300);
    let body = format!(
        "{label}: p4.next := p5.next goto {label}\nshape\np0 -> a -> j -> k -> l -> m -> null
p1 -> b -> j\np2 -> c -> k\np3 -> d -> l\np4 -> e -> m\np5 -> f -> null\n"
    );
    let walk = |heap: &str| {
        let done = tool(&["walk", "-", "--heap", heap, "--edges", "0"], body.as_bytes());
        let said = text(&done.stdout);
        assert!(said.lines().all(|l| l.chars().count() <= 100), "{said}");
        (done.status.code(), said)
    };
    let (status, said) = walk("4294967295,2,3,4294967294,1,6,7,8,1,1");
    let expected = "
start      location 0 at statement 0 (xxxxxxxxxxxxxxxxxxxxxx..): p4.next := p5.next;
               c0 = 4294967295, c1 = 2, c2 = 3, c3 = 4294967294, c4 = 1, c5 = 6, c6 = 7, c7 = 8,
               c8 = 1, c9 = 1
move 1     edge 0  if c8 = 1 and c9 = 1  to location 1 at statement 0 (xxxxxxxxxxxxxxxxxxxxxx..):
               p4.next := p5.next; c0 = 4294967295, c1 = 2, c2 = 3, c3 = 4294967295, c4 = 6, c5 = 7,
               c6 = 8, c7 = 1, c8 = 1
";
    assert!(status == Some(0) && said.contains(expected), "{said}");
    let (status, said) = walk("1,2,3,4294967295,4294967295,6,7,8,1,1");
    let here = "here:    edge 0 would take a counter past 32 bits: c3' = c3 + c4, with c3 = 4294967295, c4 = 4294967295\n";
    assert!(status == Some(1) && said.replace("\n           ", " ").contains(here), "{said}");
}

/// The translator's tables never do.
#[test]
fn tables_that_break_the_layout() {
    let (source, routine, whole) = open("reverse", example("reverse").into_bytes());
    let opened = (source, routine, changed(&whole, &|t| edge(t, 23)[6] = 3));
    for edges in [vec![], vec![0]] {
        let failure = go(&opened, &Options { heap: vec![3], shape: 0, edges }).err().expect("a refusal");
        let said = failure.message;
        assert!(failure.status == 1 && said.starts_with("reverse: refused 20\n  meaning: "), "{said}");
        let end =
            "  here:    the tables break the layout; no move was made\n  change:  report this: those of the translator never do\n";
        assert!(said.ends_with(end), "{said}");
    }
}

#[test]
fn a_walk_that_differs_from_its_moves_is_told() {
    let same = Walked { refusal: 0, made: 6, at: configuration(9, &[2, 1]) };
    assert_eq!(difference(&same, &same), None);
    for other in [
        Walked { refusal: 20, ..same },
        Walked { made: 5, ..same },
        Walked { at: configuration(9, &[2, 2]), ..same },
        Walked { at: configuration(8, &[2, 1]), ..same },
    ] {
        let said = difference(&same, &other).expect("a difference");
        assert!(
            said.starts_with("INTERNAL ERROR: the walk in one call gave refusal 0 after 6 moves at location 9 with"),
            "{said}"
        );
        assert!(said.lines().all(|l| l.chars().count() <= 100), "{said}");
    }
}
