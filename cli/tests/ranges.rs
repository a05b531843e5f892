//! Paths from counters within ranges: what is shown of them, the start that is found for them, and why they are refused.

mod common;

use common::{changed, edge, example, printed, text, tool, Draw};
use std::collections::HashMap;
use tool::automaton::{Automaton, ALL_PLACES};
use tool::bounds::{laid, read, Range};
use tool::listing::Listing;
use tool::moves::{configuration, Configuration, Followed, Reached};
use tool::ranges::{Options, Ranges, Told};
use tool::record::{Routine, NODES};
use tool::source::{Failure, Source};
use tool::style::Style;
use tool::witness;

type Opened = (Source, Routine, Automaton);

fn open(name: &str, body: Vec<u8>) -> Option<Opened> {
    let source = Source::of_bytes(name, body).unwrap();
    let automaton = source.automaton(ALL_PLACES).ok()?;
    let routine = source.routine().unwrap();
    Some((source, routine, automaton))
}

fn go((source, routine, automaton): &Opened, options: &Options) -> Result<Told, Failure> {
    Ranges { listing: Listing { source, routine, automaton, style: Style::PLAIN } }.go(options)
}

/// What is printed where some start follows.
fn shown(words: &[&str]) -> String {
    text(&printed(&[&["ranges"], words].concat(), b""))
}

/// What is printed where none does.
fn not_followed(words: &[&str]) -> String {
    let done = tool(&[&["ranges"], words].concat(), b"");
    let said = text(&done.stdout);
    assert_eq!((done.status.code(), text(&done.stderr)), (Some(1), String::new()), "{said}");
    assert!(said.lines().all(|l| l.chars().count() <= 100), "{said}");
    said
}

#[test]
fn a_path_that_some_start_follows() {
    let expected = "\
examples/reverse.txt: from location 0 along 6 edges, with counters within ranges
Not drawn: p3, p4, p5, which are null throughout.

start          location 0 at statement 0: p1 := null; c0 = 1..12
position 0     edge 0              to location 1 at statement 1 (loop): test p0 = null; c0 = 1..12
position 1     edge 1  false       to location 2 at statement 2: p2 := p1; c0 = 1..12
position 2     edge 2              to location 3 at statement 3: p1 := p0; c0 = 1..12
position 3     edge 3              to location 4 at statement 4: p0 := p0.next; c0 = 1..12
position 4     edge 5  if c0 >= 2  to location 6 at statement 5: p1.next := p2; c0 = 1..11, c1 = 1
position 5     edge 8  if c1 = 1   to location 9 at statement 6: p2 := null; c0 = 1..11, c1 = 1

location 9     statement 6: p2 := null
               p0 -> n0(c0) -> null
               p1 -> n1(c1) -> null
               p2 -> null
  edge 11      to location 11: counters kept

Some start follows the path, to location 9. Exactly these values are reached there, each with each
of the others: c0 = 1..11, c1 = 1.
A start that follows it, as a walk confirms: c0 = 2. It ends with c0 = 1, c1 = 1.
  heap         p0 -> 0 -> 1 -> null
               p1, p2 -> null
";
    assert_eq!(shown(&["examples/reverse.txt", "--start", "0", "--counters", "1..12", "--edges", "0,1,2,3,5,8"]), expected);
    let of_records = shown(&["examples/reverse.records", "--edges=0, 1, 2, 3, 5, 8", "--counters= 1 .. 12"]);
    assert_eq!(of_records, expected.replace("reverse.txt", "reverse.records").replace(" (loop)", ""));
}

#[test]
fn a_path_that_none_follows() {
    let said = not_followed(&["examples/reverse.txt", "--counters", "2..12", "--edges", "0,1,2,3,4,6"]);
    let end = "
position 3     edge 3         to location 4 at statement 4: p0 := p0.next; c0 = 2..12

location 4     statement 4: p0 := p0.next
               p0, p1 -> n0(c0) -> null
               p2 -> null
  edge 4       if c0 = 1   to location 5: counters kept
  edge 5       if c0 >= 2  to location 6: c0' = c0 - 1, c1' = 1

No start follows the path: at position 4 none can go on along edge 4; its guard c0 = 1 holds for no
value of c0 = 2..12.
A start that follows it up to there, as a walk confirms: c0 = 2. It ends with c0 = 2.
  heap         p0 -> 0 -> 1 -> null
               p1, p2 -> null
";
    assert!(said.starts_with("examples/reverse.txt: from location 0 along 6 edges, with ") && said.ends_with(end), "{said}");
    let said = not_followed(&["examples/reverse.txt", "--start", "4", "--counters", "1", "--edges", "5"]);
    let closing = "
No start follows the path: at position 0 none can go on along edge 5; its guard c0 >= 2 holds for no
value of c0 = 1.
A start that follows it up to there, as a walk confirms: c0 = 1. It ends with c0 = 1.
";
    assert!(said.contains(closing) && !said.contains("\nposition "), "{said}");
    // two guards, of which both are told
    let said = not_followed(&["examples/unlink.txt", "--counters", "2", "--edges", "0,3,5,7"]);
    let why = "none can go on along edge 7; its guards c0 = 1 and c1 >= 2 hold together for no values of c0 = 1, c1 = 1.";
    assert!(said.replace('\n', " ").contains(why), "{said}");
}

#[test]
fn faults_stops_and_starts_without_counters() {
    let leak = shown(&["examples/leak.txt", "--counters", "1..5", "--edges", "0,1,2,4"]);
    let end = "
position 3     edge 4             to location 5: FAULT 3 at statement 3, leak

location 5     FAULT 3 at statement 3: p1 := null
               a cell is lost (leak): no pointer reaches it any more

Some start follows the path, to location 5. A fault has no counters.
A start that follows it, as a walk confirms: c0 = 1.
  heap         p0 -> 0 -> null
               p1 -> null
";
    assert!(leak.ends_with(end), "{leak}");
    // from the fault itself
    let at_fault = shown(&["examples/leak.txt", "--start", "5"]);
    let end = "
Some start follows the path, to location 5. A fault has no counters.
A start that follows it, as a walk confirms: no counters.
";
    assert!(at_fault.contains("\nstart          location 5: FAULT 3\n") && at_fault.ends_with(end), "{at_fault}");
    let stop = shown(&["examples/unlink.txt", "--start", "1", "--edges", "1"]);
    let end = "
start          location 1 at statement 0: test p0 = null
position 0     edge 1  true  to location 3 at statement 6 (done): stop

location 3     statement 6 (done): stop
               p0, p1 -> null

Some start follows the path, to location 3, which has no counters.
A start that follows it, as a walk confirms: no counters.
  heap         p0, p1 -> null
";
    assert!(stop.ends_with(end), "{stop}");
}

/// Any location may be the start, an empty path too; of a large heap its size alone is told.
#[test]
fn starts_and_heaps() {
    let start = ["examples/reverse.txt", "--start", "9", "--counters", "3..5,2"];
    for edges in [&[][..], &["--edges="], &["--edges", ""], &["--edges", "-"]] {
        let said = shown(&[&start, edges].concat());
        let end = "\n  edge 11      to location 11: counters kept

Some start follows the path, to location 9. Exactly these values are reached there, each with each
of the others: c0 = 3..5, c1 = 2.
A start that follows it, as a walk confirms: c0 = 3, c1 = 2. It ends with c0 = 3, c1 = 2.
  heap         p0 -> 0 -> 1 -> 2 -> null
               p1 -> 3 -> 4 -> null
               p2 -> null
";
        assert!(said.starts_with("examples/reverse.txt: from location 9 along 0 edges") && said.ends_with(end), "{said}");
    }
    for (counters, heap) in [
        ("200..300,40", "  heap         p0 -> 0 -> 1 -> .. 197 more .. -> 199 -> null\n"),
        ("200..300,41", "  heap         not drawn: it has 241 cells, and at most 240 are drawn\n"),
        ("65535,65535", "  heap         not drawn: it has 131070 cells, and at most 240 are drawn\n"),
    ] {
        let said = shown(&["examples/two-lists.txt", "--counters", counters]);
        assert!(said.contains(heap), "{said}");
    }
    let one = shown(&["examples/reverse.txt", "--counters", "7"]);
    assert!(one.contains("to location 0. Exactly these values are reached there: c0 = 7.\n"), "{one}");
}

#[test]
fn edges_from_standard_input() {
    let given = shown(&["examples/reverse.txt", "--counters", "3..4", "--edges", "0,1,2,3,5"]);
    for input in ["0,1,2,3,5", "0 1 2 3 5\n", "\t0\r\n1, 2 ,,3\n\n5"] {
        let words = ["ranges", "examples/reverse.txt", "--counters=3..4", "--edges=-"];
        assert_eq!(text(&printed(&words, input.as_bytes())), given);
    }
}

/// What is said of a path or a range that is refused: nothing of it is shown.
fn refused(words: &[&str], number: u8) -> String {
    let done = tool(&[&["ranges"], words].concat(), b"");
    let said = text(&done.stderr);
    assert_eq!((done.status.code(), done.stdout.len()), (Some(1), 0), "{said}");
    assert!(said.starts_with(&format!("{}: refused {number}", words[0])), "{said}");
    assert!(said.contains("\n  meaning: ") && said.contains("\n  change:  "), "{said}");
    assert!(said.lines().all(|l| l.chars().count() <= 100), "{said}");
    said.replace("\n           ", " ")
}

#[test]
fn every_reason_of_a_refusal() {
    let (reverse, lists) = ("examples/reverse.txt", "examples/two-lists.txt");
    let cases: [(&[&str], u8, &str); 15] = [
        (&[lists, "--counters", "0..3,2"], 22, "c0 is given as 0..3, and its lowest value is 0"),
        (&[lists, "--counters", "3,0"], 22, "c1 is given as 0, and a value is from 1 to 65535"),
        (&[lists, "--counters", "65535,65536"], 22, "c1 is given as 65536, and a value is from 1 to 65535"),
        (&[lists, "--counters", "3,5..0"], 22, "c1 is given as 5..0, and its highest value is 0"),
        (&[lists, "--counters", "5..3,0"], 22, "c0 is given as 5..3, and its lowest value is above its highest"),
        (&[lists, "--counters", "70000..3,2"], 22, "c0 is given as 70000..3, and its lowest value is above its highest"),
        (&[lists, "--counters", "1..65536,2"], 22, "c0 is given as 1..65536, and its highest value is above 65535"),
        (&[lists, "--counters", "70000..4294967295,2"], 22, "c0 is given as 70000..4294967295, and its highest value is above"),
        (&[reverse, "--start", "20"], 23, "location 20 is not in the table; the locations are 0 to 19"),
        (&[reverse, "--start", "4294967295", "--counters", "0"], 23, "location 4294967295 is not in the table; the locations"),
        (&[reverse, "--counters", "3", "--edges", "24"], 23, "at position 0, edge 24 is not in the table; the edges are 0 to 23"),
        (
            &[reverse, "--counters", "3", "--edges", "1,0"],
            23,
            "at position 0, edge 1 does not leave location 0: it leaves location 1",
        ),
        (
            &[reverse, "--counters", "3", "--edges", "0,1,2,2"],
            23,
            "at position 3, edge 2 does not leave location 3: it leaves location 2",
        ),
        // before a wrong range, and past an edge that none can take
        (
            &[reverse, "--counters", "0", "--edges", "0,2"],
            23,
            "at position 1, edge 2 does not leave location 1: it leaves location 2",
        ),
        (
            &[reverse, "--counters", "3", "--edges", "0,1,2,3,4,9,9"],
            23,
            "at position 5, edge 9 does not leave location 5: it leaves",
        ),
    ];
    for (words, number, here) in cases {
        let said = refused(words, number);
        assert!(said.contains(&format!("\n  here:    {here}")), "{here} is not in\n{said}");
        let counter = here.split(' ').next().unwrap();
        assert!(number != 22 || said.contains(&format!(": refused 22 at counter {counter}\n")), "{said}");
    }
}

#[test]
fn bad_use() {
    for (words, expected) in [
        (
            &["examples/reverse.txt"][..],
            "--counters gives 0 ranges, and location 0 needs 1, one for each node:\n    p0 -> n0(c0) -> null\n",
        ),
        (
            &["examples/reverse.txt", "--counters", "1,2"],
            "--counters gives 2 ranges, and location 0 needs 1, one for each node:\n",
        ),
        (
            &["examples/leak.txt", "--start", "5", "--counters", "1"],
            "--counters gives 1 range, and location 5 needs 0: a fault has no nodes\n",
        ),
        (
            &["examples/reverse.txt", "--counters", "x"],
            "ranges: --counters takes numbers and ranges such as 1..12 with commas between them, not `x`\n",
        ),
        (
            &["examples/reverse.txt", "--counters", "1.."],
            "ranges: --counters takes numbers and ranges such as 1..12 with commas between them, not `1..`\n",
        ),
        (
            &["examples/reverse.txt", "--counters", "1..2..3"],
            "ranges: --counters takes numbers and ranges such as 1..12 with commas",
        ),
        (
            &["examples/reverse.txt", "--counters", "-1..2"],
            "ranges: --counters takes numbers and ranges such as 1..12 with commas",
        ),
        (
            &["examples/reverse.txt", "--counters", "1,,2"],
            "ranges: --counters takes numbers and ranges such as 1..12 with commas between them, not ``\n",
        ),
        (&["examples/reverse.txt", "--counters", "1..4294967296"], "ranges: --counters: 4294967296 is too large\n"),
        (&["examples/reverse.txt", "--start", "x"], "ranges: --start takes a number from 0 to 4294967295, not `x`\n"),
        (&["examples/reverse.txt", "--edges", "x"], "ranges: --edges takes numbers with commas between them, not `x`\n"),
        (&["examples/reverse.txt", "--heap", "3"], "ranges: there is no option --heap\n"),
        (&["examples/reverse.txt", "--counters", "3", "--counters", "3"], "ranges: --counters stands there twice\n"),
        (&["-", "--edges", "-"], "ranges: FILE and --edges cannot both be standard input\n"),
        (&[], "ranges: one FILE is needed (`-` for standard input), and 0 given\n"),
    ] {
        let done = tool(&[&["ranges"], words].concat(), b"stop\nshape\n");
        let said = text(&done.stderr);
        assert_eq!((done.status.code(), done.stdout.len()), (Some(2), 0), "{said}");
        assert!(said.starts_with(&format!("currantplane: {expected}")), "{expected} is not at the start of\n{said}");
    }
}

/// 4,096 edges are followed, also to counters above 65,535; a longer path is refused.
#[test]
fn long_paths() {
    let body = "loop: p1 := new\np1.next := p0\np0 := p1\np1 := null goto loop\nshape\np0 -> a -> null\n";
    let opened = open("grow", body.as_bytes().to_vec()).expect("an automaton");
    let mut path: Vec<u32> = Vec::new();
    let mut at = configuration(0, &[9]);
    while path.len() < 4097 {
        let leaving: Vec<usize> = opened.2.leaving(at.location as usize).map(|(number, _)| number).collect();
        let taken = leaving.into_iter().find(|&edge| opened.2.make_move(&mut at, edge) == 0).expect("an edge");
        path.push(taken as u32);
    }
    let told = |length: usize| {
        go(&opened, &Options { start: 0, counters: vec![Range { lowest: 9, highest: 65_535 }], edges: path[..length].to_vec() })
    };
    let followed = told(4096).unwrap_or_else(|f| panic!("{}", f.message));
    assert!(followed.agreed && followed.follows() && followed.start == configuration(0, &[9]));
    let grown = Range { lowest: 9 + 1024, highest: 65_535 + 1024 };
    assert!(matches!(&followed.followed, Followed::To(reached) if reached.ranges[0] == grown), "{:?}", followed.followed);
    assert!(followed.text.contains("\nposition 4095  edge "), "{}", followed.text);
    let failure = told(4097).err().expect("a refusal");
    let end = "  here:    there are 4097 numbers\n  change:  give at most 4,096 numbers to --edges\n";
    assert!(
        failure.status == 1 && failure.message.starts_with("grow: refused 23\n") && failure.message.ends_with(end),
        "{}",
        failure.message
    );
}

fn within(values: &[u32], ranges: &[Range]) -> bool {
    let inside = |(value, range): (&u32, &Range)| range.lowest <= *value && *value <= range.highest;
    values.len() == ranges.len() && values.iter().zip(ranges).all(inside)
}

/// Ranges of a location's counters: small, large, or of one value.
fn drawn_ranges(d: &mut Draw, count: usize) -> Vec<Range> {
    let mut range = |_| {
        let lowest = [1, 1, 1, 2, 3, 12, 200, 65_530][d.below(8)];
        Range { lowest, highest: (lowest + [0, 0, 1, 2, 9, 100, 65_534][d.below(7)]).min(65_535) }
    };
    (0..count).map(&mut range).collect()
}

/// At most so many edges from a location, most of which a walk from the lowest or the highest values can take.
fn drawn_path(d: &mut Draw, automaton: &Automaton, start: usize, ranges: &[Range], most: usize) -> Vec<u32> {
    let values: Vec<u32> = ranges.iter().map(|range| if d.one_in(2) { range.lowest } else { range.highest }).collect();
    let (mut walker, mut location, mut path) = (Some(configuration(start, &values)), start, Vec::new());
    while path.len() < most {
        let leaving: Vec<usize> = automaton.leaving(location).map(|(number, _)| number).collect();
        let can = |number: &usize| walker.is_some_and(|at| automaton.make_move(&mut { at }, *number) == 0);
        let taken: Vec<usize> = leaving.iter().copied().filter(can).collect();
        let among = if taken.is_empty() || d.one_in(4) { &leaving } else { &taken };
        if among.is_empty() {
            break;
        }
        let number = among[d.below(among.len())];
        path.push(number as u32);
        location = automaton.edges[number].to;
        walker = walker.and_then(|mut at| (automaton.make_move(&mut at, number) == 0).then_some(at));
    }
    path
}

/// A combination of ends, or any values within.
fn any_within(d: &mut Draw, reached: &Reached) -> Vec<u32> {
    let of = |range: &Range, d: &mut Draw| match d.below(3) {
        0 => range.lowest,
        1 => range.highest,
        _ => range.lowest + d.below((range.highest - range.lowest) as usize + 1) as u32,
    };
    reached.ranges.iter().map(|range| of(range, d)).collect()
}

/// The start that is shown is within the ranges and follows; and so is one found for any values within the final ranges.
fn starts_are_found(d: &mut Draw, automaton: &Automaton, options: &Options, told: &Told) {
    assert!(told.agreed && !told.text.contains("INTERNAL ERROR"), "{}", told.text);
    let part = match told.followed {
        Followed::EndsAt(position) => &options.edges[..position],
        _ => &options.edges[..],
    };
    let stages = witness::stages(automaton, options.start, &options.counters, part).expect("each part is followed");
    let last = &stages[part.len()];
    let check = |start: &Configuration, values: &[u32]| {
        let due = configuration(last.location, values);
        assert!(within(automaton.counters(start), &options.counters), "{start:?} in {:?}", options.counters);
        assert_eq!(witness::astray(automaton, start, part, &due), None);
    };
    check(&told.start, &witness::lowest(last));
    for _ in 0..4 {
        let values = any_within(d, last);
        check(&witness::start(automaton, &stages, part, &values), &values);
    }
}

#[test]
fn random_paths_and_their_starts() {
    let (mut d, mut met, mut edges) = (Draw::new(41), HashMap::new(), 0);
    for round in 0..4000 {
        let Some(opened) = open("a", d.routine(if round % 4 == 0 { 40 } else { 9 })) else { continue };
        for _ in 0..3 {
            let start = if d.one_in(2) { d.below(opened.1.shapes.len()) } else { d.below(opened.2.locations.len()) };
            let counters = drawn_ranges(&mut d, opened.2.locations[start].shape.count);
            let most = [0, 2, 8, 25][d.below(4)];
            let path = drawn_path(&mut d, &opened.2, start, &counters, most);
            let options = Options { start, counters, edges: path };
            let told = go(&opened, &options).unwrap_or_else(|f| panic!("{}", f.message));
            starts_are_found(&mut d, &opened.2, &options, &told);
            assert!(told.text.lines().all(|l| l.chars().count() <= 100), "{}", told.text);
            let (name, shown) = match &told.followed {
                Followed::To(reached) if opened.2.locations[reached.location].fault != 0 => ("fault", options.edges.len()),
                Followed::To(_) => ("followed", options.edges.len()),
                Followed::EndsAt(position) => ("ended", *position),
                Followed::Refused(_) => unreachable!("a refusal is a failure"),
            };
            assert_eq!(told.text.matches("\nposition ").count(), shown, "{}", told.text);
            assert_eq!(told.text.contains("\nSome start follows the path, to location "), told.follows(), "{}", told.text);
            *met.entry(name).or_insert(0) += 1;
            edges += shown;
        }
    }
    println!("{met:?}, edges followed: {edges}");
    assert!(edges > 20_000 && ["fault", "followed", "ended"].iter().all(|name| met[name] > 300), "{met:?}, {edges} edges");
}

/// The translator's tables never do.
#[test]
fn tables_that_break_the_layout() {
    let (source, routine, whole) = open("reverse", example("reverse").into_bytes()).expect("an automaton");
    let opened = (source, routine, changed(&whole, &|t| edge(t, 23)[6] = 3));
    for edges in [vec![], vec![0], vec![1]] {
        let failure = go(&opened, &Options { start: 0, counters: vec![Range::of_one(3)], edges }).err().expect("a refusal");
        let said = failure.message;
        assert!(failure.status == 1 && said.starts_with("reverse: refused 23\n  meaning: "), "{said}");
        let end = "  here:    the tables break the layout\n  change:  report this: those of the translator never do\n";
        assert!(said.ends_with(end), "{said}");
    }
}

/// A start that did not follow would be told.
#[test]
fn a_start_that_goes_astray_is_told() {
    let (_, _, automaton) = open("reverse", example("reverse").into_bytes()).expect("an automaton");
    let (start, path, end) = (configuration(0, &[3]), [0, 1, 2, 3, 5, 8], configuration(9, &[2, 1]));
    assert_eq!(witness::astray(&automaton, &start, &path, &end), None);
    for (start, path, end) in [
        (configuration(0, &[1]), &path[..], end),
        (start, &path[..5], end),
        (start, &path, configuration(9, &[2, 2])),
        (start, &path, configuration(8, &[2, 1])),
        (configuration(0, &[0]), &path, end),
    ] {
        let said = witness::astray(&automaton, &start, path, &end).expect("an error");
        assert!(said.starts_with("INTERNAL ERROR: the start found, at location 0 with counters ["), "{said}");
        assert!(said.lines().all(|l| l.chars().count() <= 100), "{said}");
    }
}

#[test]
fn ranges_are_read_and_laid_out() {
    for (word, lowest, highest, again) in
        [("3", 3, 3, "3"), ("1..12", 1, 12, "1..12"), (" 5 .. 5 ", 5, 5, "5"), ("0..0", 0, 0, "0")]
    {
        let range: Range = word.parse().unwrap();
        assert_eq!((range, range.to_string().as_str()), (Range { lowest, highest }, again));
    }
    let ranges: Vec<Range> = (1..=14).map(|n| Range { lowest: n, highest: 100 + n }).collect();
    let numbers = laid(&ranges);
    assert_eq!(numbers[..], [(1..=12).collect::<Vec<u32>>(), (101..=112).collect()].concat());
    assert_eq!((read(&numbers, NODES), read(&laid(&ranges[..2]), 3)[2]), (ranges[..NODES].to_vec(), Range::of_one(0)));
}
