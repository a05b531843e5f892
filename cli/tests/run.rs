//! Runs beside the automaton: they match, and a changed automaton is told.

mod common;

use common::{changed, edge, example, location, printed, text, tool, Draw};
use std::cell::Cell;
use tool::automaton::{Automaton, Guard, Tables, Update, ALL_PLACES};
use tool::moves::configuration;
use tool::record::{Op, Routine, NULL, SIZE};
use tool::run::{End, Options, Ran, Run};
use tool::source::Source;
use tool::style::Style;

fn open(name: &str) -> (Source, Routine, Automaton) {
    let source = Source::of_bytes(name, example(name).into_bytes()).unwrap();
    let (routine, automaton) = (source.routine().unwrap(), source.automaton(ALL_PLACES).unwrap());
    (source, routine, automaton)
}

fn go(source: &Source, routine: &Routine, automaton: &Automaton, options: &Options) -> Ran {
    Run { source, routine, automaton, style: Style::PLAIN }.go(options).unwrap_or_else(|f| panic!("{}", f.message))
}

fn options(d: &mut Draw, routine: &Routine, most: usize) -> Options {
    let shape = d.below(routine.shapes.len());
    Options {
        heap: (0..routine.shapes[shape].count).map(|_| 1 + d.below(most) as u32).collect(),
        shape,
        picks: (0..60).map(|_| d.below(2) as u8).collect(),
        steps: 120,
    }
}

/// What a drop must say where so many cells went.
fn went(cells: usize) -> String {
    match cells {
        0 => String::new(),
        1 => "  routine    1 cell went\n".into(),
        _ => format!("  routine    {cells} cells went\n"),
    }
}

/// How many drops of a run let cells go, and how many none. Each says by how much the sum of the counters falls,
/// which the automaton gives and not the heap; no other step says it.
fn drops_in(ran: &str) -> [usize; 2] {
    let flat = ran.replace(&format!("\n{}", " ".repeat(17)), " ");
    let parts: Vec<&str> = flat.split("\nstep ").collect();
    let cells = |part: &str| -> usize {
        let line = part.lines().find(|l| l.starts_with("  match ")).expect("a match");
        line.split(", c").skip(1).map(|counter| counter.split_once(" = ").unwrap().1.parse::<usize>().unwrap()).sum()
    };
    let mut counts = [0; 2];
    for pair in parts.windows(2) {
        let drop = pair[1].lines().next().unwrap().contains(": drop p");
        let fewer = if drop { cells(pair[0]) - cells(pair[1]) } else { 0 };
        let told: String = pair[1].lines().filter(|l| l.ends_with(" went")).map(|l| format!("{l}\n")).collect();
        assert_eq!(told, went(fewer), "{ran}");
        counts[usize::from(fewer == 0)] += usize::from(drop);
    }
    counts
}

#[test]
fn random_runs_match() {
    let mut d = Draw::new(3);
    let (mut runs, mut steps, mut faults, mut stops, mut two_guards, mut drops) = (0, 0, [0; 4], 0, 0, [0; 2]);
    for round in 0..1500 {
        let source = Source::of_bytes("a", d.routine(if round % 4 == 0 { 40 } else { 9 })).unwrap();
        let Ok(automaton) = source.automaton(ALL_PLACES) else { continue };
        let routine = source.routine().unwrap();
        for most in [1, 2, 3, 9] {
            let ran = go(&source, &routine, &automaton, &options(&mut d, &routine, most));
            assert!(ran.matched, "{}", ran.text);
            assert!(ran.text.lines().all(|l| l.chars().count() <= 100), "{}", ran.text);
            assert_eq!(ran.text.matches("\n  match ").count(), ran.steps + 1, "{}", ran.text);
            assert_eq!(ran.text.matches("\n  edge ").count(), ran.steps);
            let faulted = if let End::Fault(fault) = ran.end { vec![fault.to_string()] } else { Vec::new() };
            let told: Vec<&str> = ran.text.split("\n  routine    FAULT ").skip(1).map(|t| &t[..1]).collect();
            assert_eq!(told, faulted, "{}", ran.text);
            runs += 1;
            steps += ran.steps;
            two_guards += ran.text.lines().filter(|l| l.starts_with("  edge ") && l.contains(" and c")).count();
            let more = drops_in(&ran.text);
            drops = [0, 1].map(|kind| drops[kind] + more[kind]);
            match ran.end {
                End::Fault(fault) => faults[fault as usize] += 1,
                End::Stop => stops += 1,
                _ => {}
            }
        }
    }
    assert!(runs > 5000 && steps > 20_000 && stops > 100, "{runs} runs, {steps} steps, {stops} stops");
    assert!(faults[1..].iter().all(|&n| n > 50), "{faults:?}");
    assert!(two_guards > 100, "{two_guards} edges with two guards taken");
    assert!(drops.iter().all(|&n| n > 300), "{drops:?} drops with cells that went and without");
}

/// The examples that are right never fault, from any starting shape; those that are wrong always do, the one that unlinks from
/// three cells on.
#[test]
fn examples_do_what_they_say() {
    let mut d = Draw::new(4);
    for name in common::EXAMPLES {
        let (source, routine, automaton) = open(name);
        for _ in 0..400 {
            let options = options(&mut d, &routine, 7);
            let ran = go(&source, &routine, &automaton, &options);
            let expected = match name {
                "leak" => vec![End::Fault(3)],
                "unlink-leak" if options.heap[0] >= 3 => vec![End::Fault(3)],
                "freed" | "compared" => vec![End::Fault(2)],
                "ring" => vec![End::Stop, End::NoPick, End::NoMoreSteps],
                _ => vec![End::Stop],
            };
            assert!(ran.matched && expected.contains(&ran.end), "{name}: {:?}\n{}", ran.end, ran.text);
        }
    }
}

/// What each wrong example says of itself: with that change every run ends at the stop, and no location but a leak's has a fault.
#[test]
fn what_mends_the_examples() {
    let mut d = Draw::new(10);
    for (name, wrong, right) in [
        ("leak", &["        p1 := null\n"][..], &["        free p1\n        p1 := null\n"][..]),
        ("unlink-leak", &["        p1 := p1.next               # one too far\n"], &[""]),
        ("freed", &["p0 := p0.next goto loop"], &["p0 := p1 goto loop"]),
        (
            "compared",
            &["        free p0                     # the first cell, too early\n", "done:   stop\n"],
            &["", "done:   free p0\n        stop\n"],
        ),
    ] {
        let mut body = example(name);
        for (old, new) in wrong.iter().zip(right) {
            assert_eq!(body.matches(old).count(), 1, "{name}: {old}");
            body = body.replace(old, new);
        }
        let source = Source::of_bytes(name, body.into_bytes()).unwrap();
        let (routine, automaton) = (source.routine().unwrap(), source.automaton(ALL_PLACES).unwrap());
        assert!(automaton.locations.iter().all(|l| matches!(l.fault, 0 | 3)), "{name}");
        for most in 1..40 {
            let ran = go(&source, &routine, &automaton, &Options { steps: 1000, ..options(&mut d, &routine, most) });
            assert_eq!(ran.end, End::Stop, "{name}: {}", ran.text);
        }
    }
}

/// On every list of up to 239 cells, and on none: one cell less where there is a second, and never a fault.
#[test]
fn unlink_takes_the_second_cell() {
    let (source, routine, automaton) = open("unlink");
    for cells in 1..240 {
        let ran = go(&source, &routine, &automaton, &Options { heap: vec![cells], shape: 0, picks: Vec::new(), steps: 200 });
        let left = format!("\n  match      location 6 at statement 6 (done), c0 = {}\n\n", (cells - 1).max(1));
        assert!(ran.end == End::Stop && ran.text.contains(&left), "{}", ran.text);
        let edge = ["if c0 = 1 and c1 = 1: counters kept\n", "if c0 = 1 and c1 >= 2: c0' = c0, c1' = c1 - 1, c2' = 1\n"];
        assert!(cells == 1 || ran.text.contains(edge[usize::from(cells > 2)]), "{}", ran.text);
    }
    let none = go(&source, &routine, &automaton, &Options { heap: Vec::new(), shape: 1, picks: Vec::new(), steps: 200 });
    assert_eq!((none.end, none.steps), (End::Stop, 1));
}

/// Where the wrong example leaks: never past the relink, and there by the edge for two or more cells.
#[test]
fn unlink_leak_loses_the_cell_between() {
    let (source, routine, automaton) = open("unlink-leak");
    for cells in 1..240 {
        let ran = go(&source, &routine, &automaton, &Options { heap: vec![cells], shape: 0, picks: Vec::new(), steps: 200 });
        let lost =
            "\nstep 6       statement 5: p0.next := p1.next\n  edge 11    if c0 >= 2\n  routine    FAULT 3 at statement 5: leak;";
        assert_eq!((ran.end == End::Fault(3), ran.text.contains(lost)), (cells > 2, cells > 2), "{}", ran.text);
        assert!(ran.text.contains("c0 = 2, c1 = ") == (cells > 2) && !ran.text.contains(": free p1"), "{}", ran.text);
    }
}

/// What the sister of `clear` says of itself: no fault, one edge from each start without guard and update, and every cell
/// goes, as in the loop that frees a list. Round a ring, that loop tests a pointer to a freed cell.
#[test]
fn clear_drop_clears_as_clear_does() {
    let (source, routine, automaton) = open("clear-drop");
    assert!(automaton.locations.iter().all(|l| l.fault == 0));
    assert_eq!(automaton.edges.iter().map(|e| e.from).collect::<Vec<_>>(), [0, 1, 2]);
    assert!(automaton.edges.iter().all(|e| e.guards.is_empty() && e.updates.is_empty()));
    let rings = "shape\n        p0 -> ring -> ring\nshape\n        p0 -> list -> ring -> ring\n";
    let freeing = Source::of_bytes("clear", (example("clear") + rings).into_bytes()).unwrap();
    let (other, loops) = (freeing.routine().unwrap(), freeing.automaton(ALL_PLACES).unwrap());
    let lists = (1..=240).map(|cells| (0, vec![cells]));
    let rings = (1..6).flat_map(|a| (1..6).map(move |b| (2, vec![a, b]))).chain((1..=240).map(|cells| (1, vec![cells])));
    let left = |ran: &Ran| ran.text.rsplit("\n  heap ").next().unwrap().lines().next().unwrap().trim().to_string();
    for (shape, heap) in lists.chain(rings) {
        let options = || Options { heap: heap.clone(), shape, picks: Vec::new(), steps: 1500 };
        let dropped = go(&source, &routine, &automaton, &options());
        assert_eq!((&dropped.end, dropped.steps), (&End::Stop, 1), "{}", dropped.text);
        assert!(dropped.text.contains(&format!("\n{}  heap ", went(heap.iter().sum::<u32>() as usize))), "{}", dropped.text);
        let freed = go(&freeing, &other, &loops, &options());
        assert_eq!(freed.end, if shape == 0 { End::Stop } else { End::Fault(2) }, "{}", freed.text);
        assert_eq!(left(&dropped), "p0 -> null", "{}", dropped.text);
        assert!(shape > 0 || left(&freed) == "p0, p1 -> null", "{}", freed.text);
    }
}

/// On every list, alone or with an end that is shared: the first cell stays, what nothing else leads to goes, and the
/// end belongs to the other list.
#[test]
fn drop_keeps_the_first_cell_and_the_shared_end() {
    let (source, routine, automaton) = open("drop");
    let run = |shape: usize, heap: &[u32], left: &str| {
        let options = Options { heap: heap.to_vec(), shape, picks: Vec::new(), steps: 200 };
        let ran = go(&source, &routine, &automaton, &options);
        assert_eq!((&ran.end, ran.steps), (&End::Stop, 4), "{}", ran.text);
        let last = ran.text.split("\nstep 4       statement 3: drop p1\n").nth(1).expect("a drop");
        let after_edge = last.split_once('\n').unwrap().1;
        assert!(after_edge.starts_with(&format!("{}  heap ", went(heap[0] as usize - 1))), "{last}");
        assert!(last.contains(&format!(" at statement 4 (done), {left}\n\n")), "{left} is not in\n{last}");
    };
    for cells in 1..=240 {
        run(0, &[cells], "c0 = 1");
    }
    for (list, end, other) in (1..8).flat_map(|l| (1..4).flat_map(move |e| (1..4).map(move |o| (l, e, o)))) {
        run(1, &[list, end, other], &format!("c0 = 1, c1 = {}", end + other));
    }
}

#[test]
fn one_cell_and_forty() {
    let shown = text(&printed(&["run", "examples/two-lists.txt", "--heap", "1,40"], b""));
    assert!(shown.contains("p1 -> 1 -> 2 -> .. 37 more .. -> 40 -> null\n"), "{shown}");
    assert!(shown.contains("statement 4: p2 := p2.next\n  edge 4     if c0 = 1: counters kept\n"), "{shown}");
    assert!(shown.contains("  match      location 5 at statement 5, c0 = 1, c1 = 40\n"), "{shown}");
    assert!(
        shown.ends_with(
            "9 steps and 9 edges, each pair matched. The routine stands at a stop, and no edge leaves the\nlocation.\n"
        ),
        "{shown}"
    );
}

/// What is said of tables that break the layout, in which no move is made.
const BROKEN: &str = "the tables or the counters break the layout, so no move is made (refused 20)";

/// Every change of an edge or a location of reversal that a run of three cells passes is told.
#[test]
fn a_changed_automaton_is_told() {
    let (source, routine, whole) = open("reverse");
    let three = || Options { heap: vec![3], shape: 0, picks: Vec::new(), steps: 200 };
    let right = go(&source, &routine, &whole, &three());
    let (kept, broken) = (Cell::new(0), Cell::new(0));
    let told = |change: &dyn Fn(&mut Tables), what: &str| {
        let automaton = changed(&whole, change);
        let ran = go(&source, &routine, &automaton, &three());
        let End::Mismatch(how) = ran.end else { panic!("{what}: {}", ran.text) };
        assert!(!ran.matched && ran.text.contains("\nMISMATCH after "), "{what}: {}", ran.text);
        // what breaks the layout is told so, unless the start or its statement is told before
        let keeps = automaton.keeps_layout(&configuration(0, &[3]));
        assert!(!keeps || how != BROKEN, "{what}: {}", ran.text);
        let count = if keeps { &kept } else { &broken };
        count.set(count.get() + 1);
    };
    let taken: Vec<usize> = (0..whole.edges.len()).filter(|n| right.text.contains(&format!("\n  edge {n} "))).collect();
    assert!(taken.len() > 15);
    for &n in &taken {
        let to = whole.edges[n].to;
        told(&|t| edge(t, n)[4] = ((to + 1) % whole.locations.len()) as u8, "target");
        told(&|t| edge(t, n)[1] ^= 1, "branch");
        told(&|t| edge(t, n)[2] = 12, "source");
        told(&|t| edge(t, n)[9] += 0x10, "update");
        told(&|t| drop(t.edges.drain(SIZE * n..SIZE * (n + 1))), "removed");
        told(&|t| location(t, to)[1] = (location(t, to)[1] + 1) % 8, "statement");
        told(&|t| location(t, to)[9] = 0xff, "shape");
    }
    told(&|t| edge(t, 5)[6] = 1, "guard");
    told(&|t| edge(t, 8)[6] = 2, "guard");
    told(&|t| edge(t, 5)[1] |= 1 << 1, "a second guard");
    told(&|t| location(t, 0)[8] = 0xff, "start");
    let added = |t: &mut Tables, from: u8| {
        t.edges.extend_from_within(..SIZE);
        let last = t.edges.len() / SIZE - 1;
        edge(t, last)[2] = from;
    };
    told(&|t| added(t, 12), "an edge more, from the stop");
    told(&|t| added(t, 4), "an edge more, beside the one that is enabled");
    assert!(kept.get() > 90 && broken.get() > 10, "{} changes keep the layout, {} break it", kept.get(), broken.get());
}

/// At a fault too, statement and fault must be the routine's.
#[test]
fn a_changed_fault_is_told() {
    let (source, routine, whole) = open("leak");
    let two = || Options { heap: vec![2], shape: 0, picks: Vec::new(), steps: 200 };
    assert_eq!(go(&source, &routine, &whole, &two()).end, End::Fault(3));
    for (fault, statement) in [(2, 3), (0, 3), (3, 2)] {
        let changed = changed(&whole, &|t| {
            location(t, 5)[1..3].copy_from_slice(&[statement, fault]);
            // without a fault, a shape without nodes
            location(t, 5)[4..10].fill(if fault == 0 { NULL } else { 0 });
        });
        assert!(changed.keeps_layout(&configuration(0, &[2])));
        let ran = go(&source, &routine, &changed, &two());
        assert!(matches!(ran.end, End::Mismatch(_)) && ran.steps == 3, "{fault} {statement}: {}", ran.text);
    }
}

const TESTED: &str = "\
loop: test p0 = p1
stop
shape
p0 -> undefined
p1 -> a -> null
shape
p0, p1 -> undefined
";

fn tested() -> (Source, Routine, Automaton) {
    let source = Source::of_bytes("a", TESTED.into()).unwrap();
    let (routine, automaton) = (source.routine().unwrap(), source.automaton(ALL_PLACES).unwrap());
    (source, routine, automaton)
}

/// A test that looks at an undefined pointer: the edge is neither true nor false, the routine's side and the automaton's say the
/// fault, and the heap between them is the one before.
#[test]
fn both_sides_of_a_test_that_faults() {
    let (source, routine, automaton) = tested();
    let one = go(&source, &routine, &automaton, &Options { heap: vec![3], shape: 0, picks: Vec::new(), steps: 200 });
    let heap = "  heap       p1 -> 0 -> 1 -> 2 -> null\n             p0 -> undefined\n";
    let start = format!("\nstart\n{heap}  match      location 0 at statement 0 (loop), c0 = 3\n");
    let step = format!(
        "
step 1       statement 0 (loop): test p0 = p1
  edge 0
  routine    FAULT 2 at statement 0 (loop): p0 is undefined; branch 0, the heap stays
{heap}  match      location 2: FAULT 2 at statement 0 (loop), looks at p0, which is undefined:
                 its cell was freed, or it never had one

1 step and 1 edge, each pair matched. The run ends with fault 2, an undefined pointer, and no edge
leaves the location.
"
    );
    assert!(one.text.ends_with(&(start + &step)), "{}", one.text);
    let two = go(&source, &routine, &automaton, &Options { heap: Vec::new(), shape: 1, picks: Vec::new(), steps: 200 });
    let step = "
  edge 1
  routine    FAULT 2 at statement 0 (loop): p0 and p1 are undefined; branch 0, the heap stays
  heap       p0, p1 -> undefined
  match      location 2: FAULT 2 at statement 0 (loop), looks at p0 and p1, which are undefined:
                 their cells were freed, or they never had one
";
    assert!(two.text.contains(step), "{}", two.text);
}

#[test]
fn a_fault_at_a_long_label() {
    let shown = text(&printed(&["run", "-", "--shape", "1"], TESTED.replace("loop", &"x".repeat(300)).as_bytes()));
    assert!(
        shown.contains("\n  routine    FAULT 2 at statement 0 (xxxxxxxxxxxxxxxxxxxxxx..): p0 and p1 are undefined;"),
        "{shown}"
    );
    assert!(shown.lines().all(|l| l.chars().count() <= 100), "{shown}");
}

/// The routine's side is the step's answer, whatever the automaton says.
#[test]
fn the_routine_speaks_for_itself() {
    let (source, routine, whole) = tested();
    let said = |change: &dyn Fn(&mut Tables), expected: &str| {
        let options = Options { heap: vec![3], shape: 0, picks: Vec::new(), steps: 200 };
        let ran = go(&source, &routine, &changed(&whole, change), &options);
        let side = "\n  routine    FAULT 2 at statement 0 (loop): p0 is undefined; branch 0, the heap stays\n";
        assert!(matches!(ran.end, End::Mismatch(_)) && ran.text.contains(side), "{}", ran.text);
        assert!(ran.text.contains(expected), "{expected} is not in\n{}", ran.text);
    };
    said(&|t| location(t, 2)[2] = 3, "\n  MISMATCH   location 2: FAULT 3 at statement 0 (loop), a cell is lost (leak):");
    said(
        &|t| location(t, 2)[2] = 1,
        "\n  MISMATCH   location 2: FAULT 1 at statement 0 (loop), looks at a pointer, which is null\n",
    );
    said(&|t| location(t, 2)[1] = 1, "\n  MISMATCH   location 2: FAULT 2 at statement 1, ");
    // back to the start, with its counter
    let back = |t: &mut Tables| {
        edge(t, 0)[4] = 0;
        edge(t, 0)[8..10].copy_from_slice(&[0x01, 0x10]);
    };
    said(&back, "\n  MISMATCH   location 0 at statement 0 (loop), c0 = 3\n");
    said(&|t| edge(t, 0)[1] = 1, "\nMISMATCH after 0 matching steps: 0 edges of branch 0 are enabled");
    said(&|t| edge(t, 0)[6] = 3, "\nMISMATCH after 0 matching steps: the tables or the counters break the layout, so no move");
}

/// At `p2 := p2.next` with two lists, by the counter of the first alone.
#[test]
fn guards_hold_of_their_own_counter() {
    let (_, _, automaton) = open("two-lists");
    assert_eq!(automaton.edges[4].guards, [Guard::IsOne(0)]);
    assert_eq!(automaton.edges[5].guards, [Guard::AtLeastTwo(0)]);
    for (counters, expected) in [([1, 5], 4), ([1, 1], 4), ([2, 1], 5), ([40, 1], 5), ([u32::MAX, 7], 5)] {
        assert_eq!(automaton.follow(&mut configuration(4, &counters), 0), Ok(expected), "{counters:?}");
    }
}

/// Of the edges of a relink the one whose guards all hold is taken; a move along another is refused and changes nothing.
#[test]
fn both_guards_must_hold() {
    let source = Source::of_bytes("a", RELINKED.into()).unwrap();
    let automaton = source.automaton(ALL_PLACES).unwrap();
    for (counters, expected) in [([1, 1], 0), ([1, 2], 1), ([1, u32::MAX], 1), ([2, 1], 2), ([2, 2], 2), ([u32::MAX, 1], 2)] {
        let start = configuration(0, &counters);
        for edge in 0..3 {
            let mut at = start;
            let refusal = automaton.make_move(&mut at, edge);
            assert_eq!((refusal, at == start), if edge == expected { (0, false) } else { (20, true) }, "{counters:?}");
        }
        let mut at = start;
        let none = Err("0 edges of branch 1 are enabled at location 0".to_string());
        assert_eq!((automaton.follow(&mut at, 1), at), (none, start));
        assert_eq!(automaton.follow(&mut at, 0), Ok(expected));
        assert_eq!(at.location as usize, automaton.edges[expected].to);
    }
}

/// No heap image is so large, so a run never meets it.
#[test]
fn a_counter_past_32_bits_is_told() {
    let (_, _, automaton) = open("reverse");
    let follow = |counters: [u32; 2]| {
        let mut at = configuration(18, &counters);
        (automaton.follow(&mut at, 0), at)
    };
    assert_eq!(follow([u32::MAX - 1, 1]), (Ok(22), configuration(10, &[u32::MAX])));
    let told = Err("edge 22 would take a counter past 32 bits (refused 21)".to_string());
    assert_eq!(follow([u32::MAX, 1]), (told, configuration(18, &[u32::MAX, 1])));
}

/// A second guard that is left out, turned round or put on the other node, where the run passes it.
#[test]
fn a_changed_second_guard_is_told() {
    let (source, routine, whole) = open("unlink");
    let told = |cells: u32, change: &dyn Fn(&mut Tables)| {
        let options = Options { heap: vec![cells], shape: 0, picks: Vec::new(), steps: 200 };
        matches!(go(&source, &routine, &changed(&whole, change), &options).end, End::Mismatch(_))
    };
    // byte 1 with a second guard of this kind, on this node
    let second = |kind: u8, node: u8| kind << 1 | node << 3;
    assert_eq!(whole.edges[6].guards, [Guard::IsOne(0), Guard::IsOne(1)]);
    assert_eq!(whole.edges[7].guards, [Guard::IsOne(0), Guard::AtLeastTwo(1)]);
    assert_eq!(whole.edges[8].guards, [Guard::AtLeastTwo(0)]);
    // without its second guard an edge is enabled beside the other one; that of edge 7 keeps c1 - 1 from being 0
    assert!(told(3, &|t| edge(t, 6)[1] = 0) && !told(2, &|t| edge(t, 6)[1] = 0));
    assert!(told(3, &|t| edge(t, 7)[1] = 0) && told(2, &|t| edge(t, 7)[1] = 0));
    for cells in [2, 3] {
        assert!(!told(cells, &|_| {}));
        assert!(told(cells, &|t| edge(t, 6)[1] = second(2, 1)));
        assert!(told(cells, &|t| edge(t, 7)[1] = second(1, 1)));
        assert!(told(cells, &|t| edge(t, 8)[6] = 1));
    }
    assert!(told(3, &|t| edge(t, 6)[1] = second(1, 0)));
    assert!(told(3, &|t| edge(t, 7)[1] = second(2, 0)));
}

/// A relink from each of these shapes.
const RELINKED: &str = "\
p0.next := p1.next
stop
shape                       # 0: p1's cells follow those of p0
p0 -> a -> b -> null
p1 -> b
shape                       # 1: the same cell
p0, p1 -> a -> null
shape                       # 2: p1 null, p0 undefined
p0 -> undefined
shape                       # 3: p1 undefined, p0 null
p1 -> undefined
shape                       # 4: p0 null
p1 -> a -> null
shape                       # 5: p0 undefined
p0 -> undefined
p1 -> a -> null
shape                       # 6: both null
shape                       # 7: both undefined
p0, p1 -> undefined
shape                       # 8: a ring that nothing but p0 reaches
p0 -> a -> c -> c
p1 -> b
";

/// The first step of a run from one of them, and how the run ends.
fn relinked(shape: usize, heap: &[u32]) -> (String, End) {
    let source = Source::of_bytes("a", RELINKED.into()).unwrap();
    let (routine, automaton) = (source.routine().unwrap(), source.automaton(ALL_PLACES).unwrap());
    let ran = go(&source, &routine, &automaton, &Options { heap: heap.to_vec(), shape, picks: Vec::new(), steps: 200 });
    assert!(ran.matched && ran.steps == 1, "{}", ran.text);
    let step = ran.text.split("\nstep 1       statement 0: p0.next := p1.next\n").nth(1).expect("a step");
    (step.split("\n\n").next().unwrap().to_string(), ran.end)
}

#[test]
fn relinks_that_lose_nothing() {
    let cases: [(usize, &[u32], &str); 4] = [
        (
            0,
            &[1, 1],
            "  edge 0     if c0 = 1 and c1 = 1: counters kept
  heap       p0 -> 0 -> null
             p1 -> 1 -> null
  match      location 9 at statement 1, c0 = 1, c1 = 1",
        ),
        (
            0,
            &[1, 3],
            "  edge 1     if c0 = 1 and c1 >= 2: c0' = c0, c1' = c1 - 1, c2' = 1
  heap       p0 -> 0 -> 2 -> 3 -> null
             p1 -> 1 -> 2
  match      location 10 at statement 1, c0 = 1, c1 = 2, c2 = 1",
        ),
        (
            1,
            &[1],
            "  edge 3     counters kept
  heap       p0, p1 -> 0 -> null
  match      location 12 at statement 1, c0 = 1",
        ),
        (
            1,
            &[4],
            "  edge 3     counters kept
  heap       p0, p1 -> 0 -> 1 -> 2 -> 3 -> null
  match      location 12 at statement 1, c0 = 4",
        ),
    ];
    for (shape, heap, expected) in cases {
        assert_eq!(relinked(shape, heap), (expected.into(), End::Stop), "shape {shape}, heap {heap:?}");
    }
}

/// The routine's side and the automaton's blame the same pointer: p1 where it leads to no cell, whatever p0 holds, else p0.
#[test]
fn relinks_that_fault() {
    let none: &[u32] = &[];
    let lost = "a cell is lost (leak):\n                 no pointer reaches it any more";
    let freed = "which is undefined:\n                 its cell was freed, or it never had one";
    let cases = [
        (0, &[2, 1][..], "if c0 >= 2", 3, "leak", lost.to_string()),
        (0, &[3, 5], "if c0 >= 2", 3, "leak", lost.into()),
        (8, &[1, 1, 1], "if c0 = 1 and c2 = 1", 3, "leak", lost.into()),
        (8, &[1, 4, 2], "if c0 = 1 and c2 >= 2", 3, "leak", lost.into()),
        (2, none, "", 1, "p1 is null", "reads through p1, which is null".into()),
        (3, none, "", 2, "p1 is undefined", format!("reads through p1, {freed}")),
        (4, &[2], "", 1, "p0 is null", "writes through p0, which is null".into()),
        (5, &[2], "", 2, "p0 is undefined", format!("writes through p0, {freed}")),
        (6, none, "", 1, "p1 is null", "reads through p1, which is null".into()),
        (7, none, "", 2, "p1 is undefined", format!("reads through p1, {freed}")),
    ];
    for (shape, heap, condition, fault, cause, words) in cases {
        let (step, end) = relinked(shape, heap);
        assert_eq!(end, End::Fault(fault), "{step}");
        let edge = step.lines().next().unwrap();
        assert_eq!(edge.get(13..).unwrap_or(""), condition, "{step}");
        let side = format!("\n  routine    FAULT {fault} at statement 0: {cause}; branch 0, the heap stays\n");
        assert!(step.contains(&side), "{side} is not in\n{step}");
        assert!(step.ends_with(&format!(": FAULT {fault} at statement 0, {words}")), "{words} is not in\n{step}");
    }
}

/// A drop from each of these shapes.
const DROPPED: &str = "\
drop p0
stop
shape                       # 0: a list of its own
p0 -> a -> null
shape                       # 1: its end is that of the list at p1 too
p0 -> a -> c -> null
p1 -> b -> c
shape                       # 2: p1 leads to all of it
p0, p1 -> a -> null
shape                       # 3: a list that runs into a ring
p0 -> a -> b -> b
shape                       # 4: the same, and p1 leads to the ring
p0 -> a -> b -> b
p1 -> b
shape                       # 5: p0 null
shape                       # 6: p0 undefined
p0 -> undefined
p1 -> a -> null
";

/// What is printed of the only step of a run from one of them, with this statement first, and how the run ends.
fn dropped(statement: &str, shape: usize, heap: &[u32]) -> (String, End) {
    let source = Source::of_bytes("a", DROPPED.replacen("drop p0", statement, 1).into_bytes()).unwrap();
    let (routine, automaton) = (source.routine().unwrap(), source.automaton(ALL_PLACES).unwrap());
    let ran = go(&source, &routine, &automaton, &Options { heap: heap.to_vec(), shape, picks: Vec::new(), steps: 200 });
    assert!(ran.matched && ran.steps == 1, "{}", ran.text);
    let step = ran.text.split(&format!("\nstep 1       statement 0: {statement}\n")).nth(1).expect("a step");
    (step.split("\n\n").next().unwrap().to_string(), ran.end)
}

/// How many cells went, in words, and nothing where none did; then the heap and the counters as for any other step.
#[test]
fn drops_say_how_many_cells_went() {
    let none = "  heap       p0, p1 -> null\n  match      location 7 at statement 1";
    let list = "  heap       p1 -> 0 -> 1 -> 2 -> null
             p0 -> null
  match      location 8 at statement 1, c0 = 3";
    let cases: [(usize, &[u32], String); 9] = [
        (0, &[1], format!("  edge 0\n  routine    1 cell went\n{none}")),
        (0, &[2], format!("  edge 0\n  routine    2 cells went\n{none}")),
        (0, &[240], format!("  edge 0\n  routine    240 cells went\n{none}")),
        (
            1,
            &[2, 1, 2],
            "  edge 1     c0' = c1 + c2
  routine    2 cells went
  heap       p1 -> 3 -> 4 -> 2 -> null
             p0 -> null
  match      location 8 at statement 1, c0 = 3"
                .into(),
        ),
        (2, &[3], format!("  edge 2     counters kept\n{list}")),
        (3, &[1, 2], format!("  edge 3\n  routine    3 cells went\n{none}")),
        (
            4,
            &[1, 2],
            "  edge 4     c0' = c1
  routine    1 cell went
  heap       p1 -> 1 -> 2 -> 1
             p0 -> null
  match      location 9 at statement 1, c0 = 2"
                .into(),
        ),
        (5, &[], format!("  edge 5\n{none}")),
        (6, &[3], format!("  edge 6     counters kept\n{list}")),
    ];
    for (shape, heap, expected) in cases {
        assert_eq!(dropped("drop p0", shape, heap), (expected, End::Stop), "shape {shape}, heap {heap:?}");
    }
}

/// Setting the pointer to null leaks exactly where a drop lets cells go, and no step but a drop says that cells went.
#[test]
fn what_a_drop_lets_go_is_a_leak_otherwise() {
    let heaps: [&[u32]; 7] = [&[3], &[2, 1, 2], &[3], &[1, 2], &[1, 2], &[], &[3]];
    for (shape, heap) in heaps.into_iter().enumerate() {
        let (step, _) = dropped("drop p0", shape, heap);
        let (other, end) = dropped("p0 := null", shape, heap);
        let went = step.contains(" went\n");
        assert_eq!(went, [0, 1, 3, 4].contains(&shape), "{step}");
        assert_eq!(end, if went { End::Fault(3) } else { End::Stop }, "{other}");
        assert!(!other.contains(" went"), "{other}");
    }
    let (freed, end) = dropped("free p0", 0, &[1]);
    assert!(end == End::Stop && freed.contains("p0 -> undefined") && !freed.contains(" went"), "{freed}");
}

/// A drop that carries the counter of cells that went, leaves out that of cells that stay, or has a guard.
#[test]
fn a_changed_drop_is_told() {
    let (source, routine, whole) = open("drop");
    let told = |change: &dyn Fn(&mut Tables)| {
        let options = Options { heap: vec![4, 2, 3], shape: 1, picks: Vec::new(), steps: 200 };
        matches!(go(&source, &routine, &changed(&whole, change), &options).end, End::Mismatch(_))
    };
    let at_drop = |n: usize| routine.statements[whole.locations[whole.edges[n].from].statement].op == Op::Drop;
    let adds = |u: &Update, counters: &[usize]| u.constant == 0 && u.added().eq(counters.iter().copied());
    let shared = |n: usize| whole.edges[n].updates.iter().any(|u| adds(u, &[2, 3]));
    let n = (0..whole.edges.len()).find(|&n| at_drop(n) && shared(n)).expect("the drop where the end is shared");
    // an update that is one old counter, for this new node
    let carry = |t: &mut Tables, node: usize, counter: u8| edge(t, n)[8 + 2 * node..][..2].copy_from_slice(&[1 << counter, 0x10]);
    assert!(!told(&|_| {}) && !told(&|t| carry(t, 0, 0)));
    for counter in [1, 2] {
        assert!(told(&|t| carry(t, 1, counter)), "c{counter} alone");
    }
    assert!(told(&|t| carry(t, 2, 1)));
    assert!(told(&|t| edge(t, n)[10..12].fill(0)));
    assert!(told(&|t| edge(t, n)[11] += 0x10));
    assert!(told(&|t| edge(t, n)[6..8].copy_from_slice(&[1, 1])));
    let leak = whole.locations.iter().position(|l| l.fault == 3).unwrap();
    assert!(told(&|t| {
        edge(t, n)[4] = leak as u8;
        edge(t, n)[8..].fill(0);
    }));
}

/// The guard on the sum of all counters, which was the old fault. With it a counter could fall to 0, so the tables break the
/// layout and no move is made.
#[test]
fn a_guard_on_the_sum_is_told() {
    let (source, routine, whole) = open("two-lists");
    // 41 cells in all: by the sum, only the edge for two or more is open
    assert_eq!((&whole.edges[4].guards[..], whole.edges[5].from), (&[Guard::IsOne(0)][..], 4));
    let automaton = changed(&whole, &|t| {
        edge(t, 5)[7] = 1;
        t.edges.drain(SIZE * 4..SIZE * 5);
    });
    assert_eq!(automaton.edges[4].guards, [Guard::AtLeastTwo(1)]);
    let ran = go(&source, &routine, &automaton, &Options { heap: vec![1, 40], shape: 0, picks: Vec::new(), steps: 200 });
    assert_eq!(ran.end, End::Mismatch(BROKEN.into()), "{}", ran.text);
}

/// What is printed of a run of a text without cells, in one line.
fn go_text(body: &str) -> String {
    text(&printed(&["run", "-"], body.as_bytes())).replace('\n', " ")
}

#[test]
fn how_runs_end() {
    let ends = |words: &[&str], status: i32, expected: &str| {
        let done = tool(words, b"");
        let said = (text(&done.stdout) + &text(&done.stderr)).replace('\n', " ");
        assert!(said.contains(expected), "{expected} is not in {said}");
        assert_eq!(done.status.code(), Some(status), "{said}");
    };
    ends(
        &["run", "examples/insert.txt", "--heap", "2"],
        0,
        "2 steps and 2 edges, each pair matched. The run waits at choose: --picks has no pick left.",
    );
    ends(
        &["run", "examples/ring.txt", "--heap", "2", "--picks", "0,0,0", "--steps", "4"],
        0,
        "4 steps and 4 edges, each pair matched. The run could go on",
    );
    for (file, cells, words) in [
        ("leak", "2", "fault 3, a leak"),
        ("unlink-leak", "3", "fault 3, a leak"),
        ("freed", "2", "fault 2, an undefined pointer"),
    ] {
        let expected = format!("The run ends with {words}, and no edge leaves the location.");
        ends(&["run", &format!("examples/{file}.txt"), "--heap", cells], 0, &expected);
    }
    let null = go_text("p1 := p0.next\nstop\nshape\n");
    assert!(null.contains("The run ends with fault 1, a null pointer, and no edge leaves the location."), "{null}");
    ends(&["run", "examples/insert.txt", "--shape", "1"], 0, "The routine stands at a stop");
    ends(&["run", "examples/insert.txt", "--shape", "2"], 2, "--shape 2: the routine has 2 starting shapes, counted from 0");
    let drawn = "starting shape 0 needs 2, one for each node:     p0 -> n0(c0) -> null     p1 -> n1(c1) -> null";
    ends(&["run", "examples/two-lists.txt", "--heap", "3"], 2, drawn);
    ends(&["run", "examples/two-lists.txt", "--heap", "3,x"], 2, "--heap takes numbers with commas between them, not `x`");
}
