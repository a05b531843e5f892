//! Graphs and pictures.

mod common;

use common::{example, folder, printed, text, Draw};
use tool::automaton::{tables, Automaton, ALL_PLACES};
use tool::drawing::shape_lines;
use tool::names;
use tool::source::Source;
use tool::text::assemble;

#[test]
fn a_graph_has_every_location_and_edge() {
    for name in common::EXAMPLES {
        let shown = text(&printed(&["translate", &format!("examples/{name}.txt"), "--dot"], b""));
        let automaton = tables(&assemble(&example(name)).unwrap().records, ALL_PLACES).map(Automaton::read).unwrap();
        let count = |what: &str| shown.lines().filter(|l| l.contains(what)).count();
        assert_eq!(count("[label=<<B>location "), automaton.locations.len());
        assert_eq!(count(" -> l"), automaton.edges.len());
        for (number, location) in automaton.locations.iter().enumerate() {
            let line = shown.lines().find(|l| l.starts_with(&format!("  l{number} ["))).unwrap();
            assert_eq!(line.contains("fillcolor"), location.fault != 0, "{line}");
            assert_eq!(line.contains("penwidth"), line.contains(", start</B>"), "{line}");
        }
        for (edge, line) in automaton.edges.iter().zip(shown.lines().filter(|l| l.contains(" -> l"))) {
            assert!(line.starts_with(&format!("  l{} -> l{} [", edge.from, edge.to)), "{line}");
        }
    }
}

/// What a box or an arrow says: its lines, quoted.
fn said(lines: &[String]) -> String {
    lines.iter().map(|l| l.replace('>', "&gt;") + "<BR ALIGN=\"LEFT\"/>").collect()
}

#[test]
fn boxes_and_arrows_say_what_the_listing_says() {
    let mut d = Draw::new(9);
    let mut faults = [0; 4];
    for _ in 0..400 {
        let source = Source::of_bytes("a", d.routine(9)).unwrap();
        let Ok(automaton) = source.automaton(ALL_PLACES) else { continue };
        let routine = source.routine().unwrap();
        let shown = tool::graph::dot(&source, &routine, &automaton);
        for (number, location) in automaton.locations.iter().enumerate() {
            let line = shown.lines().find(|l| l.starts_with(&format!("  l{number} ["))).unwrap();
            let statement = &routine.statements[location.statement];
            let mut lines = vec![format!("{}: {}", location.statement, names::statement(statement))];
            let short = |pieces: &Vec<String>| pieces.join(" ").len() <= 52;
            if location.fault != 0 {
                let entering = automaton.edges.iter().filter(|e| e.to == number);
                let reached: Vec<_> = entering.map(|e| automaton.locations[e.from].shape.pointers).collect();
                lines.extend(names::fault(location.fault, statement, &reached));
                assert!(line.contains(&format!("FAULT {}</B>", location.fault)), "{line}");
            } else if shape_lines(&location.shape, &routine.idle_pointers()).iter().all(short) {
                lines.extend(shape_lines(&location.shape, &routine.idle_pointers()).iter().map(|p| p.join(" ")));
            }
            assert!(line.replace("&#160;", " ").contains(&said(&lines)), "{lines:?} is not in {line}");
            assert_eq!(line.contains("fillcolor"), location.fault != 0, "{line}");
            faults[location.fault as usize] += 1;
        }
        for (edge, line) in automaton.edges.iter().zip(shown.lines().filter(|l| l.contains(" -> l"))) {
            let from = &automaton.locations[edge.from];
            let to = &automaton.locations[edge.to];
            let mut lines = vec![names::condition(edge, &routine.statements[from.statement], to)];
            lines.extend(names::updates(edge, from.shape.count));
            lines.retain(|l| !l.is_empty() && l != "counters kept");
            assert!(line.contains(&said(&lines)), "{lines:?} is not in {line}");
        }
    }
    assert!(faults.iter().all(|&n| n > 50), "{faults:?}");
}

/// A test that looks at an undefined pointer: the box names the pointers, and the arrow is neither true nor false.
#[test]
fn the_box_of_a_test_that_faults() {
    let box_of = |shapes: &str| {
        let shown = text(&printed(&["translate", "-", "--dot"], format!("test p0 = p1\nstop\n{shapes}").as_bytes()));
        let found = shown.lines().find(|l| l.contains(", FAULT 2</B>")).map(String::from);
        let arrows: Vec<String> = shown.lines().filter(|l| l.contains(" -> l")).map(|l| l.trim().into()).collect();
        (found.expect("a box with FAULT 2"), arrows)
    };
    let (both, arrows) = box_of("shape\np0, p1 -> undefined\n");
    let lines = ["0: test p0 = p1", "looks at p0 and p1, which are undefined:", "their cells were freed, or they never had one"];
    let expected = format!("<B>location 1, FAULT 2</B><BR ALIGN=\"LEFT\"/>{}>", said(&lines.map(String::from)));
    assert!(both.contains(&expected), "{expected} is not in {both}");
    assert_eq!(arrows, ["l0 -> l1 [label=\"\"]"]);
    let (either, arrows) = box_of("shape\np0 -> undefined\nshape\np1 -> undefined\n");
    let lines = ["looks at p0 or p1, which is undefined:", "its cell was freed, or it never had one"];
    assert!(either.contains(&said(&lines.map(String::from))), "{either}");
    assert_eq!(arrows, ["l0 -> l2 [label=\"\"]", "l1 -> l2 [label=\"\"]"]);
}

/// The arrows of a relink, with both guards, and the box of its fault.
#[test]
fn the_arrows_of_a_relink() {
    let graph = |chains: &str| {
        let body = format!("p0.next := p1.next\nstop\nshape\n{chains}\n");
        text(&printed(&["translate", "-", "--dot"], body.as_bytes()))
    };
    let arrow = |to: usize, lines: &[&str]| {
        let lines: Vec<String> = lines.iter().map(|l| l.to_string()).collect();
        let table = format!("<<TABLE BORDER=\"0\" CELLPADDING=\"3\"><TR><TD>{}</TD></TR></TABLE>>", said(&lines));
        format!("  l0 -> l{to} [label={}]\n", if lines.is_empty() { "\"\"".into() } else { table })
    };
    let two_nodes = arrow(1, &["if c0 = 1 and c1 = 1"])
        + &arrow(2, &["if c0 = 1 and c1 >= 2", "c0' = c0", "c1' = c1 - 1", "c2' = 1"])
        + &arrow(3, &["if c0 >= 2"]);
    let shown = graph("p0 -> a -> b -> null\np1 -> b");
    assert!(shown.ends_with(&format!("{two_nodes}}}\n")), "{shown}");
    assert!(shown.contains("  l0 [label=<<B>location 0, start</B><BR ALIGN=\"LEFT\"/>0: p0.next := p1.next<BR "), "{shown}");
    for (chains, words) in [
        ("p0 -> undefined", Some("reads through p1, which is null")),
        ("p1 -> a", Some("writes through p0, which is null")),
        ("p0, p1 -> a", None),
    ] {
        let shown = graph(chains);
        assert!(shown.ends_with(&format!("{}}}\n", arrow(1, &[]))), "{shown}");
        let lines = words.map_or(Vec::new(), |w| vec!["0: p0.next := p1.next".to_string(), w.into()]);
        assert!(shown.contains(&said(&lines)), "{lines:?} is not in {shown}");
    }
}

/// The arrow of a drop has no condition, and no words at all where no counter is left or all are kept. No box has a
/// fault.
#[test]
fn the_arrow_of_a_drop() {
    for (chains, lines) in [
        ("p0 -> a", &[][..]),
        ("p0, p1 -> a", &[]),
        ("p0 -> undefined", &[]),
        ("p0 -> a\np1 -> b", &["c0' = c1"]),
        ("p0 -> a -> c\np1 -> b -> c", &["c0' = c1 + c2"]),
        ("p0 -> a -> c -> c\np1 -> b -> c", &["c0' = c2", "c1' = c1"]),
    ] {
        let body = format!("drop p0\nstop\nshape\n{chains}\n");
        let shown = text(&printed(&["translate", "-", "--dot"], body.as_bytes()));
        let lines: Vec<String> = lines.iter().map(|l| l.to_string()).collect();
        let table = format!("<<TABLE BORDER=\"0\" CELLPADDING=\"3\"><TR><TD>{}</TD></TR></TABLE>>", said(&lines));
        let label = if lines.is_empty() { "\"\"".into() } else { table };
        assert!(shown.ends_with(&format!("  l0 -> l1 [label={label}]\n}}\n")), "{shown}");
        assert!(shown.contains("  l0 [label=<<B>location 0, start</B><BR ALIGN=\"LEFT\"/>0: drop p0<BR "), "{shown}");
        assert!(!shown.contains("fillcolor"), "{shown}");
    }
}

#[test]
fn without_graphviz_nothing_is_written() {
    let file = folder("no-graphviz").join("picture.svg");
    std::fs::write(&file, "as it was").unwrap();
    let mut asked = common::command();
    let done =
        asked.env("PATH", folder("no-programs")).args(["translate", "examples/leak.txt", "--svg"]).arg(&file).output().unwrap();
    assert_eq!(done.status.code(), Some(2));
    let said = text(&done.stderr);
    assert!(said.contains("package `graphviz`") && said.contains("--dot"), "{said}");
    assert_eq!(std::fs::read_to_string(&file).unwrap(), "as it was");
}
