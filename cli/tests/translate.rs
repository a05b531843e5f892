//! Listings, hex, graphs and pictures.

mod common;

use common::{example, root, text, tool, Draw};
use std::collections::HashMap;
use tool::automaton::{Tables, ALL_PLACES};
use tool::listing::Listing;
use tool::record::{Op, NULL, SIZE};
use tool::source::Source;
use tool::style::Style;

fn listing(source: &Source) -> Option<(String, Tables)> {
    let (automaton, routine) = (source.automaton(ALL_PLACES).ok()?, source.routine().unwrap());
    let text = Listing { source, routine: &routine, automaton: &automaton, style: Style::PLAIN }.text();
    Some((text, automaton.tables))
}

fn of_text(name: &str) -> Source {
    Source::of_bytes(name, example(name).into_bytes()).unwrap()
}

#[test]
fn hex_is_what_the_program_prints() {
    let mut cases = 0;
    for entry in std::fs::read_dir(root().join("tests/cases")).unwrap() {
        let input = entry.unwrap().path();
        if input.extension().is_some_and(|e| e == "in") {
            let done = tool(&["translate", input.to_str().unwrap(), "--hex"], b"");
            let expected = std::fs::read(input.with_extension("out")).unwrap();
            assert!(!expected.is_empty() && done.stdout == expected, "{} gives\n{}", input.display(), text(&done.stdout));
            assert_eq!(done.status.code(), Some(i32::from(expected.starts_with(b"refused"))), "{}", input.display());
            cases += 1;
        }
    }
    assert!(cases >= 30, "only {cases} cases");
}

#[test]
fn hex_judges_the_first_4096_bytes() {
    // 128 S records, and one byte too many
    let mut records = vec![0x53; 4096];
    records.push(0);
    let cut = tool(&["translate", "-", "--hex"], &records);
    assert_eq!((text(&cut.stdout), cut.status.code()), ("refused 2 0\n".into(), Some(1)));
    let whole = tool(&["translate", "-"], &records);
    assert_eq!(whole.status.code(), Some(1));
    assert!(text(&whole.stderr).contains("refused 1"), "{}", text(&whole.stderr));
}

/// A listing's blocks, with wrapped lines joined.
fn joined(listing: &str) -> Vec<Vec<String>> {
    let mut out: Vec<Vec<String>> = Vec::new();
    for block in listing.split("\n\n") {
        let mut lines: Vec<String> = Vec::new();
        for line in block.lines() {
            if line.starts_with(&" ".repeat(19)) {
                lines.last_mut().unwrap().push_str(&format!(" {}", line.trim()));
            } else {
                lines.push(line.into());
            }
        }
        out.push(lines);
    }
    out
}

fn number(word: &str) -> u8 {
    word.trim_start_matches(|c: char| !c.is_ascii_digit()).split(|c: char| !c.is_ascii_digit()).next().unwrap().parse().unwrap()
}

/// The L record that a block of the listing tells of.
fn location_record(block: &[String]) -> [u8; 32] {
    let mut record = [0; 32];
    record[0] = 0x4c;
    let said = &block[0][15..];
    let statement = said.split_once("statement ").unwrap().1;
    record[1] = number(statement);
    if said.starts_with("FAULT") {
        record[2] = number(said);
        return record;
    }
    record[4..10].fill(0xfe);
    let mut nodes = HashMap::new();
    for chain in block[1..].iter().filter(|l| l.starts_with("     ")).flat_map(|l| l.trim().split("   ")) {
        let parts: Vec<&str> = chain.split(" -> ").collect();
        let value = |part: &str| match part {
            "null" => 0xfe,
            "undefined" => 0xff,
            node => number(node),
        };
        if parts.len() > 1 {
            parts[0].split(", ").for_each(|p| record[4 + number(p) as usize] = value(parts[1]));
            nodes.extend(parts[1..].windows(2).map(|w| (value(w[0]), value(w[1]))));
        }
    }
    record[3] = nodes.len() as u8;
    nodes.iter().for_each(|(node, next)| record[10 + *node as usize] = *next);
    record
}

/// The kind and the node of a guard in words.
fn guard_bytes(guard: &str) -> (u8, u8) {
    assert!(guard.ends_with(" = 1") || guard.ends_with(" >= 2"), "{guard}");
    (if guard.ends_with(" = 1") { 1 } else { 2 }, number(guard))
}

/// The E record that a line of the listing tells of.
fn edge_record(line: &str, from: usize, old: u8, new: u8) -> [u8; 32] {
    let (condition, rest) = line[15..].split_once("to location ").unwrap();
    let condition = condition.trim();
    let mut record = [0; 32];
    record[0] = 0x45;
    record[1] = u8::from(condition == "false" || condition == "pick 1");
    record[2..4].copy_from_slice(&(from as u16).to_le_bytes());
    let to: u16 = rest.split(|c: char| !c.is_ascii_digit()).next().unwrap().parse().unwrap();
    record[4..6].copy_from_slice(&to.to_le_bytes());
    if let Some(guards) = condition.strip_prefix("if ") {
        let each: Vec<(u8, u8)> = guards.split(" and ").map(guard_bytes).collect();
        (record[6], record[7]) = each[0];
        each[1..].iter().for_each(|(kind, node)| record[1] |= kind << 1 | node << 3);
    }
    if rest.contains("FAULT") {
        assert!(condition.is_empty() || condition.starts_with("if "), "{line}");
        return record;
    }
    let updates: Vec<String> = match rest.split_once(": ").map_or("", |u| u.1) {
        "" => Vec::new(),
        "counters kept" => (0..old).map(|n| format!("c{n}' = c{n}")).collect(),
        told => told.split(", ").map(String::from).collect(),
    };
    assert_eq!(updates.len(), new as usize, "{line}");
    for (n, update) in updates.iter().enumerate() {
        let sum = update.strip_prefix(&format!("c{n}' = ")).unwrap();
        let mut bits: u16 = 1 << 12;
        for term in sum.replace("- ", "+ -").split(" + ") {
            match term.trim() {
                "-1" => bits -= 1 << 12,
                "1" => bits += 1 << 12,
                "0" => {}
                counter => bits |= 1 << number(counter),
            }
        }
        record[8 + 2 * n..10 + 2 * n].copy_from_slice(&bits.to_le_bytes());
    }
    record
}

/// The pointers that a location's statement goes through or looks at, by its words; a relink looks at the right one first.
fn looked_at(block: &[String]) -> Vec<&str> {
    let words = || block[0].rsplit_once(": ").unwrap().1.split(' ');
    let mut pointers: Vec<&str> = words().rev().filter_map(|w| w.strip_suffix(".next")).collect();
    if pointers.is_empty() {
        pointers = words().filter(|w| w.starts_with('p')).collect();
    }
    pointers.dedup();
    pointers
}

/// Those that hold the value of a fault. A relink goes no further than the first that leads to no cell.
fn holding(block: &[String], value: u8) -> Vec<&str> {
    let location = location_record(block);
    let holds = |p: &&str| location[4 + number(p) as usize];
    let looked = looked_at(block).into_iter();
    match block[0].matches(".next").count() {
        2 => looked.skip_while(|p| holds(p) < 0xfe).take(1).filter(|p| holds(p) == value).collect(),
        _ => looked.filter(|p| holds(p) == value).collect(),
    }
}

/// Where the edges of a block lead to fault 1 or 2, each with the pointers to blame, by the shape that is drawn; and that they say so.
fn blamed(block: &[String]) -> Vec<(usize, Vec<&str>)> {
    let mut out = Vec::new();
    for (lead, said) in block.iter().filter_map(|line| line.split_once(", FAULT ")) {
        let fault = number(said);
        let who = holding(block, if fault == 1 { 0xfe } else { 0xff });
        let what = match (fault, &who[..]) {
            (1, [one]) => format!("{one} is null"),
            (2, [one]) => format!("{one} is undefined"),
            (2, [one, other]) => format!("{one} and {other} are undefined"),
            (3, _) => "leak".into(),
            _ => panic!("{block:?}"),
        };
        assert_eq!(said, format!("{fault}: {what}"), "{block:?}");
        if fault < 3 {
            out.push((lead.rsplit_once(' ').unwrap().1.parse().unwrap(), who));
        }
    }
    out
}

/// At each fault the listing names the pointers to blame. How often it is one, both, and one or the other.
fn faults_name_their_pointers(listing: &str) -> [usize; 3] {
    let blocks = joined(listing);
    let told = &blocks[1..blocks.len() - 1];
    let mut blames: HashMap<usize, Vec<Vec<&str>>> = HashMap::new();
    told.iter().flat_map(|b| blamed(b)).for_each(|(at, who)| blames.entry(at).or_default().push(who));
    let mut counts = [0; 3];
    for (at, blames) in blames {
        let always: Vec<&str> = blames[0].iter().copied().filter(|p| blames.iter().all(|who| who.contains(p))).collect();
        let (kind, expected) = match &always[..] {
            [] => (2, format!(" {}, which is ", looked_at(&told[at]).join(" or "))),
            [one] => (0, format!(" {one}, which is ")),
            both => (1, format!(" {}, which are ", both.join(" and "))),
        };
        assert!(told[at][1].contains(&expected), "{expected} is not in {:?}", told[at]);
        counts[kind] += 1;
    }
    counts
}

/// Reads both tables back from the listing.
fn tables_of(listing: &str) -> (Vec<u8>, Vec<u8>) {
    let blocks = joined(listing);
    let told = &blocks[1..blocks.len() - 1];
    let locations: Vec<[u8; 32]> = told.iter().map(|b| location_record(b)).collect();
    let mut edges: Vec<[u8; 32]> = Vec::new();
    for (from, block) in told.iter().enumerate() {
        assert!(block[0].starts_with(&format!("location {from} ")), "{}", block[0]);
        for line in block.iter().filter(|l| l.starts_with("  edge ")) {
            assert!(line.starts_with(&format!("  edge {} ", edges.len())), "{line}");
            let to: usize =
                line.split_once("to location ").unwrap().1.split(|c: char| !c.is_ascii_digit()).next().unwrap().parse().unwrap();
            edges.push(edge_record(line, from, locations[from][3], locations[to][3]));
        }
    }
    (locations.concat(), edges.concat())
}

fn no_long_lines(shown: &str) {
    for line in shown.lines() {
        assert!(line.chars().count() <= 100, "{} columns: {line}", line.chars().count());
        assert!(!line.contains('\x1b') && line.trim_end() == line, "{line:?}");
    }
}

#[test]
fn listings_tell_the_whole_tables() {
    let mut d = Draw::new(2);
    let (mut seen, mut large, mut faults, mut two_guards) = (0, 0, [0; 3], 0);
    for round in 0..4800 {
        let records = d.routine(if round % 2 == 0 { 64 } else { 9 });
        let source = Source::of_bytes("a", records).unwrap();
        if let Some((shown, tables)) = listing(&source) {
            no_long_lines(&shown);
            let (locations, edges) = tables_of(&shown);
            assert!(locations == tables.locations && edges == tables.edges, "{shown}");
            let more = faults_name_their_pointers(&shown);
            faults = [0, 1, 2].map(|kind| faults[kind] + more[kind]);
            two_guards += edges.chunks(32).filter(|record| record[1] > 1).count();
            seen += 1;
            large += usize::from(locations.len() > 200 * 32);
        }
    }
    assert!(seen > 2000 && large > 30, "{seen} listings, {large} large ones");
    assert!(faults.iter().all(|&n| n > 10), "{faults:?}");
    assert!(two_guards > 1000, "{two_guards} edges with two guards");
}

#[test]
fn listings_of_the_examples_tell_the_whole_tables() {
    for name in common::EXAMPLES {
        let (shown, tables) = listing(&of_text(name)).unwrap();
        no_long_lines(&shown);
        assert_eq!(tables_of(&shown), (tables.locations, tables.edges), "{name}");
        faults_name_their_pointers(&shown);
    }
}

#[test]
fn long_labels_are_cut() {
    let label = "x".repeat(300);
    let source = Source::of_bytes("a", format!("{label}: p0 := p0.next goto {label}\nshape\np0 -> a\n").into_bytes()).unwrap();
    no_long_lines(&listing(&source).unwrap().0);
}

/// The shelf cases, as algebra.
#[test]
fn shelf_cases_in_words() {
    let cases = [
        ("p0 := p0.next", "p0, p1 -> a", "if c0 = 1   to location 1: counters kept"),
        ("p0 := p0.next", "p0, p1 -> a", "if c0 >= 2  to location 2: c0' = c0 - 1, c1' = 1"),
        ("p0 := p0.next", "p0 -> a -> a", "if c0 >= 2  to location 1: counters kept"),
        ("p0 := p0.next", "p0 -> a", "if c0 = 1   to location 1, FAULT 3: leak"),
        ("p0.next := null", "p0 -> a -> b -> b", "if c0 >= 2  to location 1, FAULT 3: leak"),
        ("p0.next := null", "p0 -> a -> b\np1 -> c -> b", "if c0 = 1   to location 1: c0' = c0, c1' = c1 + c2"),
        ("p0 := new", "", "to location 1: c0' = 1"),
        ("p1 := null", "p0 -> a -> b\np1 -> b", "to location 1: c0' = c0 + c1"),
        ("free p0", "", "to location 1\n"),
        ("p0.next := null", "p0 -> undefined", "edge 0       to location 1, FAULT 2: p0 is undefined\n"),
        ("p0.next := null", "", "edge 0       to location 1, FAULT 1: p0 is null\n"),
        ("test p0 = p1", "p0, p1 -> undefined", "edge 0       to location 1, FAULT 2: p0 and p1 are undefined\n"),
        ("test p0 = p1", "p1 -> undefined", "edge 0       to location 1, FAULT 2: p1 is undefined\n"),
        ("test p0 = p0", "p0, p1 -> undefined", "edge 0       to location 1, FAULT 2: p0 is undefined\n"),
        ("test p1 = null", "p0, p1 -> undefined", "edge 0       to location 1, FAULT 2: p1 is undefined\n"),
        ("test p0 = p1", "p0, p1 -> a -> undefined\np2 -> undefined", "true  to location 1: counters kept\n"),
        ("test p0 = null", "p0 -> a\np1 -> undefined", "false  to location 1: counters kept\n"),
    ];
    for (statement, chains, expected) in cases {
        let body = format!("{statement}\nstop\nshape\n{chains}\n");
        let (shown, _) = listing(&Source::of_bytes("a", body.into_bytes()).unwrap()).unwrap();
        assert!(shown.contains(expected), "{expected} is not in\n{shown}");
    }
}

/// The edges of a relink: three where its pointers are at two nodes, with u's guard first, else one without a guard.
#[test]
fn the_edges_of_a_relink() {
    let relink = "p0.next := p1.next";
    let split = "if c0 = 1 and c1 = 1   to location 1: counters kept
  edge 1       if c0 = 1 and c1 >= 2  to location 2: c0' = c0, c1' = c1 - 1, c2' = 1
  edge 2       if c0 >= 2             to location 3, FAULT 3: leak";
    let other_way = "if c1 = 1 and c0 = 1   to location 1: counters kept
  edge 1       if c1 = 1 and c0 >= 2  to location 2: c0' = 1, c1' = c0 - 1, c2' = c1
  edge 2       if c1 >= 2             to location 3, FAULT 3: leak";
    let lost = "if c0 = 1 and c2 = 1   to location 1, FAULT 3: leak
  edge 1       if c0 = 1 and c2 >= 2  to location 1, FAULT 3: leak
  edge 2       if c0 >= 2             to location 1, FAULT 3: leak";
    let cases = [
        (relink, "p0 -> a -> b -> null\np1 -> b", split),
        (relink, "p1 -> a -> b -> null\np0 -> b", split),
        ("p1.next := p0.next", "p0 -> a\np1 -> b", other_way),
        (relink, "p0 -> a -> c -> c\np1 -> b", lost),
        (relink, "p0, p1 -> a -> null", "to location 1: counters kept"),
        (relink, "p0, p1 -> a -> a", "to location 1: counters kept"),
        ("p0.next := p0.next", "p0 -> a -> undefined", "to location 1: counters kept"),
        (relink, "", "to location 1, FAULT 1: p1 is null"),
        (relink, "p0 -> undefined", "to location 1, FAULT 1: p1 is null"),
        (relink, "p1 -> undefined", "to location 1, FAULT 2: p1 is undefined"),
        (relink, "p0, p1 -> undefined", "to location 1, FAULT 2: p1 is undefined"),
        (relink, "p1 -> a", "to location 1, FAULT 1: p0 is null"),
        (relink, "p0 -> undefined\np1 -> a", "to location 1, FAULT 2: p0 is undefined"),
    ];
    for (statement, chains, expected) in cases {
        let body = format!("{statement}\nstop\nshape\n{chains}\n");
        let (shown, _) = listing(&Source::of_bytes("a", body.into_bytes()).unwrap()).unwrap();
        let first = shown.split("\n\n").nth(1).unwrap();
        assert!(first.starts_with(&format!("location 0     start, statement 0: {statement}\n")), "{shown}");
        assert_eq!(first.split_once("\n  edge 0       ").unwrap().1, expected, "{statement}: {chains}");
        // a pointer that a relink names is drawn, also where it is null
        let idle = if statement.contains("p1") { "p2, p3, p4, p5" } else { "p1, p2, p3, p4, p5" };
        assert!(shown.contains(&format!("\nNot drawn: {idle}, which are null throughout.\n")), "{shown}");
    }
}

/// The edge of a drop: one, without a guard and to no fault. The counter of cells that went is in no update, and a node
/// that is no longer core is merged.
#[test]
fn the_edge_of_a_drop() {
    let cases = [
        ("", "to location 1"),
        ("p1 -> a", "to location 1: counters kept"),
        ("p0 -> undefined", "to location 1"),
        ("p0 -> undefined\np1 -> a", "to location 1: counters kept"),
        ("p0 -> a", "to location 1"),
        ("p0 -> a -> undefined", "to location 1"),
        ("p0 -> a -> a", "to location 1"),
        ("p0 -> a -> b -> b", "to location 1"),
        ("p0, p1 -> a", "to location 1: counters kept"),
        ("p0 -> a\np1 -> b", "to location 1: c0' = c1"),
        ("p0 -> a -> b\np1 -> b", "to location 1: c0' = c1"),
        ("p0 -> a -> b -> b\np1 -> b", "to location 1: c0' = c1"),
        ("p1 -> a -> b\np0 -> b", "to location 1: c0' = c0 + c1"),
        ("p0 -> a -> c\np1 -> b -> c", "to location 1: c0' = c1 + c2"),
        ("p0 -> a -> c\np1 -> b -> c\np2 -> c", "to location 1: c0' = c2, c1' = c1"),
        ("p0 -> a -> c -> c\np1 -> b -> c", "to location 1: c0' = c2, c1' = c1"),
        ("p0 -> a -> d\np1 -> b -> d\np2 -> c -> d", "to location 1: c0' = c2, c1' = c1, c2' = c3"),
    ];
    for (chains, expected) in cases {
        let body = format!("drop p0\nstop\nshape\n{chains}\n");
        let (shown, tables) = listing(&Source::of_bytes("a", body.into_bytes()).unwrap()).unwrap();
        let first = shown.split("\n\n").nth(1).unwrap();
        assert!(first.starts_with("location 0     start, statement 0: drop p0\n"), "{shown}");
        assert_eq!(first.split_once("\n  edge 0       ").unwrap().1, expected, "{chains}");
        assert_eq!(tables.locations[SIZE + 4], NULL, "{shown}");
        assert!(shown.contains("\nNo location has a fault: "), "{shown}");
        // a pointer that a drop names is drawn, also where it is null
        assert!(shown.contains("\nNot drawn: p") && !shown.contains("\nNot drawn: p0"), "{shown}");
    }
}

/// In random listings too a drop has one edge, without a guard and to no fault, after which its pointer is null. Other
/// statements still leak.
#[test]
fn no_drop_faults() {
    let mut d = Draw::new(13);
    let (mut drops, mut fewer, mut leaks) = (0, 0, 0);
    for _ in 0..1500 {
        let source = Source::of_bytes("a", d.routine(9)).unwrap();
        let Ok(automaton) = source.automaton(ALL_PLACES) else { continue };
        let statements = source.routine().unwrap().statements;
        leaks += automaton.locations.iter().filter(|l| l.fault == 3).count();
        for (number, location) in automaton.locations.iter().enumerate() {
            let statement = &statements[location.statement];
            if statement.op != Op::Drop {
                continue;
            }
            let leaving: Vec<_> = automaton.leaving(number).map(|(_, edge)| edge).collect();
            let [edge] = leaving[..] else { panic!("{} edges leave location {number}", leaving.len()) };
            let to = &automaton.locations[edge.to];
            assert_eq!((location.fault, edge.branch, to.fault), (0, 0, 0));
            assert!(edge.guards.is_empty(), "{edge:?}");
            assert_eq!((to.statement, to.shape.pointers[statement.u as usize]), (statement.first as usize, NULL));
            drops += 1;
            fewer += usize::from(to.shape.count < location.shape.count);
        }
    }
    assert!(drops > 1000 && fewer > 300 && leaks > 100, "{drops} drops, {fewer} with fewer nodes after, {leaks} leaks");
}

#[test]
fn faults_in_words() {
    let cases = [
        ("p0 := p1.next", "", "reads through p1, which is null"),
        ("p0 := p1.next", "p1 -> undefined", "reads through p1, which is undefined: its cell was freed, or it never had one"),
        ("p2.next := p1", "", "writes through p2, which is null"),
        ("p2.next := null", "p2 -> undefined", "writes through p2, which is undefined: its cell was freed, or it never had one"),
        ("free p3", "p3 -> undefined", "frees p3, which is undefined: its cell was freed, or it never had one"),
        ("p0 := null", "p0 -> a", "a cell is lost (leak): no pointer reaches it any more"),
        ("test p4 = null", "p4 -> undefined", "looks at p4, which is undefined: its cell was freed, or it never had one"),
        ("test p0 = p1", "p1 -> undefined", "looks at p1, which is undefined: its cell was freed, or it never had one"),
        ("test p0 = p1", "p0 -> undefined\np1 -> a", "looks at p0, which is undefined: its cell was freed, or it never had one"),
        ("test p3 = p3", "p3 -> undefined", "looks at p3, which is undefined: its cell was freed, or it never had one"),
        (
            "test p0 = p1",
            "p0, p1 -> undefined",
            "looks at p0 and p1, which are undefined:\n               their cells were freed, or they never had one",
        ),
    ];
    for (statement, chains, expected) in cases {
        a_fault_is_told(statement, chains, expected);
    }
    let (shown, _) = listing(&of_text("two-lists")).unwrap();
    assert!(
        shown.ends_with("\nNo location has a fault: no run from the starting shapes faults, however long the lists are.\n"),
        "{shown}"
    );
}

/// The first statement faults from this shape, and the fault's words are these.
fn a_fault_is_told(statement: &str, chains: &str, expected: &str) {
    let body = format!("{statement}\nstop\nshape\n{chains}\n");
    let (shown, _) = listing(&Source::of_bytes("a", body.into_bytes()).unwrap()).unwrap();
    assert!(
        shown.contains(&format!("at statement 0: {statement}\n               {expected}\n")),
        "{expected} is not in\n{shown}"
    );
    assert!(shown.contains("(1 start, 0 stops, 1 fault), 1 edge\nLocations with a fault: 1\n"), "{shown}");
    let fault = number(shown.split_once(", FAULT ").unwrap().1);
    let kind = ["null pointer", "undefined pointer", "leak"][fault as usize - 1];
    assert!(shown.contains(&format!("\n    FAULT {fault}, {kind}: 1\n")), "{shown}");
}

/// A relink reads through w first and then writes through u.
#[test]
fn faults_of_a_relink_in_words() {
    let (relink, freed) = ("p0.next := p1.next", "which is undefined: its cell was freed, or it never had one");
    a_fault_is_told(relink, "", "reads through p1, which is null");
    a_fault_is_told(relink, "p0 -> undefined", "reads through p1, which is null");
    a_fault_is_told(relink, "p1 -> undefined", &format!("reads through p1, {freed}"));
    a_fault_is_told(relink, "p0, p1 -> undefined", &format!("reads through p1, {freed}"));
    a_fault_is_told(relink, "p1 -> a", "writes through p0, which is null");
    a_fault_is_told(relink, "p0 -> undefined\np1 -> a", &format!("writes through p0, {freed}"));
    a_fault_is_told("p2.next := p2.next", "", "reads through p2, which is null");
}

/// A relink blames the pointer that it stopped at, so both are named only where the locations before the fault differ in it.
#[test]
fn one_pointer_of_a_relink_or_the_other() {
    let (null, undefined) = ("which is null", "which is undefined: its cell was freed, or it never had one");
    let cases = [
        (1, "", "p1 -> a", format!("goes through p1 or p0, {null}")),
        (1, "", "p0 -> undefined", format!("reads through p1, {null}")),
        (1, "p1 -> a", "p1 -> a\np2 -> undefined", format!("writes through p0, {null}")),
        (2, "p1 -> undefined", "p0 -> undefined\np1 -> a", format!("goes through p1 or p0, {undefined}")),
        (2, "p1 -> undefined", "p0, p1 -> undefined", format!("reads through p1, {undefined}")),
    ];
    for (fault, first, second, expected) in cases {
        let body = format!("p0.next := p1.next\nstop\nshape\n{first}\nshape\n{second}\n");
        let (shown, _) = listing(&Source::of_bytes("a", body.into_bytes()).unwrap()).unwrap();
        let block = format!("\nlocation 2     FAULT {fault} at statement 0: p0.next := p1.next\n               {expected}\n\n");
        assert!(shown.contains(&block), "{expected} is not in\n{shown}");
    }
}

/// Where the locations before a fault differ in the pointer that is undefined, its words name either; where they agree, all.
#[test]
fn one_pointer_or_another() {
    let either = "looks at p0 or p1, which is undefined: its cell was freed, or it never had one";
    let both = "looks at p0 and p1, which are undefined:\n               their cells were freed, or they never had one";
    let cases = [
        ("p0 -> undefined", "p1 -> undefined", either),
        ("p0 -> undefined", "p0, p1 -> undefined", "looks at p0, which is undefined: its cell was freed, or it never had one"),
        ("p0, p1 -> undefined", "p1 -> undefined", "looks at p1, which is undefined: its cell was freed, or it never had one"),
        ("p0, p1 -> undefined", "p0, p1, p2 -> undefined", both),
        ("p0 -> undefined", "p0, p2 -> undefined", "looks at p0, which is undefined: its cell was freed, or it never had one"),
    ];
    for (first, second, expected) in cases {
        let body = format!("test p0 = p1\nstop\nshape\n{first}\nshape\n{second}\n");
        let (shown, _) = listing(&Source::of_bytes("a", body.into_bytes()).unwrap()).unwrap();
        let block = format!("\nlocation 2     FAULT 2 at statement 0: test p0 = p1\n               {expected}\n\n");
        assert!(shown.contains(&block), "{expected} is not in\n{shown}");
    }
}
