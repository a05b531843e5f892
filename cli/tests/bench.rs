//! Whether a routine fits the controller bench, which has tables for 128 locations and 256 edges, and by how much it does not.

mod common;

use common::{example, folder, printed, text, tool, Draw, EXAMPLES};
use std::process::Output;
use tool::automaton::{tables, Automaton, Node, Refusal, ALL_PLACES};
use tool::text::assemble;

/// Three edges from each of the shapes below: two keep the shape, and the third is a leak.
const RELINK: &str = "p0.next := p1.next";

/// So many starting shapes, at most 16: two lists with one end, and each time other pointers undefined.
fn shapes(count: usize) -> String {
    let undefined = |n: usize| (2..6).filter(move |p| n >> (p - 2) & 1 == 1).map(|p| format!("p{p} -> undefined\n"));
    (0..count).map(|n| "shape\np0 -> a -> c -> null\np1 -> b -> c\n".to_string() + &undefined(n).collect::<String>()).collect()
}

/// Statements that lead each to the next and the last to the first, from so many starting shapes. Each is met with every shape.
fn ring(statements: &[&str], count: usize) -> String {
    let mut body = String::new();
    for (at, statement) in statements.iter().enumerate() {
        let next = (at + 1) % statements.len();
        let other = if *statement == "choose" { format!(" else s{next}") } else { String::new() };
        body += &format!("s{at}: {statement} goto s{next}{other}\n");
    }
    body + &shapes(count)
}

/// 256 edges, and one more for each skip. 20 relinks are met with four shapes, and what comes after the nulls with one.
fn many_edges(skips: usize) -> String {
    let relinks = format!("{RELINK}\n").repeat(20);
    let rest = "choose\n".repeat(5) + &"skip\n".repeat(skips);
    format!("{relinks}p2 := null\np3 := null\n{rest}stop\n{}", shapes(4))
}

/// The full listing, if there is one.
fn full(records: &[u8]) -> Result<Automaton, Refusal> {
    tables(records, ALL_PLACES).map(Automaton::read)
}

/// What the bench must answer by the full listing. The first edge that finds no place is refused, its target's place first.
fn expected(automaton: &Automaton) -> Option<Refusal> {
    let at = |number: u8, place: usize| Some(Refusal { number, place, node: Node(0) });
    let refused = |(number, edge): (usize, &tool::automaton::Edge)| match (edge.to < 128, number < 256) {
        (true, true) => None,
        (true, false) => at(12, edge.from),
        (false, _) => at(11, edge.from),
    };
    automaton.edges.iter().enumerate().find_map(refused)
}

fn with(words: &[&str], input: &[u8]) -> Output {
    tool(&[&["translate", "-"], words].concat(), input)
}

/// The routine fits: its full listing has so many locations and edges, and the line after the totals says so. All else is equal.
fn fits(input: &[u8], [locations, edges]: [usize; 2]) {
    let plain = text(&printed(&["translate", "-"], input));
    let (body, end) = plain.rsplit_once("\n\n").expect("totals");
    let (totals, faults) = end.split_once('\n').expect("totals");
    assert!(totals.starts_with(&format!("{locations} location")) && totals.contains(&format!(" {edges} edge")), "{totals}");
    let used = format!("Fits the bench: {locations} of 128 locations, {edges} of 256 edges");
    assert_eq!(text(&printed(&["translate", "--bench", "-"], input)), format!("{body}\n\n{totals}\n{used}\n{faults}"));
    let hex = printed(&["translate", "-", "--hex"], input);
    assert_eq!(hex.split(|&b| b == b'\n').count(), locations + edges + 1);
    assert_eq!(printed(&["translate", "-", "--hex", "--bench"], input), hex);
    assert_eq!(printed(&["translate", "-", "--dot", "--bench"], input), printed(&["translate", "-", "--dot"], input));
}

/// The routine does not fit: the number and the location come first, and then what is said of the full translator.
fn too_large(body: &str, [number, explored]: [usize; 2], of_full: &str) {
    let hex = with(&["--bench", "--hex"], body.as_bytes());
    assert_eq!((text(&hex.stdout), text(&hex.stderr)), (format!("refused {number} {explored}\n"), String::new()));
    let done = with(&["--bench"], body.as_bytes());
    assert_eq!((hex.status.code(), done.status.code(), done.stdout.len()), (Some(1), Some(1), 0));
    let (new, places) =
        if number == 11 { ("a new location", "128 places for locations") } else { ("an edge", "256 places for edges") };
    let words = format!(
        "standard input: refused {number}
  meaning: the bench has no place for {new}: it has tables for 128 locations and 256 edges
  here:    all {places} were in use when location {explored} was explored; {of_full}
  change:  write a shorter routine, use fewer starting shapes or fewer pointers, and set pointers to null when they are no \
         longer needed\n"
    );
    let said = text(&done.stderr);
    assert_eq!(said.replace("\n           ", " "), words);
    assert!(said.lines().all(|l| l.chars().count() <= 100), "{said}");
    assert_eq!(with(&["--bench", "--dot"], body.as_bytes()), done);
}

/// The same where there is a full listing, of so many locations and edges.
fn too_large_by(body: &str, refused: [usize; 2], [locations, edges]: [usize; 2], excess: &str) {
    let automaton = full(&assemble(body).unwrap().records).expect("a full listing");
    assert_eq!([automaton.locations.len(), automaton.edges.len()], [locations, edges]);
    assert_eq!(expected(&automaton).map(|r| [r.number as usize, r.place]), Some(refused));
    too_large(
        body,
        refused,
        &format!("the full listing has {locations} locations and {edges} edges, which is {excess} too many"),
    );
}

#[test]
fn examples_fit() {
    for name in EXAMPLES {
        let body = example(name);
        let automaton = full(&assemble(&body).unwrap().records).unwrap();
        fits(body.as_bytes(), [automaton.locations.len(), automaton.edges.len()]);
    }
    let said = text(&printed(&["translate", "examples/reverse.txt", "--bench"], b""));
    let end = "\n20 locations (1 start, 1 stop, 1 fault), 24 edges
Fits the bench: 20 of 128 locations, 24 of 256 edges
Locations with a fault: 8\n";
    assert!(said.contains(end), "{said}");
}

#[test]
fn tables_that_are_just_full() {
    let both = ring(&["choose"; 64], 2);
    fits(both.as_bytes(), [128, 256]);
    fits(&assemble(&both).unwrap().records, [128, 256]);
    fits(ring(&["skip"; 64], 2).as_bytes(), [128, 128]);
    fits(many_edges(0).as_bytes(), [112, 256]);
}

#[test]
fn too_many_locations() {
    too_large_by(&ring(&["skip"; 43], 3), [11, 125], [129, 129], "1 location");
    too_large_by(&ring(&["skip"; 64], 4), [11, 124], [256, 256], "128 locations");
    too_large_by(&ring(&["skip"; 64], 16), [11, 112], [1024, 1024], "896 locations and 768 edges");
    too_large_by(&ring(&["choose"; 64], 16), [11, 112], [1024, 2048], "896 locations and 1792 edges");
}

#[test]
fn too_many_edges() {
    too_large_by(&many_edges(1), [12, 111], [113, 257], "1 edge");
    too_large_by(&ring(&[RELINK; 32], 3), [12, 113], [128, 288], "32 edges");
    too_large_by(&ring(&[RELINK; 6], 16), [12, 90], [102, 288], "32 edges");
    too_large_by(&ring(&[RELINK; 8], 16), [12, 90], [136, 384], "8 locations and 128 edges");
}

/// A routine that even the full translator refuses, by the same number or by the other.
#[test]
fn too_large_for_the_full_translator() {
    let rows = |parts: [(&'static str, usize); 2]| parts.iter().flat_map(|&(what, n)| vec![what; n]).collect::<Vec<_>>();
    let cases = [
        ([("skip", 60), (RELINK, 4)], [11, 112], 11),
        ([("skip", 10), (RELINK, 54)], [11, 112], 12),
        ([(RELINK, 6), ("skip", 58)], [12, 90], 11),
        ([(RELINK, 6), (RELINK, 58)], [12, 90], 12),
    ];
    for (parts, refused, number) in cases {
        let body = ring(&rows(parts), 16);
        assert_eq!(full(&assemble(&body).unwrap().records).unwrap_err().number, number);
        let either = "the routine does not fit the 1024 locations and 2048 edges of the full translator either";
        too_large(&body, refused, &format!("{either} (refused {number})"));
    }
}

/// What the checks of the input refuse is told as without the option, whatever is asked for.
#[test]
fn a_refused_record() {
    let twice = ring(&["choose"; 64], 3) + "shape\np0 -> a -> c -> null\np1 -> b -> c\n";
    let mut op = assemble(&ring(&["choose"; 64], 3)).unwrap().records;
    op[32 * 63 + 1] = 14;
    let inner = ring(&["choose"; 64], 3) + "shape\np0 -> a -> b\n";
    let cases = [
        (twice.into_bytes(), "refused 10 67\n"),
        (op, "refused 5 63\n"),
        (Vec::new(), "refused 1 0\n"),
        (inner.into_bytes(), "refused 18 67 1\n"),
    ];
    for (input, refused) in cases {
        for words in [&[][..], &["--hex"], &["--dot"], &["--svg", "-"]] {
            let done = with(words, &input);
            assert_eq!(done.status.code(), Some(1), "{words:?}");
            assert_eq!(with(&[words, &["--bench"]].concat(), &input), done, "{words:?}");
        }
        assert_eq!(text(&with(&["--hex", "--bench"], &input).stdout), refused);
    }
}

/// A picture of a routine that fits is the same; one that does not is not drawn, and its file stays.
#[test]
fn pictures_for_the_bench() {
    let svg = |words: &[&str]| with(&[&["--svg", "-"], words].concat(), example("leak").as_bytes());
    // without Graphviz both say that it is not there
    assert_eq!(svg(&["--bench"]), svg(&[]));
    let file = folder("bench").join("picture.svg");
    std::fs::write(&file, "as it was").unwrap();
    let body = many_edges(1);
    let done = with(&["--bench", "--svg", file.to_str().unwrap()], body.as_bytes());
    assert_eq!(done, with(&["--bench"], body.as_bytes()));
    assert_eq!(std::fs::read_to_string(&file).unwrap(), "as it was");
}

#[test]
fn other_commands_have_no_bench() {
    let cases: [&[&str]; 4] = [
        &["show", "examples/reverse.txt", "location", "1", "--bench"],
        &["run", "examples/reverse.txt", "--heap", "2", "--bench"],
        &["assemble", "examples/reverse.txt", "--bench"],
        &["disassemble", "examples/reverse.records", "--bench"],
    ];
    for words in cases {
        let done = tool(words, b"");
        assert_eq!((done.status.code(), done.stdout.len()), (Some(2), 0), "{words:?}");
        let command = words[0];
        let said = format!("currantplane: {command}: there is no option --bench\nTry `currantplane help {command}`.\n");
        assert_eq!(text(&done.stderr), said);
        // and it is the option alone that is wrong
        printed(&words[..words.len() - 1], b"");
    }
    for other in ["--locations=128", "--edges=256"] {
        let name = &other[..other.len() - 4];
        let said =
            format!("currantplane: translate: --bench and {name} do not go together\nTry `currantplane help translate`.\n");
        assert_eq!(text(&with(&[other, "--bench"], b"stop\nshape\n").stderr), said);
    }
}

/// Routines of any kind: the bench answers what the full listing says that it must.
#[test]
fn the_bench_goes_by_the_full_listing() {
    let mut d = Draw::new(10);
    let mut met = [0; 3];
    for round in 0..300 {
        let records = match round % 3 {
            0 => d.routine(64),
            _ => {
                let kinds = [RELINK, "choose", if round % 3 == 1 { "skip" } else { RELINK }];
                let statements: Vec<&str> = (0..1 + d.below(24)).map(|_| kinds[d.below(3)]).collect();
                assemble(&ring(&statements, 1 + d.below(16))).unwrap().records
            }
        };
        let Ok(automaton) = full(&records) else { continue };
        let [bench, plain] = [&["--hex", "--bench"][..], &["--hex"]].map(|words| with(words, &records));
        assert_eq!(plain.status.code(), Some(0));
        match expected(&automaton) {
            None => assert_eq!(bench, plain),
            Some(Refusal { number, place, .. }) => {
                assert_eq!((text(&bench.stdout), bench.status.code()), (format!("refused {number} {place}\n"), Some(1)))
            }
        }
        met[expected(&automaton).map_or(0, |r| r.number as usize - 10)] += 1;
    }
    assert!(met.iter().all(|&n| n > 20), "{met:?}");
}
