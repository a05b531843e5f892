//! Drops made on purpose: cases of the shared folder, with their listings
//! written out or counted.

mod common;

use common::program::*;
use common::*;

fn read_case(case: &str, ending: &str) -> Option<String> {
    let path = format!("{}/../tests/cases/{case}.{ending}", env!("CARGO_MANIFEST_DIR"));
    let bytes = std::fs::read(path).ok()?;
    Some(if ending == "in" { hex(&bytes) } else { String::from_utf8(bytes).expect("plain text") })
}

/// Wants the case to be these records, and the program to print its text; the
/// bench prints the same unless the case has another text for it.
#[track_caller]
fn check_case(case: &str, records: &[Record]) -> String {
    let [given, text] = ["in", "out"].map(|ending| read_case(case, ending).expect("the case"));
    assert!(given == hex(&input(records)), "{case} is another input");
    let bench = read_case(case, "bench").unwrap_or(text.clone());
    let status = |text: &str| i32::from(text.starts_with("refused"));
    check(&["translate"], &input(records), status(&text), &text);
    check(&["translate", "--bench"], &input(records), status(&bench), &bench);
    text
}

/// A drop of pointer 0 and a stop, on these pointers and successors, and what
/// is left of them with its updates.
type Single = (&'static str, &'static [u8], &'static [u8], &'static [u8], &'static [u8], &'static [u16]);

const SINGLE: [Single; 15] = [
    ("322", &[NULL, 0], &[NULL], &[NULL, 0], &[NULL], &[0x1001]),
    ("323", &[UNDEF, 0, UNDEF], &[UNDEF], &[NULL, 0, UNDEF], &[UNDEF], &[0x1001]),
    ("324", &[0, 0], &[NULL], &[NULL, 0], &[NULL], &[0x1001]),
    ("325", &[0, 1], &[NULL, 0], &[NULL, 0], &[NULL], &[0x1003]),
    ("326", &[0], &[NULL], &[NULL], &[], &[]),
    ("327", &[0, 1, 2], &[UNDEF, 1, NULL], &[NULL, 0, 1], &[0, NULL], &[0x1002, 0x1004]),
    ("328", &[0, 1], &[0, NULL], &[NULL, 0], &[NULL], &[0x1002]),
    ("329", &[0], &[1, 1], &[NULL], &[], &[]),
    ("330", &[0, 2], &[1, NULL, 1], &[NULL, 0], &[NULL], &[0x1006]),
    ("331", &[0, 2, 3], &[1, NULL, 1, 1], &[NULL, 0, 2], &[1, NULL, 1], &[0x1004, 0x1002, 0x1008]),
    ("332", &[0, 1], &[1, NULL], &[NULL, 0], &[NULL], &[0x1002]),
    ("333", &[0, 1], &[1, 1], &[NULL, 0], &[0], &[0x1002]),
    ("334", &[0, 3], &[1, 2, 1, 2], &[NULL, 0], &[1, 1], &[0x1008, 0x1006]),
    ("335", &[0, 1], &[1, 0], &[NULL, 0], &[0], &[0x1003]),
    ("336", &[0, 2, 1], &[1, NULL, NULL], &[NULL, 0, 1], &[NULL, NULL], &[0x1004, 0x1002]),
];

/// Six lists that lead into a ring of six nodes.
fn twelve_nodes() -> Record {
    h([0, 7, 8, 9, 10, 11], &[1, 2, 3, 4, 5, 6, 1, 2, 3, 4, 5, 6])
}

/// The text of a listing.
fn text_of(locations: &[Record], edges: &[Record]) -> String {
    locations.iter().chain(edges).map(|record| hex(record) + "\n").collect()
}

#[test]
fn single_drops() {
    for (case, held, successors, left, left_successors, updates) in SINGLE {
        let (held, left) = (pointers(held), pointers(left));
        let text = check_case(case, &[s(13, 0, 0, 1, 0), stop(), h(held, successors)]);
        let locations = [l(0, held, successors), l(1, left, left_successors)];
        assert_eq!(text, text_of(&locations, &[e(0, 1, 0, 0, updates)]), "{case}");
    }
}

#[test]
fn a_drop_of_twelve_nodes() {
    let text = check_case("337", &[s(13, 3, 0, 1, 0), stop(), twelve_nodes()]);
    // Node 9 vanishes, and node 4 merges into node 3.
    let mut before = twelve_nodes();
    before[0] = 0x4c;
    let after = l(1, [0, 6, 7, NULL, 8, 9], &[1, 2, 3, 4, 5, 1, 2, 3, 4, 5]);
    let updates = [0x1001, 0x1002, 0x1004, 0x1018, 0x1020, 0x1040, 0x1080, 0x1100, 0x1400, 0x1800];
    assert_eq!(text, text_of(&[before, after], &[e(0, 1, 0, 0, &updates)]));
}

#[test]
fn refusals() {
    let told = |case: &str, statement: Record, words: &str| {
        let text = check_case(case, &[s(13, 0, 0, 1, 0), statement, h(NULLS, &[])]);
        assert_eq!(text, format!("refused {words}\n"), "{case}");
    };
    told("338", s(14, 0, 0, 0, 0), "5 1");
    told("339", s(13, 0, 1, 0, 0), "6 1");
    told("340", s(13, 5, 0, 0, 1), "6 1");
    told("341", s(13, 5, 0, 2, 0), "7 1");
}

#[test]
fn new_and_drop_in_a_loop() {
    let list = pointers(&[0]);
    let routine = [s(10, 0, 0, 1, 3), s(6, 0, 0, 2, 0), s(13, 0, 0, 0, 0), stop()];
    let text = check_case("342", &[&routine[..], &[h(NULLS, &[]), h(list, &[NULL])]].concat());
    let locations = [
        l(0, NULLS, &[]),
        l(0, list, &[NULL]),
        l(1, NULLS, &[]),
        l(3, NULLS, &[]),
        l(1, list, &[NULL]),
        l(3, list, &[NULL]),
        l(2, list, &[UNDEF]),
        faulted(1, 3),
    ];
    let edges = [
        e(0, 2, 0, 0, &[]),
        e(1, 3, 0, 0, &[]),
        from(1, e(0, 4, 0, 0, &[0x1001])),
        from(1, e(1, 5, 0, 0, &[0x1001])),
        from(2, e(0, 6, 0, 0, &[0x2000])),
        from(4, e(0, 7, 0, 0, &[])),
        from(6, e(0, 0, 0, 0, &[])),
    ];
    assert_eq!(text, text_of(&locations, &edges));
}

#[test]
fn a_list_let_go_cell_by_cell() {
    // While p0 is not null: p1 := p0.next, drop p0, p0 := p1, p1 := null.
    let (first, both, second) = (pointers(&[0]), pointers(&[0, 1]), pointers(&[NULL, 0]));
    let routine = [s(8, 0, 0, 5, 1), s(3, 1, 0, 2, 0), s(13, 0, 0, 3, 0), s(2, 0, 1, 4, 0), s(1, 1, 0, 0, 0), stop()];
    let text = check_case("343", &[&routine[..], &[h(first, &[NULL])]].concat());
    let locations = [
        l(0, first, &[NULL]),
        l(1, first, &[NULL]),
        l(2, first, &[NULL]),
        l(2, both, &[1, NULL]),
        l(3, NULLS, &[]),
        l(3, second, &[NULL]),
        l(4, NULLS, &[]),
        l(4, pointers(&[0, 0]), &[NULL]),
        l(0, NULLS, &[]),
        l(5, NULLS, &[]),
    ];
    let edges = [
        e(1, 1, 0, 0, &[0x1001]),
        from(1, e(0, 2, 1, 0, &[0x1001])),
        from(1, e(0, 3, 2, 0, &[0x2000, 0x0001])),
        from(2, e(0, 4, 0, 0, &[])),
        from(3, e(0, 5, 0, 0, &[0x1002])),
        from(4, e(0, 6, 0, 0, &[])),
        from(5, e(0, 7, 0, 0, &[0x1001])),
        from(6, e(0, 8, 0, 0, &[])),
        from(7, e(0, 0, 0, 0, &[0x1001])),
        from(8, e(0, 9, 0, 0, &[])),
    ];
    assert_eq!(text, text_of(&locations, &edges));
}

#[test]
fn other_statements_beside_a_drop() {
    let (first, both) = (pointers(&[0]), pointers(&[0, 1]));
    let text = check_case("344", &[s(13, 0, 0, 1, 0), s(3, 0, 0, 2, 0), stop(), h(first, &[NULL])]);
    let locations = [l(0, first, &[NULL]), l(1, NULLS, &[]), faulted(1, 1)];
    assert_eq!(text, text_of(&locations, &[e(0, 1, 0, 0, &[]), from(1, e(0, 2, 0, 0, &[]))]));

    let text = check_case("345", &[s(13, 1, 0, 1, 0), s(1, 0, 0, 2, 0), stop(), h(both, &[NULL, NULL])]);
    let locations = [l(0, both, &[NULL, NULL]), l(1, first, &[NULL]), faulted(1, 3)];
    assert_eq!(text, text_of(&locations, &[e(0, 1, 0, 0, &[0x1001]), from(1, e(0, 2, 0, 0, &[]))]));

    // Free p0, drop p0, test p0 = null: without the drop the test is a fault.
    let routine = [s(7, 0, 0, 1, 0), s(13, 0, 0, 2, 0), s(8, 0, 0, 3, 3), stop(), h(first, &[NULL])];
    let text = check_case("346", &routine);
    let undefined = pointers(&[UNDEF]);
    let locations = [l(0, first, &[NULL]), l(1, undefined, &[]), faulted(0, 3), l(2, NULLS, &[]), l(3, NULLS, &[])];
    let edges = [e(0, 1, 1, 0, &[]), e(0, 2, 2, 0, &[]), from(1, e(0, 3, 0, 0, &[])), from(3, e(0, 4, 0, 0, &[]))];
    assert_eq!(text, text_of(&locations, &edges));
}

/// By its letters: choose whether the next pointer is dropped (d), and skip
/// (s); then a stop. Each drop doubles the shapes.
fn letting_go(letters: &str) -> Vec<Record> {
    let mut records: Vec<Record> = Vec::new();
    let mut pointer = 0;
    for letter in letters.chars() {
        let next = records.len() as u8 + 1;
        if letter == 'd' {
            records.extend([s(10, 0, 0, next, next + 1), s(13, pointer, 0, next + 1, 0)]);
            pointer += 1;
        } else {
            records.push(s(11, 0, 0, next, 0));
        }
    }
    records.push(stop());
    records
}

/// The locations and edges of such a routine on so many shapes, or the location
/// at which one finds no place. No two of the shapes ever become the same, so
/// a location is told by its first shape, its statement and what was dropped.
fn explored(routine: &[Record], shapes: usize, places: usize) -> Result<[usize; 2], usize> {
    let mut known: Vec<(usize, u8, u8)> = (0..shapes).map(|shape| (shape, 0, 0)).collect();
    let (mut exploring, mut edges) = (0, 0);
    while exploring < known.len() {
        let (shape, statement, dropped) = known[exploring];
        let [op, u, first, second] = [1, 2, 4, 5].map(|at| routine[usize::from(statement)][at]);
        let targets = match op {
            0 => vec![],
            10 => vec![(shape, first, dropped), (shape, second, dropped)],
            13 => vec![(shape, first, dropped | 1 << u)],
            _ => vec![(shape, first, dropped)],
        };
        for target in targets {
            edges += 1;
            if !known.contains(&target) {
                known.push(target);
            }
            if known.len() > places {
                return Err(exploring);
            }
        }
        exploring += 1;
    }
    Ok([known.len(), edges])
}

/// Pointers 0 to 3 are at lists that meet in two tails; pointers 4 and 5 are
/// null, undefined, at a list or on a ring, in all sixteen ways.
fn sixteen_shapes() -> impl Iterator<Item = Record> {
    (0..16).map(|number| {
        let mut successors = vec![1, NULL, 1, 4, UNDEF, 4];
        let mut held = [0, 2, 3, 5, NULL, NULL];
        for (pointer, kind) in [(4, number / 4), (5, number % 4)] {
            let node = successors.len() as u8;
            held[pointer] = [NULL, UNDEF, node, node][kind];
            if kind >= 2 {
                successors.push([NULL, node][kind - 2]);
            }
        }
        h(held, &successors)
    })
}

/// Wants the case to have these counts, or 11, and 11 at the bench.
#[track_caller]
fn check_limit(case: &str, routine: &[Record], shapes: &[Record], due: Result<[usize; 2], ()>) {
    let text = check_case(case, &[routine, shapes].concat());
    let told = |place: usize| format!("refused 11 {place}\n");
    let counted = explored(routine, shapes.len(), 1024);
    assert_eq!(counted.map_err(drop), due, "{case}");
    match counted {
        Ok(counts) => {
            let starting = |kind: &str| text.lines().filter(|line| line.starts_with(kind)).count();
            assert_eq!(["4c", "45"].map(starting), counts, "{case}");
        }
        Err(place) => assert_eq!(text, told(place), "{case}"),
    }
    let place = explored(routine, shapes.len(), 128).expect_err("more than the bench holds");
    assert_eq!(read_case(case, "bench"), Some(told(place)), "{case}");
}

#[test]
fn the_limits() {
    // As many locations as there may be; with one skip more they are too many.
    let letters = "dsdddddsssssssssssss";
    check_limit("347", &letting_go(letters), &[twelve_nodes()], Ok([1024, 1023]));
    check_limit("348", &letting_go(&format!("{letters}s")), &[twelve_nodes()], Err(()));

    // 64 statements, most of which are never reached, and 16 shapes.
    let shapes: Vec<Record> = sixteen_shapes().collect();
    let mut routine = letting_go("dsddds");
    assert_eq!(explored(&routine, 16, 1024), Ok([1024, 1008]));
    routine = letting_go("dsdddss");
    routine.resize(64, s(13, 5, 0, 0, 0));
    check_limit("349", &routine, &shapes, Err(()));
}
