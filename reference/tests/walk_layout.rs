//! The layout of the tables, clause by clause: just inside passes, just outside
//! gives 20.

mod common;

use common::layout::tables_keep;
use common::*;
use reference::Clause::*;
use reference::{broken_clause, broken_clauses, move_along, walk, Clause, Configuration, Walked};

/// Two nodes at location 0, one at 1, a fault at 2, twelve nodes at 3, none at 4.
fn locations() -> Vec<Record> {
    let twelve: Vec<u8> = (1..=12).map(|next| next % 12).collect();
    vec![
        l(7, pointers(&[0, 1, UNDEF]), &[1, NULL]),
        l(0, pointers(&[NULL, 0]), &[UNDEF]),
        faulted(5, 3),
        l(63, [0, 3, 6, 9, NULL, UNDEF], &twelve),
        l(1, NULLS, &[]),
    ]
}

fn edges() -> Vec<Record> {
    vec![
        e(0, 1, 0, 0, &[0x1003]),
        e(1, 1, 2, 0, &[0x0001]),
        e(0, 2, 1, 1, &[]),
        e(0, 3, 0, 0, &[0x2001, 0x2000, 0x1002, 0x2000, 0x2000, 0x2000, 0x2000, 0x2000, 0x2000, 0x2000, 0x2000, 0x2000]),
        from(1, e(1, 0, 0, 0, &[0x1001, 0x2000])),
        e(0, 4, 0, 0, &[]),
        second(2, 1, e(0, 1, 1, 0, &[0x0002])),
        from(2, e(0, 1, 0, 0, &[0x2000])),
        from(3, e(0, 1, 2, 11, &[0x0800])),
    ]
}

/// Wants exactly these clauses broken: every call then gives 20, and nothing
/// else does here.
#[track_caller]
fn check(locations: &[u8], edges: &[u8], counts: [usize; 2], due: &[Clause]) {
    assert_eq!(broken_clauses(locations, edges, counts[0], counts[1]), due);
    assert_eq!(broken_clause(locations, edges, counts[0], counts[1]), due.first().copied());
    let at = |location, counters: &[u32]| {
        let mut all = [0; 12];
        all[..counters.len()].copy_from_slice(counters);
        Configuration { location, counters: all }
    };
    let start = at(0, &[5, 6]);
    let walked = |refusal, made, configuration| Walked { refusal, made, configuration };
    let empty = walk(locations, edges, counts[0], counts[1], start, &[]);
    if due.is_empty() {
        assert_eq!(empty, walked(None, 0, start));
        return;
    }
    assert_eq!(empty, walked(Some(at_0(20)), 0, start));
    assert_eq!(walk(locations, edges, counts[0], counts[1], start, &[0, 4, 0]), empty);
    assert_eq!(move_along(locations, edges, counts[0], counts[1], start, 0), Err(at_0(20)));
}

#[track_caller]
fn check_records(locations: &[Record], edges: &[Record], due: &[Clause]) {
    check(&locations.concat(), &edges.concat(), [locations.len(), edges.len()], due);
}

/// One byte of a location changed.
#[track_caller]
fn location_byte(number: usize, at: usize, byte: u8, due: &[Clause]) {
    let mut changed = locations();
    changed[number][at] = byte;
    check_records(&changed, &edges(), due);
}

/// One byte of an edge changed.
#[track_caller]
fn edge_byte(number: usize, at: usize, byte: u8, due: &[Clause]) {
    let mut changed = edges();
    changed[number][at] = byte;
    check_records(&locations(), &changed, due);
}

#[test]
fn the_tables_as_they_stand() {
    check_records(&locations(), &edges(), &[]);
    let start = Configuration { location: 0, counters: [5, 6, 0, 0, 0, 0, 0, 0, 0, 0, 0, 0] };
    let (locations, edges) = (locations().concat(), edges().concat());
    let walked = walk(&locations, &edges, 5, 9, start, &[0, 4, 1]);
    let counters = [10, 0, 0, 0, 0, 0, 0, 0, 0, 0, 0, 0];
    assert_eq!(walked, Walked { refusal: None, made: 3, configuration: Configuration { location: 1, counters } });
}

#[test]
fn counts_and_places() {
    let (records, edge_records) = (locations().concat(), edges().concat());
    check(&records, &edge_records, [5, 9], &[]);
    check(&records, &edge_records, [6, 9], &[LocationCount]);
    check(&records, &edge_records, [5, 10], &[EdgeCount]);
    check(&records, &edge_records, [6, 10], &[LocationCount, EdgeCount]);
    // Bytes that are no whole record give no place, and are not looked at.
    let [longer, more_edges] = [[&records[..], &[0xd3; 31]].concat(), [&edge_records[..], &[0xd3; 31]].concat()];
    check(&longer, &more_edges, [5, 9], &[]);
    check(&longer, &edge_records, [6, 9], &[LocationCount]);
    check(&records, &more_edges, [5, 10], &[EdgeCount]);
    check(&records[..159], &edge_records, [5, 9], &[LocationCount]);
    check(&records, &edge_records[..287], [5, 9], &[EdgeCount]);
    for large in [2049, usize::MAX / 32 + 1, usize::MAX / 32 + 6, usize::MAX] {
        check(&records, &edge_records, [large, 9], &[LocationCount]);
        check(&records, &edge_records, [5, large], &[EdgeCount]);
    }
    // If a count is above its places no record is looked at.
    check(&[0xd3; 160], &[0xd3; 64], [6, 2], &[LocationCount]);
}

#[test]
fn at_most_1024_and_2048() {
    let many = |first: Vec<Record>, fill: Record, count: usize| {
        let mut records = first;
        records.resize(count, fill);
        records.concat()
    };
    let [fault, leak] = [faulted(5, 3), e(0, 2, 0, 0, &[])];
    for more in [0, 1, 40] {
        let table = many(locations(), fault, 1024 + more);
        check(&table, &edges().concat(), [1024, 9], &[]);
        check(&table, &edges().concat(), [1025, 9], &[LocationCount]);
        let table = many(edges(), leak, 2048 + more);
        check(&locations().concat(), &table, [5, 2048], &[]);
        check(&locations().concat(), &table, [5, 2049], &[EdgeCount]);
    }
    check(&many(locations(), fault, 1023), &edges().concat(), [1024, 9], &[LocationCount]);
    check(&locations().concat(), &many(edges(), leak, 2047), [5, 2048], &[EdgeCount]);
    // The last record of full tables is looked at, and one past them is not.
    let mut table = many(locations(), fault, 1025);
    table[32 * 1024] = 0;
    check(&table, &edges().concat(), [1024, 9], &[]);
    table[32 * 1023] = 0;
    check(&table, &edges().concat(), [1024, 9], &[LocationKind]);
}

#[test]
fn no_locations() {
    assert_eq!(broken_clauses(&[], &[], 0, 0), []);
    assert_eq!(broken_clauses(&[0xd3; 99], &[0xd3; 99], 0, 0), []);
    assert_eq!(broken_clauses(&[], &e(0, 0, 0, 0, &[]), 0, 1), [EdgeFrom, EdgeTo]);
    // No configuration is there, so even an empty walk is refused.
    let start = Configuration { location: 0, counters: [0; 12] };
    assert_eq!(walk(&[], &[], 0, 0, start, &[]), Walked { refusal: Some(at_0(20)), made: 0, configuration: start });
}

#[test]
fn kinds_and_statements() {
    for number in 0..5 {
        for byte in [0x4b, 0x4d, 0x48, 0x45, 0x53, 0xcc, 0] {
            location_byte(number, 0, byte, &[LocationKind]);
        }
        for byte in [0, 1, 62, 63] {
            location_byte(number, 1, byte, &[]);
        }
        for byte in [64, 65, 127, 128, 255] {
            location_byte(number, 1, byte, &[LocationStatement]);
        }
    }
    for number in 0..9 {
        for byte in [0x44, 0x46, 0x4c, 0x48, 0x53, 0xc5, 0] {
            edge_byte(number, 0, byte, &[EdgeKind]);
        }
    }
}

#[test]
fn faults() {
    for byte in [1, 2, 3] {
        location_byte(2, 2, byte, &[]);
        location_byte(4, 2, byte, &[FaultRest]);
    }
    for byte in [4, 5, 128, 255] {
        location_byte(2, 2, byte, &[LocationFault]);
        location_byte(0, 2, byte, &[LocationFault]);
    }
    for at in 3..32 {
        for byte in [1, 128, NULL, UNDEF] {
            location_byte(2, at, byte, &[FaultRest]);
        }
    }
    // Without its fault it is a shape of no nodes, whose pointers are node 0.
    location_byte(2, 2, 0, &[PointerValue]);
}

#[test]
fn nodes_and_values() {
    for byte in [13, 14, 128, 255] {
        location_byte(3, 3, byte, &[NodeCount]);
        location_byte(0, 3, byte, &[NodeCount]);
    }
    for at in 4..10 {
        for byte in [0, 1, NULL, UNDEF] {
            location_byte(0, at, byte, &[]);
        }
        for byte in [2, 3, 12, 0xfc, UNUSED] {
            location_byte(0, at, byte, &[PointerValue]);
        }
        location_byte(3, at, 11, &[]);
        location_byte(3, at, 12, &[PointerValue]);
        location_byte(4, at, 0, &[PointerValue]);
        location_byte(4, at, UNDEF, &[]);
    }
    for at in [10, 11] {
        for byte in [0, 1, NULL, UNDEF] {
            location_byte(0, at, byte, &[]);
        }
        for byte in [2, 12, UNUSED] {
            location_byte(0, at, byte, &[SuccessorValue]);
        }
    }
    for at in 10..22 {
        location_byte(3, at, 11, &[]);
        location_byte(3, at, UNDEF, &[]);
        location_byte(3, at, 12, &[SuccessorValue]);
        location_byte(3, at, UNUSED, &[SuccessorValue]);
        location_byte(4, at, 1, &[AbsentSuccessor]);
        if at >= 12 {
            for byte in [1, 2, UNUSED, NULL, UNDEF] {
                location_byte(0, at, byte, &[AbsentSuccessor]);
            }
        }
    }
    for at in 22..32 {
        for (number, byte) in [(0, 1), (1, 128), (3, NULL), (4, UNDEF)] {
            location_byte(number, at, byte, &[LocationRest]);
        }
    }
}

/// Only bytes are judged: locations may be equal, or shapes that no heap has.
#[test]
fn locations_need_not_be_shapes() {
    let other = l(7, pointers(&[1, UNDEF]), &[0, 1]);
    check_records(&[other; 5], &[e(0, 4, 0, 0, &[0x1001, 0x1002])], &[]);
    check_records(&[l(7, NULLS, &[NULL, NULL]), l(9, NULLS, &[0])], &[], &[]);
}

#[test]
fn the_second_guard() {
    for byte in [0b0, 0b1, 0b10, 0b11, 0b100, 0b1010, 0b1011, 0b1100, 0b1101] {
        edge_byte(0, 1, byte, &[]);
    }
    for byte in [0b1000, 0b1001, 0b1_0000, 0b10_0000, 0b100_0000, 0b111_1000] {
        edge_byte(0, 1, byte, &[SecondGuardAbsent]);
    }
    for byte in [0b110, 0b111, 0b1110] {
        edge_byte(0, 1, byte, &[SecondGuardKind]);
    }
    for byte in [0b1_0010, 0b1_0100, 0b1_1010, 0b101_1010, 0b111_1100] {
        edge_byte(0, 1, byte, &[SecondGuardNode]);
    }
    for byte in [0x80, 0x81, 0x82, 0x8c] {
        edge_byte(0, 1, byte, &[TopBit]);
    }
    edge_byte(0, 1, 0xfe, &[SecondGuardKind, TopBit]);
    // Of twelve nodes, 11 is the last; there are bits for four more.
    for (byte, due) in
        [(0b101_1010, &[][..]), (0b101_1100, &[]), (0b110_0010, &[SecondGuardNode]), (0b111_1100, &[SecondGuardNode])]
    {
        edge_byte(8, 1, byte, due);
    }
    // A fault has no nodes.
    edge_byte(7, 1, 0b10, &[SecondGuardNode]);
}

#[test]
fn the_first_guard() {
    for byte in [0, 1, 2] {
        edge_byte(0, 6, byte, &[]);
    }
    for byte in [3, 4, 128, 255] {
        edge_byte(0, 6, byte, &[FirstGuardKind]);
        edge_byte(2, 6, byte, &[FirstGuardKind]);
    }
    for byte in [1, 2, 11, 12, 255] {
        edge_byte(0, 7, byte, &[FirstGuardAbsent]);
    }
    edge_byte(2, 6, 0, &[FirstGuardAbsent]);
    for byte in [0, 1] {
        edge_byte(2, 7, byte, &[]);
    }
    for byte in [2, 3, 12, 128, 255] {
        edge_byte(2, 7, byte, &[FirstGuardNode]);
    }
    edge_byte(8, 7, 12, &[FirstGuardNode]);
    edge_byte(7, 6, 1, &[FirstGuardNode]);
}

#[test]
fn bits_of_updates() {
    for byte in [0x00, 0x10, 0x20] {
        edge_byte(0, 9, byte, &[]);
    }
    edge_byte(0, 9, 0x30, &[UpdateConstant]);
    for byte in [0x40, 0x50, 0x60, 0x80, 0x90, 0xc0] {
        edge_byte(0, 9, byte, &[UpdateTopBits]);
    }
    edge_byte(0, 9, 0xf0, &[UpdateTopBits, UpdateConstant]);
    // The second update of an edge, and the last of twelve.
    edge_byte(4, 11, 0x30, &[UpdateConstant]);
    edge_byte(4, 11, 0x60, &[UpdateTopBits]);
    edge_byte(3, 31, 0x30, &[UpdateConstant]);
    edge_byte(3, 31, 0xa0, &[UpdateTopBits]);
}

#[test]
fn updates_of_absent_nodes() {
    for at in (11..32).step_by(2) {
        for byte in [0x10, 0x20] {
            edge_byte(0, at, byte, &[AbsentUpdate]);
        }
        edge_byte(5, at, 0x10, &[AbsentUpdate]);
        edge_byte(2, at, 0x10, &[FaultUpdate]);
        edge_byte(2, at - 1, 1, &[FaultUpdate]);
        edge_byte(5, at - 1, 2, &[AbsentUpdate]);
        edge_byte(0, at - 1, 1, &[AbsentUpdate, AddedTwice]);
    }
    edge_byte(5, 9, 0x10, &[AbsentUpdate]);
    edge_byte(2, 9, 0x20, &[FaultUpdate]);
    edge_byte(2, 8, 1, &[FaultUpdate]);
    // Twelve nodes have an update each.
    edge_byte(3, 31, 0x20, &[]);
}

#[test]
fn ends() {
    // Edge 5 has no updates and no guards, so any source will do.
    for byte in 0..5 {
        edge_byte(5, 2, byte, &[]);
    }
    for byte in [5, 6, 255] {
        edge_byte(5, 2, byte, &[EdgeFrom]);
        edge_byte(5, 4, byte, &[EdgeTo]);
    }
    for number in 0..9 {
        for byte in [1, 4, 128, 255] {
            edge_byte(number, 3, byte, &[EdgeFrom]);
            edge_byte(number, 5, byte, &[EdgeTo]);
        }
    }
    edge_byte(5, 4, 2, &[]);
    // A target with nodes wants updates.
    edge_byte(5, 4, 1, &[BelowOne]);
    // The count decides, not the places.
    check(&locations().concat(), &edges()[..3].concat(), [3, 3], &[]);
    check(&locations().concat(), &edges()[..4].concat(), [3, 4], &[EdgeTo]);
    check(&locations().concat(), &[from(3, e(0, 2, 0, 0, &[]))].concat(), [3, 1], &[EdgeFrom]);
}

#[test]
fn added_counters() {
    for byte in [1, 2, 3] {
        edge_byte(0, 8, byte, &[]);
    }
    for byte in [4, 7, 128, 255] {
        edge_byte(0, 8, byte, &[AddedNode]);
    }
    for byte in [0x11, 0x18, 0x1f] {
        edge_byte(0, 9, byte, &[AddedNode]);
    }
    // Location 1 has one node, a fault none, location 3 all twelve.
    edge_byte(4, 8, 3, &[AddedNode]);
    edge_byte(7, 8, 1, &[AddedNode]);
    edge_byte(8, 8, 255, &[]);
    edge_byte(8, 9, 0x0f, &[]);
    // Each old counter once at most.
    edge_byte(4, 10, 1, &[AddedTwice]);
    edge_byte(3, 10, 1, &[AddedTwice]);
    edge_byte(3, 30, 2, &[AddedTwice]);
    edge_byte(3, 8, 0, &[]);
}

/// The guard is absent, = 1 or >= 2 on a node.
type Guard = Option<(u8, u8)>;

/// Wants an update of an edge from two nodes to one to be low or not, with the
/// guards in either order.
#[track_caller]
fn check_low(update: u16, guards: [Guard; 2], is_low: bool) {
    for [first, other] in [guards, [guards[1], guards[0]]] {
        let (kind, node) = first.unwrap_or((0, 0));
        let edge = e(0, 1, kind, node, &[update]);
        let edge = other.map_or(edge, |(kind, node)| second(kind, node, edge));
        let mut changed = edges();
        changed[1] = edge;
        check_records(&locations(), &changed, if is_low { &[BelowOne] } else { &[] });
    }
}

#[test]
fn updates_that_could_give_less_than_one() {
    const ONE: Guard = Some((1, 0));
    const MORE: Guard = Some((2, 0));
    const OTHER_ONE: Guard = Some((1, 1));
    const OTHER_MORE: Guard = Some((2, 1));
    // A constant of 1 suffices, and a counter with 0.
    for guards in [[None; 2], [ONE, None], [MORE, OTHER_ONE]] {
        check_low(0x2000, guards, false);
        check_low(0x1001, guards, false);
        check_low(0x1003, guards, false);
        check_low(0x2003, guards, false);
    }
    // Nothing is added: 0 or -1.
    for guards in [[None; 2], [ONE, None], [MORE, None], [MORE, OTHER_MORE], [ONE, OTHER_ONE], [MORE; 2], [ONE; 2]] {
        check_low(0x1000, guards, true);
        check_low(0x0000, guards, true);
    }
    // One counter less one: only if it is 2 or more.
    for guards in [[None; 2], [ONE, None], [ONE; 2], [OTHER_MORE, None], [OTHER_MORE; 2], [ONE, OTHER_MORE], [ONE, OTHER_ONE]] {
        check_low(0x0001, guards, true);
    }
    for guards in [[MORE, None], [MORE; 2], [MORE, OTHER_ONE], [MORE, OTHER_MORE]] {
        check_low(0x0001, guards, false);
        check_low(0x0002, guards, !guards.contains(&OTHER_MORE));
    }
    // Two counters less one: always 1 or more.
    for guards in [[None; 2], [ONE, None], [ONE, OTHER_ONE], [MORE, None]] {
        check_low(0x0003, guards, false);
    }
    // No counter is 1 and 2 or more, so no update could.
    for update in [0x0000, 0x1000, 0x0001, 0x0002] {
        check_low(update, [ONE, MORE], false);
        check_low(update, [OTHER_ONE, OTHER_MORE], false);
        check_low(update, [ONE, OTHER_MORE], update != 0x0002);
    }
}

#[test]
fn a_low_update_among_others() {
    edge_byte(3, 31, 0x10, &[BelowOne]);
    edge_byte(3, 31, 0x00, &[BelowOne]);
    edge_byte(3, 9, 0x10, &[]);
    edge_byte(3, 9, 0x00, &[BelowOne]);
    edge_byte(4, 9, 0x00, &[BelowOne]);
    edge_byte(4, 11, 0x10, &[BelowOne]);
    edge_byte(7, 9, 0x10, &[BelowOne]);
    // The only guard >= 2 is taken away, or is one for another node.
    edge_byte(1, 6, 0, &[BelowOne]);
    edge_byte(1, 6, 1, &[BelowOne]);
    edge_byte(1, 7, 1, &[BelowOne]);
    edge_byte(6, 1, 0, &[BelowOne]);
    edge_byte(8, 7, 10, &[BelowOne]);
}

#[test]
fn records_past_the_counts_are_not_looked_at() {
    let [mut longer, mut more_edges] = [locations(), edges()];
    longer.push([0xd3; 32]);
    more_edges.push(e(3, 9, 9, 9, &[0xffff; 12]));
    check(&longer.concat(), &more_edges.concat(), [5, 9], &[]);
    check(&longer.concat(), &more_edges.concat(), [6, 9], &[LocationKind, LocationStatement, LocationFault]);
}

/// Every byte of every record with every value, against the words of the
/// request written down once more.
#[test]
fn every_single_byte() {
    let (mut kept, mut broken) = (0, 0);
    for (table, count) in [(0, 5), (1, 9)] {
        for at in 0..32 * count {
            for byte in 0..=255 {
                let mut tables = [locations().concat(), edges().concat()];
                tables[table][at] = byte;
                let due = tables_keep(&tables[0], &tables[1], 5, 9);
                let clauses = broken_clauses(&tables[0], &tables[1], 5, 9);
                assert_eq!(clauses.is_empty(), due, "byte {at} of table {table} is {byte}: {clauses:?}");
                *if due { &mut kept } else { &mut broken } += 1;
            }
        }
    }
    assert!(kept >= 1000 && broken >= 100_000, "{kept} {broken}");
}
