//! Damaged H records as the library draws them: what is told of each, against
//! the words of the request on its bytes, and that all kinds are drawn.

mod common;

use common::shapes::Defects;
use common::*;
use reference::selftest::damaged_shapes;
use reference::{unfold, Node, Refusal};

const DRAWS: usize = 12_000;

/// How often each refusal told each node.
fn by_node(refusals: impl Iterator<Item = Refusal>) -> [[usize; 12]; 20] {
    let mut met = [[0; 12]; 20];
    for refusal in refusals {
        met[usize::from(refusal.number)][usize::from(refusal.node.0)] += 1;
    }
    met
}

#[test]
fn every_refusal_at_every_node_where_it_can_come() {
    let met = by_node(damaged_shapes(1).take(DRAWS).map(|(_, due)| due));
    for (number, counts) in met.iter().enumerate() {
        // 19 cannot come at node 11, the last there can be: when all others
        // have their own numbers, its own is the only one left.
        let nodes = match number {
            9 | 18 => 12,
            19 => 11,
            _ => 0,
        };
        assert!(counts[..nodes].iter().all(|&count| count >= 300), "{number}: {counts:?}");
        assert!(counts[nodes..].iter().all(|&count| count == 0), "{number}: {counts:?}");
    }
}

#[test]
fn what_is_due_is_what_the_bytes_show() {
    for (record, due) in damaged_shapes(2).take(DRAWS) {
        assert_eq!(due.place, 0);
        assert_eq!(Defects::of(&record).refusal(), Some((due.number, due.node.0)), "{}", hex(&record));
    }
}

#[test]
fn in_inputs_and_in_unfolding() {
    let shape = h(pointers(&[0, 1]), &[NULL, NULL]);
    let mut told = [Vec::new(), Vec::new()];
    for (number, (record, due)) in damaged_shapes(3).take(DRAWS).enumerate() {
        // Statements, then shapes, of which the last is damaged.
        let statements = 1 + number % 64;
        let mut records = vec![s(11, 0, 0, 0, 0); statements];
        records.extend([shape, record]);
        let got = into_tables(&input(&records), 320, 320);
        check_told(&got, Refusal { place: statements + 1, ..due });
        told[0].push(Refusal { number: got.answer.refusal, place: got.answer.place, node: got.answer.node });
        let (mut to_pointers, mut to_cells) = ([7; 6], [7; 240]);
        // Most of these counters do not fit, which is looked at later.
        let refusal = unfold(&record, &[1; 12], &mut to_pointers, &mut to_cells).expect_err("no shape");
        assert_eq!((refusal, to_pointers, to_cells), (due, [7; 6], [7; 240]), "{}", hex(&record));
        told[1].push(refusal);
    }
    let [in_inputs, in_unfolding] = told.map(|told| by_node(told.into_iter()));
    assert_eq!(in_inputs, in_unfolding);
}

#[test]
fn several_defects_at_once() {
    // How many have a lower node of the next kind, or of the one after it, and
    // how many have more nodes of the same kind.
    let mut lower = [[0; 2]; 20];
    let mut more = [0; 20];
    // Those with no other defect than the one told, and its numbering right.
    let mut alone = [0; 20];
    for (record, Refusal { number, node: Node(node), .. }) in damaged_shapes(4).take(DRAWS) {
        let Defects { lost, not_core, otherwise } = Defects::of(&record);
        let is_lower = |nodes: &[u8]| usize::from(nodes.first().is_some_and(|&first| first < node));
        let at = usize::from(number);
        match number {
            9 => {
                lower[at][0] += is_lower(&not_core);
                lower[at][1] += is_lower(&otherwise);
                more[at] += usize::from(lost.len() > 1);
                alone[at] += usize::from(not_core == lost && otherwise[0] == node && lost.len() == 1);
            }
            18 => {
                lower[at][0] += is_lower(&otherwise);
                more[at] += usize::from(not_core.len() > 1);
                alone[at] += usize::from(not_core == [node] && otherwise.is_empty());
            }
            _ => more[at] += usize::from(otherwise.len() > 2),
        }
    }
    assert!(lower[9][0] >= 1_000 && lower[9][1] >= 1_000 && lower[18][0] >= 1_000, "{lower:?}");
    assert!([9, 18, 19].iter().all(|&at| more[at] >= 500), "{more:?}");
    assert!(alone[9] >= 500 && alone[18] >= 500, "{alone:?}");
}

#[test]
fn a_seed_gives_the_same_records_again() {
    let draw = |seed| damaged_shapes(seed).take(100).collect::<Vec<_>>();
    assert_eq!(draw(5), draw(5));
    assert_ne!(draw(5), draw(6));
}

#[test]
fn order_of_the_refusals_of_unfolding() {
    for (record, due) in damaged_shapes(7).take(2_000) {
        let mut broken = record;
        broken[31] = 1;
        // The lengths are 13, the record is 8, then come the three, then the
        // counters, whether they fit the nodes or not.
        let told = |record: &[u8], counters: &[u32], lengths: [usize; 2]| {
            let (mut to_pointers, mut to_cells) = (vec![7; lengths[0]], vec![7; lengths[1]]);
            let answer = unfold(record, counters, &mut to_pointers, &mut to_cells);
            assert!(to_pointers.iter().chain(&to_cells).all(|&byte| byte == 7));
            answer.expect_err("no shape")
        };
        assert_eq!(told(&record, &[0; 12], [5, 240]), at_0(13));
        assert_eq!(told(&record, &[0; 12], [6, 241]), at_0(13));
        assert_eq!(told(&broken, &[0; 12], [6, 240]), at_0(8));
        assert_eq!(told(&record[..31], &[0; 12], [6, 240]), at_0(8));
        assert_eq!(told(&record, &[0; 12], [6, 240]), due);
        assert_eq!(told(&record, &[1; 12], [6, 0]), due);
        assert_eq!(told(&record, &[u32::MAX; 12], [6, 240]), due);
        assert_eq!(told(&record, &[], [6, 240]), due);
    }
}
