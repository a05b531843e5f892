//! The edges of a location, found by probing.
//!
//! The shape is unfolded with small counters, the plain machine runs on that
//! heap, and the result is folded. An edge is inferred from a first probe and
//! one more probe for each counter, raised by one. A counter that then moves
//! nothing is in no update: its node was let go by a drop. A counter that a
//! guard holds at 1 cannot be raised; its one cell is looked for in the
//! segments after the step. Further probes have to agree with what was
//! inferred: one with all counters changed and, where a statement looks at two
//! counters, one for every two of them.

use crate::fold::{fold_heap, nodes_of_cells, Counters};
use crate::machine::{run, Outcome};
use crate::records::{fault_location, location, node_count, pointer_byte, shape_of};
use crate::records::{Guard, Record, ABSENT, NODES, ONE, TWO_OR_MORE};
use crate::statement::{Op, Statement};
use crate::unfold::unfold_shape;

/// An edge as found: its target is still the record of a location.
#[derive(Clone, Copy, PartialEq, Eq, Debug)]
pub struct Found {
    pub branch: u8,
    /// The first guard and the second.
    pub guards: [Guard; 2],
    pub target: Record,
    pub updates: [u16; NODES],
}

/// The circumstances of one edge: what chooses it and which counters it looks at.
#[derive(Clone, Copy)]
struct Case {
    pick: u64,
    guards: [Guard; 2],
}

/// What one probe showed.
struct Probed {
    branch: u8,
    target: Record,
    counters: Counters,
    /// For each new node, the old nodes held at 1 whose cell it has.
    kept: [u16; NODES],
}

/// All edges of a location, in their order.
pub fn find_edges(place: &Record, statements: &[Statement]) -> Vec<Found> {
    if place[2] != 0 {
        return Vec::new();
    }
    let statement = &statements[usize::from(place[1])];
    cases(place, statement).iter().map(|case| infer(place, statement, case)).collect()
}

fn cases(place: &Record, statement: &Statement) -> Vec<Case> {
    match statement.op {
        Op::Stop => Vec::new(),
        Op::Choose => [0, 1].map(|pick| Case { pick, guards: [ABSENT; 2] }).to_vec(),
        _ => guards_of(place, statement).into_iter().map(|guards| Case { pick: 0, guards }).collect(),
    }
}

/// The guards of each edge, by the nodes that the statement goes through. If
/// some pointer that it goes through is at no node, no counter matters.
fn guards_of(place: &Record, statement: &Statement) -> Vec<[Guard; 2]> {
    let node_at = |pointer: usize| {
        let node = usize::from(pointer_byte(place, pointer));
        (node < node_count(place)).then_some(node)
    };
    let one = |node| Guard { kind: ONE, node };
    let more = |node| Guard { kind: TWO_OR_MORE, node };
    let nodes: Option<Vec<usize>> = statement.through().into_iter().map(node_at).collect();
    match nodes.as_deref() {
        Some(&[node]) => vec![[one(node), ABSENT], [more(node), ABSENT]],
        Some(&[w, u]) if u != w => vec![[one(u), one(w)], [one(u), more(w)], [more(u), ABSENT]],
        _ => vec![[ABSENT; 2]],
    }
}

fn infer(place: &Record, statement: &Statement, case: &Case) -> Found {
    let base = base_counters(place, case);
    let first = probe(place, statement, case, &base);
    let mut added = first.kept;
    for old in varied_nodes(place, case) {
        let mut raised = base;
        raised[old] += 1;
        let second = probe(place, statement, case, &raised);
        expect_alike(&first, &second);
        for (new, added) in added.iter_mut().enumerate() {
            match second.counters[new].wrapping_sub(first.counters[new]) {
                0 => {}
                1 => *added |= 1 << old,
                _ => panic!("counter {new} does not follow counter {old} by one"),
            }
        }
    }
    let mut updates = [0u16; NODES];
    for new in 0..nodes_of_target(&first) {
        updates[new] = infer_update(added[new], first.counters[new], &base);
    }
    let found = Found { branch: first.branch, guards: case.guards, target: first.target, updates };
    for counters in further_counters(place, statement, case) {
        check_inference(&first, &probe(place, statement, case, &counters), &found, &counters);
    }
    found
}

/// The smallest counters under which the edge is taken.
fn base_counters(place: &Record, case: &Case) -> Counters {
    let mut counters = [0; NODES];
    counters[..node_count(place)].fill(1);
    for guard in case.guards.iter().filter(|guard| guard.kind == TWO_OR_MORE) {
        counters[guard.node] = 2;
    }
    counters
}

/// Whether a guard holds the counter of a node at 1.
fn is_fixed(case: &Case, node: usize) -> bool {
    case.guards.contains(&Guard { kind: ONE, node })
}

/// The nodes whose counters may vary under the guards.
fn varied_nodes(place: &Record, case: &Case) -> Vec<usize> {
    (0..node_count(place)).filter(|&node| !is_fixed(case, node)).collect()
}

/// Counters for the further probes: all that may vary are changed at once and,
/// if the statement goes through two pointers, also every two of them.
fn further_counters(place: &Record, statement: &Statement, case: &Case) -> Vec<Counters> {
    let base = base_counters(place, case);
    let varied = varied_nodes(place, case);
    let mut all = base;
    for &node in &varied {
        all[node] += 1 + node as u64 % 3;
    }
    let mut further = vec![all];
    if statement.through().len() < 2 {
        return further;
    }
    for (index, &one) in varied.iter().enumerate() {
        for &other in &varied[..index] {
            let mut counters = base;
            counters[one] += 1;
            counters[other] += 2;
            further.push(counters);
        }
    }
    further
}

fn probe(place: &Record, statement: &Statement, case: &Case, counters: &Counters) -> Probed {
    let mut heap = unfold_shape(&shape_of(place), counters);
    let before = nodes_of_cells(&heap);
    let fresh = heap.lowest_unused();
    match run(&mut heap, statement, case.pick, fresh) {
        Outcome::Stop => panic!("a stop has no edge"),
        Outcome::Fault(fault) => {
            let target = fault_location(place[1], fault);
            Probed { branch: 0, target, counters: [0; NODES], kept: [0; NODES] }
        }
        Outcome::Moved { branch, next } => {
            let (shape, counters) = fold_heap(&heap);
            let kept = kept_nodes(case, &before, &nodes_of_cells(&heap));
            Probed { branch, target: location(next, &shape), counters, kept }
        }
    }
}

/// For each new node, the old nodes held at 1 whose cell it has, from the
/// nodes of the cells before and after the step.
fn kept_nodes(case: &Case, before: &[Option<usize>], after: &[Option<usize>]) -> [u16; NODES] {
    let mut kept = [0; NODES];
    for pair in before.iter().zip(after) {
        match pair {
            (&Some(old), &Some(new)) if is_fixed(case, old) => kept[new] |= 1 << old,
            _ => {}
        }
    }
    kept
}

/// The nodes of the target; a fault has none, and byte 3 of its record is 0.
fn nodes_of_target(probed: &Probed) -> usize {
    node_count(&probed.target)
}

fn expect_alike(first: &Probed, second: &Probed) {
    if first.branch != second.branch || first.target != second.target {
        panic!("two probes of one edge lead to different branches or targets");
    }
    if first.kept != second.kept {
        panic!("a cell whose node is held at 1 goes to different nodes");
    }
}

/// The update of one new counter: the old counters it adds were seen to move
/// it, or are held at 1 and their cell was seen in it, and the constant is
/// what they leave over.
fn infer_update(added: u16, new: u64, base: &Counters) -> u16 {
    let sum: u64 = ones(added).map(|old| base[old]).sum();
    match new as i64 - sum as i64 {
        constant @ -1..=1 => added | ((constant + 1) as u16) << 12,
        _ => panic!("no constant of -1, 0 or 1 explains a counter"),
    }
}

fn ones(added: u16) -> impl Iterator<Item = usize> {
    (0..NODES).filter(move |old| added >> old & 1 == 1)
}

/// Applies the updates to the counters of a further probe.
fn check_inference(first: &Probed, further: &Probed, found: &Found, counters: &Counters) {
    expect_alike(first, further);
    for new in 0..nodes_of_target(first) {
        let update = found.updates[new];
        let sum: u64 = ones(update & 0xfff).map(|old| counters[old]).sum();
        if further.counters[new] + 1 != sum + u64::from(update >> 12) {
            panic!("the update inferred for counter {new} fails on another heap");
        }
    }
}
