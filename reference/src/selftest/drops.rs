//! Drops, told apart by what they find and by what goes, and what is due of
//! their edges and of their steps.

use super::images::want;
use super::nodes::Dropped;
use crate::automaton::Automaton;
use crate::fold::fold_heap;
use crate::heap::{Heap, Value};
use crate::records::{location, Record, ABSENT, NODES};
use crate::statement::{Op, Statement};

/// What a drop may meet. One of the first six holds of each, and any of the
/// others may hold beside it. A tail is no part of a ring, and is not the node
/// of u.
///
/// Several nodes that vanish are always two, a stem and its ring: the second
/// is at no pointer, so two cells lead to it that vanish as well, and the walk
/// from u meets no more of these than the stem's last cell and the ring's.
pub const WAYS: [&str; 20] = [
    "u null",
    "u undefined",
    "another pointer at the node of u",
    "another pointer reaches the node of u",
    "one node vanishes",
    "several nodes vanish",
    "a ring vanishes",
    "a ring with a stem vanishes",
    "everything vanishes",
    "a shared tail loses one of two cells and merges",
    "a node of a ring loses one of two cells and merges",
    "the node of u had one cell and merges",
    "the node of u had one cell and merges within a ring",
    "the node of u stays core by two cells",
    "a tail stays core by its pointer alone",
    "a tail stays core by two other cells",
    "a node of a ring stays core by its pointer alone",
    "a node of a ring stays core by two other cells",
    "twelve nodes before",
    "nodes change their order",
];

/// What a drop does to one node.
struct Fate {
    of_u: bool,
    on_a_ring: bool,
    stays: bool,
    core: bool,
    /// The pointers that are at it afterwards.
    pointers: usize,
    /// The cells that lead to it from the ends of nodes, before and afterwards.
    cells_before: usize,
    cells: usize,
}

impl Fate {
    fn of(dropped: &Dropped, u: usize, node: usize) -> Fate {
        let Dropped { before, after, stays, core } = dropped;
        Fate {
            of_u: before.pointers[u] == Value::Cell(node),
            on_a_ring: before.on_a_ring(node),
            stays: stays[node],
            core: core[node],
            pointers: after.pointers_at(node),
            cells_before: before.ends_at(node, &vec![true; stays.len()]),
            cells: after.ends_at(node, stays),
        }
    }

    fn vanishes(&self) -> bool {
        !self.stays
    }

    fn merges(&self) -> bool {
        self.stays && !self.core
    }

    /// Whether it stays while a cell that led to it goes.
    fn loses_a_cell(&self) -> bool {
        self.stays && !self.of_u && self.cells < self.cells_before
    }

    fn core_by_a_pointer_alone(&self) -> bool {
        self.pointers > 0 && self.cells < 2
    }

    fn core_by_cells_alone(&self) -> bool {
        self.pointers == 0 && self.cells >= 2
    }
}

/// The numbers of the ways of a drop of pointer u on a shape.
pub fn ways(record: &Record, u: usize) -> Vec<usize> {
    let dropped = Dropped::of(record, u);
    let fates: Vec<Fate> = (0..dropped.stays.len()).map(|node| Fate::of(&dropped, u, node)).collect();
    let order: Vec<usize> = dropped.numbered().into_iter().map(|(node, _)| node).collect();
    let more = [marks(&fates).to_vec(), vec![fates.len() == NODES, !order.is_sorted()]].concat();
    let first = WAYS.len() - more.len();
    let numbers = (0..more.len()).filter(|&mark| more[mark]).map(|mark| first + mark);
    std::iter::once(way(&fates, dropped.before.pointers[u])).chain(numbers).collect()
}

/// The one of the first six.
fn way(fates: &[Fate], held: Value) -> usize {
    let vanished = fates.iter().filter(|node| node.vanishes()).count();
    match (held, vanished) {
        (Value::Null, _) => 0,
        (Value::Undefined, _) => 1,
        (_, 0) if fates.iter().any(|node| node.of_u && node.pointers > 0) => 2,
        (_, 0) => 3,
        (_, 1) => 4,
        _ => 5,
    }
}

/// Which of those hold that go by the nodes, from the seventh on.
fn marks(fates: &[Fate]) -> [bool; 12] {
    let any = |test: &dyn Fn(&Fate) -> bool| fates.iter().any(test);
    let of_u = |test: &dyn Fn(&Fate) -> bool| any(&|node| node.of_u && test(node));
    let losing = |ring: bool, test: &dyn Fn(&Fate) -> bool| {
        let loses = |node: &Fate| node.loses_a_cell() && node.on_a_ring == ring;
        any(&|node| loses(node) && test(node))
    };
    let ring_vanishes = any(&|node| node.vanishes() && node.on_a_ring);
    let of_two_merges = |node: &Fate| node.cells_before == 2 && node.merges();
    let of_one_merges = |node: &Fate| node.cells_before == 1 && node.merges();
    [
        ring_vanishes && of_u(&|node| node.on_a_ring),
        ring_vanishes && of_u(&|node| !node.on_a_ring),
        !fates.is_empty() && !any(&|node| node.stays),
        losing(false, &of_two_merges),
        losing(true, &of_two_merges),
        of_u(&|node| of_one_merges(node) && !node.on_a_ring),
        of_u(&|node| of_one_merges(node) && node.on_a_ring),
        of_u(&|node| node.stays && node.core_by_cells_alone()),
        losing(false, &Fate::core_by_a_pointer_alone),
        losing(false, &Fate::core_by_cells_alone),
        losing(true, &Fate::core_by_a_pointer_alone),
        losing(true, &Fate::core_by_cells_alone),
    ]
}

/// The ways of the drop at a location. Holds its edge against the sentences of
/// the request, and its target and updates against what the nodes show.
pub fn check_location(automaton: &Automaton, statement: &Statement, number: usize) -> Result<Vec<usize>, String> {
    let record = &automaton.locations[number];
    let &[edge] = automaton.leaving(number) else {
        return Err(format!("the drop at location {number} has not one edge"));
    };
    let edge = &automaton.edges[edge];
    let target = &automaton.locations[edge.to];
    let told = |what: &str| format!("the drop at location {number} has {what}: {edge:?}");
    want(edge.branch == 0 && edge.guards == [ABSENT; 2], &told("a guard or a branch"))?;
    want(target[1..3] == [statement.first, 0], &told("a fault or another target"))?;
    let dropped = Dropped::of(record, statement.u);
    let (present, absent) = edge.updates.split_at(usize::from(target[3]));
    let added: u32 = present.iter().map(|update| (update & 0xfff).count_ones()).sum();
    let all = present.iter().fold(0, |all, update| all | update & 0xfff);
    want(all == dropped.carried() && added == all.count_ones(), &told("other counters, or one twice"))?;
    want(present.iter().all(|update| update >> 12 == 1), &told("a constant"))?;
    want(absent.iter().all(|&update| update == 0), &told("updates of no nodes"))?;
    let (shape, updates) = dropped.due();
    want(*target == location(statement.first, &shape), &told("another shape"))?;
    want(edge.updates == updates, &told("other updates"))?;
    Ok(ways(record, statement.u))
}

/// The ways of a step, none if it is no drop. Wants u null, the other pointers
/// as they were, and of the cells those that are still reachable, each with
/// what it held.
pub fn check_step(statement: &Statement, before: &Heap, after: &Heap, fault: u8) -> Result<Vec<usize>, String> {
    if statement.op != Op::Drop {
        return Ok(Vec::new());
    }
    want(fault == 0, "a drop has a fault")?;
    let mut pointers = before.pointers;
    pointers[statement.u] = Value::Null;
    want(after.pointers == pointers, "a drop leaves other pointers")?;
    let mut cells = vec![None; before.cells.len()];
    let mut held = pointers.to_vec();
    while let Some(value) = held.pop() {
        let Value::Cell(cell) = value else { continue };
        if cells[cell].is_none() {
            cells[cell] = before.cells[cell];
            held.extend(cells[cell]);
        }
    }
    want(after.cells == cells, "a drop leaves other cells")?;
    Ok(ways(&fold_heap(before).0, statement.u))
}
