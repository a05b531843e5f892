//! Runs: the routine on a heap against the automaton of the two tables.

use super::counts::Counts;
use super::describes::describes;
use super::draws::{any_unused_cell, random_edge_number};
use super::drop_counts::count_ways;
use super::{drops, relinks, undefined};
use crate::automaton::{Automaton, Configuration};
use crate::fold::{fold_heap, Counters};
use crate::heap::{Heap, Value, POINTERS};
use crate::input::Routine;
use crate::machine::{run, Outcome};
use crate::random::{rename, Random};
use crate::records::{location, node_count, shape_of, NODES};
use crate::statement::{Op, Statement};
use crate::unfold::unfold_shape;

/// How many entries or edge numbers are fed in one run.
const ENTRIES: usize = 30;

/// A run of the routine.
#[derive(Clone, PartialEq, Eq, Debug)]
struct Running {
    heap: Heap,
    statement: u8,
    fault: u8,
    /// The pointers whose cell was freed and that were not set since.
    freed: [bool; POINTERS],
}

/// What an entry did.
#[derive(Clone, Copy, PartialEq, Eq, Debug)]
enum Fed {
    NoStep,
    Step { branch: u8 },
}

impl Running {
    fn at<'a>(&self, routine: &'a Routine) -> &'a Statement {
        &routine.statements[usize::from(self.statement)]
    }

    fn ended(&self, routine: &Routine) -> bool {
        self.fault != 0 || self.at(routine).op == Op::Stop
    }

    fn feed(&mut self, routine: &Routine, pick: u64, cell: usize) -> Fed {
        let statement = self.at(routine);
        let refused = match statement.op {
            Op::Choose => pick > 1,
            Op::New => self.heap.in_use(cell),
            _ => false,
        };
        if self.fault != 0 || refused {
            return Fed::NoStep;
        }
        let held = self.heap.pointers;
        match run(&mut self.heap, statement, pick, cell) {
            Outcome::Stop => Fed::NoStep,
            Outcome::Fault(fault) => {
                self.fault = fault;
                Fed::Step { branch: 0 }
            }
            Outcome::Moved { branch, next } => {
                self.statement = next;
                self.mark_freed(statement, &held);
                Fed::Step { branch }
            }
        }
    }

    /// Follows a step from what the pointers held before it.
    fn mark_freed(&mut self, statement: &Statement, held: &[Value; POINTERS]) {
        match statement.op {
            Op::Free => {
                for (pointer, freed) in self.freed.iter_mut().enumerate() {
                    *freed |= self.heap.pointers[pointer] != held[pointer];
                }
            }
            Op::SetNull | Op::Copy | Op::LoadNext | Op::New | Op::Drop => self.freed[statement.u] = false,
            _ => {}
        }
    }

    /// Whether the statement is a test of a pointer whose cell was freed.
    fn compares_freed(&self, statement: &Statement) -> bool {
        match statement.op {
            Op::TestNull => self.freed[statement.u],
            Op::TestEqual => self.freed[statement.u] || self.freed[statement.w],
            _ => false,
        }
    }
}

/// A starting shape with counters, and a heap with its cells anywhere.
fn start(random: &mut Random, counts: &mut Counts, routine: &Routine) -> (Running, Configuration) {
    let number = random.below(routine.shapes.len());
    let shape = &routine.shapes[number];
    let mut counters: Counters = [0; NODES];
    for counter in counters.iter_mut().take(node_count(shape)) {
        *counter = [1, 1, 2, 3, random.between(1, 9) as u64][random.below(5)];
    }
    let straight = unfold_shape(shape, &counters);
    let room = straight.cells.len() + random.below(4);
    counts.runs += 1;
    let running = Running { heap: rename(random, &straight, room), statement: 0, fault: 0, freed: [false; POINTERS] };
    let at = Configuration { location: number, counters };
    (running, at)
}

/// Feeds entries to the routine; each step made has exactly one edge enabled
/// of its branch, and that one is taken.
pub fn follow_the_routine(
    random: &mut Random,
    counts: &mut Counts,
    routine: &Routine,
    automaton: &Automaton,
) -> Result<(), String> {
    let (mut running, mut at) = start(random, counts, routine);
    check_match(routine, automaton, &running, &at)?;
    let mut fed = 0;
    while fed < ENTRIES {
        fed += 1;
        let pick = if random.chance(10) { random.next() | 2 } else { random.next() & 1 };
        let cell = random.below(running.heap.cells.len() + 3);
        let before = running.clone();
        match running.feed(routine, pick, cell) {
            Fed::NoStep => {
                counts.refused_entries += 1;
                if running != before {
                    return Err("an entry that makes no step changes something".to_string());
                }
                if running.ended(routine) {
                    // Past the end a few more are enough.
                    fed += ENTRIES / 3;
                }
            }
            Fed::Step { branch } => {
                take_the_only_edge(automaton, &mut at, branch)?;
                check_step(counts, routine, &before, &running)?;
                check_match(routine, automaton, &running, &at)?;
            }
        }
    }
    Ok(())
}

fn take_the_only_edge(automaton: &Automaton, at: &mut Configuration, branch: u8) -> Result<(), String> {
    let enabled: Vec<u64> = automaton
        .leaving(at.location)
        .iter()
        .map(|&number| number as u64)
        .filter(|&number| automaton.enabled(at, number))
        .filter(|&number| automaton.edges[number as usize].branch == branch)
        .collect();
    let [number] = enabled[..] else {
        return Err(format!("a step of branch {branch} has the edges {enabled:?}"));
    };
    if automaton.feed(at, number) {
        Ok(())
    } else {
        Err(format!("edge {number} is enabled and refused"))
    }
}

/// Feeds edge numbers to the automaton; the routine, fed the branch of each
/// edge taken and any unused cell, makes exactly those steps.
pub fn follow_the_edges(
    random: &mut Random,
    counts: &mut Counts,
    routine: &Routine,
    automaton: &Automaton,
) -> Result<(), String> {
    let (mut running, mut at) = start(random, counts, routine);
    check_match(routine, automaton, &running, &at)?;
    for _ in 0..ENTRIES {
        let number = random_edge_number(random, automaton, &at);
        let before = at.clone();
        if !automaton.feed(&mut at, number) {
            counts.refused_edges += 1;
            if at != before {
                return Err(format!("refused edge number {number} changes something"));
            }
            continue;
        }
        let edge = &automaton.edges[number as usize];
        let cell = any_unused_cell(random, &running.heap);
        let before = running.clone();
        let fed = running.feed(routine, u64::from(edge.branch), cell);
        if fed != (Fed::Step { branch: edge.branch }) {
            return Err(format!("edge {number} is taken but the routine gives {fed:?}"));
        }
        check_step(counts, routine, &before, &running)?;
        check_match(routine, automaton, &running, &at)?;
    }
    Ok(())
}

/// Counts a step. A fault leaves heap and statement as they stood, a test
/// faults exactly when it looks at an undefined pointer, and a relink and a
/// drop do what they should.
fn check_step(counts: &mut Counts, routine: &Routine, before: &Running, after: &Running) -> Result<(), String> {
    counts.steps += 1;
    if after.fault != 0 {
        counts.faulted(after.fault);
        if after.heap != before.heap || after.statement != before.statement {
            return Err("a fault changes something".to_string());
        }
    } else if after.ended(routine) {
        counts.stops += 1;
    }
    let statement = before.at(routine);
    let way = undefined::way(statement, |pointer| before.heap.pointers[pointer] == Value::Undefined);
    if let Some(way) = way {
        counts.undefined_run[way] += 1;
    }
    if before.compares_freed(statement) {
        counts.freed_run += 1;
        if way.is_none() {
            return Err("a pointer to a freed cell is not undefined".to_string());
        }
    }
    if let Some(way) = relinks::check_step(statement, &before.heap, &after.heap, after.fault)? {
        counts.relinks_run[way] += 1;
    }
    let ways = drops::check_step(statement, &before.heap, &after.heap, after.fault)?;
    count_ways(&mut counts.drops.run, &ways);
    undefined::check(statement, way, after.fault)
}

/// Whether routine and automaton match, by the definition and by folding.
fn check_match(routine: &Routine, automaton: &Automaton, running: &Running, at: &Configuration) -> Result<(), String> {
    let record = &automaton.locations[at.location];
    if record[1..3] != [running.statement, running.fault] {
        return Err(format!("location {} is not statement {} with fault {}", at.location, running.statement, running.fault));
    }
    if automaton.leaving(at.location).is_empty() != running.ended(routine) {
        return Err(format!("location {} and the routine's end differ", at.location));
    }
    if running.fault != 0 {
        return Ok(());
    }
    describes(&shape_of(record), &at.counters, &running.heap)
        .map_err(|difference| format!("location {}: {difference}", at.location))?;
    let (shape, counters) = fold_heap(&running.heap);
    if location(running.statement, &shape) != *record || counters != at.counters {
        return Err(format!("location {} is not what folding gives", at.location));
    }
    Ok(())
}
