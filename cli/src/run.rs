//! A run of the routine with the automaton beside it, step by step.

use crate::automaton::{Automaton, Refusal, ALL_PLACES};
use crate::drawing::{heap_lines, indented, shape_lines};
use crate::listing::idle_note;
use crate::machine::{compare, Machine, Stepped};
use crate::moves::{configuration, Configuration};
use crate::names;
use crate::record::{Op, Routine, Shape, Statement};
use crate::refusal;
use crate::source::{Failure, Source};
use crate::style::{fill, paragraph, with_commas, Style};

const INDENT: usize = 13;

pub struct Options {
    /// How many cells each node of the starting shape stands for.
    pub heap: Vec<u32>,
    pub shape: usize,
    pub picks: Vec<u8>,
    pub steps: usize,
}

/// What is printed, whether all of it matched and nothing was refused, and how it ended.
pub struct Ran {
    pub text: String,
    pub matched: bool,
    pub steps: usize,
    pub end: End,
}

/// Why a run is over.
#[derive(Clone, PartialEq, Eq, Debug)]
pub enum End {
    Stop,
    Fault(u8),
    NoPick,
    NoMoreSteps,
    Refused(Refusal),
    Mismatch(String),
}

pub struct Run<'a> {
    pub source: &'a Source,
    pub routine: &'a Routine,
    pub automaton: &'a Automaton,
    pub style: Style,
}

/// The routine and the automaton beside it.
struct Pair {
    machine: Machine,
    at: Configuration,
}

impl Run<'_> {
    pub fn go(&self, options: &Options) -> Result<Ran, Failure> {
        let mut pair = self.start(options)?;
        let mut text = format!("{}: starting shape {}, cells by their numbers\n", self.source.name, options.shape);
        text.push_str(&idle_note(self.routine));
        text.push_str(&format!("\n{}\n", self.style.strong("start")));
        let (mut steps, mut picks) = (0, options.picks.iter().copied());
        let mut over = self.judge(&pair, &mut text).err();
        while over.is_none() {
            over = self.at_end(&pair, steps == options.steps);
            if over.is_none() {
                over = self.step(&mut pair, &mut picks, steps + 1, &mut text).err();
                steps += usize::from(over.is_none());
            }
        }
        let end = over.expect("the loop's end");
        text.push_str(&format!("\n{}", self.closing(&end, steps)));
        let matched = !matches!(end, End::Refused(_) | End::Mismatch(_));
        Ok(Ran { text, matched, steps, end })
    }

    fn start(&self, options: &Options) -> Result<Pair, Failure> {
        let shape = starting_shape(self.routine, options.shape, &options.heap)?;
        let refused = |r: Refusal| refusal::failure(r, self.source, ALL_PLACES);
        let machine = Machine::start(&shape.write(), &options.heap).map_err(refused)?;
        Ok(Pair { machine, at: configuration(options.shape, &options.heap) })
    }

    /// Whether the run is over, for both alike.
    fn at_end(&self, pair: &Pair, last: bool) -> Option<End> {
        let stop = self.routine.statements[pair.machine.statement].op == Op::Stop;
        let leaves = self.automaton.leaving(pair.at.location as usize).next().is_some();
        match (pair.machine.fault, stop, leaves) {
            (0, false, false) => Some(End::Mismatch("the routine goes on and no edge leaves the location".into())),
            (0, false, true) => last.then_some(End::NoMoreSteps),
            (_, _, true) => Some(End::Mismatch("the routine has ended and an edge leaves the location".into())),
            (0, true, false) => Some(End::Stop),
            (fault, _, false) => Some(End::Fault(fault)),
        }
    }

    /// One step of both, added to the text.
    fn step(&self, pair: &mut Pair, picks: &mut impl Iterator<Item = u8>, number: usize, text: &mut String) -> Result<(), End> {
        let before = pair.machine.clone();
        let statement = &self.routine.statements[before.statement];
        let name = self.source.statement_name(before.statement);
        let pick = if statement.op == Op::Choose { picks.next().ok_or(End::NoPick)? } else { 0 };
        let branch = match pair.machine.step(&statement.write(), pick) {
            Stepped::Made { branch } => branch,
            Stepped::Stopped => return Err(End::Mismatch("the plain step stopped at a statement that is no stop".into())),
            Stepped::Refused(refusal) => return Err(End::Refused(refusal)),
        };
        let lead = format!("{:<INDENT$}", format!("step {number}"));
        text.push_str(&format!("\n{}{name}: {}\n", self.style.strong(&lead), names::statement(statement)));
        let count = self.automaton.counters(&pair.at).len();
        let taken = self.automaton.follow(&mut pair.at, branch);
        if let Ok(edge) = taken {
            text.push_str(&self.taken(edge, statement, count));
        }
        if pair.machine.fault != 0 {
            text.push_str(&self.faulted(&before, &pair.machine, branch));
        }
        if statement.op == Op::Drop {
            text.push_str(&went(pair.machine.gone_since(&before)));
        }
        taken.map_err(End::Mismatch)?;
        self.judge(pair, text)
    }

    /// The edge that was taken at a statement, from a location with so many nodes.
    fn taken(&self, number: usize, statement: &Statement, count: usize) -> String {
        let edge = &self.automaton.edges[number];
        let condition = names::condition(edge, statement, &self.automaton.locations[edge.to]);
        let mut pieces = with_commas(&names::updates(edge, count));
        let colon = if pieces.is_empty() || condition.is_empty() { "" } else { ":" };
        pieces.insert(0, format!("{condition}{colon}"));
        fill(&format!("{:<INDENT$}", format!("  edge {number}")), INDENT + 4, &pieces)
    }

    /// The routine's own side of a fault, as the proved step answers it.
    fn faulted(&self, before: &Machine, after: &Machine, branch: u8) -> String {
        let statement = &self.routine.statements[after.statement];
        let cause = names::cause(after.fault, statement, &before.pointers);
        let stays = (before.pointers, before.cells) == (after.pointers, after.cells);
        let pieces = [
            format!("FAULT {} at {}:", after.fault, self.source.statement_name(after.statement)),
            format!("{cause};"),
            format!("branch {branch},"),
            if stays { "the heap stays" } else { "the heap changes" }.into(),
        ];
        let line = fill(&format!("{:<INDENT$}", "  routine"), INDENT + 4, &pieces);
        line.replacen("FAULT", &self.style.bad("FAULT"), 1)
    }

    /// The heap and the location beside it, and whether they match.
    fn judge(&self, pair: &Pair, text: &mut String) -> Result<(), End> {
        let Pair { machine, at } = pair;
        let verdict = compare(self.automaton, at, machine);
        let drawn = indented(&heap_lines(&machine.pointers, &machine.cells, &self.routine.idle_pointers()), INDENT);
        text.push_str(&drawn.replacen("      ", "  heap", 1));
        let word = if verdict.is_ok() { "match" } else { "MISMATCH" };
        let shown = if verdict.is_ok() { self.style.good(word) } else { self.style.bad(word) };
        let lead = format!("{:<INDENT$}", format!("  {word}"));
        let line = fill(&lead, INDENT + 4, &self.place(pair)).replacen(word, &shown, 1);
        text.push_str(&line.replacen("FAULT", &self.style.bad("FAULT"), 1));
        verdict.map_err(End::Mismatch)
    }

    /// The automaton's location and counters, or the fault, as pieces of a line.
    fn place(&self, pair: &Pair) -> Vec<String> {
        let location = &self.automaton.locations[pair.at.location as usize];
        let name = self.source.statement_name(location.statement);
        if location.fault != 0 {
            let statement = &self.routine.statements[location.statement];
            let what = names::fault(location.fault, statement, &[pair.machine.pointers]);
            let mut pieces = vec![format!("location {}: FAULT {} at {name},", pair.at.location, location.fault)];
            pieces.extend(what);
            return pieces;
        }
        let mut pieces = vec![format!("location {} at {name}", pair.at.location)];
        pieces.extend(names::counters(self.automaton.counters(&pair.at)));
        with_commas(&pieces)
    }

    fn closing(&self, end: &End, steps: usize) -> String {
        let so_far = format!("{} and {}, each pair matched.", names::count(steps, "step"), names::count(steps, "edge"));
        let how = match end {
            End::Stop => "The routine stands at a stop, and no edge leaves the location.".into(),
            End::Fault(fault) => {
                format!("The run ends with fault {fault}, {}, and no edge leaves the location.", names::a_fault(*fault))
            }
            End::NoPick => "The run waits at choose: --picks has no pick left.".into(),
            End::NoMoreSteps => "The run could go on: --steps sets how far.".into(),
            End::Refused(refusal) => {
                let why = refusal::words(*refusal, self.source, ALL_PLACES);
                return paragraph("", 0, &format!("{so_far} The next step is refused.")) + &why;
            }
            End::Mismatch(how) => {
                let text = paragraph("MISMATCH", 4, &format!("after {}: {how}.", names::count(steps, "matching step")));
                return text.replacen("MISMATCH", &self.style.bad("MISMATCH"), 1);
            }
        };
        paragraph("", 0, &format!("{so_far} {how}"))
    }
}

/// The starting shape with this number, if so many counters are one for each of its nodes.
pub fn starting_shape<'a>(routine: &'a Routine, number: usize, heap: &[u32]) -> Result<&'a Shape, Failure> {
    let shape = routine.shapes.get(number).ok_or_else(|| {
        let count = names::count(routine.shapes.len(), "starting shape");
        Failure::bad_use(format!("--shape {number}: the routine has {count}, counted from 0"))
    })?;
    if heap.len() == shape.count {
        return Ok(shape);
    }
    let drawn = indented(&shape_lines(shape, &routine.idle_pointers()), 4);
    Err(Failure::bad_use(format!(
        "--heap gives {}, and starting shape {number} needs {}, one for each node:\n{}",
        names::count(heap.len(), "number"),
        shape.count,
        drawn.trim_end()
    )))
}

/// The routine's own side of a drop: how many cells went, if any.
fn went(cells: usize) -> String {
    match cells {
        0 => String::new(),
        _ => format!("{:<INDENT$}{} went\n", "  routine", names::count(cells, "cell")),
    }
}
