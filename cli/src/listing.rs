//! The listing that a person reads.

use crate::automaton::{Automaton, Edge, Location};
use crate::bench;
use crate::drawing::{indented, shape_lines};
use crate::names;
use crate::record::{Op, Routine};
use crate::source::Source;
use crate::style::{fill, paragraph, with_commas, Style};

/// Where everything but the numbers of locations and edges begins.
const INDENT: usize = 15;

pub struct Listing<'a> {
    pub source: &'a Source,
    pub routine: &'a Routine,
    pub automaton: &'a Automaton,
    pub style: Style,
}

impl Listing<'_> {
    pub fn text(&self) -> String {
        self.body() + &self.totals() + &self.faults()
    }

    /// The same for the bench, with how much of its tables is used.
    pub fn text_on_bench(&self) -> String {
        self.body() + &self.totals() + &bench::used(self.automaton) + &self.faults()
    }

    /// What comes before the totals: every location with its edges.
    fn body(&self) -> String {
        let mut out = self.head();
        for number in 0..self.automaton.locations.len() {
            out.push('\n');
            out.push_str(&self.location(number, &self.automaton.locations[number]));
            out.push_str(&self.edges(number));
        }
        out + "\n"
    }

    fn head(&self) -> String {
        let (statements, shapes) = (self.routine.statements.len(), self.routine.shapes.len());
        let mut out = format!(
            "{}: {}, {}\n",
            self.source.name,
            names::count(statements, "statement"),
            names::count(shapes, "starting shape")
        );
        out.push_str("n0(c0) is node 0, which stands for c0 cells in a row; c0' is the counter after the edge.\n");
        let idle = idle_note(self.routine);
        out + &idle
    }

    pub fn location(&self, number: usize, location: &Location) -> String {
        let statement = &self.routine.statements[location.statement];
        let lead = format!("{:<INDENT$}", format!("location {number}"));
        let at = format!("{}: {}", self.source.statement_name(location.statement), names::statement(statement));
        let painted = self.style.strong(&lead);
        if location.fault != 0 {
            let mark = self.style.bad(&format!("FAULT {}", location.fault));
            let what = names::fault(location.fault, statement, &self.automaton.reached_with(number));
            return format!("{painted}{mark} at {at}\n{}", fill(&" ".repeat(INDENT), INDENT, &what));
        }
        let start = if number < self.routine.shapes.len() { "start, " } else { "" };
        format!("{painted}{start}{at}\n{}", indented(&shape_lines(&location.shape, &self.routine.idle_pointers()), INDENT))
    }

    pub fn edges(&self, number: usize) -> String {
        let conditions = || self.automaton.leaving(number).map(|(_, e)| self.condition(e));
        let width = conditions().map(|c| c.len()).max().unwrap_or(0);
        let mut out = String::new();
        for ((at, edge), condition) in self.automaton.leaving(number).zip(conditions()) {
            let gap = if width > 0 { "  " } else { "" };
            out.push_str(&self.leads(&format!("{:<INDENT$}{condition:<width$}{gap}", format!("  edge {at}")), edge));
        }
        out
    }

    /// An edge by itself.
    pub fn edge(&self, number: usize, edge: &Edge) -> String {
        let lead = format!("{:<INDENT$}", format!("edge {number}"));
        let condition = self.condition(edge);
        let gap = if condition.is_empty() { "" } else { "  " };
        self.leads(&format!("{}from location {}  {condition}{gap}", self.style.strong(&lead), edge.from), edge)
    }

    /// When an edge is taken.
    pub fn condition(&self, edge: &Edge) -> String {
        let [from, to] = self.ends(edge);
        names::condition(edge, &self.routine.statements[from.statement], to)
    }

    /// The locations that an edge leaves and enters.
    fn ends(&self, edge: &Edge) -> [&Location; 2] {
        [edge.from, edge.to].map(|end| &self.automaton.locations[end])
    }

    /// Where an edge leads, after what stands before it on the line.
    fn leads(&self, before: &str, edge: &Edge) -> String {
        let [from, to] = self.ends(edge);
        let lead = format!("{before}to location {}", edge.to);
        if to.fault != 0 {
            let mark = self.style.bad(&format!("FAULT {}", to.fault));
            let statement = &self.routine.statements[from.statement];
            return format!("{lead}, {mark}: {}\n", names::cause(to.fault, statement, &from.shape.pointers));
        }
        let updates = with_commas(&names::updates(edge, from.shape.count));
        let colon = if updates.is_empty() { "" } else { ":" };
        fill(&format!("{lead}{colon}"), INDENT + 4, &updates)
    }

    fn totals(&self) -> String {
        let locations = &self.automaton.locations;
        let is_stop = |s: usize| self.routine.statements[s].op == Op::Stop;
        let stops = locations.iter().filter(|l| is_stop(l.statement)).count();
        let faults = locations.iter().filter(|l| l.fault != 0).count();
        format!(
            "{} ({}, {}, {}), {}\n",
            names::count(locations.len(), "location"),
            names::count(self.routine.shapes.len(), "start"),
            names::count(stops, "stop"),
            names::count(faults, "fault"),
            names::count(self.automaton.edges.len(), "edge")
        )
    }

    /// Which locations have a fault, and what that says.
    fn faults(&self) -> String {
        let locations = &self.automaton.locations;
        let faults: Vec<String> = (0..locations.len()).filter(|&n| locations[n].fault != 0).map(|n| n.to_string()).collect();
        if faults.is_empty() {
            return "No location has a fault: no run from the starting shapes faults, however long the lists are.\n".into();
        }
        let mut out = fill("Locations with a fault:", 4, &with_commas(&faults));
        for kind in 1..=3 {
            let n = locations.iter().filter(|l| l.fault == kind).count();
            if n > 0 {
                out.push_str(&format!("    FAULT {kind}, {}: {n}\n", names::fault_kind(kind)));
            }
        }
        let note =
            "An edge leads to each of them where its guard holds. Whether a run reaches one is for a model checker to tell.";
        out + &paragraph("", 0, note)
    }
}

/// Which pointers the drawings leave out, if any.
pub fn idle_note(routine: &Routine) -> String {
    let idle: Vec<String> = routine.idle_pointers().iter().map(|p| format!("p{p}")).collect();
    match idle.len() {
        0 => String::new(),
        1 => format!("Not drawn: {}, which is null throughout.\n", idle[0]),
        _ => format!("Not drawn: {}, which are null throughout.\n", idle.join(", ")),
    }
}
