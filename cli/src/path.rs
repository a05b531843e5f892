//! The edges of a path, a line each, in the words of a listing.

use crate::listing::Listing;
use crate::names;
use crate::style::{fill, with_commas};

/// An edge that was taken, and the counters after it in words.
pub struct Taken {
    pub edge: usize,
    pub counters: Vec<String>,
}

impl Listing<'_> {
    /// The line of the start, with its counters in words.
    pub fn path_start(&self, indent: usize, location: usize, counters: &[String]) -> String {
        let lead = format!("{:<indent$}", "start");
        let pieces = match self.automaton.locations[location].fault {
            0 => self.place(location, counters),
            fault => vec![format!("location {location}: FAULT {fault}")],
        };
        let line = fill(&lead, indent + 4, &pieces).replacen("FAULT", &self.style.bad("FAULT"), 1);
        line.replacen("start", &self.style.strong("start"), 1)
    }

    /// A line for each edge: the name of its place in the path, when it is taken, and where it leads.
    pub fn path_lines(&self, indent: usize, name: &dyn Fn(usize) -> String, taken: &[Taken]) -> String {
        let number = |t: &Taken| format!("edge {}", t.edge);
        let condition = |t: &Taken| self.condition(&self.automaton.edges[t.edge]);
        let widest = |words: &dyn Fn(&Taken) -> String| taken.iter().map(|t| words(t).len()).max().unwrap_or(0);
        let (wide, wider) = (widest(&number), widest(&condition));
        let gap = if wider > 0 { "  " } else { "" };
        let line = |(n, t): (usize, &Taken)| {
            let name = name(n);
            let lead = format!("{name:<indent$}{:<wide$}  {:<wider$}{gap}", number(t), condition(t));
            let line = fill(&lead, indent + 4, &self.led(t)).replacen("FAULT", &self.style.bad("FAULT"), 1);
            line.replacen(&name, &self.style.strong(&name), 1)
        };
        taken.iter().enumerate().map(line).collect()
    }

    /// Where an edge leads, as pieces of a line.
    fn led(&self, taken: &Taken) -> Vec<String> {
        let edge = &self.automaton.edges[taken.edge];
        let [from, to] = [edge.from, edge.to].map(|number| &self.automaton.locations[number]);
        if to.fault == 0 {
            let mut pieces = self.place(edge.to, &taken.counters);
            pieces[0].insert_str(0, "to ");
            return pieces;
        }
        let name = self.source.statement_name(to.statement);
        let cause = names::cause(to.fault, &self.routine.statements[to.statement], &from.shape.pointers);
        vec![format!("to location {}:", edge.to), format!("FAULT {} at {name},", to.fault), cause]
    }

    /// A location without a fault, its statement and its counters, as pieces of a line.
    fn place(&self, location: usize, counters: &[String]) -> Vec<String> {
        let statement = self.automaton.locations[location].statement;
        let name = self.source.statement_name(statement);
        let words = names::statement(&self.routine.statements[statement]);
        let end = if counters.is_empty() { "" } else { ";" };
        [vec![format!("location {location} at {name}:"), words + end], with_commas(counters)].concat()
    }

    /// The location with this number, with the edges that leave it.
    pub fn standing(&self, number: usize) -> String {
        self.location(number, &self.automaton.locations[number]) + &self.edges(number)
    }
}
