//! A path of the automaton from counters that are known only within ranges: whether some start follows it, and one that does.

use crate::automaton::{Automaton, Refusal};
use crate::bounds::Range;
use crate::drawing::{heap_lines, indented, shape_lines};
use crate::listing::{idle_note, Listing};
use crate::machine::{Machine, CELLS};
use crate::moves::{configuration, Configuration, Followed, Reached, LONGEST};
use crate::names;
use crate::path::Taken;
use crate::refusal;
use crate::show::{in_use, Kind};
use crate::source::{Failure, REFUSED};
use crate::style::{paragraph, with_commas};
use crate::witness;

const INDENT: usize = 15;

/// The refusal of a range; the other one is of the path.
const BAD_RANGE: u8 = 22;

pub struct Options {
    /// The number of the location where the path starts.
    pub start: usize,
    /// The range of each of its counters.
    pub counters: Vec<Range>,
    pub edges: Vec<u32>,
}

/// What is printed, what the library said of the whole path, a start that follows it or its longest part, and whether
/// a walk of that start ended as it must.
pub struct Told {
    pub text: String,
    pub followed: Followed,
    pub start: Configuration,
    pub agreed: bool,
}

impl Told {
    pub fn follows(&self) -> bool {
        matches!(self.followed, Followed::To(_))
    }
}

/// The listing, for the words; its automaton has the tables.
pub struct Ranges<'a> {
    pub listing: Listing<'a>,
}

impl Ranges<'_> {
    pub fn go(&self, options: &Options) -> Result<Told, Failure> {
        self.one_each(options)?;
        let Options { start, counters, edges: path } = options;
        let followed = self.automaton().follow_ranges(*start, counters, path);
        let part = match followed {
            Followed::Refused(refused) => return Err(self.refused(refused, options)),
            Followed::EndsAt(position) => &path[..position],
            Followed::To(_) => &path[..],
        };
        let Some(stages) = witness::stages(self.automaton(), *start, counters, part) else {
            let message = paragraph("INTERNAL ERROR:", 4, " a part of the path that is followed is told not to be.");
            return Err(Failure { status: REFUSED, message });
        };
        let last = &stages[part.len()];
        let mut text = self.head(options) + &self.lines(&stages, part);
        text.push_str(&format!("\n{}\n", self.listing.standing(last.location)));
        text.push_str(&match followed {
            Followed::EndsAt(position) => self.ended(last, position, path[position]),
            _ => self.reached(last),
        });
        let from = witness::start(self.automaton(), &stages, part, &witness::lowest(last));
        let to = configuration(last.location, &witness::lowest(last));
        let astray = witness::astray(self.automaton(), &from, part, &to);
        text.push_str(&astray.clone().unwrap_or_else(|| self.witness(&from, &to, part.len() == path.len())));
        Ok(Told { text, followed, start: from, agreed: astray.is_none() })
    }

    fn automaton(&self) -> &Automaton {
        self.listing.automaton
    }

    /// Whether there is a range for each node of the start. Of a start that is not there the library tells.
    fn one_each(&self, options: &Options) -> Result<(), Failure> {
        let Some(location) = self.automaton().locations.get(options.start) else { return Ok(()) };
        let (given, needed) = (options.counters.len(), location.shape.count);
        if given == needed {
            return Ok(());
        }
        let message = format!("--counters gives {}, and location {} needs {needed}", names::count(given, "range"), options.start);
        if location.fault != 0 {
            return Err(Failure::bad_use(format!("{message}: a fault has no nodes")));
        }
        let drawn = indented(&shape_lines(&location.shape, &self.listing.routine.idle_pointers()), 4);
        Err(Failure::bad_use(format!("{message}, one for each node:\n{}", drawn.trim_end())))
    }

    fn head(&self, options: &Options) -> String {
        let Listing { source, routine, .. } = self.listing;
        let along = names::count(options.edges.len(), "edge");
        let from = format!("from location {} along {along}, with counters within ranges", options.start);
        format!("{}: {from}\n{}\n", source.name, idle_note(routine))
    }

    /// The start, and a line for each edge: its position, when it is taken, and the ranges after it.
    fn lines(&self, stages: &[Reached], path: &[u32]) -> String {
        let taken = |(&edge, to): (&u32, &Reached)| Taken { edge: edge as usize, counters: names::ranges(&to.ranges) };
        let taken: Vec<Taken> = path.iter().zip(&stages[1..]).map(taken).collect();
        self.listing.path_start(INDENT, stages[0].location, &names::ranges(&stages[0].ranges))
            + &self.listing.path_lines(INDENT, &|n| format!("position {n}"), &taken)
    }

    /// What is said where some start follows the path.
    fn reached(&self, last: &Reached) -> String {
        let location = &self.automaton().locations[last.location];
        let lead = format!("Some start follows the path, to location {}", last.location);
        let ranges = with_commas(&names::ranges(&last.ranges)).join(" ");
        paragraph(
            "",
            0,
            &match (location.fault, last.ranges.len()) {
                (0, 0) => format!("{lead}, which has no counters."),
                (0, 1) => format!("{lead}. Exactly these values are reached there: {ranges}."),
                (0, _) => format!("{lead}. Exactly these values are reached there, each with each of the others: {ranges}."),
                _ => format!("{lead}. A fault has no counters."),
            },
        )
    }

    /// What is said where none can go on along an edge from what is reached.
    fn ended(&self, last: &Reached, position: usize, number: u32) -> String {
        let edge = &self.automaton().edges[number as usize];
        let mut nodes: Vec<usize> = edge.guards.iter().filter_map(|guard| guard.node()).collect();
        nodes.dedup();
        let ranges: Vec<String> = nodes.iter().map(|&node| format!("c{node} = {}", last.ranges[node])).collect();
        let (guards, ranges) = (names::guards(&edge.guards), ranges.join(", "));
        let why = match edge.guards.len() {
            2 => format!("its guards {guards} hold together for no values of {ranges}"),
            _ => format!("its guard {guards} holds for no value of {ranges}"),
        };
        paragraph("", 0, &format!("No start follows the path: at position {position} none can go on along edge {number}; {why}."))
    }

    /// A start that follows the path, or its longest part, and its heap.
    fn witness(&self, from: &Configuration, to: &Configuration, whole: bool) -> String {
        let [start, end] = [from, to].map(|at| with_commas(&names::counters(self.automaton().counters(at))).join(" "));
        let follows = if whole { "follows it" } else { "follows it up to there" };
        let with = if start.is_empty() { "no counters".into() } else { start };
        let ends = if end.is_empty() { String::new() } else { format!(" It ends with {end}.") };
        paragraph("", 0, &format!("A start that {follows}, as a walk confirms: {with}.{ends}")) + &self.heap(from)
    }

    /// The heap of a start, unfolded by the proved library, if it is not too large; a fault has none.
    fn heap(&self, start: &Configuration) -> String {
        let location = &self.automaton().locations[start.location as usize];
        let counters = self.automaton().counters(start);
        if location.fault != 0 {
            return String::new();
        }
        let cells: u64 = counters.iter().map(|&counter| u64::from(counter)).sum();
        if cells > CELLS as u64 {
            return format!("{:<INDENT$}not drawn: it has {cells} cells, and at most {CELLS} are drawn\n", "  heap");
        }
        match Machine::start(&location.shape.write(), counters) {
            Ok(machine) => {
                let lines = heap_lines(&machine.pointers, &machine.cells, &self.listing.routine.idle_pointers());
                indented(&lines, INDENT).replacen("      ", "  heap", 1)
            }
            Err(refused) => paragraph("INTERNAL ERROR:", 4, &format!(" the heap is refused with {}.", refused.number)),
        }
    }

    /// A refusal in words, with the counter or the position that it is about.
    fn refused(&self, refused: Refusal, options: &Options) -> Failure {
        let (means, mut change) = refusal::meaning(refused.number);
        let here = match refused.number {
            BAD_RANGE => wrong_range(refused.place, options.counters.get(refused.place).copied()),
            _ if options.start >= self.automaton().locations.len() => {
                change = "give the number of a location that is in use to --start; `translate` lists them all";
                format!("location {} is not in the table; {}", options.start, in_use(&self.automaton().tables, Kind::Location))
            }
            _ if options.edges.len() > LONGEST => {
                change = "give at most 4,096 numbers to --edges";
                format!("there are {} numbers", options.edges.len())
            }
            _ if self.breaks_layout(options.start) => {
                change = "report this: those of the translator never do";
                "the tables break the layout".into()
            }
            _ => self.wrong_edge(refused.place, options),
        };
        Failure { status: REFUSED, message: refusal::told(refused, self.listing.source, [means, change], Some(here)) }
    }

    /// Whether the tables do: then a path without edges from a location that is there is refused for them.
    fn breaks_layout(&self, start: usize) -> bool {
        let told = self.automaton().follow_ranges(start, &[], &[]);
        matches!(told, Followed::Refused(Refusal { number, .. }) if number != BAD_RANGE)
    }

    /// Why the edge at a position is not one that leaves the location reached; those before it are.
    fn wrong_edge(&self, position: usize, Options { start, edges: path, .. }: &Options) -> String {
        let Automaton { edges, tables, .. } = self.automaton();
        let (lead, number) = (format!("at position {position}, edge {}", path[position]), path[position] as usize);
        let location = position.checked_sub(1).map_or(*start, |before| edges[path[before] as usize].to);
        match edges.get(number) {
            None => format!("{lead} is not in the table; {}", in_use(tables, Kind::Edge)),
            Some(edge) => format!("{lead} does not leave location {location}: it leaves location {}", edge.from),
        }
    }
}

/// What is wrong with the range of a counter.
fn wrong_range(counter: usize, given: Option<Range>) -> String {
    let Some(Range { lowest, highest }) = given else { return format!("c{counter} has no range") };
    let what = match (lowest, highest) {
        _ if lowest == highest => "a value is from 1 to 65535",
        (0, _) => "its lowest value is 0",
        (_, 0) => "its highest value is 0",
        _ if lowest > highest => "its lowest value is above its highest",
        _ => "its highest value is above 65535",
    };
    format!("c{counter} is given as {}, and {what}", Range { lowest, highest })
}
