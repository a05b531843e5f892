//! A walk of the automaton by itself, along edges that are named by their numbers.

use crate::automaton::{Automaton, Edge, Node, Refusal, Update};
use crate::listing::{idle_note, Listing};
use crate::moves::{configuration, Configuration, LONGEST, TOO_LARGE};
use crate::names;
use crate::path::Taken;
use crate::refusal;
use crate::run::starting_shape;
use crate::show::{in_use, Kind};
use crate::source::{Failure, REFUSED};
use crate::style::paragraph;

const INDENT: usize = 11;

pub struct Options {
    /// The counter of each node of the starting shape.
    pub heap: Vec<u32>,
    pub shape: usize,
    pub edges: Vec<u32>,
}

/// What is printed, what the walk in one call gave, and whether its single moves gave the same.
pub struct Went {
    pub text: String,
    pub walked: Walked,
    pub agreed: bool,
}

/// How a walk ended: the refusal, 0 for none, how many moves were made, and where they led.
#[derive(Clone, Copy, PartialEq, Eq, Debug)]
pub struct Walked {
    pub refusal: u8,
    pub made: usize,
    pub at: Configuration,
}

/// A move that was made: along which edge, and to where.
struct Move {
    edge: usize,
    to: Configuration,
}

/// The listing, for the words; its automaton has the tables.
pub struct Walk<'a> {
    pub listing: Listing<'a>,
}

impl Walk<'_> {
    /// The whole walk in one call, and its moves one by one to show them.
    pub fn go(&self, options: &Options) -> Result<Went, Failure> {
        starting_shape(self.listing.routine, options.shape, &options.heap)?;
        let (start, path) = (configuration(options.shape, &options.heap), &options.edges[..]);
        let walked = self.at_once(start, path);
        if let Some(message) = self.refused_whole(&start, path, walked.refusal) {
            return Err(Failure { status: REFUSED, message });
        }
        let (moves, singly) = self.one_by_one(start, path);
        let differs = difference(&walked, &singly);
        let mut text = self.head(options) + &self.start(&start) + &self.moves(&moves);
        text.push_str(&format!("\n{}\n{}", self.listing.standing(singly.at.location as usize), self.closing(&singly, path)));
        text.push_str(differs.as_deref().unwrap_or_default());
        Ok(Went { text, walked, agreed: differs.is_none() })
    }

    fn automaton(&self) -> &Automaton {
        self.listing.automaton
    }

    fn at_once(&self, start: Configuration, path: &[u32]) -> Walked {
        let mut at = start;
        let (refusal, made) = self.automaton().make_walk(&mut at, path);
        Walked { refusal, made, at }
    }

    /// The same by single moves, up to the first that is refused.
    fn one_by_one(&self, start: Configuration, path: &[u32]) -> (Vec<Move>, Walked) {
        let (mut moves, mut at, mut refusal) = (Vec::new(), start, 0);
        for &edge in path {
            let edge = edge as usize;
            refusal = self.automaton().make_move(&mut at, edge);
            if refusal != 0 {
                break;
            }
            moves.push(Move { edge, to: at });
        }
        let made = moves.len();
        (moves, Walked { refusal, made, at })
    }

    fn head(&self, options: &Options) -> String {
        let Listing { source, routine, .. } = self.listing;
        let along = names::count(options.edges.len(), "edge");
        format!("{}: starting shape {}, a walk along {along}\n{}\n", source.name, options.shape, idle_note(routine))
    }

    fn start(&self, at: &Configuration) -> String {
        self.listing.path_start(INDENT, at.location as usize, &self.counters(at))
    }

    /// A line for each move: the edge, when it is taken, and where it leads.
    fn moves(&self, moves: &[Move]) -> String {
        let taken: Vec<Taken> = moves.iter().map(|m| Taken { edge: m.edge, counters: self.counters(&m.to) }).collect();
        self.listing.path_lines(INDENT, &|n| format!("move {}", n + 1), &taken)
    }

    fn counters(&self, at: &Configuration) -> Vec<String> {
        names::counters(self.automaton().counters(at))
    }

    fn closing(&self, walked: &Walked, path: &[u32]) -> String {
        let made = format!("{} made.", names::count(walked.made, "move"));
        if walked.refusal != 0 {
            let edge = path[walked.made];
            let here = self.why(walked, edge);
            let words = refusal::explained(refused(walked.refusal), self.listing.source, Some(here));
            return paragraph("", 0, &format!("{made} The next one, along edge {edge}, is refused.")) + &words;
        }
        let location = walked.at.location;
        let last = self.automaton().leaving(location as usize).next().is_none();
        let end = if last { ", which no edge leaves" } else { "" };
        paragraph("", 0, &format!("{made} The walk stands at location {location}{end}."))
    }

    /// Why an edge cannot be taken from where the walk stands.
    fn why(&self, walked: &Walked, number: u32) -> String {
        let Walked { refusal, at, .. } = walked;
        let Some(edge) = self.automaton().edges.get(number as usize) else {
            return format!("edge {number} is not in the table; {}", in_use(&self.automaton().tables, Kind::Edge));
        };
        if *refusal == TOO_LARGE {
            let (updates, nodes) = growing(edge);
            return format!("edge {number} would take a counter past 32 bits: {updates}, with {}", values(at, &nodes));
        }
        if edge.from != at.location as usize {
            return format!("edge {number} does not leave location {}: it leaves location {}", at.location, edge.from);
        }
        let nodes: Vec<usize> = edge.guards.iter().filter_map(|guard| guard.node()).collect();
        let (guards, values) = (names::guards(&edge.guards), values(at, &nodes));
        match nodes.len() {
            2 => format!("edge {number} is not enabled: its guards {guards} do not both hold, with {values}"),
            _ => format!("edge {number} is not enabled: its guard {guards} does not hold, with {values}"),
        }
    }

    /// What is said of a walk that is refused as a whole: it is too long, or its start breaks the layout.
    fn refused_whole(&self, start: &Configuration, path: &[u32], number: u8) -> Option<String> {
        if number == 0 || path.len() <= LONGEST && self.automaton().keeps_layout(start) {
            return None;
        }
        let zero = self.automaton().counters(start).iter().position(|&counter| counter == 0);
        let (here, change) = match zero {
            _ if path.len() > LONGEST => (format!("there are {} numbers", path.len()), "give at most 4,096 numbers to --edges"),
            Some(node) => (format!("c{node} = 0"), "give numbers from 1 on to --heap"),
            None => ("the tables break the layout".into(), "report this: those of the translator never do"),
        };
        let (means, _) = refusal::meaning(number);
        let here = format!("{here}; no move was made");
        Some(refusal::told(refused(number), self.listing.source, [means, change], Some(here)))
    }
}

/// The refusals of moves and walks have no place.
fn refused(number: u8) -> Refusal {
    Refusal { number, place: 0, node: Node(0) }
}

/// The updates of an edge that can give more than each old counter, and the nodes whose counters they add.
fn growing(edge: &Edge) -> (String, Vec<usize>) {
    let grows = |u: &Update| u.added().count() + usize::from(u.constant > 0) > 1;
    let updates: Vec<(usize, Update)> = edge.updates.iter().copied().enumerate().filter(|(_, u)| grows(u)).collect();
    let words: Vec<String> = updates.iter().map(|&(node, update)| names::update(node, update)).collect();
    (words.join(", "), updates.iter().flat_map(|(_, update)| update.added()).collect())
}

/// `c0 = 3, c2 = 1`
fn values(at: &Configuration, nodes: &[usize]) -> String {
    let each: Vec<String> = nodes.iter().map(|&node| format!("c{node} = {}", at.counters[node])).collect();
    each.join(", ")
}

/// What is said if the walk in one call and the single moves differ, which never happens.
pub fn difference(walked: &Walked, singly: &Walked) -> Option<String> {
    let words = |w: &Walked| {
        let made = names::count(w.made, "move");
        format!("refusal {} after {made} at location {} with counters {:?}", w.refusal, w.at.location, w.at.counters)
    };
    let told = format!(" the walk in one call gave {}, and its single moves gave {}.", words(walked), words(singly));
    (walked != singly).then(|| paragraph("INTERNAL ERROR:", 4, &told))
}
