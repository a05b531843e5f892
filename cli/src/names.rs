//! Statements, faults, guards and updates in words.

use crate::automaton::{Edge, Guard, Location, Update};
use crate::bounds::Range;
use crate::record::{Op, Statement, NULL, POINTERS, UNDEFINED};

/// A statement without its targets, as in the text form.
pub fn statement(s: &Statement) -> String {
    let (u, w) = (s.u, s.w);
    match s.op {
        Op::Stop => "stop".into(),
        Op::SetNull => format!("p{u} := null"),
        Op::Copy => format!("p{u} := p{w}"),
        Op::ReadNext => format!("p{u} := p{w}.next"),
        Op::WriteNull => format!("p{u}.next := null"),
        Op::WriteNext => format!("p{u}.next := p{w}"),
        Op::New => format!("p{u} := new"),
        Op::Free => format!("free p{u}"),
        Op::TestNull => format!("test p{u} = null"),
        Op::TestEqual => format!("test p{u} = p{w}"),
        Op::Choose => "choose".into(),
        Op::Skip => "skip".into(),
        Op::Relink => format!("p{u}.next := p{w}.next"),
        Op::Drop => format!("drop p{u}"),
    }
}

/// The pointers that a statement goes through or looks at, each once and in this order.
fn looked_at(s: &Statement) -> Vec<u8> {
    match s.op {
        Op::ReadNext => vec![s.w],
        Op::WriteNull | Op::WriteNext | Op::Free | Op::TestNull => vec![s.u],
        Op::TestEqual | Op::Relink if s.u == s.w => vec![s.u],
        Op::TestEqual => vec![s.u, s.w],
        Op::Relink => vec![s.w, s.u],
        _ => Vec::new(),
    }
}

/// Those of them that hold what the fault is about. A relink goes no further than the first that leads to no cell.
fn blamed(fault: u8, s: &Statement, pointers: &[u8; POINTERS]) -> Vec<u8> {
    let bad = if fault == 1 { NULL } else { UNDEFINED };
    let mut met = looked_at(s);
    if s.op == Op::Relink {
        let first = met.iter().position(|&p| pointers[p as usize] >= NULL);
        met.truncate(first.map_or(0, |at| at + 1));
    }
    met.into_iter().filter(|&p| pointers[p as usize] == bad).collect()
}

/// The pointers to blame: those that are to blame however the fault is reached, or else one or another.
struct Culprits {
    pointers: Vec<u8>,
    always: bool,
}

impl Culprits {
    fn of(fault: u8, s: &Statement, reached: &[[u8; POINTERS]]) -> Culprits {
        let each: Vec<Vec<u8>> = reached.iter().map(|pointers| blamed(fault, s, pointers)).collect();
        let named = |by: &dyn Fn(&u8) -> bool| looked_at(s).into_iter().filter(by).collect::<Vec<u8>>();
        let always = named(&|p| each.iter().all(|blamed| blamed.contains(p)));
        let ever = named(&|p| each.iter().any(|blamed| blamed.contains(p)));
        match always.is_empty() || ever.is_empty() {
            true => Culprits { pointers: ever, always: false },
            false => Culprits { pointers: always, always: true },
        }
    }

    fn names(&self) -> String {
        let names: Vec<String> = self.pointers.iter().map(|p| format!("p{p}")).collect();
        match (names.len(), self.always) {
            // only where a heap does not match its location
            (0, _) => "a pointer".into(),
            (_, false) => names.join(" or "),
            (_, true) => names.join(" and "),
        }
    }

    /// Whether all of several are to blame.
    fn several(&self) -> bool {
        self.always && self.pointers.len() > 1
    }

    /// What the statement does to them.
    fn done(&self, s: &Statement) -> &'static str {
        match s.op {
            Op::ReadNext => "reads through",
            Op::Free => "frees",
            Op::TestNull | Op::TestEqual => "looks at",
            Op::Relink if self.pointers == [s.w] => "reads through",
            Op::Relink if self.pointers != [s.u] => "goes through",
            _ => "writes through",
        }
    }
}

/// What went wrong at a statement that was reached with these pointers, in parts that a line may be broken between.
pub fn fault(fault: u8, s: &Statement, reached: &[[u8; POINTERS]]) -> Vec<String> {
    let culprits = Culprits::of(fault, s, reached);
    let (done, who) = (culprits.done(s), culprits.names());
    match (fault, culprits.several()) {
        (1, _) => vec![format!("{done} {who}, which is null")],
        (2, false) => vec![format!("{done} {who}, which is undefined:"), "its cell was freed, or it never had one".into()],
        (2, true) => {
            vec![format!("{done} {who}, which are undefined:"), "their cells were freed, or they never had one".into()]
        }
        _ => vec!["a cell is lost (leak):".into(), "no pointer reaches it any more".into()],
    }
}

/// The same in short, for one edge or one step: `p0 is null`
pub fn cause(fault: u8, s: &Statement, pointers: &[u8; POINTERS]) -> String {
    let culprits = Culprits::of(fault, s, &[*pointers]);
    match (fault, culprits.several()) {
        (1, _) => format!("{} is null", culprits.names()),
        (2, false) => format!("{} is undefined", culprits.names()),
        (2, true) => format!("{} are undefined", culprits.names()),
        _ => fault_kind(fault).into(),
    }
}

/// A fault's kind, for totals.
pub fn fault_kind(fault: u8) -> &'static str {
    ["none", "null pointer", "undefined pointer", "leak"][fault.min(3) as usize]
}

/// The same in a sentence.
pub fn a_fault(fault: u8) -> &'static str {
    ["none", "a null pointer", "an undefined pointer", "a leak"][fault.min(3) as usize]
}

fn guard(guard: Guard) -> String {
    match guard {
        Guard::IsOne(node) => format!("c{node} = 1"),
        Guard::AtLeastTwo(node) => format!("c{node} >= 2"),
        Guard::Damaged => "never (damaged guard)".into(),
    }
}

/// `c0 = 1 and c2 >= 2`
pub fn guards(guards: &[Guard]) -> String {
    let each: Vec<String> = guards.iter().map(|&g| guard(g)).collect();
    each.join(" and ")
}

/// When an edge to that location is taken: its guards, or its branch where the statement has two. A test that faults is neither
/// true nor false.
pub fn condition(edge: &Edge, s: &Statement, to: &Location) -> String {
    match s.op {
        _ if edge.guards.contains(&Guard::Damaged) => guard(Guard::Damaged),
        Op::Choose => format!("pick {}", edge.branch),
        Op::TestNull | Op::TestEqual if to.fault != 0 => String::new(),
        Op::TestNull | Op::TestEqual => if edge.branch == 0 { "true" } else { "false" }.into(),
        _ if edge.guards.is_empty() => String::new(),
        _ => format!("if {}", guards(&edge.guards)),
    }
}

/// `c1' = c0 + c2 - 1`
pub fn update(node: usize, update: Update) -> String {
    let terms: Vec<String> = update.added().map(|c| format!("c{c}")).collect();
    let sum = terms.join(" + ");
    match (terms.len(), update.constant) {
        (0, constant) => format!("c{node}' = {constant}"),
        (_, 0) => format!("c{node}' = {sum}"),
        (_, constant) if constant < 0 => format!("c{node}' = {sum} - {}", -constant),
        (_, constant) => format!("c{node}' = {sum} + {constant}"),
    }
}

/// Whether an edge from a location with so many nodes leaves every counter as it is.
pub fn keeps_counters(edge: &Edge, old_count: usize) -> bool {
    let stays = |(node, u): (usize, &Update)| u.constant == 0 && u.added().eq([node]);
    edge.updates.len() == old_count && edge.updates.iter().enumerate().all(stays)
}

/// The updates of an edge from a location with so many nodes; where every counter stays, one word for all.
pub fn updates(edge: &Edge, old_count: usize) -> Vec<String> {
    if keeps_counters(edge, old_count) {
        return if old_count == 0 { Vec::new() } else { vec!["counters kept".into()] };
    }
    edge.updates.iter().enumerate().map(|(node, &u)| update(node, u)).collect()
}

/// `c0 = 3` for each node
pub fn counters(counters: &[u32]) -> Vec<String> {
    counters.iter().enumerate().map(|(node, counter)| format!("c{node} = {counter}")).collect()
}

/// `c0 = 1..12` or `c0 = 3` for each node
pub fn ranges(ranges: &[Range]) -> Vec<String> {
    ranges.iter().enumerate().map(|(node, range)| format!("c{node} = {range}")).collect()
}

/// `1 location`, `2 locations`
pub fn count(n: usize, what: &str) -> String {
    if n == 1 {
        format!("1 {what}")
    } else {
        format!("{n} {what}s")
    }
}

/// A label of any length, cut to what fits beside a statement.
pub fn short(label: &str) -> String {
    const MOST: usize = 24;
    if label.chars().count() <= MOST {
        return label.into();
    }
    let start: String = label.chars().take(MOST - 2).collect();
    format!("{start}..")
}
