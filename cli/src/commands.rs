//! What each command does: a result to be written, or a failure with nothing written.

use crate::arguments::{wrong, Arguments};
use crate::automaton::{check, tables, Places, Refusal, ALL_PLACES, MOST_EDGES, MOST_LOCATIONS};
use crate::bench;
use crate::find::Find;
use crate::graph;
use crate::help;
use crate::listing::Listing;
use crate::ranges::{self, Ranges};
use crate::record::SIZE;
use crate::refusal;
use crate::run::{Options, Run};
use crate::show::{Kind, Show};
use crate::source::{bytes, is_records, Failure, Source, REFUSED};
use crate::style::Style;
use crate::text;
use crate::walk::{self, Walk};

/// The program `translate` reads no more of its input.
const MOST_READ: usize = 4096;

/// What is written, and where: to a file, or to standard output.
#[derive(Debug)]
pub struct Done {
    pub output: Vec<u8>,
    pub file: Option<String>,
    pub status: u8,
}

impl Done {
    fn printed(text: impl Into<Vec<u8>>) -> Done {
        Done { output: text.into(), file: None, status: 0 }
    }
}

/// Where the result goes.
#[derive(Clone, Copy)]
pub struct Screen {
    pub terminal: bool,
    pub style: Style,
}

pub fn perform(words: &[String], screen: Screen) -> Result<Done, Failure> {
    let Some((command, rest)) = words.split_first() else {
        return Err(Failure { status: 2, message: help::usage() });
    };
    if matches!(command.as_str(), "help" | "--help" | "-h") {
        return helped(rest.first());
    }
    if rest.iter().any(|w| w == "--help" || w == "-h") {
        return helped(Some(command));
    }
    match command.as_str() {
        "assemble" => assemble(rest, screen),
        "disassemble" => disassemble(rest),
        "translate" => translate(rest, screen),
        "run" => run(rest, screen),
        "walk" => walk(rest, screen),
        "ranges" => ranges(rest, screen),
        "show" => show(rest, screen),
        "find" => find(rest, screen),
        _ => Err(Failure::bad_use(format!("there is no command `{command}`\n{}", help::usage().trim_end()))),
    }
}

fn helped(command: Option<&String>) -> Result<Done, Failure> {
    match help::of(command.map(String::as_str)) {
        Some(text) => Ok(Done::printed(text)),
        None => {
            Err(Failure::bad_use(format!("there is no command `{}`\n{}", command.map_or("", |c| c), help::usage().trim_end())))
        }
    }
}

fn assemble(words: &[String], screen: Screen) -> Result<Done, Failure> {
    let given = Arguments::read("assemble", words, &[("-o", true)])?;
    let source = Source::open(&given.file)?;
    if source.text.is_none() {
        return Err(wrong("assemble", format!("{} holds records, and a text is needed", source.name)));
    }
    check(&source.records).map_err(|r| refusal::failure(r, &source, ALL_PLACES))?;
    let file = given.output("-o");
    // bytes would only disturb a terminal
    let as_hex = file.is_none() && screen.terminal;
    let output = if as_hex { hex_lines(&source.records).into_bytes() } else { source.records };
    Ok(Done { output, file, status: 0 })
}

fn disassemble(words: &[String]) -> Result<Done, Failure> {
    let given = Arguments::read("disassemble", words, &[("-o", true)])?;
    let bytes = bytes(&given.file)?;
    if !is_records(&bytes) {
        return Err(wrong("disassemble", format!("{} holds text, and records are needed", given.file)));
    }
    let source = Source::of_bytes(&given.file, bytes)?;
    let routine = source.routine().map_err(|r| refusal::failure(r, &source, ALL_PLACES))?;
    Ok(Done { output: text::disassemble(&routine).into_bytes(), file: given.output("-o"), status: 0 })
}

fn translate(words: &[String], screen: Screen) -> Result<Done, Failure> {
    let known =
        &[("--hex", false), ("--dot", false), ("--svg", true), ("--bench", false), ("--locations", true), ("--edges", true)];
    let given = Arguments::read("translate", words, known)?;
    given.only_one(&["--hex", "--dot", "--svg"])?;
    let (places, on_bench) = (places(&given)?, given.has("--bench"));
    let source = Source::open(&given.file)?;
    if given.has("--hex") {
        return Ok(hex(&source.records, places));
    }
    let refused = |r: Refusal| match on_bench {
        true => bench::failure(r, &source),
        false => refusal::failure(r, &source, places),
    };
    let automaton = source.automaton(places).map_err(refused)?;
    let routine = source.routine().map_err(refused)?;
    let dot = || graph::dot(&source, &routine, &automaton);
    if given.has("--svg") {
        return Ok(Done { output: graph::svg(&dot())?, file: given.output("--svg"), status: 0 });
    }
    if given.has("--dot") {
        return Ok(Done::printed(dot()));
    }
    let listing = Listing { source: &source, routine: &routine, automaton: &automaton, style: screen.style };
    Ok(Done::printed(if on_bench { listing.text_on_bench() } else { listing.text() }))
}

/// How large the tables are. Those of the bench have their own sizes, so no other can be asked for beside them.
fn places(given: &Arguments) -> Result<Places, Failure> {
    given.only_one(&["--bench", "--locations"])?;
    given.only_one(&["--bench", "--edges"])?;
    if given.has("--bench") {
        return Ok(bench::PLACES);
    }
    let locations = given.number("--locations", MOST_LOCATIONS, MOST_LOCATIONS)?;
    let edges = given.number("--edges", MOST_EDGES, MOST_EDGES)?;
    Ok(Places { locations, edges })
}

/// Exactly what the program `translate` prints.
fn hex(records: &[u8], places: Places) -> Done {
    match tables(&records[..records.len().min(MOST_READ)], places) {
        Ok(tables) => Done::printed(hex_lines(&tables.locations) + &hex_lines(&tables.edges)),
        Err(r) => Done { output: refusal::line(r).into_bytes(), file: None, status: REFUSED },
    }
}

fn hex_lines(records: &[u8]) -> String {
    records.chunks(SIZE).map(|record| refusal::hex(record) + "\n").collect()
}

fn run(words: &[String], screen: Screen) -> Result<Done, Failure> {
    let known = &[("--heap", true), ("--shape", true), ("--picks", true), ("--steps", true)];
    let given = Arguments::read("run", words, known)?;
    let options = Options {
        heap: given.numbers("--heap")?,
        shape: given.number("--shape", 0, 15)?,
        picks: given.numbers("--picks")?,
        steps: given.number("--steps", 200, 1_000_000)?,
    };
    let source = Source::open(&given.file)?;
    let refused = |r: Refusal| refusal::failure(r, &source, ALL_PLACES);
    let automaton = source.automaton(ALL_PLACES).map_err(refused)?;
    let routine = source.routine().map_err(refused)?;
    let ran = Run { source: &source, routine: &routine, automaton: &automaton, style: screen.style }.go(&options)?;
    Ok(Done { output: ran.text.into_bytes(), file: None, status: if ran.matched { 0 } else { REFUSED } })
}

fn walk(words: &[String], screen: Screen) -> Result<Done, Failure> {
    let given = Arguments::read("walk", words, &[("--heap", true), ("--shape", true), ("--edges", true)])?;
    let options = walk::Options {
        heap: given.numbers("--heap")?,
        shape: given.number("--shape", 0, 15)?,
        edges: given.numbers_or_input("--edges")?,
    };
    let went = listed(&given.file, screen, |listing| Walk { listing }.go(&options))?;
    let fine = went.walked.refusal == 0 && went.agreed;
    Ok(Done { output: went.text.into_bytes(), file: None, status: if fine { 0 } else { REFUSED } })
}

fn ranges(words: &[String], screen: Screen) -> Result<Done, Failure> {
    let given = Arguments::read("ranges", words, &[("--start", true), ("--counters", true), ("--edges", true)])?;
    let options = ranges::Options {
        start: given.number("--start", 0, u32::MAX as usize)?,
        counters: given.ranges("--counters")?,
        edges: given.numbers_or_input("--edges")?,
    };
    let told = listed(&given.file, screen, |listing| Ranges { listing }.go(&options))?;
    let fine = told.follows() && told.agreed;
    Ok(Done { output: told.text.into_bytes(), file: None, status: if fine { 0 } else { REFUSED } })
}

fn show(words: &[String], screen: Screen) -> Result<Done, Failure> {
    let given = Arguments::read_words("show", words, &[], &["location|edge", "NUMBER"])?;
    let [kind, number] = [&given.words[0], &given.words[1]];
    let kind = Kind::of(kind).ok_or_else(|| wrong("show", format!("`location` or `edge` is needed, not `{kind}`")))?;
    let number = number.parse().map_err(|_| wrong("show", format!("NUMBER is a number from 0 on, not `{number}`")))?;
    Ok(Done::printed(listed(&given.file, screen, |listing| Show { listing }.record(kind, number))?))
}

fn find(words: &[String], screen: Screen) -> Result<Done, Failure> {
    let given = Arguments::read_words("find", words, &[], &["RECORD"])?;
    let record = given.record_or_input("RECORD", &given.words[0])?;
    let found = listed(&given.file, screen, |listing| Find { show: Show { listing } }.record(&record))?;
    Ok(Done { output: found.text.into_bytes(), file: None, status: if found.number.is_some() { 0 } else { REFUSED } })
}

/// What is made of the listing of a file's routine, if that is accepted.
fn listed<T>(file: &str, screen: Screen, make: impl FnOnce(Listing) -> Result<T, Failure>) -> Result<T, Failure> {
    let source = Source::open(file)?;
    let refused = |r: Refusal| refusal::failure(r, &source, ALL_PLACES);
    let automaton = source.automaton(ALL_PLACES).map_err(refused)?;
    let routine = source.routine().map_err(refused)?;
    make(Listing { source: &source, routine: &routine, automaton: &automaton, style: screen.style })
}
