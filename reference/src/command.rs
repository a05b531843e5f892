//! The command line.

use std::io::{Read, Write};

use crate::calls::{fold, step, unfold, Stepped};
use crate::heap::POINTERS;
use crate::help;
use crate::part::record_part;
use crate::ranges::{ranges, Ranged};
use crate::records::{hex, NULL, RECORD, UNUSED};
use crate::refusal::Refusal;
use crate::search::search;
use crate::selftest;
use crate::text::{write_counters, write_record, write_values, Lines};
use crate::translate::{translate, EDGES, LOCATIONS};
use crate::walk::{walk, Configuration};

/// The places of the tables that `translate` uses, and those of the bench.
const FULL: [usize; 2] = [LOCATIONS, EDGES];
const BENCH: [usize; 2] = [128, 256];

/// The exit status for a result, a refusal, and wrong usage or bad text.
pub const RESULT: u8 = 0;
pub const REFUSED: u8 = 1;
pub const WRONG: u8 = 2;

/// The most bytes that `translate` reads.
const INPUT_BYTES: u64 = 4096;

/// What a command prints, and its exit status.
struct Answer {
    status: u8,
    text: String,
}

fn result(text: String) -> Result<Answer, String> {
    let status = RESULT;
    Ok(Answer { status, text })
}

fn refused(refusal: Refusal) -> Result<Answer, String> {
    let status = REFUSED;
    let text = format!("refused {refusal}\n");
    Ok(Answer { status, text })
}

/// Carries out the command that the words name and answers the exit status.
pub fn run(words: &[String], input: &mut dyn Read, output: &mut dyn Write, errors: &mut dyn Write) -> u8 {
    let answer = dispatch(words, input).and_then(|answer| {
        let written = output.write_all(answer.text.as_bytes()).and_then(|_| output.flush());
        match written {
            Ok(()) => Ok(answer.status),
            Err(error) => Err(format!("the answer could not be written: {error}")),
        }
    });
    answer.unwrap_or_else(|error| {
        // Nothing is left to be done if even this cannot be written.
        let _ = writeln!(errors, "reference: {error}");
        WRONG
    })
}

fn dispatch(words: &[String], input: &mut dyn Read) -> Result<Answer, String> {
    let words: Vec<&str> = words.iter().map(String::as_str).collect();
    match words[..] {
        [] => Err("no command; see 'reference --help'".to_string()),
        ["--help" | "-h" | "help"] => result(help::GENERAL.to_string()),
        ["help", command] | [command, "--help" | "-h"] => help_of(command),
        ["translate"] => run_translate(input, FULL),
        ["translate", "--bench"] => run_translate(input, BENCH),
        ["fold"] => run_fold(&read_all(input)?),
        ["unfold"] => run_unfold(&read_all(input)?),
        ["step"] => run_step(&read_all(input)?),
        ["record"] => run_record(&read_all(input)?),
        ["walk"] => run_walk(&read_all(input)?),
        ["ranges"] => run_ranges(&read_all(input)?),
        ["search"] => run_search(&read_all(input)?),
        ["selftest", ..] => run_selftest(&words[1..]),
        ["translate", "--bench", word, ..]
        | ["translate" | "fold" | "unfold" | "step" | "record" | "walk" | "ranges" | "search", word, ..] => {
            Err(format!("'{word}' is not expected; see 'reference {} --help'", words[0]))
        }
        [command, ..] => Err(format!("no command '{command}'; see 'reference --help'")),
    }
}

fn help_of(command: &str) -> Result<Answer, String> {
    let text = match command {
        "translate" => help::TRANSLATE.to_string(),
        "fold" => help::FOLD.to_string() + help::TEXT,
        "unfold" => help::UNFOLD.to_string() + help::TEXT,
        "step" => help::STEP.to_string() + help::TEXT,
        "record" => help::RECORD.to_string(),
        "walk" => help::WALK.to_string(),
        "ranges" => help::RANGES.to_string(),
        "search" => help::SEARCH.to_string(),
        "selftest" => help::SELFTEST.to_string(),
        _ => return Err(format!("no command '{command}'; see 'reference --help'")),
    };
    result(text)
}

fn read_all(input: &mut dyn Read) -> Result<Vec<u8>, String> {
    let mut bytes = Vec::new();
    match input.read_to_end(&mut bytes) {
        Ok(_) => Ok(bytes),
        Err(error) => Err(format!("standard input could not be read: {error}")),
    }
}

/// Translates into tables with so many places for locations and for edges.
fn run_translate(input: &mut dyn Read, places: [usize; 2]) -> Result<Answer, String> {
    let input = read_all(&mut input.take(INPUT_BYTES))?;
    let [mut locations, mut edges] = places.map(|places| vec![0; places * RECORD]);
    let answer = translate(&input, &mut locations, &mut edges);
    if answer.refusal != 0 {
        return refused(Refusal { number: answer.refusal, place: answer.place, node: answer.node });
    }
    let mut text = String::new();
    for (table, count) in [(&locations, answer.locations), (&edges, answer.edges)] {
        for record in table.chunks(RECORD).take(count) {
            text += &hex(record);
            text.push('\n');
        }
    }
    result(text)
}

fn run_fold(input: &[u8]) -> Result<Answer, String> {
    let lines = Lines::read(input, &["pointers", "cells"])?;
    let folded = fold(&lines.values("pointers")?, &lines.values("cells")?);
    if let Some(refusal) = folded.refusal {
        return refused(refusal);
    }
    result(write_record("record", &folded.record) + &write_counters("counters", &folded.counters))
}

fn run_unfold(input: &[u8]) -> Result<Answer, String> {
    let names = ["record", "counters", "length", "pointers", "cells"];
    let lines = Lines::read(input, &names)?;
    let record = lines.bytes("record")?;
    let counters = lines.short_numbers("counters")?;
    let (mut pointers, mut cells) = if lines.has("length") {
        if lines.has("pointers") || lines.has("cells") {
            return Err("'length' stands beside 'pointers' or 'cells'".to_string());
        }
        (vec![NULL; POINTERS], vec![UNUSED; lines.length("length")?])
    } else {
        (lines.values("pointers")?, lines.values("cells")?)
    };
    match unfold(&record, &counters, &mut pointers, &mut cells) {
        Ok(()) => result(write_heap(&pointers, &cells)),
        Err(refusal) => refused(refusal),
    }
}

fn run_step(input: &[u8]) -> Result<Answer, String> {
    let names = ["pointers", "cells", "statement", "pick", "cell"];
    let lines = Lines::read(input, &names)?;
    let mut pointers = lines.values("pointers")?;
    let mut cells = lines.values("cells")?;
    let statement = lines.bytes("statement")?;
    let pick = lines.number_or_zero("pick")?;
    let cell = lines.number_or_zero("cell")?;
    let first = match step(&mut pointers, &mut cells, &statement, pick, cell) {
        Stepped::Refused(refusal) => return refused(refusal),
        Stepped::Stop => "stop\n".to_string(),
        Stepped::Fault(fault) => format!("fault {fault}\n"),
        Stepped::Moved { branch, next } => format!("moved {branch} {next}\n"),
    };
    result(first + &write_heap(&pointers, &cells))
}

fn run_record(input: &[u8]) -> Result<Answer, String> {
    let names = ["locations", "edges", "counts", "table", "number"];
    let lines = Lines::read(input, &names)?;
    let locations = lines.table("locations")?;
    let edges = lines.table("edges")?;
    let [location_count, edge_count] = lines.two_numbers("counts")?.map(as_size);
    let table = as_size(lines.number("table")?);
    let number = as_size(lines.number("number")?);
    let part = match record_part(&locations, &edges, location_count, edge_count, table, number) {
        Ok(part) => part,
        Err(refusal) => return refused(refusal),
    };
    let meant = if table == 0 { &locations } else { &edges };
    // From the addresses, so that it tells where the part does stand.
    let begin = part.as_ptr() as usize - meant.as_ptr() as usize;
    result(format!("part {begin} {}\n", part.len()) + &write_record("record", part))
}

fn run_walk(input: &[u8]) -> Result<Answer, String> {
    let names = ["locations", "edges", "counts", "location", "counters", "path"];
    let lines = Lines::read(input, &names)?;
    let locations = lines.table("locations")?;
    let edges = lines.table("edges")?;
    let [location_count, edge_count] = lines.two_numbers("counts")?.map(as_size);
    let start = Configuration { location: lines.short_number("location")?, counters: lines.twelve_numbers("counters")? };
    let path = lines.short_numbers("path")?;
    let walked = walk(&locations, &edges, location_count, edge_count, start, &path);
    let Configuration { location, counters } = walked.configuration;
    let reached = format!("made {}\nlocation {location}\n", walked.made) + &write_counters("counters", &counters);
    match walked.refusal {
        None => result(reached),
        Some(refusal) => refused(refusal).map(|Answer { status, text }| Answer { status, text: text + &reached }),
    }
}

fn run_ranges(input: &[u8]) -> Result<Answer, String> {
    let names = ["locations", "edges", "counts", "start", "ranges", "path"];
    let lines = Lines::read(input, &names)?;
    let locations = lines.table("locations")?;
    let edges = lines.table("edges")?;
    let [location_count, edge_count] = lines.two_numbers("counts")?.map(as_size);
    let start = as_size(lines.number("start")?);
    let numbers = lines.short_numbers("ranges")?;
    let path = lines.short_numbers("path")?;
    match ranges(&locations, &edges, location_count, edge_count, start, &numbers, &path) {
        Ranged::Follows { location, ranges } => {
            let words: String = ranges.iter().map(|(lowest, highest)| format!(" {lowest} {highest}")).collect();
            result(format!("follows {location}\nranges{words}\n"))
        }
        Ranged::Ends { position } => result(format!("ends {position}\n")),
        Ranged::Refused { number, place } => refused(Refusal::at(number, place)),
    }
}

fn run_search(input: &[u8]) -> Result<Answer, String> {
    let lines = Lines::read(input, &["locations", "count", "record"])?;
    let locations = lines.table("locations")?;
    let count = as_size(lines.number("count")?);
    // A record has any length, also none.
    match search(&locations, count, &lines.table("record")?) {
        Some(number) => result(format!("found {number}\n")),
        None => result("none\n".to_string()),
    }
}

/// A number that no size can hold is taken for the largest size.
fn as_size(number: u64) -> usize {
    usize::try_from(number).unwrap_or(usize::MAX)
}

fn write_heap(pointers: &[u8], cells: &[u8]) -> String {
    write_values("pointers", pointers) + &write_values("cells", cells)
}

fn run_selftest(words: &[&str]) -> Result<Answer, String> {
    let mut seed = selftest::SEED;
    let mut routines = selftest::ROUTINES;
    let mut rest = words.iter();
    while let Some(&flag) = rest.next() {
        let number = rest.next().and_then(|word| word.parse::<u64>().ok());
        match (flag, number) {
            ("--seed", Some(number)) => seed = number,
            ("--routines", Some(number)) => routines = number,
            ("--seed" | "--routines", None) => return Err(format!("{flag} asks for a number")),
            _ => return Err(format!("no option '{flag}'; see 'reference selftest --help'")),
        }
    }
    let (status, text) = match selftest::run(seed, routines) {
        Ok(counts) => (RESULT, format!("{counts}all agree\n")),
        Err(difference) => (REFUSED, format!("{difference}\n")),
    };
    Ok(Answer { status, text })
}
