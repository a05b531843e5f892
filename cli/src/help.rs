//! Help texts.

const PROVED: &str = "\
What is proved: every translation, in `show` the record, in `find` the number, in `run` every
unfolded heap, plain step and folded shape, in `run` and `walk` every move, and in `ranges` every
range and position, comes from the proved library.
What is not proved: this tool, which reads text, chooses the edges in `run`, finds the start that
`ranges` shows, which a proved walk checks, and prints.
";

const TOP: &str = "\
currantplane: translates list routines into counter automata, for people

  currantplane translate FILE     the automaton as a listing, in hex, as a graph or as a picture
  currantplane translate FILE --bench
                                  the same, and whether it fits the tables of the controller bench
  currantplane show FILE location 17
                                  one location or edge, by its number, in hex and in words
  currantplane find FILE RECORD   the location that has a record, given in hex
  currantplane run FILE           the routine on a heap and the automaton beside it, step by step
  currantplane walk FILE          the automaton by itself, along edges by their numbers
  currantplane ranges FILE        whether a path can be followed from counters within ranges
  currantplane assemble FILE      a text to records
  currantplane disassemble FILE   records to a text
  currantplane help COMMAND       more on a command

FILE is a routine as text (docs/TEXT.md has the grammar) or as records; `-` is standard input. A
file that is empty, holds a zero byte or is not UTF-8 is taken as records.

Exit status: 0 accepted; 1 refused, a mismatch in `run`, no location found by `find`, or no start
that follows the path in `ranges`; 2 bad use or bad text. With 2, and where records or a picture
were refused, nothing is written. Colours only on a terminal, and not where NO_COLOR is set.
";

const TRANSLATE: &str = "\
currantplane translate FILE [--hex | --dot | --svg OUT] [--bench]
currantplane translate FILE [--hex | --dot | --svg OUT] [--locations N] [--edges N]

Prints the automaton of a routine: each location with its statement and its shape, each edge with
its condition and its updates, the faults, and totals. Where two guards are given, an edge is
enabled when both hold. The edge of a `drop` has no guard; a counter that stands in none of its
updates is that of cells that went.

  --hex            exactly what the program `translate` prints: a record a line, locations then
                   edges, or `refused NUMBER PLACE`, for 9, 18 and 19 `refused NUMBER PLACE NODE`.
                   As the program does, it judges the first 4,096 bytes of the records alone
  --dot            a graph for Graphviz
  --svg OUT        a picture, written to OUT; needs Graphviz (Debian package `graphviz`)
  --bench          with the tables of the controller bench, for 128 locations and 256 edges. The
                   listing says how much of them is used, a refusal for want of a place (11, 12)
                   how large the full listing is; nothing is added to --hex, --dot and --svg
  --locations N    the places of the location table; without it, 1024, which is the most
  --edges N        the places of the edge table; without it, 2048, which is the most

A refusal is explained: its number, the record or the line, what it means, what to change. Where it
is about a node of a starting shape (9, 18, 19), the node is named and, in a text, marked; for
records, 18 and 19 give the whole record as it should be.
";

const SHOW: &str = "\
currantplane show FILE location NUMBER
currantplane show FILE edge NUMBER

Prints one record of the automaton: in hex, as it stands in its table, and in words. A location is
shown with the edges that leave it, an edge with the locations at its ends and, where it has a
second guard, with the bits of byte 1. Numbers are those of the listing, from 0; one that is not in
use is refused (17), with the numbers that are.
";

const FIND: &str = "\
currantplane find FILE RECORD

Says which location of the automaton has a record, and prints it as `show` does. RECORD is 64 hex
digits, as `translate --hex` prints them, in lower or upper case; `-` reads them from standard
input. All 32 bytes are compared, and no two locations have the same, so there is one or none.
Records of locations begin with 4c.

Where no location has the record, this is said, and the exit status is 1.
";

const RUN: &str = "\
currantplane run FILE [--heap N,N,..] [--shape I] [--picks P,P,..] [--steps N]

Runs the routine on a heap and the automaton beside it, and compares the two after every step: the
heap's shape and counters with the location and the automaton's counters.

  --heap N,N,..    how many cells each node of the starting shape stands for, at most 240 in all
  --shape I        the starting shape, counted from 0; without it, 0
  --picks P,P,..   what each `choose` picks in turn, 0 or 1; when none is left the run ends
  --steps N        the most steps; without it, 200

`new` takes the lowest cell that is not in use. `drop` says how many cells went, if any did.
";

const WALK: &str = "\
currantplane walk FILE [--heap N,N,..] [--shape I] [--edges E,E,..]

Walks the automaton by itself: from a starting shape, along the edges with these numbers. A line
for each move has its edge, when that is taken, the location that it leads to and the counters
there. Then comes the location where the walk stands, with the edges that leave it.

  --heap N,N,..    the counter of each node of the starting shape. No heap is made, so each may be
                   up to 4294967295, which are 32 bits
  --shape I        the starting shape, counted from 0; without it, 0
  --edges E,E,..   the edges by their numbers in the listing, at most 4,096; `-` reads them from
                   standard input. Without it, or with none, the walk stays at its start

A walk stops at an edge that is not in the table, does not leave the location or whose guards do
not hold (20), and where a counter would pass 32 bits (21). The moves before it are shown, and why
the next one is refused. All moves are made in one call, and again one by one to show them.
";

const RANGES: &str = "\
currantplane ranges FILE [--start L] [--counters R,R,..] [--edges E,E,..]

Says whether some start within ranges can follow a path of the automaton. A line for each edge has
its position in the path, from 0, and the ranges of the counters after it. If some start follows
the whole path, the location reached comes with the values that its counters can have there:
exactly these, each with each of the others. If none does, the first position where none can go on,
with the guards of its edge and the ranges there; the exit status is then 1.

  --start L        the location where the path starts, by its number in the listing; without it, 0
  --counters R,R,..
                   for each node of that location, in order, its counter: a number, or a lowest and
                   a highest value as in 1..12, both included; from 1 to 65535
  --edges E,E,..   the edges by their numbers in the listing, at most 4,096; `-` reads them from
                   standard input. Without it, or with none, the path stays at its start

Then one start that follows the path, or its longest part that some start follows, to the lowest
values there: its counters and, where it has at most 240 cells, its heap. The tool finds it, and a
proved walk confirms it.

A location, a path or an edge that is not as the table has it is refused (23), whatever the guards
say, and then a range that is no range (22); each is explained.
";

const ASSEMBLE: &str = "\
currantplane assemble FILE [-o OUT]

Writes the records of a text to OUT, or to standard output: bytes, or hex lines on a terminal. What
the proved checks of the input refuse is explained and not written. docs/TEXT.md has the grammar.

  -o OUT           the file for the records; it stays as it was when something is wrong
";

const DISASSEMBLE: &str = "\
currantplane disassemble FILE [-o OUT]

Writes a text for records. Assembling that text gives the same records again.

  -o OUT           the file for the text; it stays as it was when something is wrong
";

/// The first page, or a command's; none for an unknown command.
pub fn of(command: Option<&str>) -> Option<String> {
    let page = match command {
        None | Some("help") => TOP,
        Some("translate") => TRANSLATE,
        Some("show") => SHOW,
        Some("find") => FIND,
        Some("run") => RUN,
        Some("walk") => WALK,
        Some("ranges") => RANGES,
        Some("assemble") => ASSEMBLE,
        Some("disassemble") => DISASSEMBLE,
        Some(_) => return None,
    };
    Some(format!("{page}\n{PROVED}"))
}

/// For a wrong use.
pub fn usage() -> String {
    "usage: currantplane translate|show|find|run|walk|ranges|assemble|disassemble FILE [OPTIONS]\nTry `currantplane help`.\n"
        .into()
}
