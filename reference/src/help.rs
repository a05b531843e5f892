//! The help texts of the command line.

pub const GENERAL: &str = "\
reference - a second translator from list routines to counter automata

usage: reference COMMAND [OPTIONS]

commands:
  translate   a routine in records to its locations and edges
  fold        a heap to its shape and counters
  unfold      a shape and counters to a heap
  step        one statement of the plain machine on a heap
  record      one record out of the tables of locations and edges
  walk        moves along edges of the tables, from a location with counters
  ranges      a path along edges of the tables, from counters within ranges
  search      the newest of the locations with a record
  selftest    random tests of all of the above

reference COMMAND --help tells more of a command.

The first eight read standard input. Exit status: 0 for a result, 1 for a
refusal (or a selftest that fails), 2 for wrong usage or bad text.
";

pub const TRANSLATE: &str = "\
usage: reference translate [--bench] < FILE

Reads records of 32 bytes (at most 4,096 bytes are read): 1 to 64 S, then 1 to
16 H. Prints each L, then each E, as 64 hex digits a line, or one line
'refused NUMBER PLACE', for 9, 18 and 19 'refused NUMBER PLACE NODE':
   9  a node of the shape is unreachable
  18  all are reachable, and a node is not core
  19  only the numbering differs
NODE is the first node concerned.

There are places for 1,024 locations and 2,048 edges. With --bench there are
places for 128 locations and 256 edges, as on the controller bench: a listing
that does not fit them is refused with 11 or 12, and all else is the same.
";

pub const FOLD: &str = "\
usage: reference fold < FILE

Reads a heap as text:
  pointers VALUE...   six values (another count is refused with 13)
  cells VALUE...      one value for each cell, or nothing
Prints the shape and the counters:
  record HEX
  counters NUMBER...
or one line 'refused NUMBER PLACE'.
";

pub const UNFOLD: &str = "\
usage: reference unfold < FILE

Reads a shape, its counters and how many cells are lent:
  record HEX          an H record, 64 hex digits (another length is refused)
  counters NUMBER...  twelve numbers below 2^32 (another count is refused)
  length NUMBER       so many cells, at most 65,536
In place of 'length' the lent heap may be given, whose values do not matter:
  pointers VALUE...
  cells VALUE...
Prints the heap:
  pointers VALUE...
  cells VALUE...
or one line 'refused NUMBER PLACE', for 9, 18 and 19 (a node is unreachable, is
not core, or is numbered otherwise) 'refused NUMBER PLACE NODE' with the first
such node.
";

pub const STEP: &str = "\
usage: reference step < FILE

Reads a heap, a statement, and what the statement may ask for:
  pointers VALUE...   six values (another count is refused with 13)
  cells VALUE...      one value for each cell, or nothing
  statement HEX       an S record, 64 hex digits (another length is refused)
  pick NUMBER         for choose: 0 or 1; 0 if the line is left out
  cell NUMBER         for new: an unused cell; 0 if the line is left out
Prints one of
  moved BRANCH NEXT
  fault NUMBER
  stop
and then the heap afterwards:
  pointers VALUE...
  cells VALUE...
or one line 'refused NUMBER PLACE'. The cells that a drop lets go are 'unused'
afterwards.
";

pub const RECORD: &str = "\
usage: reference record < FILE

Reads both tables, the counts in use, which table is meant, and a number:
  locations HEX         the bytes of the locations, or nothing
  edges HEX             the bytes of the edges, or nothing
  counts NUMBER NUMBER  the locations and the edges in use
  table NUMBER          0 for the locations, 1 for the edges
  number NUMBER         the number of the record, from 0
The numbers are below 2^64. Prints where the record stands in its table, and
the record:
  part BEGIN LENGTH
  record HEX
or one line 'refused NUMBER PLACE'.

Text: one line for each name, in any order. Blank lines, and what follows a
'#', are skipped.
";

pub const WALK: &str = "\
usage: reference walk < FILE

Reads both tables, the counts in use, a configuration and the edges to take:
  locations HEX         the bytes of the locations, or nothing
  edges HEX             the bytes of the edges, or nothing
  counts NUMBER NUMBER  the locations and the edges in use, below 2^64
  location NUMBER       where the walk starts, below 2^32
  counters NUMBER...    exactly twelve numbers below 2^32
  path NUMBER...        edge numbers below 2^32, or nothing
Prints how many moves were made, and where they led:
  made NUMBER
  location NUMBER
  counters NUMBER...
Before these lines stands 'refused NUMBER PLACE' if the walk was refused:
  20  the tables or the configuration break the layout, the path is longer
      than 4,096, or an edge is not there, does not leave the location or is
      not enabled
  21  a counter would pass 32 bits
The moves before a refusal are made.

Text: one line for each name, in any order. Blank lines, and what follows a
'#', are skipped.
";

pub const RANGES: &str = "\
usage: reference ranges < FILE

Reads both tables, the counts in use, a start with a range for each of its
counters, and a path:
  locations HEX         the bytes of the locations, or nothing
  edges HEX             the bytes of the edges, or nothing
  counts NUMBER NUMBER  the locations and the edges in use, below 2^64
  start NUMBER          the location where the path starts, below 2^64
  ranges NUMBER...      for each counter the lowest and the highest value, below
                        2^32, or nothing; those past the counters are not read
  path NUMBER...        edge numbers below 2^32, or nothing
If some start within the ranges can follow the path, prints the location
reached and the lowest and the highest value of each of its counters:
  follows LOCATION
  ranges NUMBER...
If not, prints the first position in the path, from 0, where none can go on:
  ends POSITION
Both have the exit status 0. Otherwise prints one line 'refused NUMBER PLACE':
  23  at 0: the tables break the layout, the start is not below the count, or
      the path is longer than 4,096; at a position in the path: the edge is not
      there or does not leave the location reached
  22  at a counter: its range has an end outside 1 to 65,535, or its ends are in
      the wrong order; a number that is left out is 0
23 is looked at before 22.

Text: one line for each name, in any order. Blank lines, and what follows a
'#', are skipped.
";

pub const SEARCH: &str = "\
usage: reference search < FILE

Reads a table of locations, a count and a record:
  locations HEX   the bytes of the table, or nothing
  count NUMBER    below 2^64; cut to the places of the table, at most 1,024
  record HEX      64 hex digits (one of another length is not found), or nothing
Prints the highest number below the count whose record is equal, or that there
is none:
  found NUMBER
  none
Nothing is refused: both have the exit status 0.

Text: one line for each name, in any order. Blank lines, and what follows a
'#', are skipped.
";

/// What the text commands on heaps have in common.
pub const TEXT: &str = "
Text: one line for each name, in any order. A VALUE is a number from 0 to 252,
'null', 'undef' or 'unused'. Blank lines, and what follows a '#', are skipped.
";

pub const SELFTEST: &str = "\
usage: reference selftest [--seed NUMBER] [--routines NUMBER]

Tests random routines, heaps, runs, walks, searches and paths from ranges, from
a fixed seed unless another one is given. Prints what was counted. Fails, with
exit status 1, if anything differs, if some refusal from 1 to 23 or fault from 1
to 3 was never met, or if tests of undefined pointers, relinks, drops, walks,
tables at the limits of the layout, damaged H records, searches or paths from
ranges came too seldom: each kind that is printed, and each of the refusals 9,
18 and 19 at each node at which it can come, is to be met once and once more for
every 100 routines. Beside them, five inputs whose listing has a location at a
drop, and five heap images with a drop, are wanted for every three routines. A
few hundred routines are enough to meet them all. The default is 12,000
routines.
";
