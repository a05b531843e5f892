//! Trials as they are written for a program in C (tests/controller): what is given to a call, and what the second translator answers.
//! Nothing here calls the proved library.
//!
//! A trial is a letter with its fields. A number has 8 bytes, the low byte first; bytes stand after how many they are.
//! What is given stands first, then what is told: refusal, place, node, and the rest.
//!   T  input, lengths of both tables; counts, L records, E records; refusal, place, node and counts with full tables
//!   F  pointers, cells; shape, twelve counters
//!   U  record, number of counters, these, lengths of pointers and cells; pointers and cells, none where refused
//!   S  pointers, cells, statement, pick, cell; answer (four bytes), pointers, cells
//!   R  lengths of both tables, both counts, which table, number; where the record begins, its length
//!   M  locations, edges, both counts, location, twelve counters, number of the edge; location and counters
//!   W  the same with the bytes of a path, four for each number, for the one number; moves made, location and counters
//!   G  locations, edges, both counts, start, the bytes of a path, number of ranges, these; 1 where some start follows, the location
//!      reached, 24 numbers of ranges, all 0 where none follows
//!   N  table, count, record; in place of a refusal 1 and the number of the newest that is equal, or 0 and 0
//!   Z  the end: how many trials there were

use crate::draw::Image;
use crate::ranges::{due, pairs};
use crate::searches::Search;
use reference::ranges_draw::DrawnRanges;
use reference::walk_damage::DrawnWalk;
use reference::{Configuration, Refusal, Stepped, Translated};

#[derive(Default)]
pub struct Stream {
    pub bytes: Vec<u8>,
    pub trials: usize,
}

impl Stream {
    pub fn begin(&mut self, letter: u8) {
        self.bytes.push(letter);
        self.trials += 1;
    }

    pub fn number(&mut self, number: usize) {
        self.bytes.extend_from_slice(&(number as u64).to_le_bytes());
    }

    pub fn numbers(&mut self, numbers: &[usize]) {
        numbers.iter().for_each(|&number| self.number(number));
    }

    pub fn block(&mut self, bytes: &[u8]) {
        self.number(bytes.len());
        self.bytes.extend_from_slice(bytes);
    }

    /// A refusal's number, place and node, all 0 for none.
    pub fn refusal(&mut self, refusal: Option<Refusal>) {
        let Refusal { number, place, node } = refusal.unwrap_or(Refusal::at(0, 0));
        self.numbers(&[number.into(), place, node.0.into()]);
    }

    fn answer(&mut self, &Translated { refusal: number, place, node, locations, edges }: &Translated) {
        self.refusal(Some(Refusal { number, place, node }));
        self.numbers(&[locations, edges]);
    }

    /// A translation into tables of these lengths; `full` is the answer with full tables.
    pub fn translation(&mut self, input: &[u8], lengths: [usize; 2], full: Translated) -> Translated {
        let [mut locations, mut edges] = lengths.map(|length| vec![0xa5; length]);
        let told = reference::translate(input, &mut locations, &mut edges);
        self.begin(b'T');
        self.block(input);
        self.numbers(&lengths);
        self.answer(&told);
        self.block(&in_use(locations, told.locations));
        self.block(&in_use(edges, told.edges));
        self.answer(&full);
        told
    }

    /// An unfolding into a heap of these lengths.
    pub fn unfolding(&mut self, record: &[u8], counters: &[u32], lengths: [usize; 2]) -> Option<Refusal> {
        let [mut pointers, mut cells] = lengths.map(|length| vec![0xa5; length]);
        let refusal = reference::unfold(record, counters, &mut pointers, &mut cells).err();
        if refusal.is_some() {
            assert!(pointers.drain(..).chain(cells.drain(..)).all(|byte| byte == 0xa5));
        }
        self.begin(b'U');
        self.block(record);
        self.number(counters.len());
        counters.iter().for_each(|&counter| self.number(counter as usize));
        self.numbers(&lengths);
        self.refusal(refusal);
        self.block(&pointers);
        self.block(&cells);
        refusal
    }

    /// A heap's shape and counters.
    pub fn folding(&mut self, pointers: &[u8], cells: &[u8]) {
        let told = reference::fold(pointers, cells);
        self.begin(b'F');
        self.block(pointers);
        self.block(cells);
        self.refusal(told.refusal);
        self.block(&told.record);
        self.numbers(&told.counters.map(|counter| counter as usize));
    }

    /// One statement on a heap.
    pub fn stepping(&mut self, (mut pointers, mut cells): Image, record: &[u8], pick: u8, cell: usize) {
        self.begin(b'S');
        self.block(&pointers);
        self.block(&cells);
        self.block(record);
        self.numbers(&[pick.into(), cell]);
        let (refusal, answer) = match reference::step(&mut pointers, &mut cells, record, pick.into(), cell as u64) {
            Stepped::Refused(refusal) => (Some(refusal), [0; 4]),
            Stepped::Stop => (None, [0, 1, 0, 0]),
            Stepped::Fault(fault) => (None, [fault, 0, 0, 0]),
            Stepped::Moved { branch, next } => (None, [0, 0, branch, next]),
        };
        self.refusal(refusal);
        self.block(&answer);
        self.block(&pointers);
        self.block(&cells);
    }

    fn configuration(&mut self, at: &Configuration) {
        self.number(at.location as usize);
        self.numbers(&at.counters.map(|counter| counter as usize));
    }

    fn start(&mut self, letter: u8, drawn: &DrawnWalk) {
        self.begin(letter);
        self.block(&drawn.locations);
        self.block(&drawn.edges);
        self.numbers(&[drawn.location_count, drawn.edge_count]);
        self.configuration(&drawn.configuration);
    }

    /// One move in place of the drawn path.
    pub fn moving(&mut self, drawn: &DrawnWalk, number: usize) {
        let DrawnWalk { locations, edges, location_count, edge_count, configuration: at, .. } = drawn;
        let told = reference::move_along(locations, edges, *location_count, *edge_count, *at, number);
        self.start(b'M', drawn);
        self.number(number);
        self.refusal(told.err());
        self.configuration(&told.unwrap_or(*at));
    }

    pub fn walking(&mut self, drawn: &DrawnWalk) {
        let DrawnWalk { locations, edges, location_count, edge_count, configuration: at, path, .. } = drawn;
        let told = reference::walk(locations, edges, *location_count, *edge_count, *at, path);
        self.start(b'W', drawn);
        self.block(&path.iter().flat_map(|number| number.to_le_bytes()).collect::<Vec<u8>>());
        self.refusal(told.refusal);
        self.number(told.made);
        self.configuration(&told.configuration);
    }

    /// A drawn path from ranges that are lent so, as the library has them.
    pub fn ranging(&mut self, drawn: &DrawnRanges, given: &[u32]) {
        let DrawnRanges { locations, edges, location_count, edge_count, start, path, .. } = drawn;
        let told = reference::ranges(locations, edges, *location_count, *edge_count, *start, &pairs(given), path);
        self.begin(b'G');
        self.block(locations);
        self.block(edges);
        self.numbers(&[*location_count, *edge_count, *start]);
        self.block(&path.iter().flat_map(|number| number.to_le_bytes()).collect::<Vec<u8>>());
        self.number(given.len());
        given.iter().for_each(|&end| self.number(end as usize));
        let (number, [place, follows, location], mut ranges) = due(&told);
        ranges.resize(24, 0);
        self.refusal(Some(Refusal::at(number, place)));
        self.numbers(&[follows, location]);
        ranges.iter().for_each(|&end| self.number(end as usize));
    }

    pub fn searching(&mut self, Search { table, count, record }: &Search) {
        let told = reference::search(table, *count, record);
        self.begin(b'N');
        self.block(table);
        self.number(*count);
        self.block(record);
        self.numbers(&[told.is_some().into(), told.unwrap_or(0)]);
    }
}

/// The records in use; all bytes after them are zero.
fn in_use(mut table: Vec<u8>, count: usize) -> Vec<u8> {
    let rest = table.split_off(32 * count);
    assert!(rest.iter().all(|&byte| byte == 0));
    table
}
