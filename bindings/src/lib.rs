//! The proved library, called from Rust. Only `tests/declarations` compares these declarations with the source, so they are few and plain:
//! a slice passes as a pointer and a length, a lent number as a pointer.
//!
//! No two things that are lent to one call may overlap where one of them is written: no lent slice that a call writes may share a
//! byte with another argument, nor may a lent number. The contracts are about slices that are apart, and Rust's own references see to
//! that; a caller in C must.

mod raw {
    extern "C" {
        pub fn currantplane_fold(
            pointers: *const u8,
            pointers_len: usize,
            cells: *const u8,
            cells_len: usize,
            shape: *mut u8,
            shape_len: usize,
            counters: *mut u32,
            counters_len: usize,
            place: *mut usize,
        ) -> u8;
        pub fn currantplane_unfold(
            record: *const u8,
            record_len: usize,
            counters: *const u32,
            counters_len: usize,
            pointers: *mut u8,
            pointers_len: usize,
            cells: *mut u8,
            cells_len: usize,
            place: *mut usize,
            node: *mut u8,
        ) -> u8;
        pub fn currantplane_step(
            pointers: *mut u8,
            pointers_len: usize,
            cells: *mut u8,
            cells_len: usize,
            statement: *const u8,
            statement_len: usize,
            pick: u8,
            cell: usize,
            answer: *mut u8,
            answer_len: usize,
            place: *mut usize,
        ) -> u8;
        pub fn currantplane_translate(
            input: *const u8,
            input_len: usize,
            locations: *mut u8,
            locations_len: usize,
            edges: *mut u8,
            edges_len: usize,
            answer: *mut usize,
            answer_len: usize,
        ) -> u8;
        pub fn currantplane_record(
            locations: *const u8,
            locations_len: usize,
            edges: *const u8,
            edges_len: usize,
            location_count: usize,
            edge_count: usize,
            table: usize,
            number: usize,
            answer: *mut usize,
            answer_len: usize,
        ) -> u8;
        pub fn currantplane_search(
            table: *const u8,
            table_len: usize,
            count: usize,
            record: *const u8,
            record_len: usize,
            number: *mut usize,
        ) -> u8;
        pub fn currantplane_move(
            configuration: *mut super::Configuration,
            locations: *const u8,
            locations_len: usize,
            edges: *const u8,
            edges_len: usize,
            location_count: usize,
            edge_count: usize,
            number: usize,
        ) -> u8;
        pub fn currantplane_walk(
            configuration: *mut super::Configuration,
            locations: *const u8,
            locations_len: usize,
            edges: *const u8,
            edges_len: usize,
            location_count: usize,
            edge_count: usize,
            path: *const u32,
            path_len: usize,
            made: *mut usize,
        ) -> u8;
        pub fn currantplane_ranges(
            locations: *const u8,
            locations_len: usize,
            edges: *const u8,
            edges_len: usize,
            location_count: usize,
            edge_count: usize,
            start: usize,
            path: *const u32,
            path_len: usize,
            ranges: *mut u32,
            ranges_len: usize,
            answer: *mut usize,
            answer_len: usize,
        ) -> u8;
    }
}

/// The number of a shape's node, 0 to 11.
#[derive(Clone, Copy, PartialEq, Eq, Debug)]
pub struct Node(pub u8);

/// A refusal's number, its place and the first node concerned; the number is 0 where nothing is refused, and the node is 0 but
/// for the refusals 9, 18 and 19.
#[derive(Clone, Copy, PartialEq, Eq, Debug)]
pub struct Refusal {
    pub number: u8,
    pub place: usize,
    pub node: Node,
}

impl Refusal {
    /// One that is about no node.
    fn at(number: u8, place: usize) -> Refusal {
        Refusal { number, place, node: Node(0) }
    }
}

/// Refusal, H record and counters; a refused fold gives zeros.
pub fn fold(pointers: &[u8], cells: &[u8]) -> (Refusal, [u8; 32], [u32; 12]) {
    let (mut shape, mut counters, mut place) = ([0xaa; 32], [0xaaaa_aaaa; 12], usize::MAX);
    let number = unsafe {
        raw::currantplane_fold(
            pointers.as_ptr(),
            pointers.len(),
            cells.as_ptr(),
            cells.len(),
            shape.as_mut_ptr(),
            32,
            counters.as_mut_ptr(),
            12,
            &mut place,
        )
    };
    (Refusal::at(number, place), shape, counters)
}

/// A refused unfolding leaves pointers and cells.
pub fn unfold(record: &[u8], counters: &[u32], pointers: &mut [u8], cells: &mut [u8]) -> Refusal {
    let (mut place, mut node) = (usize::MAX, u8::MAX);
    let number = unsafe {
        raw::currantplane_unfold(
            record.as_ptr(),
            record.len(),
            counters.as_ptr(),
            counters.len(),
            pointers.as_mut_ptr(),
            pointers.len(),
            cells.as_mut_ptr(),
            cells.len(),
            &mut place,
            &mut node,
        )
    };
    Refusal { number, place, node: Node(node) }
}

/// Refusal, then fault, stop, branch and next statement.
pub fn step(pointers: &mut [u8], cells: &mut [u8], statement: &[u8], pick: u8, cell: usize) -> (Refusal, [u8; 4]) {
    let (mut answer, mut place) = ([0xaa; 4], usize::MAX);
    let number = unsafe {
        raw::currantplane_step(
            pointers.as_mut_ptr(),
            pointers.len(),
            cells.as_mut_ptr(),
            cells.len(),
            statement.as_ptr(),
            statement.len(),
            pick,
            cell,
            answer.as_mut_ptr(),
            4,
            &mut place,
        )
    };
    (Refusal::at(number, place), answer)
}

/// Refusal, then the number of locations and the number of edges; a refused translation leaves both tables all zero.
pub fn translate(input: &[u8], locations: &mut [u8], edges: &mut [u8]) -> (Refusal, [usize; 2]) {
    let mut answer = [usize::MAX; 4];
    let number = unsafe {
        raw::currantplane_translate(
            input.as_ptr(),
            input.len(),
            locations.as_mut_ptr(),
            locations.len(),
            edges.as_mut_ptr(),
            edges.len(),
            answer.as_mut_ptr(),
            4,
        )
    };
    let [place, locations, edges, node] = answer;
    // a node is a byte in the library, so nothing is cut off
    (Refusal { number, place, node: Node(node as u8) }, [locations, edges])
}

/// Which of the two tables is meant: 0 for the locations, 1 for the edges.
pub const LOCATIONS: usize = 0;
pub const EDGES: usize = 1;

/// Refusal, and the record with this number: 32 bytes of the table that is meant, where they stand; a refused one has no bytes.
/// `counts` are the numbers of locations and of edges in use.
pub fn record<'a>(locations: &'a [u8], edges: &'a [u8], counts: [usize; 2], table: usize, number: usize) -> (Refusal, &'a [u8]) {
    let mut answer = [usize::MAX; 3];
    let refusal = unsafe {
        raw::currantplane_record(
            locations.as_ptr(),
            locations.len(),
            edges.as_ptr(),
            edges.len(),
            counts[0],
            counts[1],
            table,
            number,
            answer.as_mut_ptr(),
            3,
        )
    };
    let [place, begins, length] = answer;
    let meant = if table == LOCATIONS { locations } else { edges };
    (Refusal::at(refusal, place), &meant[begins..begins + length])
}

/// The highest number below `count` whose record in the table is equal to `record`, or none. A count above the table's places (its
/// length / 32, at most 1,024) is cut to them, and a record that is not 32 bytes long is equal to none.
pub fn search(table: &[u8], count: usize, record: &[u8]) -> Option<usize> {
    let mut number = usize::MAX;
    let found =
        unsafe { raw::currantplane_search(table.as_ptr(), table.len(), count, record.as_ptr(), record.len(), &mut number) };
    (found == 1).then_some(number)
}

/// A configuration of the automaton: a location's number and twelve counters, 0 past the location's nodes.
#[repr(C)]
#[derive(Clone, Copy, PartialEq, Eq, Debug)]
pub struct Configuration {
    pub location: u32,
    pub counters: [u32; 12],
}

/// One move along an edge: the refusal's number, 0 for none. The configuration is advanced where it lies; a refused move changes
/// nothing.
pub fn make_move(
    configuration: &mut Configuration,
    locations: &[u8],
    edges: &[u8],
    location_count: usize,
    edge_count: usize,
    number: usize,
) -> u8 {
    unsafe {
        raw::currantplane_move(
            configuration,
            locations.as_ptr(),
            locations.len(),
            edges.as_ptr(),
            edges.len(),
            location_count,
            edge_count,
            number,
        )
    }
}

/// A walk along edge numbers: the refusal's number, 0 for none, and how many moves were made. The configuration is advanced where it
/// lies, by the moves made.
pub fn make_walk(
    configuration: &mut Configuration,
    locations: &[u8],
    edges: &[u8],
    location_count: usize,
    edge_count: usize,
    path: &[u32],
) -> (u8, usize) {
    let mut made = usize::MAX;
    let number = unsafe {
        raw::currantplane_walk(
            configuration,
            locations.as_ptr(),
            locations.len(),
            edges.as_ptr(),
            edges.len(),
            location_count,
            edge_count,
            path.as_ptr(),
            path.len(),
            &mut made,
        )
    };
    (number, made)
}

/// The numbers of ranges: the lowest values of twelve counters, then the highest.
pub const RANGES: usize = 24;

/// What there is to say of a path from counters that are known only within ranges.
#[derive(Clone, Copy, PartialEq, Eq, Debug)]
pub enum Ranged {
    /// Some start can follow the path, to this location.
    Follows(usize),
    /// No start can: the first position in the path, from 0, where none can go on.
    EndsAt(usize),
    /// 23 with place 0 or the position of an edge in the path, or 22 with the number of a counter.
    Refused(Refusal),
}

/// Whether some start within the ranges can follow a path of edge numbers. `ranges` has the lowest values of twelve
/// counters, then the highest, [`RANGES`] numbers in all; a number that is not there counts as 0, and those past the
/// start's counters are not read. Where some start follows, the ranges of the final counters are written over them in
/// the same form, 0 past the last counter: exactly the combinations of values within them are reached by starts. Else
/// they are left. `counts` are the numbers of locations and of edges in use.
pub fn follow_ranges(
    locations: &[u8],
    edges: &[u8],
    counts: [usize; 2],
    start: usize,
    path: &[u32],
    ranges: &mut [u32],
) -> Ranged {
    let mut answer = [usize::MAX; 3];
    let number = tell_ranges(locations, edges, counts, start, path, ranges, &mut answer);
    match (number, answer) {
        (0, [position, 0, _]) => Ranged::EndsAt(position),
        (0, [_, _, location]) => Ranged::Follows(location),
        (_, [place, ..]) => Ranged::Refused(Refusal::at(number, place)),
    }
}

/// The same in numbers: the refusal's number, and over `answer`, as far as it reaches, the place or the position, 1
/// where some start follows the path, else 0, and the location reached.
pub fn tell_ranges(
    locations: &[u8],
    edges: &[u8],
    counts: [usize; 2],
    start: usize,
    path: &[u32],
    ranges: &mut [u32],
    answer: &mut [usize],
) -> u8 {
    unsafe {
        raw::currantplane_ranges(
            locations.as_ptr(),
            locations.len(),
            edges.as_ptr(),
            edges.len(),
            counts[0],
            counts[1],
            start,
            path.as_ptr(),
            path.len(),
            ranges.as_mut_ptr(),
            ranges.len(),
            answer.as_mut_ptr(),
            answer.len(),
        )
    }
}
