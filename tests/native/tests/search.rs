//! The search for a record: the proved library against the second translator, and against a scan of the whole table written here, on
//! tables drawn so that a search that goes wrong is seen, and on listings. What must have been met is counted.

use native::compare::listing;
use native::counts::Counts;
use native::draw::{dropping_routine, relinking_routine, routine, testing_routine, Draw};
use native::rings::plain_ring;
use native::search;
use native::searches::{drawn_search, Record, Search, MOST};

const ROUNDS: u64 = 240_000;

/// Every record of the table is looked at, and the last that counts and is equal is kept.
fn scan(table: &[u8], count: usize, record: &[u8]) -> Option<usize> {
    let mut kept = None;
    for number in 0..table.len() / 32 {
        let stands = &table[32 * number..32 * number + 32];
        if number < 1024 && number < count && stands == record {
            kept = Some(number);
        }
    }
    kept
}

/// The three answers, which are one.
fn found(table: &[u8], count: usize, record: &[u8], say: impl Fn() -> String) -> Option<usize> {
    let ours = search(table, count, record);
    assert_eq!(ours, reference::search(table, count, record), "second translator: {}", say());
    assert_eq!(ours, scan(table, count, record), "scan: {}", say());
    ours
}

/// The number of the byte in which two records differ, if it is one alone.
fn only_difference(one: &[u8], other: &[u8]) -> Option<usize> {
    let mut differ = (0..32).filter(|&i| one[i] != other[i]);
    differ.next().filter(|_| differ.next().is_none())
}

/// What a call meets, told from its arguments and its answer alone.
struct Met {
    counts: Counts,
    /// How often a record was passed that differs from the one looked for in this byte alone.
    bytes: [usize; 32],
}

impl Met {
    fn add(&mut self, name: &'static str, met: bool) {
        if met {
            self.counts.add(name);
        }
    }

    fn count(&mut self, call: &Search, answer: Option<usize>) {
        let whole = call.table.len() / 32;
        let places = whole.min(MOST);
        let cut = call.count.min(places);
        let equal: Vec<usize> = (0..whole).filter(|&number| call.table[32 * number..][..32] == call.record).collect();
        match answer {
            Some(number) => self.hit(number, cut, &equal),
            None => self.none(cut, &equal),
        }
        self.lengths(call, cut);
        self.add("count 0", call.count == 0);
        self.add("count below the places", call.count > 0 && call.count < places);
        self.add("count of all places", call.count == places && places > 0);
        self.add("count one above", call.count == places + 1);
        self.add("count far above", call.count > places + 1);
        self.add("count usize::MAX", call.count == usize::MAX);
        self.add(if call.count > places { "count cut" } else { "count not cut" }, true);
        self.add("above 1,024", whole > MOST);
        if call.record.len() == 32 {
            let passed = call.table[..32 * cut].chunks(32).skip(answer.map_or(0, |number| number + 1));
            passed.filter_map(|record| only_difference(record, &call.record)).for_each(|byte| self.bytes[byte] += 1);
        }
    }

    fn hit(&mut self, number: usize, cut: usize, equal: &[usize]) {
        self.add("hit with repeats", equal[0] < number);
        self.add("hit at the newest", number + 1 == cut);
        self.add("hit at number 0", number == 0);
        self.add("hit at number 0, of several", number == 0 && cut > 1);
        self.add("hit, and right past the count too", equal.contains(&cut));
        self.add("hit at 1,023", number == MOST - 1);
    }

    fn none(&mut self, cut: usize, equal: &[usize]) {
        self.add("none", true);
        self.add("none, but right past the count", equal.contains(&cut));
        self.add("none, but from 1,024 on", cut == MOST && !equal.is_empty());
    }

    fn lengths(&mut self, Search { table, count, record }: &Search, cut: usize) {
        let alike = |stands: &[u8]| stands.starts_with(record) || record.starts_with(stands);
        let there = table[..32 * cut].chunks(32).any(alike);
        let of_length = match record.len() {
            0 => "length 0",
            1 => "length 1",
            31 => "length 31",
            32 => "length 32",
            33 => "length 33",
            _ => "length 64",
        };
        self.add(of_length, true);
        self.add("other length", record.len() != 32);
        self.add("other length, with a record that is its beginning or begins so", record.len() != 32 && there);
        let (whole, last) = (table.len() / 32, &table[table.len() / 32 * 32..]);
        let begun = !last.is_empty() && record.len() == 32 && record.starts_with(last);
        self.add("odd length", !last.is_empty());
        self.add("odd length, and the last place begins the record", begun && *count > whole);
        self.add("empty table", table.is_empty());
        // long tables would take long
        let across = |(at, bytes): (usize, &[u8])| at % 32 != 0 && bytes == record;
        self.add("across two places", record.len() == 32 && table.len() < 4096 && table.windows(32).enumerate().any(across));
    }
}

/// About half of what comes.
const FLOORS: [(&str, usize); 30] = [
    ("hit with repeats", 30_000),
    ("hit at the newest", 28_000),
    ("hit at number 0", 12_000),
    ("hit at number 0, of several", 8_000),
    ("hit at 1,023", 1_300),
    ("hit, and right past the count too", 9_000),
    ("none", 64_000),
    ("none, but right past the count", 9_000),
    ("none, but from 1,024 on", 900),
    ("count cut", 48_000),
    ("count not cut", 72_000),
    ("count 0", 20_000),
    ("count below the places", 34_000),
    ("count of all places", 17_000),
    ("count one above", 12_000),
    ("count far above", 35_000),
    ("count usize::MAX", 12_000),
    ("other length", 24_000),
    ("other length, with a record that is its beginning or begins so", 16_000),
    ("length 0", 4_700),
    ("length 1", 4_700),
    ("length 31", 4_700),
    ("length 32", 95_000),
    ("length 33", 4_700),
    ("length 64", 4_700),
    ("odd length", 40_000),
    ("odd length, and the last place begins the record", 12_000),
    ("above 1,024", 10_000),
    ("empty table", 3_300),
    ("across two places", 29_000),
];
const BYTE_FLOOR: usize = 88_000;

#[test]
fn drawn_searches() {
    let mut met = Met { counts: Counts::default(), bytes: [0; 32] };
    for seed in 0..ROUNDS {
        let call = drawn_search(&mut Draw::new(seed));
        let say = || format!("drawn from {seed}: {} bytes, count {}, record {:x?}", call.table.len(), call.count, call.record);
        let answer = found(&call.table, call.count, &call.record, say);
        met.count(&call, answer);
    }
    met.counts.reach(&FLOORS);
    println!("passed for one byte alone: {:?}", met.bytes);
    assert!(met.bytes.iter().all(|&passed| passed >= BYTE_FLOOR), "{:?}", met.bytes);
}

/// Every other value of every byte: such a record is passed, and is not found.
#[test]
fn each_value_of_each_byte() {
    let mut d = Draw::new(23);
    for byte in 0..32 {
        for value in 1..=255 {
            let record: Record = std::array::from_fn(|_| d.number() as u8);
            let mut other = record;
            other[byte] ^= value;
            let say = || format!("byte {byte} of {record:x?} changed by {value:x}");
            for count in [2, usize::MAX] {
                assert_eq!(found(&[record, other].concat(), count, &record, say), Some(0));
                assert_eq!(found(&[other, record].concat(), count, &record, say), Some(1));
                assert_eq!(found(&[other, other].concat(), count, &record, say), None);
            }
        }
    }
}

/// One record at each number of a table, with each count that is next to it.
#[test]
fn each_number() {
    let record: Record = std::array::from_fn(|i| i as u8 + 1);
    for number in 0..MOST + 3 {
        let mut table = vec![0; 32 * (MOST + 3) + 31];
        table[32 * number..][..32].copy_from_slice(&record);
        for count in [0, number, number + 1, number + 2, MOST - 1, MOST, MOST + 1, MOST + 3, MOST + 4, 1 << 59, usize::MAX] {
            let due = (number < count && number < MOST).then_some(number);
            assert_eq!(found(&table, count, &record, || format!("{number} below {count}")), due);
        }
        // a byte less, and the record is incomplete
        for (length, whole) in [(32 * number + 31, false), (32 * number + 32, true)] {
            let due = (whole && number < MOST).then_some(number);
            assert_eq!(found(&table[..length], usize::MAX, &record, || format!("{number} in {length} bytes")), due);
        }
    }
}

#[test]
fn lengths_of_the_record() {
    let table = [7; 32 * 5 + 20];
    for length in 0..=table.len() {
        for count in [0, 1, 4, 5, 6, usize::MAX] {
            let due = if length == 32 { count.min(5).checked_sub(1) } else { None };
            assert_eq!(found(&table, count, &table[..length], || format!("{length} bytes below {count}")), due);
            assert_eq!(found(&[], count, &table[..length], || format!("{length} bytes in none")), None);
        }
    }
}

/// Every location is found at its own number, and no edge is, whatever follows and whatever counts. Where the listing stands twice, the
/// second one is found.
fn in_listing(met: &mut Counts, name: &str, locations: &[u8], edges: &[u8]) {
    let (count, say) = (locations.len() / 32, || name.into());
    let (mut full, twice) = (locations.to_vec(), [locations, locations].concat());
    full.resize(32 * MOST, 0);
    for (number, record) in locations.chunks(32).enumerate() {
        assert_eq!(found(locations, count, record, say), Some(number));
        assert_eq!(found(&full, usize::MAX, record, say), Some(number));
        // as a translation asks: not before it stands there
        assert_eq!(found(&full, number, record, say), None);
        assert_eq!(found(&full, number + 1, record, say), Some(number));
        let (second, fits) = (number + count, number + count < MOST);
        assert_eq!(found(&twice, 2 * count, record, say), Some(if fits { second } else { number }));
        met.add("locations");
        met.add(if fits { "found in the second listing" } else { "second one past 1,024" });
    }
    for record in edges.chunks(32) {
        assert_eq!(found(locations, count, record, say), None);
        assert_eq!(found(&full, usize::MAX, record, say), None);
        met.add("edges");
    }
    // zeros are a record like others, where they count
    assert_eq!(found(&full, count, &[0; 32], say), None);
    assert_eq!(found(&full, usize::MAX, &[0; 32], say), (count < MOST).then_some(MOST - 1));
    met.add(if count < 200 { "listings" } else { "listings of 200 locations or more" });
}

/// Of four kinds, small and large; and now and then one of 1,024 locations, or of nearly as many.
fn drawn_routine(d: &mut Draw, i: usize) -> Vec<u8> {
    let size = [0, 0, 1, 2, 5][i / 4 % 5];
    match i % 50 {
        0 => plain_ring(d, 64 - i / 50 % 4, 16, 20).0,
        _ => [routine, relinking_routine, testing_routine, dropping_routine][i % 4](d, size),
    }
}

#[test]
fn listings() {
    let (mut d, mut met) = (Draw::new(24), Counts::default());
    for i in 0..600 {
        let (locations, edges) = listing(&drawn_routine(&mut d, i));
        if !locations.is_empty() {
            in_listing(&mut met, &format!("listing {i}"), &locations, &edges);
        }
    }
    let floors = [
        ("listings", 290),
        ("listings of 200 locations or more", 6),
        ("locations", 10_000),
        ("edges", 10_000),
        ("found in the second listing", 4_000),
        ("second one past 1,024", 6_000),
    ];
    met.reach(&floors);
}
