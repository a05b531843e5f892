//! What the selftest meets of paths from ranges, and that too few are told.

use reference::ranges_draw::RangesClause;
use reference::selftest::{run, Counts, RangesCounts, SEED};

#[test]
fn every_clause_is_met_often() {
    let counts = run(SEED, 300).unwrap_or_else(|difference| panic!("{difference}"));
    let ranges = &counts.ranges;
    assert_eq!(ranges.too_few(counts.floor()), None);
    assert_eq!(ranges.calls, 600);
    assert!(ranges.searched >= 500 && ranges.on_listings >= 100, "{ranges:?}");
    assert!(counts.refusals[22] >= 50 && counts.refusals[23] >= 120, "{:?}", counts.refusals);
    let printed = counts.to_string();
    for (name, count) in ranges.ways() {
        assert!(printed.contains(&format!("\n{name}: {count}\n")), "{name}");
    }
}

#[test]
fn clauses_that_are_too_few_are_told() {
    let mut ranges = RangesCounts { clauses: [5; RangesClause::ALL.len()], ..RangesCounts::default() };
    assert_eq!(ranges.too_few(5), None);
    ranges.clauses[RangesClause::EndsLater as usize] = 4;
    ranges.clauses[RangesClause::PastNotRead as usize] = 0;
    let due = "ranges, none can go on later (4 of 5), ranges, numbers past the counters not read (0 of 5)";
    assert_eq!(ranges.too_few(5).as_deref(), Some(due));
    let told = Counts::default().ranges.too_few(1).expect("nothing was met");
    assert_eq!(told.matches("(0 of 1)").count(), 24);
}
