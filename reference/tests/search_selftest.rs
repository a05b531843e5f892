//! What the selftest meets of searches, and that too few of them are told.

use reference::selftest::{run, Counts, SearchCounts, SEED};

#[test]
fn every_way_is_met_often() {
    let counts = run(SEED, 2_000).unwrap_or_else(|difference| panic!("{difference}"));
    let searches = &counts.searches;
    assert_eq!(searches.too_few(counts.floor()), None);
    assert_eq!(searches.on_drawn, 10_000);
    assert!(searches.found >= 2_500 && searches.found <= 7_500, "{searches:?}");
    assert!(searches.drawn.iter().all(|&count| count >= 150), "{searches:?}");
    assert!(searches.listed.iter().all(|&count| count >= 2_000), "{searches:?}");
    // Each location is new once, and each edge has a target.
    assert_eq!(searches.listed[0], counts.locations);
    assert!(searches.listed[1..].iter().sum::<u64>() <= counts.edges);
    let printed = counts.to_string();
    for (name, count) in searches.ways() {
        assert!(printed.contains(&format!("\n{name}: {count}\n")), "{name}");
    }
}

#[test]
fn ways_that_are_too_few_are_told() {
    let mut searches = SearchCounts { drawn: [5; 32], listed: [5; 4], ..SearchCounts::default() };
    assert_eq!(searches.too_few(5), None);
    searches.drawn[0] = 4;
    searches.drawn[27] = 0;
    searches.listed[3] = 1;
    let due = "search on drawn tables, table without bytes (4 of 5), \
               search on drawn tables, none, but past 1024 places (0 of 5), \
               search in listings, one further back (1 of 5)";
    assert_eq!(searches.too_few(5).as_deref(), Some(due));
    assert_eq!(searches.too_few(0), None);
}

#[test]
fn each_way_is_wanted() {
    let counts = Counts::default();
    let told = counts.searches.too_few(counts.floor()).expect("nothing was met");
    assert_eq!(told.matches("(0 of 1)").count(), 36);
}
