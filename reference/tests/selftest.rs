//! The selftest with its fixed seed, and that it is the same every time.

use reference::selftest::{run, Counts, ROUTINES, SEED};

#[test]
fn the_fixed_seed_agrees_and_meets_everything() {
    let counts = run(SEED, ROUTINES).unwrap_or_else(|difference| panic!("{difference}"));
    assert!(counts.routines >= 10_000);
    assert!(counts.accepted >= 10_000);
    assert!(counts.large >= 20);
    assert_eq!(counts.nodes, 12);
    assert!(counts.never_met().is_none());
    assert!(counts.too_few().is_none());
    for tests in [counts.undefined_listed, counts.undefined_run, counts.undefined_stepped] {
        assert!(tests.iter().all(|&count| count >= 400), "{tests:?}");
    }
    assert!(counts.freed_run >= 1_000);
    for relinks in [counts.relinks_listed, counts.relinks_run, counts.relinks_stepped] {
        assert!(relinks.iter().all(|&count| count >= 400), "{relinks:?}");
    }
    let drops = counts.drops;
    assert!(drops.inputs >= 20_000 && drops.images >= 20_000, "{drops:?}");
    assert!(drops.heaps >= drops.locations && drops.locations >= drops.inputs, "{drops:?}");
    for ways in [drops.listed, drops.run, drops.stepped] {
        assert!(ways.iter().all(|&count| count >= 400), "{ways:?}");
        // Each drop is of one of the first six.
        assert!(ways[..6].iter().sum::<u64>() >= 20_000);
        // Several nodes vanish if they are a stem and its ring, and only then.
        assert_eq!(ways[5], ways[7]);
    }
    assert_eq!(drops.cells_before, drops.cells_after + drops.cells_collected);
    assert!(drops.full_images >= 500 && drops.cells_collected >= 100_000, "{drops:?}");
    let walks = counts.walks;
    assert!(walks.on_listings >= 11_000 && walks.on_drawn >= 40_000 && walks.moves >= 1_000_000, "{walks:?}");
    assert!(walks.empty >= 5_000 && walks.longest >= 300 && walks.too_long >= 300 && walks.misplaced >= 1_000, "{walks:?}");
    for ends in [walks.ends_on_listings, walks.ends_on_drawn] {
        assert!(ends.iter().all(|&count| count >= 400), "{ends:?}");
    }
    assert!(walks.outside.iter().chain(&walks.inside).all(|&count| count >= 400), "{walks:?}");
    assert!(walks.listings[2..].iter().all(|&count| count >= 400) && walks.listings[..2] == [0, 0], "{walks:?}");
    for by_node in [counts.nodes_in_inputs, counts.nodes_in_unfolding] {
        let [lost, not_core, otherwise] = by_node;
        assert!(lost.iter().chain(&not_core).chain(&otherwise[..11]).all(|&count| count >= 300), "{by_node:?}");
        assert_eq!(otherwise[11], 0);
        assert!(by_node.as_flattened().iter().sum::<u64>() >= 10_000);
    }
    assert!(counts.orders.iter().all(|&count| count >= 1_000), "{:?}", counts.orders);
}

#[test]
fn kinds_that_are_too_few_are_told() {
    let mut counts = Counts { routines: 400, freed_run: 5, ..Counts::default() };
    [counts.undefined_listed, counts.undefined_run, counts.undefined_stepped] = [[5; 5]; 3];
    [counts.relinks_listed, counts.relinks_run, counts.relinks_stepped] = [[5; 10]; 3];
    [counts.nodes_in_inputs, counts.nodes_in_unfolding] = [[[5; 12]; 3]; 2];
    counts.orders = [5; 11];
    [counts.drops.listed, counts.drops.run, counts.drops.stepped] = [[5; 20]; 3];
    [counts.walks.ends_on_listings, counts.walks.ends_on_drawn] = [[5; 4]; 2];
    [counts.walks.outside, counts.walks.inside, counts.walks.listings] = [[5; 28]; 3];
    [counts.walks.empty, counts.walks.longest, counts.walks.too_long] = [5; 3];
    [counts.walks.misplaced, counts.walks.overflowed_later] = [5; 2];
    // The counts have no records that could be broken in a listing.
    counts.walks.listings[..2].fill(0);
    // Five for every three routines.
    [counts.drops.inputs, counts.drops.images] = [666; 2];
    // 19 cannot come at node 11.
    counts.nodes_in_inputs[2][11] = 0;
    assert_eq!(counts.floor(), 5);
    assert_eq!(counts.too_few(), None);
    counts.undefined_run[3] = 4;
    let due = "undefined in runs, test u = w with both undefined (4 of 5)";
    assert_eq!(counts.too_few().as_deref(), Some(due));
    counts.freed_run = 0;
    let due = format!("undefined in runs, test of a freed cell (0 of 5), {due}");
    assert_eq!(counts.too_few().as_ref(), Some(&due));
    counts.relinks_listed[9] = 3;
    counts.relinks_stepped[6] = 1;
    let relinks = "relink in listings, u >= 2 (3 of 5), relink in steps, u = 1 and w = 1, leak (1 of 5)";
    assert_eq!(counts.too_few(), Some(format!("{due}, {relinks}")));
    counts.drops.listed[0] = 4;
    counts.drops.run[8] = 0;
    let drops = "drop in listings, u null (4 of 5), drop in runs, everything vanishes (0 of 5)";
    assert_eq!(counts.too_few(), Some(format!("{due}, {relinks}, {drops}")));
    counts.walks.longest = 0;
    counts.walks.ends_on_listings[3] = 1;
    counts.walks.outside[0] = 4;
    counts.walks.inside[27] = 0;
    counts.walks.listings[2] = 2;
    let clauses = "layout outside, location count above the places (4 of 5), \
                   layout inside, edge: update that could give less than 1 (0 of 5), \
                   layout listing outside, location: byte 0 is not 0x4c (2 of 5)";
    let walks = format!("walk with 4096 moves (0 of 5), walk on listings, refused 21 (1 of 5), {clauses}");
    let drops = &format!("{drops}, {walks}");
    assert_eq!(counts.too_few(), Some(format!("{due}, {relinks}, {drops}")));
    counts.orders[4] = 0;
    counts.nodes_in_inputs[0][11] = 4;
    counts.nodes_in_unfolding[2][10] = 0;
    let nodes = "refusal 9 in inputs at node 11 (4 of 5), refusal 19 in unfolding at node 10 (0 of 5)";
    let damages = format!("damage in unfolding, 13 before it (0 of 5), {nodes}");
    let kinds = format!("{due}, {relinks}, {drops}, {damages}");
    assert_eq!(counts.too_few().as_ref(), Some(&kinds));
    [counts.drops.inputs, counts.drops.images] = [665, 0];
    let drawn = "drop inputs with a location at a drop (665 of 666), drop images (0 of 666)";
    assert_eq!(counts.too_few(), Some(format!("{kinds}, {drawn}")));
}

#[test]
fn each_refusal_is_wanted_at_each_node_where_it_can_come() {
    let counts = Counts::default();
    let told = counts.too_few().expect("nothing was met");
    for place in ["inputs", "unfolding"] {
        for (number, last) in [(9, 11), (18, 11), (19, 10)] {
            for node in 0..=last {
                assert!(told.contains(&format!("refusal {number} in {place} at node {node} (0 of 1)")), "{told}");
            }
        }
    }
    assert!(!told.contains("refusal 19 in inputs at node 11") && !told.contains("refusal 19 in unfolding at node 11"));
}

#[test]
fn a_seed_gives_the_same_counts_again() {
    let first = run(77, 400).unwrap_or_else(|difference| panic!("{difference}"));
    assert_eq!(run(77, 400), Ok(first.clone()));
    assert_ne!(run(78, 400), Ok(first));
}

#[test]
fn too_few_routines_fail_for_what_was_not_met() {
    let difference = run(SEED, 2).expect_err("not all refusals in two routines");
    assert!(difference.contains("never met"), "{difference}");
}
