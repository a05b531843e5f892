//! The proved translator against the second one: answers, and every byte of both tables, with tables that held other bytes before.
//! Every refusal that a translation gives must have been met: the test counts them.

use native::compare::translation;
use native::damage::spoil_shape;
use native::draw::{routine, Draw};

const ROUNDS: usize = 70_000;

/// The refusal and the number of locations.
fn compare(input: &[u8], locations: usize, edges: usize, fill: u8) -> (u8, usize) {
    let (refusal, counts, _) = translation(input, [locations, edges], fill);
    (refusal.number, counts[0])
}

#[test]
fn translations_agree() {
    let (mut d, mut met, mut large) = (Draw::new(4), [0u64; 20], 0);
    for i in 0..ROUNDS {
        let mut input = routine(&mut d, i);
        match d.below(8) {
            0 => {
                let at = d.below(input.len());
                input[at] = d.number() as u8;
            }
            1 if d.one_in(3) => input.truncate(d.below(input.len() + 1)),
            2 if d.one_in(6) => input.extend_from_slice(&input.clone()[..32.min(input.len())]),
            // too many statements
            3 if d.one_in(10) => (0..d.below(66)).for_each(|_| drop(input.splice(0..0, input[..32].to_vec()))),
            // a starting shape that is most often none
            4 if d.one_in(4) => {
                let last = input.len() - 32;
                spoil_shape(&mut d, &mut input[last..]);
            }
            _ => {}
        }
        let (a, b) = match d.below(6) {
            0 => (d.below(400), d.below(600)),
            1 => (32 * d.below(12), 32 * d.below(12)),
            2 => (d.below(40_000), d.below(70_000)),
            _ => (32_768, 65_536),
        };
        let (refusal, count) = compare(&input, a, b, d.number() as u8);
        met[refusal as usize] += 1;
        large += u64::from(count >= 200);
    }
    // 13 to 17 are of other calls
    for (n, &times) in met.iter().enumerate() {
        assert_eq!(times > 0, !(13..18).contains(&n), "refusal {n} came {times} times");
    }
    assert!(large > 100, "few large listings: {large}");
    println!("refusals: {met:?}, listings of 200 locations or more: {large}");
}

#[test]
fn single_bytes_and_truncations() {
    let mut d = Draw::new(5);
    for i in 0..40 {
        let input = routine(&mut d, i % 3);
        for at in 0..input.len().min(320) {
            let mut changed = input.clone();
            changed[at] = changed[at].wrapping_add(1 + d.below(255) as u8);
            compare(&changed, 4096, 4096, 0x5a);
        }
        for n in (0..input.len()).step_by(7) {
            compare(&input[..n], 4096, 4096, 0xa5);
        }
    }
}

fn case(name: &str) -> Vec<u8> {
    std::fs::read(format!("{}/../cases/{name}", env!("CARGO_MANIFEST_DIR"))).unwrap()
}

#[test]
fn limits_of_tables() {
    let p1 = case("000.in");
    assert_eq!(compare(&p1, 96, 64, 1).0, 0);
    assert_eq!(compare(&p1, 95, 64, 1).0, 11);
    assert_eq!(compare(&p1, 64, 64, 1).0, 11);
    assert_eq!(compare(&p1, 96, 63, 1).0, 12);
    assert_eq!(compare(&p1, 96, 32, 1).0, 12);
    for (a, b) in [(0, 0), (1, 1), (31, 31), (33, 33), (97, 65), (127, 95), (1 << 20, 1 << 20)] {
        compare(&p1, a, b, 0xff);
    }
}

#[test]
fn every_case_of_the_folder() {
    let mut met = 0;
    for file in std::fs::read_dir(format!("{}/../cases", env!("CARGO_MANIFEST_DIR"))).unwrap() {
        let path = file.unwrap().path();
        if path.extension().is_some_and(|e| e == "in") {
            let mut input = std::fs::read(&path).unwrap();
            input.truncate(4096);
            compare(&input, 32_768, 65_536, 7);
            met += 1;
        }
    }
    assert!(met > 30);
}
