//! Fold, unfold and step of the proved library against the second translator's, on valid and damaged images, records and statements.
//! Every refusal and every fault must have been met: the tests count them.

use native::compare::{folding, stepping, told, unfolding};
use native::damage::spoil_shape;
use native::draw::{damage_record, damaged_image, image, statement, Draw};
use native::{Node, Refusal};

const ROUNDS: usize = 50_000;

fn sizes(i: usize) -> usize {
    [3, 8, 16, 60, 240][i % 5]
}

fn all_met(what: &str, met: &[u64], wanted: &[usize]) {
    for &n in wanted {
        assert!(met[n] > 0, "{what} {n} never came");
    }
    println!("{what}: {:?}", wanted.iter().map(|&n| (n, met[n])).collect::<Vec<_>>());
}

fn compare_fold(pointers: &[u8], cells: &[u8]) -> u8 {
    folding(pointers, cells).0.number
}

fn compare_unfold(record: &[u8], counters: &[u32], np: usize, nc: usize) -> u8 {
    unfolding(record, counters, [np, nc], 7).number
}

fn compare_step(pointers: &[u8], cells: &[u8], record: &[u8], pick: u8, cell: usize) -> (u8, [u8; 4]) {
    let ((refusal, answer), _) = stepping(pointers, cells, record, pick, cell);
    (refusal.number, answer)
}

#[test]
fn folds_agree() {
    let (mut d, mut met) = (Draw::new(1), [0u64; 20]);
    for i in 0..ROUNDS {
        let (p, c) = damaged_image(&mut d, sizes(i));
        met[compare_fold(&p, &c) as usize] += 1;
    }
    all_met("fold refusal", &met, &[0, 13, 14]);
}

#[test]
fn unfolds_agree_and_fold_back() {
    let (mut d, mut met) = (Draw::new(2), [0u64; 20]);
    for i in 0..ROUNDS {
        let (p, c) = image(&mut d, sizes(i));
        let (_, record, mut counters) = native::fold(&p, &c);
        let mut record = record.to_vec();
        let whole = counters;
        let sum: u32 = counters.iter().sum();
        if d.one_in(12) {
            spoil_shape(&mut d, &mut record);
        }
        damage_record(&mut d, &mut record);
        match d.below(12) {
            0 => counters[d.below(12)] = d.below(3) as u32,
            1 => counters[d.below(12)] = u32::MAX - d.below(2) as u32,
            _ => {}
        }
        let nc = sum as usize + [0, 0, 1, 3][d.below(4)];
        let nc = if d.one_in(30) {
            nc.saturating_sub(1)
        } else if d.one_in(60) {
            241
        } else {
            nc.min(240)
        };
        let np = if d.one_in(60) { d.below(9) } else { 6 };
        let refusal = unfolding(&record, &counters, [np, nc], d.number() as u8).number;
        met[refusal as usize] += 1;
        if refusal == 0 && counters == whole {
            let (mut q, mut e) = (vec![0; np], vec![0; nc]);
            native::unfold(&record, &counters, &mut q, &mut e);
            let (again, shape, sizes) = native::fold(&q, &e);
            assert_eq!((again, &shape[..], sizes), (told(None), &record[..], counters));
        }
    }
    all_met("unfold refusal", &met, &[0, 8, 9, 13, 15, 18, 19]);
}

#[test]
fn steps_agree() {
    let (mut d, mut met, mut faults) = (Draw::new(3), [0u64; 20], [0u64; 4]);
    let (mut stops, mut second, mut op_14) = (0, 0, 0);
    for i in 0..ROUNDS {
        let (p, c) = if d.one_in(6) { damaged_image(&mut d, sizes(i)) } else { image(&mut d, sizes(i)) };
        let r = statement(&mut d);
        let pick = if d.one_in(5) { d.number() as u8 } else { d.below(2) as u8 };
        let cell = if d.one_in(20) { usize::MAX - d.below(2) } else { d.below(c.len() + 2) };
        let (refusal, answer) = compare_step(&p, &c, &r, pick, cell);
        met[refusal as usize] += 1;
        op_14 += u64::from(refusal == 5 && r[1] == 14);
        faults[answer[0] as usize] += 1;
        stops += answer[1] as u64;
        second += answer[2] as u64;
    }
    all_met("step refusal", &met, &[0, 4, 5, 6, 7, 13, 14, 16]);
    all_met("fault", &faults, &[0, 1, 2, 3]);
    assert!(stops > 0 && second > 0);
    assert!(op_14 > 100, "the first op that there is not was refused {op_14} times");
}

fn record_of(k: u8, pointers: [u8; 6], successors: &[u8]) -> Vec<u8> {
    let mut r = vec![0; 32];
    r[0] = 0x48;
    r[3] = k;
    r[4..10].copy_from_slice(&pointers);
    r[10..10 + successors.len()].copy_from_slice(successors);
    r
}

fn counters(values: &[u32]) -> [u32; 12] {
    let mut c = [0; 12];
    c[..values.len()].copy_from_slice(values);
    c
}

#[test]
fn limits_of_images() {
    // a list of 240 cells, and 241
    let list: Vec<u8> = (0..240).map(|i| if i == 239 { 0xfe } else { i as u8 + 1 }).collect();
    assert_eq!(compare_fold(&[0, 0xfe, 0xfe, 0xfe, 0xfe, 0xfe], &list), 0);
    let mut longer = list.clone();
    longer.push(0xfd);
    assert_eq!(compare_fold(&[0, 0xfe, 0xfe, 0xfe, 0xfe, 0xfe], &longer), 13);
    // counters that sum to 240 and 241, and past 32 bits
    let two = record_of(2, [0, 1, 0xfe, 0xfe, 0xfe, 0xfe], &[0xfe, 0xff]);
    assert_eq!(compare_unfold(&two, &counters(&[200, 40]), 6, 240), 0);
    assert_eq!(compare_unfold(&two, &counters(&[200, 41]), 6, 240), 15);
    assert_eq!(compare_unfold(&two, &counters(&[u32::MAX, 2]), 6, 240), 15);
    assert_eq!(compare_unfold(&two, &counters(&[u32::MAX, u32::MAX]), 6, 240), 15);
    assert_eq!(compare_unfold(&two, &counters(&[1, 1]), 6, 241), 13);
    // counters that are not twelve are looked at after the lengths, the layout and the nodes
    let other = record_of(2, [1, 0, 0xfe, 0xfe, 0xfe, 0xfe], &[0xfe, 0xff]);
    for few in [vec![], vec![1, 1], vec![1; 11], vec![1; 13]] {
        assert_eq!(compare_unfold(&two, &few, 6, 240), 15);
        assert_eq!(unfolding(&other, &few, [6, 240], 7), Refusal { number: 19, place: 0, node: Node(0) });
        assert_eq!(compare_unfold(&two[..31], &few, 6, 240), 8);
        assert_eq!(compare_unfold(&two, &few, 5, 240), 13);
    }
}

#[test]
fn odd_lengths() {
    for n in 0..9 {
        for m in [0, 1, 31, 33, 64, 241, 300] {
            compare_fold(&vec![0xfe; n], &vec![0xfd; m]);
            compare_unfold(&vec![0; m], &[0; 12], n, m);
            compare_unfold(&vec![0; m], &vec![0; n], n, m);
            compare_step(&vec![0xfe; n], &vec![0xfd; m], &vec![0x53; n * 4], 0, 0);
        }
    }
}
