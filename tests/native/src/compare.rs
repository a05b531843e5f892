//! What more than one test compares.

use crate::draw::Image;
use crate::{Node, Refusal};
use reference::Stepped;

/// A refusal of the second translator as the library tells it: all numbers are 0 for none, and the node is 0 but for 9, 18 and 19.
pub fn told(refusal: Option<reference::Refusal>) -> Refusal {
    let reference::Refusal { number, place, node } = refusal.unwrap_or(reference::Refusal::at(0, 0));
    assert!(matches!(number, 9 | 18 | 19) || node.0 == 0, "refusal {number} with node {}", node.0);
    Refusal { number, place, node: Node(node.0) }
}

/// A translation by both translators, in tables of so many bytes that held other bytes before: answers and every byte of both tables
/// agree. Gives the answer and both tables.
pub fn translation(input: &[u8], lengths: [usize; 2], fill: u8) -> (Refusal, [usize; 2], [Vec<u8>; 2]) {
    let [mut l, mut e] = [vec![fill; lengths[0]], vec![!fill; lengths[1]]];
    let (mut m, mut f) = (l.clone(), e.clone());
    let (refusal, counts) = crate::translate(input, &mut l, &mut e);
    let reference::Translated { refusal: number, place, node, locations, edges } = reference::translate(input, &mut m, &mut f);
    let theirs = told(Some(reference::Refusal { number, place, node }));
    assert_eq!((refusal, counts), (theirs, [locations, edges]), "{input:x?}");
    assert!(l == m && e == f, "tables of {input:x?} with {lengths:?} bytes");
    (refusal, counts, [l, e])
}

/// The listing of an input by both translators, in full tables. Gives the locations and the edges in use, none where the input is
/// refused.
pub fn listing(input: &[u8]) -> (Vec<u8>, Vec<u8>) {
    let (_, counts, [mut l, mut e]) = translation(input, [32_768, 65_536], 0x5a);
    l.truncate(32 * counts[0]);
    e.truncate(32 * counts[1]);
    (l, e)
}

/// An unfolding by both, into a heap of so many pointers and cells: answers and every byte of the heap agree.
pub fn unfolding(record: &[u8], counters: &[u32], lengths: [usize; 2], fill: u8) -> Refusal {
    let (mut p, mut c) = (vec![fill; lengths[0]], vec![fill ^ 0x55; lengths[1]]);
    let (mut q, mut d) = (p.clone(), c.clone());
    let ours = crate::unfold(record, counters, &mut p, &mut c);
    let theirs = reference::unfold(record, counters, &mut q, &mut d);
    assert_eq!((ours, &p, &c), (told(theirs.err()), &q, &d), "unfold of {record:x?} {counters:?}");
    ours
}

/// A fold by both: refusal, shape and counters agree.
pub fn folding(pointers: &[u8], cells: &[u8]) -> (Refusal, [u8; 32], [u32; 12]) {
    let ours = crate::fold(pointers, cells);
    let theirs = reference::fold(pointers, cells);
    assert_eq!(ours, (told(theirs.refusal), theirs.record, theirs.counters), "fold of {pointers:x?} {cells:x?}");
    ours
}

/// A step by both: answers and every byte of the heap agree. Gives the answer and the heap afterwards.
pub fn stepping(pointers: &[u8], cells: &[u8], record: &[u8], pick: u8, cell: usize) -> ((Refusal, [u8; 4]), Image) {
    let (mut p, mut c) = (pointers.to_vec(), cells.to_vec());
    let (mut q, mut d) = (p.clone(), c.clone());
    let ours = crate::step(&mut p, &mut c, record, pick, cell);
    let theirs = match reference::step(&mut q, &mut d, record, pick as u64, cell as u64) {
        Stepped::Refused(r) => (told(Some(r)), [0; 4]),
        Stepped::Stop => (told(None), [0, 1, 0, 0]),
        Stepped::Fault(f) => (told(None), [f, 0, 0, 0]),
        Stepped::Moved { branch, next } => (told(None), [0, 0, branch, next]),
    };
    assert_eq!((ours, &p, &c), (theirs, &q, &d), "step {record:x?} on {pointers:x?} {cells:x?}");
    (ours, (p, c))
}
