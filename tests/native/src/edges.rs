//! Edges of a listing, read by their bytes, and heaps that its locations describe.

use crate::draw::Draw;

/// The edges that leave the location with this number.
pub fn leaving(edges: &[u8], number: usize) -> Vec<&[u8]> {
    edges.chunks(32).filter(|e| e[2..4] == (number as u16).to_le_bytes()).collect()
}

/// The location that an edge leads to.
pub fn target<'a>(edge: &[u8], locations: &'a [u8]) -> &'a [u8] {
    &locations[32 * u16::from_le_bytes([edge[4], edge[5]]) as usize..][..32]
}

/// The update of each new node; the absent ones have one of 0.
pub fn updates(edge: &[u8]) -> Vec<u16> {
    edge[8..].chunks(2).map(|code| u16::from_le_bytes([code[0], code[1]])).collect()
}

fn holds(test: u8, counter: u32) -> bool {
    match test {
        0 => true,
        1 => counter == 1,
        _ => counter >= 2,
    }
}

/// Whether both guards of an edge hold.
pub fn enabled(edge: &[u8], counters: &[u32; 12]) -> bool {
    holds(edge[6], counters[edge[7] as usize]) && holds(edge[1] >> 1 & 3, counters[(edge[1] >> 3 & 15) as usize])
}

/// The counters of the k new nodes.
pub fn updated(updates: &[u16], counters: &[u32; 12], k: usize) -> [u32; 12] {
    let mut new = [0; 12];
    for (value, code) in new.iter_mut().zip(updates).take(k) {
        let sum: u32 = (0..12).filter(|i| code >> i & 1 == 1).map(|i| counters[i]).sum();
        *value = sum + u32::from(code >> 12 & 3) - 1;
    }
    new
}

/// A heap that the location describes: random counters, pointers and cells.
pub fn described(d: &mut Draw, location: &[u8]) -> ([u32; 12], Vec<u8>, Vec<u8>) {
    let mut counters = [0; 12];
    counters[..location[3] as usize].iter_mut().for_each(|c| *c = 1 + d.below(3) as u32);
    let mut shape = location.to_vec();
    shape[..2].copy_from_slice(&[0x48, 0]);
    let (mut pointers, mut cells) = (vec![0; 6], vec![0; counters.iter().sum::<u32>() as usize]);
    assert_eq!(crate::unfold(&shape, &counters, &mut pointers, &mut cells).number, 0, "{shape:x?}");
    (counters, pointers, cells)
}
