//! Heaps drawn as lists.

mod common;

use common::Draw;
use tool::drawing::heap_lines;

fn drawn(pointers: &[u8], cells: &[u8]) -> Vec<String> {
    heap_lines(pointers, cells, &[]).iter().map(|pieces| pieces.join(" ")).collect()
}

/// Pointers and cells, read back from lines in which no row is shortened.
fn read_back(lines: &[String], count: usize) -> (Vec<u8>, Vec<u8>) {
    let value = |word: &str| match word {
        "null" => 0xfe,
        "undefined" => 0xff,
        cell => cell.parse().unwrap(),
    };
    let (mut pointers, mut cells) = (vec![0xfd; 6], vec![0xfd; count]);
    for list in lines.iter().flat_map(|l| l.split("   ")) {
        let parts: Vec<&str> = list.split(" -> ").collect();
        parts[0].split(", ").for_each(|p| pointers[p[1..].parse::<usize>().unwrap()] = value(parts[1]));
        parts[1..].windows(2).for_each(|w| cells[value(w[0]) as usize] = value(w[1]));
    }
    (pointers, cells)
}

#[test]
fn small_heaps_are_drawn_whole() {
    let mut d = Draw::new(8);
    for _ in 0..20_000 {
        let (pointers, cells) = d.image(6);
        let lines = drawn(&pointers, &cells);
        assert_eq!(read_back(&lines, cells.len()), (pointers, cells), "{lines:?}");
    }
}

#[test]
fn long_rows_are_shortened_between_held_cells() {
    let row = |n: u8| (1..n).chain([0xfe]).collect::<Vec<u8>>();
    let nulls = [0xfe; 5];
    assert_eq!(drawn(&[&[0], &nulls[..]].concat(), &row(5))[0], "p0 -> 0 -> 1 -> 2 -> 3 -> 4 -> null");
    assert_eq!(drawn(&[&[0], &nulls[..]].concat(), &row(6))[0], "p0 -> 0 -> 1 -> .. 3 more .. -> 5 -> null");
    // cell 20 and p2 lead into the row
    let joined = [row(20), vec![10]].concat();
    let lines = drawn(&[0, 20, 17, 0xfe, 0xff, 0xfe], &joined);
    let first = "p0 -> 0 -> 1 -> .. 7 more .. -> 9 -> 10 -> 11 -> .. 4 more .. -> 16 -> 17 -> 18 -> 19 -> null";
    assert_eq!(lines, [first, "p1 -> 20 -> 10", "p2 -> 17", "p3, p5 -> null   p4 -> undefined"]);
    // a list that runs into a ring
    let mut ring = row(20);
    ring[19] = 10;
    let first = "p0 -> 0 -> 1 -> .. 7 more .. -> 9 -> 10 -> 11 -> .. 7 more .. -> 19 -> 10";
    assert_eq!(drawn(&[&[0], &nulls[..]].concat(), &ring)[0], first);
}
