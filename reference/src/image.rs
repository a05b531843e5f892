//! Heap images: six pointer bytes and at most 240 cell bytes.

use crate::heap::{Heap, POINTERS};
use crate::records::{byte_value, value_byte, NULL, UNDEFINED, UNUSED};

/// The most cells of a heap image.
pub const IMAGE_CELLS: usize = 240;

/// Whether the lengths are those of a heap image.
pub fn lengths_fit(pointers: &[u8], cells: &[u8]) -> bool {
    pointers.len() == POINTERS && cells.len() <= IMAGE_CELLS
}

/// Reads a heap image, or refuses it with 13 or 14.
pub fn read_image(pointers: &[u8], cells: &[u8]) -> Result<Heap, u8> {
    if !lengths_fit(pointers, cells) {
        return Err(13);
    }
    let names_a_value = |byte: u8| match byte {
        NULL | UNDEFINED => true,
        number => matches!(cells.get(usize::from(number)), Some(&next) if next != UNUSED),
    };
    let mut heap = Heap::empty();
    for (pointer, &byte) in pointers.iter().enumerate() {
        if !names_a_value(byte) {
            return Err(13);
        }
        heap.pointers[pointer] = byte_value(byte);
    }
    for &byte in cells {
        if byte == UNUSED {
            heap.cells.push(None);
        } else if names_a_value(byte) {
            heap.cells.push(Some(byte_value(byte)));
        } else {
            return Err(13);
        }
    }
    if heap.leaks() {
        return Err(14);
    }
    Ok(heap)
}

/// Writes a heap that fits; the cells past it are marked as not in use.
pub fn write_image(heap: &Heap, pointers: &mut [u8], cells: &mut [u8]) {
    for (byte, &value) in pointers.iter_mut().zip(&heap.pointers) {
        *byte = value_byte(value);
    }
    for (number, byte) in cells.iter_mut().enumerate() {
        *byte = match heap.cells.get(number) {
            Some(&Some(next)) => value_byte(next),
            _ => UNUSED,
        };
    }
}

#[cfg(test)]
mod tests {
    use super::*;

    const NULLS: [u8; 6] = [NULL; 6];

    fn refusal(pointers: &[u8], cells: &[u8]) -> u8 {
        read_image(pointers, cells).err().unwrap_or(0)
    }

    #[test]
    fn lengths_come_first() {
        assert_eq!(refusal(&[], &[]), 13);
        assert_eq!(refusal(&[NULL; 5], &[]), 13);
        assert_eq!(refusal(&[NULL; 7], &[]), 13);
        assert_eq!(refusal(&NULLS, &[]), 0);
        assert_eq!(refusal(&NULLS, &[UNUSED; 240]), 0);
        assert_eq!(refusal(&NULLS, &[UNUSED; 241]), 13);
    }

    #[test]
    fn values_name_cells_in_use() {
        let at = |byte| [byte, NULL, NULL, NULL, NULL, NULL];
        assert_eq!(refusal(&at(0), &[NULL]), 0);
        assert_eq!(refusal(&at(1), &[NULL]), 13);
        assert_eq!(refusal(&at(0), &[UNUSED]), 13);
        assert_eq!(refusal(&at(UNUSED), &[NULL]), 13);
        assert_eq!(refusal(&at(240), &[UNUSED; 240]), 13);
        assert_eq!(refusal(&at(0), &[1]), 13);
        assert_eq!(refusal(&at(0), &[1, UNUSED]), 13);
        assert_eq!(refusal(&at(0), &[0xfc]), 13);
        assert_eq!(refusal(&at(0), &[1, UNDEFINED]), 0);
        // A value that names nothing comes before a cell that is lost.
        assert_eq!(refusal(&at(0), &[NULL, 7]), 13);
        assert_eq!(refusal(&at(0), &[NULL, 1]), 14);
    }

    #[test]
    fn images_are_written_back_whole() {
        let pointers = [2, NULL, UNDEFINED, 0, NULL, NULL];
        let cells = [2, UNUSED, 0, UNUSED];
        let heap = read_image(&pointers, &cells).unwrap();
        let (mut to_pointers, mut to_cells) = ([9; 6], [9; 4]);
        write_image(&heap, &mut to_pointers, &mut to_cells);
        assert_eq!((to_pointers, to_cells), (pointers, cells));
    }
}
