//! The search for a location among those that are known, newest first.

use crate::records::RECORD;
use crate::translate::{places, LOCATIONS};

/// The highest number below the count whose record is equal, if there is one.
/// The count is cut to the places of a table of locations. A record that has
/// not 32 bytes is equal to none; what the bytes are does not matter.
pub fn search(table: &[u8], count: usize, record: &[u8]) -> Option<usize> {
    let count = count.min(places(table, LOCATIONS));
    newest(count, |number| &table[number * RECORD..][..RECORD] == record)
}

/// The highest number below the count that is right. Begins at the newest and
/// works back, no further than needed.
fn newest(count: usize, mut is_right: impl FnMut(usize) -> bool) -> Option<usize> {
    (0..count).rev().find(|&number| is_right(number))
}

#[cfg(test)]
mod tests {
    use super::*;

    /// Which numbers are looked at, in order, where these are right.
    fn looked_at(count: usize, right: &[usize]) -> (Option<usize>, Vec<usize>) {
        let mut looked = Vec::new();
        let found = newest(count, |number| {
            looked.push(number);
            right.contains(&number)
        });
        (found, looked)
    }

    #[test]
    fn begins_at_the_newest_and_works_back() {
        assert_eq!(looked_at(0, &[0]), (None, vec![]));
        assert_eq!(looked_at(1, &[0]), (Some(0), vec![0]));
        assert_eq!(looked_at(5, &[4]), (Some(4), vec![4]));
        assert_eq!(looked_at(5, &[0, 2, 3]), (Some(3), vec![4, 3]));
        assert_eq!(looked_at(5, &[0]), (Some(0), vec![4, 3, 2, 1, 0]));
        assert_eq!(looked_at(5, &[5, 6]), (None, vec![4, 3, 2, 1, 0]));
    }

    #[test]
    fn all_equal_records_give_the_newest() {
        let table = [0x4c; 3 * RECORD + 31];
        for (count, due) in [(0, None), (1, Some(0)), (2, Some(1)), (3, Some(2)), (4, Some(2)), (usize::MAX, Some(2))] {
            assert_eq!(search(&table, count, &table[..RECORD]), due);
        }
    }
}
