//! How low an update can go under the guards of its edge, by search.

use crate::records::{Guard, NO_GUARD, ONE};

/// Whether an update could give less than 1 from counters of 1 or more for
/// which both guards hold. The update is sound by itself, and so are the
/// guards.
///
/// Counters of 1 and 2 are all that is searched. Of any counters that would do,
/// those above 2 can be made 2: a guard holds of both or of neither, and the
/// sum does not grow. Only nodes that are guarded or added matter.
pub fn could_give_less_than_one(update: u16, guards: &[Guard; 2]) -> bool {
    let added = update & 0xfff;
    let guarded = guards.iter().filter(|guard| guard.kind != NO_GUARD).fold(0, |nodes, guard| nodes | 1 << guard.node);
    let constant = i32::from(update >> 12) - 1;
    Search { added, guards }.finds(added | guarded, constant)
}

struct Search<'a> {
    added: u16,
    guards: &'a [Guard; 2],
}

impl Search<'_> {
    /// Whether the nodes left over can have counters that keep the value, as
    /// far as it is summed up, below 1. Each counter only raises it.
    fn finds(&self, left: u16, value: i32) -> bool {
        if value >= 1 {
            return false;
        }
        if left == 0 {
            return true;
        }
        let node = left.trailing_zeros() as usize;
        let rest = left & (left - 1);
        let is_added = self.added >> node & 1 == 1;
        [1, 2].into_iter().filter(|&counter| self.allowed(node, counter)).any(|counter| {
            let more = if is_added { counter } else { 0 };
            self.finds(rest, value + more)
        })
    }

    fn allowed(&self, node: usize, counter: i32) -> bool {
        self.guards.iter().filter(|guard| guard.node == node).all(|guard| match guard.kind {
            NO_GUARD => true,
            ONE => counter == 1,
            _ => counter >= 2,
        })
    }
}

#[cfg(test)]
mod tests {
    use super::*;
    use crate::records::ABSENT;

    /// By trying all counters from 1 to 4 of three nodes.
    fn tried(update: u16, guards: &[Guard; 2]) -> bool {
        let holds = |guard: &Guard, counters: &[i32; 3]| match guard.kind {
            0 => true,
            1 => counters[guard.node] == 1,
            _ => counters[guard.node] >= 2,
        };
        (0..64).any(|number: i32| {
            let counters = [number % 4 + 1, number / 4 % 4 + 1, number / 16 + 1];
            let sum: i32 = (0..3).filter(|node| update >> node & 1 == 1).map(|node| counters[node]).sum();
            guards.iter().all(|guard| holds(guard, &counters)) && sum + i32::from(update >> 12) - 1 < 1
        })
    }

    #[test]
    fn every_update_of_three_nodes_under_all_guards() {
        let mut kinds = vec![ABSENT];
        kinds.extend((0..3).flat_map(|node| [1, 2].map(|kind| Guard { kind, node })));
        let mut below = 0;
        for first in &kinds {
            for second in &kinds {
                for update in (0..3).flat_map(|constant| (0..8).map(move |added| constant << 12 | added)) {
                    let guards = [*first, *second];
                    let due = tried(update, &guards);
                    assert_eq!(could_give_less_than_one(update, &guards), due, "{update:04x} {guards:?}");
                    below += u32::from(due);
                }
            }
        }
        // Of the 24 updates 5 are low: none added with -1 or 0, and one with
        // -1. A guard >= 2 takes one away, and guards that exclude each other
        // take all.
        assert_eq!(below, 16 * 5 + 18 * 4 + 3 * 4 + 6 * 3);
    }

    #[test]
    fn twelve_counters() {
        for constant in 0..3 {
            assert!(!could_give_less_than_one(constant << 12 | 0xfff, &[ABSENT; 2]));
        }
        let last = |kind| Guard { kind, node: 11 };
        assert!(could_give_less_than_one(0x0800, &[ABSENT; 2]));
        assert!(could_give_less_than_one(0x0800, &[ABSENT, last(1)]));
        assert!(!could_give_less_than_one(0x0800, &[ABSENT, last(2)]));
        assert!(!could_give_less_than_one(0x0800, &[last(2), ABSENT]));
        // No counter is 1 and 2 or more, so none gives anything.
        assert!(!could_give_less_than_one(0x0000, &[last(1), last(2)]));
    }
}
