//! The proved library's calls, and what its tests draw at random and compare.

pub mod compare;
pub mod counts;
pub mod damage;
pub mod draw;
pub mod dropped;
pub mod edges;
pub mod index;
pub mod joined;
pub mod ranges;
pub mod rings;
pub mod searches;
pub mod small;
pub mod stream;
pub mod walks;

pub use currantplane::{fold, follow_ranges, make_move, make_walk, record, search, step, tell_ranges, translate, unfold};
pub use currantplane::{Configuration, Node, Ranged, Refusal, RANGES};
