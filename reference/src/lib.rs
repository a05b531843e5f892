//! A second translator from list routines to counter automata, written to be
//! compared with another one.
//!
//! It never works on shapes by rule. For each location it unfolds the shape
//! with small counters into a heap, runs the plain machine on that heap,
//! folds the result, and infers the edges from several such probes.
//!
//! The calls are [`translate`], [`fold`], [`unfold`], [`step`],
//! [`record_part`], [`move_along`], [`walk`], [`ranges`] and [`search`]. None of
//! them panics, whatever the bytes, lengths and numbers are; each but the last,
//! which refuses nothing, refuses by number and place and, where a shape is
//! refused for one of its nodes, by the first such node. [`broken_clauses`] tells
//! why tables break the layout, and [`ranges_by_search`] is [`ranges`] once more,
//! start by start.

mod automaton;
mod calls;
mod clause;
pub mod command;
mod damage;
mod fold;
mod heap;
mod help;
mod image;
mod input;
mod layout;
mod lowest;
mod machine;
mod part;
mod probe;
mod random;
mod ranges;
pub mod ranges_draw;
mod ranges_search;
mod records;
mod refusal;
mod routines;
mod search;
pub mod search_draw;
pub mod selftest;
mod statement;
mod text;
mod translate;
mod unfold;
mod walk;
pub mod walk_damage;

pub use calls::{fold, step, unfold, Folded, Stepped};
pub use clause::Clause;
pub use layout::{broken_clause, broken_clauses};
pub use part::record_part;
pub use ranges::{ranges, Ranged};
pub use ranges_search::ranges_by_search;
pub use refusal::{Node, Refusal};
pub use search::search;
pub use translate::{translate, Translated};
pub use walk::{configuration_fits, move_along, walk, Configuration, Walked};
