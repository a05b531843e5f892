//! The command-line tool over the proved library. What is translated, found, folded, unfolded, stepped and moved, and
//! which ranges a path leads to, is so by proved code. What stands here is not proved: reading text and printing,
//! choosing the automaton's edge beside a step of a run, finding a start for a path, which a proved walk then checks,
//! and saying of a refused shape, move or range what is wrong with it.

pub mod arguments;
pub mod automaton;
pub mod bench;
pub mod bounds;
pub mod chains;
pub mod commands;
pub mod drawing;
pub mod find;
pub mod graph;
pub mod help;
pub mod listing;
pub mod machine;
pub mod moves;
pub mod names;
pub mod nodes;
pub mod path;
pub mod ranges;
pub mod record;
pub mod refusal;
pub mod run;
pub mod show;
pub mod source;
pub mod style;
pub mod text;
pub mod walk;
pub mod witness;
