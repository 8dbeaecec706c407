//! An independent implementation of document 01 ("The slot gate of the plugin
//! runtime") with the changes of document 02, written from the documents alone, and
//! what compares it with the plain queue of demand 3 and the rule of the slots, with
//! the program `gaterun` and with the proved calls; and the numbered gate, beside it.
//! It also makes the drawings of the crates and of a look, from the repository's files.

pub mod bench;
pub mod calls;
pub mod check;
pub mod drawings;
pub mod examples;
pub mod fast;
pub mod faults;
pub mod forms;
pub mod gate;
pub mod lines;
pub mod numbered;
pub mod pairs;
pub mod program;
pub mod proved;
pub mod proved_host;
pub mod queue;
pub mod random;
pub mod replays;
pub mod schedule;
pub mod shrink;
pub mod slot_rule;
pub mod transcript;
pub mod turns;
