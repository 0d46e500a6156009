//! The update watch once more, in plain Rust: Safra's ring, the tree of
//! Dijkstra and Scholten, the text of the tree, the log program and the packing station.
//! It is written from document 01 ("the paper") and the change requests alone and serves as the
//! independent check of the proved implementation.
#![forbid(unsafe_code)]

pub mod bounds;
pub mod clauses;
mod decimal;
pub mod forms;
pub mod generate;
pub mod independence;
pub mod log;
pub mod misreadings;
pub mod own;
pub mod panel;
pub mod refusal;
pub mod report;
pub mod request;
pub mod ring;
pub mod sends;
pub mod sizes;
pub mod statements;
pub mod table;
pub mod takes;
pub mod tally;
pub mod text;
pub mod times;
pub mod tree;
pub mod walk;
