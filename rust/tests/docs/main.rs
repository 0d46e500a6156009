//! What the docs say of the repository is so: the names that they give are declared, where is said, the page of edits names every must-fail
//! edit, the files that a reader has to believe are all named and as long as is said, every statement is proved under its own name, every crate
//! stands on one floor and is timed, the refusals and the header's constants have the proved numbers, and README's words of the library, kinds and
//! answers are the header's, what is said of the comparisons is what they ask, and the soundness check of a ring is one walk over its nodes.

mod believed;
mod compared;
mod declared;
mod edits;
mod header;
mod items;
mod layout;
mod linking;
mod names;
mod places;
mod refusals;
mod repository;
mod statements;
mod walk;
