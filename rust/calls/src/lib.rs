//! The proved functions and what is lent to them, for the comparison and for the times.

pub mod lent;
pub mod proved;
