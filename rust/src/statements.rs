//! Which files of the crates' `specs/` hold statements; the others hold definitions.

pub const STATEMENT_FILES: [&str; 11] = [
    "Agreement",
    "Bare",
    "Cases",
    "Exact",
    "Examples",
    "Listing",
    "Story",
    "Theorems",
    "UpdateLog",
    "WholeLog",
    "WholeRun",
];
