//! Compares the proved functions, called through a static library, with the second implementation: starts; the steps of whole runs, which
//! are guided by their states; wild states; rings that are made to be sound, or not to be by little; the ring's driver; every value of each byte
//! that stands for a truth; the tree's text, written, read back and damaged; tables of eight updates, through the header's functions, some with updates
//! at and about their limits of sends, some two by two, agreeing on one update; panels, through the header's functions, from their first entry
//! over closes, refused closes and starts in between, and panels that are not sound by little; and walks the
//! states of EWD998 for N = 3 with the proved step, against document 001's table (the listing's own SendMsg: no message to oneself). Takes are of
//! every number of messages, by nodes to which none to more than a take may be of are on their way. A node sends to itself now and then, a lone one
//! always; trees that hold such messages are made to be sound, or not to be by little. What is lent to be written holds noise before each call, and a
//! refusal must leave every byte of it; what is lent to be read is compared after each call too.
//! It prints what was met, each figure with its bound, and fails if one is not within it.

mod answers;
mod flags;
mod independence;
mod lent_panel;
mod lent_table;
mod limits;
mod near_counts;
mod near_misses;
mod numbers;
mod own_trees;
mod panel_cases;
mod panel_damage;
mod panel_runs;
mod panels;
mod requests;
mod rings;
mod same;
mod same_panels;
mod sound_rings;
mod soundness;
mod tables;
mod texts;
mod trees;

use calls::lent::LentRing;
use calls::{lent, proved};
use second::report::Report;
use second::request::Request;
use second::ring::Ring;
use second::walk::walk;
use std::process::exit;

fn main() {
    let seed = std::env::args()
        .nth(1)
        .map_or(1, |s| s.parse().expect("a seed"));
    let mut report = Report::default();
    rings::compare(seed, &mut report);
    soundness::compare(seed, &mut report);
    trees::compare(seed, &mut report);
    tables::compare(seed, &mut report);
    independence::compare(seed, &mut report);
    panels::compare(seed, &mut report);
    flags::compare(seed, &mut report);
    texts::compare(seed, &mut report);
    walk(proved_step).report("the proved step", &mut report);
    if !report.print() {
        println!("FAILED: figures marked ! are not within their bounds");
        exit(1);
    }
}

pub fn fail(seed: u64, what: &str) -> ! {
    println!("DIFFERENT with seed {seed}: {what}");
    exit(1);
}

fn proved_step(ring: &Ring, request: Request) -> Option<Ring> {
    let mut next = LentRing::of(ring);
    let told = proved::step(&mut next, request);
    (told == 0).then(|| next.ring().expect("truths as bytes"))
}
