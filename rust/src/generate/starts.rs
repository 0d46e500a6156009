//! First lines that are refused, cause by cause.

use super::faults::damaged;
use super::limits::{listed_start, REMAINDERS};
use super::rng::Rng;
use crate::log::LINE_BYTES;
use crate::{ring, tree};

/// Causes of a refused first line: a ring's and a tree's number of nodes, a ring's list,
/// a tree's root, what is no form.
pub const CAUSES: usize = 5;

/// A number above `last`; cut to 8 or 16 bits some are not above it.
pub fn above(rng: &mut Rng, last: usize) -> usize {
    let within = rng.below(last + 1);
    let cut = [1 << 8 | within, 1 << 16 | within];
    rng.pick(&[last + 1, last + 1, last + 2, cut[0], cut[1], cut[1], 99_999])
}

/// A log whose first line is refused, turn by turn in other ways.
pub fn refused_start(rng: &mut Rng, cause: usize, turn: usize) -> Vec<u8> {
    let line = match cause {
        0 => ring_count(rng, turn),
        1 => tree_count(rng, turn),
        2 => ring_list(rng, turn),
        3 => tree_root(rng),
        _ => return no_form(rng, turn),
    };
    format!("{line}\n{}", rng.pick(REMAINDERS)).into_bytes()
}

/// No node at all every third time.
fn count(rng: &mut Rng, turn: usize, limit: usize) -> usize {
    match turn % 3 {
        0 => 0,
        _ => above(rng, limit),
    }
}

fn ring_count(rng: &mut Rng, turn: usize) -> String {
    let n = count(rng, turn, ring::MAX_NODES);
    let lists = [
        "",
        " (active) (black)",
        " (active 0) (black 0 96)",
        " (active 99999) (black)",
    ];
    format!("(ring {n}{})", rng.pick(&lists))
}

fn tree_count(rng: &mut Rng, turn: usize) -> String {
    let n = count(rng, turn, tree::MAX_NODES);
    let root = rng.pick(&[0, 1, tree::MAX_NODES - 1, tree::MAX_NODES, n, 99_999]);
    format!("(tree {n} (root {root}))")
}

/// A list that names a node of N or more, and some below.
fn ring_list(rng: &mut Rng, turn: usize) -> String {
    let n = 1 + rng.below(ring::MAX_NODES);
    let below: String = (0..n)
        .filter(|_| rng.chance(20))
        .map(|i| format!(" {i}"))
        .collect();
    let beyond = above(rng, n - 1);
    if turn.is_multiple_of(2) {
        format!("(ring {n} (active{below} {beyond}) (black))")
    } else {
        format!("(ring {n} (active) (black{below} {beyond}))")
    }
}

fn tree_root(rng: &mut Rng) -> String {
    let n = 1 + rng.below(tree::MAX_NODES);
    let root = above(rng, n - 1);
    format!("(tree {n} (root {root}))")
}

/// No input, no byte 10, too many bytes, a list that does not ascend, or one change of a good line.
fn no_form(rng: &mut Rng, turn: usize) -> Vec<u8> {
    let good = rng.pick(&[
        "(ring 2)",
        "(ring 96)",
        "(ring 3 (active 0 2) (black 1))",
        "(tree 3 (root 2))",
        "(tree 16 (root 15))",
    ]);
    match turn % 4 {
        0 => Vec::new(),
        1 => good.as_bytes().to_vec(),
        2 => listed_start(LINE_BYTES + rng.pick(&[1, 1, 2, 40])),
        _ if rng.chance(50) => {
            let list = rng.pick(&["0 0", "1 0", "0 2 2", "0 3 2 4", "4 4", "9 9", "9 8"]);
            let word = rng.pick(&["(active {}) (black)", "(active) (black {})"]);
            format!("(ring 5 {})\n", word.replace("{}", list)).into_bytes()
        }
        _ => {
            let line = damaged(rng, format!("{good}\n").as_bytes());
            [&line[..], rng.pick(REMAINDERS).as_bytes()].concat()
        }
    }
}
