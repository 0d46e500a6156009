//! First lines of updates: at and about the limits, and refused, cause by cause.

use super::faults::{damaged, wrapped};
use super::rng::Rng;
use super::starts::above;
use super::updates::{listed_update, unknown};
use super::writer::{random_ring_line, ring_line, short_ring_line};
use crate::log::LINE_BYTES;
use crate::ring::MAX_NODES;
use crate::table::UPDATES;

const FIRST_LINES: [&str; 36] = [
    "(update 0 (ring 1))",
    "(update 7 (ring 96))",
    "(update 8 (ring 96))",
    "(update 99999 (ring 2))",
    "(update 100000 (ring 2))",
    "(update 07 (ring 2))",
    "(update 00 (ring 2))",
    "(update 8 (ring 97))",
    "(update 8 (ring 2 (active 2) (black)))",
    "(update 8 (ring 97 (active 1 0) (black)))",
    "(update 8 (probe))",
    "(update 7 (ring 97))",
    "(update 7 (ring 0))",
    "(update 7 (ring 99999))",
    "(update 7 (ring 100000))",
    "(update 7 (ring 97 (active 97) (black)))",
    "(update 7 (ring 96 (active 96) (black)))",
    "(update 7 (ring 96 (active) (black 96)))",
    "(update 7 (ring 96 (active 95) (black 95)))",
    "(update 7 (ring 2 (active) (black)))",
    "(update 7 (ring 2 (active 1 0) (black)))",
    "(update 7 (ring 2 (active 0 0) (black)))",
    "(update 7 (ring 2 (active)))",
    "(update 7 (ring 2)",
    "(update 7 (ring 2)))",
    "(update 7 (ring 2) )",
    "(update 7  (ring 2))",
    "(update 7(ring 2))",
    "(update 7)",
    "(update (ring 2))",
    "(update 7 (update 7 (ring 2)))",
    "(update 7 (tree 3 (root 0)))",
    "(update 7 (announce))",
    "(Update 7 (ring 2))",
    "(update 7 (ring 2))\r",
    "update 7 (ring 2)",
];

/// What may follow a first line, its byte 10 among it or missing.
const REMAINDERS: [&str; 7] = [
    "\n(update 7 (probe))\n(update 7 (pass 1))\n(update 7 (announce))\n(update 0 (probe))\n(update 8 (probe))\n",
    "\n(update 1 (ring 2))\n(update 1 (ring 96))\n(update 1 (ring 1))\n(update 1 (probe))\n(update 0 (idle 99999))",
    "\n(ring 2)\n(probe)\n(tree 2 (root 0))\n(update 0 (tree 2 (root 0)))\n",
    "\n",
    "",
    "\n\n(update 7 (ring 96))\n",
    "\r\n(update 7 (probe))\r\n",
];

/// Logs that are whole at a limit.
fn whole_limits() -> Vec<Vec<u8>> {
    let all: Vec<usize> = (0..MAX_NODES).collect();
    let longest = wrapped(7, &ring_line(MAX_NODES, &all, &all));
    let first = wrapped(0, b"(ring 96)\n");
    vec![
        longest.clone(),
        [&longest[..], b"(update 7 (idle 95))\n(update 7 (probe))\n"].concat(),
        longest[..longest.len() - 1].to_vec(),
        listed_update(7, MAX_NODES, LINE_BYTES),
        listed_update(7, MAX_NODES, LINE_BYTES + 1),
        [&first[..], &listed_update(7, MAX_NODES, LINE_BYTES)].concat(),
        [&first[..], &listed_update(7, MAX_NODES, LINE_BYTES + 1)].concat(),
        [
            &first[..],
            &listed_update(7, MAX_NODES, 2 * LINE_BYTES),
            &longest,
        ]
        .concat(),
    ]
}

/// The limit of an index; the indexes up to the count of limits give all of them.
pub fn update_limit(rng: &mut Rng, index: usize) -> Vec<u8> {
    let wholes = whole_limits();
    let index = index % (FIRST_LINES.len() + wholes.len());
    match FIRST_LINES.get(index) {
        Some(first) => format!("{first}{}", rng.pick(&REMAINDERS)).into_bytes(),
        None => wholes[index - FIRST_LINES.len()].clone(),
    }
}

/// Causes of a refused first line of an update: its number, N, a node of a list, a step, what is no form.
pub const UPDATE_CAUSES: usize = 5;

pub fn refused_update(rng: &mut Rng, cause: usize, turn: usize) -> Vec<u8> {
    let (update, n) = (rng.below(UPDATES), 1 + rng.below(MAX_NODES));
    let no_count = match turn % 3 {
        0 => 0,
        _ => above(rng, MAX_NODES),
    };
    let beyond = above(rng, n - 1);
    let line = match cause {
        0 => {
            let n = rng.pick(&[n, no_count]);
            wrapped(unknown(rng), &short_ring_line(rng, n))
        }
        1 if rng.chance(50) => wrapped(update, &short_ring_line(rng, no_count)),
        1 => wrapped(update, &ring_line(no_count, &[], &[96])),
        2 if turn.is_multiple_of(2) => wrapped(update, &ring_line(n, &[beyond], &[])),
        2 => wrapped(update, &ring_line(n, &[], &[0, beyond])),
        3 => wrapped(
            update,
            rng.pick(&[b"(probe)\n", b"(send 0 1)\n", b"(idle 0)\n"]),
        ),
        _ => {
            let good = random_ring_line(rng, n);
            damaged(rng, &wrapped(update, &good))
        }
    };
    let rest = rng.pick(&REMAINDERS);
    [&line[..], rest.trim_start().as_bytes()].concat()
}
