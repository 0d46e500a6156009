//! Logs at and about the limits of the paper.

use super::rng::Rng;
use super::writer::Writer;
use super::LARGE;
use crate::log::{LINE_BYTES, LINE_LIMIT};
use crate::ring;

/// First lines at and about the limits of the paper.
const FIRST_LINES: &[&str] = &[
    "(ring 1)",
    "(ring 96)",
    "(ring 97)",
    "(ring 0)",
    "(ring 99999)",
    "(ring 100000)",
    "(ring 00)",
    "(ring 02)",
    "(ring -1)",
    "(ring +2)",
    "(ring)",
    "(ring )",
    "(ring 2 )",
    "(ring 2",
    "ring 2)",
    "(ring 2))",
    "((ring 2)",
    "(ring 2 (active) (black))",
    "(ring 2 (active 0 1) (black 0 1))",
    "(ring 2 (active))",
    "(ring 2 (black))",
    "(ring 2 (black) (active))",
    "(ring 2 (active ) (black))",
    "(ring 2 (active)(black))",
    "(ring 2 (active)  (black))",
    "(ring 2 (active 0  1) (black))",
    "(ring 2 (active) (black) )",
    "(ring 2 (active) (black) (active))",
    "(ring 2 (active 1 0) (black))",
    "(ring 2 (active 0 0) (black))",
    "(ring 2 (active) (black 1 0))",
    "(ring 2 (active) (black 1 1))",
    "(ring 2 (active 2) (black))",
    "(ring 2 (active) (black 5))",
    "(ring 2 (active 5 1) (black))",
    "(ring 2 (active 5) (black 1 0))",
    "(ring 2 (active 5) (black 00))",
    "(ring 96 (active 95) (black 95))",
    "(ring 96 (active 96) (black))",
    "(ring 97 (active 99) (black))",
    "(ring 97 (active 3 2) (black))",
    "(ring 0 (active 0) (black 0))",
    "(ring 3 (active 99999) (black))",
    "(ring 3 (active 100000) (black))",
    "(ring 3 (active 01) (black))",
    "(ring 3 (Active) (black))",
    "(tree 1 (root 0))",
    "(tree 16 (root 0))",
    "(tree 16 (root 15))",
    "(tree 16 (root 16))",
    "(tree 17 (root 0))",
    "(tree 17 (root 17))",
    "(tree 0 (root 0))",
    "(tree 96 (root 0))",
    "(tree 99999 (root 99999))",
    "(tree 100000 (root 0))",
    "(tree 3 (root 100000))",
    "(tree 3 (root 3))",
    "(tree 3 (root 00))",
    "(tree 03 (root 0))",
    "(tree 3)",
    "(tree 3 (root))",
    "(tree 3 (root 0 1))",
    "(tree 3 root 0)",
    "(tree 3 (root 0)",
    "(tree 3 (root 0) )",
    "(tree 3 (active) (black))",
    "(ring 3 (root 0))",
    "(TREE 3 (root 0))",
    "(Ring 2)",
    " (ring 2)",
    "(ring 2) ",
    "(ring  2)",
    "(ring\t2)",
    "(ring 2)\r",
    "(ring 2)\0",
    "\0(ring 2)",
    "(ring 2\0)",
    "(send 0 1)",
    "(announce)",
    "()",
    "",
    "\r",
    "\0",
    "\u{feff}(ring 2)",
];

/// What may follow a first line, its byte 10 among it or missing.
pub const REMAINDERS: &[&str] = &[
    "\n(probe)\n(pass 1)\n(announce)\n(probe)\n(idle 99999)\n(send 7 7)\n",
    "\n(idle 0)\n(announce)\n(send 0 1)\n(ack 0)\n(tree 3 (root 0))\n(ring 2)",
    "\n",
    "",
    "\n\n",
    "\n\n\n(announce)",
    "\r\n(probe)\r\n",
    "\n(send 0 1)\n(send 95 0)\n(send 96 0)\n(send 0 96)\n(idle 15)\n(idle 16)\n(idle 95)\n",
    "\n(ring 2)\n(probe)\n(tree 2 (root 0))\n(announce)\n",
];

/// Logs that are whole at a limit.
fn whole_limits() -> Vec<Vec<u8>> {
    let all: Vec<usize> = (0..ring::MAX_NODES).collect();
    let longest_start = Writer::ring(ring::MAX_NODES, &all, &all).finish();
    vec![
        b"".to_vec(),
        b"\n".to_vec(),
        b"(".to_vec(),
        b"(ring 2)".to_vec(),
        b"(ring 2)\n".to_vec(),
        vec![b'x'; 100_000],
        vec![b'\n'; 3_000],
        vec![0; 2_000],
        longest_start.clone(),
        [&longest_start[..], b"(idle 95)\n(probe)\n(pass 95)\n"].concat(),
        longest_start[..longest_start.len() - 1].to_vec(),
        listed_start(LINE_BYTES - 1),
        listed_start(LINE_BYTES),
        listed_start(LINE_BYTES + 1),
        listed_start(LINE_BYTES + 2),
        listed_start(2 * LINE_BYTES),
        [&listed_start(LINE_BYTES)[..], b"(probe)\n"].concat(),
        [b"(ring 2)\n", &[b'('; 400_000][..]].concat(),
        [b"(ring 2)\n", &[b' '; 70_000][..], b"\n(probe)\n"].concat(),
    ]
}

/// A well formed ring line of `length` bytes with its byte 10: it names nodes of
/// N or more, so it is refused with 6, or with 10 if it is too long.
pub fn listed_start(length: usize) -> Vec<u8> {
    listed("(ring 96 (active", ") (black))\n", length)
}

/// Ascending entries between `head` and `tail`, so that the line has `length` bytes.
pub fn listed(head: &str, tail: &str, length: usize) -> Vec<u8> {
    let mut room = length - head.len() - tail.len();
    let mut line = head.to_string();
    // Entries of one digit take 2 bytes, of two digits 3, of five digits 6.
    let (twos, threes) = [(0, 0), (2, 1), (1, 0), (0, 1), (2, 0), (1, 1)][room % 6];
    for entry in (0..twos).chain((0..threes).map(|k| 10 + k)) {
        line += &format!(" {entry}");
    }
    room -= 2 * twos + 3 * threes;
    for k in 0..room / 6 {
        line += &format!(" {}", 10_000 + k);
    }
    (line + tail).into_bytes()
}

/// The limit of an index; the indexes up to the count of limits give all of them.
pub fn limit(rng: &mut Rng, index: usize) -> Vec<u8> {
    let wholes = whole_limits();
    let index = index % (FIRST_LINES.len() + wholes.len());
    match FIRST_LINES.get(index) {
        Some(first) => format!("{first}{}", rng.pick(REMAINDERS)).into_bytes(),
        None => wholes[index - FIRST_LINES.len()].clone(),
    }
}

/// Lines past the greatest number of lines.
pub const PAST: usize = 1_000;

/// A ring's log and a tree's that go on past the greatest number of lines: those are all
/// read and no more. The last of them and the first past it are allowed requests.
pub fn past_line_limit() -> [Vec<u8>; 2] {
    [Writer::ring(5, &[0, 2], &[1]), Writer::tree(5, 3)].map(|mut writer| {
        let rng = &mut Rng::new(5);
        writer.guided(rng, LINE_LIMIT as usize - 1, LARGE, false);
        for _ in 0..=PAST {
            let allowed = writer.model().allowed(rng, false);
            writer.request(allowed.expect("a run that is not terminated"));
        }
        writer.finish()
    })
}
