//! Sound rings in sorts: one of Safra's four holds alone, the run is closed, or a number is at the end of its range.

use second::generate::Rng;
use second::request::SEND_LIMIT;
use second::ring::{Ring, Token, MAX_NODES};

pub type Column = [u32; MAX_NODES];

/// Safra's four, by their places in `four`.
const GATHERED: Option<usize> = Some(0);
const POSITIVE: Option<usize> = Some(1);
const BLACK_NODE: Option<usize> = Some(2);
const BLACK_TOKEN: Option<usize> = Some(3);

/// Where the token is in rings of a sort.
#[derive(Clone, Copy)]
enum At {
    AnyNode,
    /// Any node but N - 1: there q is 0 and no node above, so that what is gathered is always right.
    BelowAnother,
    Zero,
}

/// A ring of so many nodes, the token at one of them.
type Make = fn(usize, usize, &mut Rng) -> Ring;

/// A sort of sound rings.
pub struct Sort {
    pub name: &'static str,
    at: At,
    /// Which of Safra's four holds alone, if that is asked.
    pub alone: Option<usize>,
    pub make: Make,
}

const fn sort(name: &'static str, at: At, alone: Option<usize>, make: Make) -> Sort {
    Sort {
        name,
        at,
        alone,
        make,
    }
}

impl Sort {
    /// Where the token is when node `pos` of `n` has its turn, if there are such rings then.
    pub fn place(&self, n: usize, pos: usize) -> Option<usize> {
        match self.at {
            At::AnyNode => Some(pos),
            At::BelowAnother => (pos + 1 < n).then_some(pos),
            At::Zero => Some(0),
        }
    }
}

pub const SORTS: [Sort; 9] = [
    sort("what is gathered alone", At::AnyNode, GATHERED, gathered),
    sort("a sum above 0 alone", At::BelowAnother, POSITIVE, positive),
    sort(
        "node 0 black alone",
        At::BelowAnother,
        BLACK_NODE,
        |n, pos, random| with_black(n, pos, 0, random),
    ),
    sort(
        "the token's node black alone",
        At::BelowAnother,
        BLACK_NODE,
        |n, pos, random| with_black(n, pos, pos, random),
    ),
    sort(
        "any node up to the token black alone",
        At::BelowAnother,
        BLACK_NODE,
        |n, pos, random| with_black(n, pos, random.below(pos + 1), random),
    ),
    sort(
        "a black token alone",
        At::BelowAnother,
        BLACK_TOKEN,
        with_black_token,
    ),
    sort("closed", At::Zero, GATHERED, closed),
    sort(
        "as many sends as may be",
        At::AnyNode,
        None,
        |n, pos, random| with_sends(&black_token(n, pos, random), SEND_LIMIT, random),
    ),
    sort(
        "q at an end of its range",
        At::AnyNode,
        None,
        |n, pos, random| with_q_beyond(&black_token(n, pos, random), 0, random.chance(50)),
    ),
];

/// So many of anything, over the nodes at random.
fn spread(total: u32, n: usize, random: &mut Rng) -> Column {
    let mut column = [0; MAX_NODES];
    let most = 1 + total as usize / (2 * n);
    let mut left = total;
    while left > 0 {
        let part = left.min(1 + random.below(most) as u32);
        column[random.below(n)] += part;
        left -= part;
    }
    column
}

/// Each node sent something, and so much of it is pending. The token is white, with q = 0. Nodes up to it are white, active or not; those
/// above it are passive, black or not.
fn counted(n: usize, pos: usize, sends: u32, pending: u32, random: &mut Rng) -> Ring {
    let flag = |i: usize| random.pick(&[0, if i <= pos { 1 } else { 2 }]);
    let flags: Vec<u8> = (0..n).map(flag).collect();
    let mut ring = Ring::start(n, &flags).expect("a start in range");
    ring.sent = spread(sends - n as u32, n, random);
    for sent in &mut ring.sent[..n] {
        *sent += 1;
    }
    ring.received = spread(sends - pending, n, random);
    ring.pending = spread(pending, n, random);
    ring.token = Token {
        pos,
        q: 0,
        black: false,
    };
    ring
}

fn few_sends(n: usize, random: &mut Rng) -> u32 {
    (n + random.below(8 * n)) as u32
}

/// Nothing is pending, so that the sum is 0 where q is what is gathered.
pub fn gathered(n: usize, pos: usize, random: &mut Rng) -> Ring {
    let mut ring = counted(n, pos, few_sends(n, random), 0, random);
    ring.token.q = ring.counters(pos + 1..n);
    ring
}

/// Counts of any sort with the token black and q = 0.
pub fn black_token(n: usize, pos: usize, random: &mut Rng) -> Ring {
    let sends = few_sends(n, random);
    let pending = random.below(sends as usize + 1) as u32;
    let mut ring = counted(n, pos, sends, pending, random);
    ring.token.black = true;
    ring
}

/// White, and not gathered; q plus the counters of the nodes up to the token is this sum.
pub fn unsettled(n: usize, pos: usize, sum: i64, random: &mut Rng) -> Ring {
    let sends = few_sends(n, random);
    let some = 1 + random.below(sends as usize) as u32;
    let pending = random.pick(&[0, 1, some]);
    let mut ring = counted(n, pos, sends, pending, random);
    set_sum(&mut ring, sum, random);
    ring
}

/// Sets q so that it gives this sum; where it is what is gathered, and else now and then, a node above the token is active.
pub fn set_sum(ring: &mut Ring, sum: i64, random: &mut Rng) {
    let (n, pos) = (ring.n, ring.token.pos);
    ring.token.q = sum - ring.counters(0..pos + 1);
    if ring.token.q == ring.counters(pos + 1..n) || random.chance(50) {
        let any = pos + 1 + random.below(n - 1 - pos);
        ring.active[random.pick(&[pos + 1, any, n - 1])] = true;
    }
}

/// 0 mostly, or below.
pub fn no_sum(random: &mut Rng) -> i64 {
    let below = -1 - random.below(1_000) as i64;
    random.pick(&[0, 0, -1, below])
}

fn positive(n: usize, pos: usize, random: &mut Rng) -> Ring {
    let sum = 1 + random.below(1_000) as i64;
    let sum = random.pick(&[1, 1, sum]);
    unsettled(n, pos, sum, random)
}

fn with_black(n: usize, pos: usize, i: usize, random: &mut Rng) -> Ring {
    let sum = no_sum(random);
    let mut ring = unsettled(n, pos, sum, random);
    ring.set_black(i, true);
    ring
}

fn with_black_token(n: usize, pos: usize, random: &mut Rng) -> Ring {
    let sum = no_sum(random);
    let mut ring = unsettled(n, pos, sum, random);
    ring.token.black = true;
    ring
}

pub fn closed(n: usize, pos: usize, random: &mut Rng) -> Ring {
    let mut ring = gathered(n, pos, random);
    ring.active[0] = false;
    ring.closed = true;
    ring
}

/// The ring with so many sends in all, those that are added being received, pending or both.
pub fn with_sends(ring: &Ring, sends: u32, random: &mut Rng) -> Ring {
    let mut ring = ring.clone();
    let added = sends - ring.sends() as u32;
    let some = random.below(added as usize) as u32;
    let pending = random.pick(&[0, some, added]);
    let [more_sent, more_received, more_pending] =
        [added, added - pending, pending].map(|total| spread(total, ring.n, random));
    for i in 0..ring.n {
        ring.sent[i] += more_sent[i];
        ring.received[i] += more_received[i];
        ring.pending[i] += more_pending[i];
    }
    ring
}

/// The ring with q so far beyond an end of its range.
pub fn with_q_beyond(ring: &Ring, beyond: i64, below: bool) -> Ring {
    let mut ring = ring.clone();
    let most = (ring.n - 1 - ring.token.pos) as i64 * i64::from(SEND_LIMIT) + beyond;
    ring.token.q = if below { -most } else { most };
    ring
}

/// Which of Safra's four hold.
pub fn four(ring: &Ring) -> [bool; 4] {
    [0, 1, 2, 3].map(|which| ring.safra(which))
}
