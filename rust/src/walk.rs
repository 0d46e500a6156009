//! A walk over all states of EWD998 for N = 3, breadth first, under the
//! StateConstraint of document 001, counting as TLC counts:
//!
//! - every initial state and every successor is one state generated, whether
//!   it was met before or not, and whether the constraint holds of it or not;
//! - a state is distinct when first met, and only if the constraint holds of it;
//!   the others are dropped and not explored;
//! - the initial states are level 1, and the diameter is the deepest level;
//! - InitiateProbe gives one successor for each true disjunct of its condition.
//!
//! No other way of counting agrees with the published table.
//!
//! SendMsg is the listing's own: no message to oneself. Since request Q-4 the ring allows one; the published figures are of the
//! listing as it is, so none is asked for here.
//!
//! RecvMsg is a take of one message. In every state a take of more of them is as many of these in a row: request Q-2.

use crate::report::Report;
use crate::request::{Request, ANNOUNCE, IDLE, PASS, PROBE, SEND, TAKE};
use crate::ring::Ring;
use std::collections::HashSet;
use std::hash::{BuildHasherDefault, Hasher};

const N: usize = 3;

/// The three figures of document 001's table.
pub struct Figures {
    pub diameter: usize,
    pub distinct: usize,
    pub generated: usize,
}

/// The table publishes them cut to one decimal: 60, 1.3 million and 10.1 million.
pub const FULL: Figures = Figures {
    diameter: 60,
    distinct: 1_384_582,
    generated: 10_150_343,
};

impl Figures {
    /// Each has to be the published one in full; `step` names what was walked with.
    pub fn report(&self, step: &str, report: &mut Report) {
        let figures = [
            ("diameter", self.diameter, FULL.diameter),
            ("distinct states", self.distinct, FULL.distinct),
            ("generated states", self.generated, FULL.generated),
        ];
        for (name, found, asked) in figures {
            let name = format!("EWD998 as listed, no message to oneself, N = 3, by {step}: {name}");
            report.exactly(name, found, asked);
        }
    }
}

/// Walks all states with the given step, which answers the next state or none if it refuses.
pub fn walk(mut step: impl FnMut(&Ring, Request) -> Option<Ring>) -> Figures {
    let requests = requests();
    let mut seen: HashSet<u64, BuildHasherDefault<Mix>> = HashSet::default();
    let mut level = initial_states();
    let mut generated = level.len();
    let mut diameter = 0;
    seen.extend(&level);
    while !level.is_empty() {
        diameter += 1;
        let mut next_level = Vec::new();
        for state in level {
            let ring = unpack(state);
            check_announce(&ring, step(&ring, Request::new(ANNOUNCE, 0, 0)).is_some());
            check_takes(&ring, &mut step);
            for &request in &requests {
                let Some(next) = step(&ring, request) else {
                    continue;
                };
                generated += times_generated(&ring, request);
                if in_model(&next) {
                    let next = pack(&next);
                    if seen.insert(next) {
                        next_level.push(next);
                    }
                }
            }
        }
        level = next_level;
    }
    Figures {
        diameter,
        distinct: seen.len(),
        generated,
    }
}

/// Every request for an action of EWD998's Next as it is listed, and some that never are one
/// and must be refused: a take of no message and a pass by node 0.
fn requests() -> Vec<Request> {
    let mut requests = vec![Request::new(PROBE, 0, 0)];
    for i in 0..N {
        for (kind, j) in [(TAKE, 0), (TAKE, 1), (IDLE, 0), (PASS, 0)] {
            requests.push(Request::new(kind, i, j));
        }
        for j in (0..N).filter(|&j| j != i) {
            requests.push(Request::new(SEND, i, j));
        }
    }
    requests
}

/// Init: every choice of active nodes and of black nodes.
fn initial_states() -> Vec<u64> {
    let mut states = Vec::new();
    for choice in 0..4_u32.pow(N as u32) {
        let flags: Vec<u8> = (0..N).map(|i| (choice >> (2 * i) & 3) as u8).collect();
        let ring = Ring::start(N, &flags).expect("a start of three nodes");
        states.push(pack(&ring));
    }
    states
}

/// StateConstraint.
fn in_model(ring: &Ring) -> bool {
    (0..N).all(|i| ring.counter(i) <= 3 && ring.pending[i] <= 3) && ring.token.q <= 9
}

/// How many successors TLC makes of an accepted request.
fn times_generated(ring: &Ring, request: Request) -> usize {
    if request.kind != PROBE {
        return 1;
    }
    let disjuncts = [
        ring.token.black,
        ring.is_black(0),
        ring.counter(0) + ring.token.q > 0,
    ];
    let times = disjuncts.iter().filter(|&&holds| holds).count();
    assert!(times > 0, "a probe without any of its reasons: {ring:?}");
    times
}

/// EWD998's terminationDetected decides the announcement, and implies Termination.
fn check_announce(ring: &Ring, accepted: bool) {
    let token = ring.token;
    let detected = token.pos == 0
        && !token.black
        && token.q + ring.counter(0) == 0
        && !ring.is_black(0)
        && !ring.active[0]
        && ring.pending[0] == 0;
    let terminated = (0..N).all(|i| !ring.active[i] && ring.pending[i] == 0);
    assert_eq!(accepted, detected, "announcement: {ring:?}");
    assert!(!detected || terminated, "TerminationDetection: {ring:?}");
}

/// Takes of two messages or more, one more than are on their way among them: each is as many takes of one in a row.
fn check_takes(ring: &Ring, step: &mut impl FnMut(&Ring, Request) -> Option<Ring>) {
    for i in 0..N {
        let mut singly = Some(ring.clone());
        for messages in 1..=ring.pending[i] as usize + 1 {
            singly = singly.and_then(|ring| step(&ring, Request::new(TAKE, i, 1)));
            if messages > 1 {
                let at_once = step(ring, Request::new(TAKE, i, messages));
                assert_eq!(at_once, singly, "take of {messages} by {i}: {ring:?}");
            }
        }
    }
}

/// A state of the model in 36 bits: for each node active, color, pending (2 bits)
/// and counter (5 bits, from -16); then the token's position, color and q (6 bits, from -32).
fn pack(ring: &Ring) -> u64 {
    let mut bits = Bits(0);
    for i in 0..N {
        bits.push(u64::from(ring.active[i]), 1);
        bits.push(u64::from(ring.is_black(i)), 1);
        bits.push(u64::from(ring.pending[i]), 2);
        bits.push(shifted(ring.counter(i), 16), 5);
    }
    bits.push(ring.token.pos as u64, 2);
    bits.push(u64::from(ring.token.black), 1);
    bits.push(shifted(ring.token.q, 32), 6);
    bits.0
}

/// The state as a ring. EWD998 knows only the difference of messages sent and
/// received: the ring gets the least numbers that have it.
fn unpack(state: u64) -> Ring {
    let mut bits = Bits(state);
    let q = bits.pop(6) as i64 - 32;
    let black = bits.pop(1) == 1;
    let pos = bits.pop(2) as usize;
    let mut ring = Ring::start(N, &[0; N]).expect("a start of three nodes");
    for i in (0..N).rev() {
        let counter = bits.pop(5) as i64 - 16;
        let amount = counter.unsigned_abs() as u32;
        let column = if counter > 0 {
            &mut ring.sent
        } else {
            &mut ring.received
        };
        column[i] = amount;
        ring.pending[i] = bits.pop(2) as u32;
        ring.color[0] |= (bits.pop(1) as u8) << i;
        ring.active[i] = bits.pop(1) == 1;
    }
    ring.token.pos = pos;
    ring.token.q = q;
    ring.token.black = black;
    ring
}

/// A signed number moved to the naturals.
fn shifted(value: i64, by: i64) -> u64 {
    u64::try_from(value + by).expect("a number within the packing")
}

/// Numbers of few bits, stacked in one word.
struct Bits(u64);

impl Bits {
    fn push(&mut self, value: u64, width: u32) {
        assert!(value >> width == 0, "a number outside the packing");
        self.0 = self.0 << width | value;
    }

    fn pop(&mut self, width: u32) -> u64 {
        let value = self.0 & ((1 << width) - 1);
        self.0 >>= width;
        value
    }
}

/// A hasher for one packed state.
#[derive(Default)]
struct Mix(u64);

impl Hasher for Mix {
    fn write(&mut self, bytes: &[u8]) {
        for &byte in bytes {
            self.write_u64(u64::from(byte));
        }
    }

    fn write_u64(&mut self, value: u64) {
        let product = (self.0 ^ value).wrapping_mul(0x9e37_79b9_7f4a_7c15);
        self.0 = product ^ (product >> 32);
    }

    fn finish(&self) -> u64 {
        self.0
    }
}
