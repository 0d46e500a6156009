//! Rings with more messages on their way to one node than one take may be of.

use super::rng::Rng;
use super::writer::Writer;
use crate::request::{Request, IDLE, SEND, TAKE};
use crate::ring::TAKE_LIMIT;

/// Messages beyond the limit of one take, at most.
const BEYOND: usize = 200;
/// Token moves after a hundred sends.
const MOVES: usize = 5;

/// A sender and a receiver, and more messages than one take may be of.
pub fn delivery(rng: &mut Rng, n: usize) -> (usize, usize, usize) {
    let receiver = rng.below(n);
    let sender = rng.other_end(n, receiver);
    (sender, receiver, TAKE_LIMIT + 1 + rng.below(BEYOND))
}

/// Numbers of messages to take, one after the other, where `messages` are on their way: at the limit and about it, then what is left.
pub fn emptying(rng: &mut Rng, messages: usize) -> [usize; 8] {
    let rest = messages - TAKE_LIMIT;
    let part = 1 + rng.below(rest);
    let refused = rng.pick(&[messages, messages + 1, 99_999]);
    let above = TAKE_LIMIT + 1;
    [
        0,
        above,
        refused,
        TAKE_LIMIT,
        rest + 1,
        part,
        above,
        rest - part,
    ]
}

/// A ring of which one node empties its inbox.
pub fn full_inbox(rng: &mut Rng, n: usize) -> Writer {
    let (sender, receiver, messages) = delivery(rng, n);
    let black: Vec<usize> = (0..n).filter(|_| rng.chance(30)).collect();
    let mut writer = Writer::ring(n, &[sender], &black);
    for _ in 0..messages {
        writer.request(Request::new(SEND, sender, receiver));
        let moved = writer.token_move().filter(|moved| moved.kind != IDLE);
        if let Some(moved) = moved.filter(|_| rng.chance(MOVES)) {
            writer.request(moved);
        }
    }
    for messages in emptying(rng, messages) {
        writer.request(Request::new(TAKE, receiver, messages));
    }
    writer
}
