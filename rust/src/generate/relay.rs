//! A ring of the largest with one message, which goes on from node to node while the token
//! goes round. What is sent and received adds up to 1 in every round, so that the token may
//! go on; nodes of every byte of colors are black now and then.

use super::rng::Rng;
use super::writer::Writer;
use crate::request::{Request, ANNOUNCE, IDLE, SEND, TAKE};
use crate::ring::MAX_NODES;

pub struct Relay {
    writer: Writer,
    n: usize,
    /// The node to which the message is on its way, all nodes being passive.
    receiver: usize,
}

impl Relay {
    pub fn new(rng: &mut Rng) -> Self {
        let n = MAX_NODES - rng.below(2);
        let first = rng.below(n);
        let mut relay = Self {
            writer: Writer::ring(n, &[first], &[]),
            n,
            receiver: first,
        };
        relay.send(rng);
        relay
    }

    /// Rounds of the token until `lines` lines are written, and one in which the message is
    /// not taken. Then it is, and nothing is sent any more.
    pub fn run(mut self, rng: &mut Rng, lines: usize) -> Writer {
        while self.writer.lines() < lines {
            if self.receiver == 0 && rng.chance(50) {
                self.stay(rng);
            } else {
                let taken_after = rng.below(self.n + self.n / 2);
                self.round(rng, taken_after);
            }
        }
        self.round(rng, self.n);
        self.request(TAKE, self.receiver, 1);
        self.request(IDLE, self.receiver, 0);
        self.request(ANNOUNCE, 0, 0);
        self.writer
    }

    fn request(&mut self, kind: usize, i: usize, j: usize) {
        self.writer.request(Request::new(kind, i, j));
    }

    /// The receiver, which is active, sends the message on, to node 0 or to itself now and then.
    fn send(&mut self, rng: &mut Rng) {
        let sender = self.receiver;
        self.receiver = match rng.below(5) {
            0 if sender > 0 => 0,
            _ => rng.other_end(self.n, sender),
        };
        self.request(SEND, sender, self.receiver);
        self.request(IDLE, sender, 0);
    }

    /// Once round, the message being taken after some token moves, or not at all; then the
    /// announcement is asked for, too early.
    fn round(&mut self, rng: &mut Rng, taken_after: usize) {
        for moves in 0..self.n {
            if moves == taken_after {
                self.request(TAKE, self.receiver, 1);
                self.send(rng);
            }
            let moved = self.writer.token_move();
            self.writer
                .request(moved.expect("a sum of 1 at node 0, the other nodes passive"));
        }
        self.request(ANNOUNCE, 0, 0);
    }

    /// Node 0 takes the message and stays active until the token moves no more.
    fn stay(&mut self, rng: &mut Rng) {
        self.request(TAKE, 0, 1);
        self.writer.move_token();
        self.request(ANNOUNCE, 0, 0);
        self.send(rng);
    }
}
