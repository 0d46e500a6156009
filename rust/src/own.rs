//! Messages that a node sends to itself: request Q-4.

use crate::bounds::OwnAsked;
use crate::refusal::Refusal;
use crate::report::Report;
use crate::request::{Request, ACK, ANNOUNCE, PROBE, SEND, TAKE};
use crate::ring::Ring;
use crate::tree::Tree;

/// Accepted steps of one node alone, whose messages are all its own.
#[derive(Default)]
struct Alone {
    sends: usize,
    takes: usize,
    /// Probes of a ring while a message is on its way, acknowledgements of a tree.
    fourth: usize,
    /// Announcements after a send.
    announced: usize,
}

#[derive(Default)]
pub struct Own {
    sent: usize,
    /// Sends refused with 8, and with 9.
    passive: usize,
    limited: usize,
    /// Takes on a tree, which acknowledge to the taker.
    taken: usize,
    alone: Alone,
}

impl Own {
    /// Counts the answer to a request to an open ring.
    pub fn count_ring(&mut self, ring: &Ring, request: Request, answer: usize) {
        self.count_send(request, answer);
        if ring.n == 1 && answer == 0 {
            let probed = request.kind == PROBE && ring.in_transit() > 0;
            self.count_alone(request.kind, probed, ring.sends() > 0);
        }
    }

    /// Counts the answer to a request to an open tree.
    pub fn count_tree(&mut self, tree: &Tree, request: Request, answer: usize) {
        self.count_send(request, answer);
        if (request.kind, request.i, answer) == (TAKE, request.j, 0) {
            let mut next = tree.clone();
            assert_eq!(next.step(request), Ok(()));
            assert_eq!(next.acks[request.i], tree.acks[request.i] + 1);
            assert_eq!(next.engager, tree.engager);
            self.taken += 1;
        }
        if tree.n == 1 && answer == 0 {
            self.count_alone(request.kind, request.kind == ACK, tree.sends > 0);
        }
    }

    fn count_send(&mut self, request: Request, answer: usize) {
        if (request.kind, request.i) != (SEND, request.j) {
            return;
        }
        let is = |refusal: Refusal| usize::from(answer == refusal.number() as usize);
        self.sent += usize::from(answer == 0);
        self.passive += is(Refusal::RuleFails);
        self.limited += is(Refusal::SendLimit);
    }

    fn count_alone(&mut self, kind: usize, fourth: bool, has_sent: bool) {
        self.alone.sends += usize::from(kind == SEND);
        self.alone.takes += usize::from(kind == TAKE);
        self.alone.fourth += usize::from(fourth);
        self.alone.announced += usize::from(kind == ANNOUNCE && has_sent);
    }

    pub fn report(&self, of: &str, asked: &OwnAsked, report: &mut Report) {
        let alone = &self.alone;
        let fourth = match asked.taken {
            None => " of 1: probe accepted, a message being on its way",
            Some(_) => " of 1: ack accepted",
        };
        let figures = [
            (": send to oneself accepted", self.sent, Some(asked.sent)),
            (
                ": send to oneself refused with 8",
                self.passive,
                Some(asked.passive),
            ),
            (
                ": send to oneself refused with 9",
                self.limited,
                asked.limit,
            ),
            (": take from oneself acknowledged", self.taken, asked.taken),
            (" of 1: send accepted", alone.sends, asked.alone),
            (" of 1: take accepted", alone.takes, asked.alone),
            (fourth, alone.fourth, asked.alone),
            (
                " of 1: announced after a send",
                alone.announced,
                asked.announced,
            ),
        ];
        for (name, count, least) in figures {
            if let Some(least) = least {
                report.at_least(format!("{of}{name}"), count, least);
            }
        }
    }
}

#[cfg(test)]
mod tests {
    use super::*;
    use crate::request::IDLE;

    const SEND_TO_ONESELF: Request = Request {
        kind: SEND,
        i: 0,
        j: 0,
    };

    #[test]
    fn sends_are_told_apart() {
        let ring = Ring::start(2, &[1, 0]).expect("a start in range");
        let mut own = Own::default();
        for answer in [0, 0, 0, 8, 8, 9, 6] {
            own.count_ring(&ring, SEND_TO_ONESELF, answer);
        }
        own.count_ring(&ring, Request::new(SEND, 0, 1), 0);
        own.count_ring(&ring, Request::new(TAKE, 0, 0), 0);
        assert_eq!(
            (own.sent, own.passive, own.limited, own.taken),
            (3, 2, 1, 0)
        );
        assert_eq!(own.alone.sends, 0);
    }

    #[test]
    fn a_lone_node_of_a_ring() {
        let mut ring = Ring::start(1, &[1]).expect("a start in range");
        let mut own = Own::default();
        let taken = [(PROBE, 0), (SEND, 0), (PROBE, 0), (TAKE, 1)];
        let quiet = [(IDLE, 0), (PROBE, 0), (ANNOUNCE, 0)];
        for (kind, j) in taken.into_iter().chain(quiet) {
            let before = ring.clone();
            let request = Request::new(kind, 0, j);
            let answer = ring
                .step(request)
                .map_or_else(|e| e.number() as usize, |()| 0);
            own.count_ring(&before, request, answer);
        }
        let Alone {
            sends,
            takes,
            fourth,
            announced,
        } = own.alone;
        assert_eq!((sends, takes, fourth, announced), (1, 1, 1, 1));
    }

    #[test]
    fn a_tree_takes_from_itself() {
        let mut tree = Tree::start(1, 0).expect("a start in range");
        let mut own = Own::default();
        for kind in [SEND, TAKE, ACK] {
            let request = Request::new(kind, 0, 0);
            own.count_tree(&tree, request, 0);
            assert_eq!(tree.step(request), Ok(()));
        }
        assert_eq!((own.sent, own.taken, own.alone.fourth), (1, 1, 1));
    }
}
