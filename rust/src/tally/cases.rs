//! Steps that one condition of a rule decides alone.

use super::steps::Words;
use crate::bounds::{logs, Asked, Met, LARGE_RINGS, LARGE_TREES};
use crate::own::Own;
use crate::report::Report;
use crate::request::{Request, ANNOUNCE, LEAVE, PASS, PROBE, TAKE};
use crate::ring::{Ring, COLOR_BYTES};
use crate::takes::Takes;
use crate::tree::Tree;
use std::ops::RangeInclusive;

/// One detector's rules, condition by condition.
pub trait Cases: Default {
    type State;

    const NAME: &'static str;
    /// The words of its kinds but announce.
    const WORDS: Words;
    /// The large sizes, what is asked of ranges of sizes, and how many sizes are to be met.
    const LARGE: RangeInclusive<usize>;
    const ASKED: [Asked; 4];
    const SIZES: usize;

    fn n(state: &Self::State) -> usize;

    /// The node numbers of a request, and others that may be there.
    fn nodes(request: Request) -> [usize; 2] {
        [request.i, request.j]
    }

    /// Counts the answer to a request to an open run.
    fn count(&mut self, state: &Self::State, request: Request, answer: usize);

    fn report(&self, name: &str, least: &Met, report: &mut Report);

    /// Of takes by their numbers of messages, on all sizes or on the large ones.
    fn report_takes(&self, _name: &str, _is_large: bool, _report: &mut Report) {}

    /// Of messages to oneself, likewise.
    fn report_own(&self, name: &str, is_large: bool, report: &mut Report);
}

/// The place of the only truth, if there is one alone.
fn only(truths: &[bool]) -> Option<usize> {
    let mut places = (0..truths.len()).filter(|&k| truths[k]);
    places.next().filter(|_| places.next().is_none())
}

/// Counts of what one condition alone decides.
struct Decided<const K: usize>([usize; K]);

impl<const K: usize> Default for Decided<K> {
    fn default() -> Self {
        Self([0; K])
    }
}

impl<const K: usize> Decided<K> {
    fn count(&mut self, conditions: [bool; K]) {
        if let Some(place) = only(&conditions) {
            self.0[place] += 1;
        }
    }

    /// The figures of a detector, by the conditions' names.
    fn report(&self, of: &str, names: [&str; K], least: usize, report: &mut Report) {
        let names = names.map(|name| format!("{of}: {name}"));
        report.each_at_least(least, names.into_iter().zip(self.0));
    }
}

#[derive(Default)]
pub struct RingCases {
    announce: Decided<5>,
    probe: Decided<3>,
    not_quiet: Decided<1>,
    no_reason: Decided<1>,
    /// Passes of a white token by black nodes of each byte of colors.
    blackened: [usize; COLOR_BYTES],
    behind: Decided<1>,
    takes: Takes,
    own: Own,
}

impl RingCases {
    fn report_blackened(&self, of: &str, least: &Met, report: &mut Report) {
        let name = format!("{of}: pass by a black node of a white token");
        let (sum, fewest) = (
            self.blackened.iter().sum(),
            self.blackened.into_iter().min(),
        );
        report.at_least(&name, sum, least.often);
        report.at_least(
            name + ", of the byte of colors with the fewest",
            fewest.unwrap_or(0),
            logs::BLACKENED,
        );
    }
}

impl Cases for RingCases {
    type State = Ring;

    const NAME: &'static str = "ring";
    const WORDS: Words = ["send", "take", "idle", "probe", "pass"];
    const LARGE: RangeInclusive<usize> = LARGE_RINGS;
    const ASKED: [Asked; 4] = logs::ON_RINGS;
    const SIZES: usize = logs::RING_SIZES;

    fn n(ring: &Ring) -> usize {
        ring.n
    }

    /// The second number of a take is no node.
    fn nodes(request: Request) -> [usize; 2] {
        match request.kind {
            TAKE => [request.i, 0],
            _ => [request.i, request.j],
        }
    }

    fn count(&mut self, ring: &Ring, request: Request, answer: usize) {
        let accepted = answer == 0;
        self.takes.count(ring, request, accepted);
        self.own.count_ring(ring, request, answer);
        let (token, sum) = (ring.token, ring.token.q + ring.counter(0));
        let home = token.pos == 0;
        let node_black = ring.is_black(0);
        match request.kind {
            ANNOUNCE if !accepted => {
                let active = ring.active[0];
                // Messages pending at node 0 refuse it too, but never alone: with the other
                // conditions met only the first of Safra's four can hold, so the counters of
                // the other nodes add up to q, those of all to 0, and nothing is in transit.
                if ring.pending[0] == 0 {
                    self.announce
                        .count([!home, token.black, node_black, sum != 0, active]);
                }
                let quiet = ring.in_transit() == 0 && !ring.active.contains(&true);
                self.not_quiet.count([home && !quiet]);
            }
            PROBE if accepted => self.probe.count([token.black, node_black, sum > 0]),
            PROBE => self.no_reason.count([home]),
            PASS if accepted && !token.black && ring.is_black(request.i) => {
                self.blackened[request.i / 8] += 1;
            }
            TAKE if accepted => self.behind.count([!home && request.i > token.pos]),
            _ => {}
        }
    }

    fn report(&self, of: &str, least: &Met, report: &mut Report) {
        let names = [
            "announce refused only since the token is away",
            "announce refused only since the token is black",
            "announce refused only since node 0 is black",
            "announce refused only since q + counter is not 0",
            "announce refused only since node 0 is active",
        ];
        self.announce.report(of, names, least.once, report);
        let names = [
            "probe accepted only since the token is black",
            "probe accepted only since node 0 is black",
            "probe accepted only since q + counter is above 0",
        ];
        self.probe.report(of, names, least.seldom, report);
        let names = ["announce refused at node 0 while not quiet"];
        self.not_quiet.report(of, names, least.often, report);
        let names = ["probe refused at node 0"];
        self.no_reason.report(of, names, least.seldom, report);
        let names = ["take by a node that the token under way has passed"];
        self.behind.report(of, names, least.often, report);
        self.report_blackened(of, least, report);
    }

    fn report_takes(&self, of: &str, is_large: bool, report: &mut Report) {
        let asked = if is_large {
            &logs::TAKES_ON_LARGE
        } else {
            &logs::TAKES
        };
        self.takes.report(of, asked, report);
    }

    fn report_own(&self, of: &str, is_large: bool, report: &mut Report) {
        let asked = if is_large {
            &logs::OWN_ON_LARGE_RINGS
        } else {
            &logs::OWN_ON_RINGS
        };
        self.own.report(of, asked, report);
    }
}

#[derive(Default)]
pub struct TreeCases {
    announce: Decided<2>,
    leave: Decided<4>,
    take: Decided<2>,
    own: Own,
}

impl Cases for TreeCases {
    type State = Tree;

    const NAME: &'static str = "tree";
    const WORDS: Words = ["send", "take", "idle", "ack", "leave"];
    const LARGE: RangeInclusive<usize> = LARGE_TREES;
    const ASKED: [Asked; 4] = logs::ON_TREES;
    const SIZES: usize = logs::TREE_SIZES;

    fn n(tree: &Tree) -> usize {
        tree.n
    }

    fn count(&mut self, tree: &Tree, request: Request, answer: usize) {
        let accepted = answer == 0;
        self.own.count_tree(tree, request, answer);
        let (root, i) = (tree.root, request.i);
        match request.kind {
            ANNOUNCE if !accepted => self
                .announce
                .count([tree.active[root], tree.unacked[root] > 0]),
            LEAVE if !accepted && i < tree.n => {
                let engaged = tree.is_engaged(i);
                self.leave
                    .count([i == root, !engaged, tree.active[i], tree.unacked[i] > 0])
            }
            TAKE if accepted => self.take.count([!tree.is_engaged(i), tree.is_engaged(i)]),
            _ => {}
        }
    }

    fn report(&self, of: &str, least: &Met, report: &mut Report) {
        let names = [
            "announce refused only since the root is active",
            "announce refused only since the root is unacknowledged",
        ];
        self.announce.report(of, names, least.seldom, report);
        let names = [
            "leave refused only since the node is the root",
            "leave refused only since the node is not engaged",
            "leave refused only since the node is active",
            "leave refused only since the node is unacknowledged",
        ];
        self.leave.report(of, names, least.seldom, report);
        let names = [
            "take that engages its node",
            "take that is acknowledged at once",
        ];
        self.take.report(of, names, least.often, report);
    }

    fn report_own(&self, of: &str, is_large: bool, report: &mut Report) {
        let asked = if is_large {
            &logs::OWN_ON_LARGE_TREES
        } else {
            &logs::OWN_ON_TREES
        };
        self.own.report(of, asked, report);
    }
}
