//! The rules as a guide to which requests will be accepted next.

use super::rng::Rng;
use crate::request::{Request, ACK, ANNOUNCE, IDLE, LEAVE, PROBE, SEND, TAKE};
use crate::ring::{Ring, TAKE_LIMIT};
use crate::tree::Tree;

/// A word of the log: how many nodes it names, and whether a number of messages follows them, which may be left out where it is 1.
#[derive(Clone, Copy)]
pub struct Word {
    pub text: &'static str,
    pub nodes: usize,
    pub counts: bool,
}

impl Word {
    const fn new(text: &'static str, nodes: usize) -> Self {
        Self {
            text,
            nodes,
            counts: false,
        }
    }

    /// How many numbers it uses.
    pub fn numbers(&self) -> usize {
        self.nodes + usize::from(self.counts)
    }
}

/// The words by kind number less one.
pub type Words = [Word; 6];
pub const RING_WORDS: Words = [
    Word::new("send", 2),
    Word {
        counts: true,
        ..Word::new("take", 1)
    },
    Word::new("idle", 1),
    Word::new("probe", 0),
    Word::new("pass", 1),
    Word::new("announce", 0),
];
const TREE_WORDS: Words = [
    Word::new("send", 2),
    Word::new("take", 2),
    Word::new("idle", 1),
    Word::new("ack", 1),
    Word::new("leave", 1),
    Word::new("announce", 0),
];

/// The state that a run leads to.
pub trait Model {
    fn words(&self) -> &'static Words;
    fn n(&self) -> usize;

    /// A request that the rules allow, a ring's take being of one message; while winding down no send.
    fn allowed(&self, rng: &mut Rng, winding_down: bool) -> Option<Request>;

    /// For a ring's take one of any number of messages that is allowed, by a node with several if there is one; any other request as it is.
    fn of_several(&self, _rng: &mut Rng, request: Request) -> Request {
        request
    }

    /// A take; of a ring, of about as many messages as are allowed.
    fn any_take(&self, rng: &mut Rng) -> Request;

    fn active(&self) -> &[bool];

    /// Messages in transit.
    fn messages(&self) -> u64;

    /// The node that announces.
    fn announcer(&self) -> usize;

    /// Whether the announcement is refused by few of its tests, or by none.
    fn is_nearly_over(&self) -> bool;

    /// Whether a request makes the last active node passive with no message in transit.
    fn terminates(&self, request: Request) -> bool {
        request.kind == IDLE
            && self.messages() == 0
            && (0..self.n()).all(|i| i == request.i || !self.active()[i])
    }

    /// A request that is likely to be refused, and near to one that is not.
    fn tempting(&self, rng: &mut Rng) -> Request {
        let n = self.n();
        let i = match rng.below(3) {
            0 => self.announcer(),
            _ => rng.below(n),
        };
        let passive = rng.node(n, |i| !self.active()[i]).unwrap_or(i);
        match rng.below(10) {
            0 | 1 => Request::new(SEND, passive, passive),
            2 | 3 => self.beyond(rng),
            4 => Request::new(ANNOUNCE, 0, 0),
            5 | 6 => self.any_take(rng),
            _ => Request::new(1 + rng.below(6), i, rng.below(n)),
        }
    }

    /// A request with a node number of N or more; cut to 8 or 16 bits some are below.
    fn beyond(&self, rng: &mut Rng) -> Request {
        let n = self.n();
        let near = rng.below(n);
        let within = rng.below(n);
        let cut = [1 << 8 | within, 1 << 16 | within];
        let far = rng.pick(&[n, n, n, n + 1, n + 16, n + 80, cut[0], cut[1], n + 99_000]);
        let kind = rng
            .node(6, |kind| self.words()[kind].nodes > 0)
            .expect("words with a node");
        let (i, j) = match self.words()[kind].nodes {
            1 => (far, near),
            _ => rng.pick(&[(far, near), (near, far), (far, far)]),
        };
        Request::new(kind + 1, i, j)
    }
}

impl Model for Ring {
    fn words(&self) -> &'static Words {
        &RING_WORDS
    }

    fn n(&self) -> usize {
        self.n
    }

    fn allowed(&self, rng: &mut Rng, winding_down: bool) -> Option<Request> {
        const CLASSES: [usize; 10] = [
            SEND, SEND, SEND, TAKE, TAKE, TAKE, IDLE, PROBE, PROBE, PROBE,
        ];
        if self.closed {
            return None;
        }
        let first = rng.below(CLASSES.len());
        (0..CLASSES.len())
            .map(|k| CLASSES[(first + k) % CLASSES.len()])
            .filter(|&class| class != SEND || !winding_down)
            .find_map(|class| ring_allowed_of(self, class, rng))
    }

    fn of_several(&self, rng: &mut Rng, request: Request) -> Request {
        if request.kind != TAKE {
            return request;
        }
        let i = rng.node(self.n, |i| self.pending[i] > 1);
        let i = i.unwrap_or(request.i);
        let most = TAKE_LIMIT.min(self.pending[i] as usize);
        let some = 1 + rng.below(most);
        Request::new(TAKE, i, rng.pick(&[most, some, some]))
    }

    fn any_take(&self, rng: &mut Rng) -> Request {
        let some = rng.below(self.n);
        let waiting = rng.node(self.n, |i| self.pending[i] > 0).unwrap_or(some);
        let fullest = (0..self.n).max_by_key(|&i| self.pending[i]);
        let i = rng.pick(&[some, waiting, waiting, fullest.unwrap_or(some)]);
        Request::new(TAKE, i, about(rng, self.pending[i] as usize))
    }

    fn active(&self) -> &[bool] {
        &self.active
    }

    fn messages(&self) -> u64 {
        self.in_transit()
    }

    fn announcer(&self) -> usize {
        0
    }

    fn is_nearly_over(&self) -> bool {
        let sum = self.token.q + self.counter(0);
        let failing = [
            self.token.pos != 0,
            self.token.black,
            self.is_black(0),
            sum != 0,
            self.active[0],
        ];
        failing.iter().filter(|&&fails| fails).count() < 2
    }
}

/// Numbers of messages about those that are on their way and about the limit; some are allowed if they are cut to 8 or 16 bits.
fn about(rng: &mut Rng, pending: usize) -> usize {
    let within = 1 + rng.below(pending.clamp(1, TAKE_LIMIT));
    let cut = [(1 << 8) + within, (1 << 16) + within];
    let limits = [0, TAKE_LIMIT, TAKE_LIMIT + 1, 99_999];
    let near = [0, 1, pending, pending + 1, pending + 1];
    rng.pick(&[&cut[..], &limits, &near].concat())
}

fn ring_allowed_of(ring: &Ring, class: usize, rng: &mut Rng) -> Option<Request> {
    let active = |i: usize| ring.active[i];
    match class {
        SEND => {
            let i = rng.node(ring.n, active)?;
            let j = rng.other_end(ring.n, i);
            Some(Request::new(SEND, i, j))
        }
        TAKE => {
            let i = rng.node(ring.n, |i| ring.pending[i] > 0)?;
            Some(Request::new(TAKE, i, 1))
        }
        IDLE => Some(Request::new(IDLE, rng.node(ring.n, active)?, 0)),
        _ => ring.token_move().or_else(|| idle_holder(ring)),
    }
}

/// An active holder keeps the token, so it becomes passive first.
pub fn idle_holder(ring: &Ring) -> Option<Request> {
    let pos = ring.token.pos;
    ring.active[pos].then(|| Request::new(IDLE, pos, 0))
}

impl Model for Tree {
    fn words(&self) -> &'static Words {
        &TREE_WORDS
    }

    fn n(&self) -> usize {
        self.n
    }

    fn allowed(&self, rng: &mut Rng, winding_down: bool) -> Option<Request> {
        const CLASSES: [usize; 12] = [
            SEND, SEND, SEND, LEAVE, LEAVE, TAKE, TAKE, ACK, ACK, ACK, IDLE, IDLE,
        ];
        if self.closed {
            return None;
        }
        let first = rng.below(CLASSES.len());
        (0..CLASSES.len())
            .map(|k| CLASSES[(first + k) % CLASSES.len()])
            .filter(|&class| class != SEND || !winding_down)
            .find_map(|class| tree_allowed_of(self, class, rng))
    }

    fn any_take(&self, rng: &mut Rng) -> Request {
        Request::new(TAKE, rng.below(self.n), rng.below(self.n))
    }

    fn active(&self) -> &[bool] {
        &self.active
    }

    fn messages(&self) -> u64 {
        self.in_transit
            .iter()
            .flatten()
            .map(|&c| u64::from(c))
            .sum()
    }

    fn announcer(&self) -> usize {
        self.root
    }

    fn is_nearly_over(&self) -> bool {
        u32::from(self.active[self.root]) + self.unacked[self.root] < 2
    }
}

fn tree_allowed_of(tree: &Tree, class: usize, rng: &mut Rng) -> Option<Request> {
    let n = tree.n;
    match class {
        SEND => {
            let i = rng.node(n, |i| tree.active[i])?;
            let j = rng.other_end(n, i);
            Some(Request::new(SEND, i, j))
        }
        TAKE => {
            let pair = rng.node(n * n, |pair| tree.in_transit[pair / n][pair % n] > 0)?;
            Some(Request::new(TAKE, pair % n, pair / n))
        }
        IDLE => Some(Request::new(IDLE, rng.node(n, |i| tree.active[i])?, 0)),
        ACK => Some(Request::new(ACK, rng.node(n, |i| tree.acks[i] > 0)?, 0)),
        _ => {
            let may_leave = |i: usize| {
                i != tree.root && tree.is_engaged(i) && !tree.active[i] && tree.unacked[i] == 0
            };
            Some(Request::new(LEAVE, rng.node(n, may_leave)?, 0))
        }
    }
}
