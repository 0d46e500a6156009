//! Safra's termination detection on a ring: paper, "The ring" and "The driver", and requests.

use crate::refusal::{require, Refusal};
use crate::request::{Request, ANNOUNCE, IDLE, PASS, PROBE, SEND, SEND_LIMIT, TAKE};
use std::ops::Range;

pub const MAX_NODES: usize = 96;
/// Eight nodes a byte.
pub const COLOR_BYTES: usize = MAX_NODES / 8;
/// The largest move limit of the driver: refusal 11.
pub const MOVE_LIMIT: usize = 1_000;
/// The most messages of one take.
pub const TAKE_LIMIT: usize = 1_000;
/// What a node's counter adds to q, at most.
const COUNTER_LIMIT: u64 = 1_000_000;

/// The token: the node that holds it, the sum it carries and its color.
#[derive(Clone, Copy, Debug, PartialEq, Eq)]
pub struct Token {
    pub pos: usize,
    pub q: i64,
    pub black: bool,
}

/// The state of a ring. A caller may hand in any numbers whatever.
#[derive(Clone, Debug, PartialEq, Eq)]
pub struct Ring {
    pub n: usize,
    pub active: [bool; MAX_NODES],
    /// Bit 0 is the lowest node of its byte; 1 is black.
    pub color: [u8; COLOR_BYTES],
    pub sent: [u32; MAX_NODES],
    pub received: [u32; MAX_NODES],
    /// Messages in transit to each node.
    pub pending: [u32; MAX_NODES],
    pub token: Token,
    pub closed: bool,
}

/// Why the driver stopped, in the order in which the reasons are tested.
#[derive(Clone, Copy, Debug, PartialEq, Eq)]
pub enum Reason {
    /// The announce test holds.
    Conclusive,
    /// No token move is allowed.
    Waiting,
    /// As many moves as the limit were made.
    Spent,
}

/// The driver's answer: why it stopped and how many token moves it made.
#[derive(Clone, Copy, Debug, PartialEq, Eq)]
pub struct Drive {
    pub reason: Reason,
    pub moves: u32,
}

impl Ring {
    /// Start from N and N flag bytes: bit 0 is active, bit 1 is black.
    pub fn start(n: usize, flags: &[u8]) -> Result<Self, Refusal> {
        if !(1..=MAX_NODES).contains(&n) {
            return Err(Refusal::NodeCount);
        }
        if flags.len() != n || flags.iter().any(|&flag| flag > 3) {
            return Err(Refusal::StartFlags);
        }
        let mut ring = Self::blank(n);
        for (i, flag) in flags.iter().enumerate() {
            ring.active[i] = flag & 1 != 0;
            ring.set_black(i, flag & 2 != 0);
        }
        Ok(ring)
    }

    /// All nodes passive and white, the token black at node 0.
    fn blank(n: usize) -> Self {
        Self {
            n,
            active: [false; MAX_NODES],
            color: [0; COLOR_BYTES],
            sent: [0; MAX_NODES],
            received: [0; MAX_NODES],
            pending: [0; MAX_NODES],
            token: Token {
                pos: 0,
                q: 0,
                black: true,
            },
            closed: false,
        }
    }

    pub fn is_black(&self, i: usize) -> bool {
        self.color[i / 8] >> (i % 8) & 1 == 1
    }

    pub fn set_black(&mut self, i: usize, black: bool) {
        let bit = 1 << (i % 8);
        if black {
            self.color[i / 8] |= bit;
        } else {
            self.color[i / 8] &= !bit;
        }
    }

    /// Messages sent less messages received.
    pub fn counter(&self, i: usize) -> i64 {
        i64::from(self.sent[i]) - i64::from(self.received[i])
    }

    /// Sends that were accepted since the start.
    pub fn sends(&self) -> u64 {
        total(&self.sent)
    }

    /// Messages in transit to all nodes: `flight` of the log.
    pub fn in_transit(&self) -> u64 {
        total(&self.pending)
    }

    /// One bits over the color bytes: `black` of the log.
    pub fn black_nodes(&self) -> u32 {
        self.color.iter().map(|byte| byte.count_ones()).sum()
    }

    /// Whether the state is sound: paper, "A ring state is sound if".
    pub fn is_sound(&self) -> bool {
        (1..=MAX_NODES).contains(&self.n)
            && self.token.pos < self.n
            && self.unused_are_zero()
            && self.totals_agree()
            && self.q_is_in_range()
            && self.safra_holds()
            && (!self.closed || self.is_conclusive())
    }

    fn unused_are_zero(&self) -> bool {
        (self.n..MAX_NODES).all(|i| {
            !self.active[i]
                && !self.is_black(i)
                && self.sent[i] == 0
                && self.received[i] == 0
                && self.pending[i] == 0
        })
    }

    /// Sends are within the limit and equal receipts plus messages in transit.
    fn totals_agree(&self) -> bool {
        let sent = self.sends();
        sent <= u64::from(SEND_LIMIT) && sent == total(&self.received) + total(&self.pending)
    }

    /// q lies within (N - 1 - pos) * 1,000,000 either side of 0.
    fn q_is_in_range(&self) -> bool {
        let passed = (self.n - 1 - self.token.pos) as u64;
        self.token.q.unsigned_abs() <= passed * COUNTER_LIMIT
    }

    /// One of Safra's four holds.
    fn safra_holds(&self) -> bool {
        (0..4).any(|which| self.safra(which))
    }

    /// Whether this one of Safra's four holds, in the paper's order.
    pub fn safra(&self, which: usize) -> bool {
        let t = self.token.pos;
        match which {
            0 => {
                (t + 1..self.n).all(|i| !self.active[i])
                    && self.token.q == self.counters(t + 1..self.n)
            }
            1 => self.sum(0..t + 1) > 0,
            2 => (0..=t).any(|i| self.is_black(i)),
            _ => self.token.black,
        }
    }

    /// The total of the counters of some nodes.
    pub fn counters(&self, nodes: Range<usize>) -> i64 {
        nodes.map(|i| self.counter(i)).sum()
    }

    /// q plus the counters of some nodes.
    pub fn sum(&self, nodes: Range<usize>) -> i128 {
        i128::from(self.token.q) + i128::from(self.counters(nodes))
    }

    /// The announce test: the condition of rule 6.
    pub fn is_conclusive(&self) -> bool {
        self.token.pos == 0
            && !self.token.black
            && !self.is_black(0)
            && self.sum(0..1) == 0
            && !self.active[0]
            && self.pending[0] == 0
    }

    /// The condition of rule 4.
    fn may_probe(&self) -> bool {
        self.token.pos == 0 && (self.token.black || self.is_black(0) || self.sum(0..1) > 0)
    }

    /// The condition of rule 5.
    fn may_pass(&self, i: usize) -> bool {
        i > 0 && self.token.pos == i && !self.active[i]
    }

    /// The one token move that the rules allow now, if any.
    pub fn token_move(&self) -> Option<Request> {
        let pos = self.token.pos;
        if self.may_probe() {
            Some(Request::new(PROBE, 0, 0))
        } else if self.may_pass(pos) {
            Some(Request::new(PASS, pos, 0))
        } else {
            None
        }
    }

    /// One step on any state: checks 3, 4, 5, 6, 8, 9 in the table's order, then the rule.
    /// A refused step leaves the state as it was.
    pub fn step(&mut self, request: Request) -> Result<(), Refusal> {
        if !self.is_sound() {
            return Err(Refusal::Unsound);
        }
        let sends = self.sends();
        self.apply(request, sends)
    }

    /// One step on a state known to be sound, of which `sends` sends were accepted.
    pub(crate) fn apply(&mut self, request: Request, sends: u64) -> Result<(), Refusal> {
        if self.closed {
            return Err(Refusal::Closed);
        }
        let Request { kind, i, j } = request;
        match kind {
            SEND => self.send(i, j, sends),
            TAKE => self.take(i, j),
            IDLE => self.idle(i),
            PROBE => self.probe(),
            PASS => self.pass(i),
            ANNOUNCE => self.announce(),
            _ => Err(Refusal::UnknownKind),
        }
    }

    fn check_node(&self, i: usize) -> Result<(), Refusal> {
        if i < self.n {
            Ok(())
        } else {
            Err(Refusal::UnknownNode)
        }
    }

    /// Rule 1; the receiver may be the sender.
    fn send(&mut self, i: usize, j: usize, sends: u64) -> Result<(), Refusal> {
        self.check_node(i)?;
        self.check_node(j)?;
        require(self.active[i])?;
        if sends >= u64::from(SEND_LIMIT) {
            return Err(Refusal::SendLimit);
        }
        self.sent[i] += 1;
        self.pending[j] += 1;
        Ok(())
    }

    /// Rule 2, of so many messages at once.
    fn take(&mut self, i: usize, messages: usize) -> Result<(), Refusal> {
        self.check_node(i)?;
        require((1..=TAKE_LIMIT).contains(&messages))?;
        let messages = messages as u32;
        require(messages <= self.pending[i])?;
        self.pending[i] -= messages;
        self.received[i] += messages;
        self.active[i] = true;
        self.set_black(i, true);
        Ok(())
    }

    /// Rule 3.
    fn idle(&mut self, i: usize) -> Result<(), Refusal> {
        self.check_node(i)?;
        require(self.active[i])?;
        self.active[i] = false;
        Ok(())
    }

    /// Rule 4.
    fn probe(&mut self) -> Result<(), Refusal> {
        require(self.may_probe())?;
        self.token = Token {
            pos: self.n - 1,
            q: 0,
            black: false,
        };
        self.set_black(0, false);
        Ok(())
    }

    /// Rule 5.
    fn pass(&mut self, i: usize) -> Result<(), Refusal> {
        self.check_node(i)?;
        require(self.may_pass(i))?;
        self.token = Token {
            pos: i - 1,
            q: self.token.q + self.counter(i),
            black: self.token.black || self.is_black(i),
        };
        self.set_black(i, false);
        Ok(())
    }

    /// Rule 6.
    fn announce(&mut self) -> Result<(), Refusal> {
        require(self.is_conclusive())?;
        self.closed = true;
        Ok(())
    }

    /// The driver: token moves until the run is conclusive, waiting or spent.
    pub fn drive(&mut self, limit: usize) -> Result<Drive, Refusal> {
        if !self.is_sound() {
            return Err(Refusal::Unsound);
        }
        if self.closed {
            return Err(Refusal::Closed);
        }
        if limit > MOVE_LIMIT {
            return Err(Refusal::MoveLimit);
        }
        let mut moves = 0;
        loop {
            let reason = if self.is_conclusive() {
                Reason::Conclusive
            } else {
                match self.token_move() {
                    None => Reason::Waiting,
                    Some(_) if moves as usize == limit => Reason::Spent,
                    Some(request) => {
                        self.apply(request, 0)?;
                        moves += 1;
                        continue;
                    }
                }
            };
            return Ok(Drive { reason, moves });
        }
    }
}

/// The total of a column, which cannot overflow.
fn total(column: &[u32]) -> u64 {
    column.iter().map(|&count| u64::from(count)).sum()
}
