//! Termination detection of Dijkstra and Scholten: paper, "The tree", and request Q-4.

use crate::refusal::{require, Refusal};
use crate::request::{Request, ACK, ANNOUNCE, IDLE, LEAVE, SEND, SEND_LIMIT, TAKE};

pub const MAX_NODES: usize = 16;
/// The engager of a node that has none.
pub const NONE: usize = 16;

/// The state of a tree. A caller may hand in any numbers whatever.
#[derive(Clone, Debug, PartialEq, Eq)]
pub struct Tree {
    pub n: usize,
    pub root: usize,
    pub active: [bool; MAX_NODES],
    pub engager: [usize; MAX_NODES],
    pub unacked: [u32; MAX_NODES],
    /// Messages in transit, by sender and then receiver.
    pub in_transit: [[u32; MAX_NODES]; MAX_NODES],
    /// Acknowledgements in transit to each node.
    pub acks: [u32; MAX_NODES],
    /// Sends accepted in this run.
    pub sends: u32,
    pub closed: bool,
}

impl Tree {
    /// Start: only the root is active and engaged.
    pub fn start(n: usize, root: usize) -> Result<Self, Refusal> {
        if !(1..=MAX_NODES).contains(&n) {
            return Err(Refusal::NodeCount);
        }
        if root >= n {
            return Err(Refusal::UnknownNode);
        }
        let mut tree = Self {
            n,
            root,
            active: [false; MAX_NODES],
            engager: [NONE; MAX_NODES],
            unacked: [0; MAX_NODES],
            in_transit: [[0; MAX_NODES]; MAX_NODES],
            acks: [0; MAX_NODES],
            sends: 0,
            closed: false,
        };
        tree.active[root] = true;
        tree.engager[root] = root;
        Ok(tree)
    }

    pub fn is_engaged(&self, i: usize) -> bool {
        self.engager[i] != NONE
    }

    /// The nodes whose engager is `i`, ascending, the root not counted under itself.
    pub fn children(&self, i: usize) -> impl Iterator<Item = usize> + '_ {
        (0..self.n).filter(move |&child| child != self.root && self.engager[child] == i)
    }

    /// Acknowledgements in transit to all nodes: `acks` of the log.
    pub fn acks_in_transit(&self) -> u64 {
        total(&self.acks)
    }

    /// Whether the state is sound: paper, "Sound: every engaged board's chain".
    pub fn is_sound(&self) -> bool {
        (1..=MAX_NODES).contains(&self.n)
            && self.root < self.n
            && self.unused_are_empty()
            && self.engagers_are_in_range()
            && (0..self.n).all(|i| !self.is_engaged(i) || self.reaches_root(i))
            && (0..self.n).all(|j| self.unacked_agrees(j))
            && (0..self.n).all(|i| self.is_engaged(i) || self.is_at_rest(i))
            && self.sends_agree()
            && (!self.closed || self.is_conclusive())
    }

    fn unused_are_empty(&self) -> bool {
        let places = (self.n..MAX_NODES).all(|i| {
            !self.active[i] && self.engager[i] == NONE && self.unacked[i] == 0 && self.acks[i] == 0
        });
        let pairs = (0..MAX_NODES).all(|i| {
            (0..MAX_NODES)
                .filter(|&j| i >= self.n || j >= self.n)
                .all(|j| self.in_transit[i][j] == 0)
        });
        places && pairs
    }

    fn engagers_are_in_range(&self) -> bool {
        self.engager[self.root] == self.root
            && (0..self.n).all(|i| self.engager[i] < self.n || !self.is_engaged(i))
    }

    /// Whether the chain of engagers of `i` reaches the root.
    fn reaches_root(&self, i: usize) -> bool {
        let mut at = i;
        for _ in 0..self.n {
            if at == self.root {
                return true;
            }
            if at == NONE {
                return false;
            }
            at = self.engager[at];
        }
        false
    }

    /// unacked of `j` counts its messages in transit, its acknowledgements and its children.
    fn unacked_agrees(&self, j: usize) -> bool {
        let messages = total(&self.in_transit[j]);
        let children = self.children(j).count() as u64;
        u64::from(self.unacked[j]) == messages + u64::from(self.acks[j]) + children
    }

    fn is_at_rest(&self, i: usize) -> bool {
        !self.active[i] && self.unacked[i] == 0
    }

    fn sends_agree(&self) -> bool {
        total(&self.unacked) <= u64::from(self.sends) && self.sends <= SEND_LIMIT
    }

    /// The announce test: the condition of rule 6.
    pub fn is_conclusive(&self) -> bool {
        self.is_at_rest(self.root)
    }

    /// One step on any state: checks 3, 4, 5, 6, 8, 9 in the table's order, then the rule.
    /// A refused step leaves the state as it was.
    pub fn step(&mut self, request: Request) -> Result<(), Refusal> {
        if !self.is_sound() {
            return Err(Refusal::Unsound);
        }
        self.apply(request)
    }

    /// One step on a state known to be sound.
    pub(crate) fn apply(&mut self, request: Request) -> Result<(), Refusal> {
        if self.closed {
            return Err(Refusal::Closed);
        }
        let Request { kind, i, j } = request;
        match kind {
            SEND => self.send(i, j),
            TAKE => self.take(i, j),
            IDLE => self.idle(i),
            ACK => self.ack(i),
            LEAVE => self.leave(i),
            ANNOUNCE => self.announce(),
            _ => Err(Refusal::UnknownKind),
        }
    }

    fn check_node(&self, i: usize) -> Result<(), Refusal> {
        if i < self.n {
            Ok(())
        } else {
            Err(Refusal::UnknownNode)
        }
    }

    /// Rule 1; the receiver may be the sender.
    fn send(&mut self, i: usize, j: usize) -> Result<(), Refusal> {
        self.check_node(i)?;
        self.check_node(j)?;
        require(self.active[i])?;
        if self.sends >= SEND_LIMIT {
            return Err(Refusal::SendLimit);
        }
        self.unacked[i] += 1;
        self.in_transit[i][j] += 1;
        self.sends += 1;
        Ok(())
    }

    /// Rule 2: the message that engages a node is acknowledged only when it leaves. One of its own
    /// finds it engaged, since it has it unacknowledged: the acknowledgement sets out to itself.
    fn take(&mut self, i: usize, k: usize) -> Result<(), Refusal> {
        self.check_node(i)?;
        self.check_node(k)?;
        require(self.in_transit[k][i] > 0)?;
        self.in_transit[k][i] -= 1;
        self.active[i] = true;
        if self.is_engaged(i) {
            self.acks[k] += 1;
        } else {
            self.engager[i] = k;
        }
        Ok(())
    }

    /// Rule 3.
    fn idle(&mut self, i: usize) -> Result<(), Refusal> {
        self.check_node(i)?;
        require(self.active[i])?;
        self.active[i] = false;
        Ok(())
    }

    /// Rule 4.
    fn ack(&mut self, i: usize) -> Result<(), Refusal> {
        self.check_node(i)?;
        require(self.acks[i] > 0)?;
        self.acks[i] -= 1;
        self.unacked[i] -= 1;
        Ok(())
    }

    /// Rule 5.
    fn leave(&mut self, i: usize) -> Result<(), Refusal> {
        self.check_node(i)?;
        require(i != self.root && self.is_engaged(i) && self.is_at_rest(i))?;
        self.acks[self.engager[i]] += 1;
        self.engager[i] = NONE;
        Ok(())
    }

    /// Rule 6.
    fn announce(&mut self) -> Result<(), Refusal> {
        require(self.is_conclusive())?;
        self.closed = true;
        Ok(())
    }
}

/// The total of a column, which cannot overflow.
fn total(column: &[u32]) -> u64 {
    column.iter().map(|&count| u64::from(count)).sum()
}
