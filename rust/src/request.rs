//! A request for one step, by kind number: paper, "The ring", "The tree".

pub const SEND: usize = 1;
pub const TAKE: usize = 2;
pub const IDLE: usize = 3;
/// Ring only.
pub const PROBE: usize = 4;
/// Ring only.
pub const PASS: usize = 5;
/// Tree only.
pub const ACK: usize = 4;
/// Tree only.
pub const LEAVE: usize = 5;
pub const ANNOUNCE: usize = 6;

/// Sends that one run accepts, in a table each update's own: refusal 9.
pub const SEND_LIMIT: u32 = 1_000_000;

/// A step's kind and numbers; those that the kind does not use are not read.
#[derive(Clone, Copy, Debug, PartialEq, Eq)]
pub struct Request {
    pub kind: usize,
    pub i: usize,
    /// The receiver of a send, the sender of a tree's take, how many messages a ring's take is of.
    pub j: usize,
}

impl Request {
    pub fn new(kind: usize, i: usize, j: usize) -> Self {
        Self { kind, i, j }
    }
}
