//! The packing station: request Q-7. A ring with a firmware mark and a map mark of each node, and a record of what was closed.

use crate::refusal::{require, Refusal};
use crate::request::{Request, ANNOUNCE, TAKE};
use crate::ring::{Ring, MAX_NODES};

/// Close stands in the place of announce.
pub const CLOSE: usize = ANNOUNCE;

/// The job words of a take.
pub const FIRMWARE_NEW: usize = 1;
pub const MAP_NEW: usize = 2;
pub const FIRMWARE_OLD: usize = 3;
pub const MAP_OLD: usize = 4;

#[derive(Clone, Copy, Debug, PartialEq, Eq)]
pub enum Mark {
    Old,
    New,
}

/// A panel. A caller may hand in any ring, marks and record.
#[derive(Clone, Debug, PartialEq, Eq)]
pub struct Panel {
    pub ring: Ring,
    pub firmware: [Mark; MAX_NODES],
    pub map: [Mark; MAX_NODES],
    /// The one word of all marks, from an accepted close to the next accepted start.
    pub recorded: Option<Mark>,
}

impl Panel {
    /// A panel that is first entered: N and N flag bytes as for a ring, all marks old.
    pub fn enter(n: usize, flags: &[u8]) -> Result<Self, Refusal> {
        Ok(Self {
            ring: Ring::start(n, flags)?,
            firmware: [Mark::Old; MAX_NODES],
            map: [Mark::Old; MAX_NODES],
            recorded: None,
        })
    }

    /// Whether the ring is sound, unused marks are old, and the record is empty while open and the marks' word when closed.
    pub fn is_sound(&self) -> bool {
        self.ring.is_sound()
            && (self.ring.n..MAX_NODES).all(|i| self.marks(i) == [Mark::Old; 2])
            && match self.recorded {
                None => !self.ring.closed,
                word => self.ring.closed && self.agreed() == word,
            }
    }

    /// The marks of a node.
    pub fn marks(&self, i: usize) -> [Mark; 2] {
        [self.firmware[i], self.map[i]]
    }

    /// The one word of all marks of all nodes, if they agree; of a ring whose N is in range.
    pub fn agreed(&self) -> Option<Mark> {
        let word = self.firmware[0];
        let agree = (0..self.ring.n).all(|i| self.marks(i) == [word; 2]);
        agree.then_some(word)
    }

    /// Starts the ring afresh, with the N that it has; the record is empty then, and every mark as it was.
    /// A refused start leaves the panel as it was.
    pub fn start(&mut self, n: usize, flags: &[u8]) -> Result<(), Refusal> {
        if !self.is_sound() {
            return Err(Refusal::Unsound);
        }
        if n != self.ring.n {
            return Err(Refusal::NodeCount);
        }
        self.ring = Ring::start(n, flags)?;
        self.recorded = None;
        Ok(())
    }

    /// One step: a take of one message with a job word, a close, or the ring's own. A refused step leaves the panel as it was.
    pub fn step(&mut self, request: Request) -> Result<(), Refusal> {
        if !self.is_sound() {
            return Err(Refusal::Unsound);
        }
        if self.ring.closed {
            return Err(Refusal::Closed);
        }
        match request.kind {
            TAKE => self.take(request.i, request.j),
            CLOSE => self.close(),
            _ => self.ring.step(request),
        }
    }

    fn take(&mut self, i: usize, word: usize) -> Result<(), Refusal> {
        if i >= self.ring.n {
            return Err(Refusal::UnknownNode);
        }
        let (column, mark) = match word {
            FIRMWARE_NEW => (&mut self.firmware, Mark::New),
            MAP_NEW => (&mut self.map, Mark::New),
            FIRMWARE_OLD => (&mut self.firmware, Mark::Old),
            MAP_OLD => (&mut self.map, Mark::Old),
            _ => return Err(Refusal::JobWord),
        };
        self.ring.step(Request::new(TAKE, i, 1))?;
        column[i] = mark;
        Ok(())
    }

    fn close(&mut self) -> Result<(), Refusal> {
        require(self.ring.is_conclusive())?;
        let word = self.agreed().ok_or(Refusal::UnequalMarks)?;
        self.ring.step(Request::new(ANNOUNCE, 0, 0))?;
        self.recorded = Some(word);
        Ok(())
    }
}
