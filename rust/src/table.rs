//! Eight updates over the same nodes: requests. Each is not started or a ring of its own, with its own limit of sends.

use crate::refusal::Refusal;
use crate::request::Request;
use crate::ring::Ring;

/// Numbers of updates are below it.
pub const UPDATES: usize = 8;

/// The rings of the updates that are started. A caller may hand in any rings whatever.
#[derive(Clone, Debug, Default, PartialEq, Eq)]
pub struct Table {
    pub updates: [Option<Ring>; UPDATES],
}

impl Table {
    pub fn started(&self) -> impl Iterator<Item = &Ring> {
        self.updates.iter().flatten()
    }

    /// N, which the first start fixes.
    pub fn nodes(&self) -> Option<usize> {
        self.started().next().map(|ring| ring.n)
    }

    /// Whether the started updates are sound rings with one N.
    pub fn is_sound(&self) -> bool {
        self.started().all(Ring::is_sound)
            && self.started().all(|ring| Some(ring.n) == self.nodes())
    }

    /// Starts an update, afresh if it was started: N and N flag bytes as for a ring.
    /// A refused start leaves the table as it was.
    pub fn start(&mut self, update: usize, n: usize, flags: &[u8]) -> Result<(), Refusal> {
        if !self.is_sound() {
            return Err(Refusal::Unsound);
        }
        self.check_start(update, n)?;
        self.updates[update] = Some(Ring::start(n, flags)?);
        Ok(())
    }

    /// The number of the update, then N where it is fixed.
    pub(crate) fn check_start(&self, update: usize, n: usize) -> Result<(), Refusal> {
        if update >= UPDATES {
            return Err(Refusal::UnknownUpdate);
        }
        if self.nodes().is_some_and(|fixed| fixed != n) {
            return Err(Refusal::NodeCount);
        }
        Ok(())
    }

    /// One step of an update: the ring's own, on that update's ring. A refused step leaves the table as it was.
    pub fn step(&mut self, update: usize, request: Request) -> Result<(), Refusal> {
        if !self.is_sound() {
            return Err(Refusal::Unsound);
        }
        self.ring(update)?.step(request)
    }

    /// The ring of a started update.
    pub(crate) fn ring(&mut self, update: usize) -> Result<&mut Ring, Refusal> {
        let place = self.updates.get_mut(update).and_then(Option::as_mut);
        place.ok_or(Refusal::UnknownUpdate)
    }
}
