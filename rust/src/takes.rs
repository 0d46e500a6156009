//! A ring's takes by their numbers of messages.

use crate::bounds::TakesAsked;
use crate::report::Report;
use crate::request::{Request, TAKE};
use crate::ring::{Ring, TAKE_LIMIT};

/// Bits to which a number may be cut by mistake.
const WIDTHS: [u32; 3] = [8, 16, 32];

#[derive(Default)]
pub struct Takes {
    /// Accepted, of more messages than one.
    several: usize,
    /// Of these, of all that were on their way, and of some.
    emptying: usize,
    some: usize,
    /// Accepted, of as many as may be.
    largest: usize,
    /// Refused since they are of none, though one is on its way.
    none: usize,
    /// Refused since one more is asked for than are on their way.
    one_too_many: usize,
    /// Refused since they are of one more than may be, though as many are on their way.
    above_limit: usize,
    /// Refused, not if the number is cut to so many bits.
    cut: [usize; WIDTHS.len()],
}

impl Takes {
    /// Counts a request to an open ring.
    pub fn count(&mut self, ring: &Ring, request: Request, accepted: bool) {
        let Request {
            kind,
            i,
            j: messages,
        } = request;
        if kind != TAKE || i >= ring.n {
            return;
        }
        let pending = ring.pending[i] as usize;
        if accepted {
            self.several += usize::from(messages > 1);
            self.emptying += usize::from(messages > 1 && messages == pending);
            self.some += usize::from(messages > 1 && messages < pending);
            self.largest += usize::from(messages == TAKE_LIMIT);
            return;
        }
        let most = pending.min(TAKE_LIMIT);
        self.none += usize::from(messages == 0 && pending > 0);
        self.one_too_many +=
            usize::from(pending > 0 && messages <= TAKE_LIMIT && messages == pending + 1);
        self.above_limit += usize::from(messages == TAKE_LIMIT + 1 && pending >= messages);
        for (count, bits) in self.cut.iter_mut().zip(WIDTHS) {
            *count += usize::from((1..=most).contains(&(messages % (1 << bits))));
        }
    }

    pub fn report(&self, of: &str, asked: &TakesAsked, report: &mut Report) {
        let named = |name: &str| format!("{of}: take {name}");
        report.at_least(named("of several accepted"), self.several, asked.several);
        let reasons = [
            ("of all of several accepted", self.emptying),
            ("of several but not all accepted", self.some),
            ("of 0 refused, one being on its way", self.none),
            (
                "of one more than are on their way refused",
                self.one_too_many,
            ),
        ];
        report.each_at_least(
            asked.reasons,
            reasons.map(|(name, count)| (named(name), count)),
        );
        let limit = [
            ("of 1,000 accepted", self.largest),
            (
                "of 1,001 refused, as many being on their way",
                self.above_limit,
            ),
        ];
        report.each_at_least(asked.limit, limit.map(|(name, count)| (named(name), count)));
        for (bits, count) in WIDTHS.iter().zip(self.cut) {
            if asked.widths.contains(bits) {
                let name = named(&format!("refused, not if its number is cut to {bits} bits"));
                report.at_least(name, count, asked.cut);
            }
        }
    }
}
