//! The answers to one detector's steps.

use super::ANSWERS;
use crate::bounds::answers::OF_LOG;
use crate::bounds::Met;
use crate::report::Report;
use crate::request::ANNOUNCE;

/// Kinds of steps, and 0 for none.
const KINDS: usize = 7;

/// The words of a detector's kinds but announce.
pub type Words = [&'static str; ANNOUNCE - 1];

#[derive(Default)]
pub struct Steps {
    accepted: [usize; KINDS],
    refused: [usize; ANSWERS],
}

impl Steps {
    pub fn count(&mut self, kind: usize, answer: usize) {
        if answer == 0 {
            self.accepted[kind] += 1;
        } else {
            self.refused[answer] += 1;
        }
    }

    pub fn accepted(&self) -> usize {
        self.accepted.iter().sum()
    }

    pub fn refused(&self, number: usize) -> usize {
        self.refused[number]
    }

    /// A log is announced once at most.
    pub fn announced(&self) -> usize {
        self.accepted[ANNOUNCE]
    }

    pub fn answered(&self) -> usize {
        self.accepted() + self.refused.iter().sum::<usize>()
    }

    pub fn report(&self, name: &str, words: &Words, least: &Met, report: &mut Report) {
        report.each_at_least(
            least.kind,
            (1..ANNOUNCE).map(|kind| {
                let name = format!("{name}: {} accepted", words[kind - 1]);
                (name, self.accepted[kind])
            }),
        );
        let announced = format!("{name}: logs announced");
        report.at_least(announced, self.announced(), least.announced);
        report.each_at_least(
            least.refusal,
            OF_LOG.map(|number| {
                let name = format!("{name}: steps refused with {number}");
                (name, self.refused[number])
            }),
        );
        let others = (0..ANSWERS).filter(|number| !OF_LOG.contains(number));
        report.at_most(
            format!("{name}: steps refused with another number"),
            others.map(|number| self.refused[number]).sum(),
            0,
        );
    }
}
