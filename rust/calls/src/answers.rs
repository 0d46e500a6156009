//! How often each number was the answer to a call, on all sizes and on the large ones.

use second::bounds::calls::{ACCEPTED_PART, ANSWER, ANSWER_ON_LARGE};
use second::refusal::Refusal;
use second::report::Report;
use second::sizes::range_name;
use std::ops::RangeInclusive;

/// One more than the greatest answer, the driver's 102.
const NUMBERS: usize = 103;

pub struct Answers {
    name: String,
    least: usize,
    counts: [usize; NUMBERS],
}

impl Answers {
    pub fn new(name: impl Into<String>) -> Self {
        Self {
            name: name.into(),
            least: ANSWER,
            counts: [0; NUMBERS],
        }
    }

    /// No call answers with the retired number.
    pub fn count(&mut self, number: u8) {
        assert_ne!(u32::from(number), Refusal::RETIRED, "{}", self.name);
        self.counts[usize::from(number)] += 1;
    }

    fn of(&self, number: usize) -> usize {
        self.counts[number]
    }

    pub fn total(&self) -> usize {
        self.counts.iter().sum()
    }

    /// Each of `numbers` was answered often enough.
    pub fn report(&self, numbers: &[usize], report: &mut Report) {
        let figures = numbers.iter().map(|&number| {
            let name = format!("{} answered {number}", self.name);
            (name, self.of(number))
        });
        report.each_at_least(self.least, figures);
    }

    /// No number was answered but these.
    fn report_others(&self, numbers: &[usize], report: &mut Report) {
        let these: usize = numbers.iter().map(|&number| self.of(number)).sum();
        let name = format!("{} answered another number", self.name);
        report.at_most(name, self.total() - these, 0);
    }

    /// Each of `numbers` was answered often enough, and no other one was.
    pub fn report_all(&self, numbers: &[usize], report: &mut Report) {
        self.report(numbers, report);
        self.report_others(numbers, report);
    }
}

/// Answers to calls on states of one detector.
pub struct BySize {
    all: Answers,
    large: Answers,
    large_sizes: RangeInclusive<usize>,
}

impl BySize {
    pub fn new(detector: &str, large_sizes: RangeInclusive<usize>, what: &str) -> Self {
        let large = range_name(detector, &large_sizes);
        Self {
            all: Answers::new(format!("{detector}: {what}")),
            large: Answers {
                least: ANSWER_ON_LARGE,
                ..Answers::new(format!("{large}: {what}"))
            },
            large_sizes,
        }
    }

    /// The answer to a call on `n` nodes.
    pub fn count(&mut self, n: usize, number: u8) {
        self.all.count(number);
        if self.large_sizes.contains(&n) {
            self.large.count(number);
        }
    }

    pub fn total(&self) -> usize {
        self.all.total()
    }

    pub fn report(&self, numbers: &[usize], report: &mut Report) {
        self.all.report(numbers, report);
        self.large.report(numbers, report);
    }

    pub fn report_all(&self, numbers: &[usize], report: &mut Report) {
        self.all.report_all(numbers, report);
        self.large.report_all(numbers, report);
    }

    /// At least half of the calls were accepted, and each of `refusals` was met.
    pub fn report_half(&self, refusals: &[usize], report: &mut Report) {
        for answers in [&self.all, &self.large] {
            let (name, total) = (&answers.name, answers.total());
            report.told(name, total);
            let least = total.div_ceil(ACCEPTED_PART);
            report.at_least(format!("{name} accepted"), answers.of(0), least);
            answers.report(refusals, report);
            answers.report_others(&[&[0], refusals].concat(), report);
        }
    }
}
