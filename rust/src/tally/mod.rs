//! What was met in the logs that were compared: the answers by their numbers, and steps
//! that one condition of a rule decides alone, by the second implementation's states.

mod cases;
mod spellings;
mod starts;
mod steps;
mod unlisted;
mod updates;

use crate::bounds::logs::{
    ACCEPTED_PART, ANNOUNCED_IN_ALL, NO_FORM_PART, ON_ALL, ON_LARGE, SPELLINGS, UNLISTED, WIDTHS,
};
use crate::bounds::{self, Met};
use crate::forms;
use crate::log::{Log, Run};
use crate::refusal::Refusal;
use crate::report::Report;
use crate::request::Request;
use crate::sizes::{range_name, Sizes};
use cases::{Cases, RingCases, TreeCases};
use spellings::Spellings;
use starts::Starts;
use steps::{Steps, Words};
use unlisted::Unlisted;
use updates::Updates;

/// Numbers of answers: 0 is an accepted line, 1 to 13 but 7 are the refusals of a log.
const ANSWERS: usize = Refusal::UnknownUpdate as usize + 1;
const CLOSED: usize = 4;
const UNKNOWN_NODE: usize = 6;
const NOT_A_FORM: usize = 10;
/// What a line of an update begins with.
const UPDATE: &[u8] = b"(update ";

/// The lines of a log, each with its byte 10 if it has one.
pub fn split(bytes: &[u8]) -> impl Iterator<Item = &[u8]> {
    bytes.split_inclusive(|&byte| byte == b'\n')
}

/// The number of an answer: `(ok LINE)` is 0, `(no LINE NUMBER)` its last number, which is never 7, nor one of the packing station.
fn number_of(answer: &[u8]) -> usize {
    if answer.starts_with(b"(ok ") {
        return 0;
    }
    let last = answer.rsplit(|&byte| byte == b' ').next();
    let digits = last.unwrap_or_default().iter();
    let number = digits
        .filter(|byte| byte.is_ascii_digit())
        .fold(0, |value, digit| 10 * value + usize::from(digit - b'0'));
    assert_ne!(number, Refusal::RETIRED as usize, "a retired answer");
    let of_station = Refusal::OF_STATION.map(|refusal| refusal.number() as usize);
    assert!(!of_station.contains(&number), "an answer of the station");
    number
}

/// What one detector met, on all sizes or on some.
#[derive(Default)]
struct Part<C> {
    steps: Steps,
    cases: C,
    /// Steps refused with 6 whose numbers are nodes if they are cut to so many bits.
    cut: [usize; WIDTHS.len()],
}

impl<C: Cases> Part<C> {
    fn count(&mut self, state: &C::State, request: Option<Request>, answer: usize) {
        let kind = request.map_or(0, |request| request.kind);
        self.steps.count(kind, answer);
        if let Some(request) = request.filter(|_| answer != CLOSED) {
            self.cases.count(state, request, answer);
        }
        if let Some(request) = request.filter(|_| answer == UNKNOWN_NODE) {
            self.count_cut(C::n(state), request);
        }
    }

    fn count_cut(&mut self, n: usize, request: Request) {
        for (count, bits) in self.cut.iter_mut().zip(WIDTHS) {
            let are_nodes = C::nodes(request).iter().all(|i| i % (1 << bits) < n);
            *count += usize::from(are_nodes);
        }
    }

    fn report(&self, name: &str, words: &Words, least: &Met, report: &mut Report) {
        self.steps.report(name, words, least, report);
        self.cases.report(name, least, report);
        let names =
            WIDTHS.map(|bits| format!("{name}: steps refused with 6, not if cut to {bits} bits"));
        report.each_at_least(least.cut, names.into_iter().zip(self.cut));
    }
}

/// What one detector met.
#[derive(Default)]
struct Detector<C> {
    all: Part<C>,
    large: Part<C>,
    sizes: Sizes,
    spellings: Spellings,
}

impl<C: Cases> Detector<C> {
    /// Counts a line after the first: the state before it, its request if it is a form, and its answer.
    fn count(&mut self, state: &C::State, request: Option<Request>, answer: usize) {
        let n = C::n(state);
        self.all.count(state, request, answer);
        if C::LARGE.contains(&n) {
            self.large.count(state, request, answer);
        }
        self.sizes.count(n, answer == 0);
    }

    fn report(&self, report: &mut Report) {
        self.all.report(C::NAME, &C::WORDS, &ON_ALL, report);
        self.sizes.report(C::NAME, &C::ASKED, C::SIZES, report);
        let name = range_name(C::NAME, &C::LARGE);
        self.large.report(&name, &C::WORDS, &ON_LARGE, report);
        self.all.cases.report_takes(C::NAME, false, report);
        self.large.cases.report_takes(&name, true, report);
        self.all.cases.report_own(C::NAME, false, report);
        self.large.cases.report_own(&name, true, report);
    }
}

/// All that was met.
#[derive(Default)]
pub struct Tally {
    logs: usize,
    unread: usize,
    starts: Starts,
    ring: Detector<RingCases>,
    tree: Detector<TreeCases>,
    updates: Updates,
    /// Lines of updates in bare logs.
    misplaced: usize,
    unlisted: Unlisted,
}

impl Tally {
    /// Counts a log and its answers, which are those of the second implementation.
    pub fn count(&mut self, input: &[u8], output: &[u8]) {
        let mut log = Log::new();
        let mut answers = split(output).map(number_of);
        self.logs += 1;
        self.unlisted.begin_log();
        if input.is_empty() {
            self.starts.count(input, NOT_A_FORM);
        }
        for line in split(input) {
            if log.is_over() {
                self.unread += 1;
                continue;
            }
            let answer = answers.next().expect("an answer to each line that is read");
            self.count_line(log.run(), line, answer);
            if answer == 0 {
                self.unlisted.count_accepted(line);
            }
            log.feed(line, &mut Vec::new());
        }
        self.unlisted.end_log(input, output);
    }

    fn count_line(&mut self, run: &Run, line: &[u8], answer: usize) {
        match run {
            Run::Unstarted | Run::Refused if line.starts_with(UPDATE) => {
                self.updates.count_first(line, answer);
            }
            Run::Unstarted | Run::Refused => self.starts.count(line, answer),
            Run::Ring(run) => {
                let request = forms::of_ring(line).ok();
                self.ring.count(&run.ring, request, answer);
                self.ring.spellings.count(line, answer);
                self.misplaced += usize::from(forms::wrapped(line).is_ok());
            }
            Run::Tree(tree) => {
                self.tree.count(tree, forms::of_tree(line).ok(), answer);
                self.tree.spellings.count(line, answer);
                self.misplaced += usize::from(forms::wrapped(line).is_ok());
            }
            Run::Updates(run) => self.updates.count(run, line, answer),
        }
    }

    /// A number of both detectors' steps.
    fn both(&self, number: impl Fn(&Steps) -> usize) -> usize {
        number(&self.ring.all.steps) + number(&self.tree.all.steps)
    }

    /// Logs and lines, and the shares of accepted lines and of lines that are no form.
    pub fn report_shares(&self, logs: &str, report: &mut Report) {
        let steps = self.both(Steps::answered);
        report.told(logs, self.logs);
        report.told(format!("{logs}: lines answered after the first"), steps);
        report.at_least(
            format!("{logs}: accepted steps"),
            self.both(Steps::accepted),
            steps.div_ceil(ACCEPTED_PART),
        );
        report.at_most(
            format!("{logs}: lines that are no form"),
            self.both(|steps| steps.refused(NOT_A_FORM)),
            steps / NO_FORM_PART,
        );
        report.told(format!("{logs}: lines past what is read"), self.unread);
    }

    pub fn report(&self, report: &mut Report) {
        self.starts.report(report);
        self.unlisted.report("logs", &UNLISTED, report);
        let announced = self.both(Steps::announced);
        report.at_least("logs announced", announced, ANNOUNCED_IN_ALL);
        self.ring.report(report);
        self.ring.spellings.report("ring", SPELLINGS, report);
        self.tree.report(report);
        self.tree.spellings.report_tree(SPELLINGS, report);
    }

    /// What is asked of the logs of updates, and of bare logs with lines of updates.
    pub fn report_updates(&self, report: &mut Report) {
        self.updates.report(report);
        self.unlisted
            .report("updates", &bounds::updates::UNLISTED, report);
        report.at_least(
            "lines of updates in bare logs",
            self.misplaced,
            bounds::updates::CAUSES,
        );
    }
}

#[cfg(test)]
mod tests {
    use super::{number_of, Tally};

    #[test]
    fn numbers_of_answers() {
        let answers: [&[u8]; 4] = [b"(ok 7)\n", b"(no 7 8)\n", b"(no 7 13)\n", b"(no 17 4)\n"];
        assert_eq!(answers.map(number_of), [0, 8, 13, 4]);
    }

    #[test]
    #[should_panic(expected = "a retired answer")]
    fn a_retired_answer_fails() {
        Tally::default().count(b"(ring 2)\n(send 1 1)\n", b"(ok 1)\n(no 2 7)\n");
    }

    #[test]
    #[should_panic(expected = "an answer of the station")]
    fn a_job_word_fails() {
        Tally::default().count(b"(ring 2)\n(take 1 5)\n", b"(ok 1)\n(no 2 14)\n");
    }

    #[test]
    #[should_panic(expected = "an answer of the station")]
    fn unequal_marks_fail() {
        Tally::default().count(b"(ring 2)\n(announce)\n", b"(ok 1)\n(no 2 15)\n");
    }
}
