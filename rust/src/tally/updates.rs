//! What was met in the logs of updates.

use super::spellings::Spellings;
use super::{ANSWERS, NOT_A_FORM};
use crate::bounds::logs::WIDTHS;
use crate::bounds::updates::*;
use crate::forms::{self, First, RingStart, Wrapped};
use crate::log::{UpdatesRun, LINE_BYTES};
use crate::own::Own;
use crate::report::Report;
use crate::request::{Request, ANNOUNCE};
use crate::ring::Ring;
use crate::sizes::Sizes;
use crate::table::{Table, UPDATES};
use crate::takes::Takes;

/// Lines of one update that were accepted.
#[derive(Clone, Copy, Default)]
struct Accepted {
    steps: usize,
    starts: usize,
    announced: usize,
    fresh_when_open: usize,
    fresh_when_announced: usize,
}

#[derive(Default)]
pub struct Updates {
    logs: usize,
    lines: usize,
    accepted: [Accepted; UPDATES],
    /// Accepted announcements of large rings.
    announced_on_large: usize,
    /// Lines of another update than the line before.
    changes: usize,
    last: Option<usize>,
    first_lines: [usize; ANSWERS],
    starts: [usize; ANSWERS],
    steps: [usize; ANSWERS],
    /// Steps refused with 13: a number above 7, and one that is not started.
    above: usize,
    not_started: usize,
    /// Lines refused with 13, not if the update's number is cut to so many bits.
    cut: [usize; WIDTHS.len()],
    /// Starts with another N than the fixed one but in range, of an update that runs, of one that is announced, of one not started.
    other_n: [usize; 3],
    no_form: usize,
    /// Of these, forms of bare logs.
    bare: usize,
    /// Lines of exactly the greatest length that are forms, and lines that are not since they have a byte more.
    longest: usize,
    too_long: usize,
    sizes: Sizes,
    takes: Takes,
    own: Own,
    spellings: Spellings,
}

impl Updates {
    /// Counts a first line that begins as an update's.
    pub fn count_first(&mut self, line: &[u8], answer: usize) {
        self.first_lines[answer] += 1;
        self.logs += usize::from(answer == 0);
        self.count_length(line, answer);
        if let Ok(First::Update(update, start)) = forms::first(line) {
            self.count_cut(update, answer);
            if answer == 0 {
                self.count_start(&Table::default(), update, &start, answer);
                self.last = Some(update);
            }
        }
    }

    /// Counts a line after such a first one: what the log led to before it, and its answer.
    pub fn count(&mut self, run: &UpdatesRun, line: &[u8], answer: usize) {
        self.lines += 1;
        self.count_length(line, answer);
        self.spellings.count(line, answer);
        match forms::wrapped(line) {
            Err(_) => self.count_no_form(line),
            Ok((update, wrapped)) => {
                self.changes += usize::from(self.last != Some(update));
                self.last = Some(update);
                self.count_cut(update, answer);
                match wrapped {
                    Wrapped::Start(start) => self.count_start(&run.table, update, &start, answer),
                    Wrapped::Step(request) => self.count_step(&run.table, update, request, answer),
                }
            }
        }
    }

    fn count_length(&mut self, line: &[u8], answer: usize) {
        let is_form = answer != NOT_A_FORM;
        self.longest += usize::from(line.len() == LINE_BYTES && is_form);
        self.too_long += usize::from(line.len() == LINE_BYTES + 1 && !is_form);
    }

    fn count_no_form(&mut self, line: &[u8]) {
        let of_bare = forms::first(line).is_ok()
            || forms::of_ring(line).is_ok()
            || forms::of_tree(line).is_ok();
        self.no_form += 1;
        self.bare += usize::from(of_bare);
    }

    fn count_cut(&mut self, update: usize, answer: usize) {
        for (count, bits) in self.cut.iter_mut().zip(WIDTHS) {
            let is_update = update >= UPDATES && update % (1 << bits) < UPDATES;
            *count += usize::from(answer == UNKNOWN_UPDATE && is_update);
        }
    }

    fn count_start(&mut self, table: &Table, update: usize, start: &RingStart, answer: usize) {
        self.starts[answer] += 1;
        let before = table.updates.get(update).map(Option::as_ref);
        if let (0, Some(before)) = (answer, before) {
            let accepted = &mut self.accepted[update];
            accepted.starts += 1;
            accepted.fresh_when_open += usize::from(before.is_some_and(|ring| !ring.closed));
            accepted.fresh_when_announced += usize::from(before.is_some_and(|ring| ring.closed));
        }
        if let (NODE_COUNT, Some(before), true) = (answer, before, start.flags().is_ok()) {
            self.other_n[before.map_or(2, |ring| usize::from(ring.closed))] += 1;
        }
    }

    fn count_step(&mut self, table: &Table, update: usize, request: Request, answer: usize) {
        self.steps[answer] += 1;
        match table.updates.get(update) {
            None => self.above += 1,
            Some(None) => self.not_started += 1,
            Some(Some(ring)) => self.count_started(ring, update, request, answer),
        }
    }

    fn count_started(&mut self, ring: &Ring, update: usize, request: Request, answer: usize) {
        let accepted = answer == 0;
        self.sizes.count(ring.n, accepted);
        if !ring.closed {
            self.takes.count(ring, request, accepted);
            self.own.count_ring(ring, request, answer);
        }
        let announced = accepted && request.kind == ANNOUNCE;
        self.accepted[update].steps += usize::from(accepted);
        self.accepted[update].announced += usize::from(announced);
        let is_large = ON_LARGE.nodes.contains(&ring.n);
        self.announced_on_large += usize::from(announced && is_large);
    }

    fn sum(&self, number: impl Fn(&Accepted) -> usize) -> usize {
        self.accepted.iter().map(number).sum()
    }

    pub fn report(&self, report: &mut Report) {
        let accepted = self.sum(|of| of.steps + of.starts);
        report.at_least("updates: logs of them", self.logs, LOGS);
        report.told("updates: lines after the first", self.lines);
        let name = "updates: lines accepted";
        report.at_least(name, accepted, (self.lines / ACCEPTED_PART).max(LINES));
        report.at_most(
            "updates: lines that are no form",
            self.no_form,
            self.lines / NO_FORM_PART,
        );
        report.at_least(
            "updates: lines of another update than the line before",
            self.changes,
            self.lines / CHANGES_PART,
        );
        self.report_runs(report);
        self.report_refusals(report);
        self.sizes.report("updates", &[ON_LARGE], SIZES, report);
        self.takes.report("updates", &TAKES, report);
        self.own.report("updates", &OWN, report);
        self.spellings.report("updates", SPELLINGS, report);
    }

    fn report_runs(&self, report: &mut Report) {
        let of_each = |what: &str, number: fn(&Accepted) -> usize| {
            let names = (0..UPDATES).map(|update| format!("update {update}: {what}"));
            let counts = self.accepted.iter().map(number);
            names.zip(counts).collect::<Vec<_>>()
        };
        let steps = of_each("steps accepted", |of| of.steps);
        report.each_at_least(STEPS_OF_EACH, steps);
        let announced = of_each("announced", |of| of.announced);
        report.each_at_least(ANNOUNCED_OF_EACH, announced);
        let announced = self.sum(|of| of.announced);
        report.at_least("updates: announcements", announced, ANNOUNCED);
        report.at_least(
            "updates: announcements of large rings",
            self.announced_on_large,
            ANNOUNCED_ON_LARGE,
        );
        let fresh = [
            ("open", self.sum(|of| of.fresh_when_open)),
            ("announced", self.sum(|of| of.fresh_when_announced)),
        ];
        let fresh =
            fresh.map(|(name, count)| (format!("updates: fresh starts of an {name} one"), count));
        report.each_at_least(FRESH, fresh);
    }

    fn report_refusals(&self, report: &mut Report) {
        let refused = |what: &str, counts: &[usize; ANSWERS], numbers: &[usize]| {
            let figure = |&number: &usize| {
                let name = format!("updates: {what} refused with {number}");
                (name, counts[number])
            };
            numbers.iter().map(figure).collect::<Vec<_>>()
        };
        let first_lines = refused("first lines", &self.first_lines, &OF_FIRST);
        report.each_at_least(FIRST_LINES, first_lines);
        report.each_at_least(STARTS, refused("starts", &self.starts, &OF_START));
        report.each_at_least(STEPS, refused("steps", &self.steps, &OF_STEP));
        let others = |counts: &[usize; ANSWERS], numbers: &[usize]| -> usize {
            let other = (1..ANSWERS).filter(|number| !numbers.contains(number));
            other.map(|number| counts[number]).sum()
        };
        let in_all = others(&self.first_lines, &OF_FIRST)
            + others(&self.starts, &OF_START)
            + others(&self.steps, &OF_STEP);
        report.at_most("updates: lines refused with another number", in_all, 0);
        self.report_causes(report);
    }

    fn report_causes(&self, report: &mut Report) {
        let [open, announced, not_started] = self.other_n;
        let causes = [
            ("steps of an update above 7", self.above),
            ("steps of an update that is not started", self.not_started),
            ("another N for an open update", open),
            ("another N for an announced update", announced),
            ("another N for an update that is not started", not_started),
            ("lines that are no form", self.no_form),
            ("forms of bare logs", self.bare),
        ];
        let names = causes.map(|(name, count)| (format!("updates: {name}"), count));
        report.each_at_least(CAUSES, names);
        let cut =
            WIDTHS.map(|bits| format!("updates: lines refused with 13, not if cut to {bits} bits"));
        report.each_at_least(CAUSES, cut.into_iter().zip(self.cut));
        let lengths = [
            (
                format!("updates: forms of {LINE_BYTES} bytes"),
                self.longest,
            ),
            (
                format!("updates: lines of {} bytes", LINE_BYTES + 1),
                self.too_long,
            ),
        ];
        report.each_at_least(LENGTHS, lengths);
    }
}
