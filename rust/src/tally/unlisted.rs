//! Starts without lists: how many, and the wrong readings of them that the logs tell apart.

use super::split;
use crate::bounds::{UnlistedAsked, LARGE_RINGS};
use crate::forms::{self, First, RingStart, Wrapped};
use crate::log::run;
use crate::report::Report;
use crate::request::ANNOUNCE;
use crate::sizes::range_name;
use crate::table::UPDATES;
use std::ops::Range;

/// Wrong readings of a start of n nodes without lists: which would be active, and which black. The last is of their color.
type Reading = fn(usize) -> [Range<usize>; 2];
const WRONG: [(&str, Reading); 4] = [
    ("passive", |_| [0..0, 0..0]),
    ("node 0 alone active", |_| [0..1, 0..0]),
    ("all but the last active", |n| [0..n - 1, 0..0]),
    ("active and black", |n| [0..n, 0..n]),
];

#[derive(Default)]
pub struct Unlisted {
    /// Starts accepted, in first lines and later: without lists, and with both empty.
    starts: [usize; 2],
    empty: [usize; 2],
    /// Without lists on large rings.
    large: usize,
    /// Announcements of what was started without lists.
    announced: usize,
    /// Logs whose answers are others by each wrong reading.
    told: [usize; WRONG.len()],
    /// Of the log that is being counted: has a line been accepted, has one been such a start, and what was started so last. A ring is in the place of update 0.
    is_begun: bool,
    is_met: bool,
    is_unlisted: [bool; UPDATES],
}

impl Unlisted {
    pub fn begin_log(&mut self) {
        (self.is_begun, self.is_met) = (false, false);
        self.is_unlisted = [false; UPDATES];
    }

    /// Counts a line that was accepted.
    pub fn count_accepted(&mut self, line: &[u8]) {
        match forms::first(line) {
            Ok(First::Ring(start)) => self.count_start(0, &start),
            Ok(First::Update(update, start)) => self.count_start(update, &start),
            _ => {
                let announced = announced_by(line).is_some_and(|update| self.is_unlisted[update]);
                self.announced += usize::from(announced);
            }
        }
        self.is_begun = true;
    }

    fn count_start(&mut self, update: usize, start: &RingStart) {
        let place = usize::from(self.is_begun);
        let is_unlisted = start.lists.is_none();
        let names_none = |list: &forms::Lists| list.active.is_empty() && list.black.is_empty();
        self.starts[place] += usize::from(is_unlisted);
        self.empty[place] += usize::from(start.lists.as_ref().is_some_and(names_none));
        self.large += usize::from(is_unlisted && LARGE_RINGS.contains(&start.n));
        self.is_met |= is_unlisted;
        self.is_unlisted[update] = is_unlisted;
    }

    /// Reads the log once more, its starts without lists in each wrong way.
    pub fn end_log(&mut self, input: &[u8], output: &[u8]) {
        if self.is_met {
            for (count, (_, reading)) in self.told.iter_mut().zip(WRONG) {
                *count += usize::from(run(&reread(input, reading)) != output);
            }
        }
    }

    pub fn report(&self, of: &str, asked: &UnlistedAsked, report: &mut Report) {
        let places = [
            ("first lines", Some(asked.first)),
            ("later starts", asked.later),
        ];
        for (place, (name, least)) in places.into_iter().enumerate() {
            let Some(least) = least else { continue };
            let counts = [
                ("without lists", self.starts),
                ("with both empty", self.empty),
            ];
            let figure =
                |(how, counts): (&str, [usize; 2])| (format!("{of}: {name} {how}"), counts[place]);
            report.each_at_least(least, counts.map(figure));
        }
        let name = format!(
            "{of}: starts without lists of {}",
            range_name("rings", &LARGE_RINGS)
        );
        report.at_least(name, self.large, asked.large);
        let name = format!("{of}: announced after a start without lists");
        report.at_least(name, self.announced, asked.announced);
        let told = WRONG.iter().zip(self.told).map(|((reading, _), count)| {
            let name = format!("{of}: logs answered otherwise if no lists meant {reading}");
            (name, count)
        });
        let mut told: Vec<(String, usize)> = told.collect();
        let color = told.pop();
        report.each_at_least(asked.activity, told);
        report.each_at_least(asked.color, color);
    }
}

/// The update that a line announces, a ring's being in the place of update 0.
fn announced_by(line: &[u8]) -> Option<usize> {
    let (update, request) = match forms::wrapped(line) {
        Ok((update, Wrapped::Step(request))) => (update, request),
        _ => (0, forms::of_ring(line).ok()?),
    };
    (request.kind == ANNOUNCE).then_some(update)
}

/// A log with lists in every start that has none.
fn reread(input: &[u8], reading: Reading) -> Vec<u8> {
    let mut out = Vec::new();
    for line in split(input) {
        match forms::first(line) {
            Ok(First::Ring(start) | First::Update(_, start)) if is_readable(&start) => {
                let n = start.n;
                let [active, black] = reading(n).map(|nodes| nodes.map(|i| format!(" {i}")));
                let [active, black] = [active, black].map(String::from_iter);
                let lists = format!("(ring {n} (active{active}) (black{black}))");
                let text = String::from_utf8_lossy(line);
                out.extend(text.replace(&format!("(ring {n})"), &lists).bytes());
            }
            _ => out.extend_from_slice(line),
        }
    }
    out
}

/// A start without lists whose number of nodes is in range.
fn is_readable(start: &RingStart) -> bool {
    start.lists.is_none() && start.flags().is_ok()
}

#[cfg(test)]
mod tests {
    use super::{reread, WRONG};

    #[test]
    fn starts_are_read_wrongly() {
        let log = b"(update 1 (ring 3))\n(ring 3)\n(update 1 (probe))\n(ring 97)\n(ring 2 (active 1) (black))\n(ring 3";
        let readings = [
            "(active) (black)",
            "(active 0) (black)",
            "(active 0 1) (black)",
            "(active 0 1 2) (black 0 1 2)",
        ];
        for ((_, reading), lists) in WRONG.iter().zip(readings) {
            let reread = String::from_utf8(reread(log, *reading)).expect("lines of ASCII");
            let log = String::from_utf8_lossy(log);
            assert_eq!(
                reread,
                log.replace("(ring 3)", &format!("(ring 3 {lists})"))
            );
        }
    }
}
