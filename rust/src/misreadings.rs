//! Wrong readings of request Q-7: a comparison has to meet calls on which each of them differs from the right one.

use crate::bounds::panels::MISREAD;
use crate::panel::{Mark, Panel, CLOSE, MAP_OLD};
use crate::refusal::Refusal;
use crate::report::Report;
use crate::request::{Request, SEND, TAKE};
use crate::ring::{Ring, MAX_NODES};

type Answer = Result<(), Refusal>;
type Step = fn(&mut Panel, Request) -> Answer;
type Start = fn(&mut Panel, usize, &[u8]) -> Answer;

/// A panel's calls as they are read wrongly; what it leaves after a refusal may be another panel.
pub struct Misreading {
    pub name: &'static str,
    pub step: Step,
    pub start: Start,
}

const fn of_step(name: &'static str, step: Step) -> Misreading {
    let start = Panel::start;
    Misreading { name, step, start }
}

const fn of_start(name: &'static str, start: Start) -> Misreading {
    let step = Panel::step;
    Misreading { name, step, start }
}

pub const MISREADINGS: [Misreading; 24] = [
    of_step("a send marks its receiver", |panel, request| {
        let answer = panel.step(request);
        if (request.kind, answer) == (SEND, Ok(())) {
            panel.firmware[request.j] = Mark::New;
        }
        answer
    }),
    of_step("firmware and map exchanged", |panel, request| {
        with_words(panel, request, [2, 1, 4, 3])
    }),
    of_step("old and new exchanged", |panel, request| {
        with_words(panel, request, [3, 4, 1, 2])
    }),
    of_step("words 2 and 3 exchanged", |panel, request| {
        with_words(panel, request, [1, 3, 2, 4])
    }),
    of_step("no job sets a mark old", |panel, request| {
        let marks = (panel.firmware, panel.map);
        let answer = panel.step(request);
        if request.j > 2 {
            (panel.firmware, panel.map) = marks;
        }
        answer
    }),
    of_step("a refused take sets the mark", |panel, request| {
        let answer = panel.step(request);
        if (request.kind, request.j, answer) == (TAKE, 1, Err(Refusal::RuleFails)) {
            panel.firmware[request.i] = Mark::New;
        }
        answer
    }),
    of_step(
        "a take of as many jobs as its word",
        |panel, request| match panel.step(request) {
            Ok(()) if request.kind == TAKE && request.j > 1 => {
                let more = Request::new(TAKE, request.i, request.j - 1);
                panel.ring.step(more)
            }
            answer => answer,
        },
    ),
    of_step("the job word is a node", |panel, request| {
        let told = |answer| matches!(answer, Ok(()) | Err(Refusal::RuleFails));
        let beyond = request.kind == TAKE && request.j >= panel.ring.n;
        if beyond && told(panel.clone().step(request)) {
            return Err(Refusal::UnknownNode);
        }
        panel.step(request)
    }),
    of_step("14 before 4", |panel, request| {
        told_early(panel, request, Refusal::Closed)
    }),
    of_step("14 before 6", |panel, request| {
        told_early(panel, request, Refusal::UnknownNode)
    }),
    of_step("14 after 8", |panel, request| match panel.step(request) {
        Err(Refusal::JobWord) if panel.ring.pending[request.i] == 0 => Err(Refusal::RuleFails),
        answer => answer,
    }),
    of_step("8 for a job word", |panel, request| {
        let answer = panel.step(request);
        answer.map_err(|refusal| match refusal {
            Refusal::JobWord => Refusal::RuleFails,
            refusal => refusal,
        })
    }),
    of_step("15 before 8", |panel, request| match panel.step(request) {
        Err(Refusal::RuleFails) if request.kind == CLOSE && panel.agreed().is_none() => {
            Err(Refusal::UnequalMarks)
        }
        answer => answer,
    }),
    of_step("a 15 closes the ring", |panel, request| {
        let answer = panel.step(request);
        panel.ring.closed |= answer == Err(Refusal::UnequalMarks);
        answer
    }),
    of_step("a close compares no marks", |panel, request| {
        closing(panel, request, |_| true)
    }),
    of_step("a close compares the firmware alone", |panel, request| {
        closing(panel, request, |panel| same(&panel.firmware, panel.ring.n))
    }),
    of_step("a close compares the maps alone", |panel, request| {
        closing(panel, request, |panel| same(&panel.map, panel.ring.n))
    }),
    of_step(
        "a close compares each column by itself",
        |panel, request| {
            closing(panel, request, |panel| {
                same(&panel.firmware, panel.ring.n) && same(&panel.map, panel.ring.n)
            })
        },
    ),
    of_step("a close compares each node by itself", |panel, request| {
        closing(panel, request, |panel| panel.firmware == panel.map)
    }),
    of_step("a close leaves out the last node", |panel, request| {
        closing(panel, request, |panel| {
            let word = panel.firmware[0];
            (0..panel.ring.n - 1).all(|i| panel.marks(i) == [word; 2])
        })
    }),
    of_step("a close compares all 96 places", |panel, request| {
        closing(panel, request, |panel| {
            let word = panel.firmware[0];
            (0..MAX_NODES).all(|i| panel.marks(i) == [word; 2])
        })
    }),
    of_start("a start makes the marks old", |panel, n, flags| {
        panel.start(n, flags)?;
        *panel = Panel::enter(n, flags)?;
        Ok(())
    }),
    of_start("a start keeps the record", |panel, n, flags| {
        let recorded = panel.recorded;
        panel.start(n, flags)?;
        panel.recorded = recorded;
        Ok(())
    }),
    of_start("a start with another N", |panel, n, flags| {
        match panel.start(n, flags) {
            Err(Refusal::NodeCount) => {
                panel.ring = Ring::start(n, flags)?;
                panel.recorded = None;
                Ok(())
            }
            answer => answer,
        }
    }),
];

/// A take with another word in the place of each.
fn with_words(panel: &mut Panel, request: Request, words: [usize; MAP_OLD]) -> Answer {
    let word = words.get(request.j.wrapping_sub(1));
    match (request.kind, word) {
        (TAKE, Some(&word)) => panel.step(Request::new(TAKE, request.i, word)),
        _ => panel.step(request),
    }
}

/// 14 in the place of the refusal, for a take whose word is none.
fn told_early(panel: &mut Panel, request: Request, refusal: Refusal) -> Answer {
    let is_word = (1..=MAP_OLD).contains(&request.j);
    match panel.step(request) {
        Err(told) if told == refusal && request.kind == TAKE && !is_word => Err(Refusal::JobWord),
        answer => answer,
    }
}

/// A close by another test of the marks; the record is the firmware's word of node 0.
fn closing(panel: &mut Panel, request: Request, agree: fn(&Panel) -> bool) -> Answer {
    let answer = panel.clone().step(request);
    if request.kind != CLOSE || !matches!(answer, Ok(()) | Err(Refusal::UnequalMarks)) {
        return panel.step(request);
    }
    if !agree(panel) {
        return Err(Refusal::UnequalMarks);
    }
    panel.recorded = Some(panel.firmware[0]);
    panel.ring.step(request)
}

fn same(column: &[Mark], n: usize) -> bool {
    column[..n].iter().all(|mark| *mark == column[0])
}

/// Calls on which each wrong reading differs from the right one, in the answer or in the panel after it.
#[derive(Default)]
pub struct Misread([usize; MISREADINGS.len()]);

impl Misread {
    /// Counts a step of a sound panel; by other kinds than these none differs.
    pub fn count_step(&mut self, panel: &Panel, request: Request) {
        if [SEND, TAKE, CLOSE].contains(&request.kind) {
            self.count(panel, |panel, reading| (reading.step)(panel, request));
        }
    }

    /// Counts a start of a sound panel.
    pub fn count_start(&mut self, panel: &Panel, n: usize, flags: &[u8]) {
        self.count(panel, |panel, reading| (reading.start)(panel, n, flags));
    }

    fn count(&mut self, panel: &Panel, call: impl Fn(&mut Panel, &Misreading) -> Answer) {
        const RIGHT: Misreading = of_step("the right one", Panel::step);
        let after = |reading: &Misreading| {
            let mut next = panel.clone();
            (call(&mut next, reading), next)
        };
        let right = after(&RIGHT);
        for (count, reading) in self.0.iter_mut().zip(&MISREADINGS) {
            *count += usize::from(after(reading) != right);
        }
    }

    /// How often each wrong reading differed.
    pub fn counts(&self) -> impl Iterator<Item = (&'static str, usize)> + '_ {
        let names = MISREADINGS.iter().map(|reading| reading.name);
        names.zip(self.0)
    }

    pub fn report(&self, of: &str, report: &mut Report) {
        let figures = self.counts().map(|(name, count)| {
            (
                format!("{of}: told apart from a wrong reading: {name}"),
                count,
            )
        });
        report.each_at_least(MISREAD, figures);
    }
}
