//! What the calls on panels met: closes, unequal marks, job words, starts, and calls to which two refusals apply.

use second::bounds::panels::{
    BOTH, CLOSED, CLOSED_ON_LARGE, ORDER, STARTED, UNEQUAL, WIDTHS, WORDS,
};
use second::bounds::LARGE_RINGS;
use second::panel::{Mark, Panel, CLOSE, MAP_OLD};
use second::report::Report;
use second::request::{Request, TAKE};
use second::ring::MAX_NODES;
use second::sizes::range_name;

/// How the marks of a panel that is refused with 15 differ.
const UNLIKE: [&str; 6] = [
    "one firmware mark",
    "one map mark",
    "a mark of node 0 alone",
    "a mark of the last node alone",
    "the firmware marks alike, the map marks alike",
    "the two marks of each node alike",
];
/// The words next to those of jobs.
const NEXT_WORDS: [usize; 2] = [0, MAP_OLD + 1];
const STARTS: [&str; 5] = [
    "accepted of a released panel",
    "accepted after a 15",
    "accepted of a panel that runs",
    "refused with 1, another N in range",
    "refused with 1, N out of range",
];

#[derive(Default)]
pub struct Cases {
    /// Runs that were closed, by the word that is recorded.
    closed: [usize; 2],
    closed_on_large: [usize; 2],
    unlike: [usize; UNLIKE.len()],
    /// Words refused with 14: next to those of jobs, and jobs' if they are cut to so many bits.
    next_words: [usize; NEXT_WORDS.len()],
    cut: [usize; WIDTHS.len()],
    both: [usize; BOTH.len()],
    starts: [usize; STARTS.len()],
    /// Starts accepted with a mark that is new.
    kept: usize,
}

impl Cases {
    /// Counts the answer to a step of a sound panel.
    pub fn count_step(&mut self, panel: &Panel, request: Request, told: u8) {
        match (request.kind, told) {
            (CLOSE, 15) => self.count_unlike(panel),
            (TAKE, 14) => self.count_word(request.j),
            _ => {}
        }
        let no_word = request.kind == TAKE && !(1..=MAP_OLD).contains(&request.j);
        let known = request.i < panel.ring.n;
        let second = match told {
            4 if !(1..=CLOSE).contains(&request.kind) => 5,
            4 if no_word && known => 14,
            6 if no_word => 14,
            14 if panel.ring.pending[request.i] == 0 => 8,
            8 if request.kind == CLOSE && panel.agreed().is_none() => 15,
            _ => return,
        };
        self.count_both([told, second]);
    }

    /// Counts a 3 to a panel's step or start, to which another number applies too.
    pub fn count_unsound(&mut self, another_n: bool, request: Request) {
        if another_n {
            self.count_both([3, 1]);
        }
        if request.kind == TAKE && !(1..=MAP_OLD).contains(&request.j) {
            self.count_both([3, 14]);
        }
    }

    fn count_both(&mut self, numbers: [u8; 2]) {
        let place = BOTH.iter().position(|both| *both == numbers);
        self.both[place.expect("two that are known")] += 1;
    }

    /// Counts a run that was closed.
    pub fn count_close(&mut self, panel: &Panel) {
        let word = usize::from(panel.recorded == Some(Mark::New));
        self.closed[word] += 1;
        self.closed_on_large[word] += usize::from(LARGE_RINGS.contains(&panel.ring.n));
    }

    fn count_unlike(&mut self, panel: &Panel) {
        let n = panel.ring.n;
        let columns = [&panel.firmware[..n], &panel.map[..n]];
        let counts = columns.map(|marks| marks.iter().filter(|&&m| m == Mark::New).count());
        let [firmware, map] = columns.map(|marks| marks.iter().all(|m| *m == marks[0]));
        let new = counts[0] + counts[1];
        let rare = if new == 1 { Mark::New } else { Mark::Old };
        let alone = [1, 2 * n - 1].contains(&new);
        let is_rare = |i: usize| alone && panel.marks(i).contains(&rare);
        let alike = (0..n).all(|i| panel.firmware[i] == panel.map[i]);
        let found = [
            alone && n > 1 && !firmware,
            alone && n > 1 && !map,
            n > 1 && is_rare(0),
            n > 1 && is_rare(n - 1),
            firmware && map,
            alike,
        ];
        for (count, found) in self.unlike.iter_mut().zip(found) {
            *count += usize::from(found);
        }
    }

    fn count_word(&mut self, word: usize) {
        for (count, next) in self.next_words.iter_mut().zip(NEXT_WORDS) {
            *count += usize::from(word == next);
        }
        for (count, bits) in self.cut.iter_mut().zip(WIDTHS) {
            *count += usize::from((1..=MAP_OLD).contains(&(word % (1 << bits))));
        }
    }

    /// Counts the answer to a start of a sound panel.
    pub fn count_start(&mut self, panel: &Panel, n: usize, told: u8) {
        let stuck = panel.ring.is_conclusive() && panel.agreed().is_none();
        let place = match told {
            0 if panel.ring.closed => 0,
            0 if stuck => 1,
            0 => 2,
            1 if (1..=MAX_NODES).contains(&n) => 3,
            1 => 4,
            _ => return,
        };
        self.starts[place] += 1;
        let new = panel.firmware.contains(&Mark::New) || panel.map.contains(&Mark::New);
        self.kept += usize::from(told == 0 && new);
    }

    pub fn report(&self, report: &mut Report) {
        let large = range_name("panel", &LARGE_RINGS);
        for (least, of, closed) in [
            (CLOSED, "panel", self.closed),
            (CLOSED_ON_LARGE, &large, self.closed_on_large),
        ] {
            let names = ["old", "new"].map(|word| format!("{of}: runs closed, {word} recorded"));
            report.each_at_least(least, names.into_iter().zip(closed));
        }
        let unlike = UNLIKE.map(|name| format!("panel: closes refused with 15, unlike: {name}"));
        report.each_at_least(UNEQUAL, unlike.into_iter().zip(self.unlike));
        let next = NEXT_WORDS.map(|word| format!("panel: takes of word {word} refused with 14"));
        report.each_at_least(WORDS, next.into_iter().zip(self.next_words));
        let cut =
            WIDTHS.map(|bits| format!("panel: takes refused with 14, not if cut to {bits} bits"));
        report.each_at_least(WORDS, cut.into_iter().zip(self.cut));
        let both = BOTH.map(|[first, second]| {
            format!("panel: calls refused with {first} to which {second} applies too")
        });
        report.each_at_least(ORDER, both.into_iter().zip(self.both));
        let starts = STARTS.map(|name| format!("panel: starts {name}"));
        report.each_at_least(STARTED, starts.into_iter().zip(self.starts));
        let name = "panel: starts accepted that keep a new mark";
        report.at_least(name, self.kept, STARTED);
    }
}
