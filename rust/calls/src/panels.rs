//! Panels by calls: enters, whole runs with starts in between, panels that are made to be closed or to be refused with 15, and wild ones.

use crate::answers::{Answers, BySize};
use crate::fail;
use crate::lent_panel::LentPanel;
use crate::panel_cases::Cases;
use crate::panel_damage::{all_bytes, Damaged};
use crate::panel_runs::{no_word, panel, panel_of, size, Course, SORTS};
use crate::requests::no_counts;
use crate::rings::{flags, FIELDS};
use crate::same_panels::{same_enter, same_soundness, same_start, same_step};
use second::bounds::answers::{IS_SOUND, OF_PANEL_STEP, PANEL_ENTER, PANEL_START};
use second::bounds::panels::{ENTERS, MADE, ON_PANELS, OWN, STEPS};
use second::bounds::LARGE_RINGS;
use second::generate::Rng;
use second::misreadings::Misread;
use second::own::Own;
use second::panel::{Panel, CLOSE};
use second::report::Report;
use second::request::{Request, PASS, PROBE, TAKE};
use second::ring::{Reason, Ring, MAX_NODES, MOVE_LIMIT};
use second::sizes::Sizes;

pub fn compare(seed: u64, report: &mut Report) {
    let mut random = Rng::new(seed);
    let mut panels = Panels::new(seed);
    for _ in 0..ENTERS {
        panels.enter(&mut random);
    }
    while panels.steps.total() < STEPS {
        panels.run(&mut random);
    }
    for turn in 0..MADE * SORTS.len() {
        panels.made(turn % SORTS.len(), turn / SORTS.len(), &mut random);
    }
    panels.report(report);
    all_bytes(seed, &panels.seen, &mut random, report);
}

/// How many panels of runs are kept for the bytes.
const OF_RUNS: usize = 3;
/// Requests to a panel that accepts none, or a close alone.
const STRAYS: usize = 6;

struct Panels {
    seed: u64,
    enters: Answers,
    starts: Answers,
    steps: BySize,
    soundness: Answers,
    wild_starts: Answers,
    wild_steps: Answers,
    sizes: Sizes,
    own: Own,
    cases: Cases,
    misread: Misread,
    damaged: Damaged,
    /// Made panels by the sort of their marks: closed, or refused with 15 and no step accepted.
    made: [usize; SORTS.len()],
    /// Panels of which every value of each byte is tried: of runs, and made ones that are closed or refused with 15.
    seen: Vec<Panel>,
}

impl Panels {
    fn new(seed: u64) -> Self {
        Self {
            seed,
            enters: Answers::new("panel: enters"),
            starts: Answers::new("panel: starts"),
            steps: BySize::new("panel", LARGE_RINGS, "steps of runs"),
            soundness: Answers::new("panel: soundness"),
            wild_starts: Answers::new("panel: starts of wild panels"),
            wild_steps: Answers::new("panel: steps of wild panels"),
            sizes: Sizes::default(),
            own: Own::default(),
            cases: Cases::default(),
            misread: Misread::default(),
            damaged: Damaged::default(),
            made: [0; SORTS.len()],
            seen: Vec::new(),
        }
    }

    /// An enter into noise, with N and flags in range and about it.
    fn enter(&mut self, random: &mut Rng) {
        let (n, flags) = flags(random);
        let noise = LentPanel::noise(random);
        self.enters.count(same_enter(self.seed, &noise, n, &flags));
    }

    /// Runs of one panel, each from a start on; now and then any start, and wild panels.
    fn run(&mut self, random: &mut Rng) {
        let mut panel = panel(random);
        self.see(OF_RUNS, &panel);
        let mut course = Course::new(random);
        let mut runs = 1 + random.below(4);
        loop {
            match course.next(&panel, random) {
                Some(request) => {
                    let was_open = !panel.ring.closed;
                    self.step(&mut panel, request);
                    if was_open && panel.ring.closed {
                        self.cases.count_close(&panel);
                    }
                }
                None if runs > 1 => {
                    runs -= 1;
                    let flags = run_flags(panel.ring.n, random);
                    self.start(&mut panel, flags.len(), &flags);
                    course = Course::new(random);
                }
                None => return,
            }
            match random.below(100) {
                0..=2 => self.any_start(&mut panel, random),
                3 | 4 => self.damaged.all(self.seed, &panel, random),
                5 => {
                    let noise = self.damaged.noise(self.seed, random);
                    self.wild(noise, &panel, random);
                }
                6..=14 => {
                    let field = random.below(FIELDS.len());
                    let broken = self.damaged.broken(self.seed, &panel, field, random);
                    self.wild(broken, &panel, random);
                }
                _ => {}
            }
        }
    }

    /// Keeps the panel unless as many are kept already.
    fn see(&mut self, most: usize, panel: &Panel) {
        if self.seen.len() < most {
            self.seen.push(panel.clone());
        }
    }

    fn step(&mut self, panel: &mut Panel, request: Request) -> u8 {
        let (told, next) = same_step(self.seed, &LentPanel::of(panel), request);
        let n = panel.ring.n;
        self.steps.count(n, told);
        self.sizes.count(n, told == 0);
        if !panel.ring.closed {
            let answer = usize::from(told);
            self.own.count_ring(&panel.ring, request, answer);
        }
        self.cases.count_step(panel, request, told);
        self.misread.count_step(panel, request);
        *panel = next.panel().expect("a run's bytes");
        self.opened(panel);
        told
    }

    /// Whoever opens a released panel finds every mark equal to the record.
    fn opened(&self, panel: &Panel) {
        let equal = |i: usize| panel.marks(i).map(Some) == [panel.recorded; 2];
        if panel.ring.closed && !(0..panel.ring.n).all(equal) {
            fail(self.seed, &format!("released with other marks: {panel:?}"));
        }
    }

    fn start(&mut self, panel: &mut Panel, n: usize, flags: &[u8]) {
        let (told, next) = same_start(self.seed, &LentPanel::of(panel), n, flags);
        self.starts.count(told);
        self.cases.count_start(panel, n, told);
        self.misread.count_start(panel, n, flags);
        *panel = next.panel().expect("a run's bytes");
        self.opened(panel);
    }

    /// N and flags in range and about it; the panel's own N mostly. A start that is accepted is gone on from now and then.
    fn any_start(&mut self, panel: &mut Panel, random: &mut Rng) {
        let n = match random.below(5) {
            0 => random.pick(&no_counts(MAX_NODES)),
            1 => 1 + random.below(MAX_NODES),
            _ => panel.ring.n,
        };
        let count = match random.below(5) {
            0 => random.below(MAX_NODES + 2),
            _ => n.min(MAX_NODES + 1),
        };
        let mut flags: Vec<u8> = (0..count).map(|_| random.below(4) as u8).collect();
        if count > 0 && random.chance(30) {
            flags[random.below(count)] = 4 + random.below(252) as u8;
        }
        let mut next = panel.clone();
        self.start(&mut next, n, &flags);
        if random.chance(20) {
            *panel = next;
        }
    }

    /// A wild panel, asked what may be asked of the panel; and the panel's own soundness.
    fn wild(&mut self, wild: LentPanel, panel: &Panel, random: &mut Rng) {
        let seed = self.seed;
        let request = self.stray(panel, random);
        let (step, _) = same_step(seed, &wild, request);
        self.wild_steps.count(step);
        let any = random.below(MAX_NODES + 2);
        let n = random.pick(&[panel.ring.n, panel.ring.n, any]);
        let flags: Vec<u8> = (0..n).map(|_| random.below(5) as u8).collect();
        let (start, _) = same_start(seed, &wild, n, &flags);
        self.wild_starts.count(start);
        if (step, start) == (3, 3) {
            self.cases.count_unsound(n != wild.ring.n, request);
        }
        for lent in [wild, LentPanel::of(panel)] {
            self.soundness.count(same_soundness(seed, &lent));
        }
    }

    /// Any request but a close; now and then a kind, a node and a word about and beyond their ranges.
    fn stray(&self, panel: &Panel, random: &mut Rng) -> Request {
        let n = panel.ring.n;
        let near = random.below(n);
        let [kind, word] = [(); 2].map(|()| no_word(random));
        let take = Request::new(TAKE, random.pick(&[near, near, n, n + 1]), word);
        let unknown = Request::new(random.pick(&[0, 7, 257, kind | 1 << 8]), near, near);
        let moves = [Request::new(PROBE, 0, 0), Request::new(PASS, n - 1, 0)];
        let any = Course::new(random).any(panel, false, random);
        match random.pick(&[any, any, take, unknown, moves[0], moves[1]]) {
            close if close.kind == CLOSE => take,
            other => other,
        }
    }
}

/// Flags of a start that is accepted, one node active mostly.
fn run_flags(n: usize, random: &mut Rng) -> Vec<u8> {
    let mut flags: Vec<u8> = (0..n).map(|_| random.below(4) as u8).collect();
    if random.chance(80) {
        flags[random.below(n)] |= 1;
    }
    flags
}

/// A quiet ring, with some messages sent and received.
fn quiet(n: usize, random: &mut Rng) -> Ring {
    let flags: Vec<u8> = (0..n).map(|_| 2 * random.below(2) as u8).collect();
    let mut ring = Ring::start(n, &flags).expect("a start in range");
    let sends = random.below(5) as u32;
    ring.sent[random.below(ring.n)] = sends;
    ring.received[random.below(ring.n)] = sends;
    ring
}

impl Panels {
    /// A quiet panel with marks of a sort, of each N in turn: 8 to a close until the announce test holds; then it is closed, or 15 and no step is
    /// accepted. A start follows.
    fn made(&mut self, sort: usize, turn: usize, random: &mut Rng) {
        let any = size(random);
        let n = if turn < MAX_NODES { turn + 1 } else { any };
        let least = if sort == SORTS.len() - 1 { 2 } else { 1 };
        let mut panel = panel_of(quiet(n.max(least), random), sort, random);
        let most = 3 * panel.ring.n - 2;
        let moves = random.below(most + 1);
        let drive = panel.ring.drive(moves).expect("an open ring");
        if drive.reason == Reason::Spent {
            self.expect(8, &mut panel, Request::new(CLOSE, 0, 0));
            let rest = panel.ring.drive(MOVE_LIMIT).expect("an open ring");
            assert!((drive.moves + rest.moves) as usize <= most);
        }
        let told = if SORTS[sort].agree { 0 } else { 15 };
        self.no_move(&panel, random);
        self.expect(told, &mut panel, Request::new(CLOSE, 0, 0));
        self.no_move(&panel, random);
        self.damaged.all(self.seed, &panel, random);
        for field in 0..FIELDS.len() {
            let broken = self.damaged.broken(self.seed, &panel, field, random);
            self.wild(broken, &panel, random);
        }
        self.see(OF_RUNS + SORTS.len(), &panel);
        self.made[sort] += 1;
        let flags = run_flags(panel.ring.n, random);
        self.start(&mut panel, flags.len(), &flags);
    }

    /// A step whose answer is known from how the panel was made.
    fn expect(&mut self, expected: u8, panel: &mut Panel, request: Request) {
        let before = panel.clone();
        let told = self.step(panel, request);
        if told != expected {
            let what = format!("{request:?}: both told {told}, expected {expected}");
            fail(self.seed, &format!("{what}, of {before:?}"));
        }
    }

    /// Where the announce test holds no step but a close is accepted.
    fn no_move(&mut self, panel: &Panel, random: &mut Rng) {
        for _ in 0..STRAYS {
            let request = self.stray(panel, random);
            if self.step(&mut panel.clone(), request) == 0 {
                fail(self.seed, &format!("{request:?} accepted, of {panel:?}"));
            }
        }
    }

    fn report(&self, report: &mut Report) {
        self.enters.report_all(&PANEL_ENTER, report);
        self.starts.report_all(&PANEL_START, report);
        self.steps.report_half(&OF_PANEL_STEP, report);
        self.soundness.report_all(&IS_SOUND, report);
        self.wild_starts.report(&[3], report);
        self.wild_steps.report(&[3], report);
        self.sizes.report("panel", &ON_PANELS, MAX_NODES, report);
        self.own.report("panel", &OWN, report);
        self.cases.report(report);
        let made = SORTS.iter().map(|sort| {
            let told = if sort.agree {
                "closed"
            } else {
                "15, then no step"
            };
            format!("panel: made with {}: {told}", sort.name)
        });
        report.each_at_least(MADE, made.zip(self.made));
        self.misread.report("panel", report);
        self.damaged.report(report);
    }
}
