//! Runs of panels, guided by the state and by what the marks are to be; and panels made with marks of each sort.

use crate::requests::request;
use second::generate::{Model, Rng};
use second::panel::{Mark, Panel, CLOSE, FIRMWARE_NEW, FIRMWARE_OLD, MAP_NEW, MAP_OLD};
use second::request::{Request, SEND, SEND_LIMIT, TAKE};
use second::ring::{Ring, MAX_NODES};
use second::sends::ring_with_sends;

/// The marks of a panel, and whether they agree.
pub struct Sort {
    pub name: &'static str,
    pub agree: bool,
    make: fn(&mut Panel, &mut Rng),
}

const fn sort(name: &'static str, agree: bool, make: fn(&mut Panel, &mut Rng)) -> Sort {
    Sort { name, agree, make }
}

/// Sorts of marks; the last needs two nodes.
pub const SORTS: [Sort; 7] = [
    sort("all marks old", true, |panel, _| {
        fill(panel, [Mark::Old; 2])
    }),
    sort("all marks new", true, |panel, _| {
        fill(panel, [Mark::New; 2])
    }),
    sort(
        "one firmware mark unlike the others",
        false,
        |panel, random| {
            let (word, i) = (any_mark(random), end_or_any(panel, random));
            fill(panel, [word; 2]);
            panel.firmware[i] = other(word);
        },
    ),
    sort("one map mark unlike the others", false, |panel, random| {
        let (word, i) = (any_mark(random), end_or_any(panel, random));
        fill(panel, [word; 2]);
        panel.map[i] = other(word);
    }),
    sort(
        "firmware marks alike, map marks the other word",
        false,
        |panel, random| {
            let word = any_mark(random);
            fill(panel, [word, other(word)]);
        },
    ),
    sort("several marks of each word", false, |panel, random| {
        for i in 0..panel.ring.n {
            (panel.firmware[i], panel.map[i]) = (any_mark(random), any_mark(random));
        }
        (panel.firmware[0], panel.map[panel.ring.n - 1]) = (Mark::Old, Mark::New);
    }),
    sort(
        "one node unlike the others, its marks alike",
        false,
        |panel, random| {
            let (word, i) = (any_mark(random), end_or_any(panel, random));
            fill(panel, [word; 2]);
            (panel.firmware[i], panel.map[i]) = (other(word), other(word));
        },
    ),
];

fn fill(panel: &mut Panel, [firmware, map]: [Mark; 2]) {
    let n = panel.ring.n;
    panel.firmware[..n].fill(firmware);
    panel.map[..n].fill(map);
}

fn any_mark(random: &mut Rng) -> Mark {
    random.pick(&[Mark::Old, Mark::New])
}

pub fn other(mark: Mark) -> Mark {
    match mark {
        Mark::Old => Mark::New,
        Mark::New => Mark::Old,
    }
}

/// The first node, the last or any.
fn end_or_any(panel: &Panel, random: &mut Rng) -> usize {
    let n = panel.ring.n;
    let any = random.below(n);
    random.pick(&[0, n - 1, any])
}

/// The ring with marks of a sort, the panel being open.
pub fn panel_of(ring: Ring, sort: usize, random: &mut Rng) -> Panel {
    let mut panel = Panel::enter(ring.n, &vec![0; ring.n]).expect("a ring's N");
    panel.ring = ring;
    (SORTS[sort].make)(&mut panel, random);
    assert!(panel.is_sound(), "an open panel may have any marks");
    panel
}

/// Mostly few nodes: a run on many is long.
pub fn size(random: &mut Rng) -> usize {
    match random.below(8) {
        0 | 1 => 1,
        2..=5 => 2 + random.below(7),
        6 => 1 + random.below(MAX_NODES),
        _ => random.pick(&[2, 9, MAX_NODES - 1, MAX_NODES]),
    }
}

/// A panel to run, as entered or with marks of any sort, some at or near the limit of sends.
pub fn panel(random: &mut Rng) -> Panel {
    let n = size(random);
    let pending = random.below(5) as u32;
    let ring = match random.below(6) {
        0 => {
            let sends = SEND_LIMIT - random.below(4) as u32;
            ring_with_sends(n, sends, pending, random)
        }
        _ => {
            let flags: Vec<u8> = (0..n).map(|_| random.below(4) as u8).collect();
            Ring::start(n, &flags).expect("a start in range")
        }
    };
    let any = random.below(SORTS.len());
    let sort = random.pick(&[0, 0, any]);
    panel_of(ring, sort, random)
}

/// A word that is no job's; cut short some are.
pub fn no_word(random: &mut Rng) -> usize {
    let word = 1 + random.below(MAP_OLD);
    let wide = [1 << 8 | word, 1 << 16 | word, 1 << 32 | word];
    let near = [0, 5, 0, 5, 6, 97, 1 << 63 | word, usize::MAX];
    random.pick(&[&wide[..], &near].concat())
}

/// A run from a start: busy, mending the marks towards one word where it has one, winding down, and some requests after its close or after a 15.
pub struct Course {
    aim: Option<Mark>,
    busy: usize,
    after: usize,
}

impl Course {
    pub fn new(random: &mut Rng) -> Self {
        Self {
            aim: random.pick(&[None, Some(Mark::Old), Some(Mark::New), Some(Mark::New)]),
            busy: random.below(80),
            after: 2 + random.below(6),
        }
    }

    /// The next request; none once the run is over.
    pub fn next(&mut self, panel: &Panel, random: &mut Rng) -> Option<Request> {
        let ring = &panel.ring;
        if ring.closed || ring.is_conclusive() {
            self.after = self.after.checked_sub(1)?;
            if random.chance(60) {
                return Some(Request::new(CLOSE, 0, 0));
            }
            return Some(self.any(panel, false, random));
        }
        self.busy = self.busy.saturating_sub(1);
        if let Some(missing) = self.missing(panel, random).filter(|_| random.chance(60)) {
            return Some(missing);
        }
        loop {
            let busy = self.busy > 0;
            let request = self.any(panel, !busy, random);
            if !(busy && ring.terminates(request)) {
                return Some(request);
            }
        }
    }

    /// A request of any kind, a take with a job word mostly.
    pub fn any(&self, panel: &Panel, winding_down: bool, random: &mut Rng) -> Request {
        let request = request(&panel.ring, winding_down, random);
        if request.kind != TAKE {
            return request;
        }
        let word = match random.below(100) {
            0..=7 => no_word(random),
            _ => self.word(panel, request.i, random),
        };
        Request::new(TAKE, request.i, word)
    }

    /// A send to a node whose marks are not what they are to be, more of them than messages are on their way to it.
    fn missing(&self, panel: &Panel, random: &mut Rng) -> Option<Request> {
        let (aim, n) = (self.aim?, panel.ring.n);
        let unlike = |i: usize| panel.marks(i).iter().filter(|&&mark| mark != aim).count();
        let lacks = |i: usize| unlike(i) > panel.ring.pending[i] as usize;
        let to = random.node(n, lacks).filter(|_| self.busy == 0)?;
        let from = random.node(n, |i| panel.ring.active[i])?;
        Some(Request::new(SEND, from, to))
    }

    /// Any word while the run is busy or has no aim; then one that brings the node's marks to the aim, or leaves them there.
    fn word(&self, panel: &Panel, i: usize, random: &mut Rng) -> usize {
        let any = 1 + random.below(MAP_OLD);
        let words = match self.aim.filter(|_| self.busy == 0 && i < panel.ring.n) {
            None => return any,
            Some(Mark::Old) => [FIRMWARE_OLD, MAP_OLD],
            Some(Mark::New) => [FIRMWARE_NEW, MAP_NEW],
        };
        let right = panel.marks(i).map(|mark| Some(mark) == self.aim);
        match right {
            [false, _] => words[0],
            [true, false] => words[1],
            [true, true] => random.pick(&words),
        }
    }
}
