//! Rings by calls: starts, the steps of whole runs, wild states, and the driver.

use crate::answers::{Answers, BySize};
use crate::lent::LentRing;
use crate::requests::{no_counts, request, takes, waiting, Course};
use crate::same::{other, same_soundness, same_start, same_step};
use crate::{fail, proved};
use second::bounds::answers::{IS_SOUND, OF_SOUND, RING_DRIVE, RING_START};
use second::bounds::calls::{
    ANNOUNCED, ANSWER, BROKEN, ON_RINGS, OWN_ON_RINGS, STARTS, STEPS, TAKES,
};
use second::bounds::LARGE_RINGS;
use second::generate::Rng;
use second::own::Own;
use second::refusal::Refusal;
use second::report::Report;
use second::request::{Request, SEND_LIMIT};
use second::ring::{Reason, Ring, Token, COLOR_BYTES, MAX_NODES, MOVE_LIMIT};
use second::sizes::Sizes;
use second::takes::Takes;

/// The fields that are broken, one alone or two.
pub const FIELDS: [&str; 10] = [
    "n", "active", "color", "sent", "received", "pending", "pos", "q", "black", "closed",
];

pub fn compare(seed: u64, report: &mut Report) {
    let mut random = Rng::new(seed);
    let mut rings = Rings::new(seed);
    for _ in 0..STARTS {
        rings.start(&mut random);
    }
    while rings.steps.total() < STEPS {
        rings.run(&mut random);
    }
    rings.report(report);
}

struct Rings {
    seed: u64,
    starts: Answers,
    steps: BySize,
    sizes: Sizes,
    announced: usize,
    takes: Takes,
    own: Own,
    wild_steps: BySize,
    soundness: BySize,
    /// Soundness of states with several fields changed that still agree in part.
    balanced: BySize,
    /// Unsound states by the field that was broken alone.
    broken: [usize; FIELDS.len()],
    drives: BySize,
    moved: usize,
}

impl Rings {
    fn new(seed: u64) -> Self {
        let answers = |what| BySize::new("ring", LARGE_RINGS, what);
        Self {
            seed,
            starts: Answers::new("ring: starts"),
            steps: answers("steps of runs"),
            sizes: Sizes::default(),
            announced: 0,
            takes: Takes::default(),
            own: Own::default(),
            wild_steps: answers("steps of wild states"),
            soundness: answers("soundness of wild states"),
            balanced: answers("soundness of states in balance"),
            broken: [0; FIELDS.len()],
            drives: answers("drives"),
            moved: 0,
        }
    }

    fn start(&mut self, random: &mut Rng) {
        let (nodes, flags) = flags(random);
        let mut lent = flags.clone();
        let told = same_start(
            self.seed,
            &format!("a start of {nodes} with {flags:?}"),
            LentRing::noise(random),
            Ring::start(nodes, &flags),
            |ring| proved::ring_start(nodes, &mut lent, ring),
        );
        if lent != flags {
            fail(self.seed, &format!("a start of {nodes} wrote to {flags:?}"));
        }
        self.starts.count(told);
    }

    /// A run, each step compared; now and then a wild state, and a driver.
    fn run(&mut self, random: &mut Rng) {
        let mut ring = match random.below(6) {
            0 => near_send_limit(random),
            1 => with_messages(random),
            _ => started(random),
        };
        self.all_takes(&ring, random);
        let mut course = Course::new(random);
        while let Some(request) = course.next(&ring, ring.closed, random) {
            let told = same_step(self.seed, &LentRing::of(&ring), request);
            self.steps.count(ring.n, told);
            self.sizes.count(ring.n, told == 0);
            let was_open = !ring.closed;
            if was_open {
                self.takes.count(&ring, request, told == 0);
                self.own.count_ring(&ring, request, usize::from(told));
            }
            let _ = ring.step(request);
            self.announced += usize::from(ring.closed && was_open);
            if random.chance(20) {
                self.wild(&ring, random);
            }
            if random.chance(10) {
                self.drive(&mut ring, random);
            }
            if random.chance(1) && !ring.closed {
                self.all_takes(&ring, random);
            }
        }
        let noise = LentRing::noise(random);
        same_calls(self.seed, &noise, request(&ring, false, random), random);
    }

    /// The ring with one field broken, or two, and one in balance; both differ from it.
    fn wild(&mut self, ring: &Ring, random: &mut Rng) {
        let field = random.below(FIELDS.len());
        let next = (field + 1 + random.below(FIELDS.len() - 1)) % FIELDS.len();
        let alone = random.chance(80);
        let wild = other(ring, || match (broken(ring, field, random), alone) {
            (wild, true) => wild,
            (wild, false) => broken(&wild, next, random),
        });
        if alone && !wild.is_sound() {
            self.broken[field] += 1;
        }
        let lent = LentRing::of(&wild);
        let (n, seed) = (ring.n, self.seed);
        self.soundness.count(n, same_soundness(seed, &lent));
        let in_balance = LentRing::of(&other(ring, || balanced(ring, random)));
        self.balanced.count(n, same_soundness(seed, &in_balance));
        let request = request(ring, false, random);
        self.wild_steps.count(n, same_step(seed, &lent, request));
        let told = same_drive(seed, &lent, limit(random), random);
        self.drives.count(n, told);
    }

    /// A drive, from which the run goes on now and then.
    fn drive(&mut self, ring: &mut Ring, random: &mut Rng) {
        let limit = limit(random);
        let told = same_drive(self.seed, &LentRing::of(ring), limit, random);
        self.drives.count(ring.n, told);
        let mut driven = ring.clone();
        let moves = driven.drive(limit).map_or(0, |drive| drive.moves);
        self.moved += usize::from(moves > 0);
        if random.chance(30) {
            *ring = driven;
        }
    }

    /// Takes of every number of messages by one node, with messages on their way to it if there is one; they are not gone on from.
    fn all_takes(&mut self, ring: &Ring, random: &mut Rng) {
        let i = random.node(ring.n, |i| ring.pending[i] > 0).unwrap_or(0);
        for request in takes(i, ring.pending[i]) {
            let told = same_step(self.seed, &LentRing::of(ring), request);
            self.takes.count(ring, request, told == 0);
        }
    }

    fn report(&self, report: &mut Report) {
        self.starts.report_all(&RING_START, report);
        report.at_least("ring: runs announced", self.announced, ANNOUNCED);
        self.sizes.report("ring", &ON_RINGS, MAX_NODES, report);
        self.takes.report("ring", &TAKES, report);
        self.own.report("ring", &OWN_ON_RINGS, report);
        self.steps.report_half(&OF_SOUND, report);
        self.wild_steps.report(&[3], report);
        self.soundness.report_all(&IS_SOUND, report);
        self.balanced.report_all(&IS_SOUND, report);
        let fields = FIELDS.map(|name| format!("ring: unsound states with {name} broken alone"));
        report.each_at_least(BROKEN, fields.into_iter().zip(self.broken));
        self.drives.report_all(&RING_DRIVE, report);
        report.at_least(
            "ring: drives of runs that moved the token",
            self.moved,
            ANSWER,
        );
    }
}

pub fn started(random: &mut Rng) -> Ring {
    let n = match random.below(4) {
        0 => random.pick(&[1, MAX_NODES]),
        1 | 2 => 2 + random.below(7),
        _ => 1 + random.below(MAX_NODES),
    };
    let flags: Vec<u8> = (0..n).map(|_| random.below(4) as u8).collect();
    Ring::start(n, &flags).expect("a start in range")
}

/// A ring in which nearly as many sends were accepted as may be, or as many.
fn near_send_limit(random: &mut Rng) -> Ring {
    let mut ring = started(random);
    let node = |random: &mut Rng| random.below(ring.n);
    let (sender, receiver, next) = (node(random), node(random), node(random));
    let pending = random.below(5) as u32;
    ring.sent[sender] = SEND_LIMIT - random.below(4) as u32;
    ring.received[receiver] = ring.sent[sender] - pending;
    ring.pending[next] = pending;
    assert!(ring.is_sound(), "the token is black");
    ring
}

/// A ring with messages on their way to a node, mostly more than few.
fn with_messages(random: &mut Rng) -> Ring {
    let mut ring = started(random);
    let node = |random: &mut Rng| random.below(ring.n);
    let (sender, receiver) = (node(random), node(random));
    let (taken, pending) = (random.below(5) as u32, waiting(random));
    ring.sent[sender] = taken + pending;
    ring.received[receiver] = taken;
    ring.pending[receiver] = pending;
    assert!(ring.is_sound(), "the token is black");
    ring
}

/// Numbers of nodes and flags in range and about it.
pub fn flags(random: &mut Rng) -> (usize, Vec<u8>) {
    let nodes = match random.below(3) {
        0 => 1 + random.below(MAX_NODES),
        1 => random.pick(&[1, 2, MAX_NODES - 1, MAX_NODES]),
        _ => random.pick(&no_counts(MAX_NODES)),
    };
    let fitting = nodes.min(MAX_NODES + 1);
    let length = match random.below(6) {
        0 => random.below(fitting + 1),
        1 => fitting + 1 + random.below(200),
        _ => fitting,
    };
    let mut flags: Vec<u8> = (0..length).map(|_| random.below(4) as u8).collect();
    if length > 0 && random.chance(20) {
        flags[random.below(length)] = 4 + random.below(252) as u8;
    }
    (nodes, flags)
}

/// Move limits in range mostly, and beyond it.
fn limit(random: &mut Rng) -> usize {
    if random.chance(80) {
        return random.pick(&[0, 1, 2, 5, 20, 286, MOVE_LIMIT - 1, MOVE_LIMIT]);
    }
    let cut = (1 << 32) - 1;
    random.pick(&[MOVE_LIMIT + 1, cut, cut + 1, cut + 6, usize::MAX])
}

/// The ring with one field set to something else, of a column at any place.
pub fn broken(ring: &Ring, field: usize, random: &mut Rng) -> Ring {
    let at = random.below(MAX_NODES);
    broken_at(ring, field, at, random)
}

/// The ring with one field set to something else, of a column at this place.
pub fn broken_at(ring: &Ring, field: usize, at: usize, random: &mut Rng) -> Ring {
    let mut wild = ring.clone();
    let count = random.pick(&[0, 1, 2, SEND_LIMIT, SEND_LIMIT + 1, u32::MAX]);
    let most = (MAX_NODES as i64 - 1) * i64::from(SEND_LIMIT);
    match FIELDS[field] {
        "n" => wild.n = random.pick(&[0, 1, 2, MAX_NODES, MAX_NODES + 1, usize::MAX]),
        "active" => wild.active[at] = !wild.active[at],
        "color" => wild.color[at / 8] ^= 1 << (at % 8),
        "sent" if random.chance(30) => wild.sent[at] = wild.sent[at].wrapping_add(1),
        "sent" => wild.sent[at] = count,
        "received" => wild.received[at] = count,
        "pending" => wild.pending[at] = count,
        "pos" => wild.token.pos = random.pick(&[0, 1, MAX_NODES - 1, MAX_NODES, usize::MAX]),
        "q" => wild.token.q = random.pick(&[0, 1, -1, most, -most - 1, i64::MAX, i64::MIN]),
        "black" => wild.token.black = !wild.token.black,
        _ => wild.closed = !wild.closed,
    }
    wild
}

/// The ring with fields changed together, so that few conditions of soundness decide: a
/// send that is in transit, q at the end of its range, or Safra's four.
fn balanced(ring: &Ring, random: &mut Rng) -> Ring {
    let mut wild = ring.clone();
    let (i, j) = (random.below(MAX_NODES), random.below(MAX_NODES));
    let pos = random.below(ring.n);
    match random.below(3) {
        0 => {
            wild.sent[i] += 1;
            wild.pending[j] += 1;
        }
        1 => {
            let most = (ring.n - 1 - ring.token.pos) as i64 * i64::from(SEND_LIMIT);
            wild.token.black = true;
            wild.token.q = random.pick(&[most, most + 1, -most, -most - 1]);
        }
        _ => {
            let around = random.pick(&[-1, 0, 1]);
            wild.color = random.pick(&[[0; COLOR_BYTES], ring.color]);
            wild.token = Token {
                pos,
                q: random.pick(&[ring.counters(pos + 1..ring.n), -ring.counters(0..pos + 1)])
                    + around,
                black: false,
            };
        }
    }
    wild
}

/// Soundness, a step and a short drive of what is lent; tells their answers.
pub fn same_calls(seed: u64, ring: &LentRing, request: Request, random: &mut Rng) -> [u8; 3] {
    [
        same_soundness(seed, ring),
        same_step(seed, ring, request),
        same_drive(seed, ring, random.below(12), random),
    ]
}

fn same_drive(seed: u64, ring: &LentRing, limit: usize, random: &mut Rng) -> u8 {
    let noise = random.word() as u32;
    let refused = |refusal: Refusal| (refusal.number() as u8, noise, ring.clone());
    let expected = match ring.ring() {
        None => refused(Refusal::Unsound),
        Some(mut next) => match next.drive(limit) {
            Ok(drive) => (
                reason_number(drive.reason),
                drive.moves,
                LentRing::of(&next),
            ),
            Err(refusal) => refused(refusal),
        },
    };
    let mut theirs = ring.clone();
    let mut moves = noise;
    let told = proved::drive(&mut theirs, limit, &mut moves);
    if (told, moves, &theirs) != (expected.0, expected.1, &expected.2) {
        fail(
            seed,
            &format!("a drive of {limit} told {told} and {moves} moves, expected {expected:?}, of {ring:?}"),
        );
    }
    told
}

fn reason_number(reason: Reason) -> u8 {
    match reason {
        Reason::Conclusive => 100,
        Reason::Waiting => 101,
        Reason::Spent => 102,
    }
}
