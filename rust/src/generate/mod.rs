//! Logs made from a seed: runs guided by their state, with refused requests and wrong
//! lines among them, and first lines at and beyond the limits of the paper.
//! The same seed and size give the same log.

mod faults;
mod inbox;
mod limits;
mod model;
mod relay;
mod rng;
mod starts;
mod update_starts;
mod updates;
mod writer;

pub use limits::past_line_limit;
pub use model::Model;
pub use rng::Rng;

use crate::bounds::LARGE_RINGS;
use crate::request::{Request, ANNOUNCE, IDLE, SEND, TAKE};
use crate::ring;
use crate::tree;
use faults::Fault;
use inbox::full_inbox;
use limits::limit;
use relay::Relay;
use starts::{refused_start, CAUSES};
use update_starts::{refused_update, update_limit, UPDATE_CAUSES};
use updates::Updates;
use writer::{Mix, Writer};

const fn mix(random: usize, tempting: usize, faults: usize, fault: Fault) -> Mix {
    Mix {
        random,
        tempting,
        faults,
        fault,
        messages: u64::MAX,
        eager: if tempting > 0 { 10 } else { 0 },
        several: 40,
    }
}

/// A mix of few messages, which bring a run near to its end again and again.
const fn calm(messages: u64, faults: usize) -> Mix {
    Mix {
        messages,
        eager: 40,
        ..mix(0, 20, faults, Fault::Damage)
    }
}

/// What the guided runs hold beside allowed requests.
const MIXES: [Mix; 10] = [
    mix(0, 0, 0, Fault::Noise),
    mix(0, 30, 0, Fault::Noise),
    mix(5, 10, 1, Fault::Damage),
    mix(0, 10, 10, Fault::Damage),
    mix(0, 0, 40, Fault::Damage),
    mix(0, 10, 20, Fault::Noise),
    mix(0, 10, 30, Fault::Foreign),
    mix(70, 0, 0, Fault::Noise),
    calm(1, 0),
    calm(3, 5),
];
/// Lines that are too long take much room, so few logs have them, and no large ones.
const LONG_LINES: Mix = mix(0, 10, 20, Fault::Long);
const FEW_LINES: usize = 200;
/// Lines of updates in the log of one ring or tree.
const WRAPPED_LINES: Mix = mix(0, 5, 10, Fault::Wrapped);
/// A run that is nearly over from its beginning.
const NEAR_THE_END: Mix = Mix {
    eager: 80,
    ..calm(0, 0)
};
/// A large log, a log past the limit of lines.
const LARGE: Mix = mix(5, 10, 3, Fault::Noise);
/// A benchmark log: about one line in ten is a random request, and takes are of one message.
const BENCHMARK: Mix = Mix {
    several: 0,
    ..mix(10, 0, 0, Fault::Noise)
};

/// Small rings mostly: the token goes round them often.
fn ring_size(rng: &mut Rng) -> usize {
    match rng.below(10) {
        0 => 1,
        1..=6 => 2 + rng.below(6),
        7 | 8 => 1 + rng.below(ring::MAX_NODES),
        _ => rng.pick(&[8, 9, 16, 17, ring::MAX_NODES - 1, ring::MAX_NODES]),
    }
}

/// Every other time more nodes than most logs have.
fn often_large(rng: &mut Rng, round: usize) -> usize {
    match round % 2 {
        0 => ring_size(rng),
        _ => *LARGE_RINGS.start() + rng.below(LARGE_RINGS.count()),
    }
}

fn tree_size(rng: &mut Rng) -> usize {
    match rng.below(10) {
        0 => rng.pick(&[1, tree::MAX_NODES]),
        1..=5 => 2 + rng.below(4),
        _ => 1 + rng.below(tree::MAX_NODES),
    }
}

/// A ring or a tree, turn by turn.
fn started(rng: &mut Rng, turn: usize) -> Writer {
    if turn.is_multiple_of(2) {
        let n = ring_size(rng);
        Writer::random_ring(rng, n)
    } else {
        let n = tree_size(rng);
        Writer::tree(n, rng.below(n))
    }
}

/// The seeds take turns: guided runs with each mix on a ring and on a tree, long lines,
/// large runs, listed limits, late receipts, relays, full inboxes, rings that are started without
/// lists and then wind down, and first lines refused for each cause.
const MIXED: usize = 2 * MIXES.len();
const LATE: usize = 5;
const TURNS: usize = MIXED + 9 + LATE + CAUSES;

/// The log of a seed, of about `size` lines on the average.
pub fn log(seed: u64, size: usize) -> Vec<u8> {
    let mut rng = Rng::new(seed);
    let turn = (seed % TURNS as u64) as usize;
    let round = (seed / TURNS as u64) as usize;
    let lines = 1 + rng.below(2 * size.max(4));
    if turn < MIXED {
        let log = started(&mut rng, turn).whole_run(&mut rng, lines, MIXES[turn / 2]);
        return cut(&mut rng, log);
    }
    match turn - MIXED {
        long @ (0 | 1) => {
            let lines = lines.min(FEW_LINES);
            let log = started(&mut rng, long).whole_run(&mut rng, lines, LONG_LINES);
            long_end(&mut rng, log)
        }
        2 => large_ring(&mut rng, size),
        3 => large_tree(&mut rng, size),
        half @ (4 | 5) => limit(&mut rng, 2 * round + half),
        6 => late_receipt(&mut rng, lines),
        7..=10 => late_receipt(&mut rng, 0),
        11 => {
            let writer = Relay::new(&mut rng).run(&mut rng, 4 * size);
            writer.end(&mut rng, 0, NEAR_THE_END)
        }
        12 => {
            let n = often_large(&mut rng, round);
            full_inbox(&mut rng, n).end(&mut rng, 0, NEAR_THE_END)
        }
        13 => {
            let n = often_large(&mut rng, round);
            Writer::unlisted_ring(n).end(&mut rng, 0, NEAR_THE_END)
        }
        cause => refused_start(&mut rng, cause - 9 - LATE, round),
    }
}

/// The seeds take turns here too: updates with each mix, long lines, large rings, a ring and a tree with lines
/// of updates, listed limits, full inboxes, and first lines refused for each cause.
const UPDATE_TURNS: usize = MIXES.len() + 7 + UPDATE_CAUSES;

/// The log of updates of a seed, of about `size` lines on the average; or the log of a ring or a tree with such lines.
pub fn updates_log(seed: u64, size: usize) -> Vec<u8> {
    let mut rng = Rng::new(!seed);
    let turn = (seed % UPDATE_TURNS as u64) as usize;
    let round = (seed / UPDATE_TURNS as u64) as usize;
    let lines = 1 + rng.below(2 * size.max(4));
    if let Some(&mix) = MIXES.get(turn) {
        let n = ring_size(&mut rng);
        let log = interleaved(&mut rng, n, lines, mix);
        return cut(&mut rng, log);
    }
    match turn - MIXES.len() {
        0 => {
            let n = ring_size(&mut rng);
            let log = interleaved(&mut rng, n, lines.min(FEW_LINES), LONG_LINES);
            long_end(&mut rng, log)
        }
        1 | 2 => {
            let n = rng.pick(&[9, 31, 64, ring::MAX_NODES]);
            interleaved(&mut rng, n, 4 * size, LARGE)
        }
        one @ (3 | 4) => {
            let lines = lines.min(FEW_LINES);
            started(&mut rng, one).whole_run(&mut rng, lines, WRAPPED_LINES)
        }
        5 => update_limit(&mut rng, round),
        6 => {
            let n = often_large(&mut rng, round);
            let mut updates = Updates::new(&mut rng, n);
            updates.full_inbox(&mut rng);
            updates.finish()
        }
        cause => refused_update(&mut rng, cause - 7, round),
    }
}

fn interleaved(rng: &mut Rng, n: usize, lines: usize, mix: Mix) -> Vec<u8> {
    let mut updates = Updates::new(rng, n);
    updates.guided(rng, lines, mix);
    updates.finish()
}

/// A log of updates that is longer than the greatest number of lines.
pub fn updates_past_line_limit() -> Vec<u8> {
    updates::updates_past_line_limit(LARGE)
}

/// Now and then the last line lacks its byte 10.
fn cut(rng: &mut Rng, mut log: Vec<u8>) -> Vec<u8> {
    if rng.chance(10) {
        log.pop();
    }
    log
}

/// Now and then the last line is far too long, and lacks its byte 10.
fn long_end(rng: &mut Rng, mut log: Vec<u8>) -> Vec<u8> {
    if rng.chance(30) {
        log.resize(log.len() + rng.below(100_000), b'x');
    }
    log
}

/// A ring whose token goes round for `lines` lines, or for few rounds, since a message is
/// not taken. Then it is, mostly by node 0, somewhere in a round that may be white; its
/// receiver becomes passive at once, or stays active until the token moves no more.
fn late_receipt(rng: &mut Rng, lines: usize) -> Vec<u8> {
    let n = ring_size(rng);
    let receiver = if rng.chance(60) { 0 } else { rng.below(n) };
    let sender = rng.other_end(n, receiver);
    let black: Vec<usize> = (0..n).filter(|_| rng.chance(30)).collect();
    let mut writer = Writer::ring(n, &[sender], &black);
    writer.request(Request::new(SEND, sender, receiver));
    let lines = lines.max(2 * n + rng.below(2 * n + 4));
    while writer.lines() < lines {
        let moved = writer.token_move();
        writer.request(moved.unwrap_or(Request::new(ANNOUNCE, 0, 0)));
    }
    writer.request(Request::new(TAKE, receiver, 1));
    if rng.chance(60) {
        writer.request(Request::new(IDLE, receiver, 0));
    } else {
        writer.move_token();
    }
    writer.request(Request::new(ANNOUNCE, 0, 0));
    writer.end(rng, lines, NEAR_THE_END)
}

/// A few times the size, and seldom many times.
fn large(rng: &mut Rng, size: usize) -> usize {
    if rng.chance(5) {
        60 * size
    } else {
        4 * size
    }
}

fn large_ring(rng: &mut Rng, size: usize) -> Vec<u8> {
    let lines = large(rng, size);
    let n = rng.pick(&[2, 7, 31, 64, ring::MAX_NODES]);
    let mut writer = Writer::random_ring(rng, n);
    writer.guided(rng, lines, LARGE, false);
    writer.finish()
}

fn large_tree(rng: &mut Rng, size: usize) -> Vec<u8> {
    let lines = large(rng, size);
    let n = rng.pick(&[2, 5, 10, tree::MAX_NODES]);
    let mut writer = Writer::tree(n, rng.below(n));
    writer.guided(rng, lines, LARGE, false);
    writer.finish()
}

/// A busy ring of the greatest size that is never quiet.
pub fn busy_ring(lines: usize) -> Vec<u8> {
    let rng = &mut Rng::new(96);
    let half: Vec<usize> = (0..ring::MAX_NODES).filter(|i| i % 2 == 0).collect();
    let mut writer = Writer::ring(ring::MAX_NODES, &half, &[]);
    writer.guided(rng, lines, BENCHMARK, false);
    writer.finish()
}

/// Eight busy rings of the greatest size, and the same steps unwrapped on one.
pub fn busy_updates(lines: usize) -> [Vec<u8>; 2] {
    updates::busy_updates(lines, BENCHMARK.random)
}

/// A ring of 2 that only moves its token. Node 0 has sent a message that is never
/// taken, so q plus its counter is 1 whenever the token is back: rule 4 allows a probe
/// each time. (An active node 0 alone would not do: a white round with the sum 0
/// allows neither a probe nor the announcement.)
pub fn moving_token(lines: usize) -> Vec<u8> {
    let mut writer = Writer::ring(2, &[0], &[]);
    writer.request(Request::new(SEND, 0, 1));
    while writer.lines() < lines {
        let moved = writer.token_move();
        writer.request(moved.expect("a sum above 0 at node 0, a passive node 1"));
    }
    writer.finish()
}

/// A busy tree of the greatest size.
pub fn busy_tree(lines: usize) -> Vec<u8> {
    let rng = &mut Rng::new(16);
    let mut writer = Writer::tree(tree::MAX_NODES, 0);
    writer.guided(rng, lines, BENCHMARK, false);
    writer.finish()
}
