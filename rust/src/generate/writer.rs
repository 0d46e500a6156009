//! A log being written, beside the state that its lines lead to.

use super::faults::{fault, Fault};
use super::model::{idle_holder, Model, Word, Words};
use super::rng::Rng;
use crate::log::{Log, Run};
use crate::request::{Request, ANNOUNCE, IDLE, TAKE};
use crate::{ring, tree};
use std::io::Write;

/// What a guided run holds beside the requests that the rules allow: lines in a hundred.
#[derive(Clone, Copy)]
pub struct Mix {
    /// Any requests.
    pub random: usize,
    /// Requests that are likely to be refused.
    pub tempting: usize,
    /// Lines that are no forms, mostly.
    pub faults: usize,
    pub fault: Fault,
    /// Messages in transit from which on no send is allowed.
    pub messages: u64,
    /// How often, in a hundred times that it is nearly over, the announcement is asked for.
    pub eager: usize,
    /// How often, in a hundred, a ring's allowed take is of any number of messages; with 0 every take is of one.
    pub several: usize,
}

/// How often, in a hundred, a number of messages is written that may be left out.
const IN_FULL: usize = 30;
/// How often, in a hundred, a send comes again at once, and how many times at most.
pub const AGAIN: usize = 5;
pub const MOST_AGAIN: usize = 10;

/// Lines in which a run that few requests keep up winds down, mostly.
const LINES_TO_THE_END: usize = 1_000;

pub struct Writer {
    log: Vec<u8>,
    /// The second implementation, fed with all of `log`.
    reader: Log,
}

impl Writer {
    pub fn new(first_line: &[u8]) -> Self {
        let mut writer = Self {
            log: Vec::new(),
            reader: Log::new(),
        };
        writer.write(first_line);
        writer
    }

    pub fn ring(n: usize, active: &[usize], black: &[usize]) -> Self {
        Self::new(&ring_line(n, active, black))
    }

    /// A ring without lists.
    pub fn unlisted_ring(n: usize) -> Self {
        Self::new(&unlisted_line(n))
    }

    /// A ring with random lists, or without.
    pub fn random_ring(rng: &mut Rng, n: usize) -> Self {
        Self::new(&random_ring_line(rng, n))
    }

    pub fn tree(n: usize, root: usize) -> Self {
        Self::new(format!("(tree {n} (root {root}))\n").as_bytes())
    }

    pub fn write(&mut self, bytes: &[u8]) {
        self.log.extend_from_slice(bytes);
        self.reader.feed(bytes, &mut Vec::new());
    }

    pub fn request(&mut self, request: Request) {
        let line = line_of(self.model().words(), request);
        self.write(&line);
    }

    /// Lines answered so far.
    pub fn lines(&self) -> usize {
        self.reader.lines() as usize
    }

    pub fn model(&self) -> &dyn Model {
        match self.reader.run() {
            Run::Ring(run) => &run.ring,
            Run::Tree(tree) => tree,
            Run::Unstarted | Run::Refused | Run::Updates(_) => panic!("no ring and no tree"),
        }
    }

    /// A ring's token move, or what makes one possible.
    pub fn token_move(&self) -> Option<Request> {
        match self.reader.run() {
            Run::Ring(run) => run.ring.token_move().or_else(|| idle_holder(&run.ring)),
            _ => None,
        }
    }

    /// Token moves alone, until none is allowed.
    pub fn move_token(&mut self) {
        while let Some(request) = self.token_move().filter(|request| request.kind != IDLE) {
            self.request(request);
        }
    }

    pub fn finish(self) -> Vec<u8> {
        self.log
    }

    /// Allowed requests and what the mix adds, until `lines` lines are written or no
    /// request is allowed. Winding down there are no allowed sends; else a run that is
    /// not terminated stays so.
    pub fn guided(&mut self, rng: &mut Rng, lines: usize, mix: Mix, winding_down: bool) {
        while self.lines() < lines {
            let roll = rng.below(100);
            let model = self.model();
            let request = if roll < mix.random {
                random(rng, model, mix)
            } else if roll < mix.random + mix.tempting {
                model.tempting(rng)
            } else if roll < mix.random + mix.tempting + mix.faults {
                self.fault(rng, mix.fault);
                continue;
            } else if let Some(request) = allowed(rng, model, mix, winding_down) {
                request
            } else {
                return;
            };
            if winding_down || !self.model().terminates(request) {
                self.spell(rng, request, mix);
            }
            if mix.eager > 0 && self.model().is_nearly_over() && rng.chance(mix.eager) {
                self.request(Request::new(ANNOUNCE, 0, 0));
            }
        }
    }

    /// A request, spelled as the mix asks; now and then an accepted send of a ring comes again at once.
    fn spell(&mut self, rng: &mut Rng, request: Request, mix: Mix) {
        let words = self.model().words();
        if mix.several == 0 || !words[TAKE - 1].counts {
            return self.request(request);
        }
        let before = self.model().messages();
        let line = spelled(rng, words, request);
        self.write(&line);
        let is_sent = self.model().messages() > before;
        if is_sent && mix.messages == u64::MAX && rng.chance(AGAIN) {
            for _ in 0..rng.below(MOST_AGAIN) {
                self.write(&line);
            }
        }
    }

    /// A line that is wrong, mostly made from one that is not.
    fn fault(&mut self, rng: &mut Rng, kind: Fault) {
        let model = self.model();
        let request = match model.allowed(rng, false) {
            Some(request) => model.of_several(rng, request),
            None => random_request(rng, model.n()),
        };
        let good = full_line_of(model.words(), request);
        self.write(&fault(rng, kind, &good));
    }

    /// A whole run: busy, then to its end.
    pub fn whole_run(mut self, rng: &mut Rng, lines: usize, mix: Mix) -> Vec<u8> {
        let busy_lines = lines * (20 + rng.below(60)) / 100;
        self.guided(rng, busy_lines, mix, false);
        self.end(rng, lines, mix)
    }

    /// Winding down with few random requests, so that the run comes to its end; every kind
    /// of step once more; the announcement, and requests after it.
    pub fn end(mut self, rng: &mut Rng, lines: usize, mix: Mix) -> Vec<u8> {
        let random = mix.random / 4;
        let enough = self.lines() + 2 * lines + LINES_TO_THE_END;
        self.guided(rng, enough, Mix { random, ..mix }, true);
        for kind in 1..=ANNOUNCE {
            let i = self.model().announcer();
            let j = rng.below(self.model().n());
            self.request(Request::new(kind, i, j));
        }
        for _ in 0..rng.below(12) {
            let request = self.model().tempting(rng);
            self.request(request);
        }
        self.log
    }
}

fn allowed(rng: &mut Rng, model: &dyn Model, mix: Mix, winding_down: bool) -> Option<Request> {
    let no_sends = winding_down || model.messages() >= mix.messages;
    let request = model.allowed(rng, no_sends)?;
    if mix.several > 0 && rng.chance(mix.several) {
        return Some(model.of_several(rng, request));
    }
    Some(request)
}

fn random(rng: &mut Rng, model: &dyn Model, mix: Mix) -> Request {
    let request = random_request(rng, model.n());
    if mix.several == 0 {
        return of_one(model.words(), request);
    }
    request
}

/// A ring's start with both lists.
pub fn ring_line(n: usize, active: &[usize], black: &[usize]) -> Vec<u8> {
    let mut line = format!("(ring {n}").into_bytes();
    push_list(&mut line, " (active", active);
    push_list(&mut line, " (black", black);
    line.extend_from_slice(b")\n");
    line
}

/// A ring's start without lists.
fn unlisted_line(n: usize) -> Vec<u8> {
    format!("(ring {n})\n").into_bytes()
}

/// A ring's start that names no node: without lists, or with both empty.
pub fn short_ring_line(rng: &mut Rng, n: usize) -> Vec<u8> {
    if rng.chance(50) {
        unlisted_line(n)
    } else {
        ring_line(n, &[], &[])
    }
}

/// A ring's start: without lists, with both empty, with what the first of these means, or with random ones mostly.
pub fn random_ring_line(rng: &mut Rng, n: usize) -> Vec<u8> {
    match rng.below(100) {
        0..=29 => short_ring_line(rng, n),
        30..=34 => ring_line(n, &(0..n).collect::<Vec<_>>(), &[]),
        _ => {
            let (share_active, share_black) = (rng.below(101), rng.below(101));
            let active: Vec<usize> = (0..n).filter(|_| rng.chance(share_active)).collect();
            let black: Vec<usize> = (0..n).filter(|_| rng.chance(share_black)).collect();
            ring_line(n, &active, &black)
        }
    }
}

fn push_list(line: &mut Vec<u8>, word: &str, list: &[usize]) {
    line.extend_from_slice(word.as_bytes());
    for i in list {
        write!(line, " {i}").expect("writing to memory");
    }
    line.push(b')');
}

/// A request as a line; one message is not counted there.
pub fn line_of(words: &Words, request: Request) -> Vec<u8> {
    let word = words[request.kind - 1];
    let left_out = word.counts && request.j == 1;
    line_with(word, word.numbers() - usize::from(left_out), request)
}

/// A request as a line with all its numbers.
pub fn full_line_of(words: &Words, request: Request) -> Vec<u8> {
    let word = words[request.kind - 1];
    line_with(word, word.numbers(), request)
}

/// A request as a line, with all its numbers now and then.
pub fn spelled(rng: &mut Rng, words: &Words, request: Request) -> Vec<u8> {
    if rng.chance(IN_FULL) {
        full_line_of(words, request)
    } else {
        line_of(words, request)
    }
}

fn line_with(word: Word, numbers: usize, request: Request) -> Vec<u8> {
    let mut line = format!("({}", word.text).into_bytes();
    for number in [request.i, request.j].iter().take(numbers) {
        write!(line, " {number}").expect("writing to memory");
    }
    line.extend_from_slice(b")\n");
    line
}

/// A request that counts messages with one of them, any other as it is.
pub fn of_one(words: &Words, request: Request) -> Request {
    let counts = words[request.kind - 1].counts;
    let j = if counts { 1 } else { request.j };
    Request { j, ..request }
}

/// Any kind, with numbers that are mostly below `n`.
pub fn random_request(rng: &mut Rng, n: usize) -> Request {
    let kind = 1 + rng.below(6);
    Request::new(kind, random_number(rng, n), random_number(rng, n))
}

fn random_number(rng: &mut Rng, n: usize) -> usize {
    match rng.below(40) {
        0 => n,
        1 => {
            let (trees, rings) = (tree::MAX_NODES, ring::MAX_NODES);
            let about = [n + 1, trees - 1, trees, rings - 1, rings];
            let beyond = [99, 100, 255, 256, 65_535, 99_999];
            rng.pick(&[&about[..], &beyond].concat())
        }
        _ => rng.below(n),
    }
}
