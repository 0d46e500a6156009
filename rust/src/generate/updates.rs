//! Logs of updates: rings of the same N whose lines are interleaved, each started afresh at any time.

use super::faults::{fault, wrapped, Fault};
use super::inbox::{delivery, emptying};
use super::limits::{listed, PAST};
use super::model::{Model, RING_WORDS};
use super::rng::Rng;
use super::starts::above;
use super::writer::{
    full_line_of, line_of, of_one, random_request, random_ring_line, ring_line, short_ring_line,
    spelled, Mix, AGAIN, MOST_AGAIN,
};
use crate::log::{Log, Run, LINE_BYTES, LINE_LIMIT};
use crate::request::{Request, ANNOUNCE, SEND, TAKE};
use crate::ring::{Ring, MAX_NODES};
use crate::table::UPDATES;

/// Beside what the mix adds, in a hundred lines: forms that are mostly refused, fresh starts, drives to an announcement.
const STRAY: usize = 5;
const FRESH: usize = 2;
const DRIVEN: usize = 2;
/// Lines of others after a hundred of a drive.
const BETWEEN: usize = 40;
/// Lines of others after a hundred sends to a full inbox.
const OTHERS: usize = 40;
/// Lines of an update before it winds down, at most.
const BUSY: usize = 60;
/// How often, in a hundred, an allowed take is of any number of messages.
const SEVERAL: usize = 40;

pub struct Updates {
    log: Vec<u8>,
    /// The second implementation, fed with all of `log`.
    reader: Log,
    n: usize,
    /// Lines that each update stays busy for.
    busy: [usize; UPDATES],
}

impl Updates {
    /// The log whose first line starts an update.
    pub fn new(rng: &mut Rng, n: usize) -> Self {
        let mut updates = Self {
            log: Vec::new(),
            reader: Log::new(),
            n,
            busy: [0; UPDATES],
        };
        let first = rng_update(rng);
        updates.start(rng, first);
        updates
    }

    pub fn finish(self) -> Vec<u8> {
        self.log
    }

    fn write(&mut self, bytes: &[u8]) {
        self.log.extend_from_slice(bytes);
        self.reader.feed(bytes, &mut Vec::new());
    }

    fn lines(&self) -> usize {
        self.reader.lines() as usize
    }

    /// The ring of an update that is started.
    fn ring(&self, update: usize) -> Option<&Ring> {
        match self.reader.run() {
            Run::Updates(run) => run.table.updates.get(update)?.as_ref(),
            _ => panic!("no log of updates"),
        }
    }

    fn start(&mut self, rng: &mut Rng, update: usize) {
        let line = random_ring_line(rng, self.n);
        self.busy[update] = rng.below(BUSY);
        self.write(&wrapped(update, &line));
    }

    /// A step, with all its numbers now and then.
    fn step(&mut self, rng: &mut Rng, update: usize, request: Request) {
        self.write(&wrapped(update, &spelled(rng, &RING_WORDS, request)));
    }

    /// Lines of some updates, and what the mix adds, until `lines` lines are written.
    pub fn guided(&mut self, rng: &mut Rng, lines: usize, mix: Mix) {
        let (first, in_play) = (rng.below(UPDATES), 1 + rng.below(UPDATES));
        while self.lines() < lines {
            let update = (first + rng.below(in_play)) % UPDATES;
            let roll = rng.below(100);
            if roll < mix.random {
                let request = random_request(rng, self.n);
                self.step(rng, update, request);
            } else if roll < mix.random + mix.tempting {
                self.tempt(rng, update);
            } else if roll < mix.random + mix.tempting + mix.faults {
                self.fault(rng, update, mix.fault);
            } else if rng.chance(STRAY) {
                self.stray(rng, update);
            } else if rng.chance(FRESH) {
                self.start(rng, update);
            } else if rng.chance(DRIVEN) {
                self.close(rng, update);
            } else {
                self.advance(rng, update);
            }
        }
    }

    /// A start, a step that the rules allow, or the announcement; after it a fresh start mostly.
    fn advance(&mut self, rng: &mut Rng, update: usize) {
        match self.ring(update) {
            None => self.start(rng, update),
            Some(ring) if ring.closed && rng.chance(60) => self.start(rng, update),
            Some(_) => {
                let request = self.allowed(rng, update);
                self.step(rng, update, request);
                if request.kind == SEND && rng.chance(AGAIN) {
                    for _ in 0..rng.below(MOST_AGAIN) {
                        self.step(rng, update, request);
                    }
                }
            }
        }
    }

    /// A step that the rules allow of a started update, if one does; a busy one is not terminated.
    fn allowed(&mut self, rng: &mut Rng, update: usize) -> Request {
        let busy = self.busy[update] > 0;
        self.busy[update] = self.busy[update].saturating_sub(1);
        let ring = self.ring(update).expect("a started update");
        let kept_up = |request: &Request| !(busy && ring.terminates(*request));
        match ring.allowed(rng, !busy).filter(kept_up) {
            None => Request::new(ANNOUNCE, 0, 0),
            Some(request) if rng.chance(SEVERAL) => ring.of_several(rng, request),
            Some(request) => request,
        }
    }

    /// Steps of one update without sends, to its announcement, and lines of others between them.
    fn close(&mut self, rng: &mut Rng, update: usize) {
        self.busy[update] = 0;
        while self.ring(update).is_some_and(|ring| !ring.closed) && !self.reader.is_over() {
            let request = self.allowed(rng, update);
            self.step(rng, update, request);
            if rng.chance(BETWEEN) {
                let between = rng_update(rng);
                self.advance(rng, between);
            }
        }
    }

    /// An update of which one node empties its inbox, and lines of others now and then.
    pub fn full_inbox(&mut self, rng: &mut Rng) {
        let update = rng_update(rng);
        let (sender, receiver, messages) = delivery(rng, self.n);
        self.write(&wrapped(update, &ring_line(self.n, &[sender], &[])));
        for _ in 0..messages {
            self.step(rng, update, Request::new(SEND, sender, receiver));
            if rng.chance(OTHERS) {
                let other = (update + 1 + rng.below(UPDATES - 1)) % UPDATES;
                self.advance(rng, other);
            }
        }
        for messages in emptying(rng, messages) {
            self.step(rng, update, Request::new(TAKE, receiver, messages));
        }
        self.close(rng, update);
    }

    /// A step that is likely to be refused.
    fn tempt(&mut self, rng: &mut Rng, update: usize) {
        let request = match self.ring(update) {
            Some(ring) => ring.tempting(rng),
            None => random_request(rng, self.n),
        };
        self.step(rng, update, request);
    }

    /// A form that is refused mostly: the number of an update, N, or a node of a list.
    fn stray(&mut self, rng: &mut Rng, update: usize) {
        let n = self.n;
        let other_n = self.other_n(rng);
        let beyond = above(rng, n - 1);
        let unknown = unknown(rng);
        let not_open = rng.node(UPDATES, |u| self.ring(u).is_none_or(|ring| ring.closed));
        let not_open = not_open.unwrap_or(update);
        let line = match rng.below(10) {
            0 => wrapped(unknown, &random_ring_line(rng, n)),
            1 => wrapped(unknown, &ring_line(other_n, &[beyond], &[])),
            2 | 3 => wrapped(unknown, &step_line(random_request(rng, n))),
            4 => wrapped(rng_update(rng), &step_line(random_request(rng, n))),
            5 => wrapped(update, &short_ring_line(rng, other_n)),
            6 => wrapped(not_open, &short_ring_line(rng, other_n)),
            7 => wrapped(update, &ring_line(other_n, &[], &[beyond])),
            8 => wrapped(update, &ring_line(n, &[0], &[0, beyond])),
            _ => listed_update(update, n, LINE_BYTES - 2 + rng.below(4)),
        };
        self.write(&line);
    }

    /// Another N than the fixed one mostly, in range or not.
    fn other_n(&self, rng: &mut Rng) -> usize {
        let (n, any) = (self.n, 1 + rng.below(MAX_NODES));
        let cut = [1 << 8 | n, 1 << 16 | n];
        rng.pick(&[0, n - 1, n + 1, any, any, 97, cut[0], cut[1], 99_999])
    }

    /// A line that is wrong, mostly in its wrapping.
    fn fault(&mut self, rng: &mut Rng, update: usize, kind: Fault) {
        let inner = if rng.chance(20) {
            random_ring_line(rng, self.n)
        } else {
            full_line_of(&RING_WORDS, random_request(rng, self.n))
        };
        let line = if rng.chance(50) {
            misread(rng, update, &inner)
        } else {
            fault(rng, kind, &wrapped(update, &inner))
        };
        self.write(&line);
    }
}

/// A start of an update, of `length` bytes with its byte 10, that names nodes of N or more.
pub fn listed_update(update: usize, n: usize, length: usize) -> Vec<u8> {
    let head = format!("(update {update} (ring {n} (active");
    listed(&head, ") (black)))\n", length)
}

fn rng_update(rng: &mut Rng) -> usize {
    rng.below(UPDATES)
}

fn step_line(request: Request) -> Vec<u8> {
    line_of(&RING_WORDS, request)
}

/// A number above 7; cut to 8 or 16 bits some are not.
pub fn unknown(rng: &mut Rng) -> usize {
    let within = rng.below(UPDATES);
    rng.pick(&[8, 8, 9, 17, 88, 1 << 8 | within, 1 << 16 | within, 99_999])
}

/// Lines that are no forms, with the number of an update for `U` and a good form for `F`.
const WRAPPINGS: [&str; 39] = [
    "F",
    "(update U F",
    "(update U F))",
    "(update UF)",
    "(update U  F)",
    "(update  U F)",
    "(update F)",
    "(update U)",
    "(update U )",
    "(update U (F))",
    "(update U (update U F))",
    "(update U F )",
    "(update U F F)",
    "(update U F) (update U F)",
    "(update U (tree 3 (root 0)))",
    "(update U (ack 0))",
    "(update U (leave 1))",
    "(update U (take))",
    "(update U (take 1 ))",
    "(update U (take 1  5))",
    "(update U (take 1 05))",
    "(update U (take 1 100000))",
    "(update U (take 1 5 1))",
    "(update U (end))",
    "(update U ())",
    "(update 0U F)",
    "(update U00000 F)",
    "(update U (ring 5 (active 1 0) (black)))",
    "(update U (ring 5 (active) (black 2 2)))",
    "(update U (ring 5 (black) (active)))",
    "(update U (ring 05))",
    "(Update U F)",
    "(updates U F)",
    "(update U U F)",
    "update U F",
    " (update U F)",
    "(update U F)\r",
    "(update -U F)",
    "(update U\0F)",
];

fn misread(rng: &mut Rng, update: usize, inner: &[u8]) -> Vec<u8> {
    let form = String::from_utf8_lossy(inner);
    let line = rng.pick(&WRAPPINGS);
    let line = line.replace('F', form.trim_end());
    format!("{}\n", line.replace('U', &update.to_string())).into_bytes()
}

/// A log of updates that goes on past the greatest number of lines, all of the last being starts.
pub fn updates_past_line_limit(mix: Mix) -> Vec<u8> {
    let rng = &mut Rng::new(8);
    let mut updates = Updates::new(rng, 5);
    updates.guided(rng, LINE_LIMIT as usize - 1, mix);
    for _ in 0..=PAST {
        let update = rng_update(rng);
        updates.start(rng, update);
    }
    updates.finish()
}

/// Eight busy rings of the greatest size that are never quiet, `lines` lines; and the same steps unwrapped on one ring, each with
/// the same answer. In a hundred steps `random` are any requests, the others are allowed.
pub fn busy_updates(lines: usize, random: usize) -> [Vec<u8>; 2] {
    let rng = &mut Rng::new(796);
    let half: Vec<usize> = (0..MAX_NODES).filter(|i| i % 2 == 0).collect();
    let start = ring_line(MAX_NODES, &half, &[]);
    let mut logs = [Vec::new(), start.clone()];
    let mut all = [Log::new(), Log::new()];
    all[1].feed(&start, &mut Vec::new());
    for update in 0..UPDATES {
        let line = wrapped(update, &start);
        all[0].feed(&line, &mut Vec::new());
        logs[0].extend_from_slice(&line);
    }
    for _ in UPDATES..lines {
        let (update, request) = busy_step(rng, &all, random);
        let step = step_line(request);
        let both = [wrapped(update, &step), step];
        for (k, line) in both.iter().enumerate() {
            all[k].feed(line, &mut Vec::new());
            logs[k].extend_from_slice(line);
        }
    }
    logs
}

/// A step of an update that is answered alike on the one ring, and makes neither quiet.
fn busy_step(rng: &mut Rng, logs: &[Log; 2], random: usize) -> (usize, Request) {
    let [Run::Updates(updates), Run::Ring(one)] = [logs[0].run(), logs[1].run()] else {
        panic!("eight rings and one");
    };
    let any = rng.chance(random);
    loop {
        let update = rng_update(rng);
        let ring = updates.table.updates[update].as_ref().expect("a start");
        let request = if any {
            of_one(&RING_WORDS, random_request(rng, MAX_NODES))
        } else {
            ring.allowed(rng, false).expect("a ring that is not quiet")
        };
        let [answer, other] = [ring, &one.ring].map(|ring| ring.clone().apply(request, 0));
        let lasts = [ring, &one.ring]
            .iter()
            .all(|ring| !ring.terminates(request));
        if answer == other && lasts {
            return (update, request);
        }
    }
}
