//! The log program: paper, "The log program".

pub use crate::forms::LINE_BYTES;

use crate::decimal;
use crate::forms::{self, First, RingStart, Wrapped};
use crate::refusal::Refusal;
use crate::request::{Request, PASS, PROBE, SEND};
use crate::ring::Ring;
use crate::table::{Table, UPDATES};
use crate::text;
use crate::tree::Tree;

/// Lines that are read; what follows them is not.
pub const LINE_LIMIT: u32 = 1_000_000;

/// The whole program as a function: the bytes of a log to the bytes of the answers.
pub fn run(input: &[u8]) -> Vec<u8> {
    let mut log = Log::new();
    let mut out = Vec::new();
    log.feed(input, &mut out);
    log.finish(&mut out);
    out
}

/// The program fed in pieces. It holds the state, the count of lines and at
/// most the start of one line, so its memory does not grow with the log.
pub struct Log {
    run: Run,
    /// Lines answered so far.
    lines: u32,
    /// The start of a line whose byte 10 has not come, cut off past the limit.
    held: Vec<u8>,
}

/// What the log has started.
pub enum Run {
    /// The first line has not come.
    Unstarted,
    /// The first line was refused: nothing more is read or written.
    Refused,
    Ring(RingRun),
    Tree(Tree),
    /// The first line was an update's, so every line is one.
    Updates(Box<UpdatesRun>),
}

/// What the log counts of a ring since its start.
#[derive(Clone, Copy, Default)]
struct Counts {
    /// Accepted sends.
    sends: u64,
    /// Accepted token moves.
    moves: u64,
}

pub struct RingRun {
    pub ring: Ring,
    counts: Counts,
}

#[derive(Default)]
pub struct UpdatesRun {
    pub table: Table,
    counts: [Counts; UPDATES],
}

impl Default for Log {
    fn default() -> Self {
        Self::new()
    }
}

impl Log {
    pub fn new() -> Self {
        Self {
            run: Run::Unstarted,
            lines: 0,
            held: Vec::with_capacity(LINE_BYTES + 1),
        }
    }

    /// What the lines answered so far have led to.
    pub fn run(&self) -> &Run {
        &self.run
    }

    /// Lines answered so far.
    pub fn lines(&self) -> u32 {
        self.lines
    }

    /// Whether no further byte of the log is read.
    pub fn is_over(&self) -> bool {
        self.lines == LINE_LIMIT || matches!(self.run, Run::Refused)
    }

    /// Takes the next piece of the log and appends the answers to `out`.
    pub fn feed(&mut self, mut piece: &[u8], out: &mut Vec<u8>) {
        while !self.is_over() {
            let Some(end) = piece.iter().position(|&byte| byte == b'\n') else {
                self.hold(piece);
                return;
            };
            let (line, rest) = piece.split_at(end + 1);
            if self.held.is_empty() {
                self.answer(line, out);
            } else {
                self.hold(line);
                self.answer_held(out);
            }
            piece = rest;
        }
    }

    /// Ends the log: a line without its byte 10 or a missing first line, then the end line.
    pub fn finish(mut self, out: &mut Vec<u8>) {
        let first_is_missing = self.lines == 0;
        if !self.is_over() && (first_is_missing || !self.held.is_empty()) {
            self.answer_held(out);
        }
        match &self.run {
            Run::Unstarted | Run::Refused => {}
            Run::Ring(run) => {
                push_ring_end(out, &run.ring, run.counts);
                out.push(b'\n');
            }
            Run::Tree(tree) => push_tree_end(out, tree),
            Run::Updates(run) => push_updates_end(out, run),
        }
    }

    /// Keeps the start of a line, one byte past the limit at most.
    fn hold(&mut self, bytes: &[u8]) {
        let room = LINE_BYTES + 1 - self.held.len();
        self.held.extend_from_slice(&bytes[..bytes.len().min(room)]);
    }

    fn answer_held(&mut self, out: &mut Vec<u8>) {
        let mut held = std::mem::take(&mut self.held);
        self.answer(&held, out);
        held.clear();
        self.held = held;
    }

    /// Answers one line, given with its byte 10 if it has one.
    fn answer(&mut self, line: &[u8], out: &mut Vec<u8>) {
        self.lines += 1;
        match self.carry_out(line) {
            Ok(()) => push_ok(out, self.lines),
            Err(refusal) => push_no(out, self.lines, refusal),
        }
    }

    /// Carries out one line: the start if it is the first, else a step.
    fn carry_out(&mut self, line: &[u8]) -> Result<(), Refusal> {
        match &mut self.run {
            Run::Unstarted => match start(line) {
                Ok(run) => {
                    self.run = run;
                    Ok(())
                }
                Err(refusal) => {
                    self.run = Run::Refused;
                    Err(refusal)
                }
            },
            Run::Refused => Err(Refusal::NotAForm),
            Run::Ring(run) => run.carry_out(forms::of_ring(line)?),
            Run::Tree(tree) => tree.apply(forms::of_tree(line)?),
            Run::Updates(run) => run.carry_out(forms::wrapped(line)?),
        }
    }
}

/// The first line. Its form is judged whole, then an update's number, then N, then the nodes it names.
fn start(line: &[u8]) -> Result<Run, Refusal> {
    match forms::first(line)? {
        First::Ring(start) => Ok(Run::Ring(RingRun {
            ring: Ring::start(start.n, &start.flags()?)?,
            counts: Counts::default(),
        })),
        First::Tree(n, root) => Ok(Run::Tree(Tree::start(n, root)?)),
        First::Update(update, start) => {
            let mut run = Box::<UpdatesRun>::default();
            run.start(update, &start)?;
            Ok(Run::Updates(run))
        }
    }
}

impl Counts {
    /// A step of the ring that these are of, counted if it is accepted.
    fn step(&mut self, ring: &mut Ring, request: Request) -> Result<(), Refusal> {
        ring.apply(request, self.sends)?;
        match request.kind {
            SEND => self.sends += 1,
            PROBE | PASS => self.moves += 1,
            _ => {}
        }
        Ok(())
    }
}

impl RingRun {
    fn carry_out(&mut self, request: Request) -> Result<(), Refusal> {
        self.counts.step(&mut self.ring, request)
    }
}

impl UpdatesRun {
    fn carry_out(&mut self, (update, wrapped): (usize, Wrapped)) -> Result<(), Refusal> {
        match wrapped {
            Wrapped::Start(start) => self.start(update, &start),
            Wrapped::Step(request) => self.step(update, request),
        }
    }

    /// A start, which begins the update's counts anew.
    fn start(&mut self, update: usize, start: &RingStart) -> Result<(), Refusal> {
        self.table.check_start(update, start.n)?;
        let ring = Ring::start(start.n, &start.flags()?)?;
        self.table.updates[update] = Some(ring);
        self.counts[update] = Counts::default();
        Ok(())
    }

    /// A step of an update that is started, judged on its own count of sends.
    fn step(&mut self, update: usize, request: Request) -> Result<(), Refusal> {
        let ring = self.table.ring(update)?;
        self.counts[update].step(ring, request)
    }
}

fn push_ok(out: &mut Vec<u8>, line: u32) {
    out.extend_from_slice(b"(ok ");
    decimal::push(out, u64::from(line));
    out.extend_from_slice(b")\n");
}

fn push_no(out: &mut Vec<u8>, line: u32, refusal: Refusal) {
    out.extend_from_slice(b"(no ");
    decimal::push(out, u64::from(line));
    out.push(b' ');
    decimal::push(out, u64::from(refusal.number()));
    out.extend_from_slice(b")\n");
}

/// ` (word value)`.
fn push_item(out: &mut Vec<u8>, word: &[u8], value: u64) {
    out.extend_from_slice(b" (");
    out.extend_from_slice(word);
    out.push(b' ');
    decimal::push(out, value);
    out.push(b')');
}

/// The end of a ring, without its byte 10.
fn push_ring_end(out: &mut Vec<u8>, ring: &Ring, counts: Counts) {
    out.extend_from_slice(b"(end");
    push_item(out, b"boards", ring.n as u64);
    push_item(out, b"holder", ring.token.pos as u64);
    push_item(out, b"moves", counts.moves);
    push_item(out, b"flight", ring.in_transit());
    push_item(out, b"black", u64::from(ring.black_nodes()));
    out.push(b')');
}

/// A line for each started update, ascending.
fn push_updates_end(out: &mut Vec<u8>, run: &UpdatesRun) {
    for (update, ring) in run.table.updates.iter().enumerate() {
        if let Some(ring) = ring {
            out.extend_from_slice(b"(update ");
            decimal::push(out, update as u64);
            out.push(b' ');
            push_ring_end(out, ring, run.counts[update]);
            out.extend_from_slice(b")\n");
        }
    }
}

fn push_tree_end(out: &mut Vec<u8>, tree: &Tree) {
    out.extend_from_slice(b"(end");
    push_item(out, b"boards", tree.n as u64);
    out.extend_from_slice(b" (engaged ");
    text::append(tree, out);
    out.push(b')');
    push_item(out, b"acks", tree.acks_in_transit());
    out.extend_from_slice(b")\n");
}
