//! The forms of the log's lines: paper, "The log program", and requests. A form is judged by its bytes alone.

use crate::decimal;
use crate::refusal::Refusal;
use crate::request::{Request, ACK, ANNOUNCE, IDLE, LEAVE, PASS, PROBE, SEND, TAKE};
use crate::ring::MAX_NODES;

/// Bytes of the longest line, its byte 10 among them.
pub const LINE_BYTES: usize = 700;
/// Digits of the longest number.
const DIGIT_LIMIT: usize = 5;

/// `ring N`, with both lists or with neither.
#[derive(Clone, Debug, PartialEq, Eq)]
pub struct RingStart {
    pub n: usize,
    pub lists: Option<Lists>,
}

/// The nodes that a start names.
#[derive(Clone, Debug, PartialEq, Eq)]
pub struct Lists {
    pub active: Vec<usize>,
    pub black: Vec<usize>,
}

/// A first line.
pub enum First {
    Ring(RingStart),
    /// `tree N (root R)`.
    Tree(usize, usize),
    /// The number of an update, and its start.
    Update(usize, RingStart),
}

/// What is wrapped in a line of an update.
#[derive(Clone, Debug, PartialEq, Eq)]
pub enum Wrapped {
    Start(RingStart),
    Step(Request),
}

impl RingStart {
    /// A flag byte for each node, if N is in range and the lists name nodes below it.
    pub fn flags(&self) -> Result<Vec<u8>, Refusal> {
        if !(1..=MAX_NODES).contains(&self.n) {
            return Err(Refusal::NodeCount);
        }
        let Some(lists) = &self.lists else {
            // Without lists all nodes are active and white.
            return Ok(vec![1; self.n]);
        };
        let mut flags = vec![0; self.n];
        for (list, bit) in [(&lists.active, 1), (&lists.black, 2)] {
            for &i in list {
                *flags.get_mut(i).ok_or(Refusal::UnknownNode)? |= bit;
            }
        }
        Ok(flags)
    }
}

pub fn first(line: &[u8]) -> Result<First, Refusal> {
    let form = form_of(line)?;
    if form.starts_with(b"ring ") {
        return ring_start(form).map(First::Ring);
    }
    if form.starts_with(b"tree ") {
        return tree_start(form);
    }
    match wrapped(line)? {
        (update, Wrapped::Start(start)) => Ok(First::Update(update, start)),
        (_, Wrapped::Step(_)) => Err(Refusal::NotAForm),
    }
}

/// A line after a ring's start.
pub fn of_ring(line: &[u8]) -> Result<Request, Refusal> {
    ring_step(form_of(line)?)
}

/// A line after a tree's start.
pub fn of_tree(line: &[u8]) -> Result<Request, Refusal> {
    tree_step(form_of(line)?)
}

/// `(update U (..))`: the number and what it wraps.
pub fn wrapped(line: &[u8]) -> Result<(usize, Wrapped), Refusal> {
    let mut items = Items {
        rest: form_of(line)?,
    };
    items.literal(b"update ")?;
    let update = items.number()?;
    items.literal(b" (")?;
    let inner = items.rest.strip_suffix(b")").ok_or(Refusal::NotAForm)?;
    let wrapped = if inner.starts_with(b"ring ") {
        Wrapped::Start(ring_start(inner)?)
    } else {
        Wrapped::Step(ring_step(inner)?)
    };
    Ok((update, wrapped))
}

/// What stands between the outer brackets of a line that is not too long.
fn form_of(line: &[u8]) -> Result<&[u8], Refusal> {
    if line.len() > LINE_BYTES {
        return Err(Refusal::NotAForm);
    }
    line.strip_prefix(b"(")
        .and_then(|line| line.strip_suffix(b")\n"))
        .ok_or(Refusal::NotAForm)
}

/// `ring N` with both lists or neither.
fn ring_start(form: &[u8]) -> Result<RingStart, Refusal> {
    let mut items = Items { rest: form };
    items.literal(b"ring ")?;
    let n = items.number()?;
    let lists = if items.rest.is_empty() {
        None
    } else {
        items.literal(b" (active")?;
        let active = items.list()?;
        items.literal(b") (black")?;
        let black = items.list()?;
        items.literal(b")")?;
        Some(Lists { active, black })
    };
    items.end()?;
    Ok(RingStart { n, lists })
}

/// `tree N (root R)`.
fn tree_start(form: &[u8]) -> Result<First, Refusal> {
    let mut items = Items { rest: form };
    items.literal(b"tree ")?;
    let n = items.number()?;
    items.literal(b" (root ")?;
    let root = items.number()?;
    items.literal(b")")?;
    items.end()?;
    Ok(First::Tree(n, root))
}

/// A ring's step, between its brackets.
fn ring_step(form: &[u8]) -> Result<Request, Refusal> {
    let (word, numbers) = split_word(form);
    match word {
        b"send" => two(SEND, numbers),
        b"take" => ring_take(numbers),
        b"idle" => one(IDLE, numbers),
        b"probe" => none(PROBE, numbers),
        b"pass" => one(PASS, numbers),
        b"announce" => none(ANNOUNCE, numbers),
        _ => Err(Refusal::NotAForm),
    }
}

/// A tree's step, between its brackets.
fn tree_step(form: &[u8]) -> Result<Request, Refusal> {
    let (word, numbers) = split_word(form);
    match word {
        b"send" => two(SEND, numbers),
        b"take" => two(TAKE, numbers),
        b"idle" => one(IDLE, numbers),
        b"ack" => one(ACK, numbers),
        b"leave" => one(LEAVE, numbers),
        b"announce" => none(ANNOUNCE, numbers),
        _ => Err(Refusal::NotAForm),
    }
}

/// A form's word, and what follows it from the first space on.
fn split_word(form: &[u8]) -> (&[u8], Items<'_>) {
    let end = form.iter().position(|&byte| byte == b' ');
    let (word, rest) = form.split_at(end.unwrap_or(form.len()));
    (word, Items { rest })
}

fn none(kind: usize, items: Items) -> Result<Request, Refusal> {
    items.end()?;
    Ok(Request::new(kind, 0, 0))
}

fn one(kind: usize, mut items: Items) -> Result<Request, Refusal> {
    let i = items.spaced_number()?;
    items.end()?;
    Ok(Request::new(kind, i, 0))
}

fn two(kind: usize, mut items: Items) -> Result<Request, Refusal> {
    let i = items.spaced_number()?;
    let j = items.spaced_number()?;
    items.end()?;
    Ok(Request::new(kind, i, j))
}

/// A node, and how many messages it takes: one where that is not said.
fn ring_take(mut items: Items) -> Result<Request, Refusal> {
    let i = items.spaced_number()?;
    let messages = if items.rest.is_empty() {
        1
    } else {
        items.spaced_number()?
    };
    items.end()?;
    Ok(Request::new(TAKE, i, messages))
}

/// The items of a form, read from the left.
struct Items<'a> {
    rest: &'a [u8],
}

impl Items<'_> {
    fn literal(&mut self, bytes: &[u8]) -> Result<(), Refusal> {
        self.rest = self.rest.strip_prefix(bytes).ok_or(Refusal::NotAForm)?;
        Ok(())
    }

    /// One to five digits without a leading zero.
    fn number(&mut self) -> Result<usize, Refusal> {
        let (digits, rest) = self.rest.split_at(decimal::digits(self.rest));
        if !(1..=DIGIT_LIMIT).contains(&digits.len()) || decimal::has_leading_zero(digits) {
            return Err(Refusal::NotAForm);
        }
        self.rest = rest;
        Ok(decimal::value(digits))
    }

    fn spaced_number(&mut self) -> Result<usize, Refusal> {
        self.literal(b" ")?;
        self.number()
    }

    /// Numbers that ascend without repeats, each after one space.
    fn list(&mut self) -> Result<Vec<usize>, Refusal> {
        let mut list = Vec::new();
        while self.rest.starts_with(b" ") {
            let i = self.spaced_number()?;
            if list.last().is_some_and(|&last| i <= last) {
                return Err(Refusal::NotAForm);
            }
            list.push(i);
        }
        Ok(list)
    }

    fn end(&self) -> Result<(), Refusal> {
        if self.rest.is_empty() {
            Ok(())
        } else {
            Err(Refusal::NotAForm)
        }
    }
}
