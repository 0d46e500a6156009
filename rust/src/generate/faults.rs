//! Lines that are no forms, or seldom.

use super::rng::Rng;
use crate::log::LINE_BYTES;
use crate::table::UPDATES;

/// How a line is wrong.
#[derive(Clone, Copy)]
pub enum Fault {
    /// A good line with one change.
    Damage,
    /// Random bytes.
    Noise,
    /// A word of either detector, a start, or a form with too few or too many numbers.
    Foreign,
    /// A line about the limit of bytes or far beyond it.
    Long,
    /// A good line as one of an update.
    Wrapped,
}

/// A wrong line in the place of a good one; it may hold more than one byte 10, or none.
pub fn fault(rng: &mut Rng, kind: Fault, good: &[u8]) -> Vec<u8> {
    match kind {
        Fault::Damage => damaged(rng, good),
        Fault::Noise => noise(rng),
        Fault::Foreign => format!("{}\n", rng.pick(&FORMS)).into_bytes(),
        Fault::Long => long(rng, good),
        Fault::Wrapped => wrapped(rng.below(2 * UPDATES), good),
    }
}

/// A line, which has its byte 10, as one of an update.
pub fn wrapped(update: usize, line: &[u8]) -> Vec<u8> {
    let inner = line.strip_suffix(b"\n").expect("a whole line");
    [format!("(update {update} ").as_bytes(), inner, b")\n"].concat()
}

/// Bytes that lie near the forms, and some that lie far from them.
const BYTES: &[u8] = b"()  0123456789abcdeghiklnoprstuvwAZ\t\r\n\0\x0b\x7f\x80\xff.-+,";

/// One change of a line, which has its byte 10.
pub fn damaged(rng: &mut Rng, good: &[u8]) -> Vec<u8> {
    let mut line = good.to_vec();
    let at = rng.below(line.len());
    let number_at = any_number(rng, &line);
    match rng.below(14) {
        0 => line[at] ^= 1 << rng.below(8),
        1 => line[at] = rng.pick(BYTES),
        2 => drop(line.remove(at)),
        3 => line.insert(at, rng.pick(BYTES)),
        4 => line.insert(at, line[at]),
        5 => line.insert(at, b' '),
        6 => line.insert(line.len() - 1, b'\r'),
        7 => line.insert(line.len() - 1, b' '),
        8 => line.make_ascii_uppercase(),
        9 => line[at].make_ascii_uppercase(),
        10 => insert_at_number(&mut line, number_at, b"0"),
        11 => insert_at_number(&mut line, number_at, b"1000"),
        12 => insert_at_number(&mut line, number_at, b"10000"),
        _ => line.truncate(at),
    }
    line
}

/// Where a number of the line begins, if it has one.
fn any_number(rng: &mut Rng, line: &[u8]) -> Option<usize> {
    let is_digit = |k: usize| line[k].is_ascii_digit();
    rng.node(line.len(), |k| is_digit(k) && (k == 0 || !is_digit(k - 1)))
}

fn insert_at_number(line: &mut Vec<u8>, number_at: Option<usize>, bytes: &[u8]) {
    if let Some(at) = number_at {
        line.splice(at..at, bytes.iter().copied());
    }
}

fn noise(rng: &mut Rng) -> Vec<u8> {
    let mut line: Vec<u8> = (0..rng.below(12)).map(|_| rng.pick(BYTES)).collect();
    line.push(b'\n');
    line
}

/// Forms of both detectors, and some that are none.
const FORMS: [&str; 38] = [
    "(send 0 1)",
    "(send 0)",
    "(send)",
    "(send 0 1 2)",
    "(take 1)",
    "(take 1 0)",
    "(take)",
    "(take 1 )",
    "(take 1 5)",
    "(take 1  5)",
    "(take 1 05)",
    "(take 1 1001)",
    "(take 1 100000)",
    "(take 1 5 1)",
    "(take 1 0 1)",
    "(idle 0)",
    "(idle)",
    "(idle 0 1)",
    "(probe)",
    "(probe 0)",
    "(pass 1)",
    "(pass)",
    "(pass 1 0)",
    "(ack 0)",
    "(ack)",
    "(leave 1)",
    "(leave)",
    "(announce)",
    "(announce 0)",
    "(ring 3)",
    "(ring 3 (active) (black))",
    "(tree 3 (root 0))",
    "(ok 1)",
    "(end)",
    "()",
    "(",
    "send 0 1",
    "((send 0 1))",
];

/// What is too long alone, before a good line, or as the beginning of one.
fn long(rng: &mut Rng, good: &[u8]) -> Vec<u8> {
    let length = match rng.below(8) {
        0..=5 => LINE_BYTES - 2 + rng.below(5),
        6 => LINE_BYTES * rng.below(4),
        _ => rng.below(20_000),
    };
    let mut line = vec![rng.pick(b"x 0("); length];
    line.extend_from_slice(rng.pick(&[b"\n", good, b"\n\n"]));
    line
}
