//! Numbers of many digits in the text of a tree: of n or more whatever they are, and below n if they were cut short.

use second::bounds::texts::{CUT, LONG, LONG_DIGITS, WIDTHS};
use second::generate::Rng;
use second::refusal::Refusal;
use second::report::Report;
use second::text;

/// The text with another number in the place of one, and now and then something else after it.
pub fn with_long_number(n: usize, text: &[u8], random: &mut Rng) -> Vec<u8> {
    let is_digit = |k: usize| text[k].is_ascii_digit();
    let starts: Vec<usize> = (1..text.len())
        .filter(|&k| is_digit(k) && !is_digit(k - 1))
        .collect();
    let start = random.pick(&starts);
    let rest = &text[start + digits(&text[start..])..];
    let rest = match random.below(6) {
        0 => &[],
        1 => random.pick(&[&b"x)"[..], b" ", b"((", b"\0"]),
        _ => rest,
    };
    [&text[..start], &long_number(n, random), rest].concat()
}

/// Digits at random, or a number about a power of two, which is mostly below n if it is cut to as many bits; now and then after zeros.
fn long_number(n: usize, random: &mut Rng) -> Vec<u8> {
    let power = 1_u128 << random.pick(&WIDTHS);
    let times = random.pick(&[1, 1, 2, 1_000]);
    let number = match random.below(8) {
        0..=3 => random_digits(random),
        4 => (power - 1 - random.below(3) as u128).to_string(),
        _ => (power * times + random.below(n) as u128).to_string(),
    };
    let zeros = random.pick(&["", "", "", "0", "00000000000000000000"]);
    format!("{zeros}{number}").into_bytes()
}

fn random_digits(random: &mut Rng) -> String {
    let length = random.pick(&[5, 6, 19, 20, 21, 40]);
    let first = 1 + random.below(9);
    let others = (1..length).map(|_| random.below(10).to_string());
    format!("{first}{}", others.collect::<String>())
}

/// How many bytes at the front of a text are digits.
fn digits(text: &[u8]) -> usize {
    text.iter().take_while(|byte| byte.is_ascii_digit()).count()
}

/// The number modulo 2^64.
fn value(digits: &[u8]) -> u64 {
    digits.iter().fold(0, |value: u64, digit| {
        value.wrapping_mul(10).wrapping_add(u64::from(digit - b'0'))
    })
}

/// The first number of three digits or more, if it is the first fault: with any other of n or more in its place, and nothing after it, the
/// answer is 6.
fn deciding(n: usize, text: &[u8]) -> Option<&[u8]> {
    let start = (0..text.len()).find(|&k| digits(&text[k..]) > 2)?;
    let other = [&text[..start], b"99"].concat();
    let number = &text[start..start + digits(&text[start..])];
    (text::read(n, &other) == Err(Refusal::UnknownNode)).then_some(number)
}

/// Readings that such a number decided.
#[derive(Default)]
pub struct Numbers {
    long: usize,
    cut: [usize; WIDTHS.len()],
    after_zeros: usize,
}

impl Numbers {
    pub fn count(&mut self, n: usize, text: &[u8], told: u8) {
        let Some(number) = deciding(n, text) else {
            return;
        };
        let is_long = number.len() >= LONG_DIGITS;
        if number.starts_with(b"0") {
            self.after_zeros += usize::from(is_long && told == 10);
        } else if told == 6 {
            self.long += usize::from(is_long);
            for (count, bits) in self.cut.iter_mut().zip(WIDTHS) {
                let cut = value(number) & (u64::MAX >> (64 - bits));
                *count += usize::from(cut < n as u64);
            }
        }
    }

    pub fn report(&self, report: &mut Report) {
        let name = format!("texts with a number of {LONG_DIGITS} digits or more");
        report.at_least(format!("{name} answered 6"), self.long, LONG);
        report.at_least(
            format!("{name}, the first a zero, answered 10"),
            self.after_zeros,
            LONG,
        );
        let names = WIDTHS.map(|bits| format!("texts answered 6, not if cut to {bits} bits"));
        report.each_at_least(CUT, names.into_iter().zip(self.cut));
    }
}
