//! How takes are spelled, in bare lines and in those of updates.

use super::NOT_A_FORM;
use crate::report::Report;

/// What follows the word.
#[derive(Clone, Copy, PartialEq, Eq, Debug)]
enum Spelling {
    NoNumber,
    OneNumber,
    /// Two numbers, the second a 1.
    One,
    LeadingZero,
    SixDigits,
    /// A space and nothing after it.
    Space,
    TwoSpaces,
    ThreeNumbers,
}

use Spelling::*;

const SPELLINGS: usize = ThreeNumbers as usize + 1;

/// Spellings that are no form in any log.
const NO_FORMS: [(Spelling, &str); 6] = [
    (NoNumber, "no number"),
    (LeadingZero, "a leading zero of its second number"),
    (SixDigits, "a second number of six digits or more"),
    (Space, "a space for its second number"),
    (TwoSpaces, "two spaces before its second number"),
    (ThreeNumbers, "three numbers"),
];

#[derive(Default)]
pub struct Spellings {
    accepted: [usize; SPELLINGS],
    no_form: [usize; SPELLINGS],
}

impl Spellings {
    pub fn count(&mut self, line: &[u8], answer: usize) {
        let counts = match answer {
            0 => &mut self.accepted,
            NOT_A_FORM => &mut self.no_form,
            _ => return,
        };
        if let Some(spelling) = spelling(line) {
            counts[spelling as usize] += 1;
        }
    }

    /// Of rings: both spellings of a take of one message, and what is no form.
    pub fn report(&self, of: &str, least: usize, report: &mut Report) {
        let accepted = [(OneNumber, "no"), (One, "the")];
        let accepted = accepted.map(|(spelling, number)| {
            let name = format!("{of}: take of one spelled with {number} number of messages");
            (name, self.accepted[spelling as usize])
        });
        report.each_at_least(least, accepted);
        self.report_no_forms(of, least, report);
    }

    /// Of trees: their take has two numbers always.
    pub fn report_tree(&self, least: usize, report: &mut Report) {
        let one = self.no_form[OneNumber as usize];
        report.at_least("tree: take that is no form: one number", one, least);
        self.report_no_forms("tree", least, report);
    }

    fn report_no_forms(&self, of: &str, least: usize, report: &mut Report) {
        let no_forms = NO_FORMS.map(|(spelling, what)| {
            let name = format!("{of}: take that is no form: {what}");
            (name, self.no_form[spelling as usize])
        });
        report.each_at_least(least, no_forms);
    }
}

/// The spelling of a take whose line has no other fault.
fn spelling(line: &[u8]) -> Option<Spelling> {
    let end: &[u8] = if line.starts_with(b"(take") {
        b")\n"
    } else {
        b"))\n"
    };
    let at = line.windows(5).position(|word| word == b"(take")?;
    let items = line[at + 5..].strip_suffix(end)?;
    let items: Vec<&[u8]> = items.split(|&byte| byte == b' ').collect();
    let is_number = |item: &[u8]| !item.is_empty() && item.iter().all(u8::is_ascii_digit);
    let is_long = |item: &[u8]| is_number(item) && item.len() > 5;
    let is_padded = |item: &[u8]| is_number(item) && item.len() > 1 && item[0] == b'0';
    match items[..] {
        [b""] => Some(NoNumber),
        [b"", i] if is_number(i) => Some(OneNumber),
        [b"", i, b"1"] if is_number(i) => Some(One),
        [b"", i, b""] if is_number(i) => Some(Space),
        [b"", i, n] if is_number(i) && is_padded(n) => Some(LeadingZero),
        [b"", i, n] if is_number(i) && is_long(n) => Some(SixDigits),
        [b"", i, b"", n] if is_number(i) && is_number(n) => Some(TwoSpaces),
        [b"", i, n, k] if is_number(i) && is_number(n) && is_number(k) => Some(ThreeNumbers),
        _ => None,
    }
}

#[cfg(test)]
mod tests {
    use super::*;

    #[test]
    fn spellings_are_told_apart() {
        for (items, expected) in [
            ("", Some(NoNumber)),
            (" 2", Some(OneNumber)),
            (" 2 1", Some(One)),
            (" 2 05", Some(LeadingZero)),
            (" 2 100000", Some(SixDigits)),
            (" 2 ", Some(Space)),
            (" 2  5", Some(TwoSpaces)),
            (" 2 5 1", Some(ThreeNumbers)),
            (" 2 5", None),
            (" 2 x", None),
            ("s 2 1", None),
        ] {
            let bare = format!("(take{items})\n");
            let wrapped = format!("(update 7 (take{items}))\n");
            for line in [bare.as_bytes(), wrapped.as_bytes()] {
                assert_eq!(spelling(line), expected, "{items}");
                assert_eq!(spelling(&line[..line.len() - 1]), None);
            }
            assert_eq!(spelling(wrapped.replace("))", ")").as_bytes()), None);
        }
    }
}
