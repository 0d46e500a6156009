//! The answers to first lines.

use super::{ANSWERS, NOT_A_FORM};
use crate::bounds::logs::{CAUSES, STARTS, WIDTHS};
use crate::decimal;
use crate::log::{run, LINE_BYTES};
use crate::report::Report;

/// One detector's first lines that are forms and refused.
#[derive(Default)]
struct Refused {
    answers: [usize; ANSWERS],
    /// Those that are answered otherwise if their numbers are cut to so many bits.
    cut: [usize; WIDTHS.len()],
}

impl Refused {
    fn count(&mut self, line: &[u8], answer: usize) {
        self.answers[answer] += 1;
        for (count, bits) in self.cut.iter_mut().zip(WIDTHS) {
            *count += usize::from(run(&cut(line, bits)) != run(line));
        }
    }
}

/// A line with its numbers cut to so many bits.
fn cut(mut line: &[u8], bits: u32) -> Vec<u8> {
    let mut out = Vec::new();
    while !line.is_empty() {
        let digits = decimal::digits(line);
        let (front, rest) = line.split_at(digits.max(1));
        match digits {
            0 => out.extend_from_slice(front),
            _ => decimal::push(&mut out, decimal::value(front) as u64 % (1 << bits)),
        }
        line = rest;
    }
    out
}

#[derive(Default)]
pub struct Starts {
    accepted: usize,
    ring: Refused,
    tree: Refused,
    no_input: usize,
    no_end: usize,
    too_long: usize,
    no_form: usize,
}

impl Starts {
    pub fn count(&mut self, line: &[u8], answer: usize) {
        if answer == 0 {
            self.accepted += 1;
        } else if answer != NOT_A_FORM && line.starts_with(b"(ring ") {
            self.ring.count(line, answer);
        } else if answer != NOT_A_FORM {
            self.tree.count(line, answer);
        } else if line.is_empty() {
            self.no_input += 1;
        } else if line.len() > LINE_BYTES {
            self.too_long += 1;
        } else if !line.ends_with(b"\n") {
            self.no_end += 1;
        } else {
            self.no_form += 1;
        }
    }

    pub fn report(&self, report: &mut Report) {
        report.told("first lines accepted", self.accepted);
        let detectors = [("ring", &self.ring), ("tree", &self.tree)];
        for (number, what) in [(1, "number of nodes"), (6, "node")] {
            let name = |of| format!("first lines refused with {number}: a {of}'s {what}");
            let refused = detectors.map(|(of, refused)| (name(of), refused.answers[number]));
            report.each_at_least(STARTS, refused);
        }
        for (k, bits) in WIDTHS.iter().enumerate() {
            let name =
                |of| format!("first lines refused: a {of}'s number, not if cut to {bits} bits");
            let cut = detectors.map(|(of, refused)| (name(of), refused.cut[k]));
            report.each_at_least(CAUSES, cut);
        }
        let causes = [
            ("no input", self.no_input),
            ("too long", self.too_long),
            ("no byte 10", self.no_end),
            ("no form", self.no_form),
        ];
        report.each_at_least(
            CAUSES,
            causes.map(|(name, count)| (format!("first lines refused with 10: {name}"), count)),
        );
        let in_all = causes.iter().map(|(_, count)| count).sum();
        report.at_least("first lines refused with 10 in all", in_all, STARTS);
    }
}

#[cfg(test)]
mod tests {
    use super::cut;

    #[test]
    fn numbers_are_cut() {
        let line = b"(tree 65539 (root 256))\n";
        assert_eq!(cut(line, 16), b"(tree 3 (root 256))\n");
        assert_eq!(cut(line, 8), b"(tree 3 (root 0))\n");
    }
}
