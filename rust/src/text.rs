//! The text of the engagement tree: paper, "Text of the tree".

use crate::decimal;
use crate::refusal::Refusal;
use crate::tree::{Tree, MAX_NODES, NONE};

/// What a text says: who engaged whom, and the root.
#[derive(Clone, Copy, Debug, PartialEq, Eq)]
pub struct Engagement {
    pub root: usize,
    pub engager: [usize; MAX_NODES],
}

/// Writes the text of any tree state into the front of a lent buffer and gives its length.
/// Bytes past the text, and all bytes if refused, keep their values.
pub fn write(tree: &Tree, buffer: &mut [u8]) -> Result<usize, Refusal> {
    if !tree.is_sound() {
        return Err(Refusal::Unsound);
    }
    let mut text = Vec::new();
    append(tree, &mut text);
    let front = buffer.get_mut(..text.len()).ok_or(Refusal::ShortBuffer)?;
    front.copy_from_slice(&text);
    Ok(text.len())
}

/// Appends the text of a tree known to be sound.
pub(crate) fn append(tree: &Tree, out: &mut Vec<u8>) {
    append_node(tree, tree.root, out);
}

fn append_node(tree: &Tree, i: usize, out: &mut Vec<u8>) {
    out.push(b'(');
    decimal::push(out, i as u64);
    append_list(tree, i, out);
    out.push(b')');
}

fn append_list(tree: &Tree, parent: usize, out: &mut Vec<u8>) {
    for child in tree.children(parent) {
        out.push(b' ');
        append_node(tree, child, out);
    }
}

/// Reads a text of a tree of N nodes; the first fault from the left decides.
pub fn read(n: usize, text: &[u8]) -> Result<Engagement, Refusal> {
    if !(1..=MAX_NODES).contains(&n) {
        return Err(Refusal::NodeCount);
    }
    let mut reader = Reader {
        n,
        rest: text,
        engager: [NONE; MAX_NODES],
    };
    let root = reader.node(None, None)?;
    if !reader.rest.is_empty() {
        return Err(Refusal::NotAForm);
    }
    Ok(Engagement {
        root,
        engager: reader.engager,
    })
}

struct Reader<'a> {
    n: usize,
    rest: &'a [u8],
    /// The engagers of the nodes read so far.
    engager: [usize; MAX_NODES],
}

impl Reader<'_> {
    /// A node, whose number must be new and above that of the node before it in its list.
    /// It recurs at most N deep, since no number comes twice.
    fn node(&mut self, parent: Option<usize>, before: Option<usize>) -> Result<usize, Refusal> {
        self.byte(b'(')?;
        let i = self.number()?;
        let repeated = self.engager[i] != NONE;
        if repeated || before.is_some_and(|before| i < before) {
            return Err(Refusal::NotAForm);
        }
        self.engager[i] = parent.unwrap_or(i);
        self.list(i)?;
        self.byte(b')')?;
        Ok(i)
    }

    /// The children of `parent`, each after one space.
    fn list(&mut self, parent: usize) -> Result<(), Refusal> {
        let mut before = None;
        while self.byte(b' ').is_ok() {
            before = Some(self.node(Some(parent), before)?);
        }
        Ok(())
    }

    fn byte(&mut self, wanted: u8) -> Result<(), Refusal> {
        self.rest = self.rest.strip_prefix(&[wanted]).ok_or(Refusal::NotAForm)?;
        Ok(())
    }

    /// A number below N, read to its last digit however many there are.
    fn number(&mut self) -> Result<usize, Refusal> {
        let (digits, rest) = self.rest.split_at(decimal::digits(self.rest));
        if digits.is_empty() || decimal::has_leading_zero(digits) {
            return Err(Refusal::NotAForm);
        }
        let value = decimal::value(digits);
        if value >= self.n {
            return Err(Refusal::UnknownNode);
        }
        self.rest = rest;
        Ok(value)
    }
}
