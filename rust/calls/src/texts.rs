//! The text of the tree: random trees out and back, short buffers, unsound trees, damaged texts, and numbers of many digits.

use crate::answers::Answers;
use crate::lent::{bytes, LentTree};
use crate::numbers::{with_long_number, Numbers};
use crate::{fail, proved};
use second::bounds::answers::{TREE_READ, TREE_WRITE};
use second::bounds::texts::{DAMAGED, TREES, TWO_DIGITS, WRITTEN};
use second::generate::{Model, Rng};
use second::refusal::Refusal;
use second::report::Report;
use second::request::{Request, SEND, TAKE};
use second::text;
use second::tree::{Tree, MAX_NODES};

pub fn compare(seed: u64, report: &mut Report) {
    let mut random = Rng::new(seed);
    let mut texts = Texts::new(seed);
    for _ in 0..TREES {
        same_text(seed, &noise(&mut random), &mut random);
        texts.tree(&grown(&mut random), &mut random);
    }
    texts.report(report);
}

struct Texts {
    seed: u64,
    written: Answers,
    read: Answers,
    /// Texts read back with a node of two digits.
    two_digits: usize,
    damaged: Answers,
    numbers: Numbers,
}

impl Texts {
    fn new(seed: u64) -> Self {
        Self {
            seed,
            written: Answers::new("texts written"),
            read: Answers::new("texts read back"),
            two_digits: 0,
            damaged: Answers::new("damaged texts read"),
            numbers: Numbers::default(),
        }
    }

    /// The text of a tree, read back and damaged if it was written.
    fn tree(&mut self, tree: &Tree, random: &mut Rng) {
        let tree = LentTree::of(tree);
        let (told, text) = same_text(self.seed, &tree, random);
        self.written.count(told);
        if told != 0 {
            return;
        }
        self.read.count(read_back(self.seed, &tree, &text, random));
        self.two_digits += usize::from(has_two_digits(&text));
        for _ in 0..DAMAGED {
            let (n, text) = damage(tree.n, &text, random);
            self.damaged(n, &text, random);
        }
        let text = with_long_number(tree.n, &text, random);
        self.damaged(tree.n, &text, random);
    }

    fn damaged(&mut self, n: usize, text: &[u8], random: &mut Rng) {
        let told = same_reading(self.seed, n, text, random).0;
        self.damaged.count(told);
        self.numbers.count(n, text, told);
    }

    fn report(&self, report: &mut Report) {
        self.written.report_all(&TREE_WRITE, report);
        let (name, count) = ("texts written and read back", self.read.total());
        report.at_least(name, count, WRITTEN);
        self.read.report_all(&[0], report);
        let name = "texts read back with a node of two digits";
        report.at_least(name, self.two_digits, TWO_DIGITS);
        self.damaged.report_all(&TREE_READ, report);
        self.numbers.report(report);
    }
}

fn has_two_digits(text: &[u8]) -> bool {
    text.windows(2)
        .any(|pair| pair.iter().all(u8::is_ascii_digit))
}

/// A tree after allowed steps, or after messages that are taken at once, so that many nodes are engaged; now and then spoiled.
pub fn grown(random: &mut Rng) -> Tree {
    let n = 1 + random.below(MAX_NODES);
    let mut tree = Tree::start(n, random.below(n)).expect("a start in range");
    if random.chance(50) {
        for _ in 0..random.below(3 * n) {
            hand_over(&mut tree, random);
        }
    } else {
        for _ in 0..random.below(60) {
            match tree.allowed(random, false) {
                Some(request) => tree.step(request).expect("an allowed step"),
                None => break,
            }
        }
    }
    if random.chance(10) {
        tree.engager[random.below(MAX_NODES)] = random.below(MAX_NODES + 1);
    }
    tree
}

/// A message from an active node, to itself now and then, taken at once.
fn hand_over(tree: &mut Tree, random: &mut Rng) {
    let n = tree.n;
    let i = random.node(n, |i| tree.active[i]).expect("an active root");
    let j = random.other_end(n, i);
    for request in [Request::new(SEND, i, j), Request::new(TAKE, j, i)] {
        tree.step(request).expect("an allowed step");
    }
}

/// Noise in every field; now and then with truths that are 0 or 1 and nodes in range.
fn noise(random: &mut Rng) -> LentTree {
    let mut tree = LentTree::noise(random);
    if random.chance(50) {
        tree.active = tree.active.map(|byte| byte % 2);
        tree.closed %= 2;
        tree.n = 1 + random.below(MAX_NODES);
        tree.root = random.below(tree.n);
    }
    tree
}

/// Room for the text, just enough or one byte too little now and then.
fn room(tree: &LentTree, random: &mut Rng) -> usize {
    let mut text = [0; 80];
    let tree = tree.tree();
    let written = tree.and_then(|tree| text::write(&tree, &mut text).ok());
    let length = written.unwrap_or(text.len());
    random.pick(&[0, length - 1, length, length + 1, 69, text.len()])
}

/// The second implementation's answer, and the text that the proved function wrote, if it did; a
/// byte that is no truth is an unsound state.
pub fn same_text(seed: u64, tree: &LentTree, random: &mut Rng) -> (u8, Vec<u8>) {
    let room = room(tree, random);
    let mut ours: Vec<u8> = (0..room).map(|_| random.below(256) as u8).collect();
    let noise = random.word() as usize;
    let (mut theirs, mut length) = (ours.clone(), noise);
    let answer = match tree.tree() {
        None => Err(Refusal::Unsound),
        Some(tree) => text::write(&tree, &mut ours),
    };
    let expected = answer.map_or_else(
        |refusal| (refusal.number() as u8, noise),
        |length| (0, length),
    );
    let mut lent = tree.clone();
    let told = proved::write(&mut lent, &mut theirs, &mut length);
    if ((told, length), &theirs, &lent) != (expected, &ours, tree) {
        fail(
            seed,
            &format!("writing told {told} and {length}, expected {expected:?}, of {tree:?}"),
        );
    }
    theirs.truncate(if told == 0 { length } else { 0 });
    (told, theirs)
}

/// What was written of the tree gives its engagers and its root.
fn read_back(seed: u64, tree: &LentTree, text: &[u8], random: &mut Rng) -> u8 {
    let (told, engager, root) = same_reading(seed, tree.n, text, random);
    if (engager, root) != (tree.engager, tree.root) {
        fail(seed, &format!("the text read back is not of {tree:?}"));
    }
    told
}

/// The second implementation's answer; engagers and root as they are after it.
fn same_reading(
    seed: u64,
    n: usize,
    text: &[u8],
    random: &mut Rng,
) -> (u8, [u8; MAX_NODES], usize) {
    let noise: ([u8; MAX_NODES], usize) = (bytes(random), random.word() as usize);
    let (mut engager, mut root) = noise;
    let mut lent = text.to_vec();
    let told = proved::read(n, &mut lent, &mut engager, &mut root);
    let same = lent == text
        && match text::read(n, text) {
            Ok(found) => {
                told == 0 && root == found.root && engager.map(usize::from) == found.engager
            }
            Err(refusal) => u32::from(told) == refusal.number() && (engager, root) == noise,
        };
    if !same {
        fail(
            seed,
            &format!(
                "reading told {told} of {n} nodes and {:?}",
                String::from_utf8_lossy(text)
            ),
        );
    }
    (told, engager, root)
}

/// The text with a byte or two changed, dropped, doubled or added, or another number of nodes.
fn damage(n: usize, text: &[u8], random: &mut Rng) -> (usize, Vec<u8>) {
    let mut text = text.to_vec();
    let byte = random.pick(b"() 0123456789\n\0x");
    for _ in 0..1 + random.below(2) {
        if text.is_empty() {
            break;
        }
        let at = random.below(text.len());
        match random.below(5) {
            0 => text[at] = byte,
            1 => drop(text.remove(at)),
            2 => text.insert(at, text[at]),
            3 => text.insert(at, byte),
            _ => text.push(byte),
        }
    }
    let n = if random.chance(20) {
        random.pick(&[0, 1, 2, MAX_NODES - 1, MAX_NODES, MAX_NODES + 1, usize::MAX])
    } else {
        n
    };
    (n, text)
}
