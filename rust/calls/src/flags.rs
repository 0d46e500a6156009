//! Every value of each byte that stands for a truth: every node's, in use or not, the token's, whether the run is closed.

use crate::lent::{LentRing, LentTree};
use crate::requests::request;
use crate::{rings, texts, trees};
use second::bounds::calls::{NO_TRUTH, TRUTH};
use second::generate::Rng;
use second::report::Report;

const ROUNDS: usize = 40;
const VALUES: usize = 256;
/// What soundness, a step, a drive and a text tell of what is not sound.
const UNSOUND: [u8; 4] = [0, 3, 3, 3];

/// The answers to what is lent with a byte above 1, by its place; and to bytes 0 and 1.
struct Judged {
    unsound: Vec<usize>,
    sound: usize,
}

impl Judged {
    fn new(places: usize) -> Self {
        Self {
            unsound: vec![0; places],
            sound: 0,
        }
    }

    fn count(&mut self, flags: &[u8], told: &[u8]) {
        match flags.iter().position(|&flag| flag > 1) {
            Some(place) => {
                self.unsound[place] += usize::from(told == &UNSOUND[..told.len()]);
            }
            None => self.sound += usize::from(told[0] == 1),
        }
    }

    fn report(&self, name: &str, report: &mut Report) {
        let least = self.unsound.iter().copied().min().unwrap_or_default();
        let places = self.unsound.len();
        report.at_least(
            format!("{name}: bytes above 1 for a truth, at the least met of {places} places, answered as unsound by each call"),
            least,
            NO_TRUTH,
        );
        report.at_least(
            format!("{name}: bytes 0 and 1 for a truth told as sound"),
            self.sound,
            TRUTH,
        );
    }
}

pub fn compare(seed: u64, report: &mut Report) {
    let mut random = Rng::new(seed);
    let mut ring = Judged::new(LentRing::FLAGS);
    let mut tree = Judged::new(LentTree::FLAGS);
    for _ in 0..ROUNDS {
        all_rings(seed, &mut random, &mut ring);
        all_trees(seed, &mut random, &mut tree);
    }
    ring.report("ring", report);
    tree.report("tree", report);
}

fn all_rings(seed: u64, random: &mut Rng, judged: &mut Judged) {
    let ring = rings::started(random);
    let whole = LentRing::of(&ring);
    for k in 0..VALUES * LentRing::FLAGS {
        let mut lent = whole.clone();
        *lent.flag(k / VALUES) = (k % VALUES) as u8;
        let told = rings::same_calls(seed, &lent, request(&ring, false, random), random);
        judged.count(&lent.flags(), &told);
    }
}

fn all_trees(seed: u64, random: &mut Rng, judged: &mut Judged) {
    let tree = texts::grown(random);
    let whole = LentTree::of(&tree);
    for k in 0..VALUES * LentTree::FLAGS {
        let mut lent = whole.clone();
        *lent.flag(k / VALUES) = (k % VALUES) as u8;
        let [sound, step] = trees::same_calls(seed, &lent, request(&tree, false, random));
        let (text, _) = texts::same_text(seed, &lent, random);
        judged.count(&lent.flags(), &[sound, step, text]);
    }
}
