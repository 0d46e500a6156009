//! Trees that hold messages of nodes to themselves: sound ones in sorts, and ones that are not sound by little, in kinds. A program with the fault
//! that a kind is named after sees another tree in its place, which is sound, and tells it as sound.

use crate::fail;
use crate::lent::LentTree;
use crate::same::{same_soundness, same_step};
use second::bounds::own_trees::{OF_EACH, ON_LARGE, ON_ONE};
use second::bounds::LARGE_TREES;
use second::generate::Rng;
use second::report::Report;
use second::request::{Request, SEND_LIMIT, TAKE};
use second::sizes::range_name;
use second::tree::{Tree, MAX_NODES, NONE};

/// A change of a sound open tree without such messages; it tells the node that has them then, or none where there is no such tree.
type Change = fn(&mut Tree, &mut Rng) -> Option<usize>;

/// What a program with a fault sees.
type View = fn(&Tree) -> Tree;

struct Kind {
    name: &'static str,
    /// Whether there are such trees of one node.
    alone: bool,
    change: Change,
    /// None if they are sound.
    view: Option<View>,
}

const fn sound(name: &'static str, alone: bool, change: Change) -> Kind {
    Kind {
        name,
        alone,
        change,
        view: None,
    }
}

const fn near_miss(name: &'static str, alone: bool, change: Change, view: View) -> Kind {
    Kind {
        view: Some(view),
        ..sound(name, alone, change)
    }
}

const KINDS: [Kind; 13] = [
    sound("of the root", true, |tree, random| {
        add(tree, tree.root, some(random))
    }),
    sound("of a node below the root", false, |tree, random| {
        let is_below = |i| i != tree.root && tree.is_engaged(i);
        add(tree, random.node(tree.n, is_below)?, some(random))
    }),
    sound("of every engaged node", true, |tree, random| {
        for i in 0..tree.n {
            if tree.is_engaged(i) {
                add(tree, i, some(random));
            }
        }
        engaged(tree, random)
    }),
    sound("as many as may be", true, |tree, random| {
        let messages = SEND_LIMIT - unacked(tree);
        add(tree, engaged(tree, random)?, messages)
    }),
    near_miss(
        "counted twice",
        true,
        |tree, random| {
            let (i, messages) = (engaged(tree, random)?, some(random));
            tree.unacked[i] += messages;
            tree.sends = SEND_LIMIT;
            add(tree, i, messages)
        },
        |tree| with_own(tree, |messages| 2 * messages),
    ),
    near_miss(
        "not counted",
        true,
        |tree, random| put(tree, engaged(tree, random)?, random),
        |tree| with_own(tree, |_| 0),
    ),
    near_miss(
        "of a node that is not engaged, counted",
        false,
        |tree, random| add(tree, outside(tree, random)?, some(random)),
        without_own,
    ),
    near_miss(
        "of a node that is not engaged, not counted",
        false,
        |tree, random| put(tree, outside(tree, random)?, random),
        |tree| with_own(tree, |_| 0),
    ),
    near_miss(
        "of a node that is its own engager",
        false,
        |tree, random| {
            let i = outside(tree, random)?;
            tree.engager[i] = i;
            tree.unacked[i] = 1;
            tree.sends = SEND_LIMIT;
            add(tree, i, some(random))
        },
        |tree| without(tree, |i| i != tree.root && tree.engager[i] == i),
    ),
    near_miss(
        "in an unused place, counted",
        true,
        |tree, random| add(tree, unused(tree, random)?, some(random)),
        |tree| without(tree, |i| i >= tree.n),
    ),
    near_miss(
        "in an unused place, not counted",
        true,
        |tree, random| put(tree, unused(tree, random)?, random),
        |tree| without(tree, |i| i >= tree.n),
    ),
    near_miss(
        "and one send too few for them",
        true,
        |tree, random| {
            let i = engaged(tree, random)?;
            add(tree, i, some(random));
            tree.sends = unacked(tree) - 1;
            Some(i)
        },
        without_own,
    ),
    near_miss(
        "of the root, closed",
        true,
        |tree, random| {
            *tree = Tree::start(tree.n, tree.root).expect("a start in range");
            tree.active[tree.root] = false;
            tree.closed = true;
            add(tree, tree.root, some(random))
        },
        without_own,
    ),
];

fn some(random: &mut Rng) -> u32 {
    1 + random.below(5) as u32
}

fn unacked(tree: &Tree) -> u32 {
    tree.unacked.iter().sum()
}

fn engaged(tree: &Tree, random: &mut Rng) -> Option<usize> {
    random.node(tree.n, |i| tree.is_engaged(i))
}

fn outside(tree: &Tree, random: &mut Rng) -> Option<usize> {
    random.node(tree.n, |i| !tree.is_engaged(i))
}

fn unused(tree: &Tree, random: &mut Rng) -> Option<usize> {
    random.node(MAX_NODES, |place| place >= tree.n)
}

/// More messages of a node to itself, sent and not acknowledged.
fn add(tree: &mut Tree, i: usize, messages: u32) -> Option<usize> {
    tree.in_transit[i][i] += messages;
    tree.unacked[i] += messages;
    tree.sends = SEND_LIMIT.min(tree.sends + messages);
    Some(i)
}

/// Messages of a node to itself of which nothing else tells.
fn put(tree: &mut Tree, i: usize, random: &mut Rng) -> Option<usize> {
    tree.in_transit[i][i] = some(random);
    Some(i)
}

/// The tree with another number in the place of each number of messages of a node to itself.
fn with_own(tree: &Tree, messages: fn(u32) -> u32) -> Tree {
    let mut tree = tree.clone();
    for i in 0..MAX_NODES {
        tree.in_transit[i][i] = messages(tree.in_transit[i][i]);
    }
    tree
}

/// The tree without messages of nodes to themselves, and without what is unacknowledged of them.
fn without_own(tree: &Tree) -> Tree {
    let mut bare = with_own(tree, |_| 0);
    for i in 0..MAX_NODES {
        bare.unacked[i] -= tree.in_transit[i][i];
    }
    bare
}

/// The tree with some places empty.
fn without(tree: &Tree, is_empty: impl Fn(usize) -> bool) -> Tree {
    let mut tree = tree.clone();
    for i in (0..MAX_NODES).filter(|&i| is_empty(i)) {
        tree.active[i] = false;
        tree.engager[i] = NONE;
        (tree.unacked[i], tree.in_transit[i][i]) = (0, 0);
    }
    tree
}

/// Trees of one kind: all, of one node, large.
type Counts = [usize; 3];

pub struct OwnTrees {
    seed: u64,
    counts: [Counts; KINDS.len()],
}

impl OwnTrees {
    pub fn new(seed: u64) -> Self {
        Self {
            seed,
            counts: [[0; 3]; KINDS.len()],
        }
    }

    /// Trees of each kind, made from an open tree of a run.
    pub fn compare(&mut self, tree: &Tree, random: &mut Rng) {
        let bare = without_own(tree);
        assert!(bare.is_sound(), "{bare:?}");
        for (kind, counts) in KINDS.iter().zip(&mut self.counts) {
            let mut made = bare.clone();
            if let Some(i) = (kind.change)(&mut made, random) {
                kind.compare(self.seed, &made, i);
                let of = [true, made.n == 1, LARGE_TREES.contains(&made.n)];
                for (count, is_of) in counts.iter_mut().zip(of) {
                    *count += usize::from(is_of);
                }
            }
        }
    }

    pub fn report(&self, report: &mut Report) {
        for (kind, [all, one, large]) in KINDS.iter().zip(self.counts) {
            let told = kind.view.map_or("sound", |_| "not sound");
            let name = format!("told as {told}, messages to oneself {}", kind.name);
            report.at_least(format!("tree: {name}"), all, OF_EACH);
            if kind.alone {
                report.at_least(format!("tree of 1: {name}"), one, ON_ONE);
            }
            let of_large = range_name("tree", &LARGE_TREES);
            report.at_least(format!("{of_large}: {name}"), large, ON_LARGE);
        }
    }
}

impl Kind {
    /// A tree that was made to be sound, or not to be, is told so by both; and node `i` takes one of its messages, or is refused with 3.
    fn compare(&self, seed: u64, tree: &Tree, i: usize) {
        if let Some(view) = self.view {
            assert!(view(tree).is_sound(), "{}: {tree:?}", self.name);
        }
        let lent = LentTree::of(tree);
        let told = same_soundness(seed, &lent);
        let step = same_step(seed, &lent, Request::new(TAKE, i, i));
        let made = self.view.map_or((1, 0), |_| (0, 3));
        if (told, step) != made {
            let name = self.name;
            fail(
                seed,
                &format!("messages to oneself {name}, made for {made:?}: both told {told}, and {step} to a take, of {tree:?}"),
            );
        }
    }
}
