//! Trees by calls: starts, the steps of whole runs, and wild states.

use crate::answers::{Answers, BySize};
use crate::lent::LentTree;
use crate::own_trees::OwnTrees;
use crate::proved;
use crate::requests::{no_counts, request, Course};
use crate::same::{other, same_soundness, same_start, same_step};
use second::bounds::answers::{IS_SOUND, OF_SOUND, TREE_START};
use second::bounds::calls::{ANNOUNCED, BROKEN, ON_TREES, OWN_ON_TREES, STARTS, STEPS};
use second::bounds::LARGE_TREES;
use second::generate::Rng;
use second::own::Own;
use second::report::Report;
use second::request::{Request, SEND_LIMIT};
use second::sizes::Sizes;
use second::tree::{Tree, MAX_NODES, NONE};

/// The fields that are broken, one alone or two.
const FIELDS: [&str; 9] = [
    "n", "root", "active", "engager", "unacked", "transit", "acks", "sends", "closed",
];

pub fn compare(seed: u64, report: &mut Report) {
    let mut random = Rng::new(seed);
    let mut trees = Trees::new(seed);
    for _ in 0..STARTS {
        trees.start(&mut random);
    }
    while trees.steps.total() < STEPS {
        trees.run(&mut random);
    }
    trees.report(report);
}

struct Trees {
    seed: u64,
    starts: Answers,
    steps: BySize,
    sizes: Sizes,
    announced: usize,
    own: Own,
    own_trees: OwnTrees,
    wild_steps: BySize,
    soundness: BySize,
    /// Soundness of states with several fields changed that still agree in part.
    balanced: BySize,
    /// Unsound states by the field that was broken alone.
    broken: [usize; FIELDS.len()],
}

impl Trees {
    fn new(seed: u64) -> Self {
        let answers = |what| BySize::new("tree", LARGE_TREES, what);
        Self {
            seed,
            starts: Answers::new("tree: starts"),
            steps: answers("steps of runs"),
            sizes: Sizes::default(),
            announced: 0,
            own: Own::default(),
            own_trees: OwnTrees::new(seed),
            wild_steps: answers("steps of wild states"),
            soundness: answers("soundness of wild states"),
            balanced: answers("soundness of states in balance"),
            broken: [0; FIELDS.len()],
        }
    }

    fn start(&mut self, random: &mut Rng) {
        let nodes = match random.below(3) {
            0 => random.pick(&no_counts(MAX_NODES)),
            _ => 1 + random.below(MAX_NODES),
        };
        let root = match random.below(3) {
            0 => random.pick(&[nodes, MAX_NODES, 1 << 8, 1 << 16, 1 << 32, usize::MAX]),
            _ => random.below(nodes.clamp(1, MAX_NODES)),
        };
        let told = same_start(
            self.seed,
            &format!("a start of {nodes} with root {root}"),
            LentTree::noise(random),
            Tree::start(nodes, root),
            |tree| proved::tree_start(nodes, root, tree),
        );
        self.starts.count(told);
    }

    /// A run, each step compared; now and then a wild state, and states with messages of nodes to themselves.
    fn run(&mut self, random: &mut Rng) {
        let mut tree = started(random);
        if random.chance(15) {
            tree.sends = SEND_LIMIT - random.below(4) as u32;
        }
        let mut course = Course::new(random);
        while let Some(request) = course.next(&tree, tree.closed, random) {
            let told = same_step(self.seed, &LentTree::of(&tree), request);
            self.steps.count(tree.n, told);
            self.sizes.count(tree.n, told == 0);
            let was_open = !tree.closed;
            if was_open {
                self.own.count_tree(&tree, request, usize::from(told));
            }
            let _ = tree.step(request);
            self.announced += usize::from(tree.closed && was_open);
            if random.chance(20) {
                self.wild(&tree, random);
            }
            if random.chance(3) && !tree.closed {
                self.own_trees.compare(&tree, random);
            }
        }
        let noise = LentTree::noise(random);
        same_calls(self.seed, &noise, request(&tree, false, random));
    }

    /// The tree with one field broken, or two, and one in balance; both differ from it.
    fn wild(&mut self, tree: &Tree, random: &mut Rng) {
        let field = random.below(FIELDS.len());
        let next = (field + 1 + random.below(FIELDS.len() - 1)) % FIELDS.len();
        let alone = random.chance(80);
        let wild = other(tree, || match (broken(tree, field, random), alone) {
            (wild, true) => wild,
            (wild, false) => broken(&wild, next, random),
        });
        if alone && !wild.is_sound() {
            self.broken[field] += 1;
        }
        let lent = LentTree::of(&wild);
        let (n, seed) = (tree.n, self.seed);
        self.soundness.count(n, same_soundness(seed, &lent));
        let in_balance = LentTree::of(&other(tree, || balanced(tree, random)));
        self.balanced.count(n, same_soundness(seed, &in_balance));
        let request = request(tree, false, random);
        self.wild_steps.count(n, same_step(seed, &lent, request));
    }

    fn report(&self, report: &mut Report) {
        self.starts.report_all(&TREE_START, report);
        report.at_least("tree: runs announced", self.announced, ANNOUNCED);
        self.sizes.report("tree", &ON_TREES, MAX_NODES, report);
        self.steps.report_half(&OF_SOUND, report);
        self.own.report("tree", &OWN_ON_TREES, report);
        self.own_trees.report(report);
        self.wild_steps.report(&[3], report);
        self.soundness.report_all(&IS_SOUND, report);
        self.balanced.report_all(&IS_SOUND, report);
        let fields = FIELDS.map(|name| format!("tree: unsound states with {name} broken alone"));
        report.each_at_least(BROKEN, fields.into_iter().zip(self.broken));
    }
}

fn started(random: &mut Rng) -> Tree {
    let n = match random.below(4) {
        0 => random.pick(&[1, MAX_NODES]),
        1 => 2 + random.below(4),
        _ => 1 + random.below(MAX_NODES),
    };
    Tree::start(n, random.below(n)).expect("a start in range")
}

/// The tree with one field set to something else.
fn broken(tree: &Tree, field: usize, random: &mut Rng) -> Tree {
    let mut wild = tree.clone();
    let (i, j) = (random.below(MAX_NODES), random.below(MAX_NODES));
    let count = random.pick(&[0, 1, 2, SEND_LIMIT, SEND_LIMIT + 1, u32::MAX]);
    match FIELDS[field] {
        "n" => wild.n = random.pick(&[0, 1, 2, MAX_NODES, MAX_NODES + 1, usize::MAX]),
        "root" => wild.root = random.pick(&[0, 1, MAX_NODES - 1, MAX_NODES, usize::MAX]),
        "active" => wild.active[i] = !wild.active[i],
        "engager" => wild.engager[i] = random.pick(&[0, 1, i, j, NONE, NONE + 1, 255]),
        "unacked" if random.chance(30) => wild.unacked[i] = wild.unacked[i].wrapping_add(1),
        "unacked" => wild.unacked[i] = count,
        "transit" => wild.in_transit[i][j] = count,
        "acks" => wild.acks[i] = count,
        "sends" => wild.sends = count,
        _ => wild.closed = !wild.closed,
    }
    wild
}

/// The tree with one more message, acknowledgement or engaged node of a node, and one more
/// unacknowledged: few conditions of soundness decide.
fn balanced(tree: &Tree, random: &mut Rng) -> Tree {
    let mut wild = tree.clone();
    let (i, j) = (random.below(MAX_NODES), random.below(MAX_NODES));
    match random.below(4) {
        0 => wild.acks[i] += 1,
        1 => wild.in_transit[i][i] += 1,
        2 => wild.in_transit[i][j] += 1,
        _ => wild.engager[j] = i,
    }
    wild.unacked[i] += 1;
    wild.sends = random.pick(&[SEND_LIMIT, SEND_LIMIT, SEND_LIMIT + 1]);
    wild
}

/// Soundness and a step of what is lent; tells their answers.
pub fn same_calls(seed: u64, tree: &LentTree, request: Request) -> [u8; 2] {
    [same_soundness(seed, tree), same_step(seed, tree, request)]
}
