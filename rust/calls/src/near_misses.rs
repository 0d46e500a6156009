//! Rings that are not sound by little, in kinds: a program with the fault that a kind is named after, one place or one term of a sum looked at
//! too many or too few, tells them as sound. Here those that Safra's four alone refuse, and closed ones.

use crate::near_counts;
use crate::sound_rings::{black_token, closed, gathered, no_sum, set_sum, unsettled};
use second::generate::Rng;
use second::ring::{Ring, COLOR_BYTES};
use std::ops::Range;

/// What a near miss is made from.
#[derive(Clone, Copy)]
pub enum Base {
    /// None of Safra's four holds; there is a node above the token.
    Unsettled,
    /// What is gathered holds alone; there is a node above the token.
    Gathered,
    /// Sound whatever the nodes' counters and colors are.
    BlackToken,
    /// Closed, the token at node 0.
    Closed,
}

/// A change of a ring.
pub type Change = fn(&mut Ring, &mut Rng);

/// A test that is wrong: where all others of soundness hold, it lets a near miss through.
pub type Fault = fn(&Ring) -> bool;

/// Whether there are such rings of so many nodes.
pub type Nodes = fn(usize) -> bool;

pub const ALL: Nodes = |_| true;
pub const SEVERAL: Nodes = |n| n > 1;

/// A kind of near misses.
pub struct Kind {
    pub name: String,
    pub nodes: Nodes,
    pub base: Base,
    pub make: Box<dyn Fn(&Ring, &mut Rng) -> Vec<Ring>>,
    /// None if they are wild, and not near.
    pub fault: Option<Box<dyn Fn(&Ring) -> bool>>,
}

impl Kind {
    /// Of one change each.
    pub fn new(
        name: String,
        nodes: Nodes,
        base: Base,
        change: impl Fn(&mut Ring, &mut Rng) + 'static,
        fault: impl Fn(&Ring) -> bool + 'static,
    ) -> Self {
        let make = move |ring: &Ring, random: &mut Rng| {
            let mut ring = ring.clone();
            change(&mut ring, random);
            vec![ring]
        };
        Self {
            name,
            nodes,
            base,
            make: Box::new(make),
            fault: Some(Box::new(fault)),
        }
    }

    /// Whether Safra's four alone refuse it: it is sound once the token is black.
    pub fn is_of_safra(&self) -> bool {
        matches!(self.base, Base::Unsettled | Base::Gathered)
    }

    /// Whether it is refused for being closed alone.
    pub fn is_of_closed(&self) -> bool {
        matches!(self.base, Base::Closed)
    }

    /// Such rings for node `pos`, which has the token but in closed ones; each is let through by the fault.
    pub fn at(&self, n: usize, pos: usize, random: &mut Rng) -> Vec<Ring> {
        if !(self.nodes)(n) || (self.is_of_safra() && pos + 1 == n) {
            return Vec::new();
        }
        let ring = self.base(n, pos, random);
        let rings = (self.make)(&ring, random);
        if let Some(fault) = &self.fault {
            for ring in &rings {
                assert!(fault(ring), "{}: {ring:?}", self.name);
            }
        }
        rings
    }

    fn base(&self, n: usize, pos: usize, random: &mut Rng) -> Ring {
        let sum = no_sum(random);
        let ring = match self.base {
            Base::Unsettled => return unsettled(n, pos, sum, random),
            Base::Gathered => gathered(n, pos, random),
            Base::BlackToken => black_token(n, pos, random),
            Base::Closed => closed(n, 0, random),
        };
        assert!(ring.is_sound(), "{}: {ring:?}", self.name);
        ring
    }
}

pub fn kinds() -> Vec<Kind> {
    let of = |base: Base, nodes: Nodes| {
        move |(name, change, fault): (&str, Change, Fault)| {
            Kind::new(name.to_owned(), nodes, base, change, fault)
        }
    };
    let safra = COLORS_AND_SUMS
        .map(of(Base::Unsettled, SEVERAL))
        .into_iter();
    let safra = safra.chain(PASSED.map(of(Base::Gathered, SEVERAL)));
    let closed = CLOSED.map(|(nodes, kind)| of(Base::Closed, nodes)(kind));
    safra.chain(closed).chain(near_counts::kinds()).collect()
}

/// Where nothing is gathered and all is white. A sum is q plus the counters of the nodes up to the token.
const COLORS_AND_SUMS: [(&str, Change, Fault); 8] = [
    (
        "the one black node just above the token",
        |ring, _| {
            let next = ring.token.pos + 1;
            blacken_only(ring, next..next + 1);
        },
        |ring| are_black_alone(ring, 0..ring.token.pos + 2, 1),
    ),
    (
        "the one black node N - 1",
        |ring, _| blacken_only(ring, ring.n - 1..ring.n),
        |ring| are_black_alone(ring, 0..ring.n, 1),
    ),
    (
        "all nodes above the token black, none else",
        |ring, _| blacken_only(ring, ring.token.pos + 1..ring.n),
        |ring| are_black_alone(ring, above(ring), above(ring).len()),
    ),
    (
        "a sum of 0",
        |ring, random| set_sum(ring, 0, random),
        |ring| ring.sum(0..ring.token.pos + 1) >= 0,
    ),
    (
        "a sum above 0 if the token's node is left out",
        |ring, random| {
            let missing = lower(ring, ring.token.pos, random);
            set_sum_short_of(ring, missing, random);
        },
        |ring| ring.sum(0..ring.token.pos) > 0,
    ),
    (
        "a sum above 0 if node 0 is left out",
        |ring, random| {
            let missing = lower(ring, 0, random);
            set_sum_short_of(ring, missing, random);
        },
        |ring| ring.sum(1..ring.token.pos + 1) > 0,
    ),
    (
        "a sum above 0 if the node just above is counted",
        |ring, random| {
            let missing = raise(ring, ring.token.pos + 1, random);
            set_sum_short_of(ring, missing, random);
        },
        |ring| ring.sum(0..ring.token.pos + 2) > 0,
    ),
    (
        "a sum above 0 if all nodes are counted",
        |ring, random| {
            let missing = raise_above(ring, random);
            set_sum_short_of(ring, missing, random);
        },
        |ring| ring.sum(0..ring.n) > 0,
    ),
];

/// Where what is gathered is the one reason, and the sum 0.
const PASSED: [(&str, Change, Fault); 7] = [
    (
        "an active node just above the token",
        |ring, _| ring.active[ring.token.pos + 1] = true,
        |ring| is_gathered(ring, ring.token.pos + 2..ring.n, above(ring)),
    ),
    (
        "node N - 1 active above the token",
        |ring, _| ring.active[ring.n - 1] = true,
        |ring| is_gathered(ring, ring.token.pos + 1..ring.n - 1, above(ring)),
    ),
    (
        "any node above the token active",
        |ring, random| {
            let nodes = above(ring);
            ring.active[nodes.start + random.below(nodes.len())] = true;
        },
        |ring| is_gathered(ring, 0..0, above(ring)),
    ),
    (
        "q one below what is gathered",
        |ring, _| ring.token.q -= 1,
        |ring| ring.token.q <= ring.counters(above(ring)),
    ),
    (
        "q with the counter of the token's node",
        |ring, random| {
            let pos = ring.token.pos;
            lower(ring, pos, random);
            ring.active[pos] = false;
            ring.token.q = ring.counters(pos..ring.n);
        },
        |ring| is_gathered(ring, ring.token.pos..ring.n, ring.token.pos..ring.n),
    ),
    (
        "q without the counter of the node just above",
        |ring, random| {
            let next = ring.token.pos + 1;
            raise(ring, next, random);
            ring.token.q = ring.counters(next + 1..ring.n);
        },
        |ring| is_gathered(ring, above(ring), ring.token.pos + 2..ring.n),
    ),
    (
        "q without the counter of node N - 1",
        |ring, random| {
            let last = ring.n - 1;
            raise(ring, last, random);
            ring.token.q = ring.counters(ring.token.pos + 1..last);
        },
        |ring| is_gathered(ring, above(ring), ring.token.pos + 1..ring.n - 1),
    ),
];

/// Where the run is announced: sound if it were not, and if the test of announce forgot one of its six. (There is none with a message on its
/// way to node 0 alone: Safra's four refuse it, and on one node the sum is above 0 too.)
const CLOSED: [(Nodes, (&str, Change, Fault)); 5] = [
    (
        SEVERAL,
        (
            "closed with the token at node 1",
            |ring, _| {
                for column in [&mut ring.sent, &mut ring.received] {
                    column[0] += std::mem::take(&mut column[1]);
                }
                ring.token.pos = 1;
                ring.token.q = ring.counters(2..ring.n);
            },
            |ring| is_conclusive_but_for(ring, 0),
        ),
    ),
    (
        ALL,
        (
            "closed with a black token",
            |ring, _| ring.token.black = true,
            |ring| is_conclusive_but_for(ring, 1),
        ),
    ),
    (
        ALL,
        (
            "closed with node 0 black",
            |ring, _| ring.set_black(0, true),
            |ring| is_conclusive_but_for(ring, 2),
        ),
    ),
    (
        SEVERAL,
        (
            "closed with a sum of 1",
            |ring, _| ring.token.q += 1,
            |ring| is_conclusive_but_for(ring, 3),
        ),
    ),
    (
        ALL,
        (
            "closed with node 0 active",
            |ring, _| ring.active[0] = true,
            |ring| is_conclusive_but_for(ring, 4),
        ),
    ),
];

/// Whether so many of the nodes that are looked at are black, and no other.
fn are_black_alone(ring: &Ring, looked_at: Range<usize>, count: usize) -> bool {
    looked_at.filter(|&i| ring.is_black(i)).count() == count && ring.black_nodes() as usize == count
}

fn above(ring: &Ring) -> Range<usize> {
    ring.token.pos + 1..ring.n
}

/// Whether these nodes are passive and q is the total of those counters.
fn is_gathered(ring: &Ring, mut passive: Range<usize>, counted: Range<usize>) -> bool {
    passive.all(|i| !ring.active[i]) && ring.token.q == ring.counters(counted)
}

/// Whether the other five of the six tests of announce hold.
fn is_conclusive_but_for(ring: &Ring, forgotten: usize) -> bool {
    let mut holds = [
        ring.token.pos == 0,
        !ring.token.black,
        !ring.is_black(0),
        ring.sum(0..1) == 0,
        !ring.active[0],
        ring.pending[0] == 0,
    ];
    holds[forgotten] = true;
    holds == [true; 6]
}

fn blacken_only(ring: &mut Ring, nodes: Range<usize>) {
    ring.color = [0; COLOR_BYTES];
    for i in nodes {
        ring.set_black(i, true);
    }
}

/// A sum of at most 0 that is above 0 with so much more.
fn set_sum_short_of(ring: &mut Ring, missing: i64, random: &mut Rng) {
    let sum = -(random.below(missing as usize) as i64);
    set_sum(ring, sum, random);
}

/// More messages that one node sent and another received: what is pending stays.
fn exchange(ring: &mut Ring, sender: usize, receiver: usize, messages: i64) {
    let messages = u32::try_from(messages).expect("few");
    ring.sent[sender] += messages;
    ring.received[receiver] += messages;
}

/// Brings a node's counter below 0; tells how far it is.
fn lower(ring: &mut Ring, i: usize, random: &mut Rng) -> i64 {
    let sender = random.other_node(ring.n, i);
    let below = 1 + random.below(5) as i64;
    exchange(ring, sender, i, ring.counter(i).max(0) + below);
    -ring.counter(i)
}

/// Brings a node's counter above 0; tells how far it is.
fn raise(ring: &mut Ring, i: usize, random: &mut Rng) -> i64 {
    let receiver = random.other_node(ring.n, i);
    let over = 1 + random.below(5) as i64;
    exchange(ring, i, receiver, (-ring.counter(i)).max(0) + over);
    ring.counter(i)
}

/// Brings the counters above the token together above 0; tells how far.
fn raise_above(ring: &mut Ring, random: &mut Rng) -> i64 {
    let (n, pos) = (ring.n, ring.token.pos);
    let over = 1 + random.below(5) as i64;
    let messages = (-ring.counters(pos + 1..n)).max(0) + over;
    exchange(ring, n - 1, random.below(pos + 1), messages);
    ring.counters(pos + 1..n)
}
