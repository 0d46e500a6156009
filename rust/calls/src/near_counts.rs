//! Near misses of what soundness asks of totals, of q's range and of the places that no node uses, and wild totals. The token is black, so that
//! nothing else refuses them.

use crate::near_misses::{Base, Fault, Kind, Nodes, ALL, SEVERAL};
use crate::sound_rings::{with_q_beyond, with_sends, Column};
use second::generate::Rng;
use second::request::SEND_LIMIT;
use second::ring::{Ring, MAX_NODES};

const SENT: usize = 0;
const RECEIVED: usize = 1;
const PENDING: usize = 2;
const COLUMNS: [&str; 3] = ["sent", "received", "pending"];

/// There are unused places; there is a byte of color that nodes share with some.
const WITH_UNUSED: Nodes = |n| n < MAX_NODES;
const SHARING: Nodes = |n| n % 8 != 0;

pub fn kinds() -> impl Iterator<Item = Kind> {
    let first = left_out("node 0", |_| 0);
    let last = left_out("node N - 1", |ring| ring.n - 1);
    let groups = [first, last, cut(), greatest(), ends(), unused()];
    groups.into_iter().flatten()
}

fn one(
    name: String,
    nodes: Nodes,
    change: impl Fn(&mut Ring, &mut Rng) + 'static,
    fault: impl Fn(&Ring) -> bool + 'static,
) -> Kind {
    Kind::new(name, nodes, Base::BlackToken, change, fault)
}

fn several(
    name: String,
    nodes: Nodes,
    make: impl Fn(&Ring, &mut Rng) -> Vec<Ring> + 'static,
    fault: impl Fn(&Ring) -> bool + 'static,
) -> Kind {
    Kind {
        name,
        nodes,
        base: Base::BlackToken,
        make: Box::new(make),
        fault: Some(Box::new(fault)),
    }
}

/// The totals of the columns, of the places that are looked at.
fn totals(ring: &Ring, looked_at: impl Fn(usize, usize) -> bool) -> [u64; COLUMNS.len()] {
    let columns = [&ring.sent, &ring.received, &ring.pending];
    [SENT, RECEIVED, PENDING].map(|k| {
        let places = (0..MAX_NODES).filter(|&place| looked_at(k, place));
        places.map(|place| u64::from(columns[k][place])).sum()
    })
}

/// What soundness asks of totals, with this limit of sends.
fn agree([sent, received, pending]: [u64; COLUMNS.len()], limit: u32) -> bool {
    sent <= u64::from(limit) && sent == received + pending
}

fn column(ring: &mut Ring, column: usize) -> &mut Column {
    match column {
        SENT => &mut ring.sent,
        RECEIVED => &mut ring.received,
        _ => &mut ring.pending,
    }
}

fn some(random: &mut Rng) -> u32 {
    1 + random.below(5) as u32
}

/// Totals that agree only if a node is left out of all of them, or of one.
fn left_out(name: &str, node: fn(&Ring) -> usize) -> Vec<Kind> {
    let whole = format!("totals that agree if {name} is left out");
    let whole = one(
        whole,
        ALL,
        move |ring, random| without_node(ring, node(ring), random),
        move |ring| agree(totals(ring, |_, place| place != node(ring)), SEND_LIMIT),
    );
    let of_columns = COLUMNS.iter().enumerate().map(|(k, column)| {
        let name = format!("totals that agree if {name} is left out of {column}");
        one(
            name,
            ALL,
            move |ring, random| without_place(ring, k, node(ring), random),
            move |ring| {
                let looked_at = |column, place| (column, place) != (k, node(ring));
                agree(totals(ring, looked_at), SEND_LIMIT)
            },
        )
    });
    [whole].into_iter().chain(of_columns).collect()
}

/// What the others have agrees, what the node has does not.
fn without_node(ring: &mut Ring, i: usize, random: &mut Rng) {
    let [sent, received, pending] = [ring.sent, ring.received, ring.pending].map(|c| c[i]);
    if ring.n > 1 {
        let j = random.other_node(ring.n, i);
        ring.sent[j] += sent.saturating_sub(received + pending);
        ring.received[j] += (received + pending).saturating_sub(sent);
    }
    if sent == received + pending {
        ring.sent[i] += some(random);
    }
}

/// What another node has more makes up for the place; where there is no other node, the other columns do.
fn without_place(ring: &mut Ring, k: usize, i: usize, random: &mut Rng) {
    let there = column(ring, k)[i];
    match k {
        _ if ring.n > 1 => {
            let j = random.other_node(ring.n, i);
            column(ring, k)[j] += there;
        }
        SENT => (ring.received[i], ring.pending[i]) = (0, 0),
        RECEIVED => ring.pending[i] = ring.sent[i],
        _ => ring.received[i] = ring.sent[i],
    }
    if there == 0 {
        column(ring, k)[i] = some(random);
    }
}

/// Totals that agree only if a sum is cut to 32 bits.
fn cut() -> Vec<Kind> {
    let together = "received and pending that agree if their sum is cut to 32 bits".to_owned();
    let together = one(
        together,
        ALL,
        |ring, random| {
            let [i, j] = [(); 2].map(|()| random.below(ring.n));
            let [first, rest] = halves(random);
            ring.received[i] += first;
            ring.pending[j] += rest;
        },
        agree_if_cut,
    );
    let of_columns = COLUMNS.iter().enumerate().map(|(k, name)| {
        let name = format!("{name} that agrees if its total is cut to 32 bits");
        one(
            name,
            SEVERAL,
            move |ring, random| {
                let i = random.below(ring.n);
                let j = random.other_node(ring.n, i);
                let [first, rest] = halves(random);
                column(ring, k)[i] += first;
                column(ring, k)[j] += rest;
            },
            agree_if_cut,
        )
    });
    [together].into_iter().chain(of_columns).collect()
}

fn agree_if_cut(ring: &Ring) -> bool {
    let [sent, received, pending] = totals(ring, |_, _| true).map(|total| total as u32);
    sent <= SEND_LIMIT && sent == received.wrapping_add(pending)
}

/// Two numbers that are 2^32 together, each with room for a node's counts above it.
fn halves(random: &mut Rng) -> [u32; 2] {
    let room: usize = 1 << 16;
    let first = (room + random.below((1 << 32) - 2 * room)) as u32;
    [first, first.wrapping_neg()]
}

/// Wild: the greatest number at all nodes, or in all places, of some columns; the others are 0.
fn greatest() -> Vec<Kind> {
    let columns: [&[usize]; 6] = [
        &[SENT],
        &[RECEIVED],
        &[PENDING],
        &[SENT, RECEIVED],
        &[SENT, PENDING],
        &[SENT, RECEIVED, PENDING],
    ];
    let of_columns = |columns: &'static [usize]| {
        let names: Vec<&str> = columns.iter().map(|&k| COLUMNS[k]).collect();
        let name = format!("the greatest number everywhere in {}", names.join(", "));
        let make = |ring: &Ring, _: &mut Rng| {
            let places = [ring.n, MAX_NODES];
            places.map(|places| filled(ring, columns, places)).into()
        };
        Kind {
            name,
            nodes: ALL,
            base: Base::BlackToken,
            make: Box::new(make),
            fault: None,
        }
    };
    columns.into_iter().map(of_columns).collect()
}

fn filled(ring: &Ring, columns: &[usize], places: usize) -> Ring {
    let mut ring = ring.clone();
    for k in 0..COLUMNS.len() {
        *column(&mut ring, k) = [0; MAX_NODES];
        if columns.contains(&k) {
            column(&mut ring, k)[..places].fill(u32::MAX);
        }
    }
    ring
}

/// One beyond the ends of ranges.
fn ends() -> Vec<Kind> {
    let sends = "one send more than may be, of all nodes".to_owned();
    let q = "q one beyond its range".to_owned();
    vec![
        several(
            sends,
            ALL,
            |ring, random| vec![with_sends(ring, SEND_LIMIT + 1, random)],
            |ring| agree(totals(ring, |_, _| true), SEND_LIMIT + 1),
        ),
        several(
            q,
            ALL,
            |ring, _| {
                [false, true]
                    .map(|below| with_q_beyond(ring, 1, below))
                    .into()
            },
            |ring| {
                let mut nearer = ring.clone();
                nearer.token.q -= ring.token.q.signum();
                nearer.is_sound()
            },
        ),
    ]
}

/// Something in a place that no node uses.
fn unused() -> Vec<Kind> {
    let flag = |name: &str, nodes, places, change: fn(&mut Ring, usize, &mut Rng)| {
        in_each(name.to_owned(), nodes, places, change, is_sound_emptied)
    };
    let shared = "a black place in the byte that nodes share with unused places";
    let blacken = |ring: &mut Ring, place, _: &mut Rng| ring.set_black(place, true);
    let flags = [
        flag(
            "an unused place active",
            WITH_UNUSED,
            unused_places,
            |ring, place, _| ring.active[place] = true,
        ),
        flag("an unused place black", WITH_UNUSED, unused_places, blacken),
        flag(shared, SHARING, sharing_places, blacken),
    ];
    let counts = (0..COLUMNS.len()).flat_map(unused_counts);
    flags.into_iter().chain(counts).collect()
}

fn unused_counts(k: usize) -> [Kind; 2] {
    let name = COLUMNS[k];
    [
        in_each(
            format!("{name} in an unused place, the totals of the nodes right"),
            WITH_UNUSED,
            unused_places,
            move |ring, place, random| column(ring, k)[place] = some(random),
            is_sound_emptied,
        ),
        in_each(
            format!("{name} in an unused place, the totals of all places right"),
            WITH_UNUSED,
            unused_places,
            move |ring, place, random| in_balance(ring, k, place, random),
            |ring| agree(totals(ring, |_, _| true), SEND_LIMIT),
        ),
    ]
}

/// Some unused places of a ring of so many nodes.
type Places = fn(usize) -> Vec<usize>;

/// One near miss for each of some unused places.
fn in_each(
    name: String,
    nodes: Nodes,
    places: Places,
    change: impl Fn(&mut Ring, usize, &mut Rng) + 'static,
    fault: Fault,
) -> Kind {
    let make = move |ring: &Ring, random: &mut Rng| {
        let changed = |place| {
            let mut ring = ring.clone();
            change(&mut ring, place, random);
            ring
        };
        places(ring.n).into_iter().map(changed).collect()
    };
    several(name, nodes, make, fault)
}

/// Whether the ring is sound where the places that no node uses are not looked at.
fn is_sound_emptied(ring: &Ring) -> bool {
    let mut ring = ring.clone();
    for place in ring.n..MAX_NODES {
        ring.active[place] = false;
        ring.set_black(place, false);
        (0..COLUMNS.len()).for_each(|k| column(&mut ring, k)[place] = 0);
    }
    ring.is_sound()
}

/// The first places that no node uses, and the last.
fn unused_places(n: usize) -> Vec<usize> {
    let mut places = vec![n, n + 1, MAX_NODES - 1];
    places.retain(|&place| place < MAX_NODES);
    places.dedup();
    places
}

/// The unused places whose colors are in one byte with a node's.
fn sharing_places(n: usize) -> Vec<usize> {
    (n..n.next_multiple_of(8)).collect()
}

/// Something in an unused place of a column, and as much at a node in a column that makes up for it.
fn in_balance(ring: &mut Ring, k: usize, place: usize, random: &mut Rng) {
    let there = some(random);
    let node = random.below(ring.n);
    let other = match k {
        SENT => random.pick(&[RECEIVED, PENDING]),
        _ => SENT,
    };
    column(ring, k)[place] = there;
    column(ring, other)[node] += there;
}
