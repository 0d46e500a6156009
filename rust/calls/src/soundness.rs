//! Soundness by calls, gone through sort by sort: few nodes and the most, the token at every node, sound rings, near misses, each field broken
//! alone and every two. Each ring is lent as one update of a table too, and now and then to a step and to the driver.

use crate::fail;
use crate::lent::LentRing;
use crate::lent_table::LentTable;
use crate::near_misses::{kinds, Kind};
use crate::requests::request;
use crate::rings::{broken_at, same_calls, FIELDS};
use crate::same::{other, same_soundness};
use crate::sound_rings::{four, Sort, SORTS};
use crate::tables;
use second::bounds::soundness::{BROKEN, NEAR_MISSES, OF_EACH, REFUSED, SIZES, SOUND};
use second::generate::Rng;
use second::report::Report;
use second::request::SEND_LIMIT;
use second::ring::{Ring, MAX_NODES};
use second::sends::ring_with_sends;
use second::table::UPDATES;

/// Turns on each size, as many for each position of the token.
const TURNS: usize = 288;
/// How often each field of a sound ring is broken alone.
const TIMES: usize = 3;

pub fn compare(seed: u64, report: &mut Report) {
    let mut random = Rng::new(seed);
    let mut calls = Calls::new(seed, &mut random);
    let kinds = kinds();
    let sizes = SIZES.map(|n| {
        let mut met = Met::new(n, kinds.len());
        for turn in 0..TURNS / n * n {
            met.sound(turn % n, &mut calls, &mut random);
            met.near_misses(turn % n, &kinds, &mut calls, &mut random);
        }
        met
    });
    for met in &sizes {
        met.report(report);
    }
    report_unsound(&sizes, &kinds, report);
    calls.report(report);
}

/// The calls on each ring.
struct Calls {
    seed: u64,
    /// Where a ring is lent as this update. The others are started, with as many nodes and any number of sends, or not, with noise in their places.
    table: LentTable,
    update: usize,
    n: usize,
    /// Rings told as not sound and as sound in each place.
    in_table: [[usize; 2]; UPDATES],
    /// Steps refused with 3.
    refused: usize,
}

impl Calls {
    fn new(seed: u64, random: &mut Rng) -> Self {
        Self {
            seed,
            table: LentTable::nothing_started(random),
            update: 0,
            n: 0,
            in_table: [[0; 2]; UPDATES],
            refused: 0,
        }
    }

    /// Another table, for rings of `n` nodes.
    fn surround(&mut self, n: usize, random: &mut Rng) {
        self.table = LentTable::nothing_started(random);
        self.update = random.below(UPDATES);
        self.n = n;
        for update in 0..UPDATES {
            if random.chance(50) {
                let some = random.below(SEND_LIMIT as usize) as u32;
                let sends = random.pick(&[0, 0, 1, some, SEND_LIMIT]);
                let pending = random.below(5) as u32;
                let ring = ring_with_sends(n, sends, pending, random);
                self.table.set(update, &LentRing::of(&ring));
            }
        }
    }

    /// Whether both tell a ring as sound, by itself and in the table; a step is guided by a ring of `guide`'s nodes.
    fn is_sound(&mut self, ring: &Ring, guide: &Ring, random: &mut Rng) -> bool {
        let lent = LentRing::of(ring);
        let told = if random.chance(25) {
            let request = request(guide, false, random);
            let [told, step, _] = same_calls(self.seed, &lent, request, random);
            self.refused += usize::from(step == 3);
            told
        } else {
            same_soundness(self.seed, &lent)
        };
        self.table.set(self.update, &lent);
        let in_table = tables::same_soundness(self.seed, &self.table);
        if ring.n == self.n {
            self.in_table[self.update][usize::from(in_table)] += 1;
            if in_table != told {
                fail(self.seed, &format!("soundness in a table of {lent:?}"));
            }
        }
        told == 1
    }

    /// A ring that was made to be sound, or not to be, is told so by both.
    fn expect(&mut self, sound: bool, what: &str, ring: &Ring, random: &mut Rng) {
        if self.is_sound(ring, ring, random) != sound {
            let made = if sound { "sound" } else { "not to be" };
            fail(
                self.seed,
                &format!("{what}, made {made}, is told otherwise by both: {ring:?}"),
            );
        }
    }

    fn report(&self, report: &mut Report) {
        for (k, told) in ["not sound", "sound"].iter().enumerate() {
            let name =
                format!("table: rings told as {told}, at the least met of {UPDATES} updates");
            report.at_least(
                name,
                least(self.in_table.iter().map(|told| told[k])),
                OF_EACH,
            );
        }
        let name = "ring: steps of such rings refused with 3";
        report.at_least(name, self.refused, REFUSED);
    }
}

/// What was met on one size.
struct Met {
    n: usize,
    /// Sound rings of each sort, by the token's position.
    sound: [Vec<usize>; SORTS.len()],
    near_misses: Vec<usize>,
    /// Unsound rings by the field that was broken alone, and by the two.
    alone: [usize; FIELDS.len()],
    together: Vec<usize>,
}

impl Met {
    fn new(n: usize, kinds: usize) -> Self {
        Self {
            n,
            sound: [(); SORTS.len()].map(|()| vec![0; n]),
            near_misses: vec![0; kinds],
            alone: [0; FIELDS.len()],
            together: vec![0; pairs().count()],
        }
    }

    /// Sound rings of each sort, and each of them broken.
    fn sound(&mut self, pos: usize, calls: &mut Calls, random: &mut Rng) {
        for (k, sort) in SORTS.iter().enumerate() {
            if let Some(pos) = sort.place(self.n, pos) {
                calls.surround(self.n, random);
                let ring = made(sort, self.n, pos, random);
                calls.expect(true, sort.name, &ring, random);
                self.sound[k][pos] += 1;
                self.broken_alone(&ring, calls, random);
                self.broken_together(&ring, calls, random);
            }
        }
    }

    fn broken_alone(&mut self, ring: &Ring, calls: &mut Calls, random: &mut Rng) {
        for k in 0..TIMES * FIELDS.len() {
            let field = k % FIELDS.len();
            let wild = broken_once(ring, ring, field, random);
            self.alone[field] += usize::from(!calls.is_sound(&wild, ring, random));
        }
    }

    fn broken_together(&mut self, ring: &Ring, calls: &mut Calls, random: &mut Rng) {
        for (count, (field, next)) in self.together.iter_mut().zip(pairs()) {
            let once = broken_once(ring, ring, field, random);
            let wild = broken_once(&once, ring, next, random);
            *count += usize::from(!calls.is_sound(&wild, ring, random));
        }
    }

    fn near_misses(&mut self, pos: usize, kinds: &[Kind], calls: &mut Calls, random: &mut Rng) {
        calls.surround(self.n, random);
        for (count, kind) in self.near_misses.iter_mut().zip(kinds) {
            for mut ring in kind.at(self.n, pos, random) {
                calls.expect(false, &kind.name, &ring, random);
                *count += 1;
                if kind.is_of_safra() {
                    ring.token.black = true;
                    calls.expect(true, &kind.name, &ring, random);
                }
                if kind.is_of_closed() {
                    ring.closed = false;
                    calls.expect(true, &kind.name, &ring, random);
                }
            }
        }
    }

    /// The positions at which every sort was met that can be there.
    fn positions(&self) -> usize {
        let met = |sort: &Sort, counts: &[usize], pos: usize| {
            sort.place(self.n, pos) != Some(pos) || counts[pos] > 0
        };
        let sorts = || SORTS.iter().zip(&self.sound);
        (0..self.n)
            .filter(|&pos| sorts().all(|(sort, counts)| met(sort, counts, pos)))
            .count()
    }

    fn report(&self, report: &mut Report) {
        let of = format!("ring of {}: told as sound", self.n);
        for (sort, counts) in SORTS.iter().zip(&self.sound) {
            if (0..self.n).any(|pos| sort.place(self.n, pos).is_some()) {
                let name = format!("{of}, {}", sort.name);
                report.at_least(name, counts.iter().sum(), SOUND);
            }
        }
        let name = format!("{of}, positions with each of these that can be there");
        report.exactly(name, self.positions(), self.n);
    }
}

/// A ring of a sort, with one of Safra's four alone if it is asked for.
fn made(sort: &Sort, n: usize, pos: usize, random: &mut Rng) -> Ring {
    let ring = (sort.make)(n, pos, random);
    if let Some(alone) = sort.alone {
        let mut only = [false; 4];
        only[alone] = true;
        assert_eq!(four(&ring), only, "{}", sort.name);
    }
    ring
}

fn pairs() -> impl Iterator<Item = (usize, usize)> {
    let after = |field| (field + 1..FIELDS.len()).map(move |next| (field, next));
    (0..FIELDS.len()).flat_map(after)
}

/// A field set to something else, a column's mostly at a place that is the first or the last of some.
fn broken_once(ring: &Ring, sound: &Ring, field: usize, random: &mut Rng) -> Ring {
    let (n, pos) = (sound.n, sound.token.pos);
    other(ring, || {
        let any = random.below(MAX_NODES);
        let at = random.pick(&[0, pos, pos + 1, n - 1, n, MAX_NODES - 1, any]);
        broken_at(ring, field, at.min(MAX_NODES - 1), random)
    })
}

fn least(counts: impl IntoIterator<Item = usize>) -> usize {
    counts.into_iter().min().unwrap_or_default()
}

/// What is told as not sound, on the size where each was met least.
fn report_unsound(sizes: &[Met], kinds: &[Kind], report: &mut Report) {
    for (k, kind) in kinds.iter().enumerate() {
        let sizes = sizes.iter().filter(|met| (kind.nodes)(met.n));
        let of: Vec<String> = sizes.clone().map(|met| met.n.to_string()).collect();
        let how = if kind.fault.is_some() {
            "by little"
        } else {
            "wild"
        };
        let (of, kind) = (of.join(", "), &kind.name);
        let name = format!("ring, least of {of}: told as not sound, {how}: {kind}");
        let counts = sizes.map(|met| met.near_misses[k]);
        report.at_least(name, least(counts), NEAR_MISSES);
    }
    let of = "ring, least of all: told as not sound,";
    for (k, field) in FIELDS.iter().enumerate() {
        let counts = sizes.iter().map(|met| met.alone[k]);
        report.at_least(format!("{of} {field} broken alone"), least(counts), BROKEN);
    }
    let counts = sizes.iter().flat_map(|met| met.together.clone());
    let name = format!("{of} two fields broken, least of {} pairs", pairs().count());
    report.at_least(name, least(counts), BROKEN);
}
