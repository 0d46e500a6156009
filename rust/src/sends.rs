//! Tables by the sends of their updates, each of which has its own count and its own limit: request Q-5. Some are made, with updates at and about
//! their limits; and what calls on tables met of this is counted.

use crate::bounds::tables::{AFRESH, BESIDE, FULL, TOGETHER};
use crate::generate::Rng;
use crate::refusal::Refusal;
use crate::report::Report;
use crate::request::{Request, SEND, SEND_LIMIT};
use crate::ring::Ring;
use crate::table::{Table, UPDATES};
use std::mem::take;

/// How many sends each started update has.
pub type OfEach = [Option<u32>; UPDATES];

pub fn of_each(table: &Table) -> OfEach {
    let sends = |ring: &Ring| u32::try_from(ring.sends()).expect("a sound ring's sends");
    table
        .updates
        .each_ref()
        .map(|place| place.as_ref().map(sends))
}

/// A sort of sound tables.
pub struct Sort {
    pub name: &'static str,
    pub make: fn(&mut Rng) -> OfEach,
}

const fn sort(name: &'static str, make: fn(&mut Rng) -> OfEach) -> Sort {
    Sort { name, make }
}

/// At least two updates are started in each.
pub const SORTS: [Sort; 7] = [
    sort("one update at its limit, others far below", |rng| {
        let mut sends = at_limit(1, rng);
        let other = rng.node(UPDATES, |update| sends[update] != Some(SEND_LIMIT));
        sends[other.expect("seven others")] = Some(few(rng));
        sends
    }),
    sort("several updates at their limits", |rng| {
        at_limit(2 + rng.below(UPDATES - 2), rng)
    }),
    sort("all eight updates at their limits", |rng| {
        at_limit(UPDATES, rng)
    }),
    sort("several updates near their limits", |rng| {
        let sends = at_limit(2 + rng.below(UPDATES - 1), rng);
        sends.map(|sends| sends.map(|sends| sends.saturating_sub(rng.below(4) as u32)))
    }),
    sort("two updates with 1,000,000 sends together", |rng| {
        two(SEND_LIMIT, rng)
    }),
    sort("two updates with 1,000,001 sends together", |rng| {
        two(SEND_LIMIT + 1, rng)
    }),
    sort("two updates with nearly 1,000,000 sends together", |rng| {
        two(SEND_LIMIT - 1 - rng.below(3) as u32, rng)
    }),
];

fn few(rng: &mut Rng) -> u32 {
    rng.below(1_000) as u32
}

/// The updates in some order.
fn order(rng: &mut Rng) -> impl Iterator<Item = usize> {
    let (first, step) = (rng.below(UPDATES), rng.pick(&[1, 3, 5, 7]));
    (0..UPDATES).map(move |k| (first + step * k) % UPDATES)
}

/// So many updates at their limits, each of the others not started or with few sends.
fn at_limit(updates: usize, rng: &mut Rng) -> OfEach {
    let mut sends = [(); UPDATES].map(|()| rng.chance(50).then(|| few(rng)));
    for update in order(rng).take(updates) {
        sends[update] = Some(SEND_LIMIT);
    }
    sends
}

/// Two updates with so many sends between them, neither at its limit.
fn two(together: u32, rng: &mut Rng) -> OfEach {
    let of_first = 2 + rng.below(together as usize - 3) as u32;
    let mut sends = [None; UPDATES];
    for (update, of_it) in order(rng).zip([of_first, together - of_first]) {
        sends[update] = Some(of_it);
    }
    sends
}

/// A ring of active nodes that accepted so many sends, of which as many as `pending` may be on their way to one node.
pub fn ring_with_sends(n: usize, sends: u32, pending: u32, rng: &mut Rng) -> Ring {
    let flags: Vec<u8> = (0..n).map(|_| rng.below(4) as u8 | 1).collect();
    let mut ring = Ring::start(n, &flags).expect("a start in range");
    let pending = sends.min(pending);
    ring.sent[rng.below(n)] = sends;
    ring.received[rng.below(n)] = sends - pending;
    ring.pending[rng.below(n)] = pending;
    ring
}

/// A table of such rings.
pub fn table_with_sends(n: usize, sends: &OfEach, rng: &mut Rng) -> Table {
    let mut ring = |sends| {
        let pending = rng.below(5) as u32;
        ring_with_sends(n, sends, pending, rng)
    };
    Table {
        updates: sends.map(|sends| sends.map(&mut ring)),
    }
}

/// The sends of the started updates together, of which no limit is left.
pub fn together(sends: &OfEach) -> u64 {
    sends.iter().flatten().copied().map(u64::from).sum()
}

/// Where the sends of a run are.
#[derive(Default)]
pub struct Sending {
    /// The update of the last send that was accepted or refused with 9, and whether it was accepted. None once that update is started afresh.
    last: Option<(usize, bool)>,
    /// Updates that were refused with 9 in their present runs, and those that were in an earlier one and have not sent since.
    refused: [bool; UPDATES],
    afresh: [bool; UPDATES],
}

/// Sends of the updates together with which every send was refused before request Q-5.
const TOTALS: [&str; 3] = ["1,000,000 sends", "1,000,001 sends", "more sends"];

/// Which of them a table has, if it has one.
fn total(sends: &OfEach) -> Option<usize> {
    let above = together(sends).checked_sub(u64::from(SEND_LIMIT))?;
    Some((above as usize).min(TOTALS.len() - 1))
}

#[derive(Default)]
pub struct Sends {
    /// Tables told as sound, by how many updates are at their limits.
    full: [usize; UPDATES + 1],
    /// Tables told as sound with none at its limit, and sends accepted, by the sends together.
    sound: [usize; TOTALS.len()],
    accepted: [usize; TOTALS.len()],
    /// Sends accepted next after a 9 to another update, and refused with 9 next after an accepted one of another.
    after_nine: usize,
    nine_after: usize,
    /// Fresh starts after a 9 that a send of the update followed.
    afresh: usize,
}

impl Sends {
    /// Counts a table that was told as sound.
    pub fn count_sound(&mut self, sends: &OfEach) {
        let full = sends.iter().filter(|&&of_it| of_it == Some(SEND_LIMIT));
        let full = full.count();
        self.full[full] += 1;
        if let (0, Some(total)) = (full, total(sends)) {
            self.sound[total] += 1;
        }
    }

    /// Counts an accepted start of a run.
    pub fn count_start(&mut self, run: &mut Sending, update: usize) {
        run.afresh[update] |= take(&mut run.refused[update]);
        run.last = run.last.filter(|&(last, _)| last != update);
    }

    /// Counts a step of a run: what the table had before it, and its answer.
    pub fn count_step(
        &mut self,
        run: &mut Sending,
        sends: &OfEach,
        (update, request): (usize, Request),
        answer: u8,
    ) {
        let accepted = answer == 0;
        let refused = u32::from(answer) == Refusal::SendLimit.number();
        if request.kind != SEND || !(accepted || refused) {
            return;
        }
        let last = run.last.replace((update, accepted));
        let of_another = |accepted| last.is_some_and(|last| last.0 != update && last.1 == accepted);
        self.after_nine += usize::from(accepted && of_another(false));
        self.nine_after += usize::from(refused && of_another(true));
        if refused {
            run.refused[update] = true;
            return;
        }
        self.afresh += usize::from(take(&mut run.afresh[update]));
        if let Some(total) = total(sends) {
            self.accepted[total] += 1;
        }
    }

    pub fn report(&self, of: &str, report: &mut Report) {
        let full = (1..=UPDATES).map(|full| {
            let name = format!("{of}: told as sound, updates at their limits: {full}");
            (name, self.full[full])
        });
        report.each_at_least(FULL, full);
        let totals = |what: &str, counts: [usize; TOTALS.len()]| {
            let figures = TOTALS.iter().zip(counts);
            figures
                .map(|(total, count)| (format!("{of}: {what}, {total} together"), count))
                .collect::<Vec<_>>()
        };
        report.each_at_least(FULL, totals("told as sound, none at its limit", self.sound));
        report.each_at_least(TOGETHER, totals("sends accepted", self.accepted));
        let beside = [
            ("accepted next after a 9 to another update", self.after_nine),
            (
                "refused with 9 next after an accepted one of another update",
                self.nine_after,
            ),
        ];
        let beside = beside.map(|(name, count)| (format!("{of}: sends {name}"), count));
        report.each_at_least(BESIDE, beside);
        let name = format!("{of}: fresh starts after a 9 that a send of the update followed");
        report.at_least(name, self.afresh, AFRESH);
    }
}

#[cfg(test)]
mod tests {
    use super::*;

    const SEND_TO_1: Request = Request {
        kind: SEND,
        i: 0,
        j: 1,
    };

    fn sends_of(updates: &[(usize, u32)]) -> OfEach {
        let mut sends = [None; UPDATES];
        for &(update, of_it) in updates {
            sends[update] = Some(of_it);
        }
        sends
    }

    /// Of each sort: every update is within its limit, two are started at least, and the name says what they have.
    #[test]
    fn tables_of_each_sort() {
        let rng = &mut Rng::new(5);
        for turn in 0..2_000 {
            let which = turn % SORTS.len();
            let sends = (SORTS[which].make)(rng);
            let started: Vec<u32> = sends.into_iter().flatten().collect();
            let count =
                |wanted: fn(u32) -> bool| started.iter().filter(|&&of_it| wanted(of_it)).count();
            let full = count(|of_it| of_it == 1_000_000);
            let near = count(|of_it| (999_997..=1_000_000).contains(&of_it));
            let below = count(|of_it| of_it < 1_000);
            let in_all: u32 = started.iter().sum();
            assert!(started.len() >= 2 && started.iter().all(|&of_it| of_it <= 1_000_000));
            assert!(
                match which {
                    0 => full == 1 && below == started.len() - 1,
                    1 => (2..=7).contains(&full) && full + below == started.len(),
                    2 => full == 8,
                    3 => near >= 2 && near + below == started.len(),
                    4 => in_all == 1_000_000 && (started.len(), full) == (2, 0),
                    5 => in_all == 1_000_001 && (started.len(), full) == (2, 0),
                    _ => (999_997..=999_999).contains(&in_all) && started.len() == 2,
                },
                "{}: {sends:?}",
                SORTS[which].name
            );
        }
    }

    #[test]
    fn a_table_has_the_sends_that_it_is_made_with() {
        let rng = &mut Rng::new(7);
        for turn in 0..200 {
            let sends = (SORTS[turn % SORTS.len()].make)(rng);
            let n = 1 + rng.below(96);
            let table = table_with_sends(n, &sends, rng);
            assert!(table.is_sound());
            assert_eq!(of_each(&table), sends);
            assert!(table
                .started()
                .all(|ring| ring.n == n && ring.active[..n].iter().all(|&a| a)));
        }
        assert!(!ring_with_sends(3, 1_000_001, 0, rng).is_sound());
    }

    #[test]
    fn tables_are_told_apart() {
        let mut met = Sends::default();
        met.count_sound(&[Some(1_000_000); UPDATES]);
        met.count_sound(&sends_of(&[(0, 1_000_000), (7, 1)]));
        met.count_sound(&sends_of(&[(0, 400_000), (7, 600_000)]));
        met.count_sound(&sends_of(&[(0, 400_001), (7, 600_000)]));
        met.count_sound(&sends_of(&[(0, 999_999)]));
        met.count_sound(&sends_of(&[(0, 999_999), (1, 999_999)]));
        assert_eq!(met.full, [4, 1, 0, 0, 0, 0, 0, 0, 1]);
        assert_eq!(met.sound, [1, 1, 1]);
    }

    /// Update 2 is at its limit and update 6 sends, before and after; then update 2 is started afresh.
    #[test]
    fn sends_are_told_apart() {
        let (mut met, mut run) = (Sends::default(), Sending::default());
        let full = sends_of(&[(2, 1_000_000), (6, 5)]);
        for (update, answer) in [
            (2, 9),
            (6, 0),
            (6, 0),
            (2, 9),
            (2, 9),
            (2, 8),
            (6, 0),
            (2, 9),
        ] {
            met.count_step(&mut run, &full, (update, SEND_TO_1), answer);
        }
        met.count_step(&mut run, &full, (2, Request::new(2, 0, 1)), 0);
        assert_eq!((met.after_nine, met.nine_after, met.afresh), (2, 2, 0));
        assert_eq!(met.accepted, [0, 0, 3]);
        met.count_start(&mut run, 2);
        met.count_start(&mut run, 2);
        let fresh = sends_of(&[(2, 0), (6, 8)]);
        for update in [6, 2, 2] {
            met.count_step(&mut run, &fresh, (update, SEND_TO_1), 0);
        }
        assert_eq!((met.after_nine, met.nine_after, met.afresh), (2, 2, 1));
        assert_eq!(met.accepted, [0, 0, 3]);
    }
}
