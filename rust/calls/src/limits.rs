//! Tables with updates at and about their limits of sends: each is told as sound, and each of its updates answers a send by its own count alone.

use crate::fail;
use crate::lent::LentRing;
use crate::lent_table::LentTable;
use crate::tables::{same_soundness, same_start, same_step};
use second::bounds::tables::OVER;
use second::generate::Rng;
use second::report::Report;
use second::request::{Request, SEND, SEND_LIMIT};
use second::ring::MAX_NODES;
use second::sends::{ring_with_sends, table_with_sends, OfEach, Sending, Sends, SORTS};
use second::table::UPDATES;

/// Tables of each sort.
const TURNS: usize = 600;

#[derive(Default)]
pub struct Limits {
    pub sends: Sends,
    /// Tables told as not sound since one update has one send more than may be, by the sort of the others.
    over: [usize; SORTS.len()],
}

impl Limits {
    /// Tables of each sort, and each of them with one update over its limit.
    pub fn made(&mut self, seed: u64, random: &mut Rng) {
        for turn in 0..TURNS * SORTS.len() {
            let sort = turn % SORTS.len();
            let any = 1 + random.below(MAX_NODES);
            let n = random.pick(&[1, 2, MAX_NODES, any]);
            let sends = (SORTS[sort].make)(random);
            let lent = LentTable::of(&table_with_sends(n, &sends, random), random);
            let made = Made { seed, n, lent };
            made.expect(1, same_soundness(seed, &made.lent), SORTS[sort].name);
            self.sends.count_sound(&sends);
            for update in 0..UPDATES {
                if sends[update].is_some() {
                    made.send(&sends, update, &mut self.sends, random);
                }
            }
            made.over(random);
            self.over[sort] += 1;
        }
    }

    pub fn report(&self, report: &mut Report) {
        self.sends.report("table", report);
        let over = SORTS.iter().zip(self.over).map(|(sort, count)| {
            let others = sort.name;
            let name = format!("table: told as not sound, 1,000,001 sends of one beside {others}");
            (name, count)
        });
        report.each_at_least(OVER, over);
    }
}

/// A table whose answers are known from how it was made.
struct Made {
    seed: u64,
    n: usize,
    lent: LentTable,
}

impl Made {
    fn expect(&self, expected: u8, told: u8, what: &str) {
        if told != expected {
            let lent = &self.lent;
            let told = format!("{what}: both told {told}, expected {expected}, of {lent:?}");
            fail(self.seed, &told);
        }
    }

    /// A send of an update, every node being active: 9 if it is at its limit, whatever the others have, and then accepted once it is started afresh.
    fn send(&self, sends: &OfEach, update: usize, met: &mut Sends, random: &mut Rng) {
        let mut run = Sending::default();
        let request = Request::new(SEND, random.below(self.n), random.below(self.n));
        let expected = if sends[update] == Some(SEND_LIMIT) {
            9
        } else {
            0
        };
        let (told, _) = same_step(self.seed, &self.lent, update, request);
        self.expect(expected, told, "a send");
        met.count_step(&mut run, sends, (update, request), told);
        if told == 0 {
            return;
        }
        let flags = vec![1; self.n];
        let (told, fresh) = same_start(self.seed, &self.lent, update, self.n, &flags);
        self.expect(0, told, "a fresh start");
        met.count_start(&mut run, update);
        let (told, _) = same_step(self.seed, &fresh, update, request);
        self.expect(0, told, "a send after a fresh start");
        let mut sends = *sends;
        sends[update] = Some(0);
        met.count_step(&mut run, &sends, (update, request), told);
    }

    /// The table with one send more than may be of one update, started in it or not.
    fn over(mut self, random: &mut Rng) {
        let pending = random.below(5) as u32;
        let ring = ring_with_sends(self.n, SEND_LIMIT + 1, pending, random);
        self.lent.set(random.below(UPDATES), &LentRing::of(&ring));
        let what = "one send over the limit";
        self.expect(0, same_soundness(self.seed, &self.lent), what);
        let update = random.below(UPDATES);
        let request = Request::new(SEND, 0, 0);
        let (told, _) = same_step(self.seed, &self.lent, update, request);
        self.expect(3, told, what);
        let flags = vec![0; self.n];
        let (told, _) = same_start(self.seed, &self.lent, update, self.n, &flags);
        self.expect(3, told, what);
    }
}
