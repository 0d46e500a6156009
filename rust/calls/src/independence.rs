//! Pairs of tables that agree on an update, asked through the proved calls, each of which is compared too.

use crate::fail;
use crate::lent_table::LentTable;
use crate::tables::{same_start, same_step};
use second::bounds::independence::PAIRS;
use second::generate::Rng;
use second::independence::{Calls, Met, Pair};
use second::report::Report;
use second::request::Request;
use second::table::Table;

pub fn compare(seed: u64, report: &mut Report) {
    let mut random = Rng::new(seed);
    let mut met = Met::default();
    for _ in 0..PAIRS {
        let pair = Pair::new(&mut random);
        let mut pair = pair.lent(|table| Compared {
            seed,
            lent: LentTable::of(&table, &mut random),
        });
        if let Err(different) = pair.run(&mut met, &mut random) {
            fail(seed, &different);
        }
    }
    met.report("two tables", report);
}

/// A table on which each call is compared.
struct Compared {
    seed: u64,
    lent: LentTable,
}

impl Calls for Compared {
    fn start(&mut self, update: usize, n: usize, flags: &[u8]) -> usize {
        let (told, next) = same_start(self.seed, &self.lent, update, n, flags);
        self.lent = next;
        usize::from(told)
    }

    fn step(&mut self, update: usize, request: Request) -> usize {
        let (told, next) = same_step(self.seed, &self.lent, update, request);
        self.lent = next;
        usize::from(told)
    }

    fn table(&self) -> Table {
        self.lent.table().expect("a run's truths")
    }
}
