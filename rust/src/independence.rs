//! An update does not depend on the others: request Q-5. Two sound tables of one N that agree on an update are asked the same of it, while each is
//! asked anything of its other updates. Every answer to the update, refusals included, has to be the same, and its ring after it.

use crate::bounds::answers::OF_UPDATE;
use crate::bounds::independence::{ANSWER, NINES, PARTED};
use crate::generate::{Model, Rng};
use crate::refusal::Refusal;
use crate::report::Report;
use crate::request::{Request, ANNOUNCE, SEND, SEND_LIMIT};
use crate::ring::{Ring, MAX_NODES};
use crate::sends::{of_each, ring_with_sends, table_with_sends, together, OfEach, SORTS};
use crate::table::{Table, UPDATES};

/// One more than the greatest answer.
const ANSWERS: usize = Refusal::UnknownUpdate as usize + 1;
/// What is asked of the update of one pair: half while it is busy, half while it winds down.
const REQUESTS: usize = 100;

/// A table that is called; an answer is a number, 0 where the request is accepted.
pub trait Calls {
    fn start(&mut self, update: usize, n: usize, flags: &[u8]) -> usize;
    fn step(&mut self, update: usize, request: Request) -> usize;
    fn table(&self) -> Table;
}

fn number(answer: Result<(), Refusal>) -> usize {
    answer.map_or_else(|refusal| refusal.number() as usize, |()| 0)
}

impl Calls for Table {
    fn start(&mut self, update: usize, n: usize, flags: &[u8]) -> usize {
        number(Table::start(self, update, n, flags))
    }

    fn step(&mut self, update: usize, request: Request) -> usize {
        number(Table::step(self, update, request))
    }

    fn table(&self) -> Table {
        self.clone()
    }
}

/// What is asked of an update.
#[derive(Debug)]
enum Ask {
    Start(usize, Vec<u8>),
    Step(Request),
}

impl Ask {
    /// Of an update with this ring: mostly steps that the rules allow, and starts, more of them where nothing runs.
    fn new(ring: Option<&Ring>, n: usize, winding_down: bool, rng: &mut Rng) -> Self {
        let runs = ring.is_some_and(|ring| !ring.closed);
        if rng.chance(if runs { 3 } else { 15 }) {
            return Self::start(n, rng);
        }
        Self::Step(match ring {
            Some(ring) => Self::step(ring, winding_down, rng),
            None => any_step(n, rng),
        })
    }

    /// A busy run is not terminated.
    fn step(ring: &Ring, winding_down: bool, rng: &mut Rng) -> Request {
        loop {
            let request = match rng.below(10) {
                0 => any_step(ring.n, rng),
                1 | 2 => ring.tempting(rng),
                _ => match ring.allowed(rng, winding_down) {
                    Some(request) => ring.of_several(rng, request),
                    None => Request::new(ANNOUNCE, 0, 0),
                },
            };
            if winding_down || !ring.terminates(request) {
                return request;
            }
        }
    }

    /// Of N nodes, and now and then with another N or a flag above 3.
    fn start(n: usize, rng: &mut Rng) -> Self {
        let mut flags: Vec<u8> = (0..n).map(|_| rng.below(4) as u8).collect();
        match rng.below(6) {
            0 => Self::Start(n + 1, [flags, vec![0]].concat()),
            1 => {
                flags[rng.below(n)] = 4;
                Self::Start(n, flags)
            }
            _ => Self::Start(n, flags),
        }
    }

    fn put(&self, update: usize, table: &mut impl Calls) -> usize {
        match self {
            Self::Start(n, flags) => table.start(update, *n, flags),
            Self::Step(request) => table.step(update, *request),
        }
    }
}

/// Of any kind, and of kinds outside 1 to 6.
fn any_step(n: usize, rng: &mut Rng) -> Request {
    Request::new(rng.below(8), rng.below(n), rng.below(n))
}

/// Two tables that agree on an update.
pub struct Pair<T> {
    update: usize,
    n: usize,
    tables: [T; 2],
}

impl Pair<Table> {
    /// The update mostly has about as many sends as may be; the others are of two sorts.
    pub fn new(rng: &mut Rng) -> Self {
        let n = match rng.below(4) {
            0 => 1 + rng.below(MAX_NODES),
            _ => 1 + rng.below(4),
        };
        let update = rng.below(UPDATES);
        let sends = match rng.below(5) {
            0 => None,
            1 => Some(rng.below(1_000) as u32),
            _ => Some(SEND_LIMIT - rng.below(4) as u32),
        };
        let ring = sends.map(|sends| ring_with_sends(n, sends, 3, rng));
        let tables = [(); 2].map(|()| {
            let sort = &SORTS[rng.below(SORTS.len())];
            let mut table = table_with_sends(n, &(sort.make)(rng), rng);
            table.updates[update] = ring.clone();
            assert!(table.is_sound() && table.nodes() == Some(n));
            table
        });
        Self { update, n, tables }
    }

    /// The same tables as they are called.
    pub fn lent<T>(self, lend: impl FnMut(Table) -> T) -> Pair<T> {
        Pair {
            update: self.update,
            n: self.n,
            tables: self.tables.map(lend),
        }
    }
}

impl<T: Calls> Pair<T> {
    /// Asks the same of the update in both tables; the first difference is an error.
    pub fn run(&mut self, met: &mut Met, rng: &mut Rng) -> Result<(), String> {
        met.pairs += 1;
        for turn in 0..REQUESTS {
            self.ask_of_others(rng);
            let before = self.tables.each_ref().map(Calls::table);
            let ring = before[0].updates[self.update].as_ref();
            let ask = Ask::new(ring, self.n, turn >= REQUESTS / 2, rng);
            let put = |table| ask.put(self.update, table);
            let answers = self.tables.each_mut().map(put);
            let [one, other] = self.tables.each_ref().map(Calls::table);
            let place = self.update;
            if answers[0] != answers[1] || one.updates[place] != other.updates[place] {
                return Err(format!(
                    "update {place}, {ask:?}: {answers:?} of {before:?}"
                ));
            }
            met.count(&ask, before.each_ref().map(of_each), answers[0]);
        }
        Ok(())
    }

    /// Asks each table, by itself, something of its other updates, and of numbers above 7.
    fn ask_of_others(&mut self, rng: &mut Rng) {
        for table in &mut self.tables {
            for _ in 0..rng.below(5) {
                let other = (self.update + 1 + rng.below(UPDATES - 1)) % UPDATES;
                let ring = table.table().updates[other].take();
                let ask = Ask::new(ring.as_ref(), self.n, rng.chance(20), rng);
                let above = UPDATES + rng.below(3);
                ask.put(rng.pick(&[other, other, other, above]), table);
            }
        }
    }
}

/// What was met of the updates on which the tables agree.
#[derive(Default)]
pub struct Met {
    pairs: usize,
    pub answers: [usize; ANSWERS],
    /// 9s, all updates having another number of sends together in one table than in the other.
    pub nines: usize,
    /// Sends accepted, all updates having 1,000,000 sends together or more in one of the tables alone.
    pub parted: usize,
}

impl Met {
    fn count(&mut self, ask: &Ask, before: [OfEach; 2], answer: usize) {
        self.answers[answer] += 1;
        let [one, other] = before.map(|sends| together(&sends));
        let nine = answer == Refusal::SendLimit as usize;
        self.nines += usize::from(nine && one != other);
        let sent = answer == 0 && matches!(ask, Ask::Step(request) if request.kind == SEND);
        let limit = u64::from(SEND_LIMIT);
        self.parted += usize::from(sent && (one >= limit) != (other >= limit));
    }

    pub fn report(&self, of: &str, report: &mut Report) {
        let named = |name: &str| format!("{of}: {name}");
        report.told(named("pairs that agree on an update"), self.pairs);
        let same = |number: usize| {
            let name = format!("to that update {number}, the same in both");
            (named(&name), self.answers[number])
        };
        report.each_at_least(ANSWER, OF_UPDATE.map(same));
        let name = "to that update 9, another number of sends together in one than in the other";
        report.at_least(named(name), self.nines, NINES);
        let name = "sends of that update accepted, 1,000,000 together or more in one alone";
        report.at_least(named(name), self.parted, PARTED);
    }
}
