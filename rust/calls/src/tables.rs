//! Tables by calls: starts and steps of interleaved updates, tables with updates at and about their limits of sends, and wild tables.

use crate::answers::{Answers, BySize};
use crate::fail;
use crate::lent::LentRing;
use crate::lent_table::LentTable;
use crate::limits::Limits;
use crate::requests::{no_counts, request, takes, waiting, Course};
use crate::rings::{broken, FIELDS};
use second::bounds::answers::{IS_SOUND, OF_TABLE_STEP, TABLE_START};
use second::bounds::calls::BROKEN;
use second::bounds::tables::*;
use second::bounds::LARGE_RINGS;
use second::generate::Rng;
use second::own::Own;
use second::refusal::Refusal;
use second::report::Report;
use second::request::{Request, SEND_LIMIT};
use second::ring::{Ring, MAX_NODES};
use second::sends::{of_each, ring_with_sends, table_with_sends, OfEach, Sending, SORTS};
use second::sizes::Sizes;
use second::table::{Table, UPDATES};
use second::takes::Takes;

pub fn compare(seed: u64, report: &mut Report) {
    let mut random = Rng::new(seed);
    let mut tables = Tables::new(seed);
    while tables.steps.total() < STEPS {
        tables.run(&mut random);
    }
    tables.limits.made(seed, &mut random);
    tables.report(report);
}

/// What is wrong with a wild table, beside the fields of one ring.
const WRONGS: [&str; 4] = [
    "a byte above 1 for a truth",
    "two N",
    "one send of an update over its limit",
    "noise in a started place",
];

struct Tables {
    seed: u64,
    starts: Answers,
    steps: BySize,
    soundness: Answers,
    wild_starts: Answers,
    wild_steps: Answers,
    sizes: Sizes,
    takes: Takes,
    own: Own,
    announced: usize,
    fresh_when_open: usize,
    fresh_when_announced: usize,
    /// Calls of each update that were accepted.
    accepted: [usize; UPDATES],
    limits: Limits,
    /// Unsound tables by the field of a started update that was broken alone.
    broken: [usize; FIELDS.len()],
    /// Unsound tables by what else is wrong with them.
    wrong: [usize; WRONGS.len()],
}

/// A table of a run, and where each update of it is.
struct Running {
    n: usize,
    lent: LentTable,
    courses: [Option<Course>; UPDATES],
    sending: Sending,
}

impl Running {
    fn new(random: &mut Rng) -> Self {
        let n = match random.below(4) {
            0 => random.pick(&[1, MAX_NODES]),
            1 | 2 => 2 + random.below(7),
            _ => 1 + random.below(MAX_NODES),
        };
        Self {
            n,
            lent: LentTable::nothing_started(random),
            courses: [(); UPDATES].map(|()| None),
            sending: Sending::default(),
        }
    }

    /// Updates at and about their limits of sends, busy long enough to meet them.
    fn near_send_limits(random: &mut Rng) -> Self {
        let running = Self::new(random);
        let sends = (SORTS[random.below(SORTS.len())].make)(random);
        let table = table_with_sends(running.n, &sends, random);
        running.with(&table, Course::new, random)
    }

    /// Updates with messages on their way to one node, mostly more than few.
    fn with_messages(random: &mut Rng) -> Self {
        let running = Self::new(random);
        let mut table = Table::default();
        for place in &mut table.updates {
            if random.chance(50) {
                let pending = waiting(random);
                let sends = pending + random.below(5) as u32;
                *place = Some(ring_with_sends(running.n, sends, pending, random));
            }
        }
        running.with(&table, Course::of_update, random)
    }

    /// From this table on.
    fn with(mut self, table: &Table, begin: fn(&mut Rng) -> Course, random: &mut Rng) -> Self {
        assert!(table.is_sound(), "the tokens are black");
        self.lent = LentTable::of(table, random);
        for (update, course) in self.courses.iter_mut().enumerate() {
            *course = self.lent.is_started(update).then(|| begin(random));
        }
        self
    }

    /// The updates whose courses are followed, started ones first; few on large rings, so that they are announced.
    fn in_play(&self, random: &mut Rng) -> Vec<usize> {
        let most = if LARGE_RINGS.contains(&self.n) {
            UPDATES / 2
        } else {
            UPDATES
        };
        let first = random.below(UPDATES);
        let mut updates: Vec<usize> = (0..UPDATES).map(|k| (first + k) % UPDATES).collect();
        updates.sort_by_key(|&update| !self.lent.is_started(update));
        updates.truncate(1 + random.below(most));
        updates
    }

    fn sends(&self) -> OfEach {
        of_each(&self.lent.table().expect("a run's truths"))
    }

    fn ring(&self, update: usize) -> Option<Ring> {
        let place = self
            .lent
            .is_started(update)
            .then(|| self.lent.place(update));
        place.map(|place| place.ring().expect("a run's truths"))
    }
}

impl Tables {
    fn new(seed: u64) -> Self {
        Self {
            seed,
            starts: Answers::new("table: starts"),
            steps: BySize::new("table", LARGE_RINGS, "steps of runs"),
            soundness: Answers::new("table: soundness"),
            wild_starts: Answers::new("table: starts on wild tables"),
            wild_steps: Answers::new("table: steps of wild tables"),
            sizes: Sizes::default(),
            takes: Takes::default(),
            own: Own::default(),
            announced: 0,
            fresh_when_open: 0,
            fresh_when_announced: 0,
            accepted: [0; UPDATES],
            limits: Limits::default(),
            broken: [0; FIELDS.len()],
            wrong: [0; WRONGS.len()],
        }
    }

    /// Calls of interleaved updates, each compared; now and then a wild table.
    fn run(&mut self, random: &mut Rng) {
        let mut running = match random.below(5) {
            0 | 1 => Running::near_send_limits(random),
            2 => Running::with_messages(random),
            _ => Running::new(random),
        };
        for update in 0..UPDATES {
            self.all_takes(&running, update, random);
        }
        let in_play = running.in_play(random);
        let calls = 200 + random.below(400) + 20 * running.n;
        for _ in 0..calls {
            let update = random.pick(&in_play);
            match random.below(100) {
                0..=3 => self.any_start(&mut running, random),
                4..=6 => self.stray(&running, random),
                17 => self.all_takes(&running, update, random),
                7..=16 => self.wild(&running.lent, random),
                _ => self.advance(&mut running, update, random),
            }
        }
    }

    /// A step that the update's course asks for; a start where it has none.
    fn advance(&mut self, running: &mut Running, update: usize, random: &mut Rng) {
        let next = running.ring(update).and_then(|ring| {
            let course = running.courses[update].as_mut()?;
            course
                .next(&ring, ring.closed, random)
                .map(|request| (ring, request))
        });
        match next {
            Some((ring, request)) => self.step(running, update, &ring, request),
            None => {
                let flags = (0..running.n).map(|_| random.below(4) as u8).collect();
                self.start(running, update, running.n, flags, random);
            }
        }
    }

    fn step(&mut self, running: &mut Running, update: usize, ring: &Ring, request: Request) {
        let (told, next) = same_step(self.seed, &running.lent, update, request);
        let (sends, sending) = (running.sends(), &mut running.sending);
        let limits = &mut self.limits.sends;
        limits.count_step(sending, &sends, (update, request), told);
        self.steps.count(ring.n, told);
        self.sizes.count(ring.n, told == 0);
        if !ring.closed {
            self.takes.count(ring, request, told == 0);
            self.own.count_ring(ring, request, usize::from(told));
        }
        self.accepted[update] += usize::from(told == 0);
        running.lent = next;
        let closed = running.ring(update).is_some_and(|ring| ring.closed);
        self.announced += usize::from(closed && !ring.closed);
    }

    /// Takes of every number of messages by one node of an update that runs; they are not gone on from.
    fn all_takes(&mut self, running: &Running, update: usize, random: &mut Rng) {
        let Some(ring) = running.ring(update).filter(|ring| !ring.closed) else {
            return;
        };
        let i = random.node(ring.n, |i| ring.pending[i] > 0).unwrap_or(0);
        for request in takes(i, ring.pending[i]) {
            let (told, _) = same_step(self.seed, &running.lent, update, request);
            self.takes.count(&ring, request, told == 0);
        }
    }

    /// Any number of an update, N and flags in range and about it.
    fn any_start(&mut self, running: &mut Running, random: &mut Rng) {
        let n = match random.below(5) {
            0 => random.pick(&no_counts(MAX_NODES)),
            1 => 1 + random.below(MAX_NODES),
            _ => running.n,
        };
        let count = match random.below(5) {
            0 => random.below(MAX_NODES + 2),
            _ => n.min(MAX_NODES + 1),
        };
        let mut flags: Vec<u8> = (0..count).map(|_| random.below(4) as u8).collect();
        if count > 0 && random.chance(15) {
            flags[random.below(count)] = 4 + random.below(252) as u8;
        }
        let update = any_update(random);
        self.start(running, update, n, flags, random);
    }

    fn start(
        &mut self,
        running: &mut Running,
        update: usize,
        n: usize,
        flags: Vec<u8>,
        random: &mut Rng,
    ) {
        let before = (update < UPDATES).then(|| running.ring(update)).flatten();
        let (told, next) = same_start(self.seed, &running.lent, update, n, &flags);
        self.starts.count(told);
        running.lent = next;
        if told == 0 {
            running.n = n;
            running.courses[update] = Some(Course::of_update(random));
            self.limits.sends.count_start(&mut running.sending, update);
            self.accepted[update] += 1;
            self.fresh_when_open += usize::from(before.as_ref().is_some_and(|ring| !ring.closed));
            self.fresh_when_announced += usize::from(before.is_some_and(|ring| ring.closed));
        }
    }

    /// A step of any number of an update, started or not; it is not gone on from.
    fn stray(&mut self, running: &Running, random: &mut Rng) {
        let ring = (0..UPDATES).find_map(|update| running.ring(update));
        let request = match ring {
            Some(ring) => request(&ring, false, random),
            None => Request::new(random.below(8), random.below(3), random.below(3)),
        };
        let (told, _) = same_step(self.seed, &running.lent, any_update(random), request);
        self.steps.count(running.n, told);
        self.soundness
            .count(same_soundness(self.seed, &running.lent));
        self.limits.sends.count_sound(&running.sends());
    }

    /// The table with one field of a started update broken, or wrong in another way.
    fn wild(&mut self, lent: &LentTable, random: &mut Rng) {
        let Some(update) = random.node(UPDATES, |update| lent.is_started(update)) else {
            return;
        };
        let mut wild = lent.clone();
        let unsound = |wild: &LentTable| !wild.table().is_some_and(|table| table.is_sound());
        if random.chance(60) {
            let field = random.below(FIELDS.len());
            let ring = lent.place(update).ring().expect("a run's truths");
            wild.set(update, &LentRing::of(&broken(&ring, field, random)));
            self.broken[field] += usize::from(wild.is_started(update) && unsound(&wild));
        } else {
            let wrong = random.below(WRONGS.len());
            spoil(&mut wild, update, wrong, random);
            self.wrong[wrong] += usize::from(unsound(&wild));
        }
        self.soundness.count(same_soundness(self.seed, &wild));
        let any = any_update(random);
        let named = random.pick(&[update, any]);
        let ring = lent.place(update).ring().expect("a run's truths");
        let request = request(&ring, false, random);
        let (told, _) = same_step(self.seed, &wild, named, request);
        self.wild_steps.count(told);
        let any = random.below(MAX_NODES + 2);
        let n = random.pick(&[ring.n, ring.n, any]);
        let flags: Vec<u8> = (0..n).map(|_| random.below(5) as u8).collect();
        let (told, _) = same_start(self.seed, &wild, named, n, &flags);
        self.wild_starts.count(told);
    }

    fn report(&self, report: &mut Report) {
        self.starts.report_all(&TABLE_START, report);
        self.steps.report_half(&OF_TABLE_STEP, report);
        self.soundness.report_all(&IS_SOUND, report);
        self.wild_starts.report(&[3], report);
        self.wild_steps.report(&[3], report);
        self.sizes.report("table", &ON_TABLES, SIZES, report);
        self.takes.report("table", &TAKES, report);
        self.own.report("table", &OWN, report);
        report.at_least("table: updates announced", self.announced, ANNOUNCED);
        let fresh = [
            ("open", self.fresh_when_open),
            ("announced", self.fresh_when_announced),
        ];
        let fresh =
            fresh.map(|(name, count)| (format!("table: fresh starts of an {name} update"), count));
        report.each_at_least(FRESH, fresh);
        self.limits.report(report);
        let updates =
            (0..UPDATES).map(|update| format!("table: accepted calls of update {update}"));
        report.each_at_least(OF_EACH, updates.zip(self.accepted));
        let fields = FIELDS.map(|name| format!("table: unsound with {name} of one broken alone"));
        report.each_at_least(BROKEN, fields.into_iter().zip(self.broken));
        let wrongs = WRONGS.map(|name| format!("table: unsound with {name}"));
        report.each_at_least(BROKEN, wrongs.into_iter().zip(self.wrong));
    }
}

/// A number of an update, or one above 7; cut short some are not.
fn any_update(random: &mut Rng) -> usize {
    let update = random.below(UPDATES);
    let cut = [1 << 8 | update, 1 << 16 | update, 1 << 32 | update];
    match random.below(3) {
        0 => random.pick(&[8, 8, 9, 99_999, cut[0], cut[1], cut[2], usize::MAX]),
        1 => random.pick(&[0, 7]),
        _ => update,
    }
}

/// What is wrong with the table after it stands in WRONGS.
fn spoil(wild: &mut LentTable, update: usize, wrong: usize, random: &mut Rng) {
    let other = (update + 1 + random.below(UPDATES - 1)) % UPDATES;
    let mut place = wild.place(update);
    match wrong {
        0 => {
            *place.flag(random.below(LentRing::FLAGS)) = 2 + random.below(254) as u8;
            wild.set(update, &place);
        }
        1 => {
            let n = 1 + (place.n + random.below(MAX_NODES - 1)) % MAX_NODES;
            let ring = Ring::start(n, &vec![0; n]).expect("a start in range");
            wild.set(other, &LentRing::of(&ring));
        }
        2 => {
            let pending = waiting(random);
            let ring = ring_with_sends(place.n, SEND_LIMIT + 1, pending, random);
            wild.set(random.pick(&[update, other]), &LentRing::of(&ring));
        }
        _ => wild.set(other, &LentRing::noise(random)),
    }
}

/// What the second implementation answers, and the lent table after it: of an accepted call the named place alone is another.
fn expected(
    lent: &LentTable,
    update: usize,
    call: impl FnOnce(&mut Table) -> Result<(), Refusal>,
) -> (u8, LentTable) {
    let mut next = lent.clone();
    let answer = match lent.table() {
        None => Err(Refusal::Unsound),
        Some(mut table) => call(&mut table).map(|()| table),
    };
    match answer {
        Err(refusal) => (refusal.number() as u8, next),
        Ok(table) => {
            let ring = table.updates[update].as_ref().expect("a started update");
            next.set(update, &LentRing::of(ring));
            (0, next)
        }
    }
}

pub fn same_start(
    seed: u64,
    lent: &LentTable,
    update: usize,
    n: usize,
    flags: &[u8],
) -> (u8, LentTable) {
    let ours = expected(lent, update, |table| table.start(update, n, flags));
    let mut theirs = lent.clone();
    let mut lent_flags = flags.to_vec();
    let told = theirs.start(update, n, &mut lent_flags);
    if (told, &theirs) != (ours.0, &ours.1) || lent_flags != flags {
        let what = format!("a start of update {update}, {n} with {flags:?}");
        fail(
            seed,
            &format!("{what} told {told}, expected {}, of {lent:?}", ours.0),
        );
    }
    ours
}

pub fn same_step(seed: u64, lent: &LentTable, update: usize, request: Request) -> (u8, LentTable) {
    let ours = expected(lent, update, |table| table.step(update, request));
    let mut theirs = lent.clone();
    let told = theirs.step(update, request);
    if (told, &theirs) != (ours.0, &ours.1) {
        let what = format!("{request:?} of update {update}");
        fail(
            seed,
            &format!("{what} told {told}, expected {}, of {lent:?}", ours.0),
        );
    }
    ours
}

pub fn same_soundness(seed: u64, lent: &LentTable) -> u8 {
    let expected = lent.table().is_some_and(|table| table.is_sound());
    let mut theirs = lent.clone();
    let told = theirs.is_sound();
    if (told, &theirs) != (u8::from(expected), lent) {
        fail(seed, &format!("soundness of {lent:?}"));
    }
    told
}
