//! A table as it is lent to the proved functions, field by field of `struct muzserlik_table`. An update of n = 0 is not started, and
//! the rest of its place is anything.

use crate::lent::LentRing;
use second::generate::Rng;
use second::request::Request;
use second::ring::{COLOR_BYTES, MAX_NODES};
use second::table::{Table, UPDATES};

#[repr(C)]
#[derive(Clone, Debug, PartialEq, Eq)]
pub struct LentTable {
    n: [usize; UPDATES],
    pos: [usize; UPDATES],
    q: [i64; UPDATES],
    black: [u8; UPDATES],
    closed: [u8; UPDATES],
    active: [[u8; MAX_NODES]; UPDATES],
    color: [[u8; COLOR_BYTES]; UPDATES],
    sent: [[u32; MAX_NODES]; UPDATES],
    received: [[u32; MAX_NODES]; UPDATES],
    pending: [[u32; MAX_NODES]; UPDATES],
}

extern "C" {
    fn calls_table_size() -> usize;
    fn calls_table_start(
        table: *mut LentTable,
        update: usize,
        n: usize,
        flags: *const u8,
        count: usize,
    ) -> i32;
    fn calls_table_step(
        table: *mut LentTable,
        update: usize,
        kind: usize,
        i: usize,
        j: usize,
    ) -> i32;
    fn calls_table_is_sound(table: *mut LentTable) -> i32;
}

impl LentTable {
    /// Nothing is started, and every byte of every place is anything.
    pub fn nothing_started(random: &mut Rng) -> Self {
        // Two structs that differ in length would be read and written past their ends.
        assert_eq!(unsafe { calls_table_size() }, size_of::<Self>());
        let mut table = Self {
            n: [0; UPDATES],
            pos: [0; UPDATES],
            q: [0; UPDATES],
            black: [0; UPDATES],
            closed: [0; UPDATES],
            active: [[0; MAX_NODES]; UPDATES],
            color: [[0; COLOR_BYTES]; UPDATES],
            sent: [[0; MAX_NODES]; UPDATES],
            received: [[0; MAX_NODES]; UPDATES],
            pending: [[0; MAX_NODES]; UPDATES],
        };
        for update in 0..UPDATES {
            let noise = LentRing::noise(random);
            table.set(update, &LentRing { n: 0, ..noise });
        }
        table
    }

    /// A table, with anything in the places of updates that are not started.
    pub fn of(table: &Table, random: &mut Rng) -> Self {
        let mut lent = Self::nothing_started(random);
        for (update, ring) in table.updates.iter().enumerate() {
            if let Some(ring) = ring {
                lent.set(update, &LentRing::of(ring));
            }
        }
        lent
    }

    pub fn is_started(&self, update: usize) -> bool {
        self.n[update] != 0
    }

    pub fn place(&self, update: usize) -> LentRing {
        LentRing {
            n: self.n[update],
            active: self.active[update],
            color: self.color[update],
            sent: self.sent[update],
            received: self.received[update],
            pending: self.pending[update],
            pos: self.pos[update],
            q: self.q[update],
            black: self.black[update],
            closed: self.closed[update],
        }
    }

    pub fn set(&mut self, update: usize, ring: &LentRing) {
        self.n[update] = ring.n;
        self.active[update] = ring.active;
        self.color[update] = ring.color;
        self.sent[update] = ring.sent;
        self.received[update] = ring.received;
        self.pending[update] = ring.pending;
        self.pos[update] = ring.pos;
        self.q[update] = ring.q;
        self.black[update] = ring.black;
        self.closed[update] = ring.closed;
    }

    /// The table that lies there; none where a byte of a started update is no truth.
    pub fn table(&self) -> Option<Table> {
        let mut table = Table::default();
        for (update, place) in table.updates.iter_mut().enumerate() {
            if self.is_started(update) {
                *place = Some(self.place(update).ring()?);
            }
        }
        Some(table)
    }

    /// The number of a start's answer, 0 where it is accepted.
    pub fn start(&mut self, update: usize, n: usize, flags: &mut [u8]) -> u8 {
        // The struct is as long as the header's, and the flags as long as told.
        let told = unsafe { calls_table_start(self, update, n, flags.as_mut_ptr(), flags.len()) };
        u8::try_from(told).expect("one byte")
    }

    /// The number of a step's answer, 0 where it is accepted.
    pub fn step(&mut self, update: usize, request: Request) -> u8 {
        let Request { kind, i, j } = request;
        let told = unsafe { calls_table_step(self, update, kind, i, j) };
        u8::try_from(told).expect("one byte")
    }

    /// 1 where the table is sound, else 0.
    pub fn is_sound(&mut self) -> u8 {
        let told = unsafe { calls_table_is_sound(self) };
        u8::try_from(told).expect("one byte")
    }
}
