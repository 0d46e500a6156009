//! A panel as it is lent to the proved functions, field by field of `struct muzserlik_panel`: its ring, marks and record as bytes.

use crate::lent::{bytes, LentRing};
use second::generate::Rng;
use second::panel::{Mark, Panel};
use second::request::Request;
use second::ring::MAX_NODES;

#[repr(C)]
#[derive(Clone, Debug, PartialEq, Eq)]
pub struct LentPanel {
    pub ring: LentRing,
    pub firmware: [u8; MAX_NODES],
    pub map: [u8; MAX_NODES],
    pub recorded: u8,
}

extern "C" {
    fn calls_panel_size() -> usize;
    fn calls_panel_enter(panel: *mut LentPanel, n: usize, flags: *const u8, count: usize) -> i32;
    fn calls_panel_start(panel: *mut LentPanel, n: usize, flags: *const u8, count: usize) -> i32;
    fn calls_panel_step(panel: *mut LentPanel, kind: usize, i: usize, j: usize) -> i32;
    fn calls_panel_is_sound(panel: *mut LentPanel) -> i32;
}

impl LentPanel {
    /// How many bytes stand for marks.
    pub const MARKS: usize = 2 * MAX_NODES;

    /// The k-th of them, node by node: its firmware's, its map's.
    pub fn mark(&mut self, k: usize) -> &mut u8 {
        match k % 2 {
            0 => &mut self.firmware[k / 2],
            _ => &mut self.map[k / 2],
        }
    }

    /// How many bytes stand for marks, the record and the ring's truths.
    pub const BYTES: usize = Self::MARKS + 1 + LentRing::FLAGS;

    /// The k-th of them, and the greatest that it may be.
    pub fn byte(&mut self, k: usize) -> (&mut u8, u8) {
        match k.checked_sub(Self::MARKS) {
            None => (self.mark(k), 1),
            Some(0) => (&mut self.recorded, 2),
            Some(k) => (self.ring.flag(k - 1), 1),
        }
    }

    pub fn of(panel: &Panel) -> Self {
        // Two structs that differ in length would be read and written past their ends.
        assert_eq!(unsafe { calls_panel_size() }, size_of::<Self>());
        Self {
            ring: LentRing::of(&panel.ring),
            firmware: panel.firmware.map(byte),
            map: panel.map.map(byte),
            recorded: panel.recorded.map_or(0, |mark| 1 + byte(mark)),
        }
    }

    /// The panel that lies there; none where a byte is no truth, no mark or no record.
    pub fn panel(&self) -> Option<Panel> {
        Some(Panel {
            ring: self.ring.ring()?,
            firmware: marks(&self.firmware)?,
            map: marks(&self.map)?,
            recorded: match self.recorded {
                0 => None,
                word => Some(mark(word - 1)?),
            },
        })
    }

    /// Every byte of every field is anything.
    pub fn noise(random: &mut Rng) -> Self {
        Self {
            ring: LentRing::noise(random),
            firmware: bytes(random),
            map: bytes(random),
            recorded: random.word() as u8,
        }
    }

    /// The number of an enter's answer, 0 where it is accepted.
    pub fn enter(&mut self, n: usize, flags: &mut [u8]) -> u8 {
        // The struct is as long as the header's, and the flags as long as told; so below.
        told(unsafe { calls_panel_enter(self, n, flags.as_mut_ptr(), flags.len()) })
    }

    /// The number of a start's answer, 0 where it is accepted.
    pub fn start(&mut self, n: usize, flags: &mut [u8]) -> u8 {
        told(unsafe { calls_panel_start(self, n, flags.as_mut_ptr(), flags.len()) })
    }

    /// The number of a step's answer, 0 where it is accepted.
    pub fn step(&mut self, request: Request) -> u8 {
        let Request { kind, i, j } = request;
        told(unsafe { calls_panel_step(self, kind, i, j) })
    }

    /// 1 where the panel is sound, else 0.
    pub fn is_sound(&mut self) -> u8 {
        told(unsafe { calls_panel_is_sound(self) })
    }
}

fn told(answer: i32) -> u8 {
    u8::try_from(answer).expect("one byte")
}

fn byte(mark: Mark) -> u8 {
    match mark {
        Mark::Old => 0,
        Mark::New => 1,
    }
}

fn mark(byte: u8) -> Option<Mark> {
    match byte {
        0 => Some(Mark::Old),
        1 => Some(Mark::New),
        _ => None,
    }
}

fn marks(bytes: &[u8; MAX_NODES]) -> Option<[Mark; MAX_NODES]> {
    let mut marks = [Mark::Old; MAX_NODES];
    for (place, &byte) in marks.iter_mut().zip(bytes) {
        *place = mark(byte)?;
    }
    Some(marks)
}
