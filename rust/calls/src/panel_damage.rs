//! Panels that are not sound by little, known from how they are made: refused by every call. And every value of each byte that stands for a mark,
//! the record or a truth.

use crate::fail;
use crate::lent::LentRing;
use crate::lent_panel::LentPanel;
use crate::panel_runs::{no_word, other};
use crate::rings::{broken, FIELDS};
use crate::same_panels::{same_soundness, same_start, same_step};
use second::bounds::calls::BROKEN;
use second::bounds::panels::{DAMAGED, NO_MARK, WHOLE};
use second::generate::Rng;
use second::panel::{Panel, CLOSE};
use second::report::Report;
use second::request::{Request, IDLE, SEND_LIMIT, TAKE};
use second::ring::MAX_NODES;
use second::sends::ring_with_sends;

/// A damage to a sound panel; where there is none of its kind, none is made.
struct Damage {
    name: &'static str,
    make: fn(&Panel, &mut Rng) -> Option<LentPanel>,
}

const fn damage(name: &'static str, make: fn(&Panel, &mut Rng) -> Option<LentPanel>) -> Damage {
    Damage { name, make }
}

const DAMAGES: [Damage; 12] = [
    damage("an unused mark new", |panel, random| {
        let unused = MAX_NODES - panel.ring.n;
        let any = random.below(unused.max(1));
        let i = MAX_NODES - 1 - random.pick(&[0, unused.saturating_sub(1), any]);
        let mut lent = LentPanel::of(panel);
        *lent.mark(2 * i + random.below(2)) = 1;
        (unused > 0).then_some(lent)
    }),
    damage("a record while open", |panel, random| {
        let mut lent = LentPanel::of(panel);
        lent.recorded = 1 + random.below(2) as u8;
        (!panel.ring.closed).then_some(lent)
    }),
    damage("no record when closed", |panel, _| {
        let mut lent = LentPanel::of(panel);
        lent.recorded = 0;
        panel.ring.closed.then_some(lent)
    }),
    damage("the other record when closed", |panel, _| {
        let recorded = panel.recorded.map(other);
        recorded?;
        Some(LentPanel::of(&Panel {
            recorded,
            ..panel.clone()
        }))
    }),
    damage("one mark unlike the record", |panel, random| {
        let n = panel.ring.n;
        let any = random.below(n);
        let mut lent = LentPanel::of(panel);
        *lent.mark(2 * random.pick(&[0, n - 1, any]) + random.below(2)) ^= 1;
        panel.ring.closed.then_some(lent)
    }),
    damage("opened by hand", |panel, _| {
        let mut lent = LentPanel::of(panel);
        lent.ring.closed = 0;
        panel.ring.closed.then_some(lent)
    }),
    damage("closed by hand without a record", |panel, _| {
        let mut lent = LentPanel::of(panel);
        lent.ring.closed = 1;
        (panel.ring.is_conclusive() && !panel.ring.closed).then_some(lent)
    }),
    damage("closed by hand with unequal marks", |panel, random| {
        let stuck = panel.ring.is_conclusive() && panel.agreed().is_none();
        let mut lent = LentPanel::of(panel);
        lent.ring.closed = 1;
        lent.recorded = 1 + random.below(2) as u8;
        stuck.then_some(lent)
    }),
    damage("a mark above 1", |panel, random| {
        let mut lent = LentPanel::of(panel);
        let above = 2 + random.below(254) as u8;
        *lent.mark(random.below(LentPanel::MARKS)) = random.pick(&[2, above]);
        Some(lent)
    }),
    damage("a record above 2", |panel, random| {
        let mut lent = LentPanel::of(panel);
        let above = 3 + random.below(253) as u8;
        lent.recorded = random.pick(&[3, above]);
        Some(lent)
    }),
    damage("a byte of its ring above 1 for a truth", |panel, random| {
        let mut lent = LentPanel::of(panel);
        let above = 2 + random.below(254) as u8;
        *lent.ring.flag(random.below(LentRing::FLAGS)) = random.pick(&[2, above]);
        Some(lent)
    }),
    damage("one send over its limit", |panel, random| {
        let pending = random.below(5) as u32;
        let ring = ring_with_sends(panel.ring.n, SEND_LIMIT + 1, pending, random);
        let mut lent = LentPanel::of(panel);
        lent.ring = LentRing::of(&ring);
        (!panel.ring.closed).then_some(lent)
    }),
];

/// What was met of panels that are not sound.
#[derive(Default)]
pub struct Damaged {
    damaged: [usize; DAMAGES.len()],
    /// By the field of the ring that was broken alone.
    broken: [usize; FIELDS.len()],
    noise: usize,
}

impl Damaged {
    /// The panel with each damage that can be done to it.
    pub fn all(&mut self, seed: u64, panel: &Panel, random: &mut Rng) {
        for (damage, count) in DAMAGES.iter().zip(&mut self.damaged) {
            if let Some(lent) = (damage.make)(panel, random) {
                refused(seed, damage.name, &lent, random);
                *count += 1;
            }
        }
    }

    /// The panel with one field of its ring broken; whether it is sound the two implementations tell.
    pub fn broken(
        &mut self,
        seed: u64,
        panel: &Panel,
        field: usize,
        random: &mut Rng,
    ) -> LentPanel {
        let mut lent = LentPanel::of(panel);
        lent.ring = LentRing::of(&broken(&panel.ring, field, random));
        self.broken[field] += usize::from(same_soundness(seed, &lent) == 0);
        lent
    }

    pub fn noise(&mut self, seed: u64, random: &mut Rng) -> LentPanel {
        let lent = LentPanel::noise(random);
        self.noise += usize::from(same_soundness(seed, &lent) == 0);
        lent
    }

    pub fn report(&self, report: &mut Report) {
        let damages = DAMAGES
            .iter()
            .map(|damage| format!("panel: refused with 3, {}", damage.name));
        report.each_at_least(DAMAGED, damages.zip(self.damaged));
        let fields =
            FIELDS.map(|name| format!("panel: unsound with {name} of its ring broken alone"));
        report.each_at_least(BROKEN, fields.into_iter().zip(self.broken));
        report.at_least("panel: unsound by noise", self.noise, DAMAGED);
    }
}

/// Soundness, steps and starts of a panel that is not sound.
fn refused(seed: u64, what: &str, lent: &LentPanel, random: &mut Rng) {
    let n = lent.ring.n;
    let word = no_word(random);
    let kinds = [
        Request::new(IDLE, random.below(n), 0),
        Request::new(TAKE, random.below(n), 1),
        Request::new(TAKE, random.below(n), word),
        Request::new(CLOSE, 0, 0),
        Request::new(word, 0, 0),
    ];
    let step = same_step(seed, lent, random.pick(&kinds)).0;
    let flags = vec![1; n];
    let start = same_start(seed, lent, random.pick(&[n, n, n + 1, 0]), &flags).0;
    if (same_soundness(seed, lent), step, start) != (0, 3, 3) {
        fail(seed, &format!("{what}: not refused, {lent:?}"));
    }
}

/// Every value of each byte that stands for a mark, the record or a truth.
pub fn all_bytes(seed: u64, panels: &[Panel], random: &mut Rng, report: &mut Report) {
    const PLACES: usize = LentPanel::BYTES;
    let (mut unsound, mut sound) = ([0; PLACES], 0);
    for k in 0..panels.len() * PLACES * 256 {
        let (place, value) = (k / 256 % PLACES, (k % 256) as u8);
        let mut lent = LentPanel::of(&panels[k / 256 / PLACES]);
        let (byte, most) = lent.byte(place);
        *byte = value;
        if value > most {
            refused(seed, "a byte above its values", &lent, random);
            unsound[place] += 1;
        } else {
            sound += usize::from(same_soundness(seed, &lent) == 1);
        }
    }
    let fewest = unsound.into_iter().min().unwrap_or_default();
    let name = format!("panel: bytes that are no mark, record or truth, at the least met of {PLACES} places, refused by each call");
    report.at_least(name, fewest, NO_MARK);
    let name = "panel: marks, records and truths as bytes told as sound";
    report.at_least(name, sound, WHOLE);
}
