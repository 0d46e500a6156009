//! Calls on panels, each compared: its answer, and every byte that was lent.

use crate::fail;
use crate::lent_panel::LentPanel;
use second::panel::Panel;
use second::refusal::Refusal;
use second::request::Request;

/// What the second implementation answers, and what is lent after it.
fn expected(
    lent: &LentPanel,
    call: impl FnOnce(&mut Panel) -> Result<(), Refusal>,
) -> (u8, LentPanel) {
    let answer = match lent.panel() {
        None => Err(Refusal::Unsound),
        Some(mut panel) => call(&mut panel).map(|()| panel),
    };
    after(lent, answer)
}

/// A refusal leaves what was lent.
fn after(lent: &LentPanel, answer: Result<Panel, Refusal>) -> (u8, LentPanel) {
    match answer {
        Err(refusal) => (refusal.number() as u8, lent.clone()),
        Ok(panel) => (0, LentPanel::of(&panel)),
    }
}

/// Compares an answer and what was lent after it.
fn compared(
    seed: u64,
    what: &str,
    lent: &LentPanel,
    ours: (u8, LentPanel),
    call: impl FnOnce(&mut LentPanel) -> u8,
) -> (u8, LentPanel) {
    let mut theirs = lent.clone();
    let told = call(&mut theirs);
    if (told, &theirs) != (ours.0, &ours.1) {
        fail(
            seed,
            &format!("{what} told {told}, expected {}, of {lent:?}", ours.0),
        );
    }
    ours
}

/// An enter into noise.
pub fn same_enter(seed: u64, noise: &LentPanel, n: usize, flags: &[u8]) -> u8 {
    let ours = after(noise, Panel::enter(n, flags));
    let mut lent = flags.to_vec();
    let what = format!("an enter of {n} with {flags:?}");
    let (told, _) = compared(seed, &what, noise, ours, |panel| panel.enter(n, &mut lent));
    unwritten(seed, &what, flags, &lent);
    told
}

pub fn same_start(seed: u64, lent: &LentPanel, n: usize, flags: &[u8]) -> (u8, LentPanel) {
    let ours = expected(lent, |panel| panel.start(n, flags));
    let mut lent_flags = flags.to_vec();
    let what = format!("a start of {n} with {flags:?}");
    let told = compared(seed, &what, lent, ours, |panel| {
        panel.start(n, &mut lent_flags)
    });
    unwritten(seed, &what, flags, &lent_flags);
    told
}

fn unwritten(seed: u64, what: &str, flags: &[u8], lent: &[u8]) {
    if lent != flags {
        fail(seed, &format!("{what} wrote to its flags"));
    }
}

pub fn same_step(seed: u64, lent: &LentPanel, request: Request) -> (u8, LentPanel) {
    let ours = expected(lent, |panel| panel.step(request));
    let what = format!("{request:?}");
    compared(seed, &what, lent, ours, |panel| panel.step(request))
}

pub fn same_soundness(seed: u64, lent: &LentPanel) -> u8 {
    let sound = lent.panel().is_some_and(|panel| panel.is_sound());
    let ours = (u8::from(sound), lent.clone());
    let (told, _) = compared(seed, "soundness", lent, ours, LentPanel::is_sound);
    told
}
