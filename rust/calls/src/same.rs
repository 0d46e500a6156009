//! What is compared of a ring and of a tree alike: starts, steps and soundness.

use crate::lent::{LentRing, LentTree};
use crate::{fail, proved};
use second::refusal::Refusal;
use second::request::Request;
use second::ring::Ring;
use second::tree::Tree;
use std::fmt::Debug;

/// A state as it is lent, with the second implementation's and the proved functions.
pub trait Lent: Clone + Debug + PartialEq {
    type State;

    fn of(state: &Self::State) -> Self;
    /// The state that lies there; none where a byte is no truth.
    fn state(&self) -> Option<Self::State>;

    fn second_step(state: &mut Self::State, request: Request) -> Result<(), Refusal>;
    fn second_sound(state: &Self::State) -> bool;

    fn proved_step(&mut self, request: Request) -> u8;
    fn proved_sound(&mut self) -> u8;
}

impl Lent for LentRing {
    type State = Ring;

    fn of(ring: &Ring) -> Self {
        LentRing::of(ring)
    }

    fn state(&self) -> Option<Ring> {
        self.ring()
    }

    fn second_step(ring: &mut Ring, request: Request) -> Result<(), Refusal> {
        ring.step(request)
    }

    fn second_sound(ring: &Ring) -> bool {
        ring.is_sound()
    }

    fn proved_step(&mut self, request: Request) -> u8 {
        proved::step(self, request)
    }

    fn proved_sound(&mut self) -> u8 {
        proved::is_sound(self)
    }
}

impl Lent for LentTree {
    type State = Tree;

    fn of(tree: &Tree) -> Self {
        LentTree::of(tree)
    }

    fn state(&self) -> Option<Tree> {
        self.tree()
    }

    fn second_step(tree: &mut Tree, request: Request) -> Result<(), Refusal> {
        tree.step(request)
    }

    fn second_sound(tree: &Tree) -> bool {
        tree.is_sound()
    }

    fn proved_step(&mut self, request: Request) -> u8 {
        proved::tree_step(self, request)
    }

    fn proved_sound(&mut self) -> u8 {
        proved::tree_is_sound(self)
    }
}

/// Drawn again until it differs from the state.
pub fn other<S: PartialEq>(state: &S, mut draw: impl FnMut() -> S) -> S {
    loop {
        let drawn = draw();
        if drawn != *state {
            return drawn;
        }
    }
}

/// A start into noise, which a refusal leaves.
pub fn same_start<L: Lent>(
    seed: u64,
    what: &str,
    noise: L,
    ours: Result<L::State, Refusal>,
    start: impl FnOnce(&mut L) -> u8,
) -> u8 {
    let (expected, ours) = match ours {
        Ok(state) => (0, L::of(&state)),
        Err(refusal) => (refusal.number(), noise.clone()),
    };
    let mut theirs = noise;
    let told = start(&mut theirs);
    if (u32::from(told), &theirs) != (expected, &ours) {
        fail(seed, &format!("{what} told {told}, expected {expected}"));
    }
    told
}

/// The second implementation's answer; a byte that is no truth is an unsound state.
pub fn same_step<L: Lent>(seed: u64, lent: &L, request: Request) -> u8 {
    let (expected, ours) = match lent.state() {
        None => (Refusal::Unsound.number(), lent.clone()),
        Some(mut next) => {
            let told = L::second_step(&mut next, request).map_or_else(Refusal::number, |()| 0);
            (told, L::of(&next))
        }
    };
    let mut theirs = lent.clone();
    let told = theirs.proved_step(request);
    if (u32::from(told), &theirs) != (expected, &ours) {
        fail(
            seed,
            &format!("{request:?} told {told}, expected {expected}, of {lent:?}"),
        );
    }
    told
}

pub fn same_soundness<L: Lent>(seed: u64, lent: &L) -> u8 {
    let expected = lent.state().is_some_and(|state| L::second_sound(&state));
    let mut theirs = lent.clone();
    let told = theirs.proved_sound();
    if (told, &theirs) != (u8::from(expected), lent) {
        fail(seed, &format!("soundness of {lent:?}"));
    }
    told
}
