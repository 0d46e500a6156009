//! Rings that the tests begin with.

use second::refusal::Refusal;
use second::request::Request;
use second::ring::Ring;

pub const ACTIVE: u8 = 1;
/// Not every test file has a black node.
#[allow(dead_code)]
pub const BLACK: u8 = 2;

pub fn start(flags: &[u8]) -> Ring {
    Ring::start(flags.len(), flags).expect("an accepted start")
}

/// Makes steps that must all be accepted.
pub fn after(mut ring: Ring, steps: &[(usize, usize, usize)]) -> Ring {
    for &(kind, i, j) in steps {
        assert_eq!(
            ring.step(Request::new(kind, i, j)),
            Ok(()),
            "{kind} {i} {j}"
        );
        assert!(ring.is_sound());
    }
    ring
}

/// A refused step leaves the state as it was.
pub fn assert_refused(ring: &Ring, (kind, i, j): (usize, usize, usize), refusal: Refusal) {
    let mut same = ring.clone();
    assert_eq!(same.step(Request::new(kind, i, j)), Err(refusal));
    assert_eq!(&same, ring);
}
