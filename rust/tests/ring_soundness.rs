//! The soundness of a ring state: each condition by itself.

mod common;

use common::{after, assert_refused, start, ACTIVE};
use second::refusal::Refusal;
use second::request::{ANNOUNCE, PASS, PROBE, SEND_LIMIT};
use second::ring::{Ring, MAX_NODES};

fn assert_unsound(ring: &Ring, change: impl Fn(&mut Ring)) {
    let mut changed = ring.clone();
    change(&mut changed);
    assert!(!changed.is_sound(), "{changed:?}");
    assert_refused(&changed, (PROBE, 0, 0), Refusal::Unsound);
}

#[test]
fn ranges_of_a_sound_state() {
    let ring = start(&[ACTIVE, 0, 0]);
    for n in [0, MAX_NODES + 1, usize::MAX] {
        assert_unsound(&ring, |ring| ring.n = n);
    }
    for pos in [3, MAX_NODES, usize::MAX] {
        assert_unsound(&ring, |ring| ring.token.pos = pos);
    }
    for place in [3, MAX_NODES - 1] {
        assert_unsound(&ring, |ring| ring.active[place] = true);
        assert_unsound(&ring, |ring| ring.color[place / 8] = 1 << (place % 8));
        assert_unsound(&ring, |ring| {
            ring.sent[place] = 1;
            ring.pending[0] = 1;
        });
        assert_unsound(&ring, |ring| {
            ring.sent[0] = 1;
            ring.received[place] = 1;
        });
        assert_unsound(&ring, |ring| {
            ring.sent[0] = 1;
            ring.pending[place] = 1;
        });
    }
}

#[test]
fn totals_of_a_sound_state() {
    let ring = start(&[ACTIVE, 0, 0]);
    assert_unsound(&ring, |ring| ring.sent[0] = 1);
    assert_unsound(&ring, |ring| ring.received[0] = 1);
    assert_unsound(&ring, |ring| ring.pending[0] = 1);
    assert_unsound(&ring, |ring| {
        ring.sent[0] = SEND_LIMIT + 1;
        ring.pending[1] = SEND_LIMIT + 1;
    });
    // These totals would agree if they were cut to 32 bits.
    assert_unsound(&ring, |ring| {
        ring.sent[0] = 1;
        ring.received = [0; MAX_NODES];
        ring.received[0] = u32::MAX;
        ring.pending[0] = 2;
    });
    assert_unsound(&ring, |ring| {
        ring.n = MAX_NODES;
        ring.sent = [u32::MAX; MAX_NODES];
        ring.received = [u32::MAX; MAX_NODES];
        ring.pending = [u32::MAX; MAX_NODES];
    });
    // A ring of one with as many messages to itself as may be.
    let mut alone = start(&[0]);
    alone.sent[0] = SEND_LIMIT;
    alone.pending[0] = SEND_LIMIT;
    assert!(alone.is_sound());
    assert_unsound(&alone, |ring| ring.sent[0] = SEND_LIMIT - 1);
    assert_unsound(&alone, |ring| ring.pending[0] = SEND_LIMIT - 1);
}

#[test]
fn range_of_q() {
    let limit = i64::from(SEND_LIMIT);
    for (pos, bound) in [(0, 2 * limit), (1, limit), (2, 0)] {
        let mut ring = start(&[0, 0, 0]);
        ring.token.pos = pos;
        for q in [bound, -bound] {
            ring.token.q = q;
            assert!(ring.is_sound());
        }
        for q in [bound + 1, -bound - 1, i64::MAX, i64::MIN] {
            assert_unsound(&ring, |ring| ring.token.q = q);
        }
    }
}

#[test]
fn safra_s_four() {
    // Node 2 lies above the token and is active, and nothing is black: none of the four.
    let mut none = start(&[0, 0, ACTIVE]);
    none.token.pos = 1;
    none.token.black = false;
    assert_unsound(&none, |_| {});
    let mut first = none.clone();
    first.active[2] = false;
    assert!(first.is_sound());
    first.token.q = -1;
    assert!(!first.is_sound());
    let mut second = none.clone();
    second.token.q = 1;
    assert!(second.is_sound());
    second.sent[0] = 1;
    second.received[1] = 1;
    assert!(second.is_sound());
    second.sent = [0; MAX_NODES];
    second.sent[2] = 1;
    // Now q + the counters of 0 and 1 is 1 - 1 = 0.
    assert!(!second.is_sound());
    for i in [0, 1] {
        let mut third = none.clone();
        third.color[0] = 1 << i;
        assert!(third.is_sound());
    }
    let mut above = none.clone();
    above.color[0] = 0b100;
    assert!(!above.is_sound());
    let mut fourth = none;
    fourth.token.black = true;
    assert!(fourth.is_sound());
}

#[test]
fn closed_states() {
    let closed = after(
        start(&[0, 0]),
        &[(PROBE, 0, 0), (PASS, 1, 0), (ANNOUNCE, 0, 0)],
    );
    assert_unsound(&closed, |ring| ring.token.black = true);
    assert_unsound(&closed, |ring| ring.color[0] = 1);
    assert_unsound(&closed, |ring| ring.active[0] = true);
    assert_unsound(&closed, |ring| ring.token.q = 1);
    assert_unsound(&closed, |ring| ring.token.pos = 1);
    let mut black_above = closed;
    black_above.color[0] = 0b10;
    assert!(black_above.is_sound());
}
