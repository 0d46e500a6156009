//! The ring by calls: starts, soundness, the six rules, takes of several messages, messages to oneself and the driver.

use second::refusal::Refusal;
use second::request::{Request, ANNOUNCE, IDLE, PASS, PROBE, SEND, SEND_LIMIT, TAKE};
use second::ring::{Drive, Reason, Ring, Token, MAX_NODES, MOVE_LIMIT, TAKE_LIMIT};

mod common;

use common::{after, assert_refused, start, ACTIVE, BLACK};

fn driven(ring: &Ring, limit: usize) -> (Drive, Ring) {
    let mut ring = ring.clone();
    let drive = ring.drive(limit).expect("an accepted drive");
    (drive, ring)
}

fn drive(reason: Reason, moves: u32) -> Drive {
    Drive { reason, moves }
}

#[test]
fn start_sets_flags_and_token() {
    let ring = start(&[0, 1, 2, 3, 0, 0, 0, 0, 2, 1]);
    let active: Vec<usize> = (0..MAX_NODES).filter(|&i| ring.active[i]).collect();
    assert_eq!(active, [1, 3, 9]);
    assert_eq!(ring.color, [0b1100, 1, 0, 0, 0, 0, 0, 0, 0, 0, 0, 0]);
    assert_eq!(
        ring.token,
        Token {
            pos: 0,
            q: 0,
            black: true
        }
    );
    assert_eq!(ring.sent, [0; MAX_NODES]);
    assert_eq!(ring.received, [0; MAX_NODES]);
    assert_eq!(ring.pending, [0; MAX_NODES]);
    assert!(!ring.closed && ring.is_sound());
    assert_eq!(ring.black_nodes(), 3);
}

#[test]
fn start_refuses_sizes_then_flags() {
    for n in [0, MAX_NODES + 1, 1 << 32 | 1, usize::MAX] {
        assert_eq!(Ring::start(n, &[9]), Err(Refusal::NodeCount));
    }
    for n in [1, 2, MAX_NODES - 1, MAX_NODES] {
        assert!(Ring::start(n, &vec![3; n]).is_ok());
        assert_eq!(Ring::start(n, &vec![0; n - 1]), Err(Refusal::StartFlags));
        assert_eq!(Ring::start(n, &vec![0; n + 1]), Err(Refusal::StartFlags));
        assert_eq!(Ring::start(n, &vec![4; n]), Err(Refusal::StartFlags));
    }
    assert_eq!(Ring::start(3, &[0, 0, 255]), Err(Refusal::StartFlags));
}

/// The paper's first run: the listing, four moves, the bound for N = 2.
#[test]
fn listing_by_calls() {
    let first = start(&[0, BLACK]);
    assert_refused(&first, (ANNOUNCE, 0, 0), Refusal::RuleFails);
    let one_round = after(first, &[(PROBE, 0, 0), (PASS, 1, 0)]);
    assert!(one_round.token.black && !one_round.is_black(1));
    assert_refused(&one_round, (ANNOUNCE, 0, 0), Refusal::RuleFails);
    let closed = after(one_round, &[(PROBE, 0, 0), (PASS, 1, 0), (ANNOUNCE, 0, 0)]);
    assert!(closed.closed);
    assert_refused(&closed, (PASS, 1, 0), Refusal::Closed);
}

/// The second run: quiet at holder 1, then 7 moves.
#[test]
fn receipt_behind_the_token_takes_seven_moves() {
    let quiet = after(
        start(&[0, ACTIVE, 0]),
        &[
            (PROBE, 0, 0),
            (PASS, 2, 0),
            (SEND, 1, 2),
            (TAKE, 2, 1),
            (IDLE, 1, 0),
            (IDLE, 2, 0),
        ],
    );
    assert_eq!(quiet.token.pos, 1);
    assert_eq!((quiet.counter(1), quiet.counter(2)), (1, -1));
    assert_eq!(driven(&quiet, 7).0, drive(Reason::Conclusive, 7));
    assert_eq!(driven(&quiet, MOVE_LIMIT).0, drive(Reason::Conclusive, 7));
    assert_eq!(driven(&quiet, 6).0, drive(Reason::Spent, 6));
}

/// The third run: then 5 moves.
#[test]
fn receipt_before_the_token_takes_five_moves() {
    let quiet = after(
        start(&[ACTIVE, 0, ACTIVE]),
        &[
            (PROBE, 0, 0),
            (SEND, 2, 0),
            (TAKE, 0, 1),
            (IDLE, 0, 0),
            (IDLE, 2, 0),
        ],
    );
    assert_eq!(quiet.token.pos, 2);
    assert_eq!(driven(&quiet, 5).0, drive(Reason::Conclusive, 5));
    assert_eq!(driven(&quiet, 4).0, drive(Reason::Spent, 4));
}

#[test]
fn ring_of_one() {
    let first = start(&[0]);
    assert_refused(&first, (ANNOUNCE, 0, 0), Refusal::RuleFails);
    let probed = after(first, &[(PROBE, 0, 0)]);
    assert_refused(&probed, (PROBE, 0, 0), Refusal::RuleFails);
    assert_refused(&probed, (PASS, 0, 0), Refusal::RuleFails);
    after(probed, &[(ANNOUNCE, 0, 0)]);
}

/// A ring of one with a message of its own: sent, taken, quiet, one token move, announced.
#[test]
fn ring_of_one_that_sends_to_itself() {
    let steps = [(SEND, 0, 0), (TAKE, 0, 1), (IDLE, 0, 0)];
    let quiet = after(start(&[ACTIVE]), &steps);
    let mut expected = start(&[BLACK]);
    (expected.sent[0], expected.received[0]) = (1, 1);
    assert_eq!(quiet, expected);
    assert_refused(&quiet, (ANNOUNCE, 0, 0), Refusal::RuleFails);
    assert_eq!(driven(&quiet, 1).0, drive(Reason::Conclusive, 1));
    let probed = after(quiet, &[(PROBE, 0, 0)]);
    assert_refused(&probed, (PROBE, 0, 0), Refusal::RuleFails);
    let closed = after(probed, &[(ANNOUNCE, 0, 0)]);
    expected.color[0] = 0;
    expected.token.black = false;
    expected.closed = true;
    assert_eq!(closed, expected);
    assert_refused(&closed, (SEND, 0, 0), Refusal::Closed);
}

/// While its message is on its way the sum is 1: the token goes round, and nothing is announced, the node being passive or not.
#[test]
fn ring_of_one_with_a_message_on_its_way() {
    let sent = after(start(&[ACTIVE]), &[(SEND, 0, 0)]);
    let (answer, driven) = driven(&sent, 5);
    assert_eq!(answer, drive(Reason::Spent, 5));
    assert!(!driven.token.black && driven.active[0]);
    assert_refused(&driven, (ANNOUNCE, 0, 0), Refusal::RuleFails);
    let passive = after(driven, &[(IDLE, 0, 0), (PROBE, 0, 0)]);
    assert_refused(&passive, (ANNOUNCE, 0, 0), Refusal::RuleFails);
    assert_refused(&passive, (SEND, 0, 0), Refusal::RuleFails);
    after(
        passive,
        &[(TAKE, 0, 1), (IDLE, 0, 0), (PROBE, 0, 0), (ANNOUNCE, 0, 0)],
    );
}

/// Every state of a ring of one that runs from its four starts with at most `sends` sends and no announcement reach.
fn rings_of_one(sends: u64) -> Vec<Ring> {
    let mut found: Vec<Ring> = (0..4).map(|flag| start(&[flag])).collect();
    let mut at = 0;
    while at < found.len() {
        for kind in SEND..ANNOUNCE {
            let j = usize::from(kind == TAKE);
            let mut next = found[at].clone();
            let spent = kind == SEND && next.sends() == sends;
            if !spent && next.step(Request::new(kind, 0, j)).is_ok() && !found.contains(&next) {
                found.push(next);
            }
        }
        at += 1;
    }
    found
}

/// With 0 to 3 messages sent and taken: token and node are both white, or not yet. With none the node may be white while the token is
/// black; with one or more it may be black while the token is white, and only a probe makes it white: three states each.
#[test]
fn a_quiet_ring_of_one_needs_one_token_move_at_most() {
    let mut all = rings_of_one(3);
    all.retain(|ring| !ring.active[0] && ring.in_transit() == 0);
    assert_eq!(all.len(), 4 * 3);
    for quiet in all {
        let both_white = !quiet.token.black && !quiet.is_black(0);
        let moves = u32::from(!both_white);
        let answer = driven(&quiet, MOVE_LIMIT).0;
        assert_eq!(answer, drive(Reason::Conclusive, moves), "{quiet:?}");
    }
}

#[test]
fn driver_on_the_first_start() {
    let first = start(&[0, BLACK]);
    let (answer, state) = driven(&first, 0);
    assert_eq!(answer, drive(Reason::Spent, 0));
    assert_eq!(state, first);
    let (answer, state) = driven(&first, 3);
    assert_eq!(answer, drive(Reason::Spent, 3));
    let moves = [(PROBE, 0, 0), (PASS, 1, 0), (PROBE, 0, 0)];
    assert_eq!(state, after(first.clone(), &moves));
    let (answer, state) = driven(&first, 4);
    assert_eq!(answer, drive(Reason::Conclusive, 4));
    assert!(!state.closed);
    assert_eq!(driven(&state, 0).0, drive(Reason::Conclusive, 0));
}

#[test]
fn driver_waits_for_an_active_holder() {
    let ring = start(&[0, ACTIVE, 0]);
    let (answer, state) = driven(&ring, MOVE_LIMIT);
    assert_eq!(answer, drive(Reason::Waiting, 2));
    assert_eq!(state, after(ring, &[(PROBE, 0, 0), (PASS, 2, 0)]));
    assert_eq!(driven(&state, 0).0, drive(Reason::Waiting, 0));
}

/// An active node 0 after a white round with the sum 0: neither conclusive nor a move.
#[test]
fn driver_waits_for_an_active_node_zero() {
    let (answer, _) = driven(&start(&[ACTIVE, 0]), MOVE_LIMIT);
    assert_eq!(answer, drive(Reason::Waiting, 2));
}

/// A message in transit keeps the sum above 0, so the token goes round until it is spent.
#[test]
fn driver_probes_again_for_a_sum_above_zero() {
    let ring = after(
        start(&[ACTIVE, 0, 0]),
        &[(SEND, 0, 1), (IDLE, 0, 0), (PROBE, 0, 0)],
    );
    let (answer, state) = driven(&ring, MOVE_LIMIT);
    assert_eq!(answer, drive(Reason::Spent, MOVE_LIMIT as u32));
    // 2 passes and a probe are one round of 3 moves: 1,000 moves end after one pass.
    assert_eq!(state.token.pos, 1);
}

#[test]
fn driver_refusals_in_order() {
    let mut ring = start(&[0, 0]);
    for limit in [MOVE_LIMIT + 1, 1 << 32, 1 << 32 | 5, usize::MAX] {
        assert_eq!(ring.drive(limit), Err(Refusal::MoveLimit));
    }
    assert_eq!(ring, start(&[0, 0]));
    let mut closed = after(
        ring.clone(),
        &[(PROBE, 0, 0), (PASS, 1, 0), (ANNOUNCE, 0, 0)],
    );
    assert_eq!(closed.drive(MOVE_LIMIT + 1), Err(Refusal::Closed));
    closed.active[0] = true;
    assert_eq!(closed.drive(MOVE_LIMIT + 1), Err(Refusal::Unsound));
}

#[test]
fn bound_of_every_size() {
    // All nodes white but N - 1, token black at 0: a round that stays black, one that
    // turns white. Each round is N moves.
    for n in 1..=MAX_NODES {
        let mut flags = vec![0; n];
        flags[n - 1] = BLACK;
        let moves = if n == 1 { 1 } else { 2 * n as u32 };
        let answer = driven(&start(&flags), MOVE_LIMIT).0;
        assert_eq!(answer, drive(Reason::Conclusive, moves), "N = {n}");
    }
}

#[test]
fn send_raises_two_counts_and_no_color() {
    let before = start(&[ACTIVE, 0, 0]);
    let mut expected = before.clone();
    expected.sent[0] = 1;
    expected.pending[2] = 1;
    assert_eq!(after(before, &[(SEND, 0, 2)]), expected);
}

#[test]
fn a_node_sends_to_itself_and_takes_it() {
    let before = start(&[ACTIVE, 0, ACTIVE]);
    let mut expected = before.clone();
    expected.sent[2] = 1;
    expected.pending[2] = 1;
    let sent = after(before, &[(SEND, 2, 2)]);
    assert_eq!(sent, expected);
    assert_eq!(sent.counter(2), 1);
    assert_refused(&sent, (SEND, 1, 1), Refusal::RuleFails);
    assert_refused(&sent, (TAKE, 2, 2), Refusal::RuleFails);
    expected.pending[2] = 0;
    expected.received[2] = 1;
    expected.color[0] = 0b100;
    let taken = after(sent, &[(TAKE, 2, 1)]);
    assert_eq!(taken, expected);
    let passive = after(taken, &[(IDLE, 2, 0)]);
    assert_refused(&passive, (SEND, 2, 2), Refusal::RuleFails);
}

/// A message of its own behind the token: node 2 takes it after the pass, and the colors tell.
#[test]
fn a_message_to_oneself_behind_the_token() {
    let steps = [
        (SEND, 2, 2),
        (PROBE, 0, 0),
        (IDLE, 2, 0),
        (PASS, 2, 0),
        (TAKE, 2, 1),
        (IDLE, 2, 0),
    ];
    let quiet = after(start(&[0, 0, ACTIVE]), &steps);
    assert_eq!(
        (quiet.token.pos, quiet.token.q, quiet.counter(2)),
        (1, 1, 0)
    );
    assert!(!quiet.token.black && quiet.is_black(2));
    assert_eq!(driven(&quiet, MOVE_LIMIT).0, drive(Reason::Conclusive, 7));
}

#[test]
fn take_blackens_and_activates() {
    let before = after(start(&[ACTIVE, 0]), &[(SEND, 0, 1)]);
    let mut expected = before.clone();
    expected.pending[1] = 0;
    expected.received[1] = 1;
    expected.active[1] = true;
    expected.color[0] = 0b10;
    assert_eq!(after(before, &[(TAKE, 1, 1)]), expected);
}

/// Node 0 has sent so many messages to node 1, one of which is taken.
fn with_pending(pending: u32) -> Ring {
    let mut ring = start(&[ACTIVE, 0]);
    ring.sent[0] = pending + 1;
    ring.received[1] = 1;
    ring.pending[1] = pending;
    assert!(ring.is_sound());
    ring
}

#[test]
fn take_of_several_moves_them_all() {
    let before = with_pending(7);
    let mut expected = before.clone();
    expected.pending[1] = 2;
    expected.received[1] = 6;
    expected.active[1] = true;
    expected.color[0] = 0b10;
    assert_eq!(after(before, &[(TAKE, 1, 5)]), expected);
    assert_refused(&expected, (TAKE, 1, 3), Refusal::RuleFails);
    let emptied = after(expected, &[(TAKE, 1, 2)]);
    assert_eq!((emptied.pending[1], emptied.received[1]), (0, 8));
    assert_eq!((emptied.counter(0), emptied.counter(1)), (8, -8));
}

#[test]
fn take_of_several_is_as_many_takes_in_a_row() {
    for messages in 1..=9 {
        let singly = after(with_pending(9), &vec![(TAKE, 1, 1); messages]);
        assert_eq!(after(with_pending(9), &[(TAKE, 1, messages)]), singly);
    }
    assert_refused(&with_pending(9), (TAKE, 1, 10), Refusal::RuleFails);
}

#[test]
fn take_refuses_numbers_outside_its_range() {
    let ring = with_pending(1_500);
    let wide = [1 << 32, 1 << 32 | 1, 1 << 32 | 5, usize::MAX];
    for messages in [0, TAKE_LIMIT + 1, 1_500, 1_501].into_iter().chain(wide) {
        assert_refused(&ring, (TAKE, 1, messages), Refusal::RuleFails);
        // A node of N or more is told first, and the number is no node.
        assert_refused(&ring, (TAKE, 2, messages), Refusal::UnknownNode);
    }
    let ring = after(ring, &[(TAKE, 1, TAKE_LIMIT)]);
    assert_eq!((ring.pending[1], ring.received[1]), (500, 1_001));
    assert_refused(&ring, (TAKE, 1, 501), Refusal::RuleFails);
    assert_refused(&ring, (TAKE, 1, TAKE_LIMIT), Refusal::RuleFails);
    after(ring, &[(TAKE, 1, 500)]);
}

/// A take is never refused with 9, and closed and unsound states are told before its number.
#[test]
fn take_of_several_in_the_order_of_the_table() {
    let mut ring = with_pending(5);
    ring.sent[0] = SEND_LIMIT;
    ring.received[1] = SEND_LIMIT - 5;
    let ring = after(ring, &[(TAKE, 1, 5)]);
    assert_eq!((ring.received[1], ring.pending[1]), (SEND_LIMIT, 0));
    let closed = after(start(&[0]), &[(PROBE, 0, 0), (ANNOUNCE, 0, 0)]);
    assert_refused(&closed, (TAKE, 0, 0), Refusal::Closed);
    let mut unsound = with_pending(5);
    unsound.pending[1] = 6;
    assert_refused(&unsound, (TAKE, 1, 0), Refusal::Unsound);
}

/// Five messages behind the token are taken at once: their counters add up to 0, and the colors tell.
#[test]
fn take_of_several_behind_the_token() {
    let mut steps = vec![(PROBE, 0, 0), (PASS, 2, 0)];
    steps.extend([(SEND, 1, 2); 5]);
    steps.extend([(TAKE, 2, 5), (IDLE, 1, 0), (PASS, 1, 0)]);
    let ring = after(start(&[0, ACTIVE, 0]), &steps);
    assert_eq!((ring.token.q, ring.counter(2)), (5, -5));
    assert_refused(&ring, (ANNOUNCE, 0, 0), Refusal::RuleFails);
    let quiet = after(ring, &[(IDLE, 2, 0)]);
    assert_eq!(driven(&quiet, MOVE_LIMIT).0, drive(Reason::Conclusive, 6));
}

#[test]
fn probe_needs_one_of_three_reasons() {
    let mut ring = start(&[ACTIVE, 0]);
    ring.token.black = false;
    assert_refused(&ring, (PROBE, 0, 0), Refusal::RuleFails);
    let mut black_token = ring.clone();
    black_token.token.black = true;
    let mut black_zero = ring.clone();
    black_zero.color[0] = 1;
    let positive = after(ring, &[(SEND, 0, 1)]);
    for allowed in [black_token, black_zero, positive] {
        let mut expected = allowed.clone();
        expected.color[0] = 0;
        expected.token = Token {
            pos: 1,
            q: 0,
            black: false,
        };
        assert_eq!(after(allowed, &[(PROBE, 0, 0)]), expected);
    }
}

#[test]
fn pass_adds_the_counter_and_keeps_black() {
    let ring = after(
        start(&[ACTIVE, ACTIVE, 0, BLACK]),
        &[
            (SEND, 1, 0),
            (SEND, 1, 0),
            (PROBE, 0, 0),
            (PASS, 3, 0),
            (PASS, 2, 0),
        ],
    );
    assert!(ring.token.black && ring.token.q == 0);
    assert_refused(&ring, (PASS, 1, 0), Refusal::RuleFails);
    assert_refused(&ring, (PASS, 2, 0), Refusal::RuleFails);
    let ring = after(ring, &[(IDLE, 1, 0), (PASS, 1, 0)]);
    assert_eq!(
        ring.token,
        Token {
            pos: 0,
            q: 2,
            black: true
        }
    );
}

#[test]
fn refusals_in_the_order_of_the_table() {
    let open = start(&[ACTIVE, 0, 0]);
    assert_refused(&open, (0, 99, 99), Refusal::UnknownKind);
    assert_refused(&open, (7, 99, 99), Refusal::UnknownKind);
    assert_refused(&open, (usize::MAX, 0, 0), Refusal::UnknownKind);
    for kind in [TAKE, IDLE, PASS] {
        assert_refused(&open, (kind, 3, 0), Refusal::UnknownNode);
        assert_refused(&open, (kind, usize::MAX, 0), Refusal::UnknownNode);
    }
    assert_refused(&open, (SEND, 3, 3), Refusal::UnknownNode);
    assert_refused(&open, (SEND, 0, 3), Refusal::UnknownNode);
    assert_refused(&open, (SEND, 3, 0), Refusal::UnknownNode);
    assert_refused(&open, (SEND, 2, 2), Refusal::RuleFails);
    assert_refused(&open, (SEND, 2, 0), Refusal::RuleFails);
    assert_refused(&open, (TAKE, 1, 1), Refusal::RuleFails);
    assert_refused(&open, (IDLE, 1, 0), Refusal::RuleFails);
    assert_refused(&open, (PASS, 0, 0), Refusal::RuleFails);
    // Numbers that a kind does not use are not read.
    let mut ring = open.clone();
    assert_eq!(ring.step(Request::new(IDLE, 0, 99)), Ok(()));
    assert_eq!(ring.step(Request::new(PROBE, 99, 99)), Ok(()));
    let closed = after(start(&[0]), &[(PROBE, 0, 0), (ANNOUNCE, 0, 0)]);
    assert_refused(&closed, (9, 0, 0), Refusal::Closed);
    assert_refused(&closed, (SEND, 5, 5), Refusal::Closed);
    let mut unsound = closed;
    unsound.active[0] = true;
    assert_refused(&unsound, (9, 0, 0), Refusal::Unsound);
}

/// By calls, on a sound state with 999,999 accepted sends.
#[test]
fn send_limit() {
    let mut ring = start(&[ACTIVE, 0]);
    ring.sent[0] = SEND_LIMIT - 1;
    ring.received[1] = SEND_LIMIT - 2;
    ring.pending[1] = 1;
    assert!(ring.is_sound());
    let ring = after(ring, &[(SEND, 0, 1)]);
    assert_refused(&ring, (SEND, 0, 1), Refusal::SendLimit);
    assert_refused(&ring, (SEND, 0, 0), Refusal::SendLimit);
    assert_refused(&ring, (SEND, 1, 0), Refusal::RuleFails);
    assert_refused(&ring, (SEND, 1, 1), Refusal::RuleFails);
    assert_refused(&ring, (SEND, 2, 2), Refusal::UnknownNode);
    let ring = after(ring, &[(TAKE, 1, 1), (TAKE, 1, 1)]);
    assert_eq!((ring.received[1], ring.pending[1]), (SEND_LIMIT, 0));
    assert_refused(&ring, (SEND, 1, 0), Refusal::SendLimit);
    assert_refused(&ring, (SEND, 1, 1), Refusal::SendLimit);
}
