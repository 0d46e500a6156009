//! The tree by calls: starts, soundness, the six rules and messages to oneself.

use second::refusal::Refusal;
use second::request::{Request, ACK, ANNOUNCE, IDLE, LEAVE, SEND, SEND_LIMIT, TAKE};
use second::tree::{Tree, MAX_NODES, NONE};

fn start(n: usize, root: usize) -> Tree {
    Tree::start(n, root).expect("an accepted start")
}

/// Makes steps that must all be accepted.
fn after(mut tree: Tree, steps: &[(usize, usize, usize)]) -> Tree {
    for &(kind, i, j) in steps {
        assert_eq!(
            tree.step(Request::new(kind, i, j)),
            Ok(()),
            "{kind} {i} {j}"
        );
        assert!(tree.is_sound());
    }
    tree
}

/// A refused step leaves the state as it was.
fn assert_refused(tree: &Tree, (kind, i, j): (usize, usize, usize), refusal: Refusal) {
    let mut same = tree.clone();
    assert_eq!(same.step(Request::new(kind, i, j)), Err(refusal));
    assert_eq!(&same, tree);
}

#[test]
fn starts() {
    let tree = start(3, 2);
    assert!(tree.is_sound());
    assert_eq!(
        tree.engager[..4],
        [NONE, NONE, 2, NONE],
        "only the root is engaged"
    );
    let active: Vec<usize> = (0..MAX_NODES).filter(|&i| tree.active[i]).collect();
    assert_eq!(active, [2]);
    for n in [0, MAX_NODES + 1, 96, usize::MAX] {
        assert_eq!(Tree::start(n, n), Err(Refusal::NodeCount));
    }
    for n in [1, 2, MAX_NODES] {
        assert!(Tree::start(n, n - 1).is_ok());
        assert_eq!(Tree::start(n, n), Err(Refusal::UnknownNode));
        assert_eq!(Tree::start(n, usize::MAX), Err(Refusal::UnknownNode));
    }
}

/// The paper's tree of 3 with root 0.
#[test]
fn run_to_check() {
    let left = after(
        start(3, 0),
        &[
            (SEND, 0, 1),
            (TAKE, 1, 0),
            (IDLE, 0, 0),
            (IDLE, 1, 0),
            (LEAVE, 1, 0),
        ],
    );
    assert_refused(&left, (ANNOUNCE, 0, 0), Refusal::RuleFails);
    let closed = after(left, &[(ACK, 0, 0), (ANNOUNCE, 0, 0)]);
    assert!(closed.closed);
    assert_refused(&closed, (9, 99, 99), Refusal::Closed);
}

#[test]
fn engaging_message_is_acknowledged_by_leaving() {
    let engaged = after(start(3, 0), &[(SEND, 0, 1), (TAKE, 1, 0)]);
    assert_eq!((engaged.engager[1], engaged.acks[0]), (0, 0));
    assert_eq!(engaged.unacked[0], 1);
    let again = after(engaged, &[(SEND, 0, 1), (TAKE, 1, 0)]);
    assert_eq!((again.acks[0], again.unacked[0]), (1, 2));
    let to_root = after(again, &[(SEND, 1, 0), (TAKE, 0, 1)]);
    assert_eq!(to_root.engager[0], 0);
    assert_eq!((to_root.acks[1], to_root.unacked[1]), (1, 1));
    let passive = after(to_root, &[(IDLE, 1, 0)]);
    assert_refused(&passive, (LEAVE, 1, 0), Refusal::RuleFails);
    let left = after(passive, &[(ACK, 1, 0), (LEAVE, 1, 0)]);
    assert_eq!((left.engager[1], left.acks[0]), (NONE, 2));
    assert_refused(&left, (LEAVE, 1, 0), Refusal::RuleFails);
}

#[test]
fn announcing_needs_a_passive_root_without_unacked() {
    let tree = start(2, 0);
    assert_refused(&tree, (ANNOUNCE, 0, 0), Refusal::RuleFails);
    let waiting = after(tree, &[(SEND, 0, 1), (IDLE, 0, 0)]);
    assert_refused(&waiting, (ANNOUNCE, 0, 0), Refusal::RuleFails);
    after(start(1, 0), &[(IDLE, 0, 0), (ANNOUNCE, 0, 0)]);
}

#[test]
fn take_moves_one_message_of_its_pair() {
    let sent = after(start(4, 1), &[(SEND, 1, 3), (SEND, 1, 3), (SEND, 1, 0)]);
    assert_eq!(sent.sends, 3);
    assert_refused(&sent, (TAKE, 1, 3), Refusal::RuleFails);
    assert_refused(&sent, (TAKE, 3, 3), Refusal::RuleFails);
    let taken = after(sent, &[(TAKE, 3, 1)]);
    assert_eq!((taken.in_transit[1][3], taken.in_transit[1][0]), (1, 1));
    assert!(taken.active[3] && taken.engager[3] == 1);
}

#[test]
fn refusals_in_the_order_of_the_table() {
    let open = start(3, 0);
    for kind in [0, 7, usize::MAX] {
        assert_refused(&open, (kind, 99, 99), Refusal::UnknownKind);
    }
    for kind in [IDLE, ACK, LEAVE] {
        assert_refused(&open, (kind, 3, 0), Refusal::UnknownNode);
    }
    for kind in [SEND, TAKE] {
        assert_refused(&open, (kind, 3, 0), Refusal::UnknownNode);
        assert_refused(&open, (kind, 0, 3), Refusal::UnknownNode);
        assert_refused(&open, (kind, MAX_NODES, MAX_NODES), Refusal::UnknownNode);
        assert_refused(&open, (kind, usize::MAX, usize::MAX), Refusal::UnknownNode);
    }
    assert_refused(&open, (SEND, 2, 2), Refusal::RuleFails);
    assert_refused(&open, (SEND, 2, 0), Refusal::RuleFails);
    assert_refused(&open, (TAKE, 1, 0), Refusal::RuleFails);
    assert_refused(&open, (IDLE, 1, 0), Refusal::RuleFails);
    assert_refused(&open, (ACK, 0, 0), Refusal::RuleFails);
    assert_refused(&open, (LEAVE, 0, 0), Refusal::RuleFails);
    assert_refused(&open, (LEAVE, 1, 0), Refusal::RuleFails);
    // Numbers that a kind does not use are not read.
    let mut tree = open;
    assert_eq!(tree.step(Request::new(IDLE, 0, 99)), Ok(()));
    assert_refused(&tree, (LEAVE, 0, 0), Refusal::RuleFails);
    assert_eq!(tree.step(Request::new(ANNOUNCE, 99, 99)), Ok(()));
    assert_refused(&tree, (SEND, 1, 1), Refusal::Closed);
    tree.active[0] = true;
    assert_refused(&tree, (SEND, 1, 1), Refusal::Unsound);
}

#[test]
fn send_limit() {
    let mut tree = start(2, 0);
    tree.sends = 999_999;
    let tree = after(tree, &[(SEND, 0, 1)]);
    assert_refused(&tree, (SEND, 0, 1), Refusal::SendLimit);
    assert_refused(&tree, (SEND, 0, 0), Refusal::SendLimit);
    assert_refused(&tree, (SEND, 1, 0), Refusal::RuleFails);
    assert_refused(&tree, (SEND, 1, 1), Refusal::RuleFails);
    assert_refused(&tree, (SEND, 2, 2), Refusal::UnknownNode);
    let tree = after(tree, &[(TAKE, 1, 0)]);
    assert_refused(&tree, (SEND, 1, 0), Refusal::SendLimit);
    assert_refused(&tree, (SEND, 1, 1), Refusal::SendLimit);
}

/// The root 0 engaged 2, which sends to itself: it is engaged already, so that the acknowledgement sets out to itself.
#[test]
fn a_node_takes_its_own_message_and_acknowledges_itself() {
    let before = after(start(3, 0), &[(SEND, 0, 2), (TAKE, 2, 0)]);
    let mut expected = before.clone();
    expected.unacked[2] = 1;
    expected.in_transit[2][2] = 1;
    expected.sends = 2;
    let sent = after(before, &[(SEND, 2, 2)]);
    assert_eq!(sent, expected);
    assert_refused(&sent, (SEND, 1, 1), Refusal::RuleFails);
    assert_refused(&sent, (TAKE, 0, 0), Refusal::RuleFails);
    let passive = after(sent, &[(IDLE, 2, 0)]);
    assert_refused(&passive, (LEAVE, 2, 0), Refusal::RuleFails);
    expected.in_transit[2][2] = 0;
    expected.acks[2] = 1;
    let taken = after(passive, &[(TAKE, 2, 2)]);
    assert_eq!(taken, expected, "active again, its engager still 0");
    let passive = after(taken, &[(IDLE, 2, 0)]);
    assert_refused(&passive, (LEAVE, 2, 0), Refusal::RuleFails);
    expected.acks[2] = 0;
    expected.unacked[2] = 0;
    expected.active[2] = false;
    let acknowledged = after(passive, &[(ACK, 2, 0)]);
    assert_eq!(acknowledged, expected);
    assert_refused(&acknowledged, (SEND, 2, 2), Refusal::RuleFails);
    let left = after(acknowledged, &[(LEAVE, 2, 0)]);
    assert_eq!((left.engager[2], left.acks), (NONE, counts(&[(0, 1)])));
}

/// A column of zeros but for some places.
fn counts(places: &[(usize, u32)]) -> [u32; MAX_NODES] {
    let mut column = [0; MAX_NODES];
    for &(place, count) in places {
        column[place] = count;
    }
    column
}

/// The root alone: its message is sent, taken and acknowledged, before it is passive or after; then it announces.
#[test]
fn tree_of_one_that_sends_to_itself() {
    let sent = after(start(1, 0), &[(SEND, 0, 0)]);
    let mut expected = start(1, 0);
    expected.unacked[0] = 1;
    expected.in_transit[0][0] = 1;
    expected.sends = 1;
    assert_eq!(sent, expected);
    let waiting = after(sent.clone(), &[(IDLE, 0, 0)]);
    assert_refused(&waiting, (ANNOUNCE, 0, 0), Refusal::RuleFails);
    let taken = after(sent, &[(TAKE, 0, 0)]);
    expected.in_transit[0][0] = 0;
    expected.acks[0] = 1;
    assert_eq!(taken, expected);
    assert_eq!(taken, after(waiting, &[(TAKE, 0, 0)]));
    assert_refused(&taken, (TAKE, 0, 0), Refusal::RuleFails);
    let passive_last = after(taken.clone(), &[(ACK, 0, 0), (IDLE, 0, 0)]);
    let passive = after(taken, &[(IDLE, 0, 0)]);
    assert_refused(&passive, (ANNOUNCE, 0, 0), Refusal::RuleFails);
    let quiet = after(passive, &[(ACK, 0, 0)]);
    assert_eq!(quiet, passive_last);
    assert_refused(&quiet, (LEAVE, 0, 0), Refusal::RuleFails);
    assert_refused(&quiet, (SEND, 0, 0), Refusal::RuleFails);
    let closed = after(quiet, &[(ANNOUNCE, 0, 0)]);
    expected = start(1, 0);
    expected.active[0] = false;
    expected.sends = 1;
    expected.closed = true;
    assert_eq!(closed, expected);
}

fn assert_unsound(tree: &Tree, change: impl Fn(&mut Tree)) {
    let mut changed = tree.clone();
    change(&mut changed);
    assert!(!changed.is_sound(), "{changed:?}");
    assert_refused(&changed, (IDLE, 0, 0), Refusal::Unsound);
}

#[test]
fn ranges_of_a_sound_state() {
    let tree = start(3, 0);
    for n in [0, 17, usize::MAX] {
        assert_unsound(&tree, |tree| tree.n = n);
    }
    for root in [1, 3, MAX_NODES, usize::MAX] {
        assert_unsound(&tree, |tree| tree.root = root);
    }
    for engager in [3, 15, 17, usize::MAX] {
        assert_unsound(&tree, |tree| tree.engager[1] = engager);
    }
    assert_unsound(&tree, |tree| tree.engager[0] = NONE);
    assert_unsound(&tree, |tree| tree.active[3] = true);
    assert_unsound(&tree, |tree| tree.engager[3] = 0);
    assert_unsound(&tree, |tree| tree.engager[15] = 0);
    let mut counted = tree;
    counted.sends = 9;
    assert!(counted.is_sound());
    assert_unsound(&counted, |tree| {
        tree.unacked[3] = 1;
        tree.acks[3] = 1;
    });
    assert_unsound(&counted, |tree| {
        tree.unacked[0] = 1;
        tree.in_transit[0][3] = 1;
    });
    assert_unsound(&counted, |tree| {
        tree.unacked[0] = 1;
        tree.in_transit[3][0] = 1;
    });
    assert_unsound(&counted, |tree| tree.in_transit[15][15] = 1);
}

/// The root 0 engaged 1; both have messages to themselves in transit.
#[test]
fn messages_to_oneself_in_a_sound_state() {
    let mut tree = after(start(3, 0), &[(SEND, 0, 1), (TAKE, 1, 0)]);
    (tree.in_transit[0][0], tree.unacked[0]) = (2, 3);
    (tree.in_transit[1][1], tree.unacked[1]) = (4, 4);
    tree.sends = 7;
    assert!(tree.is_sound());
    tree.active[1] = false;
    assert!(tree.is_sound());
    // As many are unacknowledged as were sent, these among them.
    assert_unsound(&tree, |tree| tree.sends = 6);
    // Not counted, counted twice, one too few.
    assert_unsound(&tree, |tree| tree.unacked[1] = 0);
    assert_unsound(&tree, |tree| {
        tree.unacked[1] = 8;
        tree.sends = 11;
    });
    assert_unsound(&tree, |tree| tree.unacked[0] = 2);
    assert_unsound(&tree, |tree| tree.in_transit[0][0] = 3);
    let mut all = start(1, 0);
    (all.in_transit[0][0], all.unacked[0]) = (SEND_LIMIT, SEND_LIMIT);
    all.sends = SEND_LIMIT;
    assert!(all.is_sound());
    assert_unsound(&all, |tree| tree.in_transit[0][0] = SEND_LIMIT + 1);
    assert_unsound(&all, |tree| {
        tree.closed = true;
        tree.active[0] = false;
    });
}

/// Node 2 is not engaged: it has no messages to itself, whatever is unacknowledged of it, nor is it its own engager. Places 3 and 15 are unused.
#[test]
fn messages_to_oneself_where_none_can_be() {
    let mut tree = start(3, 0);
    tree.sends = 9;
    assert!(tree.is_sound());
    for place in [2, 3, 15] {
        assert_unsound(&tree, |tree| tree.in_transit[place][place] = 1);
        assert_unsound(&tree, |tree| {
            tree.in_transit[place][place] = 1;
            tree.unacked[place] = 1;
        });
        assert_unsound(&tree, |tree| {
            tree.in_transit[place][place] = 1;
            tree.unacked[place] = 2;
            tree.engager[place] = place;
        });
    }
}

#[test]
fn chains_and_counts_of_a_sound_state() {
    let mut tree = start(4, 0);
    tree.sends = SEND_LIMIT;
    assert!(tree.is_sound());
    assert_unsound(&tree, |tree| tree.sends = SEND_LIMIT + 1);
    assert_unsound(&tree, |tree| tree.sends = u32::MAX);
    assert_unsound(&tree, |tree| tree.active[1] = true);
    assert_unsound(&tree, |tree| tree.unacked[0] = 1);
    assert_unsound(&tree, |tree| tree.acks[0] = 1);
    assert_unsound(&tree, |tree| tree.in_transit[0][1] = 1);
    assert_unsound(&tree, |tree| tree.engager[1] = 0);
    // A node outside the tree has nothing unacknowledged, even if it would agree.
    assert_unsound(&tree, |tree| {
        tree.unacked[1] = 1;
        tree.acks[1] = 1;
    });
    // Nodes that engage each other do not reach the root.
    assert_unsound(&tree, |tree| {
        tree.engager[1] = 2;
        tree.engager[2] = 1;
        tree.unacked[1] = 1;
        tree.unacked[2] = 1;
    });
    assert_unsound(&tree, |tree| {
        tree.engager[1] = 1;
        tree.unacked[1] = 1;
    });
    // A chain that ends outside the tree.
    assert_unsound(&tree, |tree| {
        tree.engager[1] = 2;
        tree.unacked[2] = 1;
    });
    let mut chain = tree.clone();
    chain.engager[1..4].copy_from_slice(&[2, 3, 0]);
    chain.unacked[..4].copy_from_slice(&[1, 0, 1, 1]);
    assert!(chain.is_sound());
    chain.sends = 3;
    assert!(chain.is_sound());
    assert_unsound(&chain, |tree| tree.sends = 2);
    // Counts that would agree if they were cut to 32 bits.
    assert_unsound(&tree, |tree| {
        tree.in_transit[0][1] = u32::MAX;
        tree.acks[0] = 1;
    });
}

#[test]
fn closed_states() {
    let closed = after(start(2, 1), &[(IDLE, 1, 0), (ANNOUNCE, 0, 0)]);
    assert_unsound(&closed, |tree| tree.active[1] = true);
    let mut open = start(2, 1);
    open.closed = true;
    assert!(!open.is_sound());
}
