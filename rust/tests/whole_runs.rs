//! Whole runs of random requests: soundness is kept, and the outline's demand 3.

use second::generate::Rng;
use second::request::{Request, ACK, ANNOUNCE, IDLE, LEAVE, PASS, PROBE, SEND};
use second::ring::{Reason, Ring, MOVE_LIMIT};
use second::tree::Tree;

/// Any request, no send where none is wanted; of the sends every third is to oneself at least.
fn random_request(rng: &mut Rng, n: usize, sends: bool) -> Request {
    let kind = rng.below(8);
    let kind = if kind == SEND && !sends { IDLE } else { kind };
    let (i, j) = (rng.below(n + 1), rng.below(n + 1));
    let to_oneself = kind == SEND && rng.below(3) == 0;
    Request::new(kind, i, if to_oneself { i } else { j })
}

fn is_to_oneself(request: Request) -> bool {
    request.kind == SEND && request.i == request.j
}

fn ring_is_quiet(ring: &Ring) -> bool {
    !ring.active.contains(&true) && ring.in_transit() == 0
}

fn tree_is_quiet(tree: &Tree) -> bool {
    !tree.active.contains(&true) && tree.in_transit.iter().flatten().all(|&count| count == 0)
}

/// Every request that could come next and is accepted.
fn ring_accepts(ring: &Ring) -> Vec<Request> {
    all_requests(ring.n)
        .filter(|&request| ring.clone().step(request).is_ok())
        .collect()
}

fn tree_accepts(tree: &Tree) -> Vec<Request> {
    all_requests(tree.n)
        .filter(|&request| tree.clone().step(request).is_ok())
        .collect()
}

fn all_requests(n: usize) -> impl Iterator<Item = Request> {
    (0..8).flat_map(move |kind| {
        (0..=n).flat_map(move |i| (0..=n).map(move |j| Request::new(kind, i, j)))
    })
}

/// From a quiet state to the announcement: at each point only a token move or only the
/// announcement, at most 3N - 2 moves.
fn check_quiet_ring(mut ring: Ring) {
    let mut driven = ring.clone();
    let drive = driven.drive(MOVE_LIMIT).expect("an open sound state");
    let mut moves = 0;
    while !ring.is_conclusive() {
        let accepted = ring_accepts(&ring);
        assert!(!accepted.is_empty());
        assert!(accepted
            .iter()
            .all(|request| [PROBE, PASS].contains(&request.kind)));
        ring.step(accepted[0]).expect("an accepted request");
        moves += 1;
    }
    assert!(moves <= 3 * ring.n as u32 - 2);
    assert_eq!((drive.reason, drive.moves), (Reason::Conclusive, moves));
    assert_eq!(driven, ring);
    assert!(ring_accepts(&ring)
        .iter()
        .all(|request| request.kind == ANNOUNCE));
    ring.step(Request::new(ANNOUNCE, 0, 0))
        .expect("the announcement");
    assert!(ring_accepts(&ring).is_empty());
}

/// From a quiet state to the announcement: A + 2E acknowledgements and leavings in any order.
fn check_quiet_tree(mut tree: Tree, rng: &mut Rng) {
    let engaged = (0..tree.n).filter(|&i| i != tree.root && tree.is_engaged(i));
    let mut left = tree.acks_in_transit() + 2 * engaged.count() as u64;
    while left > 0 {
        let accepted = tree_accepts(&tree);
        assert!(!accepted.is_empty());
        assert!(accepted
            .iter()
            .all(|request| [ACK, LEAVE].contains(&request.kind)));
        tree.step(rng.pick(&accepted)).expect("an accepted request");
        left -= 1;
    }
    let accepted = tree_accepts(&tree);
    assert!(!accepted.is_empty());
    assert!(accepted.iter().all(|request| request.kind == ANNOUNCE));
}

#[test]
fn rings() {
    let mut rng = Rng::new(11);
    let (mut quiet, mut own, mut alone) = (0, 0, 0);
    for _ in 0..1_000 {
        let n = 1 + rng.below(5);
        let flags: Vec<u8> = (0..n).map(|_| rng.below(4) as u8).collect();
        let mut ring = Ring::start(n, &flags).expect("an accepted start");
        for k in 0..120 {
            let before = ring.clone();
            let request = random_request(&mut rng, n, k < 30);
            let accepted = ring.step(request).is_ok();
            assert!(ring.is_sound());
            assert!(accepted || ring == before);
            own += usize::from(accepted && is_to_oneself(request));
            if accepted && request.kind == ANNOUNCE {
                assert!(ring_is_quiet(&ring));
            }
            if ring_is_quiet(&ring) && !ring.closed && (n == 1 || rng.chance(3)) {
                check_quiet_ring(ring.clone());
                quiet += 1;
                alone += usize::from(n == 1 && ring.sends() > 0);
            }
        }
    }
    assert!(quiet > 200, "{quiet}");
    assert!(own > 200 && alone > 150, "{own} {alone}");
}

#[test]
fn trees() {
    let mut rng = Rng::new(12);
    let (mut quiet, mut own, mut alone) = (0, 0, 0);
    for _ in 0..1_000 {
        let n = 1 + rng.below(5);
        let mut tree = Tree::start(n, rng.below(n)).expect("an accepted start");
        for k in 0..150 {
            let before = tree.clone();
            let request = random_request(&mut rng, n, k < 30);
            let accepted = tree.step(request).is_ok();
            assert!(tree.is_sound());
            assert!(accepted || tree == before);
            own += usize::from(accepted && is_to_oneself(request));
            if accepted && request.kind == ANNOUNCE {
                assert!(tree_is_quiet(&tree) && tree_accepts(&tree).is_empty());
            }
            if tree_is_quiet(&tree) && !tree.closed && rng.chance(30) {
                check_quiet_tree(tree.clone(), &mut rng);
                quiet += 1;
                alone += usize::from(n == 1 && tree.sends > 0);
            }
        }
    }
    assert!(quiet > 200, "{quiet}");
    assert!(own > 200 && alone > 150, "{own} {alone}");
}
