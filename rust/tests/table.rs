//! A table of eight updates: requests.

use second::bounds::answers::OF_UPDATE;
use second::generate::Rng;
use second::independence::{Calls, Met, Pair};
use second::refusal::Refusal;
use second::request::{Request, ANNOUNCE, IDLE, PASS, PROBE, SEND, SEND_LIMIT, TAKE};
use second::ring::Ring;
use second::sends::{of_each, together};
use second::table::{Table, UPDATES};

fn send(i: usize, j: usize) -> Request {
    Request::new(SEND, i, j)
}

/// A table of three nodes with these updates started, node 0 of each being active.
fn started(updates: &[usize]) -> Table {
    let mut table = Table::default();
    for &update in updates {
        assert_eq!(table.start(update, 3, &[1, 0, 0]), Ok(()));
    }
    assert!(table.is_sound());
    table
}

/// Node 0 has sent so many messages to node 1, which has taken them.
fn with_sends(ring: &Ring, sends: u32) -> Option<Ring> {
    let mut ring = ring.clone();
    ring.sent[0] = sends;
    ring.received[1] = sends;
    assert!(ring.is_sound());
    Some(ring)
}

fn refused(table: &Table, refusal: Refusal, call: impl Fn(&mut Table) -> Result<(), Refusal>) {
    let mut same = table.clone();
    assert_eq!(call(&mut same), Err(refusal));
    assert_eq!(&same, table);
}

#[test]
fn nothing_started_is_sound() {
    assert!(Table::default().is_sound());
    assert_eq!(Table::default().nodes(), None);
    let table = Table::default();
    for update in [0, 7, 8, usize::MAX] {
        refused(&table, Refusal::UnknownUpdate, |t| {
            t.step(update, send(9, 9))
        });
    }
}

#[test]
fn a_start_is_judged_in_the_order_of_the_request() {
    let table = started(&[2]);
    let mut unsound = table.clone();
    unsound.updates[2].as_mut().unwrap().sent[0] = 1;
    refused(&unsound, Refusal::Unsound, |t| t.start(8, 0, &[]));
    refused(&unsound, Refusal::Unsound, |t| t.step(8, send(9, 9)));
    for update in [8, 99_999, usize::MAX] {
        refused(&table, Refusal::UnknownUpdate, |t| t.start(update, 0, &[]));
    }
    for n in [0, 1, 2, 4, 96, 97, usize::MAX] {
        for update in [2, 7] {
            refused(&table, Refusal::NodeCount, |t| t.start(update, n, &[4]));
        }
    }
    for flags in [&[0, 0][..], &[0; 4], &[0, 4, 0]] {
        refused(&table, Refusal::StartFlags, |t| t.start(7, 3, flags));
    }
}

#[test]
fn a_refused_start_fixes_no_number_of_nodes() {
    let mut table = Table::default();
    assert_eq!(table.start(0, 97, &[0; 97]), Err(Refusal::NodeCount));
    assert_eq!(table.start(0, 4, &[0; 3]), Err(Refusal::StartFlags));
    assert_eq!(table.start(8, 4, &[0; 4]), Err(Refusal::UnknownUpdate));
    assert_eq!(table, Table::default());
    assert_eq!(table.start(7, 96, &[0; 96]), Ok(()));
    assert_eq!(table.start(0, 4, &[0; 4]), Err(Refusal::NodeCount));
    // Its own number does not free it of the fixed N either.
    assert_eq!(table.start(7, 4, &[0; 4]), Err(Refusal::NodeCount));
    assert_eq!(table.nodes(), Some(96));
}

#[test]
fn a_step_changes_its_own_update_alone() {
    let table = started(&[0, 3, 7]);
    for update in [0, 3, 7] {
        let mut next = table.clone();
        assert_eq!(next.step(update, send(0, 2)), Ok(()));
        for other in (0..UPDATES).filter(|&other| other != update) {
            assert_eq!(next.updates[other], table.updates[other]);
        }
        let mut ring = table.updates[update].clone().unwrap();
        assert_eq!(ring.step(send(0, 2)), Ok(()));
        assert_eq!(next.updates[update], Some(ring));
    }
    for update in [1, 2, 4, 5, 6, 8] {
        refused(&table, Refusal::UnknownUpdate, |t| {
            t.step(update, send(0, 2))
        });
    }
}

/// Node 0 of update 3 sends to itself; of the passive node 2 it is 8, of an update that is not started 13.
#[test]
fn a_message_to_oneself_is_of_its_update() {
    let mut table = started(&[0, 3]);
    let mut expected = table.clone();
    let ring = expected.updates[3].as_mut().unwrap();
    (ring.sent[0], ring.pending[0]) = (1, 1);
    assert_eq!(table.step(3, send(0, 0)), Ok(()));
    assert_eq!(table, expected);
    refused(&table, Refusal::RuleFails, |t| t.step(3, send(2, 2)));
    refused(&table, Refusal::UnknownNode, |t| t.step(3, send(3, 3)));
    refused(&table, Refusal::UnknownUpdate, |t| t.step(4, send(0, 0)));
    let take = Request::new(TAKE, 0, 1);
    refused(&table, Refusal::RuleFails, |t| t.step(0, take));
    let ring = expected.updates[3].as_mut().unwrap();
    (ring.received[0], ring.pending[0], ring.color[0]) = (1, 0, 1);
    assert_eq!(table.step(3, take), Ok(()));
    assert_eq!(table, expected);
}

/// Two updates on one node: update 6 is announced after its own message, while that of update 2 is on its way.
#[test]
fn updates_of_one_node() {
    let mut table = Table::default();
    let steps = [(TAKE, 1), (IDLE, 0), (PROBE, 0), (ANNOUNCE, 0)];
    for update in [2, 6] {
        assert_eq!(table.start(update, 1, &[1]), Ok(()));
        assert_eq!(table.step(update, send(0, 0)), Ok(()));
    }
    for (kind, j) in steps {
        assert_eq!(table.step(6, Request::new(kind, 0, j)), Ok(()));
    }
    assert_eq!(table.step(6, send(0, 0)), Err(Refusal::Closed));
    let announce = Request::new(ANNOUNCE, 0, 0);
    assert_eq!(table.step(2, announce), Err(Refusal::RuleFails));
    for (kind, j) in steps {
        assert_eq!(table.step(2, Request::new(kind, 0, j)), Ok(()));
    }
    assert!(table.is_sound());
}

#[test]
fn each_update_is_announced_by_itself() {
    let mut table = started(&[1, 4]);
    let steps = [(IDLE, 0), (PROBE, 0), (PASS, 2), (PASS, 1), (ANNOUNCE, 0)];
    for (kind, i) in steps {
        assert_eq!(table.step(4, Request::new(kind, i, 0)), Ok(()));
    }
    assert_eq!(table.step(4, send(0, 1)), Err(Refusal::Closed));
    assert_eq!(table.step(1, send(0, 1)), Ok(()));
    assert_eq!(
        table.step(1, Request::new(ANNOUNCE, 0, 0)),
        Err(Refusal::RuleFails)
    );
    assert_eq!(table.start(4, 3, &[0, 0, 1]), Ok(()));
    assert_eq!(table.step(4, send(2, 1)), Ok(()));
    assert_eq!(table.step(1, Request::new(TAKE, 1, 1)), Ok(()));
}

/// Update 1 has 1,200 messages on their way to node 2, update 4 has three.
#[test]
fn each_update_takes_from_its_own_inbox() {
    let mut table = started(&[1, 4]);
    for (update, messages) in [(1, 1_200), (4, 3)] {
        let ring = table.updates[update].as_mut().unwrap();
        ring.sent[0] = messages;
        ring.pending[2] = messages;
    }
    let take = |messages| Request::new(TAKE, 2, messages);
    for messages in [0, 1_001, 1_200, 1 << 32 | 1, usize::MAX] {
        refused(&table, Refusal::RuleFails, |t| t.step(1, take(messages)));
        refused(&table, Refusal::UnknownUpdate, |t| {
            t.step(0, take(messages))
        });
    }
    refused(&table, Refusal::RuleFails, |t| t.step(4, take(4)));
    let mut expected = table.clone();
    let ring = expected.updates[1].as_mut().unwrap();
    (ring.pending[2], ring.received[2]) = (200, 1_000);
    (ring.active[2], ring.color[0]) = (true, 0b100);
    assert_eq!(table.step(1, take(1_000)), Ok(()));
    assert_eq!(table, expected);
    refused(&table, Refusal::RuleFails, |t| t.step(1, take(201)));
    assert_eq!(table.step(4, take(3)), Ok(()));
    assert_eq!(table.step(1, take(200)), Ok(()));
    assert!(table.is_sound());
}

#[test]
fn soundness_asks_for_sound_rings_of_one_n() {
    let table = started(&[0, 5]);
    let of_two = Ring::start(2, &[0; 2]).ok();
    for other in 0..UPDATES {
        let mut table = table.clone();
        table.updates[other] = of_two.clone();
        assert!(!table.is_sound());
    }
    for update in [0, 5] {
        let mut table = table.clone();
        table.updates[update].as_mut().unwrap().n = 0;
        assert!(!table.is_sound());
    }
}

/// One to all eight updates at 1,000,000 sends; one of them with one more is not sound, whatever the others have.
#[test]
fn each_update_may_have_as_many_sends_as_a_ring() {
    let all: Vec<usize> = (0..UPDATES).collect();
    let mut table = started(&all);
    let ring = table.updates[0].clone().unwrap();
    for update in all {
        for sends in [0, 1, SEND_LIMIT - 1, SEND_LIMIT] {
            table.updates[update] = with_sends(&ring, sends);
            assert!(table.is_sound());
        }
        for over in 0..UPDATES {
            let mut table = table.clone();
            let ring = table.updates[over].as_mut().unwrap();
            (ring.sent[0], ring.received[1]) = (SEND_LIMIT + 1, SEND_LIMIT + 1);
            assert!(!table.is_sound());
            refused(&table, Refusal::Unsound, |t| t.step(0, send(0, 1)));
            refused(&table, Refusal::Unsound, |t| t.start(8, 4, &[4]));
        }
    }
    assert_eq!(together(&of_each(&table)), 8_000_000);
}

/// Update 2 has 999,999 sends: one more, then 9; update 6 beside it sends before and after, and a fresh start of update 2 sends again.
#[test]
fn the_limit_of_sends_is_each_updates_own() {
    let mut table = started(&[2, 6]);
    let ring = table.updates[2].clone().unwrap();
    table.updates[2] = with_sends(&ring, SEND_LIMIT - 1);
    assert_eq!(table.step(6, send(0, 1)), Ok(()));
    assert_eq!(table.step(2, send(0, 1)), Ok(()));
    refused(&table, Refusal::SendLimit, |t| t.step(2, send(0, 1)));
    refused(&table, Refusal::SendLimit, |t| t.step(2, send(0, 0)));
    // What comes before 9 still does.
    refused(&table, Refusal::RuleFails, |t| t.step(2, send(1, 0)));
    refused(&table, Refusal::RuleFails, |t| t.step(2, send(1, 1)));
    refused(&table, Refusal::UnknownNode, |t| t.step(2, send(3, 3)));
    assert_eq!(table.step(6, send(0, 1)), Ok(()));
    assert_eq!(table.step(2, Request::new(TAKE, 1, 1)), Ok(()));
    refused(&table, Refusal::SendLimit, |t| t.step(2, send(1, 0)));
    assert_eq!(table.start(4, 3, &[1, 0, 0]), Ok(()));
    assert_eq!(table.step(4, send(0, 1)), Ok(()));
    refused(&table, Refusal::NodeCount, |t| t.start(2, 4, &[0; 4]));
    refused(&table, Refusal::SendLimit, |t| t.step(2, send(0, 1)));
    assert_eq!(table.start(2, 3, &[0, 1, 0]), Ok(()));
    assert_eq!(table.step(2, send(1, 2)), Ok(()));
    let sends = of_each(&table);
    assert_eq!((sends[2], sends[4], sends[6]), (Some(1), Some(1), Some(2)));
}

/// Two updates with 1,000,000 and 1,000,001 sends between them, which is the limit of neither.
#[test]
fn what_updates_have_together_is_not_limited() {
    for sends in [SEND_LIMIT - 400_000, SEND_LIMIT - 400_000 + 1] {
        let mut table = started(&[1, 3]);
        let ring = table.updates[1].clone().unwrap();
        table.updates[1] = with_sends(&ring, 400_000);
        table.updates[3] = with_sends(&ring, sends);
        assert!(table.is_sound());
        for update in [1, 3, 3, 1] {
            assert_eq!(table.step(update, send(0, 1)), Ok(()));
        }
        let expected = (Some(400_002), Some(sends + 2));
        assert_eq!((of_each(&table)[1], of_each(&table)[3]), expected);
    }
}

/// All eight at 1,000,000 sends: 9 to each; each sends again once it is started afresh, and the ones after it still do not.
#[test]
fn all_eight_at_their_limits() {
    let all: Vec<usize> = (0..UPDATES).collect();
    let mut table = started(&all);
    for place in &mut table.updates {
        *place = with_sends(place.as_ref().unwrap(), SEND_LIMIT);
    }
    for fresh in 0..UPDATES {
        assert_eq!(table.start(fresh, 3, &[1, 0, 0]), Ok(()));
        for update in 0..=fresh {
            assert_eq!(table.step(update, send(0, 2)), Ok(()));
        }
        for update in fresh + 1..UPDATES {
            refused(&table, Refusal::SendLimit, |t| t.step(update, send(0, 2)));
        }
    }
}

/// An announced update at its limit beside one that sends; started afresh, it begins with no sends.
#[test]
fn a_closed_update_at_its_limit() {
    let mut table = started(&[0, 1]);
    let mut closed = with_sends(table.updates[0].as_ref().unwrap(), SEND_LIMIT).unwrap();
    closed.active[0] = false;
    closed.drive(1_000).unwrap();
    assert_eq!(closed.step(Request::new(ANNOUNCE, 0, 0)), Ok(()));
    table.updates[0] = Some(closed);
    refused(&table, Refusal::Closed, |t| t.step(0, send(0, 1)));
    assert_eq!(table.step(1, send(0, 1)), Ok(()));
    assert_eq!(table.start(0, 3, &[1, 0, 0]), Ok(()));
    assert_eq!(table.step(0, send(0, 1)), Ok(()));
    assert_eq!(of_each(&table)[..2], [Some(1), Some(1)]);
}

/// Every step of a started update is the ring's own, also of one at its limit.
#[test]
fn a_step_is_the_rings_own() {
    let mut table = started(&[0, 1, 2]);
    for (update, sends) in [(0, 5), (1, SEND_LIMIT - 1), (2, SEND_LIMIT)] {
        table.updates[update] = with_sends(table.updates[update].as_ref().unwrap(), sends);
    }
    // Kinds 0 to 7, nodes 0 to 3.
    for k in 0..3 * 8 * 4 * 4 {
        let (update, request) = (k / 128, Request::new(k / 16 % 8, k / 4 % 4, k % 4));
        let mut next = table.clone();
        let mut ring = table.updates[update].clone().unwrap();
        assert_eq!(next.step(update, request), ring.step(request));
        let mut expected = table.clone();
        expected.updates[update] = Some(ring);
        assert_eq!(next, expected);
    }
}

/// Two tables that agree on one update give it the same answers, 9 among them.
#[test]
fn an_update_does_not_depend_on_the_others() {
    let rng = &mut Rng::new(5);
    let mut met = Met::default();
    for _ in 0..100 {
        assert_eq!(Pair::new(rng).run(&mut met, rng), Ok(()));
    }
    for (number, count) in met.answers.iter().enumerate() {
        assert_eq!(*count > 0, OF_UPDATE.contains(&number), "{number}");
    }
    assert!(met.nines > 50 && met.parted > 50);
}

/// A table with one limit for all updates together, as it was before request Q-5.
struct Together(Table);

impl Calls for Together {
    fn start(&mut self, update: usize, n: usize, flags: &[u8]) -> usize {
        Calls::start(&mut self.0, update, n, flags)
    }

    fn step(&mut self, update: usize, request: Request) -> usize {
        let mut next = self.0.clone();
        let answer = Calls::step(&mut next, update, request);
        let spent = together(&of_each(&self.0)) >= u64::from(SEND_LIMIT);
        if (answer, request.kind, spent) == (0, SEND, true) {
            return Refusal::SendLimit.number() as usize;
        }
        self.0 = next;
        answer
    }

    fn table(&self) -> Table {
        self.0.clone()
    }
}

#[test]
fn one_limit_for_all_is_found() {
    let rng = &mut Rng::new(5);
    let found = |rng: &mut Rng| {
        let mut pair = Pair::new(rng).lent(Together);
        pair.run(&mut Met::default(), rng).is_err()
    };
    assert!((0..20).any(|_| found(rng)));
}
