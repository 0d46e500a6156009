//! The packing station: request Q-7, sentence by sentence.

use second::generate::Rng;
use second::misreadings::Misread;
use second::panel::{Mark, Panel, CLOSE, FIRMWARE_NEW, FIRMWARE_OLD, MAP_NEW, MAP_OLD};
use second::refusal::Refusal;
use second::request::{Request, IDLE, PASS, PROBE, SEND, SEND_LIMIT, TAKE};
use second::ring::{Ring, MAX_NODES};
use Mark::{New, Old};

const CLOSING: (usize, usize, usize) = (CLOSE, 0, 0);
/// The token goes round a ring of three.
const ROUND: [(usize, usize, usize); 3] = [(PROBE, 0, 0), (PASS, 2, 0), (PASS, 1, 0)];
/// Words that are no job's.
const NO_WORDS: [usize; 8] = [
    0,
    5,
    6,
    1 << 8 | 1,
    1 << 16 | 2,
    1 << 32 | 3,
    1 << 63 | 4,
    usize::MAX,
];

fn entered(flags: &[u8]) -> Panel {
    let panel = Panel::enter(flags.len(), flags).expect("an accepted enter");
    assert!(panel.is_sound());
    panel
}

/// Makes steps that must all be accepted.
fn after(mut panel: Panel, steps: &[(usize, usize, usize)]) -> Panel {
    for &(kind, i, j) in steps {
        let request = Request::new(kind, i, j);
        assert_eq!(panel.step(request), Ok(()), "{request:?}");
        assert!(panel.is_sound());
    }
    panel
}

/// A refused call leaves the panel as it was.
fn refused(panel: &Panel, refusal: Refusal, call: impl Fn(&mut Panel) -> Result<(), Refusal>) {
    let mut same = panel.clone();
    assert_eq!(call(&mut same), Err(refusal));
    assert_eq!(&same, panel);
}

fn assert_refused(panel: &Panel, (kind, i, j): (usize, usize, usize), refusal: Refusal) {
    refused(panel, refusal, |p| p.step(Request::new(kind, i, j)));
}

/// All marks of the nodes, firmware's and map's.
fn set(panel: &mut Panel, firmware: Mark, map: Mark) {
    let n = panel.ring.n;
    panel.firmware[..n].fill(firmware);
    panel.map[..n].fill(map);
}

/// A quiet panel of these marks, its token moved until the announce test holds.
fn at_the_end(n: usize, firmware: Mark, map: Mark) -> Panel {
    let mut panel = entered(&vec![0; n]);
    set(&mut panel, firmware, map);
    panel.ring.drive(1_000).expect("an open ring");
    assert!(panel.ring.is_conclusive() && panel.is_sound());
    panel
}

fn closed(n: usize, mark: Mark) -> Panel {
    after(at_the_end(n, mark, mark), &[CLOSING])
}

/// Kinds 0 to 7, nodes 0 to n, words 0 to 5 or nodes 0 to n.
fn all_requests(n: usize) -> impl Iterator<Item = Request> {
    let most = n.max(5);
    (0..8).flat_map(move |kind| {
        (0..=n).flat_map(move |i| (0..=most).map(move |j| Request::new(kind, i, j)))
    })
}

fn accepted(panel: &Panel) -> Vec<Request> {
    all_requests(panel.ring.n)
        .filter(|&request| panel.clone().step(request).is_ok())
        .collect()
}

#[test]
fn all_marks_are_old_when_a_panel_is_entered() {
    for n in 1..=MAX_NODES {
        let flags: Vec<u8> = (0..n).map(|i| i as u8 % 4).collect();
        let panel = entered(&flags);
        assert_eq!(Ok(panel.ring), Ring::start(n, &flags));
        assert_eq!([panel.firmware, panel.map], [[Old; MAX_NODES]; 2]);
        assert_eq!(panel.recorded, None);
    }
    for n in [0, 97, usize::MAX] {
        assert_eq!(Panel::enter(n, &[4]), Err(Refusal::NodeCount));
    }
    for flags in [&[0, 0][..], &[0; 4], &[0, 4, 0]] {
        assert_eq!(Panel::enter(3, flags), Err(Refusal::StartFlags));
    }
}

/// Each word sets the mark that it names, whatever the marks are, and one message is taken of three.
#[test]
fn a_take_sets_the_mark_of_its_word() {
    let sends = [(SEND, 0, 1), (SEND, 0, 1), (SEND, 0, 1), (SEND, 0, 2)];
    let panel = after(entered(&[1, 0, 0]), &sends);
    for (word, firmware, map) in [
        (FIRMWARE_NEW, Some(New), None),
        (MAP_NEW, None, Some(New)),
        (FIRMWARE_OLD, Some(Old), None),
        (MAP_OLD, None, Some(Old)),
    ] {
        for before in [[Old, Old], [Old, New], [New, Old], [New, New]] {
            let mut panel = panel.clone();
            set(&mut panel, before[0], before[1]);
            let mut expected = panel.clone();
            assert_eq!(expected.ring.step(Request::new(TAKE, 1, 1)), Ok(()));
            expected.firmware[1] = firmware.unwrap_or(before[0]);
            expected.map[1] = map.unwrap_or(before[1]);
            let next = after(panel, &[(TAKE, 1, word)]);
            assert_eq!(next, expected);
            assert_eq!((next.ring.pending[1], next.ring.received[1]), (2, 1));
        }
    }
    assert_eq!([FIRMWARE_NEW, MAP_NEW, FIRMWARE_OLD, MAP_OLD], [1, 2, 3, 4]);
}

/// Every other step is the ring's own, and sets no mark.
#[test]
fn other_steps_are_the_rings() {
    let mut panel = after(entered(&[1, 2, 1]), &[(SEND, 0, 1), (SEND, 2, 0)]);
    (panel.firmware[1], panel.map[2]) = (New, New);
    let kinds = [0, SEND, IDLE, PROBE, PASS, 7];
    for request in all_requests(3).filter(|request| kinds.contains(&request.kind)) {
        let mut next = panel.clone();
        let mut expected = panel.clone();
        assert_eq!(next.step(request), expected.ring.step(request));
        assert_eq!(next, expected);
    }
}

#[test]
fn a_word_that_is_none_is_refused_before_the_rule() {
    let panel = after(entered(&[1, 0, 0]), &[(SEND, 0, 1)]);
    for word in NO_WORDS {
        assert_refused(&panel, (TAKE, 1, word), Refusal::JobWord);
        assert_refused(&panel, (TAKE, 2, word), Refusal::JobWord);
        assert_refused(&panel, (TAKE, 3, word), Refusal::UnknownNode);
        assert_refused(&panel, (TAKE, usize::MAX, word), Refusal::UnknownNode);
        assert_refused(&panel, (0, 9, word), Refusal::UnknownKind);
        assert_refused(&closed(3, New), (TAKE, 9, word), Refusal::Closed);
    }
    for word in 1..=4 {
        assert_refused(&panel, (TAKE, 2, word), Refusal::RuleFails);
        assert_refused(&panel, (TAKE, 3, word), Refusal::UnknownNode);
    }
}

#[test]
fn a_close_records_the_one_word() {
    for n in [1, 2, 3, 8, 9, 95, 96] {
        for mark in [Old, New] {
            let panel = at_the_end(n, mark, mark);
            let mut expected = panel.clone();
            expected.ring.closed = true;
            expected.recorded = Some(mark);
            assert_eq!(after(panel, &[CLOSING]), expected);
        }
    }
}

/// One mark of one node, or all marks of one column or of one node: 15, and nothing is closed.
#[test]
fn a_close_with_unequal_marks() {
    for n in [1, 2, 3, 9, 96] {
        for mark in [Old, New] {
            let other = if mark == Old { New } else { Old };
            let equal = at_the_end(n, mark, mark);
            assert_refused(&at_the_end(n, mark, other), CLOSING, Refusal::UnequalMarks);
            for i in 0..n {
                let [mut firmware, mut map, mut both] = [(); 3].map(|()| equal.clone());
                firmware.firmware[i] = other;
                map.map[i] = other;
                (both.firmware[i], both.map[i]) = (other, other);
                assert_refused(&firmware, CLOSING, Refusal::UnequalMarks);
                assert_refused(&map, CLOSING, Refusal::UnequalMarks);
                if n > 1 {
                    assert_refused(&both, CLOSING, Refusal::UnequalMarks);
                }
            }
        }
    }
}

/// The announce test comes before the marks, and what comes before it still does.
#[test]
fn the_order_of_a_close() {
    for (firmware, map) in [(Old, Old), (New, New), (Old, New)] {
        let mut panel = entered(&[0, 0, 0]);
        set(&mut panel, firmware, map);
        let mut moves = 0;
        while let Some(request) = panel.ring.token_move() {
            assert_refused(&panel, CLOSING, Refusal::RuleFails);
            assert_eq!(panel.step(request), Ok(()));
            moves += 1;
        }
        assert_eq!(moves, 3);
        let mut unsound = panel.clone();
        unsound.recorded = Some(Old);
        assert_refused(&unsound, CLOSING, Refusal::Unsound);
    }
    assert_refused(&closed(3, New), CLOSING, Refusal::Closed);
    assert_refused(&closed(3, New), (7, 0, 0), Refusal::Closed);
}

#[test]
fn a_start_keeps_the_marks_and_empties_the_record() {
    let mut runs = after(entered(&[1, 0, 2]), &[(SEND, 0, 1)]);
    (runs.firmware[2], runs.map[0]) = (New, New);
    let panels = [
        runs,
        at_the_end(3, Old, New),
        closed(3, Old),
        closed(3, New),
    ];
    for panel in panels {
        let mut next = panel.clone();
        assert_eq!(next.start(3, &[1, 2, 0]), Ok(()));
        assert_eq!(Ok(next.ring.clone()), Ring::start(3, &[1, 2, 0]));
        assert_eq!([next.firmware, next.map], [panel.firmware, panel.map]);
        assert_eq!((next.recorded, next.is_sound()), (None, true));
    }
}

/// 3, then 1 for another N, in range or not, then 2; of an open and of a closed panel.
#[test]
fn a_start_is_judged_in_the_order_of_the_request() {
    for panel in [entered(&[1, 0, 0]), at_the_end(3, Old, New), closed(3, New)] {
        for n in [0, 1, 2, 4, 96, 97, 1 << 8 | 3, 1 << 32 | 3, usize::MAX] {
            refused(&panel, Refusal::NodeCount, |p| p.start(n, &[4]));
            let flags = vec![0; n.min(97)];
            refused(&panel, Refusal::NodeCount, |p| p.start(n, &flags));
        }
        for flags in [&[0, 0][..], &[0; 4], &[0, 4, 0]] {
            refused(&panel, Refusal::StartFlags, |p| p.start(3, flags));
        }
        let mut unsound = panel.clone();
        unsound.map[3] = New;
        refused(&unsound, Refusal::Unsound, |p| p.start(97, &[4]));
        refused(&unsound, Refusal::Unsound, |p| p.start(3, &[0; 3]));
    }
}

#[test]
fn soundness() {
    let open = after(entered(&[1, 0, 0]), &[(SEND, 0, 1)]);
    for i in 0..MAX_NODES {
        for panel in [&open, &closed(3, Old), &closed(3, New)] {
            let (mut firmware, mut map) = (panel.clone(), panel.clone());
            firmware.firmware[i] = if panel.firmware[i] == Old { New } else { Old };
            map.map[i] = firmware.firmware[i];
            let sound = i < 3 && !panel.ring.closed;
            assert_eq!((firmware.is_sound(), map.is_sound()), (sound, sound));
        }
    }
    let with = |panel: &Panel, recorded| Panel {
        recorded,
        ..panel.clone()
    };
    for (panel, right) in [
        (&open, None),
        (&at_the_end(3, New, New), None),
        (&closed(3, Old), Some(Old)),
        (&closed(3, New), Some(New)),
    ] {
        for recorded in [None, Some(Old), Some(New)] {
            assert_eq!(with(panel, recorded).is_sound(), recorded == right);
        }
    }
    let mut wild = open.clone();
    wild.ring.sent[1] = 1;
    assert!(!wild.is_sound());
    let mut by_hand = at_the_end(3, Old, New);
    by_hand.ring.closed = true;
    for recorded in [None, Some(Old), Some(New)] {
        assert_refused(&with(&by_hand, recorded), CLOSING, Refusal::Unsound);
    }
}

/// A restore is still on its way when the station asks to close; then the marks are unequal, until the missing job is sent and taken.
#[test]
fn the_story() {
    let sends = [0, 0, 1, 1, 2, 2, 2].map(|to| (SEND, 0, to));
    let takes = [0, 1, 2].map(|i| [(TAKE, i, FIRMWARE_NEW), (TAKE, i, MAP_NEW), (IDLE, i, 0)]);
    let panel = after(entered(&[1, 0, 0]), &sends);
    assert_eq!(panel.agreed(), Some(Old));
    assert_refused(&panel, CLOSING, Refusal::RuleFails);
    let panel = after(after(panel, &takes.concat()), &[ROUND, ROUND].concat());
    assert_eq!(panel.agreed(), Some(New));
    assert_refused(&panel, CLOSING, Refusal::RuleFails);
    let panel = after(panel, &[(TAKE, 2, FIRMWARE_OLD), (IDLE, 2, 0)]);
    assert_refused(&panel, CLOSING, Refusal::RuleFails);
    let mut panel = after(panel, &[ROUND, ROUND].concat());
    assert_refused(&panel, CLOSING, Refusal::UnequalMarks);
    assert_eq!(accepted(&panel), []);
    let marks = [panel.firmware, panel.map];
    assert_eq!(panel.start(3, &[1, 0, 0]), Ok(()));
    assert_eq!([panel.firmware, panel.map], marks);
    let mended = [
        (SEND, 0, 2),
        (TAKE, 2, FIRMWARE_NEW),
        (IDLE, 0, 0),
        (IDLE, 2, 0),
    ];
    let panel = after(after(panel, &mended), &[ROUND, ROUND].concat());
    let panel = after(panel, &[CLOSING]);
    assert_eq!((panel.recorded, panel.agreed()), (Some(New), Some(New)));
    assert_eq!(accepted(&panel), []);
}

#[test]
fn the_limit_of_sends() {
    let mut panel = entered(&[1, 1]);
    panel.ring.sent[0] = SEND_LIMIT - 1;
    panel.ring.received[1] = SEND_LIMIT - 1;
    panel.map[1] = New;
    let panel = after(panel, &[(SEND, 1, 1)]);
    assert_refused(&panel, (SEND, 0, 0), Refusal::SendLimit);
    assert_refused(&panel, (TAKE, 0, 5), Refusal::JobWord);
    let mut panel = after(panel, &[(TAKE, 1, FIRMWARE_NEW)]);
    assert_eq!(panel.start(2, &[1, 0]), Ok(()));
    let panel = after(panel, &[(SEND, 0, 0)]);
    assert_eq!((panel.firmware[1], panel.map[1]), (New, New));
}

/// A request of any kind, takes often, with words of jobs that make new, that make old, or any; while winding down no send.
fn any_request(rng: &mut Rng, n: usize, winding_down: bool, words: usize) -> Request {
    let kind = rng.pick(&[
        0, SEND, SEND, SEND, TAKE, TAKE, TAKE, IDLE, PROBE, PASS, CLOSE, 7,
    ]);
    let kind = if kind == SEND && winding_down {
        IDLE
    } else {
        kind
    };
    let any = rng.below(6);
    let word = rng.pick(&[1 + 2 * words + any % 2, any]);
    let j = match (kind, words) {
        (TAKE, 0 | 1) => word,
        (TAKE, _) => any,
        _ => rng.below(n + 1),
    };
    Request::new(kind, rng.below(n + 1), j)
}

fn any_flags(rng: &mut Rng, n: usize) -> Vec<u8> {
    (0..n).map(|_| rng.below(4) as u8).collect()
}

/// An entered panel with marks as earlier runs may have left them: of one word, of one word in each node, or any.
fn any_panel(rng: &mut Rng, n: usize) -> Panel {
    let mut panel = entered(&any_flags(rng, n));
    let sort = rng.below(4);
    for i in 0..n {
        let any = [(); 2].map(|()| rng.pick(&[Old, New]));
        [panel.firmware[i], panel.map[i]] = match sort {
            0 => [Old; 2],
            1 => [New; 2],
            2 => [any[0]; 2],
            _ => any,
        };
    }
    panel
}

/// Over lists of steps and starts: a panel is released from an accepted close to the next accepted start, and is found with the record's marks.
#[test]
fn a_released_panel_has_the_records_marks() {
    let rng = &mut Rng::new(21);
    let mut opened = [0; 2];
    for _ in 0..1_500 {
        let n = 1 + rng.below(3);
        let mut panel = any_panel(rng, n);
        let (mut released, words) = (false, rng.below(3));
        for k in 0..120 {
            let before = panel.clone();
            let (answer, closes, starts) = if rng.chance(3) {
                let other = rng.pick(&[n, n, n + 1]);
                (panel.start(other, &any_flags(rng, n)), false, true)
            } else {
                let request = any_request(rng, n, k % 60 > 20, words);
                (panel.step(request), request.kind == CLOSE, false)
            };
            if answer.is_ok() {
                released = (released || closes) && !starts;
            }
            assert!(panel.is_sound() && (answer.is_ok() || panel == before));
            assert_eq!((panel.ring.closed, panel.ring.n), (released, n));
            if released {
                let word = panel.recorded.expect("a record");
                assert!((0..n).all(|i| panel.marks(i) == [word; 2]));
                opened[usize::from(word == New)] += 1;
            }
        }
    }
    assert!(opened.iter().all(|&count| count > 2_000), "{opened:?}");
}

/// From a quiet point token moves alone, until the announce test holds, at most 3N - 2; then a close alone, or 15 and no step at all.
fn check_quiet(mut panel: Panel) -> bool {
    let n = panel.ring.n;
    let mut moves = 0;
    while !panel.ring.is_conclusive() {
        let accepted = accepted(&panel);
        assert!(!accepted.is_empty());
        assert!(accepted.iter().all(|r| [PROBE, PASS].contains(&r.kind)));
        assert_refused(&panel, CLOSING, Refusal::RuleFails);
        panel = after(panel, &[(accepted[0].kind, accepted[0].i, 0)]);
        moves += 1;
    }
    assert!(moves <= 3 * n - 2, "{moves} moves of {n}");
    let accepted = accepted(&panel);
    match panel.agreed() {
        None => {
            assert_refused(&panel, CLOSING, Refusal::UnequalMarks);
            assert_eq!(accepted, []);
        }
        word => {
            assert!(!accepted.is_empty() && accepted.iter().all(|r| r.kind == CLOSE));
            assert_eq!(after(panel.clone(), &[CLOSING]).recorded, word);
        }
    }
    panel.agreed().is_some()
}

#[test]
fn a_quiet_panel_is_closed_or_stuck() {
    let rng = &mut Rng::new(22);
    let mut ended = [0; 2];
    for _ in 0..600 {
        let n = 1 + rng.below(4);
        let mut panel = any_panel(rng, n);
        for k in 0..80 {
            let _ = panel.step(any_request(rng, n, k > 25, 2));
            let quiet = !panel.ring.active.contains(&true) && panel.ring.in_transit() == 0;
            if quiet && !panel.ring.closed && rng.chance(10) {
                ended[usize::from(check_quiet(panel.clone()))] += 1;
            }
        }
    }
    assert!(ended.iter().all(|&count| count > 150), "{ended:?}");
}

/// What a panel answers does not depend on its marks, closes apart.
#[test]
fn marks_decide_a_close_alone() {
    let rng = &mut Rng::new(23);
    for _ in 0..300 {
        let n = 1 + rng.below(3);
        let mut panel = any_panel(rng, n);
        for k in 0..60 {
            if panel.ring.closed {
                break;
            }
            let mut other = panel.clone();
            (other.firmware[rng.below(n)], other.map[rng.below(n)]) = (New, Old);
            let request = any_request(rng, n, k > 20, 2);
            let answers = [panel.step(request), other.step(request)];
            if request.kind != CLOSE {
                assert_eq!(answers[0], answers[1]);
                assert_eq!(panel.ring, other.ring);
            }
        }
    }
}

/// Each wrong reading differs on some call of random walks over small panels.
#[test]
fn wrong_readings_are_told_apart() {
    let rng = &mut Rng::new(24);
    let mut misread = Misread::default();
    for _ in 0..1_000 {
        let n = 1 + rng.below(3);
        let (mut panel, words) = (any_panel(rng, n), rng.below(3));
        for k in 0..100 {
            if rng.chance(4) {
                let other = rng.pick(&[n, n, n + 1]);
                let flags = any_flags(rng, other);
                misread.count_start(&panel, other, &flags);
                let _ = panel.start(other, &flags);
            }
            let request = any_request(rng, n, k % 50 > 20, words);
            misread.count_step(&panel, request);
            let _ = panel.step(request);
        }
    }
    for (name, count) in misread.counts() {
        assert!(count > 10, "{name}: {count}");
    }
}
