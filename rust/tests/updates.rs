//! Logs of updates: request Q-1, "The log", and requests Q-2, Q-4, Q-5 and Q-6.

use second::log::{run, Log, LINE_BYTES, LINE_LIMIT};
use second::ring::MAX_NODES;

/// The log of lines divided by commas, and its answers likewise.
fn check(input: &str, output: &str) {
    let lines = |text: &str| -> String {
        text.split(", ")
            .map(|line| line.to_string() + "\n")
            .collect()
    };
    assert_eq!(answers(lines(input).as_bytes()), lines(output), "{input}");
}

fn answers(input: &[u8]) -> String {
    String::from_utf8(run(input)).expect("answers of ASCII")
}

const BLANK: &str = "(end (boards 2) (holder 0) (moves 0) (flight 0) (black 0))";

#[test]
fn end_lines_ascend_and_count_from_the_latest_start() {
    check(
        "(update 7 (ring 2 (active) (black))), (update 0 (ring 2 (active 0) (black 1))), (update 7 (probe)), (update 0 (send 0 1)), (update 3 (ring 2 (active) (black))), (update 0 (probe)), (update 7 (pass 1)), (update 3 (probe)), (update 3 (ring 2 (active) (black 0 1)))",
        "(ok 1), (ok 2), (ok 3), (ok 4), (ok 5), (ok 6), (ok 7), (ok 8), (ok 9), (update 0 (end (boards 2) (holder 1) (moves 1) (flight 1) (black 1))), (update 3 (end (boards 2) (holder 0) (moves 0) (flight 0) (black 2))), (update 7 (end (boards 2) (holder 0) (moves 2) (flight 0) (black 0)))",
    );
}

#[test]
fn a_closed_update_has_its_end_line() {
    check(
        "(update 1 (ring 1 (active) (black))), (update 1 (announce)), (update 1 (probe)), (update 1 (announce)), (update 1 (probe)), (update 2 (probe))",
        "(ok 1), (no 2 8), (ok 3), (ok 4), (no 5 4), (no 6 13), (update 1 (end (boards 1) (holder 0) (moves 1) (flight 0) (black 0)))",
    );
}

#[test]
fn an_announcement_is_of_its_update_and_a_fresh_start_reopens_it() {
    check(
        "(update 4 (ring 1 (active) (black))), (update 5 (ring 1 (active 0) (black))), (update 4 (probe)), (update 4 (announce)), (update 5 (probe)), (update 5 (announce)), (update 4 (ring 1 (active) (black))), (update 4 (probe)), (update 4 (announce)), (update 4 (ring 2))",
        "(ok 1), (ok 2), (ok 3), (ok 4), (ok 5), (no 6 8), (ok 7), (ok 8), (ok 9), (no 10 1), (update 4 (end (boards 1) (holder 0) (moves 1) (flight 0) (black 0))), (update 5 (end (boards 1) (holder 0) (moves 1) (flight 0) (black 0)))",
    );
}

/// Request Q-6: in the first line and later, of an update that is new, open or announced. Both nodes are active, one round is white, and node 0 still active
/// is enough to refuse the announcement.
#[test]
fn without_lists_all_nodes_of_an_update_are_active_and_white() {
    let run = |u: usize| {
        format!("(update {u} (send 0 1)), (update {u} (send 1 0)), (update {u} (ring 2)), (update {u} (idle 1)), (update {u} (idle 1)), (update {u} (probe)), (update {u} (pass 1)), (update {u} (announce)), (update {u} (idle 0)), (update {u} (announce))")
    };
    let answers = |line: usize| {
        let at = |k: usize| line + k;
        format!(
            "(ok {}), (ok {}), (ok {}), (ok {}), (no {} 8), (ok {}), (ok {}), (no {} 8), (ok {}), (ok {})",
            at(0), at(1), at(2), at(3), at(4), at(5), at(6), at(7), at(8), at(9)
        )
    };
    let end = |u: usize| {
        format!("(update {u} (end (boards 2) (holder 0) (moves 2) (flight 0) (black 0)))")
    };
    check(
        &format!(
            "(update 3 (ring 2)), {}, (update 0 (ring 2)), {}, (update 3 (ring 2)), {}",
            run(3),
            run(0),
            run(3)
        ),
        &format!(
            "(ok 1), {}, (ok 12), {}, (ok 23), {}, {}, {}",
            answers(2),
            answers(13),
            answers(24),
            end(0),
            end(3)
        ),
    );
    check(
        "(update 1 (ring 2 (active) (black))), (update 1 (idle 0)), (update 1 (ring 2)), (update 1 (idle 0)), (update 1 (idle 1)), (update 0 (idle 0))",
        "(ok 1), (no 2 8), (ok 3), (ok 4), (ok 5), (no 6 13), (update 1 (end (boards 2) (holder 0) (moves 0) (flight 0) (black 0)))",
    );
}

#[test]
fn first_lines_that_are_refused() {
    for (line, number) in [
        ("(update 8 (ring 2))", 13),
        ("(update 99999 (ring 97 (active 99) (black)))", 13),
        ("(update 8 (ring 2 (active 2) (black)))", 13),
        ("(update 7 (ring 0))", 1),
        ("(update 7 (ring 97 (active 99) (black)))", 1),
        ("(update 0 (ring 2 (active 2) (black)))", 6),
        ("(update 0 (ring 2 (active) (black 1 2)))", 6),
        ("(update 100000 (ring 2))", 10),
        ("(update 07 (ring 2))", 10),
        ("(update 00 (ring 2))", 10),
        ("(update 8 (ring 2 (active 1 0) (black)))", 10),
        ("(update 8 (ring 02))", 10),
        ("(update 2 (tree 3 (root 0)))", 10),
        ("(update 2 (probe))", 10),
        ("(update 9 (send 0 1))", 10),
        ("(update 2 (update 2 (ring 2)))", 10),
        ("(update 2)", 10),
        ("(update (ring 2))", 10),
        ("(update 2 ring 2)", 10),
        ("(update 2 (ring 2)", 10),
        ("(update 2 (ring 2) )", 10),
        ("(update 2 (ring 2)))", 10),
        ("(update 2  (ring 2))", 10),
        ("(update  2 (ring 2))", 10),
        ("(update 2(ring 2))", 10),
        ("(update 2 ( ring 2))", 10),
        ("(update 2 (ring 2 ))", 10),
        ("(Update 2 (ring 2))", 10),
        ("(updates 2 (ring 2))", 10),
        ("(update -2 (ring 2))", 10),
        ("(update 2 (ring 2))\r", 10),
        (" (update 2 (ring 2))", 10),
        ("update 2 (ring 2)", 10),
        ("(update 2 ())", 10),
        ("(update 2 )", 10),
    ] {
        let alone = format!("{line}\n");
        let more = format!("{line}\n(update 2 (ring 2))\n(ring 2)\n");
        let expected = format!("(no 1 {number})\n");
        assert_eq!(answers(alone.as_bytes()), expected, "{line}");
        assert_eq!(answers(more.as_bytes()), expected, "{line}");
    }
    assert_eq!(answers(b"(update 2 (ring 2))"), "(no 1 10)\n");
}

/// After the start of update 2.
fn assert_refused(line: &str, number: u32) {
    let log = format!("(update 2 (ring 2 (active) (black)))\n{line}\n");
    let expected = format!("(ok 1)\n(no 2 {number})\n(update 2 {BLANK})\n");
    assert_eq!(answers(log.as_bytes()), expected, "{line}");
}

#[test]
fn later_lines_that_are_refused() {
    for (line, number) in [
        ("(update 8 (ring 2))", 13),
        ("(update 99999 (ring 3))", 13),
        ("(update 8 (ring 3 (active 9) (black)))", 13),
        ("(update 8 (send 9 9))", 13),
        ("(update 0 (send 9 9))", 13),
        ("(update 7 (announce))", 13),
        ("(update 7 (ring 3))", 1),
        ("(update 2 (ring 1))", 1),
        ("(update 2 (ring 97))", 1),
        ("(update 2 (ring 3 (active 9) (black)))", 1),
        ("(update 2 (ring 2 (active 2) (black)))", 6),
        ("(update 2 (send 0 2))", 6),
        ("(update 2 (send 1 1))", 8),
        ("(update 2 (send 2 2))", 6),
        ("(update 0 (send 1 1))", 13),
        ("(update 2 (take 1))", 8),
        ("(update 100000 (probe))", 10),
        ("(update 02 (probe))", 10),
        ("(update 2 (probe)", 10),
        ("(update 2 (probe)))", 10),
        ("(update 2 (probe 0))", 10),
        ("(update 2 (ack 0))", 10),
        ("(update 2 (tree 2 (root 0)))", 10),
        ("(update 2 (update 2 (probe)))", 10),
        ("(update 2 (end))", 10),
        ("(probe)", 10),
        ("(ring 2)", 10),
        ("(tree 3 (root 0))", 10),
        ("", 10),
    ] {
        assert_refused(line, number);
    }
}

#[test]
fn takes_that_are_refused() {
    for (line, number) in [
        ("(update 2 (take 1 1))", 8),
        ("(update 2 (take 1 0))", 8),
        ("(update 2 (take 1 1001))", 8),
        ("(update 2 (take 1 99999))", 8),
        ("(update 2 (take 2 0))", 6),
        ("(update 0 (take 2 0))", 13),
        ("(update 8 (take 2 1001))", 13),
        ("(update 2 (take))", 10),
        ("(update 2 (take 1 ))", 10),
        ("(update 2 (take 1  5))", 10),
        ("(update 2 (take 1 05))", 10),
        ("(update 2 (take 1 100000))", 10),
        ("(update 2 (take 1 5 1))", 10),
        ("(update 2 (take 1 5)", 10),
        ("(take 1 5)", 10),
    ] {
        assert_refused(line, number);
    }
}

/// Two updates with messages of their own on their way to node 1.
#[test]
fn takes_of_several() {
    check(
        "(update 2 (ring 2 (active 0) (black))), (update 0 (ring 2 (active 0) (black))), (update 2 (send 0 1)), (update 0 (send 0 1)), (update 2 (send 0 1)), (update 2 (send 0 1)), (update 0 (take 1 2)), (update 2 (take 1 2)), (update 2 (take 1 2)), (update 0 (take 1 1)), (update 2 (take 1))",
        "(ok 1), (ok 2), (ok 3), (ok 4), (ok 5), (ok 6), (no 7 8), (ok 8), (no 9 8), (ok 10), (ok 11), (update 0 (end (boards 2) (holder 0) (moves 0) (flight 0) (black 1))), (update 2 (end (boards 2) (holder 0) (moves 0) (flight 0) (black 1)))",
    );
}

/// Update 2 takes two of its own messages, update 0 has one of its own on its way.
#[test]
fn messages_to_oneself() {
    check(
        "(update 2 (ring 2 (active 0) (black))), (update 0 (ring 2 (active 1) (black))), (update 2 (send 0 0)), (update 0 (send 0 0)), (update 0 (send 1 1)), (update 2 (send 0 0)), (update 0 (take 0)), (update 2 (take 0 2)), (update 2 (take 0))",
        "(ok 1), (ok 2), (ok 3), (no 4 8), (ok 5), (ok 6), (no 7 8), (ok 8), (no 9 8), (update 0 (end (boards 2) (holder 0) (moves 0) (flight 1) (black 0))), (update 2 (end (boards 2) (holder 0) (moves 0) (flight 0) (black 1)))",
    );
    check(
        "(update 5 (ring 1 (active 0) (black))), (update 5 (send 0 0)), (update 5 (take 0)), (update 5 (idle 0)), (update 5 (announce)), (update 5 (probe)), (update 5 (announce))",
        "(ok 1), (ok 2), (ok 3), (ok 4), (no 5 8), (ok 6), (ok 7), (update 5 (end (boards 1) (holder 0) (moves 1) (flight 0) (black 0)))",
    );
}

#[test]
fn a_bare_log_knows_no_updates() {
    for line in [
        "(update 2 (ring 2))",
        "(update 0 (probe))",
        "(update 8 (probe))",
    ] {
        let ring = format!("(ring 2)\n{line}\n");
        assert_eq!(
            answers(ring.as_bytes()),
            format!("(ok 1)\n(no 2 10)\n{BLANK}\n")
        );
        let tree = format!("(tree 3 (root 0))\n{line}\n");
        let end = "(end (boards 3) (engaged (0)) (acks 0))";
        assert_eq!(
            answers(tree.as_bytes()),
            format!("(ok 1)\n(no 2 10)\n{end}\n")
        );
    }
}

/// A wrapped start of `length` bytes with its byte 10, which names nodes of N or more.
fn start_of(length: usize) -> Vec<u8> {
    let (head, tail) = ("(update 7 (ring 96 (active", ") (black)))\n");
    let mut line = String::from(head);
    let room = length - head.len() - tail.len();
    let (twos, threes) = [(0, 0), (2, 1), (1, 0), (0, 1), (2, 0), (1, 1)][room % 6];
    for entry in (0..twos).chain(10..10 + threes) {
        line += &format!(" {entry}");
    }
    for entry in 10_000.. {
        if line.len() + tail.len() >= length {
            break;
        }
        line += &format!(" {entry}");
    }
    line += tail;
    assert_eq!(line.len(), length);
    line.into_bytes()
}

#[test]
fn the_wrapping_counts_to_the_longest_line() {
    assert_eq!(answers(&start_of(LINE_BYTES)), "(no 1 6)\n");
    assert_eq!(answers(&start_of(LINE_BYTES + 1)), "(no 1 10)\n");
    let log = |length| [b"(update 7 (ring 2))\n", &start_of(length)[..]].concat();
    let end = format!("(update 7 {BLANK})\n");
    for (length, number) in [(LINE_BYTES, 1), (LINE_BYTES + 1, 10)] {
        let expected = format!("(ok 1)\n(no 2 {number})\n{end}");
        assert_eq!(answers(&log(length)), expected);
    }
    let all: String = (0..MAX_NODES).map(|i| format!(" {i}")).collect();
    let line = format!("(update 0 (ring 96 (active{all}) (black{all})))\n");
    assert_eq!(line.len(), 594);
    assert_eq!(
        answers(line.as_bytes()),
        "(ok 1)\n(update 0 (end (boards 96) (holder 0) (moves 0) (flight 0) (black 96)))\n"
    );
}

#[test]
fn lines_past_the_limit_are_not_read() {
    let mut log = b"(update 7 (ring 2 (active) (black)))\n".to_vec();
    log.extend(b"(x)\n".repeat(LINE_LIMIT as usize - 2));
    log.extend(b"(update 7 (probe))\n(update 7 (pass 1))\n(update 0 (ring 2))\n");
    assert!(answers(&log).ends_with(
        "(no 999999 10)\n(ok 1000000)\n(update 7 (end (boards 2) (holder 1) (moves 1) (flight 0) (black 0)))\n"
    ));
}

/// The most sends that a log can ask of one update: each is accepted, none is the one after 1,000,000.
#[test]
fn no_log_reaches_the_limit_of_sends() {
    let mut log = b"(update 7 (ring 2 (active 0) (black)))\n".to_vec();
    log.extend(b"(update 7 (send 0 1))\n".repeat(LINE_LIMIT as usize));
    let told = answers(&log);
    assert!(!told.contains("(no "));
    assert!(told.ends_with(
        "(ok 1000000)\n(update 7 (end (boards 2) (holder 0) (moves 0) (flight 999999) (black 0)))\n"
    ));
}

#[test]
fn cut_anywhere_it_answers_alike() {
    let log = b"(update 2 (ring 2))\n(update 2 (probe))\n(update 3 (ring 2 (active 1) (black)))\n(update 8 (probe))\n(update 2 (pass 1))";
    let whole = run(log);
    for cut in 0..=log.len() {
        let mut parts = Log::new();
        let mut out = Vec::new();
        parts.feed(&log[..cut], &mut out);
        parts.feed(&log[cut..], &mut out);
        parts.finish(&mut out);
        assert_eq!(out, whole, "cut at {cut}");
    }
}

/// The sample's answers, which were worked out by hand.
#[test]
fn the_sample() {
    let read = |name: &str| {
        let path = format!("{}/../samples/updates.{name}", env!("CARGO_MANIFEST_DIR"));
        std::fs::read(path).expect("the sample")
    };
    assert_eq!(run(&read("log")), read("out"));
}
