//! The log program: the paper's runs, the forms, the limits and the streaming form.

use second::generate;
use second::log::{run, Log, LINE_BYTES, LINE_LIMIT};
use second::ring::MAX_NODES;

/// The log of lines divided by commas, as the paper prints them, and its answers likewise.
fn check(input: &str, output: &str) {
    let lines = |text: &str| -> String {
        text.split(", ")
            .map(|line| line.to_string() + "\n")
            .collect()
    };
    assert_eq!(answers(lines(input).as_bytes()), lines(output));
}

fn answers(input: &[u8]) -> String {
    String::from_utf8(run(input)).expect("answers of ASCII")
}

/// The answers to a first line alone.
fn first(line: &str) -> String {
    answers(format!("{line}\n").as_bytes())
}

#[test]
fn the_listing() {
    check(
        "(ring 2 (active) (black 1)), (announce), (probe), (pass 1), (announce), (probe), (pass 1), (announce), (pass 1)",
        "(ok 1), (no 2 8), (ok 3), (ok 4), (no 5 8), (ok 6), (ok 7), (ok 8), (no 9 4), (end (boards 2) (holder 0) (moves 4) (flight 0) (black 0))",
    );
}

#[test]
fn seven_moves() {
    check(
        "(ring 3 (active 1) (black)), (probe), (pass 2), (send 1 2), (take 2), (idle 1), (idle 2), (announce), (pass 1), (announce), (probe), (pass 2), (pass 1), (announce), (probe), (pass 2), (pass 1), (announce)",
        "(ok 1), (ok 2), (ok 3), (ok 4), (ok 5), (ok 6), (ok 7), (no 8 8), (ok 9), (no 10 8), (ok 11), (ok 12), (ok 13), (no 14 8), (ok 15), (ok 16), (ok 17), (ok 18), (end (boards 3) (holder 0) (moves 9) (flight 0) (black 0))",
    );
}

#[test]
fn five_moves() {
    check(
        "(ring 3 (active 0 2) (black)), (probe), (send 2 0), (take 0), (idle 0), (idle 2), (pass 2), (pass 1), (announce), (probe), (pass 2), (pass 1), (probe), (announce)",
        "(ok 1), (ok 2), (ok 3), (ok 4), (ok 5), (ok 6), (ok 7), (ok 8), (no 9 8), (ok 10), (ok 11), (ok 12), (no 13 8), (ok 14), (end (boards 3) (holder 0) (moves 6) (flight 0) (black 0))",
    );
}

#[test]
fn ring_of_one() {
    check(
        "(ring 1 (active) (black)), (announce), (probe), (announce)",
        "(ok 1), (no 2 8), (ok 3), (ok 4), (end (boards 1) (holder 0) (moves 1) (flight 0) (black 0))",
    );
}

#[test]
fn tree_of_three() {
    check(
        "(tree 3 (root 0)), (send 0 1), (take 1 0), (idle 0), (idle 1), (leave 1), (announce), (ack 0), (announce)",
        "(ok 1), (ok 2), (ok 3), (ok 4), (ok 5), (ok 6), (no 7 8), (ok 8), (ok 9), (end (boards 3) (engaged (0)) (acks 0))",
    );
}

#[test]
fn end_lines_count_what_is_left() {
    check(
        "(ring 9 (active 8) (black 0 8)), (send 8 1), (send 8 1), (take 1), (probe)",
        "(ok 1), (ok 2), (ok 3), (ok 4), (ok 5), (end (boards 9) (holder 8) (moves 1) (flight 1) (black 2))",
    );
    check(
        "(tree 12 (root 11)), (send 11 10), (send 11 10), (take 10 11), (take 10 11), (send 10 0), (take 0 10)",
        "(ok 1), (ok 2), (ok 3), (ok 4), (ok 5), (ok 6), (ok 7), (end (boards 12) (engaged (11 (10 (0)))) (acks 1))",
    );
}

#[test]
fn sizes_of_a_start() {
    for line in ["(ring 0)", "(ring 97)", "(ring 99999)"] {
        assert_eq!(first(line), "(no 1 1)\n");
    }
    for line in ["(tree 0 (root 0))", "(tree 17 (root 0))"] {
        assert_eq!(first(line), "(no 1 1)\n");
    }
    assert_eq!(
        first("(ring 96)"),
        "(ok 1)\n(end (boards 96) (holder 0) (moves 0) (flight 0) (black 0))\n"
    );
    assert_eq!(
        first("(tree 16 (root 15))"),
        "(ok 1)\n(end (boards 16) (engaged (15)) (acks 0))\n"
    );
}

/// Request Q-6. Every node has to become passive, node 0 too, which may probe before; none is black, so that one round is enough.
#[test]
fn without_lists_all_nodes_are_active_and_white() {
    check(
        "(ring 1), (announce), (probe), (announce), (idle 0), (idle 0), (announce)",
        "(ok 1), (no 2 8), (ok 3), (no 4 8), (ok 5), (no 6 8), (ok 7), (end (boards 1) (holder 0) (moves 1) (flight 0) (black 0))",
    );
    check(
        "(ring 2), (idle 0), (probe), (pass 1), (idle 1), (pass 1), (announce)",
        "(ok 1), (ok 2), (ok 3), (no 4 8), (ok 5), (ok 6), (ok 7), (end (boards 2) (holder 0) (moves 2) (flight 0) (black 0))",
    );
    check(
        "(ring 2 (active) (black)), (idle 0), (send 1 0), (probe), (pass 1), (announce)",
        "(ok 1), (no 2 8), (no 3 8), (ok 4), (ok 5), (ok 6), (end (boards 2) (holder 0) (moves 2) (flight 0) (black 0))",
    );
    check(
        "(ring 96), (idle 95), (idle 95), (send 94 95), (idle 96), (send 95 0)",
        "(ok 1), (ok 2), (no 3 8), (ok 4), (no 5 6), (no 6 8), (end (boards 96) (holder 0) (moves 0) (flight 1) (black 0))",
    );
}

/// Each node in turn: before its idle it does not let the token go; after it, it does, and does not send.
#[test]
fn without_lists_each_node_of_every_ring_is_active() {
    for n in 1..=MAX_NODES {
        let mut log = format!("(ring {n})\n(probe)\n");
        let mut expected = String::from("(ok 1)\n(ok 2)\n");
        for (turn, i) in (1..n).rev().enumerate() {
            log += &format!("(pass {i})\n(idle {i})\n(send {i} 0)\n(pass {i})\n");
            let line = 3 + 4 * turn;
            let [idle, send, pass] = [line + 1, line + 2, line + 3];
            expected += &format!("(no {line} 8)\n(ok {idle})\n(no {send} 8)\n(ok {pass})\n");
        }
        log += "(announce)\n(idle 0)\n(announce)\n";
        let line = 4 * n - 1;
        let [idle, last] = [line + 1, line + 2];
        expected += &format!("(no {line} 8)\n(ok {idle})\n(ok {last})\n");
        expected += &format!("(end (boards {n}) (holder 0) (moves {n}) (flight 0) (black 0))\n");
        assert_eq!(answers(log.as_bytes()), expected);
    }
}

#[test]
fn a_start_is_judged_by_form_then_size_then_nodes() {
    for line in [
        "(ring 2 (active 2) (black))",
        "(ring 2 (active) (black 0 2))",
        "(ring 2 (active 99999) (black))",
        "(tree 3 (root 3))",
        "(tree 16 (root 99999))",
    ] {
        assert_eq!(first(line), "(no 1 6)\n", "{line}");
    }
    for line in [
        "(ring 97 (active 97) (black))",
        "(ring 0 (active 0) (black))",
        "(tree 17 (root 17))",
    ] {
        assert_eq!(first(line), "(no 1 1)\n", "{line}");
    }
    for line in [
        "(ring 2 (active 2) (black 1 0))",
        "(ring 2 (active 5 1) (black))",
        "(ring 97 (active 1 1) (black))",
        "(ring 97 (active))",
        "(tree 17 (root 017))",
    ] {
        assert_eq!(first(line), "(no 1 10)\n", "{line}");
    }
}

#[test]
fn first_lines_that_are_not_a_form() {
    for line in [
        "",
        "(ring)",
        "(ring )",
        "(ring 2 )",
        "(ring 2))",
        "(ring 02)",
        "(ring 100000)",
        "(ring -1)",
        "(Ring 2)",
        "(RING 2)",
        " (ring 2)",
        "(ring 2) ",
        "(ring 2)\r",
        "(ring  2)",
        "(ring\t2)",
        "(ring 2 (active))",
        "(ring 2 (black))",
        "(ring 2 (black) (active))",
        "(ring 2 (active ) (black))",
        "(ring 2 (active)(black))",
        "(ring 2 (active) (black) )",
        "(ring 2 (active 1 0) (black))",
        "(ring 2 (active 0 0) (black))",
        "(ring 2 (active 0  1) (black))",
        "(tree 3)",
        "(tree 3 (root))",
        "(tree 3 (root 0 1))",
        "(tree 3 (root 00))",
        "(tree 3 (root 0)",
        "(tree 3 (active) (black))",
        "(send 0 1)",
        "(announce)",
    ] {
        assert_eq!(first(line), "(no 1 10)\n", "{line}");
    }
}

#[test]
fn after_a_bad_first_line_nothing_follows() {
    assert_eq!(answers(b""), "(no 1 10)\n");
    assert_eq!(answers(b"(ring 2)"), "(no 1 10)\n");
    assert_eq!(answers(b"x\n(ring 2)\n(probe)\n"), "(no 1 10)\n");
    assert_eq!(answers(b"(ring 0)\n(ring 2)\n(probe)"), "(no 1 1)\n");
    assert_eq!(answers(b"\n(ring 2)\n"), "(no 1 10)\n");
}

/// After a ring's start.
fn assert_no_form(line: &str) {
    let log = format!("(ring 2)\n{line}\n");
    let expected =
        "(ok 1)\n(no 2 10)\n(end (boards 2) (holder 0) (moves 0) (flight 0) (black 0))\n";
    assert_eq!(answers(log.as_bytes()), expected, "{line}");
}

#[test]
fn ring_lines_that_are_not_a_form() {
    for line in [
        "",
        "()",
        "(",
        "probe",
        "(probe",
        "(probe )",
        "(probe 0)",
        "(probe)(",
        "((probe))",
        "(Probe)",
        "(prob)",
        "(probes)",
        "(send 0)",
        "(send 0 1 0)",
        "(send  0 1)",
        "(send 0  1)",
        "(send 0 1 )",
        "(send 00 1)",
        "(send 0 01)",
        "(send 0 100000)",
        "(send 0 +1)",
        "(send 0,1)",
        "(take)",
        "(ack 0)",
        "(leave 1)",
        "(announce 0)",
        "(ring 2)",
        "(tree 3 (root 0))",
        "(probe)\r",
        "(probe\0)",
        "\u{ff}(probe)",
    ] {
        assert_no_form(line);
    }
}

#[test]
fn takes_that_are_not_a_form() {
    for line in [
        "(take)",
        "(take )",
        "(take 1 )",
        "(take  1)",
        "(take 1  5)",
        "(take 1 05)",
        "(take 1 00)",
        "(take 1 100000)",
        "(take 1 5 1)",
        "(take 1 5 )",
        "(take 1 -5)",
        "(take 1,5)",
        "(take 1 5",
        "(Take 1 5)",
    ] {
        assert_no_form(line);
    }
}

#[test]
fn tree_lines_that_are_not_a_form() {
    for line in [
        "(take)",
        "(take 1)",
        "(take 1 0 0)",
        "(take 1 0 1)",
        "(take 1 00)",
        "(probe)",
        "(pass 1)",
        "(ack)",
        "(ack 0 0)",
        "(leave)",
        "(tree 3 (root 0))",
        "(ring 2)",
    ] {
        let log = format!("(tree 3 (root 0))\n{line}\n");
        let expected = "(ok 1)\n(no 2 10)\n(end (boards 3) (engaged (0)) (acks 0))\n";
        assert_eq!(answers(log.as_bytes()), expected, "{line}");
    }
}

#[test]
fn steps_are_judged_in_the_order_of_the_table() {
    check(
        "(ring 3 (active) (black)), (send 3 3), (send 0 99999), (send 2 2), (send 1 2), (take 0), (idle 3), (pass 3), (pass 0), (probe), (pass 2), (pass 1), (announce), (send 9 9), (probe), (probe 1)",
        "(ok 1), (no 2 6), (no 3 6), (no 4 8), (no 5 8), (no 6 8), (no 7 6), (no 8 6), (no 9 8), (ok 10), (ok 11), (ok 12), (ok 13), (no 14 4), (no 15 4), (no 16 10), (end (boards 3) (holder 0) (moves 3) (flight 0) (black 0))",
    );
    check(
        "(tree 2 (root 1)), (send 2 2), (send 0 0), (send 0 1), (take 0 2), (take 0 1), (ack 1), (leave 1), (leave 0), (idle 1), (announce), (ack 7)",
        "(ok 1), (no 2 6), (no 3 8), (no 4 8), (no 5 6), (no 6 8), (no 7 8), (no 8 8), (no 9 8), (ok 10), (ok 11), (no 12 4), (end (boards 2) (engaged (1)) (acks 0))",
    );
}

/// Three messages on their way to node 1, then as many as a take says; `(take 1)` is `(take 1 1)`.
#[test]
fn takes_of_several() {
    check(
        "(ring 3 (active 0) (black)), (send 0 1), (send 0 1), (send 0 1), (take 1 4), (take 1 0), (take 1 1001), (take 1 99999), (take 3 1), (take 99999 0), (take 1 2), (take 1 2), (take 1 1), (take 1 1), (take 1)",
        "(ok 1), (ok 2), (ok 3), (ok 4), (no 5 8), (no 6 8), (no 7 8), (no 8 8), (no 9 6), (no 10 6), (ok 11), (no 12 8), (ok 13), (no 14 8), (no 15 8), (end (boards 3) (holder 0) (moves 0) (flight 0) (black 1))",
    );
    check(
        "(ring 2 (active 0) (black)), (send 0 1), (send 0 1), (send 0 1), (take 1), (take 1 1), (idle 0), (idle 1), (take 1), (take 1)",
        "(ok 1), (ok 2), (ok 3), (ok 4), (ok 5), (ok 6), (ok 7), (ok 8), (ok 9), (no 10 8), (end (boards 2) (holder 0) (moves 0) (flight 0) (black 1))",
    );
}

/// Node 2 takes its own message behind the token: quiet at holder 1, then 7 moves.
#[test]
fn a_ring_with_a_message_to_oneself() {
    check(
        "(ring 3 (active 2) (black)), (send 2 2), (send 0 0), (send 3 3), (take 2 2), (probe), (idle 2), (pass 2), (take 2), (idle 2), (send 2 2), (pass 1), (announce), (probe), (pass 2), (pass 1), (announce), (probe), (pass 2), (pass 1), (announce)",
        "(ok 1), (ok 2), (no 3 8), (no 4 6), (no 5 8), (ok 6), (ok 7), (ok 8), (ok 9), (ok 10), (no 11 8), (ok 12), (no 13 8), (ok 14), (ok 15), (ok 16), (no 17 8), (ok 18), (ok 19), (ok 20), (ok 21), (end (boards 3) (holder 0) (moves 9) (flight 0) (black 0))",
    );
    check(
        "(ring 3 (active 2) (black)), (send 2 2), (send 2 2), (take 2)",
        "(ok 1), (ok 2), (ok 3), (ok 4), (end (boards 3) (holder 0) (moves 0) (flight 1) (black 1))",
    );
}

/// The token goes round while the message is on its way; once the ring is quiet, one probe.
#[test]
fn a_ring_of_one_with_a_message_to_itself() {
    check(
        "(ring 1 (active 0) (black)), (send 0 0), (announce), (probe), (probe), (idle 0), (announce), (take 0), (idle 0), (announce), (probe), (probe), (announce), (send 0 0)",
        "(ok 1), (ok 2), (no 3 8), (ok 4), (ok 5), (ok 6), (no 7 8), (ok 8), (ok 9), (no 10 8), (ok 11), (no 12 8), (ok 13), (no 14 4), (end (boards 1) (holder 0) (moves 3) (flight 0) (black 0))",
    );
}

#[test]
fn a_tree_with_a_message_to_oneself() {
    check(
        "(tree 3 (root 0)), (send 0 2), (take 2 0), (send 2 2), (send 1 1), (take 0 0), (idle 2), (leave 2), (take 2 2), (idle 2), (leave 2)",
        "(ok 1), (ok 2), (ok 3), (ok 4), (no 5 8), (no 6 8), (ok 7), (no 8 8), (ok 9), (ok 10), (no 11 8), (end (boards 3) (engaged (0 (2))) (acks 1))",
    );
    check(
        "(tree 1 (root 0)), (send 0 0), (idle 0), (announce), (take 0 0), (take 0 0), (announce), (idle 0), (announce), (leave 0), (ack 0), (ack 0), (announce), (send 0 0)",
        "(ok 1), (ok 2), (ok 3), (no 4 8), (ok 5), (no 6 8), (no 7 8), (ok 8), (no 9 8), (no 10 8), (ok 11), (no 12 8), (ok 13), (no 14 4), (end (boards 1) (engaged (0)) (acks 0))",
    );
}

/// 1,001 messages on their way: a take of all of them is too large, one of 1,000 is not.
#[test]
fn the_largest_take() {
    let sends = "(send 0 1)\n".repeat(1_001);
    let log = format!("(ring 2 (active 0) (black))\n{sends}(take 1 1001)\n(take 1 1000)\n(take 1 2)\n(take 1 1)\n");
    assert!(answers(log.as_bytes()).ends_with(
        "(ok 1002)\n(no 1003 8)\n(ok 1004)\n(no 1005 8)\n(ok 1006)\n(end (boards 2) (holder 0) (moves 0) (flight 0) (black 1))\n"
    ));
}

/// The samples' answers, which were worked out by hand: takes of several, messages to oneself, a start without lists.
#[test]
fn the_samples_of_an_inbox_of_messages_to_oneself_and_of_a_start_without_lists() {
    for name in ["inbox", "own", "bare"] {
        let read = |end: &str| {
            let path = format!("{}/../samples/{name}.{end}", env!("CARGO_MANIFEST_DIR"));
            std::fs::read(path).expect("the sample")
        };
        assert_eq!(run(&read("log")), read("out"), "{name}");
    }
}

/// A tree's take names the sender, not a number of messages.
#[test]
fn a_trees_take_is_of_one_message() {
    check(
        "(tree 3 (root 2)), (send 2 1), (send 2 1), (take 1 0), (take 1 1), (take 1 2), (take 1), (take 1 3), (take 1 2), (take 1 2)",
        "(ok 1), (ok 2), (ok 3), (no 4 8), (no 5 8), (ok 6), (no 7 10), (no 8 6), (ok 9), (no 10 8), (end (boards 3) (engaged (2 (1))) (acks 1))",
    );
}

#[test]
fn a_last_line_without_its_byte_ten() {
    assert_eq!(
        answers(b"(ring 2)\n(probe)"),
        "(ok 1)\n(no 2 10)\n(end (boards 2) (holder 0) (moves 0) (flight 0) (black 0))\n"
    );
}

#[test]
fn long_lines_are_one_line() {
    let end = "(end (boards 2) (holder 1) (moves 1) (flight 0) (black 0))\n";
    for length in [
        LINE_BYTES - 1,
        LINE_BYTES,
        LINE_BYTES + 1,
        2 * LINE_BYTES,
        100_000,
    ] {
        let mut log = b"(ring 2)\n".to_vec();
        log.extend(vec![b'x'; length]);
        log.extend(b"(probe)\n(probe)\n");
        assert_eq!(answers(&log), format!("(ok 1)\n(no 2 10)\n(ok 3)\n{end}"));
    }
}

/// A first line of exactly `length` bytes with its byte 10, well formed,
/// with nodes of N or more in its list.
fn first_line_of(length: usize) -> Vec<u8> {
    // 18 + 5 or 18 + 6 bytes before and 11 after the entries of five digits, 6 bytes each.
    let mut line = String::from("(ring 96 (active 1");
    if length % 6 == 4 {
        line += " 2 10";
    } else {
        line += " 10 11";
    }
    for entry in 10_000.. {
        if line.len() + ") (black))\n".len() >= length {
            break;
        }
        line += &format!(" {entry}");
    }
    line += ") (black))\n";
    assert_eq!(line.len(), length);
    line.into_bytes()
}

#[test]
fn the_longest_line() {
    assert_eq!(LINE_BYTES % 6, 4);
    assert_eq!(answers(&first_line_of(LINE_BYTES)), "(no 1 6)\n");
    assert_eq!(answers(&first_line_of(LINE_BYTES + 1)), "(no 1 10)\n");
}

#[test]
fn the_longest_useful_start() {
    let all: String = (0..MAX_NODES).map(|i| format!(" {i}")).collect();
    let line = format!("(ring 96 (active{all}) (black{all}))");
    assert_eq!(line.len() + 1, 583);
    assert_eq!(
        first(&line),
        "(ok 1)\n(end (boards 96) (holder 0) (moves 0) (flight 0) (black 96))\n"
    );
}

#[test]
fn lines_past_the_limit_are_not_read() {
    let mut log = b"(ring 2 (active) (black))\n".to_vec();
    log.extend(b"(x)\n".repeat(LINE_LIMIT as usize - 2));
    log.extend(b"(probe)\n(pass 1)\n");
    let text = answers(&log);
    assert!(text.ends_with(
        "(no 999999 10)\n(ok 1000000)\n(end (boards 2) (holder 1) (moves 1) (flight 0) (black 0))\n"
    ));
    // A millionth line without its byte 10 is read and refused.
    log.truncate(log.len() - "\n(pass 1)\n".len());
    let text = answers(&log);
    assert!(text.ends_with(
        "(no 1000000 10)\n(end (boards 2) (holder 0) (moves 0) (flight 0) (black 0))\n"
    ));
}

fn fed(pieces: &[&[u8]]) -> Vec<u8> {
    let mut log = Log::new();
    let mut out = Vec::new();
    for piece in pieces {
        log.feed(piece, &mut out);
    }
    log.finish(&mut out);
    out
}

#[test]
fn cut_anywhere_it_answers_alike() {
    let long = [
        b"(ring 2)\n",
        &[b'x'; LINE_BYTES + 5][..],
        b"\n(probe)\n(pass 1)",
    ]
    .concat();
    let logs: [&[u8]; 6] = [
        b"(ring 2 (active) (black 1))\n(announce)\n(probe)\n(pass 1)\n\n(probe)\n",
        b"(tree 3 (root 0))\n(send 0 1)\n(take 1 0)\n(idle 0)\r\n(leave 1)",
        b"(ring 97)\n(probe)\n",
        b"\n\n",
        b"",
        &long,
    ];
    for log in logs {
        let whole = run(log);
        for cut in 0..=log.len() {
            assert_eq!(fed(&[&log[..cut], &log[cut..]]), whole, "cut at {cut}");
        }
        let bytes: Vec<&[u8]> = log.chunks(1).collect();
        assert_eq!(fed(&bytes), whole);
    }
}

#[test]
fn generated_logs_cut_in_pieces() {
    for seed in 0..320 {
        let log = generate::log(seed, 40);
        let whole = run(&log);
        for length in [
            1,
            7,
            LINE_BYTES - 1,
            LINE_BYTES,
            LINE_BYTES + 1,
            LINE_BYTES + 2,
        ] {
            let pieces: Vec<&[u8]> = log.chunks(length).collect();
            assert_eq!(fed(&pieces), whole, "seed {seed}, pieces of {length}");
        }
    }
}

#[test]
fn the_moving_token_is_accepted_throughout() {
    let log = generate::moving_token(1_000);
    let text = answers(&log);
    assert!(!text.contains("(no "));
    assert!(text.ends_with("(end (boards 2) (holder 0) (moves 998) (flight 1) (black 0))\n"));
}
