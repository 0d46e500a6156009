//! What the generated logs are for: accepted steps mostly, and the limit of lines.

use second::generate::{
    busy_ring, busy_tree, busy_updates, log, past_line_limit, updates_log, updates_past_line_limit,
    Rng,
};
use second::log::{run, LINE_LIMIT};
use second::report::Report;
use second::table::UPDATES;
use second::tally::{split, Tally};

#[test]
fn a_seed_gives_the_same_log() {
    for seed in 0..100 {
        assert_eq!(log(seed, 50), log(seed, 50));
        assert_ne!(log(seed, 50), log(seed + 1, 50));
    }
}

#[test]
fn half_of_the_lines_are_accepted_and_few_are_no_form() {
    let mut tally = Tally::default();
    for seed in 0..400 {
        let log = log(seed, 200);
        tally.count(&log, &run(&log));
    }
    let mut report = Report::default();
    tally.report_shares("logs", &mut report);
    assert!(report.holds());
}

/// Takes of every number and spelling among it.
#[test]
fn the_logs_meet_what_is_asked() {
    let mut tally = Tally::default();
    for seed in 1..=2_000 {
        let log = log(seed, 600);
        tally.count(&log, &run(&log));
    }
    let mut report = Report::default();
    tally.report(&mut report);
    assert!(report.holds());
}

#[test]
fn the_last_line_that_is_read_is_accepted() {
    for log in past_line_limit() {
        assert!(split(&log).count() > LINE_LIMIT as usize);
        let answers = run(&log);
        let last = split(&answers).nth(LINE_LIMIT as usize - 1);
        assert_eq!(last, Some(&b"(ok 1000000)\n"[..]));
    }
}

#[test]
fn a_seed_gives_the_same_log_of_updates() {
    for seed in 0..100 {
        assert_eq!(updates_log(seed, 50), updates_log(seed, 50));
        assert_ne!(updates_log(seed, 50), updates_log(seed + 1, 50));
    }
}

#[test]
fn the_logs_of_updates_meet_what_is_asked() {
    let mut tally = Tally::default();
    for seed in 0..2_000 {
        let log = updates_log(seed, 500);
        tally.count(&log, &run(&log));
    }
    let mut report = Report::default();
    tally.report_updates(&mut report);
    assert!(report.holds());
}

#[test]
fn the_last_line_of_updates_that_is_read_is_accepted() {
    let log = updates_past_line_limit();
    assert!(split(&log).count() > LINE_LIMIT as usize);
    let answers = run(&log);
    let last = split(&answers).nth(LINE_LIMIT as usize - 1);
    assert_eq!(last, Some(&b"(ok 1000000)\n"[..]));
    assert!(answers.ends_with(b")))\n"));
}

/// A lone node's messages are all to itself.
#[test]
fn about_one_message_in_ten_is_to_oneself() {
    let mut rng = Rng::new(7);
    for n in [2, 5, 96] {
        let own = (0..10_000).filter(|k| rng.other_end(n, k % n) == k % n);
        let own = own.count();
        assert!((800..1_200).contains(&own), "{own} of {n}");
    }
    assert!((0..100).all(|_| rng.other_end(1, 0) == 0));
}

#[test]
fn about_one_send_in_ten_of_the_busy_logs_is_to_oneself() {
    let [wrapped, bare] = busy_updates(20_000);
    for log in [busy_ring(20_000), busy_tree(20_000), wrapped, bare] {
        let text = String::from_utf8(log).expect("lines of ASCII");
        let sends = text.lines().filter_map(|line| line.split_once("(send "));
        let nodes = sends.map(|(_, nodes)| nodes.trim_end_matches(')').split_once(' '));
        let nodes: Vec<(&str, &str)> = nodes.map(|nodes| nodes.expect("two nodes")).collect();
        let own = nodes.iter().filter(|(i, j)| i == j).count();
        assert!(nodes.len() > 3_000, "{}", nodes.len());
        assert!((nodes.len() / 14..nodes.len() / 8).contains(&own), "{own}");
    }
}

/// Takes there are of one message, and said so by no number.
#[test]
fn busy_logs_take_one_message_at_a_time() {
    let [wrapped, bare] = busy_updates(5_000);
    for log in [busy_ring(5_000), wrapped, bare] {
        let text = String::from_utf8(log).expect("lines of ASCII");
        let takes: Vec<&str> = text.lines().filter(|line| line.contains("take")).collect();
        assert!(takes.len() > 500);
        let numbers = |line: &str| {
            line.split_once("(take ")
                .map(|(_, rest)| rest.contains(' '))
        };
        assert!(takes.iter().all(|line| numbers(line) == Some(false)));
    }
}

/// The same steps on eight rings and on one have the same answers, and most are accepted.
#[test]
fn busy_updates_are_answered_alike_on_one_ring() {
    let lines = 20_000;
    let numbers = |log: &[u8], starts: usize| -> Vec<Vec<u8>> {
        let answers = run(log);
        let answers = split(&answers).take(lines - UPDATES + starts).skip(starts);
        let number = |answer: &[u8]| match answer.starts_with(b"(ok ") {
            true => Vec::new(),
            false => answer
                .rsplit(|&b| b == b' ')
                .next()
                .unwrap_or_default()
                .to_vec(),
        };
        answers.map(number).collect()
    };
    let [wrapped, bare] = busy_updates(lines);
    let wrapped = numbers(&wrapped, UPDATES);
    assert_eq!(wrapped, numbers(&bare, 1));
    let accepted = wrapped.iter().filter(|number| number.is_empty()).count();
    assert!(accepted > lines * 8 / 10);
}
