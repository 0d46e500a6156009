//! Compares another log program with this one on many generated logs, byte for byte:
//! `compare PROGRAM LOGS LINES [SEED]`.
//!
//! Log k has the seed SEED + k and a share of the lines that are left, so a failing log
//! comes again as `compare PROGRAM 1 SHARE ITS-SEED`. Two more logs, a ring's and a tree's
//! that are longer than the greatest number of lines, follow, with figures of their own.
//! Then come as many logs of updates, by the same seeds, and one past the limit of lines.
//!
//! Then it prints what was met, each figure with its bound, and fails if one is not within
//! it. With a SEED no bound is asked: that is for finding a fault again.

use second::generate::{log, past_line_limit, updates_log, updates_past_line_limit, Rng};
use second::log::{run, Log};
use second::report::Report;
use second::tally::{split, Tally};
use std::io::{self, ErrorKind, Write};
use std::process::{Command, ExitCode, Output, Stdio};

/// The seed where none is given.
const FIRST_SEED: u64 = 1;

fn main() -> ExitCode {
    let arguments: Vec<String> = std::env::args().skip(1).collect();
    let Some((program, logs, lines, seed)) = parse(&arguments) else {
        println!("usage: compare PROGRAM LOGS LINES [SEED]");
        return ExitCode::FAILURE;
    };
    match compare(program, logs, lines, seed.unwrap_or(FIRST_SEED)) {
        Ok(report) => {
            if report.print() || seed.is_some() {
                return ExitCode::SUCCESS;
            }
            println!("FAILED: figures marked ! are not within their bounds");
        }
        Err(failure) => println!("{failure}"),
    }
    ExitCode::FAILURE
}

fn parse(arguments: &[String]) -> Option<(&str, usize, usize, Option<u64>)> {
    let (program, logs, lines, seed) = match arguments {
        [program, logs, lines] => (program, logs, lines, None),
        [program, logs, lines, seed] => (program, logs, lines, Some(seed.parse().ok()?)),
        _ => return None,
    };
    Some((program, logs.parse().ok()?, lines.parse().ok()?, seed))
}

/// The logs by seed, of which every figure is asked, and those past the limit of lines.
fn compare(program: &str, logs: usize, lines: usize, seed: u64) -> Result<Report, String> {
    let mut report = Report::default();
    let by_seed = compare_seeds(program, logs, lines, seed, log)?;
    by_seed.report_shares("same: logs by seed", &mut report);
    by_seed.report(&mut report);
    let long = compare_long(program, seed, &past_line_limit())?;
    long.report_shares("same: logs past the limit of lines", &mut report);
    let of_updates = compare_seeds(program, logs, lines, seed, updates_log)?;
    of_updates.report_updates(&mut report);
    compare_long(program, seed, &[updates_past_line_limit()])?;
    report.told("same: logs of updates past the limit of lines", 1);
    Ok(report)
}

fn compare_long(program: &str, seed: u64, inputs: &[Vec<u8>]) -> Result<Tally, String> {
    let mut tally = Tally::default();
    for input in inputs {
        compare_one(program, seed, input, &mut tally)
            .map_err(|failure| format!("FAILED: a log past the limit of lines: {failure}"))?;
    }
    Ok(tally)
}

fn compare_seeds(
    program: &str,
    logs: usize,
    lines: usize,
    seed: u64,
    log: fn(u64, usize) -> Vec<u8>,
) -> Result<Tally, String> {
    let mut tally = Tally::default();
    let mut left = lines;
    for k in 0..logs {
        let seed = seed.wrapping_add(k as u64);
        let share = left / (logs - k);
        let input = log(seed, share);
        left = left.saturating_sub(split(&input).count());
        compare_one(program, seed, &input, &mut tally)
            .map_err(|failure| format!("FAILED: seed {seed}, share {share}: {failure}"))?;
    }
    Ok(tally)
}

fn compare_one(program: &str, seed: u64, input: &[u8], tally: &mut Tally) -> Result<(), String> {
    let expected = run(input);
    same(input, &expected, &run_in_pieces(seed, input))
        .map_err(|failure| format!("fed in pieces, {failure}"))?;
    let output = run_program(program, input).map_err(|error| format!("{program}: {error}"))?;
    same(input, &expected, &output.stdout)?;
    if !output.status.success() || !output.stderr.is_empty() {
        return Err(format!(
            "{}, standard error: {:?}",
            output.status,
            String::from_utf8_lossy(&output.stderr)
        ));
    }
    tally.count(input, &expected);
    Ok(())
}

/// The streaming form, fed in pieces of random lengths.
fn run_in_pieces(seed: u64, mut input: &[u8]) -> Vec<u8> {
    let mut rng = Rng::new(!seed);
    let longest = rng.pick(&[1, 3, 40, 800, 70_000]);
    let mut log = Log::new();
    let mut out = Vec::new();
    while !input.is_empty() {
        let length = rng.below(longest + 1).min(input.len());
        let (piece, rest) = input.split_at(length);
        log.feed(piece, &mut out);
        input = rest;
    }
    log.finish(&mut out);
    out
}

/// One process of the other program, with `input` as its standard input.
fn run_program(program: &str, input: &[u8]) -> io::Result<Output> {
    let mut child = Command::new(program)
        .stdin(Stdio::piped())
        .stdout(Stdio::piped())
        .stderr(Stdio::piped())
        .spawn()?;
    let mut stdin = child.stdin.take().expect("a piped standard input");
    std::thread::scope(|scope| {
        let writing = scope.spawn(move || match stdin.write_all(input) {
            // It may stop reading early: after a refused start or the last line.
            Err(error) if error.kind() == ErrorKind::BrokenPipe => Ok(()),
            written => written,
        });
        let output = child.wait_with_output()?;
        writing.join().expect("the writer does not panic")?;
        Ok(output)
    })
}

/// Equal outputs, or the first line that differs.
fn same(input: &[u8], expected: &[u8], found: &[u8]) -> Result<(), String> {
    if expected == found {
        return Ok(());
    }
    let mut line = 1;
    let (mut expected_lines, mut found_lines) = (split(expected), split(found));
    loop {
        let (expected, found) = (expected_lines.next(), found_lines.next());
        if expected != found {
            return Err(format!(
                "line {line} of the output differs\n  expected: {}\n  found:    {}\n  input:    {}",
                shown(expected),
                shown(found),
                shown(split(input).nth(line - 1))
            ));
        }
        line += 1;
    }
}

fn shown(line: Option<&[u8]>) -> String {
    match line {
        None => "(nothing)".to_string(),
        Some(line) if line.len() > 900 => format!("({} bytes)", line.len()),
        Some(line) => line.escape_ascii().to_string(),
    }
}
