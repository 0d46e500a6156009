//! Times the proved program, the second implementation and `wc -l` on the benchmark logs,
//! turn by turn in one run: `bench PROGRAM [LINES]`. `second` is the one beside this file.
//! Prints lines per second, and each ratio of times; below 1 the proved program is the faster.
//! The last ratio is of the proved program's times on eight updates and on the same steps of one ring.

use second::generate::{busy_ring, busy_tree, busy_updates, moving_token};
use second::log::LINE_LIMIT;
use second::times::median;
use std::fs::{self, File};
use std::io;
use std::path::{Path, PathBuf};
use std::process::{Command, ExitCode, Stdio};
use std::time::Instant;

const TURNS: usize = 21;
/// The greatest ratio that request Q-1 allows.
const UPDATES_RATIO: f64 = 1.5;

fn seconds(program: &[&str], log: &Path) -> io::Result<f64> {
    let input = File::open(log)?;
    let begin = Instant::now();
    let status = Command::new(program[0])
        .args(&program[1..])
        .stdin(input)
        .stdout(Stdio::null())
        .status()?;
    assert!(status.success(), "{} failed", program[0]);
    Ok(begin.elapsed().as_secs_f64())
}

/// The medians of each run's times, all of them made in each turn: a program and its log.
fn medians(runs: &[(&[&str], &Path)]) -> io::Result<Vec<f64>> {
    let mut times = vec![Vec::new(); runs.len()];
    for _ in 0..TURNS {
        for (times, (program, log)) in times.iter_mut().zip(runs) {
            times.push(seconds(program, log)?);
        }
    }
    Ok(times.into_iter().map(median).collect())
}

/// A log in a file of its own, removed in the end.
struct Written(PathBuf);

impl Written {
    fn new(name: &str, log: &[u8]) -> io::Result<Self> {
        let path = std::env::temp_dir().join(format!("bench-{}-{name}.log", std::process::id()));
        fs::write(&path, log)?;
        Ok(Self(path))
    }
}

impl Drop for Written {
    fn drop(&mut self) {
        let _ = fs::remove_file(&self.0);
    }
}

fn print_row(name: &str, lines: usize, found: &[f64]) {
    print!("{name:9}");
    for seconds in &found[..3] {
        print!(" {:8.1}", lines as f64 / seconds / 1e6);
    }
    println!(" {:9.2} {:9.2}", found[0] / found[1], found[0] / found[2]);
}

fn measure(name: &str, log: &[u8], lines: usize, programs: [&[&str]; 3]) -> io::Result<()> {
    let log = Written::new(name, log)?;
    let found = medians(&programs.map(|program| (program, &*log.0)))?;
    print_row(name, lines, &found);
    Ok(())
}

/// Eight busy rings, and the same steps unwrapped on one: both in each turn.
fn measure_updates(lines: usize, programs: [&[&str]; 3]) -> io::Result<()> {
    let [updates, one] = busy_updates(lines);
    let (updates, one) = (
        Written::new("updates", &updates)?,
        Written::new("unwrapped", &one)?,
    );
    let runs = [&updates, &one].map(|log| programs.map(|program| (program, &*log.0)));
    let found = medians(&runs.concat())?;
    print_row("updates", lines, &found[..3]);
    print_row("unwrapped", lines, &found[3..]);
    let ratio = found[0] / found[3];
    println!("updates / unwrapped, proved: {ratio:.2} (asked: at most {UPDATES_RATIO})");
    if ratio > UPDATES_RATIO {
        return Err(io::Error::other("a log of updates takes too long"));
    }
    Ok(())
}

fn run(program: &str, lines: usize) -> io::Result<()> {
    let second = std::env::current_exe()?.with_file_name("second");
    let second = second.to_str().expect("a path of plain text");
    let programs: [&[&str]; 3] = [&[program], &[second], &["wc", "-l"]];
    println!("{lines} lines; millions of lines a second, and ratios of times");
    println!("log         proved   second    wc -l   /second    /wc -l");
    for (name, log) in [
        ("busy", busy_ring(lines)),
        ("token", moving_token(lines)),
        ("tree", busy_tree(lines)),
    ] {
        measure(name, &log, lines, programs)?;
    }
    measure_updates(lines, programs)
}

fn main() -> ExitCode {
    let arguments: Vec<String> = std::env::args().skip(1).collect();
    let lines = arguments
        .get(1)
        .map_or(Ok(LINE_LIMIT as usize), |n| n.parse());
    let (Some(program), Ok(lines)) = (arguments.first(), lines) else {
        eprintln!("usage: bench PROGRAM [LINES]");
        return ExitCode::FAILURE;
    };
    match run(program, lines) {
        Ok(()) => ExitCode::SUCCESS,
        Err(error) => {
            eprintln!("bench: {error}");
            ExitCode::FAILURE
        }
    }
}
