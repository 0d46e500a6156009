//! Writes a benchmark log to standard output: `logs busy|token|tree|updates|unwrapped [LINES]`.

use second::generate::{busy_ring, busy_tree, busy_updates, moving_token};
use second::log::LINE_LIMIT;
use std::io::{self, Write};
use std::process::ExitCode;

fn main() -> ExitCode {
    let mut arguments = std::env::args().skip(1);
    let name = arguments.next().unwrap_or_default();
    let lines = arguments
        .next()
        .map_or(Ok(LINE_LIMIT as usize), |lines| lines.parse());
    let log = match (name.as_str(), lines) {
        ("busy", Ok(lines)) => busy_ring(lines),
        ("token", Ok(lines)) => moving_token(lines),
        ("tree", Ok(lines)) => busy_tree(lines),
        ("updates", Ok(lines)) => busy_updates(lines)[0].clone(),
        ("unwrapped", Ok(lines)) => busy_updates(lines)[1].clone(),
        _ => {
            eprintln!("usage: logs busy|token|tree|updates|unwrapped [LINES]");
            return ExitCode::FAILURE;
        }
    };
    match io::stdout().lock().write_all(&log) {
        Ok(()) => ExitCode::SUCCESS,
        Err(error) => {
            eprintln!("logs: {error}");
            ExitCode::FAILURE
        }
    }
}
