//! Walks the states of EWD998 for N = 3 and prints the figures of document 001's table. The walk keeps to the listing's own
//! SendMsg, no message to oneself; since request Q-4 the ring allows one.

use second::report::Report;
use second::request::Request;
use second::ring::Ring;
use second::walk::walk;
use std::process::ExitCode;

fn main() -> ExitCode {
    println!("the listing's own SendMsg: no message to oneself; since Q-4 the ring allows one");
    let mut report = Report::default();
    walk(own_step).report("this library's step", &mut report);
    if report.print() {
        ExitCode::SUCCESS
    } else {
        println!("FAILED: figures marked ! are not those of the published table (60, 1.3 million, 10.1 million)");
        ExitCode::FAILURE
    }
}

/// The step of this library.
fn own_step(ring: &Ring, request: Request) -> Option<Ring> {
    let mut next = ring.clone();
    next.step(request).ok().map(|()| next)
}
