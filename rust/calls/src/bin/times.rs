//! Nanoseconds of a call of a ring's soundness and step: of the proved ones, of the second implementation's, and of the proved ones of another
//! build of this program, which is linked with another archive: `times [OTHER]`. They are measured turn by turn in one run, each build's in a
//! process of its own, so that none begins otherwise than the other; medians are printed, and nothing is asked of them.
//! `times --turn` is such a process.

use calls::lent::LentRing;
use calls::proved;
use second::request::{Request, PASS, PROBE};
use second::ring::{Ring, MAX_NODES};
use second::times::median;
use std::ffi::OsStr;
use std::hint::black_box;
use std::io;
use std::process::{Command, ExitCode};
use std::time::Instant;

const TURNS: usize = 21;
const CALLS: usize = 20_000;
const TURN: &str = "--turn";

/// What is measured, and where the second implementation's times of it are beside the proved ones.
const ROWS: [&str; 6] = [
    "sound, 96",
    "sound, 2",
    "not sound, 96",
    "not sound, 2",
    "step, 96",
    "step, 2",
];
const SECOND: usize = ROWS.len();
type Times = [f64; 2 * ROWS.len()];

/// Each node sent two messages and received one, and one is on its way to it. The token is black, so that the ring is sound with the token
/// anywhere; and q plus the counter of node 0 is N after each round, so that the next probe is allowed.
fn ring(n: usize) -> Ring {
    let mut ring = Ring::start(n, &vec![0; n]).expect("a start in range");
    ring.sent[..n].fill(2);
    ring.received[..n].fill(1);
    ring.pending[..n].fill(1);
    ring
}

/// The same with one message received too many: it is not sound, by its totals alone.
fn unsound(n: usize) -> Ring {
    let mut ring = ring(n);
    ring.received[0] += 1;
    ring
}

/// Where the token is put after `pos`.
fn next(pos: usize, n: usize) -> usize {
    if pos + 1 < n {
        pos + 1
    } else {
        0
    }
}

/// The next step of a round: a probe, then a pass of each node from N - 1 down to 1.
fn token_move(pos: usize) -> Request {
    let kind = if pos == 0 { PROBE } else { PASS };
    Request::new(kind, pos, 0)
}

/// Nanoseconds of a call, which tells whether the answer is the expected one; the first calls are not counted.
fn nanoseconds(mut call: impl FnMut() -> bool) -> f64 {
    let mut expected = |calls: usize| (0..calls).filter(|_| black_box(call())).count();
    expected(CALLS / 10);
    let begin = Instant::now();
    assert_eq!(expected(CALLS), CALLS, "calls with the expected answer");
    begin.elapsed().as_nanos() as f64 / CALLS as f64
}

fn proved_soundness(ring: &Ring, sound: bool) -> f64 {
    let mut lent = LentRing::of(ring);
    nanoseconds(|| {
        lent.pos = next(lent.pos, ring.n);
        proved::is_sound(black_box(&mut lent)) == u8::from(sound)
    })
}

fn second_soundness(mut ring: Ring, sound: bool) -> f64 {
    nanoseconds(|| {
        ring.token.pos = next(ring.token.pos, ring.n);
        black_box(&mut ring).is_sound() == sound
    })
}

fn proved_step(n: usize) -> f64 {
    let mut lent = LentRing::of(&ring(n));
    nanoseconds(|| {
        let request = token_move(lent.pos);
        proved::step(black_box(&mut lent), request) == 0
    })
}

fn second_step(n: usize) -> f64 {
    let mut ring = ring(n);
    nanoseconds(|| {
        let request = token_move(ring.token.pos);
        black_box(&mut ring).step(request).is_ok()
    })
}

/// One turn's times.
fn measured() -> Times {
    [
        proved_soundness(&ring(MAX_NODES), true),
        proved_soundness(&ring(2), true),
        proved_soundness(&unsound(MAX_NODES), false),
        proved_soundness(&unsound(2), false),
        proved_step(MAX_NODES),
        proved_step(2),
        second_soundness(ring(MAX_NODES), true),
        second_soundness(ring(2), true),
        second_soundness(unsound(MAX_NODES), false),
        second_soundness(unsound(2), false),
        second_step(MAX_NODES),
        second_step(2),
    ]
}

/// One turn's times as a build of this program prints them.
fn turn(program: &OsStr) -> io::Result<Times> {
    let output = Command::new(program).arg(TURN).output()?;
    let text = String::from_utf8_lossy(&output.stdout);
    let words = text.split_whitespace().map(str::parse);
    let times: Option<Vec<f64>> = words.map(Result::ok).collect();
    times
        .and_then(|times| times.try_into().ok())
        .ok_or_else(|| io::Error::other(format!("{program:?} {TURN} printed {text:?}")))
}

fn print_row(row: usize, these: &[Times], others: &[Times]) {
    let of = |turns: &[Times], which: usize| median(turns.iter().map(|turn| turn[which]).collect());
    let [proved, second] = [row, SECOND + row].map(|which| of(these, which));
    let ratio = proved / second;
    print!("{:13} {proved:8.1} {second:8.1}", ROWS[row]);
    if others.is_empty() {
        println!(" {:>8} {ratio:9.2} {:>9}", "-", "-");
    } else {
        let other = of(others, row);
        println!(" {other:8.1} {ratio:9.2} {:9.2}", proved / other);
    }
}

fn run(other: Option<&str>) -> io::Result<()> {
    let this = std::env::current_exe()?;
    let (mut these, mut others) = (Vec::new(), Vec::new());
    for _ in 0..TURNS {
        these.push(turn(this.as_os_str())?);
        if let Some(other) = other {
            others.push(turn(other.as_ref())?);
        }
    }
    println!("nanoseconds a call on a ring of 96 and of 2, and ratios; medians of {TURNS} turns, {CALLS} calls each");
    println!("sound, not sound: the soundness of a ring that is sound, and of one that is not, by its totals alone, the token at each node in turn; step: the probe and the passes of each round, all accepted");
    println!("                proved   second    other   /second    /other");
    for row in 0..ROWS.len() {
        print_row(row, &these, &others);
    }
    Ok(())
}

fn main() -> ExitCode {
    let arguments: Vec<String> = std::env::args().skip(1).collect();
    let result = match arguments.as_slice() {
        [] => run(None),
        [turn] if turn == TURN => {
            println!("{}", measured().map(|time| time.to_string()).join(" "));
            Ok(())
        }
        [other] => run(Some(other)),
        _ => Err(io::Error::other("usage: times [OTHER]")),
    };
    match result {
        Ok(()) => ExitCode::SUCCESS,
        Err(error) => {
            eprintln!("times: {error}");
            ExitCode::FAILURE
        }
    }
}
