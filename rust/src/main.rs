//! The log program: standard input to standard output.

use second::log::Log;
use std::io::{self, ErrorKind, Read, Write};

const PIECE: usize = 1 << 17;

fn main() -> io::Result<()> {
    let mut input = io::stdin().lock();
    let mut output = io::stdout().lock();
    let mut piece = vec![0; PIECE];
    let mut answers = Vec::with_capacity(2 * PIECE);
    let mut log = Log::new();
    while !log.is_over() {
        let count = match input.read(&mut piece) {
            Ok(0) => break,
            Ok(count) => count,
            Err(error) if error.kind() == ErrorKind::Interrupted => continue,
            Err(error) => return Err(error),
        };
        log.feed(&piece[..count], &mut answers);
        output.write_all(&answers)?;
        answers.clear();
    }
    log.finish(&mut answers);
    output.write_all(&answers)?;
    output.flush()
}
