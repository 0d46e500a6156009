//! The limits of the paper, each named once.

use second::log::{LINE_BYTES, LINE_LIMIT};
use second::refusal::Refusal;
use second::request::SEND_LIMIT;
use second::ring::{self, MOVE_LIMIT, TAKE_LIMIT};
use second::table::UPDATES;
use second::tree;

#[test]
fn limits_of_the_paper() {
    assert_eq!((ring::MAX_NODES, ring::COLOR_BYTES), (96, 12));
    assert_eq!((tree::MAX_NODES, tree::NONE), (16, 16));
    assert_eq!(UPDATES, 8);
    assert_eq!((SEND_LIMIT, MOVE_LIMIT), (1_000_000, 1_000));
    assert_eq!(TAKE_LIMIT, 1_000);
    assert_eq!((LINE_LIMIT, LINE_BYTES), (1_000_000, 700));
}

/// 7 was a send to oneself; since request Q-4 nothing has it.
#[test]
fn numbers_of_the_refusals() {
    let numbers = Refusal::ALL.map(Refusal::number);
    assert_eq!(numbers, [1, 2, 3, 4, 5, 6, 8, 9, 10, 11, 12, 13, 14, 15]);
    assert_eq!(Refusal::RETIRED, 7);
    assert_eq!(Refusal::OF_STATION.map(Refusal::number), [14, 15]);
}
