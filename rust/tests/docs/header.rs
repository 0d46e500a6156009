//! The constants of c/muzserlik.h are exactly those of the proved code, with the same numbers; the packing station's words are those of the
//! second implementation, with which the proved calls are compared.

use crate::repository::read;
use second::panel::{CLOSE, FIRMWARE_NEW, FIRMWARE_OLD, MAP_NEW, MAP_OLD};
use std::collections::BTreeMap;

/// `MUZSERLIK_NAME = NUMBER` on a line of the header; the same name twice is a fault.
pub fn told(header: &str) -> BTreeMap<String, u64> {
    let mut found = BTreeMap::new();
    for line in header.lines() {
        let Some(rest) = line.trim().strip_prefix("MUZSERLIK_") else {
            continue;
        };
        let (name, number) = rest.split_once(" = ").expect(line);
        let number = number.trim_end_matches(',').parse().expect(line);
        assert_eq!(found.insert(name.to_owned(), number), None, "{name} twice");
    }
    found
}

/// `pub const NAME: TYPE = NUMBER;` of a crate's code.
fn constant(owner: &str, name: &str) -> u64 {
    let code = read(format!("crates/{owner}/src/lib.rt"));
    let start = format!("pub const {name}: ");
    let line = code.lines().find_map(|line| line.strip_prefix(&start));
    let value = line
        .and_then(|line| line.split_once(" = "))
        .expect(name)
        .1
        .trim_end_matches(';');
    let other = value.strip_prefix("refusal::");
    other.map_or_else(
        || value.replace('_', "").parse().expect(name),
        |other| constant("refusal", other),
    )
}

/// The arms of a match over an enum, `TYPE::NAME => NUMBER,`.
pub fn arms(owner: &str, of: &str) -> Vec<(String, u64)> {
    let code = read(format!("crates/{owner}/src/lib.rt"));
    let arm = |line: &str| {
        let (name, number) = line.trim().strip_prefix(of)?.split_once(" => ")?;
        Some((name.to_owned(), number.trim_end_matches(',').parse().ok()?))
    };
    code.lines().filter_map(arm).collect()
}

/// The answer of a request that is accepted, `Ok(()) => NUMBER,` of the proved function `code`.
pub fn accepted() -> Vec<(String, u64)> {
    let code = read("crates/refusal/src/lib.rt");
    let arm = |line: &str| {
        line.trim()
            .strip_prefix("Ok(()) => ")?
            .strip_suffix(',')?
            .parse()
            .ok()
    };
    let numbers = code.lines().filter_map(arm);
    numbers
        .map(|number| ("Accepted".to_owned(), number))
        .collect()
}

/// The kinds of a detector's steps, `NUMBER => Ok(Request::NAME ..),` of its rules' crate.
pub fn kinds(owner: &str) -> Vec<(String, u64)> {
    let code = read(format!("crates/{owner}/src/request.rt"));
    let arm = |line: &str| {
        let (number, request) = line.trim().split_once(" => Ok(Request::")?;
        let name = request.split(|c: char| !c.is_alphanumeric()).next()?;
        Some((name.to_lowercase(), number.parse().ok()?))
    };
    code.lines().filter_map(arm).collect()
}

/// The bound of `LengthKnown.most`.
fn text_bytes() -> u64 {
    let text = read("crates/tree_text/specs/Theorems.antt");
    let (_, record) = text.split_once("pub record LengthKnown ").expect("it");
    let line = record
        .lines()
        .find(|line| line.contains(" most : "))
        .expect("it");
    let bound = format!(
        "  pub most : (n : ℕ) → n ≤ {} → longest n ≤ ",
        constant("refusal", "TREE_NODES")
    );
    let number = line.strip_prefix(&bound).expect(line);
    number.parse().expect("a number")
}

/// `SendLimit` is `SEND_LIMIT`.
pub fn upper(name: &str) -> String {
    let mut upper = String::new();
    for (k, c) in name.chars().enumerate() {
        if c.is_uppercase() && k > 0 {
            upper.push('_');
        }
        upper.extend(c.to_uppercase());
    }
    upper
}

/// The words of the packing station: its kind, its jobs, and the bytes of marks and record.
fn of_station() -> [(&'static str, u64); 10] {
    [
        ("CLOSE", CLOSE as u64),
        ("FIRMWARE_NEW", FIRMWARE_NEW as u64),
        ("MAP_NEW", MAP_NEW as u64),
        ("FIRMWARE_OLD", FIRMWARE_OLD as u64),
        ("MAP_OLD", MAP_OLD as u64),
        ("MARK_OLD", 0),
        ("MARK_NEW", 1),
        ("RECORD_EMPTY", 0),
        ("RECORD_OLD", 1),
        ("RECORD_NEW", 2),
    ]
}

fn proved() -> BTreeMap<String, u64> {
    let nodes = constant("refusal", "RING_NODES");
    let mut proved: BTreeMap<String, u64> = [
        ("RING_NODES", nodes),
        ("RING_COLOR_BYTES", nodes / 8),
        ("UPDATES", constant("refusal", "UPDATES")),
        ("TREE_NODES", constant("refusal", "TREE_NODES")),
        ("TREE_NONE", constant("tree_rules", "NO_NODE")),
        ("TREE_TEXT_BYTES", text_bytes()),
        ("SEND_LIMIT", constant("refusal", "SEND_LIMIT")),
        ("MOVE_LIMIT", constant("ring_rules", "MOVE_LIMIT")),
        ("TAKE_LIMIT", constant("ring_rules", "TAKE_LIMIT")),
    ]
    .map(|(name, number)| (name.to_owned(), number))
    .into();
    proved.extend(accepted().iter().map(|(name, k)| (upper(name), *k)));
    let refused = |(name, number): (String, u64)| (format!("REFUSED_{}", upper(&name)), number);
    proved.extend(arms("refusal", "Refusal::").into_iter().map(refused));
    proved.extend(
        arms("ring_rules", "Reason::")
            .iter()
            .map(|(name, k)| (upper(name), *k)),
    );
    for (name, kind) in [kinds("ring_rules"), kinds("tree_rules")].concat() {
        let before = proved.insert(name.to_uppercase(), kind);
        assert!(before.is_none_or(|before| before == kind), "{name}");
    }
    let station = of_station().map(|(name, number)| (name.to_owned(), number));
    proved.extend(station);
    proved
}

#[test]
fn the_constants_are_the_proved_ones() {
    let proved = proved();
    assert_eq!(proved.len(), 45, "constants");
    assert_eq!(told(&read("c/muzserlik.h")), proved);
}

#[test]
fn a_constant_is_read() {
    let header = "#define MUZSERLIK_H\n    MUZSERLIK_A = 1,\n    /* MUZSERLIK_B = 2 */\n    MUZSERLIK_C_D = 3\n";
    let found: Vec<(String, u64)> = told(header).into_iter().collect();
    assert_eq!(found, [("A".to_owned(), 1), ("C_D".to_owned(), 3)]);
}
