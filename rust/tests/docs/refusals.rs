//! The refusals of crates/refusal have the same names and numbers in README and in the second implementation.

use crate::repository::{read, rows, section};
use second::refusal::Refusal;

/// `Refusal::NAME => NUMBER,` of the proved function `number`.
fn proved() -> Vec<(String, u32)> {
    let code = read("crates/refusal/src/lib.rt");
    let row = |line: &str| {
        let (name, number) = line.trim().strip_prefix("Refusal::")?.split_once(" => ")?;
        Some((name.to_owned(), number.trim_end_matches(',').parse().ok()?))
    };
    code.lines().filter_map(row).collect()
}

#[test]
fn readme_has_each() {
    let readme = read("README.md");
    let mut found: Vec<(String, u32)> = rows(section(&readme, "## Refusals"))
        .iter()
        .filter_map(|row| {
            let number: u32 = row[1].parse().ok()?;
            Some((row[2].trim_matches('`').to_owned(), number))
        })
        .filter(|(_, number)| (1..100).contains(number))
        .collect();
    found.sort_by_key(|(_, number)| *number);
    assert_eq!(found, proved());
}

#[test]
fn the_second_implementation_has_each() {
    let ours: Vec<(String, u32)> = Refusal::ALL
        .iter()
        .map(|refusal| (format!("{refusal:?}"), refusal.number()))
        .collect();
    assert_eq!(ours, proved());
}
