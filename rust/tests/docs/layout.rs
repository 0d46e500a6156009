//! The layout: every crate stands on one floor, the same in README and in crates.txt, and uses no floor further on; each has its row in the
//! table of times.

use crate::repository::{crates, listed, read, rows, section};
use std::collections::BTreeMap;

const FLOORS: [&str; 5] = ["bytes", "forms", "detectors", "theorems", "programs"];

/// The floor of each crate by README: a heading for each floor, and the crates in the first column.
fn by_readme() -> BTreeMap<String, &'static str> {
    let page = read("README.md");
    let layout = section(&page, "## Layout");
    let mut found = BTreeMap::new();
    for floor in FLOORS {
        let heading = format!("### {}{}", floor[..1].to_uppercase(), &floor[1..]);
        for row in rows(section(layout, &heading)).iter().skip(1) {
            for name in row[0].split('`').skip(1).step_by(2) {
                let before = found.insert(name.to_owned(), floor);
                assert_eq!(before, None, "{name} stands on two floors");
            }
        }
    }
    found
}

/// The floor of each crate by crates.txt: the comment above it.
fn by_list() -> BTreeMap<String, &'static str> {
    let mut floor = None;
    let mut found = BTreeMap::new();
    for line in read("crates.txt").lines() {
        if let Some(comment) = line.strip_prefix("# ") {
            floor = FLOORS
                .into_iter()
                .find(|name| comment.starts_with(name))
                .or(floor);
        } else if let Some((name, _)) = listed(line) {
            found.insert(
                name.to_owned(),
                floor.expect("a floor above the first crate"),
            );
        }
    }
    found
}

#[test]
fn every_crate_stands_on_one_floor() {
    let (readme, list) = (by_readme(), by_list());
    let named: Vec<&String> = readme.keys().collect();
    assert_eq!(named, crates().iter().collect::<Vec<_>>());
    assert_eq!(readme, list);
}

#[test]
fn a_crate_uses_its_own_floor_and_those_before_it() {
    let floors = by_list();
    let height = |name: &str| {
        let floor = floors.get(name)?;
        FLOORS.iter().position(|other| other == floor)
    };
    for (name, used) in read("crates.txt").lines().filter_map(listed) {
        for other in used {
            // The toolchain's own libraries stand on no floor.
            let below = height(&other).is_none_or(|other| Some(other) <= height(name));
            assert!(below, "{name} uses {other}");
        }
    }
}

/// The first column of the table of times: each crate, and then the sum.
fn timed(page: &str) -> Vec<String> {
    rows(page)
        .iter()
        .skip(1)
        .map(|row| row[0].clone())
        .collect()
}

/// What has to stand there, in the order of names.
fn to_be_timed() -> Vec<String> {
    let names = crates().into_iter().map(|name| format!("`{name}`"));
    names.chain(["all".to_owned()]).collect()
}

#[test]
fn the_table_of_times_has_every_crate_and_no_other() {
    assert_eq!(timed(&read("docs/CHECK-TIMES.md")), to_be_timed());
}

#[test]
fn a_crate_that_is_not_timed_is_found() {
    let line = |name: &String| format!("| {name} | 1 |\n");
    let page = |names: &[String]| {
        let body: String = names.iter().map(line).collect();
        format!("Text\n\n| Crate | code |\n|---|---|\n{body}")
    };
    let mut names = to_be_timed();
    assert_eq!(timed(&page(&names)), names);
    names.remove(3);
    assert_ne!(timed(&page(&names)), to_be_timed());
    names.insert(3, "`nowhere`".to_owned());
    assert_ne!(timed(&page(&names)), to_be_timed());
}
