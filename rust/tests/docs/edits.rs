//! docs/EDITS.md names every must-fail edit of the repository, and no other; the other pages name none that is not there.

use crate::repository::{crates, names_in, read, tables, top};
use std::collections::BTreeSet;

/// A crate and a label.
type Edit = (String, String);

fn there() -> BTreeSet<Edit> {
    let edits_of = |name: String| {
        let labels = names_in(&top().join("crates").join(&name).join("must-fail"));
        labels.into_iter().filter_map(move |label| {
            let label = label.strip_suffix(".edit")?;
            Some((name.clone(), label.to_owned()))
        })
    };
    crates().into_iter().flat_map(edits_of).collect()
}

/// Whether a crate has an edit of that label.
pub fn is_edit(owner: &str, label: &str) -> bool {
    there().contains(&(owner.to_owned(), label.to_owned()))
}

/// The headings of the last columns that name edits.
const COLUMNS: [&str; 3] = ["Edits", "Refused wrong answers", "Edits that are refused"];

/// `crate, crate: label, label; crate: label`, and nothing else: what is not so is told.
fn named_in(cell: &str) -> Result<Vec<Edit>, String> {
    let crates = crates();
    let mut found = Vec::new();
    for part in cell.split(';') {
        let (owners, labels) = part
            .split_once(':')
            .ok_or_else(|| format!("no crate in {part:?}"))?;
        let words = |text: &str| text.split(',').map(|word| word.trim().to_owned()).collect();
        let (owners, labels): (Vec<String>, Vec<String>) = (words(owners), words(labels));
        if let Some(owner) = owners.iter().find(|owner| !crates.contains(*owner)) {
            return Err(format!("no crate {owner:?} in {part:?}"));
        }
        if let Some(label) = labels.iter().find(|label| !is_label(label)) {
            return Err(format!("no label {label:?} in {part:?}"));
        }
        for owner in &owners {
            found.extend(labels.iter().map(|label| (owner.clone(), label.clone())));
        }
    }
    Ok(found)
}

/// The edits in the last cells of the tables whose last column is headed so.
fn named(page: &str) -> Result<BTreeSet<Edit>, String> {
    let mut found = BTreeSet::new();
    if let Some(line) = page
        .lines()
        .find(|line| line.trim_start() != *line && line.contains('|'))
    {
        return Err(format!("a row that begins with a space: {line}"));
    }
    for table in tables(page) {
        let head = table[0].last().expect("a cell");
        if COLUMNS.contains(&head.as_str()) {
            for row in &table[1..] {
                if row.len() != table[0].len() {
                    return Err(format!("a row of {} cells: {row:?}", row.len()));
                }
                found.extend(named_in(row.last().expect("a cell"))?);
            }
        }
    }
    Ok(found)
}

fn is_label(word: &str) -> bool {
    !word.is_empty()
        && word
            .chars()
            .all(|c| c.is_ascii_lowercase() || c.is_ascii_digit() || c == '_')
}

fn missing(from: &BTreeSet<Edit>, of: &BTreeSet<Edit>) -> Vec<Edit> {
    of.difference(from).cloned().collect()
}

#[test]
fn the_page_of_edits_names_each_and_no_other() {
    let page = read("docs/EDITS.md");
    for table in tables(&page) {
        assert_eq!(table[0].last().map(String::as_str), Some("Edits"));
    }
    let (there, named) = (there(), named(&page).expect("edits"));
    assert_eq!(missing(&named, &there), [], "not on the page");
    assert_eq!(missing(&there, &named), [], "not in the repository");
}

#[test]
fn promises_names_edits_that_are_there() {
    let page = read("docs/PROMISES.md");
    let named = named(&page).expect("edits");
    let heads = tables(&page);
    let with_edits = heads
        .iter()
        .filter(|table| COLUMNS.contains(&table[0].last().expect("a cell").as_str()));
    assert_eq!(with_edits.count(), 2, "tables that name edits");
    assert_eq!(missing(&there(), &named), []);
}

#[test]
fn a_cell_is_read_strictly() {
    let edit = |owner: &str, label: &str| (owner.to_owned(), label.to_owned());
    assert_eq!(
        named_in("ring, tree: one, two_2; color: three").expect("edits"),
        [
            edit("ring", "one"),
            edit("ring", "two_2"),
            edit("tree", "one"),
            edit("tree", "two_2"),
            edit("color", "three"),
        ]
    );
    for cell in [
        "",
        "one",
        "nowhere: one",
        "ring, nowhere: one",
        "ring: One",
        "ring: one; two",
        "ring: one of both",
        "ring: one,",
        "ring: one; ",
        "ring:",
        "ring: one: two",
        "`ring`: one",
    ] {
        assert!(named_in(cell).is_err(), "{cell:?}");
    }
    let page = |head: &str| format!("| A | {head} |\n|---|---|\n| a | ring: One |\n");
    assert!(named(&page("Refused wrong answers")).is_err());
    assert_eq!(named(&page("Other")), Ok(BTreeSet::new()));
    assert!(named(" | a | ring: one |\n").is_err());
}

/// The number that the page tells.
#[test]
fn the_number_of_edits_is_told() {
    let number = format!("{} edits", there().len());
    assert!(read("docs/EDITS.md").contains(&number), "{number}");
}
