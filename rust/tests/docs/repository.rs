//! The repository's files, and the tables of its docs.

use std::collections::BTreeSet;
use std::fs;
use std::path::{Path, PathBuf};

pub fn top() -> &'static Path {
    Path::new(concat!(env!("CARGO_MANIFEST_DIR"), "/.."))
}

pub fn read(path: impl AsRef<Path>) -> String {
    let path = top().join(path);
    fs::read_to_string(&path).unwrap_or_else(|error| panic!("{}: {error}", path.display()))
}

/// The names in a folder; none where there is no such folder.
pub fn names_in(folder: &Path) -> Vec<String> {
    let Ok(entries) = fs::read_dir(folder) else {
        return Vec::new();
    };
    let mut names: Vec<String> = entries
        .map(|entry| entry.expect("an entry").file_name().into_string())
        .map(|name| name.expect("a name in UTF-8"))
        .collect();
    names.sort();
    names
}

/// A crate and what it depends on, by a line of crates.txt: `NAME: LIBRARY ..`, or `NAME staticlib: LIBRARY ..`.
pub fn listed(line: &str) -> Option<(&str, Vec<String>)> {
    let (name, used) = line.split_once(':').filter(|_| !line.starts_with('#'))?;
    let used = used.split_whitespace().map(str::to_owned).collect();
    Some((name.strip_suffix(" staticlib").unwrap_or(name), used))
}

/// The crates of crates.txt.
pub fn crates() -> BTreeSet<String> {
    read("crates.txt")
        .lines()
        .filter_map(|line| Some(listed(line)?.0.to_owned()))
        .collect()
}

/// What a crate depends on, by crates.txt.
pub fn dependencies(name: &str) -> Vec<String> {
    let list = read("crates.txt");
    let mut crates = list.lines().filter_map(listed);
    crates.find(|(other, _)| *other == name).expect(name).1
}

/// The files of a crate's folder `specs`, `proofs` or `src`, with those of folders in it.
pub fn files(name: &str, folder: &str) -> Vec<PathBuf> {
    let mut found = Vec::new();
    let mut folders = vec![top().join("crates").join(name).join(folder)];
    while let Some(folder) = folders.pop() {
        for name in names_in(&folder) {
            let path = folder.join(name);
            if path.is_dir() {
                folders.push(path);
            } else {
                found.push(path);
            }
        }
    }
    found
}

/// A section of a page: what stands under its heading, up to the next one of the same or a higher level.
pub fn section<'a>(page: &'a str, heading: &str) -> &'a str {
    let start = page
        .find(&format!("\n{heading}\n"))
        .unwrap_or_else(|| panic!("no heading {heading:?}"));
    let body = &page[start + heading.len() + 2..];
    let level = heading.split(' ').next().expect("a heading").len();
    let end = (1..=level)
        .filter_map(|level| body.find(&format!("\n{} ", "#".repeat(level))))
        .min();
    &body[..end.unwrap_or(body.len())]
}

/// The rows of tables, each with its cells; without the rows of dashes.
pub fn rows(text: &str) -> Vec<Vec<String>> {
    text.lines()
        .filter(|line| line.starts_with('|') && !line.chars().all(|c| "|-".contains(c)))
        .map(cells)
        .collect()
}

/// The cells of a row.
pub fn cells(row: &str) -> Vec<String> {
    let row = row.trim_start_matches('|').trim_end_matches('|');
    row.split('|').map(|cell| cell.trim().to_owned()).collect()
}

/// The tables of a page, each with its head first.
pub fn tables(page: &str) -> Vec<Vec<Vec<String>>> {
    let mut found: Vec<Vec<Vec<String>>> = Vec::new();
    let mut inside = false;
    for line in page.lines() {
        let is_row = line.starts_with('|');
        if is_row && !inside {
            found.push(Vec::new());
        }
        inside = is_row;
        if let Some(table) = found.last_mut() {
            table.extend(rows(line));
        }
    }
    found
}

/// The words of a list with commas.
pub fn list(text: &str) -> Vec<String> {
    text.split(',')
        .map(|word| word.trim().to_owned())
        .filter(|word| !word.is_empty())
        .collect()
}

/// A text with one space in the place of each gap.
pub fn joined(text: &str) -> String {
    text.split_whitespace().collect::<Vec<_>>().join(" ")
}

/// Where a phrase stands in a text. Where it begins or ends with a number, it is the whole of that number.
pub fn places_of(text: &str, phrase: &str) -> Vec<usize> {
    let is_whole = |at: &usize| {
        let mut after = text[at + phrase.len()..].trim_start_matches(',').chars();
        !text[..*at].ends_with(|c: char| c.is_ascii_digit() || c == ',')
            && !after.next().is_some_and(|c| c.is_ascii_digit())
    };
    let found = text.match_indices(phrase).map(|(at, _)| at);
    found.filter(is_whole).collect()
}

/// The phrases that a text does not have.
pub fn lost_phrases(text: &str, phrases: &[String]) -> Vec<String> {
    let text = joined(text);
    let is_lost = |phrase: &&String| places_of(&text, phrase).is_empty();
    phrases.iter().filter(is_lost).cloned().collect()
}

/// `1384582` is `1,384,582`.
pub fn in_thousands(number: usize) -> String {
    let digits = number.to_string();
    let mut found = String::new();
    for (k, digit) in digits.chars().enumerate() {
        if k > 0 && (digits.len() - k).is_multiple_of(3) {
            found.push(',');
        }
        found.push(digit);
    }
    found
}

#[test]
fn a_phrase_is_found_whole() {
    let lost = |text: &str| lost_phrases(text, &["69 bytes, at least 1,000".to_owned()]).len();
    for text in [
        "69 bytes, at least 1,000",
        "(69 bytes,\n  at least 1,000)",
        "169 bytes, or 69 bytes, at least 1,000, or",
    ] {
        assert_eq!(lost(text), 0, "{text}");
    }
    for text in [
        "169 bytes, at least 1,000",
        "1,69 bytes, at least 1,000",
        "69 bytes, at least 1,0001",
        "69 bytes, at least 1,000,000",
        "70 bytes, at least 1,000",
    ] {
        assert_eq!(lost(text), 1, "{text}");
    }
    assert_eq!(in_thousands(1_384_582), "1,384,582");
    assert_eq!(in_thousands(100), "100");
}
