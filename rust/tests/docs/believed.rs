//! "What a reader has to believe" in docs/PROMISES.md: every file of `specs/` and of code is in the table or is known to be an inner one, the
//! files are as long as is said, whatever they import is among them, and the toolchain's modules that they use are named.

use crate::declared::modules;
use crate::names::paragraphs;
use crate::places::{declaring, placed};
use crate::repository::{crates, dependencies, files, list, read, rows, section, top};
use std::collections::BTreeSet;

/// Files of `specs/` that need not be believed: contracts between functions of the code, which the contracts of the public operations do not
/// mention.
const INNER: [(&str, &str); 2] = [("log_answers", "Ends"), ("log_answers", "Slots")];

/// Crates whose code need not be believed: it is called by the public operations, and proved; five are test programs and what they share.
const INNER_CODE: [&str; 8] = [
    "columns",
    "log_answers",
    "panel_calls",
    "ring_calls",
    "step_forms",
    "table_calls",
    "tell",
    "tree_calls",
];

fn spec(name: &str, file: &str) -> String {
    format!("crates/{name}/specs/{file}.antt")
}

/// The files of a crate's code that declare something.
fn code(name: &str) -> Vec<String> {
    let paths = files(name, "src").into_iter().map(|path| {
        let path = path.strip_prefix(top()).expect("a file of the repository");
        path.to_str().expect("a path in UTF-8").to_owned()
    });
    paths.filter(|path| !is_empty(path)).collect()
}

/// Whether a file of code declares nothing of its own: comments, attributes, modules and what they hand on.
fn is_empty(path: &str) -> bool {
    let starts = ["//", "#![", "mod ", "pub mod ", "pub use "];
    read(path)
        .lines()
        .all(|line| line.is_empty() || starts.iter().any(|start| line.starts_with(start)))
}

/// `crate: File, File; crate: File` with the files of specs, or `crate` alone, its code.
fn paths(cell: &str) -> Vec<String> {
    let mut found = Vec::new();
    for part in cell.split(';') {
        match part.split_once(':') {
            Some((name, files)) => {
                found.extend(list(files).iter().map(|file| spec(name.trim(), file)));
            }
            None => found.extend(code(part.trim())),
        }
    }
    found
}

const HEADING: &str = "## What a reader has to believe";

/// The rows of the table, without its head.
fn table(page: &str) -> Vec<Vec<String>> {
    rows(section(page, HEADING)).split_off(1)
}

fn listed(page: &str) -> BTreeSet<String> {
    table(page).iter().flat_map(|row| paths(&row[1])).collect()
}

fn page() -> String {
    read("docs/PROMISES.md")
}

/// Every file of `specs/` but the lists of them, and all code that declares something.
fn there() -> BTreeSet<String> {
    let mut found = BTreeSet::new();
    for name in crates() {
        for path in [files(&name, "specs"), files(&name, "src")].concat() {
            let path = path.strip_prefix(top()).expect("a file of the repository");
            let path = path.to_str().expect("a path in UTF-8").to_owned();
            let is_code = path.ends_with(".rt");
            if !(path.ends_with("/Lib.antt") || (is_code && is_empty(&path))) {
                found.insert(path);
            }
        }
    }
    found
}

fn inner() -> BTreeSet<String> {
    let specs = INNER.iter().map(|(name, file)| spec(name, file));
    specs
        .chain(INNER_CODE.iter().flat_map(|name| code(name)))
        .collect()
}

/// The files that a text imports: of `specs/`, and the code whose types and constants it imports. Its functions are left: they are called in bodies.
fn imports(text: &str) -> BTreeSet<String> {
    let crates = crates();
    let import = |line: &str| {
        let line = line.trim_start();
        let line = line.strip_prefix("ghost ").unwrap_or(line);
        let rest = line.strip_prefix("use ")?;
        if let Some((name, what)) = rest.split_once("::") {
            let mut names = what.trim_start_matches('{').split(", ");
            let has_type = names.any(|name| name.starts_with(char::is_uppercase));
            return (has_type && crates.contains(name)).then(|| code(name));
        }
        let (owner, rest) = rest.strip_prefix("Rattle.")?.split_once(".specs.")?;
        let end = rest.find(|c: char| !(c.is_alphanumeric() || c == '_'));
        let file = &rest[..end.unwrap_or(rest.len())];
        crates.contains(owner).then(|| match file {
            "declared" => code(owner),
            _ => vec![spec(owner, file)],
        })
    };
    text.lines().filter_map(import).flatten().collect()
}

/// The files that are neither in the page's table nor inner.
fn left_out(page: &str) -> BTreeSet<String> {
    let known = &listed(page) | &inner();
    &there() - &known
}

/// The files in which what the page names with a place is declared, where none of them is in the table.
fn named_outside(page: &str) -> Vec<String> {
    let listed = listed(page);
    let mut found = Vec::new();
    for named in paragraphs(page).iter().flat_map(|text| placed(text)) {
        for place in named.places {
            let files = declaring(&named.span, &place);
            if !files.iter().any(|file| listed.contains(&file.path)) {
                found.push(named.span.clone());
            }
        }
    }
    found
}

const TOOLCHAIN: &str = "Definitions of the toolchain that these files use:";

/// What the page says of the toolchain.
fn told(page: &str) -> Vec<String> {
    let paragraphs = paragraphs(section(page, HEADING));
    let told = paragraphs
        .iter()
        .find_map(|text| text.trim().strip_prefix(TOOLCHAIN));
    let spans = told.expect(TOOLCHAIN).split('`').skip(1).step_by(2);
    spans.map(str::to_owned).collect()
}

/// The crate of which a line of code imports something.
fn owner(line: &str) -> Option<&str> {
    let (name, _) = line.strip_prefix("use ")?.split_once("::")?;
    Some(name)
}

/// The toolchain's modules that the table's files import, its crates that theirs depend on, and those that code imports without that, as `std`.
fn used(page: &str) -> BTreeSet<String> {
    let crates = crates();
    let mut found = BTreeSet::new();
    for path in listed(page) {
        let text = read(&path);
        found.extend(modules(&text));
        let owners = text.lines().filter_map(owner).map(str::to_owned);
        // A program names its own modules without `crate`.
        let is_own = |other: &str| {
            let module = format!("mod {other};");
            text.lines()
                .any(|line| line.trim_start_matches("pub ") == module)
        };
        found.extend(
            owners.filter(|other| !crates.contains(other) && other != "crate" && !is_own(other)),
        );
        let name = path.split('/').nth(1).expect("a crate");
        let others = dependencies(name).into_iter();
        found.extend(others.filter(|other| !crates.contains(other)));
    }
    found
}

#[test]
fn lines_are_as_said() {
    for row in table(&page()) {
        let lines = paths(&row[1])
            .iter()
            .map(|path| read(path).lines().count())
            .sum::<usize>();
        assert_eq!(row[2], lines.to_string(), "{}", row[0]);
    }
}

#[test]
fn every_file_is_listed_or_inner() {
    let page = page();
    assert_eq!(left_out(&page), BTreeSet::new());
    assert_eq!(&inner() & &listed(&page), BTreeSet::new(), "both");
    assert_eq!(&inner() - &there(), BTreeSet::new(), "inner and not there");
    let paths: Vec<String> = table(&page).iter().flat_map(|row| paths(&row[1])).collect();
    assert_eq!(paths.len(), listed(&page).len(), "a file listed twice");
}

#[test]
fn nothing_that_is_imported_is_left_out() {
    let listed = listed(&page());
    for path in &listed {
        let lost = &imports(&read(path)) - &listed;
        assert_eq!(lost, BTreeSet::new(), "{path}");
    }
}

#[test]
fn what_is_named_with_its_place_is_listed() {
    assert_eq!(named_outside(&page()), Vec::<String>::new());
}

#[test]
fn the_toolchain_is_told() {
    let page = page();
    let used: Vec<String> = used(&page).into_iter().collect();
    assert_eq!(told(&page), used);
}

/// A page whose table has these files, a row for each.
fn page_of(files: &BTreeSet<String>) -> String {
    let row = |path: &String| {
        let parts: Vec<&str> = path.split('/').collect();
        let file = parts[3].strip_suffix(".antt");
        let file = file.map(|file| format!(": {file}")).unwrap_or_default();
        format!("| a | {}{file} | 1 |\n", parts[1])
    };
    let rows: String = files.iter().map(row).collect();
    format!("\n{HEADING}\n\n| To believe | Files | Lines |\n|---|---|---|\n{rows}")
}

#[test]
fn a_row_that_vanished_is_found() {
    let all = &there() - &inner();
    assert_eq!(left_out(&page_of(&all)), BTreeSet::new());
    for path in ["crates/runs/specs/Runs.antt", "crates/signed/src/lib.rt"] {
        let one = BTreeSet::from([path.to_owned()]);
        assert_eq!(left_out(&page_of(&(&all - &one))), one);
    }
    let page = page_of(&all)
        + "\n`ProgramRan` (crates/watch/specs/Run.antt), `Short` (crates/log_answers/specs/Ends.antt)\n";
    assert_eq!(named_outside(&page), ["Short"]);
}

#[test]
fn what_is_told_of_the_toolchain_is_read() {
    let told_of = |text: &str| told(&format!("\n{HEADING}\n\n| a |\n|---|\n\n{text}\n"));
    assert_eq!(
        told_of(&format!("{TOOLCHAIN} `lib.Dec`,\n`io`.")),
        ["lib.Dec", "io"]
    );
}

#[test]
fn imports_are_found() {
    let text = "use Rattle.ring.specs.View.{state}\nghost use Rattle.refusal.specs.declared.{A};\nuse signed::Rest;\n\
                use signed::refused;\nuse flag_bytes::{is_free, Rest};\nuse decimal::{put_answer, put_item};\nuse Rattle.std.specs.Prelude.{c}\nuse lib.Dec.{eqb}\nuse lib.ListN as l\n-- use lib.No.{x}\n";
    let files = [
        "flag_bytes/src/lib.rt",
        "refusal/src/lib.rt",
        "ring/specs/View.antt",
        "signed/src/lib.rt",
    ];
    let found: Vec<String> = imports(text).into_iter().collect();
    assert_eq!(found, files.map(|file| format!("crates/{file}")));
    let found: Vec<String> = modules(text).into_iter().collect();
    assert_eq!(found, ["Rattle.std.specs.Prelude", "lib.Dec", "lib.ListN"]);
}
