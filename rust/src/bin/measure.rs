//! The repository's sizes, and what a run of the gate told:
//! `measure [LOG]`, from the repository's top. LOG is what `.ci/run` printed.
//! Prints a row for each crate: lines of code, definitions, statements and proofs, the
//! number of must-fail edits, and of those that were refused; then rt's own line of what the run did, and its times.

use second::statements::STATEMENT_FILES;
use std::collections::BTreeMap;
use std::fs;
use std::io;
use std::path::Path;
use std::process::ExitCode;

/// The files of statements, the tables' rows, and all of `instances`.
fn is_statement(crate_name: &str, stem: &str) -> bool {
    STATEMENT_FILES.contains(&stem)
        || (stem.starts_with("Table") && stem != "Table")
        || (crate_name == "instances" && stem != "Lib")
}

#[derive(Default)]
struct Row {
    code: usize,
    definitions: usize,
    statements: usize,
    proofs: usize,
    edits: usize,
    refused: usize,
}

impl Row {
    fn add(&mut self, other: &Row) {
        self.code += other.code;
        self.definitions += other.definitions;
        self.statements += other.statements;
        self.proofs += other.proofs;
        self.edits += other.edits;
        self.refused += other.refused;
    }

    fn print(&self, name: &str) {
        println!(
            "| {name} | {} | {} | {} | {} | {} | {} |",
            self.code, self.definitions, self.statements, self.proofs, self.edits, self.refused
        );
    }
}

/// Lines of the files below `folder` of which `wanted` holds, by path and stem.
fn lines(folder: &Path, wanted: &impl Fn(&str) -> bool) -> io::Result<usize> {
    let mut count = 0;
    if !folder.is_dir() {
        return Ok(0);
    }
    for entry in fs::read_dir(folder)? {
        let path = entry?.path();
        let stem = path.file_stem().and_then(|stem| stem.to_str());
        if path.is_dir() {
            count += lines(&path, wanted)?;
        } else if stem.is_some_and(wanted) {
            count += fs::read_to_string(&path)?.lines().count();
        }
    }
    Ok(count)
}

fn sizes(folder: &Path) -> io::Result<Row> {
    let name = folder.file_name().unwrap_or_default().to_string_lossy();
    let statement = |stem: &str| is_statement(&name, stem);
    let edits = folder.join("must-fail");
    Ok(Row {
        code: lines(&folder.join("src"), &|_| true)?,
        definitions: lines(&folder.join("specs"), &|stem| !statement(stem))?,
        statements: lines(&folder.join("specs"), &statement)?,
        proofs: lines(&folder.join("proofs"), &|_| true)?,
        edits: if edits.is_dir() {
            fs::read_dir(edits)?.count()
        } else {
            0
        },
        ..Row::default()
    })
}

/// Counts what a line tells: `rt: must-fail NAME/EDIT: refused, ..`.
fn add_refused(line: &str, rows: &mut BTreeMap<String, Row>) {
    let told = line.strip_prefix("rt: must-fail ");
    let name = told.and_then(|told| {
        let (edit, rest) = told.split_once(": ")?;
        let (name, _) = edit.split_once('/')?;
        rest.starts_with("refused").then_some(name)
    });
    if let Some(row) = name.and_then(|name| rows.get_mut(name)) {
        row.refused += 1;
    }
}

fn run(log: Option<&str>) -> io::Result<()> {
    let mut rows = BTreeMap::new();
    for entry in fs::read_dir("crates")? {
        let path = entry?.path();
        let name = path.file_name().unwrap_or_default().to_string_lossy();
        rows.insert(name.into_owned(), sizes(&path)?);
    }
    let text = log.map_or(Ok(String::new()), fs::read_to_string)?;
    text.lines().for_each(|line| add_refused(line, &mut rows));
    println!("| Crate | code | definitions | statements | proofs | edits | refused |");
    println!("|---|---|---|---|---|---|---|");
    let mut total = Row::default();
    for (name, row) in &rows {
        row.print(&format!("`{name}`"));
        total.add(row);
    }
    total.print("all");
    let is_told = |line: &&str| line.starts_with("rt: ok") || line.starts_with("gate: ");
    for line in text.lines().filter(is_told) {
        println!("\n{line}");
    }
    Ok(())
}

fn main() -> ExitCode {
    let log = std::env::args().nth(1);
    match run(log.as_deref()) {
        Ok(()) => ExitCode::SUCCESS,
        Err(error) => {
            eprintln!("measure: {error}");
            ExitCode::FAILURE
        }
    }
}
