//! Every name that a page gives is declared: `name`, `Record.part`, `.part` of a record named before it in the same row or paragraph,
//! `Type::method`, `crate::function`, or a must-fail edit of the crate that is named just before it; where a place stands beside it, in that
//! place; in a column of the ring or of the tree, not by the other detector's crates, nor by the table's or the packing station's. Every path and file is there.

use crate::declared::{declared, File, Name};
use crate::edits::is_edit;
use crate::places::{is_name, misplaced};
use crate::repository::{cells, crates, files, read, tables, top};
use std::collections::BTreeSet;

/// What stands in code spans and is not declared by a crate: tools, types and words of the languages, words of a log's end line.
const WORDS: [&str; 18] = [
    "ar",
    "boards",
    "cargo",
    "cc",
    "compare",
    "ensures",
    "flight",
    "memcpy",
    "memset",
    "muzserlik_.._fields",
    "proofs/",
    "Result",
    "requires",
    "rt",
    "specs/",
    "u8",
    "usize",
    ".out",
];

/// What stands in code spans of the pages of names and is neither a name nor a form of a log's line or a text of bytes.
const TEXTS: [&str; 1] = ["ring_rules: State"];

/// Rows by themselves; other lines together up to an empty one.
pub fn paragraphs(page: &str) -> Vec<String> {
    let mut found = vec![String::new()];
    for line in page.lines() {
        if line.starts_with('|') || line.is_empty() {
            found.push(String::new());
        }
        let last = found.last_mut().expect("one at least");
        last.push_str(line);
        last.push('\n');
    }
    found
}

/// Whose column a text stands in.
#[derive(Clone, Copy, PartialEq)]
enum Side {
    Both,
    Ring,
    Tree,
}

impl Side {
    fn of(head: &str) -> Self {
        match head {
            "Ring" => Side::Ring,
            "Tree" => Side::Tree,
            _ => Side::Both,
        }
    }

    /// Not a file of the other detector's, nor of the table's or the packing station's.
    fn has(self, file: &File) -> bool {
        let is_of = |others: [&str; 3]| {
            let owner = file.owner.split('_').next().unwrap_or_default();
            others.contains(&owner)
        };
        match self {
            Side::Both => true,
            Side::Ring => !is_of(["tree", "table", "panel"]),
            Side::Tree => !is_of(["ring", "table", "panel"]),
        }
    }
}

/// Paragraphs and rows; the cells of a table with columns of the ring or the tree by themselves.
fn texts(page: &str) -> Vec<(Side, String)> {
    let mut heads: Vec<Side> = Vec::new();
    let mut found = Vec::new();
    for paragraph in paragraphs(page) {
        if !paragraph.starts_with('|') {
            heads.clear();
        } else if heads.is_empty() {
            heads = cells(paragraph.trim_end())
                .iter()
                .map(|head| Side::of(head))
                .collect();
        }
        if heads.iter().all(|side| *side == Side::Both) {
            found.push((Side::Both, paragraph));
            continue;
        }
        let cells = cells(paragraph.trim_end());
        let sides = heads.iter().chain(std::iter::repeat(&Side::Both));
        found.extend(sides.copied().zip(cells));
    }
    found
}

fn spans(text: &str) -> Vec<&str> {
    text.split('`').skip(1).step_by(2).collect()
}

/// Whether a span is declared; records that are named are kept for the parts that follow.
fn is_declared(span: &str, side: Side, records: &mut Vec<String>) -> bool {
    let declared = declared();
    let has = |name: &Name| declared.has(name, |file| side.has(file));
    if declared.modules.contains(span) || declared.crates.contains(span) {
        return true;
    }
    if let Some(part) = span.strip_prefix('.') {
        return records.iter().any(|record| has(&Name::Part(record, part)));
    }
    let name = Name::of(span);
    let is_type = span.starts_with(char::is_uppercase);
    if !span.contains("::") {
        records.push(span.split('.').next().unwrap_or(span).to_owned());
    }
    match name {
        Name::Alone(name) if is_type => declared
            .files
            .iter()
            .any(|file| side.has(file) && !file.path.contains("/proofs/") && file.has_top(name)),
        name => has(&name),
    }
}

/// The names of a page that are declared nowhere, or not where is said, and the paragraphs whose code spans do not end.
fn undeclared(page: &str) -> Vec<String> {
    let mut found = Vec::new();
    for (side, text) in texts(page) {
        let mut records = Vec::new();
        let mut before = "";
        for span in spans(&text) {
            let skipped = WORDS.contains(&span) || !is_name(span);
            if !skipped && !is_declared(span, side, &mut records) && !is_edit(before, span) {
                found.push(span.to_owned());
            }
            before = span;
        }
    }
    for paragraph in paragraphs(page) {
        found.extend(misplaced(&paragraph));
        let is_odd = paragraph.matches('`').count() % 2 == 1;
        found.extend(is_odd.then(|| format!("a span that does not end: {paragraph}")));
    }
    found
}

/// The code spans that are no name, no form of a log's line, `(..)`, and no text of bytes, `b".."`.
fn nameless(page: &str) -> Vec<String> {
    let is_text =
        |span: &str| span.starts_with('(') || span.starts_with("b\"") || TEXTS.contains(&span);
    let is_known = |span: &str| WORDS.contains(&span) || declared().modules.contains(span);
    paragraphs(page)
        .iter()
        .flat_map(|paragraph| spans(paragraph))
        .filter(|span| !is_name(span) && !is_known(span) && !is_text(span))
        .map(str::to_owned)
        .collect()
}

/// Paths from the top, and names of files of the logic.
fn lost_files(page: &str) -> Vec<String> {
    let logic: BTreeSet<String> = crates()
        .iter()
        .flat_map(|name| [files(name, "specs"), files(name, "proofs")].concat())
        .filter_map(|path| Some(path.file_name()?.to_str()?.to_owned()))
        .collect();
    page.split(|c: char| !(c.is_alphanumeric() || "_-./".contains(c)))
        .map(|word| word.trim_end_matches('.'))
        .filter(|word| {
            let path = ["crates/", "rust/", "docs/", "c/", "samples/"];
            let is_path = path.iter().any(|start| word.starts_with(start));
            let is_logic = word.ends_with(".antt") && !word.contains('/');
            (is_path && !top().join(word).exists()) || (is_logic && !logic.contains(*word))
        })
        .map(str::to_owned)
        .collect()
}

const PAGES: [&str; 4] = [
    "README.md",
    "docs/PROMISES.md",
    "docs/EDITS.md",
    "docs/DECISIONS.md",
];

#[test]
fn names_that_are_given_are_declared() {
    for page in PAGES {
        assert_eq!(undeclared(&read(page)), Vec::<String>::new(), "{page}");
    }
}

#[test]
fn files_that_are_named_are_there() {
    for page in PAGES {
        assert_eq!(lost_files(&read(page)), Vec::<String>::new(), "{page}");
    }
}

#[test]
fn spans_are_names() {
    for page in ["docs/PROMISES.md", "docs/EDITS.md"] {
        assert_eq!(nameless(&read(page)), Vec::<String>::new(), "{page}");
    }
}

#[test]
fn an_invented_name_is_found() {
    let page =
        "`StepAnswered.accepted`, `.refused`, `.nowhere`, `Ring::start`, `Ring::stop`, `invented`";
    assert_eq!(undeclared(page), [".nowhere", "Ring::stop", "invented"]);
    let page = "crates/ring/src, crates/nowhere/src, Nowhere.antt";
    assert_eq!(lost_files(page), ["crates/nowhere/src", "Nowhere.antt"]);
}

#[test]
fn an_edit_stands_after_its_crate() {
    let page =
        "`watch_log`'s `held_count_kept`, `log_lines`'s `held_count_kept`, `watch_log`'s `invented`";
    assert_eq!(undeclared(page), ["held_count_kept", "invented"]);
}

#[test]
fn a_span_that_is_no_name_is_found() {
    let page = "`(ok k)`, `b\"(send\"`, `Fields Unread0`, `FieldsUnread!`";
    assert_eq!(nameless(page), ["Fields Unread0", "FieldsUnread!"]);
    let odd = "`Ring` and `Tree\n\n| `Ring` |\n";
    assert_eq!(undeclared(odd).len(), 1);
    let odd = "`Ring`\n| `Ring |\n| Tree` |\n";
    assert_eq!(undeclared(odd).len(), 2);
}

#[test]
fn a_name_stands_in_its_place() {
    let run = "crates/watch/specs/Run.antt";
    for page in [
        format!("`Walked` ({run})"),
        format!("`Walked`, `ProgramRan` ({run}): turns"),
        format!("`ProgramRan` and\n`Walked` ({run})"),
        format!("(`Walked`, {run})"),
        format!("`Walked` in {run}"),
        format!("`Walked` (what came of it, see {run})"),
        "`Turned` (crates/watch/specs/Turn.antt); `Walked` (Run.antt)".to_owned(),
    ] {
        assert_eq!(undeclared(&page).len(), 1, "{page}");
    }
    for page in [
        format!("`ProgramRan` ({run}); `Turned` (Turn.antt)"),
        "`Walked` (crates/ring)".to_owned(),
        "`put_answer`, `feed` (crates/log_answers, crates/watch_log)".to_owned(),
    ] {
        assert_eq!(undeclared(&page), Vec::<String>::new());
    }
    let both =
        "`Countdown` (crates/ring_runs/specs/WholeRun.antt, crates/tree_runs/specs/WholeRun.antt)";
    assert_eq!(
        undeclared(both),
        ["Countdown: crates/tree_runs/specs/WholeRun.antt"]
    );
}

#[test]
fn a_capital_is_a_statement_or_a_type() {
    assert_eq!(undeclared("`WholeRuns`, `Conclusive`, `K`"), ["K"]);
}

#[test]
fn promises_has_columns_of_both() {
    let tables = tables(&read("docs/PROMISES.md"));
    let of_both =
        |table: &&Vec<Vec<String>>| table[0].ends_with(&["Ring", "Tree"].map(str::to_owned));
    assert_eq!(
        tables.iter().filter(of_both).count(),
        3,
        "one for each demand"
    );
}

#[test]
fn a_column_is_its_own_detectors() {
    let head = "| Sentence | Ring | Tree |\n|---|---|---|\n";
    let page = format!("{head}| a | `Counted.moves_alone` | `Counted`, `.closing_alone` |\n");
    assert_eq!(undeclared(&page), Vec::<String>::new());
    let page = format!("{head}| a | `Counted`, `.closing_alone` | `Counted.moves_alone` |\n");
    assert_eq!(undeclared(&page), [".closing_alone", "Counted.moves_alone"]);
    let page = format!("{head}| a | `FollowsRing` | `NonInterference.same` |\n");
    assert_eq!(undeclared(&page), ["FollowsRing", "NonInterference.same"]);
}
