//! What README says of the library is the header's: every name of it, the kinds of steps, the answers of the calls and of the driver, and two
//! numbers.

use crate::header::{accepted, arms, kinds, told, upper};
use crate::repository::{list, lost_phrases, read, section, tables};
use second::bounds::answers;
use std::collections::{BTreeMap, BTreeSet};

/// Names with their numbers.
type Numbers = Vec<(String, u64)>;

fn header() -> String {
    read("c/muzserlik.h")
}

fn readme() -> String {
    read("README.md")
}

fn without_comments(header: &str) -> String {
    let pieces = header.split("/*").enumerate().map(|(k, piece)| match k {
        0 => piece,
        _ => piece.split_once("*/").expect("a comment that ends").1,
    });
    pieces.collect()
}

/// Functions, structs, enums and constants.
fn declared(header: &str) -> BTreeSet<String> {
    let constants = told(header).into_keys();
    let mut found: BTreeSet<String> = constants.map(|name| format!("MUZSERLIK_{name}")).collect();
    for line in without_comments(header).lines() {
        let functions =
            ["uint8_t ", "static inline int ", "static inline void "].map(|start| (start, '('));
        let types = ["struct ", "enum "].map(|start| (start, ' '));
        for (start, end) in functions.into_iter().chain(types) {
            let name = line
                .strip_prefix(start)
                .and_then(|rest| rest.split_once(end));
            found.extend(name.map(|(name, _)| name.to_owned()));
        }
    }
    found
}

/// The words of a page that name something of the library and that the header does not declare; `muzserlik_.._fields` is any name with that
/// beginning and end.
fn undeclared(page: &str, header: &str) -> Vec<String> {
    let declared = declared(header);
    let is_there = |word: &str| match word.split_once("..") {
        None => declared.contains(word),
        Some((front, back)) => declared
            .iter()
            .any(|name| name.starts_with(front) && name.ends_with(back)),
    };
    page.split(|c: char| !(c.is_alphanumeric() || "_.".contains(c)))
        .map(|word| word.trim_matches('.'))
        .filter(|word| word.to_lowercase().contains("muzserlik_") && !is_there(word))
        .map(str::to_owned)
        .collect()
}

/// The constants of an enum.
fn of_enum(header: &str, name: &str) -> BTreeMap<String, u64> {
    let (_, body) = header.split_once(&format!("enum {name} {{\n")).expect(name);
    told(body.split("};").next().expect("an end"))
}

/// The rows of the tables whose head begins so: the cell of a column, its first word without ticks, and that of the column of numbers.
fn numbered(text: &str, head: [&str; 2], name: usize, number: usize) -> Numbers {
    let all = tables(text);
    let table = all
        .iter()
        .find(|table| table[0].starts_with(&head.map(str::to_owned)));
    let row = |row: &Vec<String>| {
        let word = row[name].split(' ').next().unwrap_or_default();
        let number = row[number].parse().expect("a number");
        (word.trim_matches('`').to_owned(), number)
    };
    table.expect(head[1])[1..].iter().map(row).collect()
}

/// The kinds of a detector's table in README.
fn kinds_told(page: &str, detector: &str) -> Numbers {
    numbered(section(page, "## Steps"), ["Kind", detector], 1, 0)
}

/// The kinds of a panel's steps in README: `1 send i j, 2 take i j ..`.
fn panel_kinds_told(page: &str) -> Numbers {
    let all = tables(section(page, "## Closing a panel"));
    let mut rows = all.iter().flatten();
    let step = rows.find(|row| row[0].starts_with("step "));
    let kind = |part: &str| {
        let mut words = part.split_whitespace();
        let number = words.next()?.parse().ok()?;
        Some((words.next()?.to_owned(), number))
    };
    step.expect("a panel's step")[1]
        .split(", ")
        .filter_map(kind)
        .collect()
}

/// The job words in README, by what they set and to what.
fn jobs_told(page: &str) -> BTreeMap<String, u64> {
    let all = tables(section(page, "## Closing a panel"));
    let table = all
        .iter()
        .find(|table| table[0] == ["Job word", "Sets", "To"]);
    let row = |row: &Vec<String>| {
        let marks = ["firmware", "map"];
        let mark = marks.into_iter().find(|mark| row[1].contains(mark));
        let name = format!("{}_{}", mark.expect("a mark"), row[2]).to_uppercase();
        (name, row[0].parse().expect("a number"))
    };
    table.expect("job words")[1..].iter().map(row).collect()
}

/// The answers that are no refusals.
fn answers_told(page: &str) -> Numbers {
    numbered(section(page, "## Refusals"), ["Answer", "Number"], 2, 1)
}

/// `0, 3 to 6, 8`, `1 or 0`, in the order of numbers.
fn numbers(cell: &str) -> Option<Vec<usize>> {
    let mut found = Vec::new();
    for part in list(&cell.replace(" or ", ",")) {
        let (first, last) = part.split_once(" to ").unwrap_or((&part, &part));
        found.extend(first.parse::<usize>().ok()?..=last.parse().ok()?);
    }
    found.sort_unstable();
    Some(found)
}

/// The calls of README's table, each with its answers.
fn calls_told(page: &str) -> Vec<(String, Vec<usize>)> {
    let all = tables(section(page, "## Linking"));
    let table = all.iter().find(|table| table[0] == ["Call", "Answers"]);
    let row = |row: &Vec<String>| {
        let name = row[0].trim_matches('`').split('(').next().expect("a call");
        (name.to_owned(), numbers(&row[1]).expect(name))
    };
    table.expect("calls")[1..].iter().map(row).collect()
}

/// The answers that rust/calls asks for, each of which it has to meet.
fn calls_met() -> Vec<(String, Vec<usize>)> {
    let steps = [&[0, 3], &answers::OF_SOUND[..]].concat();
    let table_steps = [&[0, 3], &answers::OF_TABLE_STEP[..]].concat();
    let panel_steps = [&[0, 3], &answers::OF_PANEL_STEP[..]].concat();
    let [table_starts, panel_starts] =
        [&answers::TABLE_START[..], &answers::PANEL_START].map(|numbers| {
            let mut starts = [&[3], numbers].concat();
            starts.sort_unstable();
            starts
        });
    [
        ("ring_start", &answers::RING_START[..]),
        ("ring_step", &steps),
        ("ring_drive", &answers::RING_DRIVE),
        ("ring_is_sound", &answers::IS_SOUND),
        ("table_start", &table_starts),
        ("table_step", &table_steps),
        ("table_is_sound", &answers::IS_SOUND),
        ("panel_enter", &answers::PANEL_ENTER),
        ("panel_start", &panel_starts),
        ("panel_step", &panel_steps),
        ("panel_is_sound", &answers::IS_SOUND),
        ("tree_start", &answers::TREE_START),
        ("tree_step", &steps),
        ("tree_is_sound", &answers::IS_SOUND),
        ("tree_write", &answers::TREE_WRITE),
        ("tree_read", &answers::TREE_READ),
    ]
    .map(|(name, answers)| (format!("muzserlik_{name}"), answers.to_vec()))
    .into()
}

/// The answers of a table of calls that the header has no number for.
fn unknown_answers(calls: &[(String, Vec<usize>)], header: &str) -> Vec<usize> {
    let known = of_enum(header, "muzserlik_answer");
    let answers = calls.iter().flat_map(|(_, answers)| answers.clone());
    answers
        .filter(|&answer| !known.values().any(|&number| number == answer as u64))
        .collect()
}

/// What README says of two numbers of the header.
fn phrases(header: &str) -> Vec<String> {
    let told = told(header);
    vec![
        format!("{} bytes are always enough", told["TREE_TEXT_BYTES"]),
        format!("{} for any", 3 * told["RING_NODES"] - 2),
    ]
}

#[test]
fn names_of_the_library_are_the_headers() {
    assert_eq!(undeclared(&readme(), &header()), Vec::<String>::new());
}

#[test]
fn an_invented_name_of_the_library_is_found() {
    let page = "`muzserlik_ring_step(&ring, kind)` MUZSERLIK_PROBE, struct muzserlik_tree; muzserlik_.._fields.\n\
                \x20   muzserlik_ring_stop(&ring); {MUZSERLIK_STOP} muzserlik_.._columns old_muzserlik_ring_step libmuzserlik.a";
    let lost = [
        "muzserlik_ring_stop",
        "MUZSERLIK_STOP",
        "muzserlik_.._columns",
        "old_muzserlik_ring_step",
    ];
    assert_eq!(undeclared(page, &header()), lost);
    let header = "/* struct muzserlik_a { */\nstruct muzserlik_b {\n    return muzserlik_c(1);\n";
    let page = "muzserlik_a muzserlik_b muzserlik_c";
    assert_eq!(undeclared(page, header), ["muzserlik_a", "muzserlik_c"]);
}

#[test]
fn the_kinds_are_the_headers() {
    let (ring, tree) = (kinds_told(&readme(), "Ring"), kinds_told(&readme(), "Tree"));
    assert_eq!(ring, kinds("ring_rules"));
    assert_eq!(tree, kinds("tree_rules"));
    let panel = panel_kinds_told(&readme());
    let numbers: Vec<u64> = panel.iter().map(|(_, kind)| *kind).collect();
    assert_eq!(numbers, [1, 2, 3, 4, 5, 6]);
    assert_eq!(panel[..5], ring[..5]);
    let all = ring.into_iter().chain(tree).chain(panel);
    let told: BTreeMap<String, u64> = all.map(|(word, k)| (word.to_uppercase(), k)).collect();
    assert_eq!(told, of_enum(&header(), "muzserlik_kind"));
}

#[test]
fn the_job_words_are_the_headers() {
    assert_eq!(jobs_told(&readme()), of_enum(&header(), "muzserlik_job"));
}

#[test]
fn another_word_of_a_panel_is_found() {
    let page = |rows: &str| {
        let told =
            "| Operation | What it does |\n|---|---|\n| step kind i j | 1 send i j, 6 stop |\n";
        format!("\n## Closing a panel\n\n{told}\n| Job word | Sets | To |\n|---|---|---|\n{rows}")
    };
    let kinds = panel_kinds_told(&page(""));
    assert_eq!(kinds, [("send".to_owned(), 1), ("stop".to_owned(), 6)]);
    let jobs = jobs_told(&page("| 2 | its firmware mark | new |\n"));
    assert_eq!(jobs, [("FIRMWARE_NEW".to_owned(), 2)].into());
}

#[test]
fn another_kind_is_found() {
    let page = |rows: &str| format!("\n## Steps\n\n| Kind | Ring | Rule |\n|---|---|---|\n{rows}");
    let mut rows: String = kinds("ring_rules")
        .iter()
        .map(|(word, kind)| format!("| {kind} | {word} i | a |\n"))
        .collect();
    assert_eq!(kinds_told(&page(&rows), "Ring"), kinds("ring_rules"));
    assert_ne!(
        kinds_told(&page(&rows.replace("pass", "leave")), "Ring"),
        kinds("ring_rules")
    );
    assert_ne!(
        kinds_told(&page(&rows.replace("| 5 ", "| 4 ")), "Ring"),
        kinds("ring_rules")
    );
    rows.push_str("| 7 | stop | a |\n");
    assert_ne!(kinds_told(&page(&rows), "Ring"), kinds("ring_rules"));
}

#[test]
fn the_answers_are_the_headers() {
    let proved = [accepted(), arms("ring_rules", "Reason::")].concat();
    let told = answers_told(&readme());
    assert_eq!(told, proved);
    let header = of_enum(&header(), "muzserlik_answer");
    for (name, number) in told {
        assert_eq!(header.get(&upper(&name)), Some(&number), "{name}");
    }
}

#[test]
fn another_answer_is_found() {
    let told = |row: &str| {
        answers_told(&format!(
            "\n## Refusals\n\n| Answer | Number | Name |\n|---|---|---|\n{row}\n"
        ))
    };
    let conclusive = arms("ring_rules", "Reason::")[..1].to_vec();
    assert_eq!(told("| driver | 100 | `Conclusive` |"), conclusive);
    assert_ne!(told("| driver | 101 | `Conclusive` |"), conclusive);
    assert_ne!(told("| driver | 100 | `Waiting` |"), conclusive);
}

#[test]
fn calls_answer_what_is_met() {
    let told = calls_told(&readme());
    assert_eq!(unknown_answers(&told, &header()), Vec::<usize>::new());
    for call in calls_met() {
        assert!(told.contains(&call), "{call:?}");
    }
}

#[test]
fn another_answer_of_a_call_is_found() {
    assert_eq!(numbers("0, 3 to 5"), Some(vec![0, 3, 4, 5]));
    assert_eq!(numbers("1 or 0"), Some(vec![0, 1]));
    assert_eq!(numbers("0 and 1"), None);
    let told = |answers: &str| {
        let row = format!("| `muzserlik_ring_start(&ring)` | {answers} |");
        calls_told(&format!(
            "\n## Linking\n\n| Call | Answers |\n|---|---|\n{row}\n"
        ))
    };
    let start = &calls_met()[0];
    assert!(told("0, 1, 2").contains(start));
    assert!(!told("0, 1").contains(start));
    assert!(!told("0 to 3").contains(start));
    assert_eq!(
        unknown_answers(&told("0, 15 to 17, 103"), &header()),
        [16, 17, 103]
    );
}

#[test]
fn two_numbers_are_the_headers() {
    assert_eq!(
        lost_phrases(&readme(), &phrases(&header())),
        Vec::<String>::new()
    );
}

#[test]
fn another_number_is_found() {
    let header = "    MUZSERLIK_TREE_TEXT_BYTES = 9,\n    MUZSERLIK_RING_NODES = 2,\n";
    let lost = |page: &str| lost_phrases(page, &phrases(header)).len();
    assert_eq!(lost("9 bytes are\nalways enough, 4 for any"), 0);
    assert_eq!(lost("69 bytes are always enough, 4 for any"), 1);
    assert_eq!(lost("8 bytes are always enough, 14 for any"), 2);
}
