//! The naming rule of docs/PROMISES.md: a statement of `specs/` is proved in `proofs/` of the same crate under its name in lower case
//! (`WholeRuns`: `whole_runs`), or it is a part of one that is, or of the contract of a function. It is asked of every record, data type and
//! definition of a type in all files of `specs/`; one is a part where another one's declaration, or a definition that occurs in it, uses it.

use crate::items::{items, words, Id, Imports, Item};
use crate::repository::{crates, files, read, top};
use second::clauses::clauses;
use second::statements::STATEMENT_FILES;
use std::collections::{BTreeMap, BTreeSet};

/// Statements about one side of an equivalence, and what proves them; their names do not follow the rule.
const OTHERWISE: [(&str, &str, &str); 2] = [
    (
        "crates/decimal/specs/Exact.antt",
        "NumberAt",
        "number_exact",
    ),
    ("crates/decimal/specs/Exact.antt", "ShortAt", "short_exact"),
];

/// The texts of the files of a folder of all crates, by path from the top.
fn texts(folder: &str) -> BTreeMap<String, String> {
    let all = crates().into_iter().flat_map(|name| files(&name, folder));
    all.map(|path| {
        let path = path.strip_prefix(top()).expect("a file of the repository");
        let path = path.to_str().expect("a path in UTF-8").to_owned();
        let text = read(&path);
        (path, text)
    })
    .collect()
}

fn lower(name: &str) -> String {
    let mut lower = String::new();
    for (k, c) in name.chars().enumerate() {
        if c.is_uppercase() && k > 0 {
            lower.push('_');
        }
        lower.extend(c.to_lowercase());
    }
    lower
}

/// The types of what a proof file declares under a name, each on one line.
fn types(text: &str, name: &str) -> Vec<String> {
    let lines: Vec<&str> = text.lines().collect();
    let indent = |line: &str| line.len() - line.trim_start().len();
    let mut found = Vec::new();
    for (k, line) in lines.iter().enumerate() {
        let start = line.trim_start().trim_start_matches("pub ");
        let Some(first) = start
            .strip_prefix(name)
            .and_then(|rest| rest.strip_prefix(" :"))
        else {
            continue;
        };
        let more = lines[k + 1..]
            .iter()
            .take_while(|next| indent(next) > indent(line));
        let whole: Vec<&str> = [first]
            .into_iter()
            .chain(more.map(|line| line.trim()))
            .collect();
        found.push(whole.join(" "));
    }
    found
}

/// What a type comes to: what stands after the last arrow outside brackets.
fn conclusion(type_: &str) -> &str {
    let (mut depth, mut start) = (0, 0);
    for (at, c) in type_.char_indices() {
        match c {
            '(' | '{' | '[' => depth += 1,
            ')' | '}' | ']' => depth -= 1,
            '→' if depth == 0 => start = at + c.len_utf8(),
            _ => (),
        }
    }
    type_[start..].trim()
}

/// Whether a proof file proves a statement under a name: the conclusion is the statement itself.
fn proves(text: &str, name: &str, statement: &Id) -> bool {
    let imports = Imports::read(text);
    types(text, name).iter().any(|type_| {
        let head = conclusion(type_).split(' ').next().unwrap_or_default();
        imports.find(head).as_ref() == Some(statement)
    })
}

/// Whether the conclusion of what a proof file proves under a name speaks of a statement.
fn speaks(text: &str, name: &str, statement: &Id) -> bool {
    let imports = Imports::read(text);
    let is_it = |word: &str| imports.find(word).as_ref() == Some(statement);
    let types = types(text, name);
    types
        .iter()
        .any(|type_| words(conclusion(type_)).any(is_it))
}

/// What the clauses `ensures` and the ghost items of traits and types say; with `all`, the `requires` too.
fn contracts(text: &str, all: bool) -> String {
    let kinds: &[&str] = if all {
        &["ensures", "ghost", "requires"]
    } else {
        &["ensures", "ghost"]
    };
    clauses(text, kinds)
}

/// The statements and definitions that contracts of the code use.
fn in_contracts(all: bool) -> BTreeSet<Id> {
    let mut found = BTreeSet::new();
    for text in texts("src").values() {
        let imports = Imports::read(text);
        let contracts = contracts(text, all);
        found.extend(words(&contracts).filter_map(|word| imports.find(word)));
    }
    found
}

/// Every declaration of `specs/`, with what it uses.
struct Specs {
    items: BTreeMap<Id, Item>,
    uses: BTreeMap<Id, BTreeSet<Id>>,
}

impl Specs {
    fn new(texts: &BTreeMap<String, String>) -> Self {
        let (mut all, mut uses) = (BTreeMap::new(), BTreeMap::new());
        for (path, text) in texts {
            let imports = Imports::read(text);
            let items = items(text);
            let own: BTreeSet<String> = items.iter().map(|item| item.name.clone()).collect();
            for item in items {
                let id = (path.clone(), item.name.clone());
                let found = words(&item.text).filter_map(|word| {
                    let first = word.split('.').next().unwrap_or(word);
                    let is_own = own
                        .contains(first)
                        .then(|| (path.clone(), first.to_owned()));
                    is_own.or_else(|| imports.find(word))
                });
                uses.insert(id.clone(), found.collect());
                all.insert(id, item);
            }
        }
        Self { items: all, uses }
    }

    /// What is used by some declarations, and by what is used by them.
    fn used_by(&self, roots: BTreeSet<Id>) -> BTreeSet<Id> {
        let mut todo: Vec<Id> = roots.into_iter().collect();
        let mut found = BTreeSet::new();
        while let Some(id) = todo.pop() {
            if found.insert(id.clone()) {
                todo.extend(self.uses.get(&id).into_iter().flatten().cloned());
            }
        }
        found
    }

    /// The types that are proved by their names.
    fn proved(&self, proofs: &BTreeMap<String, String>) -> BTreeSet<Id> {
        let is_proved = |id: &&Id| {
            let folder = id.0.split("specs/").next().expect("a crate").to_owned() + "proofs/";
            let of_crate = proofs.iter().filter(|(path, _)| path.starts_with(&folder));
            let name = lower(&id.1);
            of_crate
                .into_iter()
                .any(|(_, text)| proves(text, &name, id))
        };
        let types = self.items.iter().filter(|(_, item)| item.is_type);
        types.map(|(id, _)| id).filter(is_proved).cloned().collect()
    }
}

fn is_statement(path: &str) -> bool {
    STATEMENT_FILES
        .iter()
        .any(|file| path.ends_with(&format!("/{file}.antt")))
}

/// The types that are neither proved, nor a part of what is, nor of a contract.
fn unproved(specs: &Specs, proved: &BTreeSet<Id>) -> Vec<Id> {
    let strict = specs.used_by(proved | &in_contracts(false));
    let loose = specs.used_by(proved | &in_contracts(true));
    let is_lost = |(id, item): &(&Id, &Item)| {
        let known = if is_statement(&id.0) { &strict } else { &loose };
        item.is_type && !known.contains(*id)
    };
    let lost = specs.items.iter().filter(is_lost);
    lost.map(|(id, _)| id.clone()).collect()
}

/// The statements that are proved under another name.
fn otherwise(proofs: &BTreeMap<String, String>) -> BTreeSet<Id> {
    let mut found = BTreeSet::new();
    for (path, statement, name) in OTHERWISE {
        let id = (path.to_owned(), statement.to_owned());
        let is_proved = proofs.values().any(|text| speaks(text, name, &id));
        assert!(is_proved, "{statement} is not proved as {name}");
        found.insert(id);
    }
    found
}

#[test]
fn every_statement_is_proved_under_its_name() {
    let proofs = texts("proofs");
    let specs = Specs::new(&texts("specs"));
    let by_name = specs.proved(&proofs);
    assert!(by_name.len() > 60, "{} statements found", by_name.len());
    let otherwise = otherwise(&proofs);
    assert_eq!(&by_name & &otherwise, BTreeSet::new(), "by its name too");
    assert_eq!(unproved(&specs, &(&by_name | &otherwise)), []);
}

#[test]
fn a_conclusion_is_the_whole_of_it() {
    let statement = (
        "crates/a/specs/Theorems.antt".to_owned(),
        "Claim".to_owned(),
    );
    let proof = |type_: &str| {
        let import = "use Rattle.a.specs.Theorems.{Claim, Other}\nuse Rattle.a.specs.Theorems as t";
        format!("{import}\npub claim : {type_}\nclaim = x\n")
    };
    for type_ in [
        "Claim",
        "t.Claim",
        "(n : ℕ) → Claim n",
        "(n : ℕ)\n    → Sound n\n    → Claim n",
    ] {
        assert!(proves(&proof(type_), "claim", &statement), "{type_}");
    }
    for type_ in [
        "Claim → Other",
        "Other Claim",
        "(Claim) → Other",
        "Other → (n → Claim)",
        "Unknown.Claim",
        "Other\nclaim_b : Claim",
    ] {
        assert!(!proves(&proof(type_), "claim", &statement), "{type_}");
    }
    let elsewhere = (
        "crates/b/specs/Theorems.antt".to_owned(),
        "Claim".to_owned(),
    );
    assert!(!proves(&proof("Claim"), "claim", &elsewhere));
}

#[test]
fn an_unproved_statement_is_found() {
    let path = "crates/a/specs/Theorems.antt".to_owned();
    let text = "pub record Claim : Type 0 where\n  pub part : (n : ℕ) → Part n\n\n-- of Claim\npub record Part (n : ℕ) : Type 0 where\n  pub same : n ≡ n\n\n\
                module _ (n : ℕ) where\n  pub record Lost : Type 0 where\n    pub round : Round\n\nabbrev pub Round : Type 0\nRound = Lost 1\n";
    let specs = Specs::new(&BTreeMap::from([(path.clone(), text.to_owned())]));
    let id = |name: &str| (path.clone(), name.to_owned());
    let lost = unproved(&specs, &BTreeSet::from([id("Claim")]));
    assert_eq!(lost, [id("Lost"), id("Round")]);
}

#[test]
fn contracts_are_read() {
    let code = "    requires { A x }\n    ensures first { record { a = B result }\n        ≡ C }\n    ensures second { D }\n{ E }\n// ensures { F }\n";
    let names = |all| {
        let text = contracts(code, all);
        let names = words(&text).filter(|word| word.starts_with(char::is_uppercase));
        names.map(str::to_owned).collect::<Vec<_>>()
    };
    assert_eq!(names(false), ["B", "C", "D"]);
    assert_eq!(names(true), ["A", "B", "C", "D"]);
}
