//! Every name that a file of the crates imports occurs in it; one of logic, where code imports it, in a contract, a ghost item or a `#[tactic(..)]`.

use second::clauses::clauses;
use std::collections::BTreeSet;
use std::fs;
use std::path::{Path, PathBuf};

fn files(folder: &Path, found: &mut Vec<PathBuf>) {
    for entry in fs::read_dir(folder).expect("a folder") {
        let path = entry.expect("an entry").path();
        if path.is_dir() {
            // What rt has made is not the repository's.
            if !path.ends_with("out") {
                files(&path, found);
            }
        } else if path.extension().is_some_and(|e| e == "rt" || e == "antt") {
            found.push(path);
        }
    }
}

/// What a line imports: `use a::B;`, `use a::{B, C};`, `use M as m` or `use M.{a, b as c}`, after `ghost` where code imports what is of logic.
fn imported(line: &str) -> Option<impl Iterator<Item = &str>> {
    let line = line.strip_prefix("ghost ").unwrap_or(line);
    let what = line.strip_prefix("use ")?.trim_end_matches([';', '}']);
    let (owner, names) = what.split_once('{').unwrap_or(("", what));
    let last = |path| str::rsplit(path, "::").next().unwrap_or(path);
    let alone = |name| str::rsplit(name, " as ").next().unwrap_or(name);
    let own = move |name| match name {
        "self" => last(owner.trim_end_matches("::")),
        _ => last(alone(name)),
    };
    Some(names.split(", ").map(own))
}

/// The contracts and ghost items of a text, and the lemmas that it names for their proofs.
fn contracts(text: &str) -> String {
    let tactics = text.split("#[tactic(").skip(1);
    let tactics = tactics.filter_map(|part| part.split(")]").next());
    clauses(text, &["ensures", "ghost", "requires"]) + &tactics.collect::<String>()
}

/// The words of a text, and of a word with dots its first part: the name of a module or a type.
fn words(text: &str, is_code: bool) -> BTreeSet<&str> {
    let is_between = |c: char| match is_code {
        true => !c.is_alphanumeric() && c != '_',
        false => c.is_whitespace() || "(){}[];,".contains(c),
    };
    let first = |word| str::split(word, '.').next().unwrap_or(word);
    let all = text.split(is_between);
    all.flat_map(|word| [word, first(word)]).collect()
}

/// An operator, as `◌+◌`, is used by the words between its places, or as it stands.
fn is_used(name: &str, text: &str, words: &BTreeSet<&str>) -> bool {
    let mut parts = name.split('◌').filter(|part| !part.is_empty());
    let is_operator = name.starts_with('◌') || name.ends_with('◌');
    words.contains(name)
        || (name == "[]" && text.contains(name))
        || (is_operator && parts.all(|part| words.contains(part)))
}

/// Traits of the toolchain, each used by a call of its method too.
const TRAITS: [(&str, &str); 2] = [("Read", ".read("), ("Write", ".write_all(")];

/// The imported names of a file that occur nowhere else in it.
fn unused(text: &str, is_code: bool) -> Vec<&str> {
    let is_comment = |line: &str| line.starts_with("--") || line.starts_with("//");
    let lines = text.lines().filter(|line| !is_comment(line.trim_start()));
    let (uses, rest): (Vec<_>, Vec<_>) = lines.partition(|line| imported(line).is_some());
    let code = rest.join("\n");
    let logic = if is_code {
        contracts(&code)
    } else {
        code.clone()
    };
    let (in_code, in_logic) = (words(&code, true), words(&logic, false));
    let is_called = |name: &str| {
        let mut methods = TRAITS.iter().filter(|(of, _)| *of == name);
        methods.any(|(_, method)| code.contains(method))
    };
    let mut lost = Vec::new();
    for line in uses {
        let of_code = is_code && !line.starts_with("ghost ");
        let is_lost = |name: &&str| match of_code {
            true => !in_code.contains(name) && !is_called(name),
            false => !is_used(name, &logic, &in_logic),
        };
        lost.extend(imported(line).into_iter().flatten().filter(is_lost));
    }
    lost
}

#[test]
fn every_imported_name_is_used() {
    let mut all = Vec::new();
    let crates = Path::new(concat!(env!("CARGO_MANIFEST_DIR"), "/../crates"));
    files(crates, &mut all);
    assert!(!all.is_empty());
    let mut lost = Vec::new();
    for path in all {
        let text = fs::read_to_string(&path).expect("text");
        let is_code = path.extension().is_some_and(|e| e == "rt");
        let names = unused(&text, is_code).into_iter();
        lost.extend(names.map(|name| format!("{}: {name}", path.display())));
    }
    assert_eq!(lost, [""; 0]);
}

#[test]
fn an_unused_name_is_found() {
    let logic = "use lib.A.{◌+◌, b, c as d, []}\nuse lib.E as e\n-- b d e\nx .b = 1 + 2\n";
    assert_eq!(unused(logic, false), ["b", "d", "[]", "e"]);
    let code = "use a::B;\nuse c::D;\nuse a::b::{self, E, F as e};\nuse a::g::{self};\ng E\nghost use e.F.{◌<◌, g, h, i};\n// B\n#[tactic(auto, using(h))]\nrequires { i }\nensures told { g }\nD < 1\n";
    assert_eq!(unused(code, true), ["B", "b", "e", "◌<◌"]);
    let code = "use std::io::{Read, Write};\nx.read(y)\n";
    assert_eq!(unused(code, true), ["Write"]);
}
