//! The declarations of logic with their texts, and what the words in them refer to.

use std::collections::BTreeMap;

/// A file of `specs/`, from the repository's top, and a name that it declares.
pub type Id = (String, String);

/// What a file imports from `specs/` of the repository: names, and files by another name.
#[derive(Default)]
pub struct Imports {
    names: BTreeMap<String, Id>,
    files: BTreeMap<String, String>,
}

impl Imports {
    pub fn read(text: &str) -> Self {
        let mut imports = Self::default();
        for line in text.lines() {
            imports.add(line);
        }
        imports
    }

    /// `use Rattle.crate.specs.File.{a, b as c}` or `use Rattle.crate.specs.File as f`.
    fn add(&mut self, line: &str) -> Option<()> {
        let line = line.trim_start();
        let line = line.strip_prefix("ghost ").unwrap_or(line);
        let rest = line.trim_end_matches(';').strip_prefix("use Rattle.")?;
        let (owner, rest) = rest.split_once(".specs.")?;
        let path = |file: &str| format!("crates/{owner}/specs/{file}.antt");
        if let Some((file, short)) = rest.split_once(" as ").filter(|_| !rest.contains('{')) {
            self.files.insert(short.to_owned(), path(file));
            return Some(());
        }
        let (file, names) = rest.split_once(".{")?;
        for name in names.trim_end_matches('}').split(", ") {
            let (name, short) = name.split_once(" as ").unwrap_or((name, name));
            let id = (path(file), name.to_owned());
            self.names.insert(short.to_owned(), id);
        }
        Some(())
    }

    /// What a word refers to: `name`, `file.name`, `Type.part`.
    pub fn find(&self, word: &str) -> Option<Id> {
        let (first, rest) = word.split_once('.').unwrap_or((word, ""));
        let by_file = self.files.get(first).map(|path| {
            let name = rest.split('.').next().unwrap_or_default();
            (path.clone(), name.to_owned())
        });
        by_file.or_else(|| self.names.get(first).cloned())
    }
}

/// A declaration: its name, whether it is a type (a record, data or a definition with a capital), and its text up to the next one.
pub struct Item {
    pub name: String,
    pub is_type: bool,
    pub text: String,
}

/// The words of a text that can refer to something; parts, as `.next`, do not.
pub fn words(text: &str) -> impl Iterator<Item = &str> {
    text.split(|c: char| c.is_whitespace() || "(){}[],;λ".contains(c))
        .filter(|word| !word.starts_with('.'))
        .map(|word| word.trim_end_matches('.'))
}

/// The declarations of a file, those of its modules too; what stands further in than a record or data type belongs to it.
pub fn items(text: &str) -> Vec<Item> {
    let mut found: Vec<Item> = Vec::new();
    let mut owner: Option<usize> = None;
    for line in text.lines().filter(|line| is_text(line)) {
        let indent = line.len() - line.trim_start().len();
        let inside = owner.is_some_and(|outer| indent > outer);
        let words: Vec<&str> = line
            .split_whitespace()
            .skip_while(|word| ["pub", "abbrev", "unfoldable"].contains(word))
            .collect();
        let (name, is_record) = match words.as_slice() {
            ["record" | "data", name, ..] => (*name, true),
            [name, ":", ..] if !inside && !name.starts_with(['(', '{']) => (*name, false),
            _ => ("", false),
        };
        if !inside {
            owner = is_record.then_some(indent);
        }
        if !name.is_empty() && !inside {
            found.push(Item {
                name: name.to_owned(),
                is_type: name.starts_with(char::is_uppercase),
                text: String::new(),
            });
        }
        if let Some(item) = found.last_mut() {
            item.text.push_str(line);
            item.text.push('\n');
        }
    }
    found
}

/// Neither empty, nor a comment, nor an import.
fn is_text(line: &str) -> bool {
    let line = line.trim_start();
    !(line.is_empty() || line.starts_with("--") || line.starts_with("use "))
}
