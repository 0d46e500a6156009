//! What the crates declare: records, data, functions and their parts, as far as the names go.

use crate::repository::{crates, dependencies, files, read, top};
use std::collections::{BTreeMap, BTreeSet};
use std::sync::OnceLock;

/// A file, and what it declares.
#[derive(Default)]
pub struct File {
    /// From the repository's top.
    pub path: String,
    pub owner: String,
    /// Definitions, statements, proofs, functions, types, variants, constants.
    tops: BTreeSet<String>,
    /// The fields of a record, the cases of a data type, the variants of an enum, the methods of a type, the functions of a crate.
    parts: BTreeMap<String, BTreeSet<String>>,
}

pub struct Declared {
    pub files: Vec<File>,
    /// The crates, and those of the toolchain that they use; `std` is used by each.
    pub crates: BTreeSet<String>,
    /// The toolchain's modules that are imported anywhere.
    pub modules: BTreeSet<String>,
}

/// What a span names: a name alone, or a part of something (`Record.part`, `Type::method`, `crate::function`).
pub enum Name<'a> {
    Alone(&'a str),
    Part(&'a str, &'a str),
}

impl<'a> Name<'a> {
    pub fn of(span: &'a str) -> Self {
        let part = span.split_once("::").or_else(|| span.split_once('.'));
        part.map_or(Name::Alone(span), |(owner, part)| Name::Part(owner, part))
    }
}

pub fn declared() -> &'static Declared {
    static READ: OnceLock<Declared> = OnceLock::new();
    READ.get_or_init(Declared::read)
}

impl Declared {
    fn read() -> Self {
        let mut declared = Self {
            files: Vec::new(),
            crates: crates().into_iter().chain(["std".to_owned()]).collect(),
            modules: BTreeSet::new(),
        };
        for name in crates() {
            declared.crates.extend(dependencies(&name));
            for path in ["specs", "proofs", "src"]
                .map(|folder| files(&name, folder))
                .concat()
            {
                let path = path.strip_prefix(top()).expect("a file of the repository");
                let path = path.to_str().expect("a path in UTF-8").to_owned();
                let text = read(&path);
                declared.modules.extend(modules(&text));
                declared.files.push(File::read(path, &name, &text));
            }
        }
        declared
    }

    /// Whether one of some files declares a name.
    pub fn has(&self, name: &Name, among: impl Fn(&File) -> bool) -> bool {
        self.files.iter().any(|file| among(file) && file.has(name))
    }
}

/// The modules of the toolchain that a text imports, as `lib.Dec` or `Rattle.std.specs.Prelude`.
pub fn modules(text: &str) -> BTreeSet<String> {
    let ours = crates();
    let module = |line: &str| {
        let line = line.strip_prefix("ghost ").unwrap_or(line);
        let rest = line.strip_prefix("use ")?;
        let end = rest.find(".{").or_else(|| rest.find(" as "));
        let module = &rest[..end.unwrap_or(rest.len())];
        let owner = module
            .strip_prefix("Rattle.")
            .and_then(|rest| rest.split('.').next());
        let is_ours = owner.is_some_and(|owner| ours.contains(owner));
        (!is_ours && !module.contains("::")).then(|| module.to_owned())
    };
    text.lines().filter_map(module).collect()
}

impl File {
    fn read(path: String, owner: &str, text: &str) -> Self {
        let mut file = Self {
            owner: owner.to_owned(),
            ..Self::default()
        };
        if path.ends_with(".antt") {
            file.logic(text);
        } else {
            file.code(owner, text);
        }
        Self { path, ..file }
    }

    pub fn has(&self, name: &Name) -> bool {
        let has_part = |owner: &str, part: &str| {
            self.parts
                .get(owner)
                .is_some_and(|parts| parts.contains(part))
        };
        match name {
            Name::Alone(name) => {
                self.tops.contains(*name) || self.parts.keys().any(|owner| has_part(owner, name))
            }
            Name::Part(owner, part) => has_part(owner, part),
        }
    }

    /// Declared by itself: a part of a record of logic is not.
    pub fn has_top(&self, name: &str) -> bool {
        self.tops.contains(name)
    }

    /// A field is declared in its record alone; a case of a data type, and what stands further in in code, is declared by itself too.
    fn add(&mut self, owner: Option<&str>, name: &str, is_top: bool) {
        if is_top {
            self.tops.insert(name.to_owned());
        }
        if let Some(owner) = owner {
            let parts = self.parts.entry(owner.to_owned()).or_default();
            parts.insert(name.to_owned());
        }
    }

    /// Declarations are `record NAME ..`, `data NAME ..` and `NAME : ..`; those further in than a record or data type are its parts.
    fn logic(&mut self, text: &str) {
        let mut owner: Option<(usize, String)> = None;
        let mut is_data = false;
        for line in text.lines().filter(|line| !line.trim().is_empty()) {
            let indent = line.len() - line.trim_start().len();
            if owner.as_ref().is_some_and(|(outer, _)| indent <= *outer) {
                owner = None;
            }
            let words: Vec<&str> = line
                .split_whitespace()
                .skip_while(|word| ["pub", "abbrev", "unfoldable"].contains(word))
                .collect();
            match words.as_slice() {
                [kind @ ("record" | "data"), name, ..] => {
                    self.add(None, name, true);
                    self.parts.entry((*name).to_owned()).or_default();
                    owner = Some((indent, (*name).to_owned()));
                    is_data = *kind == "data";
                }
                [name, ":", ..] => {
                    let record = owner.as_ref().map(|(_, name)| name.clone());
                    self.add(record.as_deref(), name, record.is_none() || is_data);
                }
                _ => (),
            }
        }
    }

    /// Functions, types, constants; further in, the methods of an `impl`, and fields and variants.
    fn code(&mut self, crate_name: &str, text: &str) {
        let mut owner = crate_name.to_owned();
        for line in text.lines() {
            let further_in = line.starts_with("    ");
            let words: Vec<&str> = line
                .split(|c: char| !(c.is_alphanumeric() || c == '_'))
                .filter(|word| !["", "pub", "crate", "extern", "C"].contains(word))
                .collect();
            match words.as_slice() {
                ["impl", name] => owner = (*name).to_owned(),
                ["struct" | "enum" | "trait", name, ..] => {
                    self.add(Some(crate_name), name, true);
                    owner = (*name).to_owned();
                }
                ["fn", name, ..] if further_in => self.add(Some(&owner), name, true),
                ["fn" | "const", name, ..] => self.add(Some(crate_name), name, true),
                [name, ..] if further_in && declares(line) => self.add(Some(&owner), name, true),
                _ => (),
            }
            if line == "}" {
                owner = crate_name.to_owned();
            }
        }
    }
}

/// A field or a variant: `pub n: usize,`, `Closed,`, `Length(usize),`.
fn declares(line: &str) -> bool {
    let line = line.trim();
    line.ends_with(',') && (line.starts_with("pub ") || line.starts_with(char::is_uppercase))
}
