//! Names with the place that stands beside them: `name (crates/X/specs/Y.antt)`, `a`, `b` and `c` (crates/X/src), `name` in crates/X/specs, and
//! a bare file of the crate that was named last. A name is declared in that very file, or in one of that folder.

use crate::declared::{declared, File, Name};

/// Where a name has to be declared: one of these files or folders.
type Place = Vec<String>;

/// A span that has a place beside it, and the places: it has to be declared in each.
pub struct Placed {
    pub span: String,
    pub places: Vec<Place>,
}

/// A path or the name of a file of logic at the beginning of a text, and what is left.
fn word(text: &str) -> Option<(&str, &str)> {
    let end = text.find(|c: char| !(c.is_alphanumeric() || "_-./".contains(c)));
    let word = text[..end.unwrap_or(text.len())].trim_end_matches('.');
    let is_place = word.starts_with("crates/") || (word.ends_with(".antt") && !word.contains('/'));
    is_place.then(|| (word, &text[word.len()..]))
}

/// `A, B and C` of what `word` takes, and what is left.
fn words(text: &str) -> (Vec<&str>, &str) {
    let (mut found, mut rest) = (Vec::new(), text);
    let mut next = word(text);
    while let Some((word_here, left)) = next {
        found.push(word_here);
        rest = left;
        next = [", ", " and in ", " and "]
            .iter()
            .find_map(|between| word(left.strip_prefix(between)?));
    }
    (found, rest)
}

/// `crates/ring` of `crates/ring/specs/View.antt`.
fn crate_of(path: &str) -> String {
    path.split('/').take(2).collect::<Vec<_>>().join("/")
}

/// A bare file in a crate, or in every crate where none was named.
fn bare(file: &str, owner: Option<&str>) -> String {
    owner.map_or(file.to_owned(), |owner| format!("{owner}/specs/{file}"))
}

/// What stands beside a span: after a comma, a colon or `in`, or in a bracket, from the first place in it on.
fn beside(text: &str) -> &str {
    let starts = [", ", " in ", ": "];
    if let Some(inside) = text.strip_prefix(" (") {
        let inside = inside.split(')').next().unwrap_or(inside);
        let spaces = inside.match_indices(' ').map(|(at, _)| at + 1);
        let mut texts = [0].into_iter().chain(spaces).map(|at| &inside[at..]);
        return texts.find(|text| word(text).is_some()).unwrap_or_default();
    }
    let rest = starts.iter().find_map(|start| text.strip_prefix(start));
    rest.unwrap_or_default()
}

/// The places that stand beside a span, after the crate that was named last: each of several files, one of several folders; a file `of` crates
/// in one of them, a file `in` crates in each.
fn places(text: &str, last: Option<&str>) -> Vec<Place> {
    let (found, rest) = words(beside(text));
    let (mut each, mut one) = (Vec::new(), Vec::new());
    let mut last = last.map(str::to_owned);
    let of = [" of ", " in "].map(|between| rest.strip_prefix(between).map(|rest| words(rest).0));
    for word in found {
        if let [Some(owners), _] | [_, Some(owners)] = &of {
            let files = owners
                .iter()
                .map(|owner| bare(word, Some(&crate_of(owner))));
            match of[0] {
                Some(_) => one.extend(files),
                None => each.extend(files.map(|file| vec![file])),
            }
        } else if !word.starts_with("crates/") {
            each.push(vec![bare(word, last.as_deref())]);
        } else {
            last = Some(crate_of(word));
            match word.ends_with(".antt") {
                true => each.push(vec![word.to_owned()]),
                false => one.push(word.to_owned()),
            }
        }
    }
    each.extend((!one.is_empty()).then_some(one));
    each
}

/// The last crate that a text names.
fn last_crate(text: &str) -> Option<String> {
    let at = text.rfind("crates/")?;
    word(&text[at..]).map(|(word, _)| crate_of(word))
}

/// The spans of a paragraph that have a place beside them, and those joined to them by commas or `and`; a part goes with its record.
pub fn placed(paragraph: &str) -> Vec<Placed> {
    let text = paragraph.split_whitespace().collect::<Vec<_>>().join(" ");
    let pieces: Vec<&str> = text.split('`').collect();
    let mut last = None;
    let mut found = Vec::new();
    for k in 0..pieces.len() {
        if k % 2 == 1 {
            continue;
        }
        let places = places(pieces[k], last.as_deref());
        let mut first = k;
        while !places.is_empty() && first >= 2 && (first == k || is_joint(pieces[first])) {
            first -= 2;
        }
        let spans = (first..k).filter(|at| at % 2 == 1).map(|at| pieces[at]);
        for span in whole(spans) {
            let places = places.clone();
            found.push(Placed { span, places });
        }
        last = last_crate(pieces[k]).or(last);
    }
    found
}

fn is_joint(text: &str) -> bool {
    [", ", " and ", ", and "].contains(&text)
}

/// `Record.a`, `.b` are `Record.a`, `Record.b`; what is no name is left out.
fn whole<'a>(spans: impl Iterator<Item = &'a str>) -> Vec<String> {
    let mut record = "";
    let mut found = Vec::new();
    for span in spans.filter(|span| is_name(span)) {
        match span.strip_prefix('.') {
            Some(part) => found.push(format!("{record}.{part}")),
            None => {
                record = span.split('.').next().unwrap_or(span);
                found.push(span.to_owned());
            }
        }
    }
    found
}

pub fn is_name(span: &str) -> bool {
    span.chars()
        .all(|c| c.is_alphanumeric() || "_-.:'′".contains(c))
}

/// A file is in a place: the file itself, one of the folder, or one of that bare name.
fn is_in(file: &File, place: &str) -> bool {
    let rest = file.path.strip_prefix(place);
    rest.is_some_and(|rest| rest.is_empty() || rest.starts_with('/'))
        || (!place.contains('/') && file.path.ends_with(&format!("/specs/{place}")))
}

/// The files of a place that declare a name.
pub fn declaring(span: &str, place: &Place) -> Vec<&'static File> {
    let name = Name::of(span);
    let in_place = |file: &&File| place.iter().any(|place| is_in(file, place));
    let files = declared().files.iter().filter(in_place);
    files.filter(|file| file.has(&name)).collect()
}

/// The names of a paragraph that are not declared where is said.
pub fn misplaced(paragraph: &str) -> Vec<String> {
    let mut found = Vec::new();
    for Placed { span, places } in placed(paragraph) {
        let lost = |place: &&Place| declaring(&span, place).is_empty();
        found.extend(
            places
                .iter()
                .filter(lost)
                .map(|place| format!("{span}: {}", place.join(", "))),
        );
    }
    found
}
