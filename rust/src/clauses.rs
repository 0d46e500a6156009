//! The contracts in a text of proved code.

/// What stands between the brackets of each clause of some kinds, `ensures { .. }` or `ensures NAME { .. }`, where a line begins with it.
pub fn clauses(text: &str, kinds: &[&str]) -> String {
    let lines = text.match_indices('\n').map(|(at, _)| at + 1);
    let clause = |start: usize| {
        let line = text[start..].trim_start_matches(' ');
        let rest = kinds.iter().find_map(|kind| line.strip_prefix(kind))?;
        let (name, rest) = rest.split_once('{')?;
        let is_clause = name.starts_with(' ') && name.ends_with(' ') && !name.contains('\n');
        is_clause.then(|| bracketed(rest))
    };
    [0].into_iter().chain(lines).filter_map(clause).collect()
}

/// A text up to the bracket that ends it.
fn bracketed(text: &str) -> &str {
    let mut depth = 0;
    let end = text.char_indices().find(|(_, c)| {
        depth += i32::from(*c == '{') - i32::from(*c == '}');
        depth < 0
    });
    &text[..end.expect("the end of a clause").0]
}

#[test]
fn clauses_are_read() {
    let code = "    requires { a }\n    ensures first { record { b = c }\n        ≡ d }\n    ensures second { e }\n{ f }\n// ensures { g }\nensured { h }\n";
    assert_eq!(
        clauses(code, &["ensures"]),
        " record { b = c }\n        ≡ d  e "
    );
    assert_eq!(clauses(code, &["requires"]), " a ");
}
