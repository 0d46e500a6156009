//! The soundness check of a ring visits its nodes in one loop, downward. A contract tells an answer and not the way to it, so this is held by the
//! text of the code: each call that the check makes is followed; three of the functions have a loop, each runs once, and the walk's alone is over
//! the nodes.

use crate::repository::{dependencies, files, read, top};
use std::collections::BTreeMap;

const CHECK: &str = "ring::is_sound";
const WALK: &str = "ring::walk";

/// How the walk's loop begins.
const WALK_LOOP: &str = "for node in (0..self.n).rev() {";
/// The functions with loops, each with the beginning of its one loop: the places that are no nodes, and the bytes of their colors, are looked at
/// after the walk.
const LOOPS: [(&str, &str); 3] = [
    ("color::are_zero", "bytes.iter().all(|byte| "),
    ("ring::is_empty_from_n", "for node in self.n..RING_NODES {"),
    (WALK, WALK_LOOP),
];

/// Words that go over something.
const LOOPING: [&str; 14] = [
    "while", "for", "loop", "all", "any", "map", "fold", "filter", "find", "position", "sum",
    "count", "for_each", "max",
];
/// What is called of the language, and calls nothing of ours.
const OF_STD: [&str; 6] = ["all", "iter", "rev", "unsigned_abs", "u64::from", "from"];
/// The file that hands the check on to a trait.
const HANDED_ON: &str = "src/request.rt";

/// The code of each crate that the check can reach, without comments.
type Code = BTreeMap<String, String>;
/// The bodies of functions and methods, by `crate::name`.
type Bodies = BTreeMap<String, String>;

fn code() -> Code {
    let mut found = Code::new();
    let mut names = vec!["ring".to_owned()];
    while let Some(name) = names.pop() {
        names.extend(dependencies(&name));
        let paths = files(&name, "src").into_iter();
        let read_whole = paths.filter(|path| !path.ends_with(HANDED_ON));
        let line = |line: &str| {
            let code = line.split("//").next().unwrap_or_default();
            code.to_owned() + "\n"
        };
        let text: String = read_whole
            .map(|path| read(path.strip_prefix(top()).expect("a file of the repository")))
            .map(|text| text.lines().map(line).collect::<String>())
            .collect();
        found.insert(name, text);
    }
    found
}

fn words(text: &str) -> impl Iterator<Item = &str> {
    text.split(|c: char| !c.is_alphanumeric() && c != '_')
}

fn loops(body: &str) -> usize {
    words(body).filter(|word| LOOPING.contains(word)).count()
}

/// What follows a function's parameters and contract, to its end; `lines` begins with the function.
fn body(lines: &[&str]) -> String {
    let indent = lines[0].len() - lines[0].trim_start().len();
    let last = " ".repeat(indent) + "}";
    let end = lines.iter().position(|line| *line == last).expect("an end");
    let text = lines[..end].join("\n") + "\n";
    text.split_once("{\n").expect("a body").1.to_owned()
}

/// The bodies of all functions; one that is not read, or another of the same name, is a fault.
fn bodies(code: &Code, faults: &mut Vec<String>) -> Bodies {
    let mut found = Bodies::new();
    for (home, code) in code {
        let lines: Vec<&str> = code.lines().collect();
        for (k, line) in lines.iter().enumerate() {
            let start = line.trim_start();
            let start = start.strip_prefix("pub ").unwrap_or(start);
            if let Some(rest) = start.strip_prefix("fn ") {
                // What a trait or one of its implementations declares stands under the type's name in the text.
                let name = rest.split(['(', '<']).next().expect("a name");
                let name = format!("{home}::{name}");
                if !rest.trim_end().ends_with(';') && has_body(&lines[k..]) {
                    let twice = found.insert(name.clone(), body(&lines[k..])).is_some();
                    if twice && home == "ring" {
                        faults.push(format!("{name} is there twice"));
                    }
                }
            } else if words(start).any(|word| word == "fn") {
                faults.push(format!("{home} has functions that are not read: {line}"));
            }
        }
    }
    found
}

/// Whether a function has a body, and not a contract alone, as in a trait.
fn has_body(lines: &[&str]) -> bool {
    let indent = lines[0].len() - lines[0].trim_start().len();
    let last = " ".repeat(indent) + "}";
    let more = lines[1..].iter();
    let mut ends = more.take_while(|line| !line.trim_start().starts_with("fn "));
    ends.any(|line| *line == last)
}

/// The calls in a text of a crate, by the functions' whole names; one that is not known is as it is written.
fn calls(text: &str, home: &str, bodies: &Bodies) -> Vec<String> {
    let is_of_path = |c: char| c.is_alphanumeric() || "_:.".contains(c);
    let before = text.match_indices('(').map(|(at, _)| &text[..at]);
    let paths = before.map(|text| &text[text.trim_end_matches(is_of_path).len()..]);
    let named = |path: &str| {
        let last = path.rsplit('.').next().unwrap_or(path);
        let own = format!("{home}::{}", last.trim_start_matches("crate::"));
        let known = |name: &str| bodies.contains_key(name).then(|| name.to_owned());
        known(last).or(known(&own)).unwrap_or(last.to_owned())
    };
    let keywords = ["if", "match", "in", "return"];
    paths
        .filter(|path| !path.is_empty() && !keywords.contains(path))
        .map(named)
        .filter(|name| !OF_STD.contains(&name.as_str()))
        .collect()
}

/// The functions that the check reaches, and how often each runs, a loop's calls counted once.
struct Runs<'a> {
    bodies: &'a Bodies,
    counts: BTreeMap<String, usize>,
    faults: Vec<String>,
}

impl Runs<'_> {
    fn follow(&mut self, name: &str, callers: &[&str]) {
        let Some(body) = self.bodies.get(name) else {
            self.faults.push(format!("{callers:?} calls {name}"));
            return;
        };
        if callers.contains(&name) {
            self.faults.push(format!("{name} reaches itself"));
            return;
        }
        *self.counts.entry(name.to_owned()).or_default() += 1;
        let callers = [callers, &[name]].concat();
        for other in self.calls_in(name, body) {
            self.follow(&other, &callers);
        }
    }

    fn calls_in(&self, name: &str, text: &str) -> Vec<String> {
        let (home, _) = name.split_once("::").expect("a crate and a name");
        calls(text, home, self.bodies)
    }

    fn has_loop(&self, name: &str) -> bool {
        loops(&self.bodies[name]) > 0
    }

    /// The three loops are as they are known, run once, and none of them is in another.
    fn check_loops(&mut self) {
        let names = self.counts.keys();
        let found: Vec<&String> = names.filter(|name| self.has_loop(name)).collect();
        if found != LOOPS.map(|(name, _)| name) {
            self.faults.push(format!("loops in {found:?}"));
            return;
        }
        for (name, start) in LOOPS {
            let body = &self.bodies[name];
            if body.matches(start).count() != 1 || loops(body) != 1 {
                self.faults.push(format!("{name} has another loop"));
                return;
            }
            let (_, turn) = body.split_once(start).expect("the loop");
            let mut inside = self.calls_in(name, turn).into_iter();
            if self.counts[name] != 1 || inside.any(|other| self.has_loop(&other)) {
                self.faults.push(format!("{name} runs more than once"));
            }
        }
    }
}

/// What is wrong of the walk's turns: each looks at the node that it has come to and no other, and goes on to the next.
fn of_walk(body: &str) -> Vec<String> {
    let (_, rest) = body.split_once(WALK_LOOP).expect("the loop");
    let turn = rest.split("\n        }\n").next().expect("its end");
    let mut faults = Vec::new();
    for (look, node) in [("[", "node]"), ("is_black(", "&self.color, node)")] {
        let mut places = turn.split(look).skip(1);
        if places.any(|place| !place.starts_with(node)) {
            faults.push(format!("{WALK} looks at another place: {look}"));
        }
    }
    let leaves = words(turn).any(|word| ["break", "continue", "return", "let"].contains(&word));
    if leaves
        || turn
            .lines()
            .any(|line| line.trim_start().starts_with("node "))
    {
        faults.push(format!("{WALK} goes on otherwise than by its step"));
    }
    faults
}

fn faults(code: &Code) -> Vec<String> {
    let mut faults = Vec::new();
    let bodies = bodies(code, &mut faults);
    let mut runs = Runs {
        bodies: &bodies,
        counts: BTreeMap::new(),
        faults,
    };
    runs.follow(CHECK, &[]);
    if runs.faults.is_empty() {
        runs.check_loops();
    }
    if runs.faults.is_empty() {
        runs.faults = of_walk(&bodies[WALK]);
    }
    runs.faults
}

#[test]
fn one_loop_visits_the_nodes() {
    assert_eq!(faults(&code()), [""; 0]);
}

/// The ring's code with another text in the place of one.
fn changed(old: &str, new: &str) -> Code {
    let mut code = code();
    let text = code.get_mut("ring").expect("it");
    assert_eq!(text.matches(old).count(), 1, "{old}");
    *text = text.replacen(old, new, 1);
    code
}

const CALL: &str = "let seen = self.walk();\n";

#[test]
fn another_visit_is_found() {
    let function = |text: &str| format!("\nfn other{text}\n{{\n    self.walk()\n}}\n");
    for (after, elsewhere) in [
        ("for k in 0..n { sum += sent[k]; }", String::new()),
        ("loop { k += 1; }", String::new()),
        ("while k < n { k += 1; }", String::new()),
        (
            "let all = columns::sum_to(&self.sent, self.n);",
            String::new(),
        ),
        ("let all: u32 = self.sent.iter().sum();", String::new()),
        ("let b = color::count_black(&self.color);", String::new()),
        (
            "let b = c(&self.color);",
            "\nuse color::count_black as c;\n".into(),
        ),
        ("let again = self.is_sound();", String::new()),
        ("let again = other(n);", function("(n: usize) -> Seen")),
        ("let again = r.other();", function("(self) -> Seen")),
        (
            "let again = Seen::other(n);",
            function("(n: usize) -> Seen"),
        ),
        ("", "\nfn is_near(n: usize)\n{\n}\n".into()),
        ("", "\npub(crate) fn other(n: usize)\n{\n}\n".into()),
    ] {
        let mut code = changed(CALL, &format!("{CALL}        {after}\n"));
        code.get_mut("ring").expect("it").push_str(&elsewhere);
        assert!(!faults(&code).is_empty(), "{after} {elsewhere}");
    }
}

#[test]
fn another_run_of_the_walk_is_found() {
    let call = "self.is_empty_from_n() && ";
    let in_unused = changed(call, &format!("self.walk().white && {call}"));
    let mut twice = changed(CALL, "let seen = self.seen();\n");
    let text = twice.get_mut("ring").expect("it");
    *text = text.replacen("if !seen.flows()", "if !self.seen().flows()", 1);
    text.push_str("\nfn seen(self) -> Seen\n{\n    self.walk()\n}\n");
    let empty = "empty &= !self.active[node]";
    let in_a_loop = changed(
        empty,
        "empty &= color::white_from(&self.color, node) & !self.active[node]",
    );
    for (k, code) in [in_unused, twice, in_a_loop].iter().enumerate() {
        assert!(!faults(code).is_empty(), "text {k}");
    }
}

#[test]
fn another_way_of_the_walk_is_found() {
    for (old, new) in [
        (
            "from(self.sent[node]);",
            "from(self.sent[self.n - 1 - node]);",
        ),
        (
            "from(self.received[node]);",
            "from(self.received[self.n - 1 - node]);",
        ),
        (
            "from(self.pending[node]);",
            "from(self.pending[self.n - 1 - node]);",
        ),
        (
            "passive &= !self.active[node]",
            "passive &= !self.active[self.n - 1 - node]",
        ),
        (
            "white &= !color::is_black(&self.color, node)",
            "white &= !color::is_black(&self.color, self.n - 1 - node)",
        ),
        ("if self.pos < node {\n", "if self.pos < node {\n break;\n"),
        (
            "if self.pos < node {",
            "if node < self.pos { break; }\n            if self.pos < node {",
        ),
        ("in (0..self.n).rev() {", "in 0..self.n {"),
        ("in (0..self.n).rev() {", "in (0..RING_NODES).rev() {"),
        ("in (0..self.n).rev() {", "in (1..self.n).rev() {"),
    ] {
        let code = changed(old, new);
        assert!(!faults(&code).is_empty(), "{new}");
    }
}
