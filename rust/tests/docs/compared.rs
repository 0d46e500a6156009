//! "Comparisons with the second implementation" in docs/PROMISES.md: every number there is a bound of the comparisons, or in a phrase that is
//! known to be none.

use crate::repository::{in_thousands, joined, lost_phrases, places_of, read, section, tables};
use second::bounds::{
    answers, calls, independence, logs, own_trees, panels, soundness, tables, texts, updates,
    Asked, OwnAsked, TakesAsked, UnlistedAsked, LARGE_RINGS, LARGE_TREES,
};
use second::log::{LINE_BYTES, LINE_LIMIT};
use second::misreadings::MISREADINGS;
use second::refusal::Refusal;
use second::request::SEND_LIMIT;
use second::sizes::range_name;
use second::walk::FULL;
use second::{ring, tree};

const HEADING: &str = "## Comparisons with the second implementation";

/// Numbers that are no bounds.
const OTHERS: [&str; 3] = ["node 0", "document 001", "N = 3"];

fn page() -> String {
    read("docs/PROMISES.md")
}

/// The numbers of logs and of lines that the gate compares.
fn compared(gate: &str) -> [usize; 2] {
    let (_, rest) = gate
        .split_once("--bin compare -- target/bin/watch ")
        .expect("it");
    let mut numbers = rest
        .split_whitespace()
        .map(|word| word.parse().expect("a number"));
    [(); 2].map(|()| numbers.next().expect("two numbers"))
}

/// `half`, `a tenth`.
fn share(part: usize) -> &'static str {
    match part {
        2 => "half",
        10 => "a tenth",
        _ => panic!("no word for one in {part}"),
    }
}

/// `4, 6 and 8`.
fn enumerated<T: ToString>(numbers: &[T], last: &str) -> String {
    let words: Vec<String> = numbers.iter().map(T::to_string).collect();
    let (end, rest) = words.split_last().expect("a number");
    format!("{} {last} {end}", rest.join(", "))
}

/// `rings of 9 to 96 nodes and trees of 6 to 16`.
fn large() -> String {
    let (rings, trees) = (
        range_name("rings", &LARGE_RINGS),
        range_name("trees", &LARGE_TREES),
    );
    format!("{rings} nodes and {trees}")
}

/// The phrase with numbers in the places of `{}`.
fn filled(phrase: &str, numbers: &[usize]) -> String {
    let numbers = numbers.iter().map(|&number| in_thousands(number));
    numbers.fold(phrase.to_owned(), |text, number| {
        text.replacen("{}", &number, 1)
    })
}

fn of_logs() -> Vec<String> {
    let [count, lines] = compared(&read(".ci/run"));
    let millions = (lines + 2 * LINE_LIMIT as usize) / 1_000_000;
    let by_seed = "on {} logs by seed and two past the limit of lines, {} million lines";
    let (accepted, no_form) = (share(logs::ACCEPTED_PART), share(logs::NO_FORM_PART));
    let announced = "{} logs announced, {} of each";
    vec![
        filled(by_seed, &[count, millions]),
        format!("after a first at least {accepted} accepted and at most {no_form} no form"),
        filled(announced, &[logs::ANNOUNCED_IN_ALL, logs::ON_ALL.announced]),
        filled("refusal of a first line {} times", &[logs::STARTS]),
        filled("each cause of 10 there {} times", &[logs::CAUSES]),
    ]
}

fn of_steps() -> Vec<String> {
    let met = &logs::ON_ALL;
    let refusals = enumerated(&answers::OF_LOG, "and") + " at least {} times each on rings";
    let widths = enumerated(&logs::WIDTHS, "or");
    let cut = format!("6 for numbers that are nodes if they are cut to {widths} bits {{}} times");
    vec![
        filled(&refusals, &[met.refusal]),
        filled(&cut, &[met.cut]),
        filled(
            "each kind of step but announce accepted {} times",
            &[met.kind],
        ),
        filled("announcement refusing alone {} times", &[met.once]),
        filled(
            "each of the four of a leaving deciding alone {} times",
            &[met.seldom],
        ),
        filled("; {} receipts behind the token |", &[met.often]),
    ]
}

fn of_large_sizes() -> Vec<String> {
    let met = &logs::ON_LARGE;
    vec![
        format!("| of these, {} |", large()),
        filled("the same refusals {} times each on each", &[met.refusal]),
        filled("6 for numbers to be cut {} times", &[met.cut]),
        filled("each kind {} times", &[met.kind]),
        filled("{} logs announced of each", &[met.announced]),
        filled("announcement alone {} times", &[met.once]),
        filled("the other tests and reasons {} times", &[met.seldom]),
        filled("; {} receipts behind the token;", &[met.often]),
        filled("of each byte of colors {} times", &[logs::BLACKENED]),
    ]
}

fn of_calls() -> Vec<String> {
    let starts = "{} starts into noise and {} steps each";
    let refusals = enumerated(&[&[3], &answers::OF_SOUND[..]].concat(), "and");
    let on_large = format!("on {} each answer but a start's {{}} times", large());
    vec![
        filled(starts, &[calls::STARTS, calls::STEPS]),
        format!(
            "at least {} of the steps accepted",
            share(calls::ACCEPTED_PART)
        ),
        filled(
            &format!("{refusals} at least {{}} times each"),
            &[calls::ANSWER],
        ),
        filled("{} runs announced on each", &[calls::ANNOUNCED]),
        filled("drives and of soundness {} times", &[calls::ANSWER]),
        filled(&on_large, &[calls::ANSWER_ON_LARGE]),
        filled("each field broken alone {} times", &[calls::BROKEN]),
        filled(
            "a byte above 1 for a truth refused by each call {} times at each place",
            &[calls::NO_TRUTH],
        ),
        filled("0 and 1 there told as sound {} times", &[calls::TRUTH]),
    ]
}

fn of_own_trees() -> Vec<String> {
    let made = "sound ones of each sort and near misses of each kind {} times";
    let on_large = format!("on {} {{}} times", range_name("trees", &LARGE_TREES));
    let refused = "a take of such a message accepted, of near misses refused with {}";
    let unsound = Refusal::Unsound.number() as usize;
    vec![
        filled(made, &[own_trees::OF_EACH]),
        filled("on one node {} times", &[own_trees::ON_ONE]),
        filled(&on_large, &[own_trees::ON_LARGE]),
        filled(refused, &[unsound]),
    ]
}

fn of_updates() -> Vec<String> {
    let [count, lines] = compared(&read(".ci/run"));
    let millions = (lines + LINE_LIMIT as usize) / 1_000_000;
    let by_seed = "on {} logs by the same seeds and one past the limit of lines, {} million lines";
    let (accepted, no_form) = (share(updates::ACCEPTED_PART), share(updates::NO_FORM_PART));
    let large = range_name("rings", &LARGE_RINGS);
    let on_large = format!("on {large} {{}} steps accepted, {{}} refused and {{}} announcements");
    let asked = &updates::ON_LARGE;
    let longest = format!("{} forms of {LINE_BYTES} bytes", updates::LENGTHS);
    vec![
        filled(by_seed, &[count, millions]),
        filled("{} logs of updates", &[updates::LOGS]),
        format!("at least {accepted} of their lines"),
        filled("and {}, accepted", &[updates::LINES]),
        format!("at most {no_form} no form"),
        format!("{} of another update", share(updates::CHANGES_PART)),
        filled(
            "{} announcements, of each update {}",
            &[updates::ANNOUNCED, updates::ANNOUNCED_OF_EACH],
        ),
        filled("and {} accepted steps", &[updates::STEPS_OF_EACH]),
        filled("{} fresh starts of open", &[updates::FRESH]),
        filled(
            &on_large,
            &[asked.accepted, asked.refused, updates::ANNOUNCED_ON_LARGE],
        ),
        filled("{} numbers of nodes", &[updates::SIZES]),
        format!("{longest} and as many lines of {}", LINE_BYTES + 1),
    ]
}

fn of_refused_updates() -> Vec<String> {
    let numbers = |numbers: &[usize], phrase: &str, least: usize| {
        filled(&(enumerated(numbers, "and") + phrase), &[least])
    };
    let widths = enumerated(&logs::WIDTHS, "or");
    let cut = format!("13 for numbers that are updates if they are cut to {widths} bits");
    vec![
        numbers(
            &updates::OF_FIRST,
            " by {} first lines each",
            updates::FIRST_LINES,
        ),
        numbers(&updates::OF_START, " by {} starts each", updates::STARTS),
        numbers(&updates::OF_STEP, " by {} steps each", updates::STEPS),
        cut,
        "13 for an update above 7".to_owned(),
        filled("each {} times", &[updates::CAUSES]),
    ]
}

fn of_soundness() -> Vec<String> {
    let sizes = enumerated(&soundness::SIZES, "and");
    let refused = "{} steps of these rings refused with {}";
    let unsound = Refusal::Unsound.number() as usize;
    vec![
        format!("soundness of rings of {sizes} nodes"),
        format!("or the last or cut to {} bits", u32::BITS),
        filled("sound rings of each sort {} times", &[soundness::SOUND]),
        filled(
            "near misses and wild totals of each kind {} times",
            &[soundness::NEAR_MISSES],
        ),
        filled(
            "each field broken alone and every two together {} times not sound",
            &[soundness::BROKEN],
        ),
        filled(refused, &[soundness::REFUSED, unsound]),
        filled(
            "as each update {} rings sound and as many not",
            &[soundness::OF_EACH],
        ),
    ]
}

fn of_tables() -> Vec<String> {
    let refusals = enumerated(&[&[3], &answers::OF_TABLE_STEP[..]].concat(), "and");
    let starts = enumerated(&answers::TABLE_START, "and");
    vec![
        filled("{} steps of interleaved updates", &[tables::STEPS]),
        filled(
            &format!("{refusals}, to starts {starts} at least {{}} times each"),
            &[calls::ANSWER],
        ),
        filled(
            "{} updates announced, {} fresh starts",
            &[tables::ANNOUNCED, tables::FRESH],
        ),
        filled("{} accepted calls of each update", &[tables::OF_EACH]),
        filled(
            "each field of a started update broken alone {} times",
            &[calls::BROKEN],
        ),
        "a byte above 1 for a truth as often".to_owned(),
    ]
}

fn of_sends() -> Vec<String> {
    let limit = SEND_LIMIT as usize;
    let nine = Refusal::SendLimit.number() as usize;
    let beside = "{} sends accepted next after a {} to another update, as many refused with {} next after an accepted one of another";
    vec![
        filled("one to all eight, {} times", &[tables::FULL]),
        filled(
            "none there but {} sends together, {} or more",
            &[limit, limit + 1],
        ),
        filled(
            "{} sends accepted with each of these together",
            &[tables::TOGETHER],
        ),
        filled(beside, &[tables::BESIDE, nine, nine]),
        filled(
            "{} fresh starts after a {} that a send of the update followed",
            &[tables::AFRESH, nine],
        ),
        filled(
            "one update with {} sends {} times not sound beside others of each sort",
            &[limit + 1, tables::OVER],
        ),
    ]
}

fn of_independence() -> Vec<String> {
    let limit = SEND_LIMIT as usize;
    let nine = Refusal::SendLimit.number() as usize;
    let answers = enumerated(&answers::OF_UPDATE, "and");
    vec![
        filled("{} pairs of sound tables", &[independence::PAIRS]),
        filled(
            &format!("to that update {answers} at least {{}} times each"),
            &[independence::ANSWER],
        ),
        filled(
            "{} {} times with another number of sends together",
            &[nine, independence::NINES],
        ),
        filled(
            "{} sends of it accepted with {} sends together or more in one table alone",
            &[independence::PARTED, limit],
        ),
    ]
}

fn of_panels() -> Vec<String> {
    let enters = enumerated(&answers::PANEL_ENTER, "and");
    let starts = enumerated(&answers::PANEL_START, "and");
    let told = format!("to enters {enters}, to starts {starts} at least {{}} times each");
    let large = range_name("panels", &LARGE_RINGS);
    let on_large =
        format!("on {large} each answer to a step {{}} times and {{}} runs closed with each word");
    vec![
        filled(
            "{} enters into noise and {} steps of runs",
            &[panels::ENTERS, panels::STEPS],
        ),
        filled(&told, &[calls::ANSWER]),
        filled(
            "{} runs closed with old recorded and as many with new",
            &[panels::CLOSED],
        ),
        filled(
            &on_large,
            &[calls::ANSWER_ON_LARGE, panels::CLOSED_ON_LARGE],
        ),
        filled("made panels of each sort {} times", &[panels::MADE]),
        filled("{} starts accepted of released panels", &[panels::STARTED]),
        filled(
            "each of {} wrong readings told apart by {} calls",
            &[MISREADINGS.len(), panels::MISREAD],
        ),
    ]
}

fn of_refused_panels() -> Vec<String> {
    let refusals = enumerated(&[&[3], &answers::OF_PANEL_STEP[..]].concat(), "and");
    let [unsound, word, unequal] = [Refusal::Unsound, Refusal::JobWord, Refusal::UnequalMarks]
        .map(|refusal| refusal.number() as usize);
    let widths = enumerated(&panels::WIDTHS, "or");
    let words =
        format!("{{}} {{}} times for 0, for 5 and for words that are a job's if they are cut to {widths} bits");
    let both = panels::BOTH.map(|[first, second]| format!("{first} before {second}"));
    vec![
        format!("to steps {refusals}"),
        filled("or {} and no step accepted", &[unequal]),
        filled(
            "{} {} times for each way in which marks differ",
            &[unequal, panels::UNEQUAL],
        ),
        filled(&words, &[word, panels::WORDS]),
        format!("{}, {} times each", both.join(", "), panels::ORDER),
        filled("after a {} and of panels that run", &[unequal]),
        filled(
            "each damage refused with {} {} times",
            &[unsound, panels::DAMAGED],
        ),
        filled(
            "each field of a panel's ring broken alone {} times",
            &[calls::BROKEN],
        ),
        filled(
            "a byte that is no mark, record or truth refused by each call {} times at each place",
            &[panels::NO_MARK],
        ),
        filled("{} of those that are told as sound", &[panels::WHOLE]),
    ]
}

fn of_texts() -> Vec<String> {
    let widths = enumerated(&texts::WIDTHS, "or");
    let cut = format!("6 for a number that is a node if it is cut to {widths} bits {{}} times");
    let long = "6 for a number of {} digits or more {} times, 10 where it";
    vec![
        filled("texts of {} trees", &[texts::TREES]),
        filled("each then damaged {} times", &[texts::DAMAGED]),
        filled("{} written and read back", &[texts::WRITTEN]),
        filled("{} of them with a node of two digits", &[texts::TWO_DIGITS]),
        filled("each answer {} times;", &[calls::ANSWER]),
        filled(long, &[texts::LONG_DIGITS, texts::LONG]),
        filled(&cut, &[texts::CUT]),
    ]
}

/// The figures in full, and as they are published: cut to one decimal.
fn of_walk() -> Vec<String> {
    let figures = [FULL.diameter, FULL.distinct, FULL.generated];
    let cut = |number: usize| format!("{}.{} million", number / 1_000_000, number / 100_000 % 10);
    let (distinct, generated) = (cut(FULL.distinct), cut(FULL.generated));
    vec![
        filled("diameter {}, {} distinct and {} generated states", &figures),
        format!("published are {}, {distinct}, {generated} |", FULL.diameter),
    ]
}

fn phrases() -> Vec<String> {
    [
        of_logs(),
        of_steps(),
        of_large_sizes(),
        of_updates(),
        of_refused_updates(),
        of_calls(),
        of_own_trees(),
        of_soundness(),
        of_tables(),
        of_sends(),
        of_independence(),
        of_panels(),
        of_refused_panels(),
        of_texts(),
        of_walk(),
    ]
    .concat()
}

/// A row of the table of sizes.
fn row(name: &str, asked: &[Asked], met: usize) -> Vec<String> {
    let steps = |asked: &Asked| {
        let [accepted, refused] = [asked.accepted, asked.refused].map(in_thousands);
        format!("{accepted} and {refused}")
    };
    let cells = asked.iter().map(steps);
    [name.to_owned()]
        .into_iter()
        .chain(cells)
        .chain([met.to_string()])
        .collect()
}

/// The table of sizes, which is the section's second.
fn sizes() -> Vec<Vec<String>> {
    let both = logs::ON_RINGS.iter().zip(&logs::ON_TREES);
    let range = |asked: &Asked| range_name("", &asked.nodes).replace(" of ", "");
    let ranges = both.map(|(ring, tree)| format!("{} (tree: {})", range(ring), range(tree)));
    let head = ["Steps".to_owned()]
        .into_iter()
        .chain(ranges)
        .chain(["Met".to_owned()]);
    vec![
        head.collect(),
        row("logs, rings", &logs::ON_RINGS, logs::RING_SIZES),
        row("logs, trees", &logs::ON_TREES, logs::TREE_SIZES),
        row("calls, rings", &calls::ON_RINGS, ring::MAX_NODES),
        row("calls, trees", &calls::ON_TREES, tree::MAX_NODES),
        row("calls, tables", &tables::ON_TABLES, tables::SIZES),
        row("calls, panels", &panels::ON_PANELS, ring::MAX_NODES),
    ]
}

/// A row of the table of takes.
fn takes_row(name: &str, asked: &TakesAsked) -> Vec<String> {
    let widths: Vec<String> = asked.widths.iter().map(u32::to_string).collect();
    let cut = format!("{} ({})", in_thousands(asked.cut), widths.join(", "));
    let [several, reasons, limit] = [asked.several, asked.reasons, asked.limit].map(in_thousands);
    vec![name.to_owned(), several, reasons, limit, cut]
}

/// The rows of the table of takes, which is the section's third.
fn takes() -> Vec<Vec<String>> {
    let large = range_name("logs, rings", &LARGE_RINGS);
    vec![
        takes_row("logs, rings", &logs::TAKES),
        takes_row(&large, &logs::TAKES_ON_LARGE),
        takes_row("logs, updates", &updates::TAKES),
        takes_row("calls, rings", &calls::TAKES),
        takes_row("calls, tables", &tables::TAKES),
    ]
}

/// A row of the table of messages to oneself.
fn own_row(name: &str, asked: &OwnAsked) -> Vec<String> {
    let told = |asked: Option<usize>| asked.map_or("-".to_owned(), in_thousands);
    let figures = [
        Some(asked.sent),
        Some(asked.passive),
        asked.limit,
        asked.taken,
        asked.alone,
        asked.announced,
    ];
    let figures = figures.into_iter().map(told);
    [name.to_owned()].into_iter().chain(figures).collect()
}

/// The rows of the table of messages to oneself, which is the section's fourth.
fn own() -> Vec<Vec<String>> {
    let large = [("rings", &LARGE_RINGS), ("trees", &LARGE_TREES)];
    let [rings, trees] = large.map(|(of, nodes)| range_name(&format!("logs, {of}"), nodes));
    vec![
        own_row("logs, rings", &logs::OWN_ON_RINGS),
        own_row(&rings, &logs::OWN_ON_LARGE_RINGS),
        own_row("logs, trees", &logs::OWN_ON_TREES),
        own_row(&trees, &logs::OWN_ON_LARGE_TREES),
        own_row("logs, updates", &updates::OWN),
        own_row("calls, rings", &calls::OWN_ON_RINGS),
        own_row("calls, trees", &calls::OWN_ON_TREES),
        own_row("calls, tables", &tables::OWN),
        own_row("calls, panels", &panels::OWN),
    ]
}

/// A row of the table of starts without lists.
fn unlisted_row(name: &str, asked: &UnlistedAsked) -> Vec<String> {
    let told = |asked: Option<usize>| asked.map_or("-".to_owned(), in_thousands);
    let later = told(asked.later);
    let [first, large, announced] = [asked.first, asked.large, asked.announced].map(in_thousands);
    let [activity, color] = [asked.activity, asked.color].map(in_thousands);
    vec![
        name.to_owned(),
        first,
        later,
        large,
        announced,
        activity,
        color,
    ]
}

/// The rows of the table of starts without lists, which is the section's fifth.
fn unlisted() -> Vec<Vec<String>> {
    vec![
        unlisted_row("logs, rings", &logs::UNLISTED),
        unlisted_row("logs, updates", &updates::UNLISTED),
    ]
}

/// The section without the table of sizes and those after it.
fn text(page: &str) -> String {
    let text = section(page, HEADING);
    let end = text.find("\n| Steps |").unwrap_or(text.len());
    joined(&text[..end])
}

/// What is left of a text with numbers in it once the phrases are struck out.
fn left_over(text: &str, phrases: &[String]) -> Vec<String> {
    let mut text = text.to_owned();
    let others = OTHERS.map(str::to_owned);
    for phrase in phrases.iter().chain(&others) {
        for at in places_of(&text, phrase).into_iter().rev() {
            text.replace_range(at..at + phrase.len(), "~");
        }
    }
    text.split(['~', ';'])
        .filter(|part| part.contains(|c: char| c.is_ascii_digit()))
        .map(str::to_owned)
        .collect()
}

#[test]
fn the_numbers_are_the_bounds() {
    let text = text(&page());
    assert_eq!(lost_phrases(&text, &phrases()), Vec::<String>::new());
    assert_eq!(left_over(&text, &phrases()), Vec::<String>::new());
}

/// The logs by seed and the two long ones, where the pages tell their number by the way.
#[test]
fn the_number_of_logs_is_told() {
    let [count, _] = compared(&read(".ci/run"));
    let told = [filled("{} logs", &[count + 2])];
    for page in ["README.md", "docs/PROMISES.md"] {
        assert_eq!(lost_phrases(&read(page), &told), Vec::<String>::new());
    }
}

#[test]
fn the_table_of_sizes_is_what_is_asked() {
    let page = page();
    assert_eq!(tables(section(&page, HEADING)).get(1), Some(&sizes()));
    assert_eq!(calls_ranges(), logs_ranges());
}

#[test]
fn the_table_of_takes_is_what_is_asked() {
    let page = page();
    let text = section(&page, HEADING);
    let found = tables(text).swap_remove(2);
    assert_eq!(found[1..], takes());
    let limit = format!(
        "of {} accepted, of {} refused",
        in_thousands(ring::TAKE_LIMIT),
        in_thousands(ring::TAKE_LIMIT + 1)
    );
    assert!(found[0][3].starts_with(&limit), "{}", found[0][3]);
    assert_eq!(logs::SPELLINGS, updates::SPELLINGS);
    assert!(text.contains(&filled("that is no form, {} times:", &[logs::SPELLINGS])));
}

#[test]
fn the_table_of_messages_to_oneself_is_what_is_asked() {
    let page = page();
    let found = tables(section(&page, HEADING));
    assert_eq!(found.get(3).map(|table| &table[1..]), Some(&own()[..]));
}

#[test]
fn the_table_of_starts_without_lists_is_what_is_asked() {
    let page = page();
    let found = tables(section(&page, HEADING));
    assert_eq!(found.get(4).map(|table| &table[1..]), Some(&unlisted()[..]));
}

fn logs_ranges() -> Vec<String> {
    let asked = logs::ON_RINGS.iter().chain(&logs::ON_TREES);
    asked.map(|asked| range_name("", &asked.nodes)).collect()
}

fn calls_ranges() -> Vec<String> {
    let asked = calls::ON_RINGS.iter().chain(&calls::ON_TREES);
    asked.map(|asked| range_name("", &asked.nodes)).collect()
}

#[test]
fn a_number_that_is_no_bound_is_found() {
    let phrases = ["at least 1,000 times".to_owned(), "50 logs".to_owned()];
    let good = "4 at least 1,000 times; 50 logs; node 0";
    assert_eq!(lost_phrases(good, &phrases), Vec::<String>::new());
    assert_eq!(left_over(good, &phrases), ["4 "]);
    let other = "at least 10,000 times; 50 logs, and 70 rings";
    assert_eq!(lost_phrases(other, &phrases), ["at least 1,000 times"]);
    assert_eq!(
        left_over(other, &phrases),
        ["at least 10,000 times", ", and 70 rings"]
    );
}

#[test]
fn another_number_in_the_section_is_found() {
    let page = text(&page());
    for (told, other) in [
        ("2,000 logs", "3,000 logs"),
        ("at least half", "at least a third"),
        ("a tenth", "a fifth"),
        ("10,000 times", "20,000 times"),
        ("500 logs announced", "600 logs announced"),
        ("600,000 steps", "700,000 steps"),
        ("95 and 96 nodes", "94 and 96 nodes"),
        ("of each kind 100 times", "of each kind 110 times"),
        ("20,000 written", "30,000 written"),
        ("1,384,582", "1,384,583"),
        ("10.1 million", "10.2 million"),
    ] {
        assert!(page.contains(told), "{told}");
        let changed = page.replace(told, other);
        assert_ne!(
            lost_phrases(&changed, &phrases()),
            Vec::<String>::new(),
            "{other}"
        );
    }
}

#[test]
fn another_row_of_sizes_is_found() {
    let asked = &logs::ON_RINGS;
    assert_ne!(row("logs, rings", asked, 1), row("logs, rings", asked, 2));
    assert_ne!(
        row("logs, rings", asked, 1),
        row("logs, rings", &logs::ON_TREES, 1)
    );
    assert_eq!(
        compared("run --bin compare -- target/bin/watch 20 1000\nx"),
        [20, 1000]
    );
}
