//! Many random message runs (operation 8), and joining their messages again.

use compare::agreement::{assert_agreement, drives_answers};
use compare::call::Call;
use compare::generate::messages_call;
use compare::random::Random;
use compare::tally::Tally;
use reference::answer::{number, number_of, LENGTH, ROOM, RUN, WIDE};
use reference::{calls, messages};

const RUNS: usize = 20_000;

/// So many runs are joined again.
const RUNS_TO_JOIN: usize = 5000;

const TWO_TO_48: u64 = 1 << 48;

/// D13, which is one in a message page.
const MESSAGE_PAGE: u64 = 0x2000;

/// D0-10.
const CODE: u64 = 0x7FF;

fn random_runs(number: usize) -> Vec<Call> {
    let mut random = Random::from_environment();
    (0..number).map(|_| messages_call(&mut random)).collect()
}

#[test]
fn random_runs_agree() {
    let runs = random_runs(RUNS);
    let mut met = Tally::of(names_of_all());
    for run in &runs {
        names(&run.arguments).iter().for_each(|name| met.meet(name));
    }
    met.assert_all_met();
    assert_agreement(&runs);
}

/// What the random runs have to meet.
fn names_of_all() -> Vec<String> {
    let mut names: Vec<String> = OTHERS.map(String::from).to_vec();
    names.extend((0..=65).map(|length| format!("length {length:>2}")));
    names.extend((0..=64).map(|messages| format!("messages: {messages:>2}")));
    names.extend((0..=63).map(|pages| format!("unformatted pages of a message: {pages:>2}")));
    names.extend((0..=63).map(|place| format!("first place {place:>2}")));
    names
}

const OTHERS: [&str; 25] = [
    "length over 65",
    "25: nothing else wrong",
    "25: wide too",
    "25: unformatted first too",
    "25: wide and unformatted first too",
    "25: a page after the first 64 is the only wide one",
    "13: nothing else wrong",
    "13: unformatted first too",
    "13: the first page is wide",
    "13: the last page of 64 is the only wide one",
    "13: a page of 2^48",
    "13: a page of 2^64 - 1",
    "13: several wide pages",
    "24: a message page later",
    "24: no message page at all",
    "24: one page",
    "24: 64 pages",
    "read: a page of 2^48 - 1",
    "read: code    0, first message",
    "read: code    0, later message",
    "read: code 2047, first message",
    "read: code 2047, later message",
    "read: the same code twice",
    "read: an unformatted page with D0-10 all ones",
    "read: an unformatted page of 0",
];

/// All that is to be counted of this run.
fn names(pages: &[u64]) -> Vec<String> {
    let mut names = match pages.len() {
        0..=65 => vec![format!("length {:>2}", pages.len())],
        _ => vec!["length over 65".to_string()],
    };
    match answer(pages) {
        LENGTH => names.extend(names_of_too_long(pages)),
        WIDE => names.extend(names_of_wide(pages)),
        RUN => names.extend(names_of_unformatted_first(pages)),
        _ => names.extend(names_of_read(pages)),
    }
    names
}

fn answer(pages: &[u64]) -> u64 {
    let answer = calls::messages(pages, &mut [0; 3 * 64]);
    assert!(answer != ROOM, "there is room for 64 messages");
    answer
}

fn is_wide(page: &u64) -> bool {
    *page >= TWO_TO_48
}

fn is_message(page: &u64) -> bool {
    page & MESSAGE_PAGE != 0
}

fn names_of_too_long(pages: &[u64]) -> Vec<String> {
    let what_else = match (pages.iter().any(is_wide), is_message(&pages[0])) {
        (false, true) => "nothing else wrong",
        (true, true) => "wide too",
        (false, false) => "unformatted first too",
        (true, false) => "wide and unformatted first too",
    };
    let (first, others) = pages.split_at(64);
    let only_after = others.iter().any(is_wide) && !first.iter().any(is_wide);
    let only_after = only_after.then_some("a page after the first 64 is the only wide one");
    let names = [Some(what_else), only_after];
    named("25", names.into_iter().flatten())
}

fn names_of_wide(pages: &[u64]) -> Vec<String> {
    let last_of_64 = pages.len() == 64 && !pages[..63].iter().any(is_wide);
    let number = pages.iter().filter(|page| is_wide(page)).count();
    let so = [
        (is_message(&pages[0]), "nothing else wrong"),
        (!is_message(&pages[0]), "unformatted first too"),
        (is_wide(&pages[0]), "the first page is wide"),
        (last_of_64, "the last page of 64 is the only wide one"),
        (pages.contains(&TWO_TO_48), "a page of 2^48"),
        (pages.contains(&u64::MAX), "a page of 2^64 - 1"),
        (number > 1, "several wide pages"),
    ];
    named("13", those_that_are_so(&so))
}

fn names_of_unformatted_first(pages: &[u64]) -> Vec<String> {
    let has_message = pages.iter().any(is_message);
    let so = [
        (has_message, "a message page later"),
        (!has_message, "no message page at all"),
        (pages.len() == 1, "one page"),
        (pages.len() == 64, "64 pages"),
    ];
    named("24", those_that_are_so(&so))
}

fn names_of_read(pages: &[u64]) -> Vec<String> {
    let messages = messages::messages(pages).expect("the run is not refused");
    let mut codes: Vec<u64> = messages.iter().map(|message| message.code).collect();
    let later = codes.get(1..).unwrap_or(&[]);
    let unformatted = |bits: u64, value: u64| {
        let mut others = pages.iter().filter(|page| !is_message(page));
        others.any(|page| page & bits == value)
    };
    let mut so = vec![
        (pages.contains(&(TWO_TO_48 - 1)), "a page of 2^48 - 1"),
        (codes.first() == Some(&0), "code    0, first message"),
        (later.contains(&0), "code    0, later message"),
        (codes.first() == Some(&CODE), "code 2047, first message"),
        (later.contains(&CODE), "code 2047, later message"),
        (
            unformatted(CODE, CODE),
            "an unformatted page with D0-10 all ones",
        ),
        (unformatted(u64::MAX, 0), "an unformatted page of 0"),
    ];
    codes.sort();
    let twice = codes.windows(2).any(|pair| pair[0] == pair[1]);
    so.push((twice, "the same code twice"));
    let mut names = named("read", those_that_are_so(&so));
    names.push(format!("messages: {:>2}", messages.len()));
    for message in messages {
        let pages = message.unformatted_pages;
        names.push(format!("unformatted pages of a message: {pages:>2}"));
        names.push(format!("first place {:>2}", message.first_place));
    }
    names
}

fn those_that_are_so<'a>(names: &'a [(bool, &'a str)]) -> impl Iterator<Item = &'a str> {
    names.iter().filter(|(is_so, _)| *is_so).map(|pair| pair.1)
}

/// The names, each behind the word for the outcome.
fn named<'a>(outcome: &str, names: impl Iterator<Item = &'a str>) -> Vec<String> {
    names.map(|name| format!("{outcome}: {name}")).collect()
}

/// Whether 02 has no reason to refuse these pages. The reference is not asked.
fn has_nothing_wrong(pages: &[u64]) -> bool {
    let begins_well = pages.first().is_none_or(is_message);
    pages.len() <= 64 && !pages.iter().any(is_wide) && begins_well
}

#[test]
fn joined_again_the_messages_cover_the_run_once() {
    let runs = random_runs(RUNS_TO_JOIN);
    let mut joined = 0;
    for (run, answer) in runs.iter().zip(drives_answers(&runs)) {
        if has_nothing_wrong(&run.arguments) {
            assert_joined_again(&run.arguments, &answer);
            joined += 1;
        } else {
            assert_eq!(answer.len(), 1, "{run}\n  has an answer of one cell");
            assert_eq!(number_of(answer[0]), None, "{run}\n  is refused");
        }
    }
    println!("{joined} of {RUNS_TO_JOIN} runs joined again");
    assert!(joined >= RUNS_TO_JOIN / 2);
}

/// From the answer cells alone: the messages lie side by side from place 0 to the end, and
/// at their first places, and nowhere else, the run has a message page, which has their code.
fn assert_joined_again(pages: &[u64], answer: &[u64]) {
    let (messages, cells_left) = answer[1..].as_chunks::<3>();
    assert_eq!(answer[0], number(messages.len() as u64));
    assert_eq!(cells_left, []);
    let mut next_place = 0;
    let mut codes_at_places = vec![None; pages.len()];
    for [code, first_place, unformatted_pages] in messages {
        assert_eq!(*first_place, next_place);
        codes_at_places[next_place as usize] = Some(*code);
        next_place += 1 + unformatted_pages;
    }
    assert_eq!(next_place, pages.len() as u64);
    let codes_of_the_run: Vec<Option<u64>> = pages
        .iter()
        .map(|page| is_message(page).then_some(page & CODE))
        .collect();
    assert_eq!(codes_at_places, codes_of_the_run);
}
