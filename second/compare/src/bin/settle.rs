//! Prints how two modules settle, line by line, with one of them swapped in the middle. The
//! one on the right is a head that tells its model by Next Pages; the one on the left is
//! the controller's, which has nothing to say and learns the model.
//!
//! The reference simulates the two modules, their hosts and the wire. Then the program
//! `drive` gets the events of each module and must give the same answers; the lines tell
//! its answers. Each timer must have run out within the window that Clause 98 has for it,
//! and the house's own timer at its number.

use compare::agreement::all_answers;
use compare::call::Call;
use compare::event::{LINK, SENT, WRITE};
use compare::history::Step;
use compare::host_log;
use compare::joined::{Joined, Module, Side, LEFT, RIGHT};
use compare::next_page;
use compare::random::Random;
use compare::windows::runs_in_windows;
use reference::answer;
use reference::device::registers::{
    COMPLETE, CONTROL, ENABLE, LINK_LATCH, PAGE_RECEIVED, REMOTE_FAULT, RESET, STATUS,
};
use reference::device::{Round, State};
use reference::resolve::RATES;
use std::collections::BTreeSet;
use std::process::ExitCode;

const NAMES: [&str; 2] = ["left", "right"];

const MILLISECOND: u64 = 1_000_000;

/// Modules that fit settle well within this time.
const TIME_TO_SETTLE: u64 = 100 * MILLISECOND;

/// How long the link is used before a head is swapped.
const TIME_IN_USE: u64 = 2 * MILLISECOND;

/// 1000BASE-T1 and 100BASE-T1, no role forced.
const BOTH_RATES: u64 = 1 << 23 | 1 << 21;
/// 100BASE-T1 only, forced to be slave.
const SLOW_SLAVE: u64 = 1 << 21 | 1 << 12;

/// The bits of an answer that hold a page's word.
const WORD: u64 = (1 << 48) - 1;

/// A line of the log.
struct Line {
    time: u64,
    side: usize,
    words: String,
}

fn main() -> ExitCode {
    match log() {
        Ok(lines) => {
            lines.iter().for_each(|line| println!("{line}"));
            ExitCode::SUCCESS
        }
        Err(words) => {
            eprintln!("{words}");
            ExitCode::FAILURE
        }
    }
}

/// All that is to be printed, or words that say why there is nothing.
fn log() -> Result<Vec<String>, String> {
    let joined = simulate()?;
    let calls = [LEFT, RIGHT].map(|side| Call::run(&joined.sides[side].history.events()));
    let answers = all_answers(&calls)?;
    for side in [LEFT, RIGHT] {
        compare_answers(&joined.sides[side], &answers[side])
            .and_then(|()| runs_in_windows(&joined.sides[side]))
            .map_err(|words| format!("{}: {words}", NAMES[side]))?;
    }
    let mut log: Vec<String> = lines(&joined, &answers).iter().map(printed).collect();
    log.push(String::new());
    log.extend([LEFT, RIGHT].map(|side| summary(side, &answers[side])));
    Ok(log)
}

fn printed(line: &Line) -> String {
    let microseconds = line.time as f64 / 1000.0;
    format!(
        "{microseconds:>12.3}  {:5}  {}",
        NAMES[line.side], line.words
    )
}

/// Two modules settle; then the right one is swapped and they settle again.
fn simulate() -> Result<Joined, String> {
    let both_up = |joined: &Joined| joined.both_are(State::Up);
    let mut joined = Joined::new(Random::new(9));
    let controller = Module::with_host(BOTH_RATES, &[], 0);
    joined.put_in_both(&controller, &head(BOTH_RATES, "EMB-40 17"));
    settle(&mut joined, both_up)?;
    joined.run_for(TIME_IN_USE);
    joined.swap_head(0, RIGHT, &head(SLOW_SLAVE, "EMB-7"));
    joined.run_for(MILLISECOND);
    settle(&mut joined, both_up)?;
    Ok(joined)
}

/// A head that advertises this and tells its model.
fn head(advertised: u64, model: &str) -> Module {
    Module::with_host(advertised, &next_page::telling_model(model), 0)
}

/// Waits until both are up, and reads the status of both.
fn settle(joined: &mut Joined, both_up: fn(&Joined) -> bool) -> Result<(), String> {
    if !joined.run_until(TIME_TO_SETTLE, both_up) {
        return Err("the two modules have not settled".to_string());
    }
    joined.read(LEFT, STATUS);
    joined.read(RIGHT, STATUS);
    joined.run_for(MILLISECOND);
    Ok(())
}

/// Fails unless `drive` has answered every event as the reference did.
fn compare_answers(side: &Side, answers: &[u64]) -> Result<(), String> {
    let expected: Vec<u64> = side.history.steps.iter().map(|step| step.answer).collect();
    if expected == answers {
        return Ok(());
    }
    let is_different = |place: &usize| expected.get(*place) != answers.get(*place);
    let place = (0..).find(is_different).expect("the two differ");
    Err(format!(
        "event {place} is answered {:x?}, the reference has {:x?}",
        answers.get(place),
        expected.get(place)
    ))
}

/// What both sides have to tell, by time.
fn lines(joined: &Joined, answers: &[Vec<u64>]) -> Vec<Line> {
    let mut lines = Vec::new();
    for side in [LEFT, RIGHT] {
        let told = &joined.sides[side];
        let others_pages = next_pages(&joined.sides[1 - side]);
        for (place, step) in told.history.steps.iter().enumerate() {
            let time = told.times[place];
            let answer = answers[side][place];
            let words = told_by_answer(step, answer, &others_pages).or_else(|| told_by_event(step));
            lines.extend(words.map(|words| Line { time, side, words }));
        }
        let hosts = told.hosts.iter();
        let words = hosts.flat_map(|host| host_log::told(host, NAMES[1 - side]));
        lines.extend(words.map(|(time, words)| Line { time, side, words }));
    }
    lines.sort_by_key(|line| line.time);
    lines
}

/// The words of the Next Pages that this side has ordered.
fn next_pages(side: &Side) -> BTreeSet<u64> {
    let steps = side.history.steps.iter();
    let ordered = steps.filter(|step| answer::kind(step.answer) == answer::ORDERED_PAGE);
    let next = ordered.filter(|step| step.glimpse_before.round != Round::Base);
    next.map(|step| step.answer & WORD).collect()
}

/// What the answer says, in words. Registers other than 513 are told by the hosts.
fn told_by_answer(step: &Step, answer: u64, others_pages: &BTreeSet<u64>) -> Option<String> {
    let word = answer & WORD;
    let is_own_next_page = step.glimpse_before.round != Round::Base;
    match answer::kind(answer) {
        0 => None,
        answer::GOOD_PAGE => {
            let page = page(word, others_pages.contains(&word));
            Some(format!("hears {page}{}", change(step)))
        }
        answer::ORDERED_PAGE => Some(format!("orders {}", page(word, is_own_next_page))),
        answer::SETTLED => Some(format!("page sent; {}{}", settled(answer), change(step))),
        answer::REGISTER_VALUE => (step.event[2] == STATUS).then(|| read_status(answer as u16)),
        refusal => Some(format!("refuses with {refusal}{}", change(step))),
    }
}

fn page(word: u64, is_next_page: bool) -> String {
    match is_next_page {
        true => format!("Next Page {word:012x}, {}", next_page::in_words(word)),
        false => format!("page {word:012x}"),
    }
}

fn read_status(value: u16) -> String {
    format!("host reads 513: {value:04x}{}", status(value))
}

/// The bits of the status, in words.
fn status(value: u16) -> String {
    let names = [
        (PAGE_RECEIVED, "page received"),
        (COMPLETE, "complete"),
        (REMOTE_FAULT, "remote fault"),
        (LINK_LATCH, "link was up before"),
    ];
    let set = names.iter().filter(|(bit, _)| value & bit != 0);
    let words: Vec<&str> = set.map(|(_, name)| *name).collect();
    format!(" ({})", words.join(", "))
}

/// What the event says, in words, if something comes of it.
fn told_by_event(step: &Step) -> Option<String> {
    let value = step.event[2] as u16;
    let words = match (step.event[0], step.before, step.after) {
        (WRITE, _, _) if step.event[2] >> 16 == CONTROL => control(value),
        (_, before, after) if before == after => return None,
        (SENT, _, _) => "page sent; goes on to its next page",
        (LINK, _, State::Up) => "link up",
        (LINK, _, _) => "link down",
        (_, State::Break, _) => "leaves Break and listens",
        (_, State::CheckLink, _) => "the link has not come up in time",
        _ => "the other module has fallen silent",
    };
    Some(format!("{words}{}", change(step)))
}

fn control(value: u16) -> &'static str {
    match value {
        RESET => "is taken out, another module is put in",
        ENABLE => "is enabled",
        _ => "is restarted",
    }
}

/// The change of state, if there is one.
fn change(step: &Step) -> String {
    if step.before == step.after {
        return String::new();
    }
    format!(" ({} to {})", name(step.before), name(step.after))
}

fn name(state: State) -> String {
    match state {
        State::CheckLink => "Check-link".to_string(),
        other => format!("{other:?}"),
    }
}

fn settled(answer: u64) -> String {
    let rate = RATES
        .iter()
        .find(|rate| u64::from(rate.ability) == answer::settled_ability(answer));
    let name = rate.map_or("an unknown rate", |rate| rate.name);
    let role = if answer::settled_as_master(answer) {
        "master"
    } else {
        "slave"
    };
    format!("settled on {name} as {role}")
}

fn summary(side: usize, answers: &[u64]) -> String {
    let settlings: Vec<String> = answers
        .iter()
        .filter(|answer| answer::kind(**answer) == answer::SETTLED)
        .map(|answer| settled(*answer))
        .collect();
    format!(
        "{}: {} events, each answered by drive as by the reference; {}",
        NAMES[side],
        answers.len(),
        settlings.join(", then ")
    )
}
