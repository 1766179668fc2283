//! What of the Next Pages the random runs have to meet.

use crate::runs::{event_name, way_into_break, EVENT_NAMES, TICKS_NEAR_THE_TIME};
use compare::event::{register, SENT, TICK};
use compare::history::{History, Step};
use compare::tally::Tally;
use reference::answer::{kind, GOOD_PAGE, SETTLED};
use reference::device::registers::RESET;
use reference::device::{Round, State, STATES};
use reference::word::{ACK, NEXT_PAGE, OUR_SELECTOR, SELECTOR};

/// Every pair of state and round in which a device can be. A page that is held makes the
/// first round a later one, so Ability alone is ever at round first.
const PAIRS: [(State, Round); 13] = [
    (State::Off, Round::Base),
    (State::Break, Round::Base),
    (State::Ability, Round::Base),
    (State::Ability, Round::First),
    (State::Ability, Round::Later),
    (State::Ack, Round::Base),
    (State::Ack, Round::Later),
    (State::Complete, Round::Base),
    (State::Complete, Round::Later),
    (State::CheckLink, Round::Base),
    (State::CheckLink, Round::Later),
    (State::Up, Round::Base),
    (State::Up, Round::Later),
];

fn exchanges_pages(state: State) -> bool {
    matches!(state, State::Ability | State::Ack | State::Complete)
}

/// The pairs at which a partner can be lost.
fn pairs_with_lost() -> impl Iterator<Item = (State, Round)> {
    let has_lost =
        |(state, round): &(State, Round)| exchanges_pages(*state) && *round != Round::Base;
    PAIRS.into_iter().filter(has_lost)
}

pub fn all_of_next_pages() -> Vec<String> {
    let mut names = Vec::new();
    for (state, round) in PAIRS {
        let pair = pair_name(state, round);
        names.extend(EVENT_NAMES.map(|event| format!("{event} in {pair}")));
        if exchanges_pages(state) {
            names.extend(EVENT_NAMES.map(|event| format!("{event} in {pair}, page out")));
        }
        if state != State::Off {
            names.push(format!("{pair} left for Break: restart in {state:?}"));
        }
    }
    for (state, round) in pairs_with_lost() {
        let pair = pair_name(state, round);
        names.push(format!("{pair} left for Break: lost"));
        for (_, when) in TICKS_NEAR_THE_TIME {
            names.extend(["", ", page out"].map(|out| format!("lost: tick {when} in {pair}{out}")));
        }
    }
    for state in STATES {
        for number in 520..=525 {
            names.extend(
                ["read", "write"].map(|use_of| format!("{use_of} of {number} in {state:?}")),
            );
        }
    }
    names.extend(OTHERS.map(String::from));
    names
}

/// What is met once in a while, each with its own name.
const OTHERS: [&str; 42] = [
    "Ability, round First left for Break: toggle",
    "Ability, round Later left for Break: toggle",
    "Ack, round Base left for Break: changed",
    "Ack, round Later left for Break: changed",
    "Off entered from Off, a page loaded",
    "Break left: the page has NP",
    "Break left: the page has no NP",
    "Complete, round Base, NP of neither: settled",
    "Complete, round Base, NP of neither: settled, a page loaded",
    "Complete, round Base, NP of the own page: the loaded page",
    "Complete, round Base, NP of the held page: the loaded page",
    "Complete, round Base, NP of the held page: the Null message",
    "Complete, round Base, NP of both: the loaded page",
    "Complete, round Later, NP of neither: settled",
    "Complete, round Later, NP of neither: settled, a page loaded",
    "Complete, round Later, NP of neither: refused",
    "Complete, round Later, NP of the own page: the loaded page",
    "Complete, round Later, NP of the own page: the hold",
    "Complete, round Later, NP of the held page: the loaded page",
    "Complete, round Later, NP of the held page: the Null message",
    "Complete, round Later, NP of both: the loaded page",
    "Complete, round Later, NP of both: the hold",
    "the hold goes on at a further Sent",
    "the hold ends with a loaded page",
    "the hold ends with lost",
    "the hold: a page loaded",
    "the hold: a page heard",
    "repeat in Ability, round First: nothing differs",
    "repeat in Ability, round First: Ack differs",
    "repeat in Ability, round First: the echo differs",
    "repeat in Ability, round Later: nothing differs",
    "repeat in Ability, round Later: Ack differs",
    "a new page in Ability, round First",
    "a new page in Ability, round Later",
    "a new page with Ack",
    "a new page with another selector",
    "a page heard in Complete, round Later",
    "3 own Next Pages, one after the other",
    "3 heard Next Pages, one after the other",
    "5 own Next Pages, one after the other",
    "5 heard Next Pages, one after the other",
    "a Next Page without Ack in Ack",
];

fn pair_name(state: State, round: Round) -> String {
    format!("{state:?}, round {round:?}")
}

fn pair_before(step: &Step) -> String {
    pair_name(step.before, step.glimpse_before.round)
}

fn pair_and_page_before(step: &Step) -> String {
    let page = if step.page_was_out { ", page out" } else { "" };
    format!("{}{page}", pair_before(step))
}

/// Counts the steps of a history, and the Next Pages since Break was left.
#[derive(Default)]
pub struct NextPagesMet {
    own_pages: u32,
    heard_pages: u32,
}

impl NextPagesMet {
    pub fn count(&mut self, history: &History, met: &mut Tally) {
        for step in &history.steps {
            let pair = (step.after, step.glimpse_after.round);
            assert!(PAIRS.contains(&pair), "this pair cannot be: {pair:?}");
            self.count_pages(step, met);
            let names = [
                Some(format!(
                    "{} in {}",
                    event_name(step),
                    pair_and_page_before(step)
                )),
                lost_name(step),
                register_name(step),
                entry_name(step),
                decision_name(step),
                hold_name(step).map(String::from),
                repeat_name(step),
            ];
            let names = names.into_iter().flatten().chain(names_of_a_new_page(step));
            names.for_each(|name| met.meet(&name));
        }
    }

    fn count_pages(&mut self, step: &Step, met: &mut Tally) {
        let holds_next_page = step.glimpse_after.round == Round::Later;
        match (step.before, step.after) {
            (State::Break, _) => *self = NextPagesMet::default(),
            (State::Complete, State::Ability) => {
                self.own_pages += 1;
                met.meet(&in_a_row(self.own_pages, "own"));
            }
            (State::Ability, State::Ack) if holds_next_page => {
                self.heard_pages += 1;
                met.meet(&in_a_row(self.heard_pages, "heard"));
            }
            _ => {}
        }
    }
}

fn in_a_row(pages: u32, whose: &str) -> String {
    format!("{pages} {whose} Next Pages, one after the other")
}

fn lost_name(step: &Step) -> Option<String> {
    let lost_at = step.glimpse_before.lost_at?;
    if step.event[0] != TICK {
        return None;
    }
    let late = (step.event[1] as u32).wrapping_sub(lost_at);
    let (_, when) = TICKS_NEAR_THE_TIME.iter().find(|(time, _)| *time == late)?;
    Some(format!(
        "lost: tick {when} in {}",
        pair_and_page_before(step)
    ))
}

fn register_name(step: &Step) -> Option<String> {
    let number = register(&step.event)?;
    Some(format!(
        "{} of {number} in {:?}",
        event_name(step),
        step.before
    ))
}

/// How Break was entered or left, or Off entered once more.
fn entry_name(step: &Step) -> Option<String> {
    match (step.before, step.after) {
        (State::Break, State::Ability) => {
            let has_more = NEXT_PAGE.is_set(step.glimpse_after.own_page);
            let words = if has_more { "NP" } else { "no NP" };
            Some(format!("Break left: the page has {words}"))
        }
        (_, State::Break) => {
            let way = way_into_break(step);
            Some(format!("{} left for Break: {way}", pair_before(step)))
        }
        (State::Off, State::Off) => {
            let is_forgotten = step.glimpse_before.is_loaded && !step.glimpse_after.is_loaded;
            let is_reset = step.event[2] as u16 & RESET != 0;
            let has_entered = is_forgotten && !is_reset;
            has_entered.then(|| "Off entered from Off, a page loaded".to_string())
        }
        _ => None,
    }
}

/// What was decided at a Sent in Complete, if something was.
fn decision_name(step: &Step) -> Option<String> {
    let before = &step.glimpse_before;
    let is_settled = kind(step.answer) == SETTLED;
    let decision = match step.after {
        _ if step.event[0] != SENT || step.before != State::Complete => return None,
        State::CheckLink if !is_settled => "refused",
        State::CheckLink if before.is_loaded => "settled, a page loaded",
        State::CheckLink => "settled",
        State::Ability if before.is_loaded => "the loaded page",
        State::Ability => "the Null message",
        _ if before.is_holding => return Some("the hold goes on at a further Sent".to_string()),
        _ if step.glimpse_after.is_holding => "the hold",
        _ => return None,
    };
    let of_whom = match [before.own_page, before.held_page].map(|page| NEXT_PAGE.is_set(page)) {
        [false, false] => "neither",
        [true, false] => "the own page",
        [false, true] => "the held page",
        [true, true] => "both",
    };
    Some(format!(
        "{}, NP of {of_whom}: {decision}",
        pair_before(step)
    ))
}

fn hold_name(step: &Step) -> Option<&'static str> {
    if !step.glimpse_before.is_holding {
        return None;
    }
    let is_newly_loaded = !step.glimpse_before.is_loaded && step.glimpse_after.is_loaded;
    match (step.event[0], step.after) {
        (SENT, State::Ability) => Some("the hold ends with a loaded page"),
        (TICK, State::Break) => Some("the hold ends with lost"),
        _ if is_newly_loaded => Some("the hold: a page loaded"),
        _ if kind(step.answer) == GOOD_PAGE => Some("the hold: a page heard"),
        _ => None,
    }
}

/// A good page at round first or later that leads to no other state.
fn repeat_name(step: &Step) -> Option<String> {
    let is_base = step.glimpse_before.round == Round::Base;
    if kind(step.answer) != GOOD_PAGE || is_base || step.before != step.after {
        return None;
    }
    let differs = word_of(step) ^ step.glimpse_before.held_page;
    let words = match differs & !ACK.ones() {
        _ if step.before == State::Ack => {
            return Some("a Next Page without Ack in Ack".to_string())
        }
        _ if step.before == State::Complete => {
            return Some(format!("a page heard in {}", pair_before(step)))
        }
        0 if differs == 0 => "nothing differs",
        0 => "Ack differs",
        _ => "the echo differs",
    };
    Some(format!("repeat in {}: {words}", pair_before(step)))
}

/// The word of an answer that is a good page.
fn word_of(step: &Step) -> u64 {
    step.answer & ((1 << 48) - 1)
}

fn names_of_a_new_page(step: &Step) -> Vec<String> {
    let is_new = (step.before, step.after) == (State::Ability, State::Ack);
    if !is_new || step.glimpse_before.round == Round::Base {
        return Vec::new();
    }
    let word = word_of(step);
    let mut names = vec![format!("a new page in {}", pair_before(step))];
    if ACK.is_set(word) {
        names.push("a new page with Ack".to_string());
    }
    if SELECTOR.of(word) != OUR_SELECTOR {
        names.push("a new page with another selector".to_string());
    }
    names
}
