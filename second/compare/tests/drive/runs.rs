//! Many random runs of a device, and what of it they met.

use crate::next_pages_met::{all_of_next_pages, NextPagesMet};
use compare::agreement::assert_agreement;
use compare::call::Call;
use compare::event::{register, LINK, TICK, WRITE};
use compare::history::{History, Step};
use compare::random::Random;
use compare::runs::random_run;
use compare::tally::Tally;
use reference::answer::{self, CHANGED, ECHO, TIE, TOGGLE};
use reference::device::registers::{CONTROL, ENABLE, RESET, RESTART};
use reference::device::{State, STATES};
use reference::resolve::RATES;

/// So many runs of so many events.
const SHORT_RUNS: (usize, usize) = (1500, 500);
const LONG_RUNS: (usize, usize) = (500, 5000);

/// So many runs are compared at once, since all together would take much room.
const RUNS_AT_ONCE: usize = 100;

pub const EVENT_NAMES: [&str; 7] = ["edge", "tick", "sent", "link", "read", "write", "unknown"];

#[test]
fn random_runs_agree() {
    let mut random = Random::from_environment();
    let mut met = Tally::of([all_that_must_be_met(), all_of_next_pages()].concat());
    for (runs, events) in [SHORT_RUNS, LONG_RUNS] {
        for _ in 0..runs / RUNS_AT_ONCE {
            compare_runs(&mut random, events, &mut met);
        }
    }
    met.assert_all_met();
}

fn compare_runs(random: &mut Random, events: usize, met: &mut Tally) {
    let mut calls = Vec::new();
    for _ in 0..RUNS_AT_ONCE {
        let history = random_run(random, events);
        count(&history, met);
        calls.push(Call::run(&history.events()));
    }
    assert_agreement(&calls);
}

fn count(history: &History, met: &mut Tally) {
    NextPagesMet::default().count(history, met);
    for pair in history.steps.windows(2) {
        met.meet(clock_name(&pair[0], &pair[1]));
    }
    for step in &history.steps {
        let names = [
            format!("state {:?}", step.after),
            format!("{} in {:?}", event_name(step), step.before),
            page_out_name(step),
            answer_name(step),
            register_name(step),
            timer_name(step),
            cells_name(step).to_string(),
            format!("Break entered: {}", way_into_break(step)),
        ];
        names.iter().for_each(|name| met.meet(name));
    }
}

fn all_that_must_be_met() -> Vec<String> {
    let mut names = Vec::new();
    for state in STATES {
        names.push(format!("state {state:?}"));
        names.extend(EVENT_NAMES.map(|event| format!("{event} in {state:?}")));
        if state != State::Off {
            names.push(format!("Break entered: restart in {state:?}"));
        }
    }
    for state in [State::Ability, State::Ack, State::Complete] {
        names.extend(EVENT_NAMES.map(|event| format!("{event} in {state:?}, page out")));
    }
    for state in STATES_WITH_A_TIME {
        names.extend(TICKS_NEAR_THE_TIME.map(|(_, when)| format!("tick {when} in {state:?}")));
    }
    names.extend(CLOCK_AND_CELLS.map(String::from));
    let ways = [
        "enable",
        "tie",
        "changed",
        "echo",
        "toggle",
        "lost",
        "time-out",
        "link down",
    ];
    names.extend(ways.map(|way| format!("Break entered: {way}")));
    let refusals = (1..=11).chain([17]);
    names.extend(refusals.map(|number| format!("refusal {number}")));
    for rate in &RATES {
        names.extend([true, false].map(|is_master| {
            let ability = rate.ability;
            format!("settled on A{ability}, master {is_master}")
        }));
    }
    names.extend(["a page read".to_string(), "a page ordered".to_string()]);
    names.extend(register_names());
    names
}

fn register_names() -> impl Iterator<Item = String> {
    let numbers = (512..=525).map(|number| number.to_string());
    let with_others = numbers.chain(["other".to_string()]);
    with_others.flat_map(|number| ["read", "write"].map(|access| format!("{access} of {number}")))
}

const STATES_WITH_A_TIME: [State; 5] = [
    State::Break,
    State::Ability,
    State::Ack,
    State::Complete,
    State::CheckLink,
];

/// How long after the time has run out a tick comes, modulo 2^32.
pub const TICKS_NEAR_THE_TIME: [(u32, &str); 3] = [
    (u32::MAX, "1 ns before its time"),
    (0, "exactly at its time"),
    (1, "1 ns after its time"),
];

const CLOCK_AND_CELLS: [&str; 5] = [
    "clock rolls over",
    "clock goes back",
    "reading cell above 2^32",
    "link report with an argument above 2^32",
    "draw of 32 or more that is taken",
];

/// Less than this is no round of the clock, but a step back.
const SMALL_STEP_BACK: u32 = 1 << 20;

fn clock_name(earlier: &Step, later: &Step) -> &'static str {
    let [earlier, later] = [earlier, later].map(|step| step.event[1] as u32);
    match earlier.checked_sub(later) {
        None | Some(0) => "clock goes on",
        Some(1..SMALL_STEP_BACK) => CLOCK_AND_CELLS[1],
        Some(_) if later.wrapping_sub(earlier) < 1 << 24 => CLOCK_AND_CELLS[0],
        Some(_) => "clock jumps",
    }
}

fn cells_name(step: &Step) -> &'static str {
    let [kind, reading, argument] = step.event;
    let has_left_break = (step.before, step.after) == (State::Break, State::Ability);
    match kind {
        LINK if argument >> 32 != 0 => CLOCK_AND_CELLS[3],
        TICK if has_left_break && argument >= 32 => CLOCK_AND_CELLS[4],
        _ if reading >> 32 != 0 => CLOCK_AND_CELLS[2],
        _ => "small cells",
    }
}

fn timer_name(step: &Step) -> String {
    let late = match (step.event[0], step.runs_out_at) {
        (TICK, Some(reading)) => (step.event[1] as u32).wrapping_sub(reading),
        _ => return "no timer".to_string(),
    };
    let near = TICKS_NEAR_THE_TIME.iter().find(|(time, _)| *time == late);
    let when = near.map_or("at another time", |(_, when)| when);
    format!("tick {when} in {:?}", step.before)
}

pub fn event_name(step: &Step) -> &'static str {
    let kind = usize::try_from(step.event[0]).unwrap_or(usize::MAX);
    EVENT_NAMES[kind.min(6)]
}

fn page_out_name(step: &Step) -> String {
    match step.page_was_out {
        true => format!("{} in {:?}, page out", event_name(step), step.before),
        false => "no page out".to_string(),
    }
}

fn answer_name(step: &Step) -> String {
    let ability = answer::settled_ability(step.answer);
    let is_master = answer::settled_as_master(step.answer);
    match answer::kind(step.answer) {
        answer::GOOD_PAGE => "a page read".to_string(),
        answer::ORDERED_PAGE => "a page ordered".to_string(),
        answer::SETTLED => format!("settled on A{ability}, master {is_master}"),
        number => format!("refusal {number}"),
    }
}

fn register_name(step: &Step) -> String {
    let number = match register(&step.event) {
        Some(number) if (512..=525).contains(&number) => number.to_string(),
        _ => "other".to_string(),
    };
    format!("{} of {number}", event_name(step))
}

/// How this step entered Break, or words that say that it did not.
pub fn way_into_break(step: &Step) -> String {
    let answers = [
        (TIE, "tie"),
        (CHANGED, "changed"),
        (ECHO, "echo"),
        (TOGGLE, "toggle"),
    ];
    if let Some((_, way)) = answers.iter().find(|(answer, _)| step.answer == *answer) {
        return way.to_string();
    }
    match (step.event[0], step.before, step.after) {
        (WRITE, State::Off, State::Break) => "enable".to_string(),
        (WRITE, before, State::Break) if is_restart(step) => format!("restart in {before:?}"),
        (TICK, State::CheckLink, State::Break) => "time-out".to_string(),
        (TICK, State::Ability | State::Ack | State::Complete, State::Break) => "lost".to_string(),
        (LINK, State::Up, State::Break) => "link down".to_string(),
        _ => "not at all".to_string(),
    }
}

fn is_restart(step: &Step) -> bool {
    let value = step.event[2] as u16;
    let bits = value & (RESET | ENABLE | RESTART);
    register(&step.event) == Some(CONTROL) && bits == ENABLE | RESTART
}
