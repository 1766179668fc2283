//! Modules with hosts tell one another their Next Pages: with late hosts, on bad wires, after
//! restarts, and with heads that are swapped at any moment. The simulation is the
//! reference's; the events of each side then go to `drive`, which must answer the same.

use crate::hosted_modules::{name, Disturbance, HostedModules, DISTURBANCES, MOST_PAGES, PLACES};
use compare::agreement::all_answers;
use compare::call::Call;
use compare::event::{self, READ};
use compare::history::Step;
use compare::hosts::{Note, LATEST};
use compare::joined::{Joined, Module, Side, LEFT, RIGHT};
use compare::long_runs::{self, MOST_EVENTS};
use compare::next_page::{as_loaded, is_null};
use compare::random::Random;
use compare::tally::Tally;
use compare::windows::{runs_in_windows, LOST};
use compare::wire::FAULTS;
use reference::answer::{kind, CHANGED, GOOD_PAGE, ORDERED_PAGE, TIE, TOGGLE};
use reference::device::{Round, State};
use reference::word::NULL_MESSAGE;

const MILLISECOND: u64 = 1_000_000;

/// Each number of pages of the left host with each of the right one.
const PAIRS: usize = (MOST_PAGES + 1) * (MOST_PAGES + 1);

/// How often each pair is tried with a good wire and no disturbance.
const TIMES_EACH_PAIR: usize = 10;

const RUNS_ON_BAD_WIRES: usize = 150;

/// How often each place is tried with each disturbance: equally often for each side, and for
/// the side that is at the place as for the other one.
const TIMES_EACH_PLACE: usize = 16;

const RUNS_WITH_ALL: usize = 60;

/// How late hosts may be where a run has to stay short.
const A_LITTLE_LATE: u64 = 2 * MILLISECOND;

fn numbers(pair: usize) -> [usize; 2] {
    let each = MOST_PAGES + 1;
    [pair % each, pair / each % each]
}

fn any_numbers(random: &mut Random) -> [usize; 2] {
    numbers(random.below(PAIRS as u64) as usize)
}

/// A wire that damages one page in a few, for some time.
fn make_wire_bad(random: &mut Random, modules: &mut HostedModules) {
    let one_in = 2 + random.below(8);
    let until = random.below(40 * MILLISECOND);
    modules.joined.wire.damage_one_page_in(one_in, until);
}

#[test]
fn hosts_tell_their_pages_and_no_end_goes_back_to_break() {
    let mut random = Random::from_environment();
    let pairs = (0..PAIRS).map(|pair| format!("{:?} pages", numbers(pair)));
    let others = ["Null message", "hold", "Tie", "torn read"].map(String::from);
    let mut met = Tally::of(pairs.chain(others));
    for pair in 0..PAIRS * TIMES_EACH_PAIR {
        let mut modules = HostedModules::new(&mut random, LATEST, numbers(pair));
        modules.settle();
        let sides = &modules.joined.sides;
        sides.iter().for_each(assert_only_ties_lead_back_to_break);
        met.meet(&format!("{:?} pages", numbers(pair)));
        finish(&modules, &mut met);
    }
    met.assert_all_met();
}

/// Two equal nonces are the one thing that sends an end back to Break.
fn assert_only_ties_lead_back_to_break(side: &Side) {
    for step in &side.history.steps {
        let was_past_break = !matches!(step.before, State::Off | State::Break);
        let goes_back = was_past_break && step.after == State::Break;
        assert!(!goes_back || step.answer == TIE, "{step:x?}");
    }
}

#[test]
fn hosts_tell_their_pages_on_a_bad_wire() {
    let mut random = Random::from_environment();
    let faults = FAULTS.map(|fault| format!("{fault:?}"));
    let others = ["Null message", "hold", "Toggle", "Changed", "lost"].map(String::from);
    let mut met = Tally::of(faults.into_iter().chain(others));
    for pair in 0..RUNS_ON_BAD_WIRES {
        let mut modules = HostedModules::new(&mut random, LATEST, numbers(pair));
        make_wire_bad(&mut random, &mut modules);
        modules.settle();
        finish(&modules, &mut met);
    }
    met.assert_all_met();
}

#[test]
fn hosts_tell_their_pages_after_a_restart_in_any_state() {
    disturb_in_any_state(Disturbance::Restart);
}

#[test]
fn hosts_tell_their_pages_after_a_swap_in_any_state() {
    disturb_in_any_state(Disturbance::Swap);
}

fn disturb_in_any_state(what: Disturbance) {
    // Another row of numbers for each, so that they do not meet the same.
    let mut random = Random::new(Random::from_environment().any_number() + what as u64);
    let here = PLACES.map(|place| format!("{what:?} in {}", name(place)));
    let there = PLACES.map(|place| format!("{what:?} with the other in {}", name(place)));
    let mut met = Tally::of(here.into_iter().chain(there));
    for number in 0..PLACES.len() * TIMES_EACH_PLACE {
        let numbers = any_numbers(&mut random);
        let mut modules = HostedModules::new(&mut random, A_LITTLE_LATE, numbers);
        let (place, time) = (PLACES[number % PLACES.len()], number / PLACES.len());
        modules.disturb(what, time % 2, time / 2 % 2, place);
        modules.settle();
        finish(&modules, &mut met);
    }
    met.assert_all_met();
}

#[test]
fn hosts_tell_their_pages_on_a_bad_wire_after_restarts_and_swaps() {
    let mut random = Random::from_environment();
    let mut met = Tally::of(["Null message", "hold", "Changed", "lost"]);
    for _ in 0..RUNS_WITH_ALL {
        let numbers = any_numbers(&mut random);
        let mut modules = HostedModules::new(&mut random, A_LITTLE_LATE, numbers);
        make_wire_bad(&mut random, &mut modules);
        for _ in 0..=random.below(3) {
            let what = random.pick(&DISTURBANCES);
            let [side, watched] = [(); 2].map(|()| random.pick(&[LEFT, RIGHT]));
            modules.disturb(what, side, watched, random.pick(&PLACES));
        }
        modules.settle();
        finish(&modules, &mut met);
    }
    met.assert_all_met();
}

/// Holds a whole run to what must be so, and `drive` to the reference. Counts what it met.
fn finish(modules: &HostedModules, met: &mut Tally) {
    let joined = &modules.joined;
    for side in [LEFT, RIGHT] {
        let (reader, partners) = (&joined.sides[side], &joined.sides[1 - side].modules);
        assert_nothing_of_an_old_head(reader, partners);
        assert_every_page_was_loaded(reader, partners);
        count_steps(reader, met);
        count_timers_and_notes(reader, met);
    }
    assert_drive_agrees(joined);
    let faults = joined.wire.faults.iter();
    faults.for_each(|fault| met.meet(&format!("{fault:?}")));
    modules.disturbed.iter().for_each(|name| met.meet(name));
}

/// From the first page of a new head on, nothing is read that was of an old one.
fn assert_nothing_of_an_old_head(reader: &Side, partners: &[(u64, Module)]) {
    let mut heard_at = 0;
    for (step, now) in reader.history.steps.iter().zip(&reader.times) {
        if kind(step.answer) == GOOD_PAGE {
            heard_at = *now;
        }
        let newest = partners.iter().rposition(|(since, _)| since <= now);
        let newest = newest.expect("both modules are there from the start");
        let has_heard_it = heard_at > partners[newest].0;
        let may_be_seen = match has_heard_it {
            true => &partners[newest..=newest],
            false => &partners[..=newest],
        };
        assert!(is_of_one_of(may_be_seen, step), "{step:x?} at {now}");
    }
}

/// Whether what this step reads, if it reads the partner's pages, may be of these modules.
fn is_of_one_of(modules: &[(u64, Module)], step: &Step) -> bool {
    let value = u64::from(step.answer as u16);
    match (step.event[0], event::register(&step.event)) {
        (READ, Some(519)) => {
            let has_number = |(_, module): &(u64, Module)| module.advertised >> 32 == value;
            value == 0 || modules.iter().any(has_number)
        }
        (READ, Some(part @ 523..=525)) => {
            let lowest = 16 * (part - 523);
            let value = as_loaded(value << lowest);
            let has_it = |page: u64| as_loaded(page) & 0xFFFF << lowest == value;
            let pages = modules.iter().flat_map(|(_, module)| module.pages());
            value == 0 || has_it(NULL_MESSAGE) || pages.copied().any(has_it)
        }
        _ => true,
    }
}

/// No host has ever taken something for a page that nobody has loaded.
fn assert_every_page_was_loaded(reader: &Side, partners: &[(u64, Module)]) {
    let pages = partners.iter().flat_map(|(_, module)| module.pages());
    let pages: Vec<u64> = pages.copied().collect();
    for note in notes(reader) {
        if let Note::Heard { page } = note {
            let is_known = is_null(page) || pages.contains(&as_loaded(page));
            assert!(is_known, "{page:x}");
        }
    }
}

fn notes(side: &Side) -> impl Iterator<Item = Note> + '_ {
    let notes = side.hosts.iter().flat_map(|host| &host.notes);
    notes.map(|(_, note)| *note)
}

/// What the steps of one side have met.
fn count_steps(side: &Side, met: &mut Tally) {
    for step in &side.history.steps {
        let is_next_page = step.glimpse_before.round != Round::Base;
        let is_ordered = kind(step.answer) == ORDERED_PAGE;
        if is_ordered && is_next_page && is_null(step.answer) {
            met.meet("Null message");
        }
        if step.glimpse_after.is_holding && !step.glimpse_before.is_holding {
            met.meet("hold");
        }
        match step.answer {
            TIE => met.meet("Tie"),
            CHANGED => met.meet("Changed"),
            TOGGLE => met.meet("Toggle"),
            _ => {}
        }
    }
}

/// Each timer has run out within its window, and lost at its number.
fn count_timers_and_notes(side: &Side, met: &mut Tally) {
    let runs = runs_in_windows(side).unwrap_or_else(|words| panic!("{words}"));
    let lost = runs.iter().filter(|run| run.window == LOST);
    lost.for_each(|_| met.meet("lost"));
    let torn = notes(side).filter(|note| *note == Note::Torn);
    torn.for_each(|_| met.meet("torn read"));
}

/// Gives the events of both sides to `drive` and fails if it answers one otherwise.
fn assert_drive_agrees(joined: &Joined) {
    let sides = joined.sides.iter();
    let parts = sides.flat_map(|side| long_runs::parts(&side.history.steps, MOST_EVENTS));
    let (calls, expected): (Vec<Call>, Vec<Vec<u64>>) =
        parts.map(|part| (part.call, part.answers)).unzip();
    let answers = all_answers(&calls).unwrap_or_else(|words| panic!("{words}"));
    for ((call, expected), answers) in calls.iter().zip(expected).zip(answers) {
        assert_eq!(expected.len(), answers.len());
        let other = (0..answers.len()).find(|place| expected[*place] != answers[*place]);
        if let Some(place) = other {
            let event = &call.arguments[3 * place..3 * place + 3];
            let pair = (expected[place], answers[place]);
            panic!("event {place}, {event:x?}: expected and answered {pair:x?}");
        }
    }
}
