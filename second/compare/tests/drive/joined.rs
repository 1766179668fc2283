//! Two devices joined by a wire settle, again and again. The simulation is the
//! reference's; the events of each side then go to `drive`, which must answer the same.

use compare::agreement::{assert_agreement, drives_answers};
use compare::call::Call;
use compare::history::Step;
use compare::joined::{Joined, Module, Side, LEFT, RIGHT};
use compare::random::Random;
use compare::tally::Tally;
use compare::windows::{runs_in_windows, WINDOWS};
use compare::words::all_rates;
use reference::answer::{
    kind, register, settled_ability, settled_as_master, GOOD_PAGE, ORDERED_PAGE, SETTLED,
};
use reference::device::registers::{COMPLETE, STATUS};
use reference::device::State;
use reference::resolve::{Rate, COMMON_INHIBIT, RATES};
use reference::word::{ability, FORCED_ROLE, HIGHEST_NONCE_BIT};

/// So many pairs for each way of swapping, three for each rate.
const PAIRS: usize = 3 * RATES.len();

const MILLISECOND: u64 = 1_000_000;

/// Within this time two modules that fit have settled, after a tie or two as well.
const TIME_TO_SETTLE: u64 = 60 * MILLISECOND;

/// All events of one side go into one call of `drive`.
const MOST_EVENTS: usize = 20_000;

/// What is swapped in the middle, and when.
#[derive(Clone, Copy, Debug)]
enum Swap {
    /// A head when the link is up, so the other side sees it go down.
    WhenUp,
    /// A head before the link is up, so the other side's time runs out.
    BeforeTheLink,
    /// A head that has no rate, so the other side's time runs out.
    HeadWithoutRate,
}

const SWAPS: [Swap; 3] = [Swap::WhenUp, Swap::BeforeTheLink, Swap::HeadWithoutRate];

const FREE: u64 = 0;
const MASTER: u64 = FORCED_ROLE.ones() | HIGHEST_NONCE_BIT.ones();
const SLAVE: u64 = FORCED_ROLE.ones();

/// What the first left module advertises: a rate, and any role. With a first right module
/// that has no rate, it does not matter which rates are there, so there it has more.
fn first_module(random: &mut Random, rate: &Rate, swap: Swap) -> u64 {
    let others = match swap {
        Swap::HeadWithoutRate => random.any_number() & all_rates(),
        _ => 0,
    };
    ability(rate.ability).ones() | others | random.pick(&[FREE, FREE, MASTER, SLAVE])
}

/// What a module advertises that can settle with the other one.
fn module_that_fits(random: &mut Random, other: u64) -> u64 {
    let rates = other & all_rates();
    let role = match other & MASTER {
        MASTER => random.pick(&[FREE, SLAVE]),
        SLAVE => random.pick(&[FREE, MASTER]),
        _ => random.pick(&[FREE, MASTER, SLAVE]),
    };
    rates | role | random.pick(&[0, all_rates()])
}

/// Two modules settle, and again after one of them was swapped.
fn settle_twice(random: &mut Random, rate: &Rate, swap: Swap) -> Joined {
    let mut joined = Joined::new(Random::new(random.any_number()));
    let left = first_module(random, rate, swap);
    let fitting = module_that_fits(random, left);
    let reached: fn(&Joined) -> bool = match swap {
        Swap::WhenUp => |joined| joined.both_are(State::Up),
        _ => |joined| joined.both_are(State::CheckLink),
    };
    let (right, swapped) = match swap {
        Swap::HeadWithoutRate => (fitting & !all_rates(), RIGHT),
        _ => (fitting, random.pick(&[LEFT, RIGHT])),
    };
    let [first, second] = [left, right].map(Module::without_host);
    joined.put_in_both(&first, &second);
    assert!(joined.run_until(TIME_TO_SETTLE, reached), "{swap:?}");
    let stays = [left, right][1 - swapped];
    let newcomer = module_that_fits(random, stays);
    // A newcomer alone on the line for long would make the runs too long.
    let takes = match swap {
        Swap::WhenUp => 0,
        _ => inhibit(&joined, 1 - swapped) - random.below(12 * MILLISECOND),
    };
    joined.swap_head(takes, swapped, &Module::without_host(newcomer));
    let most = takes + 20 * MILLISECOND + TIME_TO_SETTLE;
    let both_parted = |joined: &Joined| !joined.sides.iter().any(is_in_a_link);
    assert!(joined.run_until(most, both_parted), "{swap:?}");
    let both_up = |joined: &Joined| joined.both_are(State::Up);
    assert!(joined.run_until(most, both_up), "{swap:?}");
    read_status(&mut joined);
    joined
}

fn is_in_a_link(side: &Side) -> bool {
    matches!(side.history.device.state(), State::CheckLink | State::Up)
}

/// How long this side waits for the link, with the rate that it has settled on.
fn inhibit(joined: &Joined, side: usize) -> u64 {
    let settled = joined.sides[side].settled;
    let is_this =
        |ability: u32| settled.is_some_and(|answer| settled_ability(answer) == ability.into());
    let rate = RATES.iter().find(|rate| is_this(rate.ability));
    rate.map_or(COMMON_INHIBIT, |rate| rate.inhibit).into()
}

/// Reads the status of both sides as the last events.
fn read_status(joined: &mut Joined) {
    joined.read(LEFT, STATUS);
    joined.read(RIGHT, STATUS);
    let have_read = |joined: &Joined| {
        let is_read = |step: &Step| step.event[2] == STATUS;
        let last = |side: usize| joined.sides[side].history.steps.last();
        [LEFT, RIGHT].map(|side| last(side).is_some_and(is_read)) == [true, true]
    };
    assert!(joined.run_until(MILLISECOND, have_read));
}

#[test]
fn two_modules_settle_and_settle_again_after_a_swap() {
    let mut random = Random::from_environment();
    let mut met = Tally::of(all_that_must_be_met());
    let mut calls = Vec::new();
    for pair in 0..PAIRS * SWAPS.len() {
        let swap = SWAPS[pair % SWAPS.len()];
        let rate = &RATES[pair / SWAPS.len() % RATES.len()];
        let joined = settle_twice(&mut random, rate, swap);
        met.meet(&format!("{swap:?}"));
        for side in &joined.sides {
            assert!(side.history.steps.len() <= MOST_EVENTS);
            count_timers(side, &mut met);
            calls.push(Call::run(&side.history.events()));
        }
    }
    assert_agreement(&calls);
    for answers in drives_answers(&calls).chunks(2) {
        count_settlings(&answers[LEFT], &mut met);
        assert_have_settled(&answers[LEFT], &answers[RIGHT]);
    }
    met.assert_all_met();
}

fn all_that_must_be_met() -> Vec<String> {
    let mut names: Vec<String> = SWAPS.iter().map(|swap| format!("{swap:?}")).collect();
    names.extend(RATES.iter().map(|rate| format!("rate {}", rate.ability)));
    names.extend(["left is master", "right is master"].map(String::from));
    names.extend(WINDOWS.map(|window| window.timer.to_string()));
    names
}

/// Each timer runs out within the window that Clause 98 has for it.
fn count_timers(side: &Side, met: &mut Tally) {
    let runs = runs_in_windows(side).unwrap_or_else(|words| panic!("{words}"));
    runs.iter().for_each(|run| met.meet(run.window.timer));
}

/// Both sides say that they are up, on the same rate and in opposite roles.
fn assert_have_settled(left: &[u64], right: &[u64]) {
    for answers in [left, right] {
        let status = answers[answers.len() - 1];
        assert_eq!(status & register(COMPLETE), register(COMPLETE));
    }
    let [left, right] = [left, right].map(last_settling);
    assert_eq!(
        settled_ability(left),
        settled_ability(right),
        "the two rates"
    );
    assert_ne!(
        settled_as_master(left),
        settled_as_master(right),
        "the two roles"
    );
}

fn settlings(answers: &[u64]) -> Vec<u64> {
    let is_settling = |answer: &u64| kind(*answer) == SETTLED;
    answers.iter().copied().filter(is_settling).collect()
}

fn last_settling(answers: &[u64]) -> u64 {
    *settlings(answers).last().expect("the side has settled")
}

fn count_settlings(lefts_answers: &[u64], met: &mut Tally) {
    for answer in settlings(lefts_answers) {
        met.meet(&format!("rate {}", settled_ability(answer)));
        let master = if settled_as_master(answer) {
            "left"
        } else {
            "right"
        };
        met.meet(&format!("{master} is master"));
    }
}

/// Point 57: two devices enabled at the same reading, with ticks in step, order at
/// the same time and never hear one another.
#[test]
fn two_devices_in_step_never_meet() {
    let mut joined = Joined::with_ticks_in_step(Random::new(57));
    let module = Module::without_host(ability(2).ones());
    joined.put_in(0, LEFT, &module);
    joined.put_in(0, RIGHT, &module);
    let someone_has_heard = |joined: &Joined| {
        let is_past_ability = |side: &Side| {
            !matches!(
                side.history.device.state(),
                State::Off | State::Break | State::Ability
            )
        };
        joined.sides.iter().any(is_past_ability)
    };
    assert!(!joined.run_until(TIME_TO_SETTLE, someone_has_heard));
    let calls = [LEFT, RIGHT].map(|side| Call::run(&joined.sides[side].history.events()));
    assert_agreement(&calls);
    for answers in drives_answers(&calls) {
        let count = |wanted: u64| {
            answers
                .iter()
                .filter(|answer| kind(**answer) == wanted)
                .count()
        };
        assert_eq!(
            (count(GOOD_PAGE), count(SETTLED)),
            (0, 0),
            "pages heard and settlings"
        );
        assert!(count(ORDERED_PAGE) > 50, "pages ordered");
    }
}
