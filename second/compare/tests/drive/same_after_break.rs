//! Demand 3: what a device answers after it has entered Break does not depend on what was
//! before, apart from what it advertises. Two devices with different pasts enter Break;
//! then the same happens to both, the second one's clock being shifted so that both
//! entered at the same time. The model is not asked: `drive` is held against itself.

use compare::agreement::{drives_answers, fail_if_any};
use compare::call::Call;
use compare::event::{EventCells, LINK, READ, TICK};
use compare::history::{History, Step};
use compare::random::Random;
use compare::runs::Run;
use compare::tally::Tally;
use compare::words::advertisement;
use reference::answer::{kind, register, CHANGED, ORDERED_PAGE, SETTLED, TOGGLE};
use reference::device::registers::{CONTROL, ENABLE, PAGE_RECEIVED, REMOTE_FAULT, RESTART, STATUS};
use reference::device::{Round, State};
use reference::word::{ability, ACK, ECHOED_NONCE, FORCED_ROLE, NEXT_PAGE, NONCE};

/// A way into Break: what leads there, and the state and the round that it leads from.
type Way = (&'static str, State, Option<Round>);

const BASE: Option<Round> = Some(Round::Base);
const FIRST: Option<Round> = Some(Round::First);
const LATER: Option<Round> = Some(Round::Later);

/// Every way into Break.
const WAYS: [Way; 24] = [
    ("enable", State::Off, BASE),
    ("restart", State::Break, BASE),
    ("restart", State::Ability, BASE),
    ("restart", State::Ability, FIRST),
    ("restart", State::Ability, LATER),
    ("restart", State::Ack, BASE),
    ("restart", State::Ack, LATER),
    ("restart", State::Complete, BASE),
    ("restart", State::Complete, LATER),
    ("restart", State::CheckLink, None),
    ("restart", State::Up, None),
    ("tie", State::Ability, BASE),
    ("toggle", State::Ability, FIRST),
    ("toggle", State::Ability, LATER),
    ("changed", State::Ack, BASE),
    ("changed", State::Ack, LATER),
    ("echo", State::Ack, BASE),
    ("lost", State::Ability, FIRST),
    ("lost", State::Ability, LATER),
    ("lost", State::Ack, LATER),
    ("lost", State::Complete, LATER),
    ("time-out", State::CheckLink, BASE),
    ("time-out", State::CheckLink, LATER),
    ("link down", State::Up, None),
];

fn name_of((way, state, round): Way) -> String {
    match round {
        Some(round) => format!("{way} in {state:?}, round {round:?}"),
        None => format!("{way} in {state:?}"),
    }
}

const LATER_EVENTS: usize = 900;

/// Bits that may differ in the first read of the status.
const MAY_DIFFER: u64 = (PAGE_RECEIVED | REMOTE_FAULT) as u64;

/// What the status reads in Up, without Remote fault.
const STATUS_IN_UP: [u64; 3] = [register(0x68), register(0x28), register(0x2C)];

/// One device before and after it entered Break.
struct Life {
    past: usize,
    events: Vec<EventCells>,
}

/// A past that happens to be longer is not taken: all events of one life go into one call.
const MOST_PAST_EVENTS: usize = 8000;

fn enter_break(random: &mut Random, way: Way, advertised: u64, met: &mut Tally) -> History {
    loop {
        let past = any_past(random, way, advertised, met);
        if past.steps.len() <= MOST_PAST_EVENTS {
            return past;
        }
    }
}

/// Events after any past, the last of which enters Break in this way. 514 to 516 are
/// written before that one, so that they are the same after every past.
fn any_past(random: &mut Random, way: Way, advertised: u64, met: &mut Tally) -> History {
    let (name, state, round) = way;
    let moves = random.below(15);
    let mut run = Run::new(random, usize::MAX);
    for _ in 0..moves {
        run.next();
    }
    run.advertise(ability(2).ones() | ability(9).ones());
    run.write(CONTROL, ENABLE | RESTART);
    go_to_with_traces(&mut run, way);
    run.advertise(advertised);
    count_traces(&run, met);
    match name {
        "enable" => run.write(CONTROL, ENABLE),
        "tie" | "changed" | "echo" | "toggle" => hear_until_break(&mut run, name),
        "lost" => run.tick_when_lost(),
        "time-out" => run.tick_when_due(),
        "link down" => run.give(LINK, 0),
        _ => run.write(CONTROL, ENABLE | RESTART),
    }
    let last = run.history.steps.last().expect("there is a past");
    let is_this_round = round.is_none_or(|round| last.glimpse_before.round == round);
    let has_entered = last.before == state && is_this_round && last.after == State::Break;
    assert!(has_entered, "{}: {last:x?}", name_of(way));
    run.history
}

/// Goes to where this way begins and leaves there what Break has to forget: a Next Page
/// that is loaded, and half a page that was heard, or one of them.
fn go_to_with_traces(run: &mut Run, (name, state, round): Way) {
    loop {
        match state {
            State::Off => run.write(CONTROL, 0),
            _ => run.go_on_to(state, round),
        }
        run.leave_traces();
        // A tick among the edges may have led elsewhere. While a page is out, a partner
        // cannot be lost.
        let may_be_out = name != "lost";
        if run.is_in(state, round) && (may_be_out || !run.history.device.page_is_out()) {
            return;
        }
        run.go_on();
    }
}

const TRACES: &str = "a past with Next Pages ends with half a page heard and one loaded";

fn count_traces(run: &Run, met: &mut Tally) {
    let device = &run.history.device;
    let has_exchanged = device.round() == Round::Later;
    if has_exchanged && device.is_loaded() && device.is_in_an_attempt(run.now()) {
        met.meet(TRACES);
    }
}

/// A page may follow the one before too soon to be heard, so there may be several.
fn hear_until_break(run: &mut Run, refused_for: &str) {
    while run.state() != State::Break {
        if run.history.device.page_is_out() {
            run.send();
        }
        let other_nonce = run.own_nonce() ^ 1;
        let held = run.history.device.held_page();
        let word = match refused_for {
            "tie" => NONCE.put(1, run.own_nonce()),
            "changed" => held ^ NEXT_PAGE.ones(),
            // The toggle is that of the held page, and another bit differs.
            "toggle" => held ^ FORCED_ROLE.ones(),
            _ => ACK.ones() | ECHOED_NONCE.put(held, other_nonce),
        };
        run.hear_page(word);
    }
}

/// What happens to a device that has just entered Break. It begins and ends with a read of
/// every register but the status, which is read now and then in between, and last.
fn later_events(random: &mut Random, entered: &History, met: &mut Tally) -> Vec<EventCells> {
    let past = entered.steps.len();
    let mut run = Run::after(random, entered.clone(), usize::MAX);
    read_all(&mut run);
    while run.history.steps.len() < past + LATER_EVENTS {
        run.next();
    }
    read_all(&mut run);
    run.give(READ, STATUS);
    let later = &run.history.steps[past..];
    later.iter().for_each(|step| count_later_step(step, met));
    run.history.events().split_off(past)
}

fn read_all(run: &mut Run) {
    let all = (512..=525).filter(|number| *number != STATUS);
    all.for_each(|number| run.give(READ, number));
}

fn last_reading(history: &History) -> u32 {
    let last = history.steps.last().expect("there is a past");
    last.event[1] as u32
}

/// The event with its reading shifted. Bits of the cell that are not looked at stay.
fn shifted(event: EventCells, shift: u32) -> EventCells {
    let [kind, reading, argument] = event;
    let later = (reading as u32).wrapping_add(shift);
    [kind, reading >> 32 << 32 | u64::from(later), argument]
}

fn life(past: &History, later: impl Iterator<Item = EventCells>) -> Life {
    let mut events = past.events();
    events.extend(later);
    Life {
        past: past.steps.len(),
        events,
    }
}

/// Two lives with different pasts and the same later events.
fn two_lives(random: &mut Random, ways: [Way; 2], met: &mut Tally) -> [Life; 2] {
    let advertised = advertisement(random) | ability(random.pick(&[0, 2, 5])).ones();
    let pasts = ways.map(|way| enter_break(random, way, advertised, met));
    let later = later_events(random, &pasts[0], met);
    let shift = last_reading(&pasts[1]).wrapping_sub(last_reading(&pasts[0]));
    [
        life(&pasts[0], later.iter().copied()),
        life(&pasts[1], later.iter().map(|event| shifted(*event, shift))),
    ]
}

#[test]
fn the_past_before_break_does_not_matter() {
    let mut random = Random::from_environment();
    let mut met = Tally::of(all_that_must_be_met());
    let mut differences = Vec::new();
    // Every way is paired with every way.
    for first in WAYS {
        let mut lives = Vec::new();
        for second in WAYS {
            met.meet(&format!("first by {}", name_of(first)));
            met.meet(&format!("second by {}", name_of(second)));
            lives.extend(two_lives(&mut random, [first, second], &mut met));
        }
        let calls: Vec<Call> = lives.iter().map(|life| Call::run(&life.events)).collect();
        let answers = drives_answers(&calls);
        for (lives, answers) in lives.chunks(2).zip(answers.chunks(2)) {
            differences.extend(difference(lives, answers, &mut met));
        }
    }
    fail_if_any(&differences);
    met.assert_all_met();
}

fn all_that_must_be_met() -> Vec<String> {
    let ways = WAYS.into_iter().map(name_of);
    let mut names: Vec<String> = ways
        .flat_map(|way| [format!("first by {way}"), format!("second by {way}")])
        .collect();
    names.push(TRACES.to_string());
    names.extend(LATER_KINDS.map(String::from));
    names.extend(LATER_STEPS.map(|(name, _)| name.to_string()));
    names
}

const LATER_KINDS: [&str; 5] = [
    "the first later read differs",
    "the first later read is the same",
    "the later events order a page",
    "the later events settle",
    "the later events read the status in Up",
];

/// Kinds of later steps, by what the reference does in the first life.
type LaterStep = (&'static str, fn(&Step) -> bool);

const LATER_STEPS: [LaterStep; 8] = [
    ("later: a page is loaded in Break", |step| {
        step.before == State::Break && step.glimpse_after.is_loaded
    }),
    ("later: an own Next Page that was loaded", |step| {
        moves(step, State::Complete, State::Ability) && step.glimpse_before.is_loaded
    }),
    ("later: the Null message", |step| {
        moves(step, State::Complete, State::Ability) && !step.glimpse_before.is_loaded
    }),
    ("later: a heard Next Page is acknowledged", |step| {
        moves(step, State::Ack, State::Complete) && step.glimpse_before.round == Round::Later
    }),
    ("later: settled after Next Pages", |step| {
        kind(step.answer) == SETTLED && step.glimpse_before.round == Round::Later
    }),
    ("later: toggle", |step| step.answer == TOGGLE),
    ("later: changed in a Next Page", |step| {
        step.answer == CHANGED && step.glimpse_before.round == Round::Later
    }),
    ("later: lost", |step| {
        let is_looked_at = step.glimpse_before.lost_at.is_some();
        is_looked_at && step.event[0] == TICK && step.after == State::Break
    }),
];

fn moves(step: &Step, from: State, to: State) -> bool {
    (step.before, step.after) == (from, to)
}

fn count_later_step(step: &Step, met: &mut Tally) {
    let names = LATER_STEPS.iter().filter(|(_, is_so)| is_so(step));
    names.for_each(|(name, _)| met.meet(name));
}

/// In words, where the later answers of two lives differ though they must not.
fn difference(lives: &[Life], answers: &[Vec<u64>], met: &mut Tally) -> Option<String> {
    let [first, second] = [0, 1].map(|life| &answers[life][lives[life].past..]);
    let later = &lives[0].events[lives[0].past..];
    let is_status = |event: &EventCells| event[0] == READ && event[2] == STATUS;
    let first_read = later.iter().position(is_status);
    count_later(first, second, first_read, met);
    let may_differ = |place: usize| match first_read == Some(place) {
        true => MAY_DIFFER,
        false => 0,
    };
    let place = (0..later.len())
        .find(|place| (first[*place] ^ second[*place]) & !may_differ(*place) != 0)?;
    Some(format!(
        "later event {place}, {:x?}: answers {:#x} and {:#x}\n  first {}\n  second {}",
        later[place],
        first[place],
        second[place],
        Call::run(&lives[0].events),
        Call::run(&lives[1].events)
    ))
}

fn count_later(first: &[u64], second: &[u64], first_read: Option<usize>, met: &mut Tally) {
    if let Some(place) = first_read {
        let is_same = first[place] == second[place];
        met.meet(LATER_KINDS[usize::from(is_same)]);
    }
    let kinds: [fn(u64) -> bool; 3] = [
        |answer| kind(answer) == ORDERED_PAGE,
        |answer| kind(answer) == SETTLED,
        |answer| STATUS_IN_UP.contains(&answer),
    ];
    for (is_so, name) in kinds.iter().zip(&LATER_KINDS[2..]) {
        if first.iter().any(|answer| is_so(*answer)) {
            met.meet(name);
        }
    }
}
