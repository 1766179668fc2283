//! Many random captures of every kind, read (operation 4) and taken edge by edge
//! (operation 7).

use compare::agreement::assert_agreement;
use compare::call::{Call, READ};
use compare::captures::{captures, Capture, KINDS};
use compare::generate::{reading_cells, wrong_mode};
use compare::model;
use compare::random::Random;
use compare::tally::Tally;
use reference::answer;
use reference::gap::time_between;
use reference::line_mode::{line_mode, LineMode, HSM, LSM};
use reference::page::transitions;
use reference::reader::{judge_all, Attempt, Outcome};

const CAPTURES: usize = 120 * KINDS.len();

const FEWEST_CAPTURES: usize = 2000;
const FEWEST_EDGES: usize = 200_000;

/// One capture of so many is also read from other places and in a wrong mode.
const ODD_PLACES_ONCE_IN: u64 = 4;

#[test]
fn random_captures_are_read_alike() {
    let mut random = Random::from_environment();
    let captures = enough_captures(&mut random);
    let calls: Vec<Call> = captures
        .iter()
        .flat_map(|capture| reading_calls(&mut random, capture))
        .collect();
    let outcomes = [
        "good", "Gap", "Cut", "Check", "nothing", "12 Room", "14 Mode",
    ];
    assert_outcomes_met(&calls, &outcomes);
    assert_agreement(&calls);
}

#[test]
fn random_captures_are_answered_alike_edge_by_edge() {
    let mut random = Random::from_environment();
    let captures = enough_captures(&mut random);
    let calls: Vec<Call> = captures
        .iter()
        .map(|capture| {
            let cells = reading_cells(&mut random, &capture.readings);
            match random.once_in(50) {
                true => Call::edges(wrong_mode(&mut random), &cells),
                false => Call::edges(capture.mode, &cells),
            }
        })
        .collect();
    let outcomes = ["good", "Gap", "Cut", "Check", "nothing", "14 Mode"];
    assert_outcomes_met(&calls, &outcomes);
    assert_agreement(&calls);
}

/// Draws the captures and fails unless there are enough of them, with every kind and
/// every window's end among them.
fn enough_captures(random: &mut Random) -> Vec<Capture> {
    let captures = captures(random, CAPTURES);
    let edges: usize = captures.iter().map(|capture| capture.readings.len()).sum();
    println!("{} captures, {edges} edges", captures.len());
    assert!(captures.len() >= FEWEST_CAPTURES && edges >= FEWEST_EDGES);
    let mut kinds = Tally::of(KINDS.iter().map(|kind| kind.0));
    let mut gaps = Tally::of(gap_names());
    for capture in &captures {
        kinds.meet(capture.kind);
        meet_gaps(&mut gaps, capture);
    }
    kinds.assert_all_met();
    gaps.assert_all_met();
    captures
}

/// Readings from the first place, from each place where an attempt opens, and from the
/// length. Some captures are also read from other places and in wrong modes.
fn reading_calls(random: &mut Random, capture: &Capture) -> Vec<Call> {
    let length = capture.readings.len() as u64;
    let cells = reading_cells(random, &capture.readings);
    let mut calls = vec![Call::read(capture.mode, 0, &cells)];
    for attempt in attempts(capture) {
        let next = attempt.next as u64;
        calls.push(Call::read(capture.mode, next, &cells));
    }
    if random.once_in(ODD_PLACES_ONCE_IN) {
        let past = random.pick(&[length + 1, 1 << 32, 1 << 63, u64::MAX]);
        let inside = random.below(length);
        for place in [past, inside] {
            calls.push(Call::read(capture.mode, place, &cells));
        }
        let place = random.pick(&[0, inside, length, past]);
        calls.push(Call::read(wrong_mode(random), place, &cells));
    }
    calls
}

fn attempts(capture: &Capture) -> Vec<Attempt> {
    let mode = line_mode(capture.mode).expect("captures have a right mode");
    judge_all(mode, &capture.readings).attempts()
}

fn assert_outcomes_met(calls: &[Call], outcomes: &[&str]) {
    let mut met = Tally::of(outcomes.iter().copied());
    for call in calls {
        let cells = model::answer_cells(call);
        // The second cell of a reading is no answer.
        let answers = match call.operation {
            READ => &cells[..1],
            _ => &cells[..],
        };
        answers.iter().for_each(|answer| met.meet(name(*answer)));
    }
    met.assert_all_met();
}

fn name(answer: u64) -> &'static str {
    match answer {
        answer::NOTHING => "nothing",
        answer::GAP => "Gap",
        answer::CUT => "Cut",
        answer::CHECK => "Check",
        answer::ROOM => "12 Room",
        answer::MODE => "14 Mode",
        _ => "good",
    }
}

/// The ends of the windows of one mode: the positions, a name, and the gap.
fn ends(mode: &LineMode) -> Vec<(u32, &'static str, u32)> {
    let mut ends = Vec::new();
    for positions in 1..=4 {
        let (middle, tolerance) = (positions * mode.spacing, mode.tolerance);
        ends.push((positions, "one under the window", middle - tolerance - 1));
        ends.push((positions, "first of the window", middle - tolerance));
        ends.push((positions, "last of the window", middle + tolerance));
        ends.push((positions, "one over the window", middle + tolerance + 1));
    }
    ends
}

/// The most positions that lie between two neighbours in a page.
fn widest_step(mode: &LineMode) -> u32 {
    let positions = transitions(mode, 0);
    let steps = positions.windows(2).map(|pair| (pair[1] - pair[0]) as u32);
    steps.max().expect("a page has edges")
}

fn gap_names() -> Vec<String> {
    let mut names = Vec::new();
    for mode in [&HSM, &LSM] {
        for (positions, end, _) in ends(mode) {
            names.push(in_an_attempt(mode, positions, end));
            if end.ends_with("of the window") && positions <= widest_step(mode) {
                names.push(accepted(mode, positions, end));
            }
        }
        for place in ["in an attempt", "among dropped edges"] {
            for gap in [
                "quiet limit",
                "one under the quiet limit",
                "0",
                "clock back",
            ] {
                names.push(format!("{}, gap {gap}, {place}", mode.name));
            }
        }
        names.push(rolled_over(mode));
    }
    names
}

fn in_an_attempt(mode: &LineMode, positions: u32, end: &str) -> String {
    let name = mode.name;
    format!("{name}, {positions} positions, {end}, in an attempt")
}

fn accepted(mode: &LineMode, positions: u32, end: &str) -> String {
    let name = mode.name;
    format!("{name}, {positions} positions, {end}, accepted")
}

fn rolled_over(mode: &LineMode) -> String {
    format!("{}, clock rolls over between accepted edges", mode.name)
}

/// Counts every gap of the capture that has a name.
fn meet_gaps(gaps: &mut Tally, capture: &Capture) {
    let mode = line_mode(capture.mode).expect("captures have a right mode");
    let attempts = attempts(capture);
    for edge in 1..capture.readings.len() {
        let (before, reading) = (capture.readings[edge - 1], capture.readings[edge]);
        let gap = time_between(before, reading);
        let attempt = attempts.iter().find(|attempt| has_gap(attempt, edge));
        let is_accepted = attempt.is_some_and(|attempt| accepts(attempt, edge));
        if is_accepted && reading < before {
            gaps.meet(&rolled_over(mode));
        }
        meet_window_ends(gaps, mode, gap, attempt.is_some(), is_accepted);
        meet_limits(gaps, mode, gap, attempt.is_some());
    }
}

/// Whether the gap before this edge lies between two edges of the attempt.
fn has_gap(attempt: &Attempt, edge: usize) -> bool {
    edge > attempt.opens && attempt.ended_by.is_none_or(|end| edge <= end)
}

/// Whether the gap before this edge is what the pattern asks for.
fn accepts(attempt: &Attempt, edge: usize) -> bool {
    let is_refused = matches!(attempt.outcome, Outcome::Gap | Outcome::Cut);
    attempt.ended_by != Some(edge) || !is_refused
}

fn meet_window_ends(gaps: &mut Tally, mode: &LineMode, gap: u32, open: bool, is_accepted: bool) {
    for (positions, end, _) in ends(mode).into_iter().filter(|end| end.2 == gap) {
        if open {
            gaps.meet(&in_an_attempt(mode, positions, end));
        }
        if is_accepted {
            gaps.meet(&accepted(mode, positions, end));
        }
    }
}

fn meet_limits(gaps: &mut Tally, mode: &LineMode, gap: u32, open: bool) {
    let place = match open {
        true => "in an attempt",
        false => "among dropped edges",
    };
    let limit = match gap {
        0 => "0",
        gap if gap == mode.quiet_limit => "quiet limit",
        gap if gap == mode.quiet_limit - 1 => "one under the quiet limit",
        gap if gap >= 1 << 31 => "clock back",
        _ => return,
    };
    gaps.meet(&format!("{}, gap {limit}, {place}", mode.name));
}
