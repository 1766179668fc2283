//! The walk from next place to next place, by the reading call of `drive`, against what
//! the edges call of `drive` tells of the same capture. The model is not asked for
//! answers here: `drive` is held against itself.

use compare::agreement::{drives_answers, fail_if_any};
use compare::call::Call;
use compare::captures::{captures, Capture, KINDS};
use compare::random::Random;
use compare::tally::Tally;
use reference::answer::{CUT, NOTHING};
use reference::line_mode::line_mode;
use reference::reader::judge_all;
use std::collections::BTreeMap;

const CAPTURES: usize = 50 * KINDS.len();

/// What a reading call answers from one place: the outcome and the next place.
type Answered = BTreeMap<usize, (u64, usize)>;

/// An outcome, with the place where the next attempt opens or the edge that told it.
type Told = (u64, usize);

#[test]
fn the_walk_meets_every_attempt_that_the_edges_tell() {
    let mut random = Random::from_environment();
    let captures = captures(&mut random, CAPTURES);
    let asked: Vec<Vec<usize>> = captures.iter().map(places).collect();
    let reading_calls: Vec<Call> = captures
        .iter()
        .zip(&asked)
        .flat_map(|(capture, places)| places.iter().map(|place| reading(capture, *place)))
        .collect();
    let edges_calls: Vec<Call> = captures.iter().map(edges).collect();
    let mut outcomes = drives_answers(&reading_calls).into_iter();
    let mut differences = Vec::new();
    let mut met = Tally::of(["attempts told by edges", "attempts open at the end"]);
    for ((capture, places), told) in captures.iter().zip(asked).zip(drives_answers(&edges_calls)) {
        let answered: Answered = places
            .into_iter()
            .map(|place| (place, outcome_and_next(outcomes.next())))
            .collect();
        let compared = compare_walk(capture, &answered, &told, &mut met);
        differences.extend(
            compared
                .err()
                .map(|words| format!("{}\n  {words}", edges(capture))),
        );
    }
    fail_if_any(&differences);
    met.assert_all_met();
}

/// Where the reference finds attempts. If `drive` finds another place, the walk comes to
/// a place that was not asked for, which is a difference.
fn places(capture: &Capture) -> Vec<usize> {
    let mode = line_mode(capture.mode).expect("captures have a right mode");
    let attempts = judge_all(mode, &capture.readings).attempts();
    attempts.iter().map(|attempt| attempt.opens).collect()
}

fn cells(capture: &Capture) -> Vec<u64> {
    capture
        .readings
        .iter()
        .map(|cell| u64::from(*cell))
        .collect()
}

fn reading(capture: &Capture, place: usize) -> Call {
    Call::read(capture.mode, place as u64, &cells(capture))
}

fn edges(capture: &Capture) -> Call {
    Call::edges(capture.mode, &cells(capture))
}

fn outcome_and_next(cells: Option<Vec<u64>>) -> (u64, usize) {
    match cells.as_deref() {
        Some([outcome, next]) => (*outcome, usize::try_from(*next).unwrap_or(usize::MAX)),
        _ => panic!("a reading has two answer cells, not {cells:?}"),
    }
}

fn compare_walk(
    capture: &Capture,
    answered: &Answered,
    answers: &[u64],
    met: &mut Tally,
) -> Result<(), String> {
    let length = capture.readings.len();
    let mut walked = walk(answered, length)?;
    let told: Vec<Told> = (0..)
        .zip(answers)
        .filter(|(_, answer)| **answer != NOTHING)
        .map(|(edge, answer)| (*answer, edge))
        .collect();
    // The attempt that only the end of the capture ends is told by no edge.
    if walked.len() == told.len() + 1 && walked.last() == Some(&(CUT, length)) {
        walked.pop();
        met.meet("attempts open at the end");
    }
    if walked.len() != told.len() {
        return Err(format!(
            "the walk has {walked:x?}, the edges tell {told:x?}"
        ));
    }
    for (walked, told) in walked.iter().zip(&told) {
        met.meet("attempts told by edges");
        if !same_attempt(walked, told) {
            return Err(format!(
                "the walk has {walked:x?}, the edges tell {told:x?}"
            ));
        }
    }
    Ok(())
}

/// The outcome is the same, and the next attempt opens with the edge of a Cut, or with
/// a later edge than the one that ended this attempt in another way.
fn same_attempt(walked: &Told, told: &Told) -> bool {
    let (outcome, next) = *walked;
    let (answer, edge) = *told;
    let opens_right = match outcome {
        CUT => next == edge,
        _ => next > edge,
    };
    outcome == answer && opens_right
}

/// All attempts from the first place on, each with the next place.
fn walk(answered: &Answered, length: usize) -> Result<Vec<Told>, String> {
    let mut walked = Vec::new();
    let mut place = 0;
    while place < length {
        let Some((outcome, next)) = answered.get(&place) else {
            return Err(format!("no attempt should open at place {place}"));
        };
        if *next <= place {
            return Err(format!("from place {place} the next place is {next}"));
        }
        walked.push((*outcome, *next));
        place = *next;
    }
    match place == length {
        true => Ok(walked),
        false => Err(format!("the last next place is {place}, past the length")),
    }
}
