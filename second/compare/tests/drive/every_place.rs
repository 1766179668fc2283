//! Readings from every place of a capture, and from places that are none.

use compare::agreement::assert_agreement;
use compare::call::Call;
use compare::captures::{captures, short_captures, Capture, KINDS};
use compare::generate::{reading_cells, wrong_mode};
use compare::random::Random;

const SHORT_CAPTURES: usize = 20 * KINDS.len();
const MOST_SHORT_READINGS: usize = 40;

/// Whole pages have more than so many readings, so some longer captures are needed.
const LONG_CAPTURES: usize = KINDS.len();

#[test]
fn short_captures_are_read_alike_from_every_place() {
    let mut random = Random::from_environment();
    let captures = short_captures(&mut random, SHORT_CAPTURES, MOST_SHORT_READINGS);
    assert!(captures.iter().any(|capture| capture.readings.is_empty()));
    compare_every_place(&mut random, &captures);
}

#[test]
fn captures_with_whole_pages_are_read_alike_from_every_place() {
    let mut random = Random::from_environment();
    let captures = captures(&mut random, LONG_CAPTURES);
    compare_every_place(&mut random, &captures);
}

fn compare_every_place(random: &mut Random, captures: &[Capture]) {
    let calls: Vec<Call> = captures
        .iter()
        .flat_map(|capture| calls_from_every_place(random, capture))
        .collect();
    println!("{} captures, {} readings", captures.len(), calls.len());
    assert_agreement(&calls);
}

fn calls_from_every_place(random: &mut Random, capture: &Capture) -> Vec<Call> {
    let cells = reading_cells(random, &capture.readings);
    let length = cells.len() as u64;
    let mut calls: Vec<Call> = (0..=length)
        .map(|place| Call::read(capture.mode, place, &cells))
        .collect();
    for past in [length + 1, u64::MAX] {
        calls.push(Call::read(capture.mode, past, &cells));
    }
    for place in [0, length, length + 1, u64::MAX] {
        calls.push(Call::read(wrong_mode(random), place, &cells));
    }
    calls
}
