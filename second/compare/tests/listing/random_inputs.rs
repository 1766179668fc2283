//! Many random captures, alone and joined, and random bytes.

use compare::captures::{captures, quiet_gap, Capture, KINDS};
use compare::listing::{assert_listings_agree, input};
use compare::random::Random;
use compare::tally::Tally;
use reference::line_mode::line_mode;

const MOST_READINGS: usize = 8000;

/// Each of these is listed by a process of its own.
const LONE_CAPTURES: usize = 6 * KINDS.len();

/// These are joined, as many in one input as there is room for.
const JOINED_CAPTURES: usize = 100 * KINDS.len();

const RANDOM_INPUTS: usize = 150;

const LINES: [&str; 11] = [
    "good",
    "gap",
    "cut",
    "check",
    "mode HSM",
    "mode LSM",
    "pages",
    "refused 14",
    "refused 12",
    "refused 15",
    "no attempt",
];

#[test]
fn random_inputs_are_listed_alike() {
    let mut random = Random::from_environment();
    let lone = captures(&mut random, LONE_CAPTURES);
    let mut inputs = vec![vec![0], vec![1], Vec::new()];
    inputs.extend(lone.iter().map(input_of));
    inputs.extend(joined_inputs(&mut random));
    inputs.extend((0..RANDOM_INPUTS).map(|_| random_input(&mut random)));
    let readings: usize = inputs.iter().map(|input| input.len() / 4).sum();
    println!(
        "{} inputs, {} captures, about {readings} readings",
        inputs.len(),
        LONE_CAPTURES + JOINED_CAPTURES
    );
    assert_lines_met(&inputs);
    assert_listings_agree(&inputs);
}

fn input_of(capture: &Capture) -> Vec<u8> {
    input(capture.mode as u8, &capture.readings)
}

/// All captures of one mode joined, with quiet gaps between most of them, and cut into
/// inputs that are as long as can be; then those of the other mode.
fn joined_inputs(random: &mut Random) -> Vec<Vec<u8>> {
    let captures = captures(random, JOINED_CAPTURES);
    let mut inputs = Vec::new();
    for number in [0, 1] {
        let mode = line_mode(number).expect("0 and 1 are modes");
        let mut joined: Vec<u32> = Vec::new();
        for capture in captures.iter().filter(|capture| capture.mode == number) {
            let pause = match random.once_in(8) {
                true => mode.quiet_limit - 1,
                false => quiet_gap(random, mode),
            };
            let start = joined.last().map_or(0, |last| last.wrapping_add(pause));
            let first = capture.readings[0];
            let shifted = capture.readings.iter().map(|reading| {
                let since_the_first = reading.wrapping_sub(first);
                start.wrapping_add(since_the_first)
            });
            joined.extend(shifted);
        }
        let chunks = joined.chunks(MOST_READINGS);
        inputs.extend(chunks.map(|readings| input(number as u8, readings)));
    }
    inputs
}

/// Bytes of no meaning, some after a right mode byte, some as long as can be or longer.
fn random_input(random: &mut Random) -> Vec<u8> {
    let length = match random.below(8) {
        0 => random.below(8),
        1 => 31_990 + random.below(24),
        2 => random.below(40_000),
        3 => 1 + 4 * random.below(8000),
        _ => 1 + 4 * random.below(100),
    };
    // Readings whose upper bytes are zero lie near one another.
    let near = random.once_in(2);
    let mut bytes: Vec<u8> = (0..length)
        .map(|index| match near && index % 4 > 1 {
            true => 0,
            false => random.any_number() as u8,
        })
        .collect();
    if let Some(mode) = bytes.first_mut() {
        if !random.once_in(6) {
            *mode = random.below(2) as u8;
        }
    }
    bytes
}

/// Prints how often each sort of line is asked for, and fails if one never is.
fn assert_lines_met(inputs: &[Vec<u8>]) {
    let mut met = Tally::of(LINES);
    for input in inputs {
        let text = String::from_utf8(reference::listing::listing(input)).expect("plain text");
        for line in text.lines() {
            let words: Vec<&str> = line.split(' ').collect();
            match words[0] {
                "mode" | "refused" => met.meet(&words[..2].join(" ")),
                "pages" => met.meet("pages"),
                _ => met.meet(words[1]),
            }
        }
        if text.ends_with("\npages 0 bad 0\n") {
            met.meet("no attempt");
        }
    }
    met.assert_all_met();
}
