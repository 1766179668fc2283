//! The program `listing`, held against the listing of the reference.

use crate::agreement::fail_if_any;
use crate::program::Program;
use reference::listing::listing;

const LISTING: Program = Program {
    name: "listing",
    variable: "MASTSTEP_LISTING",
};

/// So many bytes of an input are printed.
const MOST_PRINTED: usize = 24;

/// The listing that the program writes. Ending with another status than success is a
/// failure.
pub fn run(input: &[u8]) -> Result<Vec<u8>, String> {
    LISTING.run(input)
}

/// The bytes that ask for the listing of these readings.
pub fn input(mode: u8, readings: &[u32]) -> Vec<u8> {
    let mut bytes = vec![mode];
    bytes.extend(readings.iter().flat_map(|reading| reading.to_le_bytes()));
    bytes
}

/// Sends each input in a process of its own and fails the test if one byte differs.
pub fn assert_listings_agree(inputs: &[Vec<u8>]) {
    let mut differences = Vec::new();
    for (input, output) in inputs.iter().zip(LISTING.run_each(inputs)) {
        let words = match output {
            Ok(output) => difference(&listing(input), &output),
            Err(words) => Some(words),
        };
        differences.extend(words.map(|words| format!("{}\n  {words}", described(input))));
    }
    fail_if_any(&differences);
}

/// In words, where the two texts part first.
fn difference(expected: &[u8], got: &[u8]) -> Option<String> {
    if expected == got {
        return None;
    }
    let (expected, got) = (lines(expected), lines(got));
    let line = (0..)
        .find(|line| expected.get(*line) != got.get(*line))
        .expect("the two differ");
    Some(format!(
        "line {}: expected {:?}, got {:?}",
        line + 1,
        expected.get(line),
        got.get(line)
    ))
}

/// The lines of a text, each with its line feed, so that a missing one is seen.
fn lines(text: &[u8]) -> Vec<String> {
    text.split_inclusive(|byte| *byte == b'\n')
        .map(|line| String::from_utf8_lossy(line).into_owned())
        .collect()
}

fn described(input: &[u8]) -> String {
    let first = &input[..input.len().min(MOST_PRINTED)];
    format!("input of {} bytes, the first are {first:?}", input.len())
}

#[cfg(test)]
mod tests {
    use super::*;

    #[test]
    fn a_missing_last_line_feed_is_a_difference() {
        assert_eq!(difference(b"a\nb\n", b"a\nb\n"), None);
        assert!(difference(b"a\nb\n", b"a\nb").is_some());
        assert!(difference(b"a\nb\n", b"a\nb\n\n").is_some());
    }
}
