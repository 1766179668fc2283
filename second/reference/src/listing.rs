//! The bench listing: the attempts of a capture as text.

use crate::line_mode::{line_mode, LineMode};
use crate::reader::{judge_all, Outcome};

/// A mode byte and 8 000 readings of four bytes each.
const MOST_BYTES: usize = 32_001;

const BYTES_OF_A_READING: usize = 4;

/// The refusals' numbers of document 01.
const ROOM: u64 = 12;
const MODE: u64 = 14;
const ODD: u64 = 15;

/// The whole listing for this input. Every line ends with one line feed.
pub fn listing(input: &[u8]) -> Vec<u8> {
    let text = match mode_and_readings(input) {
        Ok((mode, readings)) => attempt_lines(mode, &readings),
        Err(number) => format!("refused {number}\n"),
    };
    text.into_bytes()
}

/// What the input holds, or the number of the refusal. The order is Mode, Room, Odd.
fn mode_and_readings(input: &[u8]) -> Result<(&'static LineMode, Vec<u32>), u64> {
    let [mode_byte, after @ ..] = input else {
        return Err(MODE);
    };
    let mode = line_mode(u64::from(*mode_byte)).ok_or(MODE)?;
    if input.len() > MOST_BYTES {
        return Err(ROOM);
    }
    if after.len() % BYTES_OF_A_READING != 0 {
        return Err(ODD);
    }
    let readings = after
        .chunks_exact(BYTES_OF_A_READING)
        .map(|bytes| u32::from_le_bytes(bytes.try_into().expect("a chunk has four bytes")))
        .collect();
    Ok((mode, readings))
}

fn attempt_lines(mode: &LineMode, readings: &[u32]) -> String {
    let attempts = judge_all(mode, readings).attempts();
    let mut text = format!("mode {} edges {}\n", mode.name, readings.len());
    let (mut pages, mut bad) = (0, 0);
    for (number, attempt) in (1..).zip(attempts) {
        let words = match attempt.outcome {
            Outcome::Good(word) => format!("good {word:012x}"),
            Outcome::Gap => "gap".to_string(),
            Outcome::Cut => "cut".to_string(),
            Outcome::Check => "check".to_string(),
        };
        text.push_str(&format!("{number} {words}\n"));
        match attempt.outcome {
            Outcome::Good(_) => pages += 1,
            _ => bad += 1,
        }
    }
    text.push_str(&format!("pages {pages} bad {bad}\n"));
    text
}

#[cfg(test)]
mod tests {
    use super::*;
    use crate::line_mode::{HSM, LSM};
    use crate::page;

    fn input(mode: u8, readings: &[u32]) -> Vec<u8> {
        let mut bytes = vec![mode];
        bytes.extend(readings.iter().flat_map(|reading| reading.to_le_bytes()));
        bytes
    }

    fn text(input: &[u8]) -> String {
        String::from_utf8(listing(input)).expect("a listing is plain text")
    }

    #[test]
    fn the_example_of_01() {
        let expected = "mode HSM edges 3\n1 cut\npages 0 bad 1\n";
        assert_eq!(text(&input(0, &[0, 30, 60])), expected);
    }

    #[test]
    fn the_zero_page_alone() {
        let expected = "mode HSM edges 81\n1 good 000000000000\npages 1 bad 0\n";
        assert_eq!(text(&input(0, &page::readings(&HSM, 0, 0))), expected);
    }

    #[test]
    fn a_word_is_a_number_in_twelve_small_hex_digits() {
        let readings = page::readings(&LSM, 0x00AB_CDEF_0123, 7);
        let expected = format!(
            "mode LSM edges {}\n1 good 00abcdef0123\npages 1 bad 0\n",
            readings.len()
        );
        assert_eq!(text(&input(1, &readings)), expected);
    }

    #[test]
    fn without_readings_the_outer_lines_stand_alone() {
        assert_eq!(text(&[0]), "mode HSM edges 0\npages 0 bad 0\n");
        assert_eq!(text(&[1]), "mode LSM edges 0\npages 0 bad 0\n");
    }

    #[test]
    fn refusals_come_in_the_order_mode_room_odd() {
        assert_eq!(text(&[]), "refused 14\n");
        assert_eq!(text(&[2]), "refused 14\n");
        assert_eq!(text(&vec![2; 40_000]), "refused 14\n");
        for length in 32_002..=32_006 {
            assert_eq!(text(&vec![1; length]), "refused 12\n");
        }
        for length in 2..=4 {
            assert_eq!(text(&vec![0; length]), "refused 15\n");
        }
        assert!(text(&vec![0; 32_001]).starts_with("mode HSM edges 8000\n"));
    }

    #[test]
    fn dropped_edges_have_no_line_but_count_as_edges() {
        let mut readings = page::readings(&LSM, 0, 0);
        let last = readings[readings.len() - 1];
        readings.extend((1..=10).map(|edge| last + 800 * edge));
        let expected = "mode LSM edges 96\n1 good 000000000000\npages 1 bad 0\n";
        assert_eq!(text(&input(1, &readings)), expected);
    }
}
