//! Where a page has its transitions, and which clock readings these have.

use crate::check::{remainder_bits, word_bits};
use crate::line_mode::LineMode;

/// The number of the last position.
pub const LAST_POSITION: usize = 157;

/// The 64 bits in the order of sending: D0 to D47, then S15 to S0.
fn sent_bits(word: u64) -> Vec<bool> {
    let mut bits = word_bits(word);
    bits.extend(remainder_bits(word));
    bits
}

/// What 01 asks of one position.
#[derive(Debug, PartialEq)]
pub enum Asked {
    Transition,
    NoTransition,
    /// A transition if this one of the 64 bits is one. The bits are counted from 0 in
    /// the order of sending.
    Bit(usize),
}

/// What 01 asks of a position of a page. Nothing is at a number that is no position.
pub fn asked(mode: &LineMode, position: usize) -> Asked {
    let is_odd = position % 2 == 1;
    match position {
        1..=26 if mode.delimiter.contains(&position) => Asked::Transition,
        27..=153 if is_odd => Asked::Transition,
        28..=154 => Asked::Bit((position - 28) / 2),
        155 | 157 => Asked::Transition,
        _ => Asked::NoTransition,
    }
}

fn has_transition(mode: &LineMode, bits: &[bool], position: usize) -> bool {
    match asked(mode, position) {
        Asked::Transition => true,
        Asked::NoTransition => false,
        Asked::Bit(bit) => bits[bit],
    }
}

/// All positions of the page that have a transition, in order.
pub fn transitions(mode: &LineMode, word: u64) -> Vec<usize> {
    let bits = sent_bits(word);
    (1..=LAST_POSITION)
        .filter(|position| has_transition(mode, &bits, *position))
        .collect()
}

/// The number of transitions of the page.
pub fn edge_count(mode: &LineMode, word: u64) -> usize {
    transitions(mode, word).len()
}

/// The clock reading of each transition, position 1 being at the first reading.
pub fn readings(mode: &LineMode, word: u64, first: u32) -> Vec<u32> {
    transitions(mode, word)
        .into_iter()
        .map(|position| {
            let after_the_first = (position as u32 - 1) * mode.spacing;
            first.wrapping_add(after_the_first)
        })
        .collect()
}

#[cfg(test)]
mod tests {
    use super::*;
    use crate::line_mode::{HSM, LSM};

    #[test]
    fn the_first_data_bit_is_at_28_and_the_last_at_122() {
        let zero = transitions(&HSM, 0);
        assert!(!zero.contains(&28) && !zero.contains(&122));
        assert!(transitions(&HSM, 1).contains(&28));
        assert!(transitions(&HSM, 1 << 47).contains(&122));
    }

    #[test]
    fn the_highest_check_bit_is_sent_first() {
        // The check bits of 2^47 are 8005 hex: S15, S2 and S0.
        let sent: Vec<usize> = transitions(&HSM, 1 << 47)
            .into_iter()
            .filter(|position| (124..=154).contains(position) && position % 2 == 0)
            .collect();
        assert_eq!(sent, [124, 150, 154]);
    }

    #[test]
    fn a_page_ends_with_155_and_157_and_skips_156() {
        for mode in [&HSM, &LSM] {
            for word in [0, 1, (1 << 48) - 1] {
                assert!(transitions(mode, word).ends_with(&[155, 157]));
            }
        }
    }

    #[test]
    fn beyond_the_ends_of_a_page_there_is_no_transition() {
        for position in [0, 158, 159, 160] {
            assert_eq!(asked(&LSM, position), Asked::NoTransition);
        }
    }

    #[test]
    fn readings_roll_over_with_the_clock() {
        let near_the_end = readings(&HSM, 0, u32::MAX - 29);
        assert_eq!(near_the_end[..4], [u32::MAX - 29, 0, 30, 90]);
    }
}
