//! The 16 check bits of a page, by long division on paper.

/// The number of bits of a word, D0 to D47.
pub const WORD_BITS: usize = 48;
/// The number of check bits, S15 to S0.
pub const CHECK_BITS: usize = 16;

/// The powers that make up the divisor x^16 + x^15 + x^2 + 1.
const DIVISOR_POWERS: [usize; 4] = [16, 15, 2, 0];

/// Whether a word has no more than its 48 bits.
pub fn fits_a_page(word: u64) -> bool {
    word < 1 << WORD_BITS
}

/// D0 to D47, in this order.
pub fn word_bits(word: u64) -> Vec<bool> {
    (0..WORD_BITS).map(|bit| word >> bit & 1 == 1).collect()
}

/// The word whose D0 to D47 these are, in this order.
pub fn word_of(bits: &[bool]) -> u64 {
    bits.iter()
        .rev()
        .fold(0, |word, bit| 2 * word + u64::from(*bit))
}

/// S15 to S0, in this order: what is left of the 48 bits times x^16.
///
/// The row starts with the highest power, which is D0. Times x^16 means that
/// sixteen zeros follow D47.
pub fn remainder_bits(word: u64) -> Vec<bool> {
    let mut row = word_bits(word);
    row.resize(WORD_BITS + CHECK_BITS, false);
    for highest in 0..WORD_BITS {
        if row[highest] {
            for power in DIVISOR_POWERS {
                row[highest + CHECK_BITS - power] ^= true;
            }
        }
    }
    row.split_off(WORD_BITS)
}

/// The check bits as a number, S15 being its highest bit.
pub fn check_bits(word: u64) -> u64 {
    remainder_bits(word)
        .into_iter()
        .fold(0, |number, bit| 2 * number + u64::from(bit))
}

#[cfg(test)]
mod tests {
    use super::*;

    #[test]
    fn a_row_holds_d0_first() {
        let bits = word_bits(0b101);
        assert_eq!(bits.len(), 48);
        assert!(bits[0] && !bits[1] && bits[2]);
    }

    #[test]
    fn a_row_of_bits_gives_its_word_back() {
        for word in [0, 1, 0b101, 1 << 47, 0x1234_5678_9ABC] {
            assert_eq!(word_of(&word_bits(word)), word);
        }
    }

    #[test]
    fn the_divisor_itself_leaves_nothing() {
        // x^16 + x^15 + x^2 + 1 written at the low end of the 48 bits: x^n is D(47 - n).
        let word = DIVISOR_POWERS
            .iter()
            .map(|power| 1 << (47 - power))
            .sum::<u64>();
        assert_eq!(check_bits(word), 0);
    }

    #[test]
    fn two_to_the_48_is_the_first_word_too_wide() {
        assert!(fits_a_page((1 << 48) - 1));
        assert!(!fits_a_page(1 << 48));
    }
}
