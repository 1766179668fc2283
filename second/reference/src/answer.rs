//! An answer as one number: the top byte says which kind it is, the rest is its value.

/// There is no answer.
pub const NOTHING: u64 = 0;
/// Refusal 1: the attempt ended with a gap that the pattern does not ask for.
pub const GAP: u64 = refusal(1);
/// Refusal 2: the attempt ended with a quiet gap.
pub const CUT: u64 = refusal(2);
/// Refusal 3: the attempt came to its last position, and the check bits do not agree.
pub const CHECK: u64 = refusal(3);
/// Refusal 4: the page, or the word, has another selector than 1.
pub const SELECTOR: u64 = refusal(4);
/// Refusal 5: both sides have the same nonce.
pub const TIE: u64 = refusal(5);
/// Refusal 6: the page is not the one that is held.
pub const CHANGED: u64 = refusal(6);
/// Refusal 7: the page echoes another nonce than the own one.
pub const ECHO: u64 = refusal(7);
/// Refusal 8: there is no common rate.
pub const NONE: u64 = refusal(8);
/// Refusal 9: both sides are forced to the same role.
pub const ROLES: u64 = refusal(9);
/// Refusal 10: there is no such register.
pub const REGISTER: u64 = refusal(10);
/// Refusal 11: a page is told to be sent where none is out.
pub const TURN: u64 = refusal(11);
/// Refusal 12: the place is past the end, or the page does not fit from there on, or there
/// are fewer cells than the messages, the lent state or the parity symbols need.
pub const ROOM: u64 = refusal(12);
/// Refusal 13: the word is 2^48 or more.
pub const WIDE: u64 = refusal(13);
/// Refusal 14: the mode is neither 0 nor 1.
pub const MODE: u64 = refusal(14);
/// Refusal 17: the Next Page has the same toggle as the page that is held.
pub const TOGGLE: u64 = refusal(17);
/// Refusal 20: a symbol is 512 or more.
pub const SYMBOL: u64 = refusal(20);
/// Refusal 21: the burst takes the count past 406, or a finish comes at another count.
pub const COUNT: u64 = refusal(21);
/// Refusal 24: the run begins with an unformatted page.
pub const RUN: u64 = refusal(24);
/// Refusal 25: the run has more than 64 pages.
pub const LENGTH: u64 = refusal(25);
/// The gap is at the quiet limit or longer.
pub const QUIET: u64 = 0x85 << 56;
/// The gap is neither a number of positions nor quiet.
pub const UNFIT: u64 = 0x86 << 56;

/// Kinds of answers that carry a value.
pub const GOOD_PAGE: u64 = 0x80;
pub const ORDERED_PAGE: u64 = 0x81;
pub const SETTLED: u64 = 0x82;
pub const REGISTER_VALUE: u64 = 0x83;
pub const NUMBER: u64 = 0x84;

/// The kind of an answer, in its top byte: a refusal's number, one of the kinds that carry
/// a value, or 0 for nothing.
pub const fn kind(answer: u64) -> u64 {
    answer >> 56
}

/// The refusal with this number of document 01 or 02.
pub const fn refusal(number: u64) -> u64 {
    number << 56
}

/// A good page was read, with this word.
pub const fn good(word: u64) -> u64 {
    (GOOD_PAGE << 56) | word
}

/// This page is ordered.
pub const fn ordered(word: u64) -> u64 {
    (ORDERED_PAGE << 56) | word
}

/// Settled on the rate of this ability, as master or slave.
pub const fn settled(ability: u32, is_master: bool) -> u64 {
    (SETTLED << 56) | ((is_master as u64) << 8) | ability as u64
}

/// The number of the ability on whose rate this answer settles.
pub const fn settled_ability(answer: u64) -> u64 {
    answer & 0xFF
}

/// Whether this answer settles as master.
pub const fn settled_as_master(answer: u64) -> bool {
    answer & 0x100 != 0
}

/// A register's value.
pub const fn register(value: u16) -> u64 {
    (REGISTER_VALUE << 56) | value as u64
}

/// A plain number: check bits, a count of readings, of messages or of symbols, or the
/// positions of a gap.
pub const fn number(value: u64) -> u64 {
    (NUMBER << 56) | value
}

/// The plain number that this answer is, if it is one.
pub const fn number_of(answer: u64) -> Option<u64> {
    match kind(answer) {
        NUMBER => Some(answer & ((1 << 56) - 1)),
        _ => None,
    }
}

#[cfg(test)]
mod tests {
    use super::*;

    #[test]
    fn the_kind_is_in_the_top_byte() {
        assert_eq!([NOTHING, GAP, CUT, CHECK], [0, 1 << 56, 2 << 56, 3 << 56]);
        assert_eq!(good(0xABC), 0x8000_0000_0000_0ABC);
        let of_a_device = [SELECTOR, TIE, CHANGED, ECHO, NONE, ROLES, REGISTER, TURN];
        assert_eq!(
            of_a_device,
            [4, 5, 6, 7, 8, 9, 10, 11].map(|number| number << 56)
        );
        assert_eq!(ordered(0xABC), 0x8100_0000_0000_0ABC);
        assert_eq!(settled(22, true), 0x8200_0000_0000_0116);
        assert_eq!(settled(22, false), 0x8200_0000_0000_0016);
        assert_eq!(settled_ability(settled(22, true)), 22);
        assert!(settled_as_master(settled(22, true)));
        assert!(!settled_as_master(settled(22, false)));
        assert_eq!([kind(good(5)), kind(TURN)], [GOOD_PAGE, 11]);
        assert_eq!(register(0xFFFF), 0x8300_0000_0000_FFFF);
        assert_eq!(ROOM, 0x0C00_0000_0000_0000);
        assert_eq!(WIDE, 0x0D00_0000_0000_0000);
        assert_eq!(MODE, 0x0E00_0000_0000_0000);
        assert_eq!(TOGGLE, 0x1100_0000_0000_0000);
        assert_eq!(SYMBOL, 0x1400_0000_0000_0000);
        assert_eq!(COUNT, 0x1500_0000_0000_0000);
        assert_eq!(RUN, 0x1800_0000_0000_0000);
        assert_eq!(LENGTH, 0x1900_0000_0000_0000);
        assert_eq!(number(81), 0x8400_0000_0000_0051);
        assert_eq!(number_of(number(81)), Some(81));
        assert_eq!([number_of(LENGTH), number_of(good(81))], [None, None]);
        assert_eq!(QUIET, 0x8500_0000_0000_0000);
        assert_eq!(UNFIT, 0x8600_0000_0000_0000);
    }
}
