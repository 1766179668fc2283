//! The fields of a page's word.

/// A row of neighbouring bits of a word.
pub struct Field {
    lowest: u32,
    bits: u32,
}

pub const SELECTOR: Field = Field::new(0, 5);
/// The code of a message page.
pub const CODE: Field = Field::new(0, 11);
pub const ECHOED_NONCE: Field = Field::new(5, 5);
/// The higher bit of a base page's pause is at the place of a Next Page's toggle.
pub const TOGGLE: Field = Field::new(11, 1);
pub const FORCED_ROLE: Field = Field::new(12, 1);
pub const REMOTE_FAULT: Field = Field::new(13, 1);
/// A base page's remote fault is at the place where a Next Page says which kind it is: one
/// in a message page, zero in an unformatted one.
pub const MESSAGE_PAGE: Field = Field::new(13, 1);
pub const ACK: Field = Field::new(14, 1);
pub const NEXT_PAGE: Field = Field::new(15, 1);
pub const NONCE: Field = Field::new(16, 5);
/// The highest bit of the nonce, T4. It says master only where the role is forced.
pub const HIGHEST_NONCE_BIT: Field = Field::new(20, 1);

/// The one selector that is taken.
pub const OUR_SELECTOR: u64 = 1;

/// The Next Page of an end that has nothing to say: a message page with the code 1.
pub const NULL_MESSAGE: u64 = 0x2001;

/// The ability with this number, A0 being D21.
pub const fn ability(number: u32) -> Field {
    Field::new(21 + number, 1)
}

impl Field {
    const fn new(lowest: u32, bits: u32) -> Field {
        Field { lowest, bits }
    }

    /// All bits of the field as ones, all others as zeros.
    pub const fn ones(&self) -> u64 {
        ((1 << self.bits) - 1) << self.lowest
    }

    /// The value that the word has in this field.
    pub const fn of(&self, word: u64) -> u64 {
        (word & self.ones()) >> self.lowest
    }

    pub const fn is_set(&self, word: u64) -> bool {
        self.of(word) != 0
    }

    /// The word with this value in the field, all else as it was.
    pub const fn put(&self, word: u64, value: u64) -> u64 {
        (word & !self.ones()) | ((value << self.lowest) & self.ones())
    }
}

#[cfg(test)]
mod tests {
    use super::*;

    #[test]
    fn the_fields_lie_where_01_says() {
        assert_eq!(SELECTOR.ones(), 0x1F);
        assert_eq!(CODE.ones(), 0x7FF);
        assert_eq!(ECHOED_NONCE.ones(), 0x3E0);
        assert_eq!(TOGGLE.ones(), 0x800);
        assert_eq!(FORCED_ROLE.ones(), 0x1000);
        assert_eq!(REMOTE_FAULT.ones(), 0x2000);
        assert_eq!(MESSAGE_PAGE.ones(), 0x2000);
        assert_eq!(ACK.ones(), 0x4000);
        assert_eq!(NEXT_PAGE.ones(), 0x8000);
        assert_eq!(NONCE.ones(), 0x1F_0000);
        assert_eq!(HIGHEST_NONCE_BIT.ones(), 0x10_0000);
        assert_eq!(ability(0).ones(), 0x20_0000);
        assert_eq!(ability(26).ones(), 1 << 47);
    }

    #[test]
    fn putting_a_value_changes_its_field_only() {
        let word = NONCE.put(0xFFFF_FFFF_FFFF, 0b00101);
        assert_eq!(word, 0xFFFF_FFE5_FFFF);
        assert_eq!(NONCE.of(word), 0b00101);
    }
}
