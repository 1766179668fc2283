//! The registers 512 to 525 of a device.

use super::{Device, State};
use crate::answer;

pub const CONTROL: u64 = 512;
pub const STATUS: u64 = 513;
/// Registers with a word in parts of 16 bits, the lowest part first.
pub const ADVERTISED: [u64; 3] = [514, 515, 516];
pub const PARTNER: [u64; 3] = [517, 518, 519];
pub const OWN_NEXT_PAGE: [u64; 3] = [520, 521, 522];
pub const PARTNER_NEXT_PAGE: [u64; 3] = [523, 524, 525];

/// The one register of the own Next Page whose write says that the page is there.
const LOADS: u64 = OWN_NEXT_PAGE[0];

/// Bits of 512.
pub const RESET: u16 = 1 << 15;
pub const ENABLE: u16 = 1 << 12;
pub const RESTART: u16 = 1 << 9;

/// Bits of 513.
pub const PAGE_RECEIVED: u16 = 1 << 6;
pub const COMPLETE: u16 = 1 << 5;
pub const REMOTE_FAULT: u16 = 1 << 4;
const ALWAYS_ONE: u16 = 1 << 3;
pub const LINK_LATCH: u16 = 1 << 2;

/// The place of the lowest bit of a part, if the register is one of the three.
fn lowest_bit(registers: [u64; 3], register: u64) -> Option<usize> {
    let part = registers.iter().position(|number| *number == register)?;
    Some(16 * part)
}

fn is_read_only(register: u64) -> bool {
    let of_a_word = [PARTNER, PARTNER_NEXT_PAGE];
    register == STATUS || of_a_word.as_flattened().contains(&register)
}

/// Puts the value into the word, its lowest bit at this place.
fn put_part(word: &mut u64, lowest: usize, value: u16) {
    let part = 0xFFFF << lowest;
    *word = (*word & !part) | (u64::from(value) << lowest);
}

impl Device {
    pub(super) fn read(&mut self, register: u64) -> u64 {
        match register {
            CONTROL => answer::register(if self.is_on() { ENABLE } else { 0 }),
            STATUS => answer::register(self.read_status()),
            _ => match self.part_of_a_word(register) {
                Some(value) => answer::register(value),
                None => answer::REGISTER,
            },
        }
    }

    fn part_of_a_word(&self, register: u64) -> Option<u16> {
        let words = [
            (ADVERTISED, self.advertised),
            (PARTNER, self.negotiation.partner_page),
            (OWN_NEXT_PAGE, self.negotiation.next_page_to_send),
            (PARTNER_NEXT_PAGE, self.negotiation.partner_next_page),
        ];
        words.into_iter().find_map(|(registers, word)| {
            let lowest = lowest_bit(registers, register)?;
            Some((word >> lowest) as u16)
        })
    }

    /// The status as it was, and then what reading it clears and sets.
    fn read_status(&mut self) -> u16 {
        let is_up = self.state == State::Up;
        let bits = [
            (self.page_received, PAGE_RECEIVED),
            (is_up, COMPLETE),
            (self.remote_fault, REMOTE_FAULT),
            (true, ALWAYS_ONE),
            (self.negotiation.link_latch, LINK_LATCH),
        ];
        self.page_received = false;
        self.remote_fault = false;
        self.negotiation.link_latch = is_up;
        bits.into_iter()
            .filter(|(is_set, _)| *is_set)
            .map(|(_, bit)| bit)
            .sum()
    }

    pub(super) fn write(&mut self, now: u32, register: u64, value: u16) -> u64 {
        if register == CONTROL {
            self.control(now, value);
        } else if let Some(lowest) = lowest_bit(ADVERTISED, register) {
            put_part(&mut self.advertised, lowest, value);
        } else if let Some(lowest) = lowest_bit(OWN_NEXT_PAGE, register) {
            put_part(&mut self.negotiation.next_page_to_send, lowest, value);
            self.negotiation.is_loaded |= register == LOADS;
        } else if !is_read_only(register) {
            return answer::REGISTER;
        }
        answer::NOTHING
    }

    fn control(&mut self, now: u32, value: u16) {
        let has = |bit| value & bit != 0;
        if has(RESET) {
            *self = Device::fresh();
        } else if !has(ENABLE) {
            self.enter_off();
        } else if has(RESTART) || !self.is_on() {
            self.enter_break(now);
        }
    }
}
