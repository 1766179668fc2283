//! The parity symbols of a frame, by wish 10 of document 02 and 97.3.2.2.11 of document 004.
//!
//! 004 draws a shift register that is fed symbol by symbol. Here no symbol goes through a
//! register: a register is the polynomial that it means, and a whole burst is taken by one
//! long division.
//!
//! A polynomial in Z is the row of its coefficients, that of the highest power first.

use crate::answer;
use crate::field::{is_element, power_of_alpha, product, sum};

/// A frame has so many data symbols, and then so many parity symbols.
pub const DATA_SYMBOLS: usize = 406;
pub const PARITY_SYMBOLS: usize = 44;

/// A lent state has so many entries: the symbols of the register, and then the count.
pub const STATE_ENTRIES: usize = PARITY_SYMBOLS + 1;

/// What is known of a frame of which some symbols were taken. It may be any, also one that
/// no taking leads to.
#[derive(Clone, Debug, PartialEq)]
pub struct State {
    /// The coefficients of Z^43 to Z^0.
    pub register: [u16; PARITY_SYMBOLS],
    /// The number of symbols taken.
    pub count: u16,
}

impl State {
    pub fn from_entries(entries: &[u16; STATE_ENTRIES]) -> State {
        let mut register = [0; PARITY_SYMBOLS];
        register.copy_from_slice(&entries[..PARITY_SYMBOLS]);
        State {
            register,
            count: entries[PARITY_SYMBOLS],
        }
    }

    pub fn entries(&self) -> [u16; STATE_ENTRIES] {
        let mut entries = [self.count; STATE_ENTRIES];
        entries[..PARITY_SYMBOLS].copy_from_slice(&self.register);
        entries
    }

    /// The state after this burst, or the first refusal in 02's order.
    pub fn after(&self, burst: &[u16]) -> Result<State, u64> {
        let count = usize::from(self.count) + burst.len();
        if count > DATA_SYMBOLS {
            return Err(answer::COUNT);
        }
        if !are_symbols(burst) || !are_symbols(&self.register) {
            return Err(answer::SYMBOL);
        }
        Ok(State {
            register: register_after(&self.register, burst),
            // At most 406.
            count: count as u16,
        })
    }

    /// The parity symbols P43 to P0, or the first refusal in 02's order.
    pub fn parity(&self) -> Result<[u16; PARITY_SYMBOLS], u64> {
        if usize::from(self.count) != DATA_SYMBOLS {
            return Err(answer::COUNT);
        }
        match are_symbols(&self.register) {
            true => Ok(self.register),
            false => Err(answer::SYMBOL),
        }
    }
}

fn are_symbols(entries: &[u16]) -> bool {
    entries.iter().copied().all(is_element)
}

/// The register times Z^n plus the burst times Z^44, modulo the generator, where n is the
/// length of the burst: n more symbols lift all earlier ones by Z^n.
fn register_after(register: &[u16; PARITY_SYMBOLS], burst: &[u16]) -> [u16; PARITY_SYMBOLS] {
    let dividend = lifted_sum(register, burst);
    let rest = remainder(&dividend, &generator());
    rest.try_into().expect("the generator has Z^44")
}

/// The register times Z^n plus the burst times Z^44. Times Z^n puts n zeros behind a row.
fn lifted_sum(register: &[u16; PARITY_SYMBOLS], burst: &[u16]) -> Vec<u16> {
    let lifted_register = [register, &vec![0; burst.len()][..]].concat();
    let lifted_burst = [burst, &[0; PARITY_SYMBOLS]].concat();
    lifted_register
        .into_iter()
        .zip(lifted_burst)
        .map(|(left, right)| sum(left, right))
        .collect()
}

/// The product of Z less alpha^i for i = 0 to 43. Less is plus in this field.
fn generator() -> Vec<u16> {
    (0..PARITY_SYMBOLS)
        .map(|exponent| [1, power_of_alpha(exponent)])
        .fold(vec![1], |so_far, factor| {
            product_of_polynomials(&so_far, &factor)
        })
}

fn product_of_polynomials(left: &[u16], right: &[u16]) -> Vec<u16> {
    let mut all = vec![0; left.len() + right.len() - 1];
    for (left_place, left_coefficient) in left.iter().enumerate() {
        for (right_place, right_coefficient) in right.iter().enumerate() {
            let place = left_place + right_place;
            all[place] = sum(all[place], product(*left_coefficient, *right_coefficient));
        }
    }
    all
}

/// What long division leaves: as many coefficients as the divisor has below its highest
/// one, which must be 1. The dividend has at least as many.
fn remainder(dividend: &[u16], divisor: &[u16]) -> Vec<u16> {
    assert_eq!(divisor[0], 1);
    let mut rest = dividend.to_vec();
    let steps = dividend.len() + 1 - divisor.len();
    for place in 0..steps {
        let of_quotient = rest[place];
        for (coefficient, of_divisor) in rest[place..].iter_mut().zip(divisor) {
            *coefficient = sum(*coefficient, product(of_quotient, *of_divisor));
        }
    }
    rest.split_off(steps)
}

#[cfg(test)]
mod tests;
