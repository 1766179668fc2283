//! The field of 512 elements that 97.3.2.2.11 of document 004 names.
//!
//! A symbol d8..d0 is the polynomial over {0, 1} with d8 at x^8 and d0 at x^0. Products are
//! products of these polynomials, of which the remainder by x^9 + x^4 + 1 is kept.

/// The number of elements; each of them is a number below it.
pub const ELEMENTS: u16 = 512;

/// 0x002, the polynomial x.
const ALPHA: u16 = 2;

/// The powers of a symbol's polynomial are below this one.
const DEGREE: u32 = 9;

/// The polynomial x^9 + x^4 + 1.
const MODULUS: u32 = 1 << DEGREE | 1 << 4 | 1;

/// Whether this number is an element.
pub fn is_element(number: u16) -> bool {
    number < ELEMENTS
}

/// The sum of two elements. Coefficients are added modulo 2, so it is their difference too.
pub fn sum(left: u16, right: u16) -> u16 {
    left ^ right
}

/// The product of two elements.
pub fn product(left: u16, right: u16) -> u16 {
    remainder(product_of_polynomials(left, right))
}

/// The sum of the left polynomial times x^n over all powers n that the right one has.
fn product_of_polynomials(left: u16, right: u16) -> u32 {
    (0..DEGREE)
        .filter(|power| right >> power & 1 == 1)
        .fold(0, |sum, power| sum ^ u32::from(left) << power)
}

/// What the division by x^9 + x^4 + 1 leaves of a product, whose highest power is x^16.
fn remainder(polynomial: u32) -> u16 {
    let mut rest = polynomial;
    for power in (DEGREE..=2 * (DEGREE - 1)).rev() {
        if rest >> power & 1 == 1 {
            rest ^= MODULUS << (power - DEGREE);
        }
    }
    // Only powers below x^9 are left.
    rest as u16
}

pub fn power(base: u16, exponent: usize) -> u16 {
    (0..exponent).fold(1, |power, _| product(power, base))
}

pub fn power_of_alpha(exponent: usize) -> u16 {
    power(ALPHA, exponent)
}

#[cfg(test)]
mod tests {
    use super::*;

    #[test]
    fn products_worked_out_by_hand() {
        // x times x^8 is x^9, of which x^4 + 1 is left.
        assert_eq!(product(2, 256), 0b10001);
        // x^16 = x^7 (x^4 + 1) = x^11 + x^7, and x^11 = x^2 (x^4 + 1) = x^6 + x^2.
        assert_eq!(product(256, 256), 0b11000100);
        // (x + 1) (x + 1) = x^2 + 2 x + 1, and 2 is 0.
        assert_eq!(product(3, 3), 0b101);
        assert_eq!(product(511, 1), 511);
        assert_eq!(product(0, 511), 0);
    }

    #[test]
    fn alpha_has_511_different_powers_and_then_comes_one_again() {
        let mut powers: Vec<u16> = (0..511).map(power_of_alpha).collect();
        powers.sort_unstable();
        assert_eq!(powers, (1..512).collect::<Vec<u16>>());
        assert_eq!(power_of_alpha(511), 1);
    }

    #[test]
    fn every_product_of_powers_is_the_power_of_the_sum() {
        let powers: Vec<u16> = (0..511).map(power_of_alpha).collect();
        for left in 0..511 {
            for right in 0..511 {
                let expected = powers[(left + right) % 511];
                assert_eq!(product(powers[left], powers[right]), expected);
            }
        }
    }

    #[test]
    fn a_product_with_a_sum_is_the_sum_of_the_products() {
        for left in 0..ELEMENTS {
            for (one, other) in [(1, 2), (17, 300), (511, 256), (5, 5), (left, 85)] {
                let of_each = sum(product(left, one), product(left, other));
                assert_eq!(product(left, sum(one, other)), of_each);
            }
        }
    }

    #[test]
    fn numbers_below_512_are_elements() {
        assert!(is_element(0) && is_element(511));
        assert!(!is_element(512) && !is_element(1024) && !is_element(u16::MAX));
    }
}
