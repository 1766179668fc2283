//! The field of 97.3.2.2.11 once more, by doubling alone: with it the answers of `drive` are
//! judged without asking the reference.

/// The generator without its leading one: A43 to A0.
pub const GENERATOR: [u64; 44] = [
    208, 296, 68, 454, 338, 441, 123, 486, 328, 343, 226, 42, 196, 496, 34, 451, 480, 362, 268,
    264, 128, 311, 159, 483, 394, 239, 178, 63, 484, 26, 391, 194, 312, 421, 105, 384, 148, 356,
    350, 347, 237, 335, 89, 355,
];

/// The symbol times alpha. Of x^9 there is x^4 + 1 left.
fn doubled(symbol: u64) -> u64 {
    match symbol < 256 {
        true => 2 * symbol,
        false => (2 * (symbol - 256)) ^ 0b10001,
    }
}

/// The product of two symbols: for the bits of the right one, from the highest down, what
/// is there so far is doubled, and the left one added for a one.
pub fn product(left: u64, right: u64) -> u64 {
    (0..9).rev().fold(0, |so_far, bit| match right >> bit & 1 {
        0 => doubled(so_far),
        _ => doubled(so_far) ^ left,
    })
}

/// The value of the polynomial that has these coefficients, that of the highest power first.
fn value_at(coefficients: &[u64], point: u64) -> u64 {
    coefficients
        .iter()
        .fold(0, |value, coefficient| product(value, point) ^ coefficient)
}

/// Whether the polynomial is zero at each of the 44 powers of alpha, from alpha^0 on.
fn is_zero_at_all_powers(coefficients: &[u64]) -> bool {
    let mut powers = std::iter::successors(Some(1), |power| Some(doubled(*power))).take(44);
    powers.all(|power| value_at(coefficients, power) == 0)
}

/// Whether these are 450 symbols which are a frame.
pub fn is_frame(symbols: &[u64]) -> bool {
    let are_symbols = symbols.iter().all(|symbol| *symbol < 512);
    symbols.len() == 450 && are_symbols && is_zero_at_all_powers(symbols)
}

/// There is only one polynomial of this degree with a leading one and these 44 zeros.
#[test]
fn the_parity_generator_is_zero_at_the_44_powers() {
    let whole = [&[1], &GENERATOR[..]].concat();
    assert!(is_zero_at_all_powers(&whole));
}
