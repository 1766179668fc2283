use super::*;
use crate::field::{power, ELEMENTS};

const NEW: State = State {
    register: [0; PARITY_SYMBOLS],
    count: 0,
};

/// Rows of so many symbols, all different from one another.
fn rows(length: usize) -> Vec<Vec<u16>> {
    let row = |step: usize, first: usize| -> Vec<u16> {
        (0..length)
            .map(|place| ((step * place + place * place / 3 + first) % 512) as u16)
            .collect()
    };
    vec![
        row(1, 1),
        row(37, 500),
        row(255, 256),
        vec![511; length],
        vec![256; length],
    ]
}

fn parity_of(data: &[u16]) -> [u16; PARITY_SYMBOLS] {
    let state = NEW.after(data).expect("nothing is wrong");
    state.parity().expect("all symbols were taken")
}

fn frame_of(data: &[u16]) -> Vec<u16> {
    [data, &parity_of(data)].concat()
}

/// The value of a polynomial: the sum of all coefficients times their power of the point.
fn value_at(polynomial: &[u16], point: u16) -> u16 {
    let mut power = 1;
    let mut value = 0;
    for coefficient in polynomial.iter().rev() {
        value = sum(value, product(*coefficient, power));
        power = product(power, point);
    }
    value
}

fn values(polynomial: &[u16]) -> Vec<u16> {
    (0..PARITY_SYMBOLS)
        .map(|exponent| value_at(polynomial, power_of_alpha(exponent)))
        .collect()
}

fn is_frame(symbols: &[u16]) -> bool {
    assert_eq!(symbols.len(), DATA_SYMBOLS + PARITY_SYMBOLS);
    values(symbols).iter().all(|value| *value == 0)
}

#[test]
fn the_generator_is_zero_at_the_44_powers_and_nowhere_else() {
    let generator = generator();
    assert_eq!((generator.len(), generator[0]), (45, 1));
    let roots: Vec<u16> = (0..PARITY_SYMBOLS).map(power_of_alpha).collect();
    for point in 0..ELEMENTS {
        let is_zero = value_at(&generator, point) == 0;
        assert_eq!(is_zero, roots.contains(&point));
    }
}

/// The q-binomial theorem gives each coefficient by itself: that of Z^(44 - k) is
/// alpha^(k (k - 1) / 2) times the product of (alpha^(45 - j) - 1) / (alpha^j - 1), j = 1 to k.
#[test]
fn the_generator_is_that_of_the_q_binomial_theorem() {
    let less_one = |exponent| sum(power_of_alpha(exponent), 1);
    let one_over = |element| power(element, 510);
    let coefficient = |k: usize| {
        (1..=k).fold(power_of_alpha(k * k.saturating_sub(1) / 2), |so_far, j| {
            let quotient = product(less_one(45 - j), one_over(less_one(j)));
            product(so_far, quotient)
        })
    };
    let expected: Vec<u16> = (0..=PARITY_SYMBOLS).map(coefficient).collect();
    assert_eq!(generator(), expected);
}

#[test]
fn long_division_of_a_small_polynomial_by_hand() {
    // (Z + 2) (Z + 3) + 7 = Z^2 + Z + (6 + 7), since 2 + 3 = 1, 2 * 3 = 6 and 6 + 7 = 1.
    assert_eq!(product_of_polynomials(&[1, 2], &[1, 3]), [1, 1, 6]);
    assert_eq!(remainder(&[1, 1, 1], &[1, 2]), [7]);
    assert_eq!(remainder(&[1, 1, 1], &[1, 3]), [7]);
    assert_eq!(remainder(&[5, 6], &[1, 0, 0]), [5, 6]);
}

#[test]
fn zero_data_has_zero_parity() {
    assert_eq!(parity_of(&[0; DATA_SYMBOLS]), [0; PARITY_SYMBOLS]);
}

#[test]
fn a_last_symbol_of_one_has_the_generator_without_its_leading_one() {
    let mut data = [0; DATA_SYMBOLS];
    data[DATA_SYMBOLS - 1] = 1;
    assert_eq!(parity_of(&data), generator()[1..]);
}

#[test]
fn a_finished_frame_is_zero_at_the_44_powers() {
    for data in rows(DATA_SYMBOLS) {
        assert!(is_frame(&frame_of(&data)));
    }
}

#[test]
fn one_symbol_of_data_at_each_place_makes_a_frame() {
    for place in 0..DATA_SYMBOLS {
        let mut data = [0; DATA_SYMBOLS];
        data[place] = 1 + place as u16;
        assert!(is_frame(&frame_of(&data)));
    }
}

/// Two polynomials below Z^44 that are equal at 44 points are equal. So this alone says
/// that the next register is the right one.
#[test]
fn the_next_register_has_the_values_of_what_was_divided() {
    for register in rows(PARITY_SYMBOLS) {
        let register: [u16; PARITY_SYMBOLS] = register.try_into().expect("44 symbols");
        for length in [0, 1, 2, 43, 44, 45, 100] {
            for burst in rows(length) {
                let next = register_after(&register, &burst);
                let before = lifted_sum(&register, &burst);
                assert_eq!(values(&next), values(&before));
            }
        }
    }
}

#[test]
fn the_parity_is_the_same_however_the_data_are_cut() {
    for data in rows(DATA_SYMBOLS) {
        let whole = NEW.after(&data).expect("nothing is wrong");
        for longest in [1, 2, 9, 44, 45, 81, 203, 405] {
            let in_bursts = data.chunks(longest).fold(NEW, |state, burst| {
                assert_eq!(state.after(&[]), Ok(state.clone()));
                state.after(burst).expect("nothing is wrong")
            });
            assert_eq!(in_bursts, whole);
        }
    }
}

#[test]
fn with_up_to_44_symbols_changed_it_is_no_frame() {
    let data = &rows(DATA_SYMBOLS)[1];
    let frame = frame_of(data);
    for number in 1..=PARITY_SYMBOLS {
        for (first, step) in [(0, 1), (450 - number, 1), (3, 10), (406 - number, 1)] {
            let mut changed = frame.clone();
            for index in 0..number {
                let symbol = &mut changed[first + step * index];
                *symbol = (*symbol + 1 + 11 * index as u16) % ELEMENTS;
            }
            assert!(!is_frame(&changed));
        }
    }
}

/// The generator changes 45 symbols, and then it is a frame again. With any one of them left
/// as it was, only 44 are changed, and it is none.
#[test]
fn with_the_generator_added_it_is_a_frame_and_short_of_one_symbol_it_is_not() {
    let frame = frame_of(&rows(DATA_SYMBOLS)[2]);
    for first in [0, 100, 405] {
        let mut changed = frame.clone();
        for (symbol, coefficient) in changed[first..].iter_mut().zip(generator()) {
            assert!(coefficient != 0);
            *symbol = sum(*symbol, coefficient);
        }
        assert!(is_frame(&changed));
        for place in first..=first + PARITY_SYMBOLS {
            let mut without_one = changed.clone();
            without_one[place] = frame[place];
            assert!(!is_frame(&without_one));
        }
    }
}

#[test]
fn a_burst_that_takes_the_count_past_406_is_refused() {
    let at = |count| State { count, ..NEW };
    for (count, longest) in [(0, 406), (1, 405), (405, 1), (406, 0)] {
        let after = at(count).after(&vec![0; longest]);
        assert_eq!(after, Ok(at(406)));
        let after = at(count).after(&vec![0; longest + 1]);
        assert_eq!(after, Err(answer::COUNT));
    }
    for count in [407, 511, 65_130, u16::MAX] {
        for burst in [&[][..], &[0], &[0; 406]] {
            assert_eq!(at(count).after(burst), Err(answer::COUNT));
        }
    }
}

#[test]
fn a_symbol_of_512_or_more_is_refused_after_count() {
    let wrong_at = |place: usize, wrong, count| {
        let mut state = State { count, ..NEW };
        state.register[place] = wrong;
        state
    };
    for wrong in [512, 1024, u16::MAX] {
        for place in 0..PARITY_SYMBOLS {
            let state = wrong_at(place, wrong, 405);
            assert_eq!(state.after(&[]), Err(answer::SYMBOL));
            assert_eq!(state.after(&[0]), Err(answer::SYMBOL));
            assert_eq!(state.after(&[0, 0]), Err(answer::COUNT));
            assert_eq!(state.parity(), Err(answer::COUNT));
            assert_eq!(wrong_at(place, wrong, 406).parity(), Err(answer::SYMBOL));
        }
        let state = wrong_at(0, 511, 403);
        assert_eq!(state.after(&[511, 511, wrong]), Err(answer::SYMBOL));
        assert_eq!(state.after(&[wrong, 511, 511]), Err(answer::SYMBOL));
        assert_eq!(state.after(&[wrong, 511, 511, 0]), Err(answer::COUNT));
    }
}

#[test]
fn entries_are_the_register_and_then_the_count() {
    let mut entries = [0; STATE_ENTRIES];
    for (entry, number) in entries.iter_mut().zip(100..) {
        *entry = number;
    }
    let state = State::from_entries(&entries);
    assert_eq!((state.register[0], state.register[43]), (100, 143));
    assert_eq!(state.count, 144);
    assert_eq!(state.entries(), entries);
}
