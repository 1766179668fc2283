//! Random words of pages, biased towards those that lead somewhere.

use crate::generate::{few_ones, narrow_word};
use crate::random::Random;
use reference::resolve::RATES;
use reference::word::{
    ability, ACK, ECHOED_NONCE, FORCED_ROLE, HIGHEST_NONCE_BIT, NEXT_PAGE, NONCE, NULL_MESSAGE,
    OUR_SELECTOR, REMOTE_FAULT, SELECTOR, TOGGLE,
};

/// The abilities of all rates.
pub fn all_rates() -> u64 {
    RATES.iter().map(|rate| ability(rate.ability).ones()).sum()
}

/// The ability of any one rate.
fn one_rate(random: &mut Random) -> u64 {
    let rate = &RATES[random.below(RATES.len() as u64) as usize];
    ability(rate.ability).ones()
}

/// Some of the rates, few of them most times. Seldom none.
fn some_rates(random: &mut Random) -> u64 {
    let one = one_rate(random);
    match random.below(8) {
        0 => all_rates(),
        1 => all_rates() & random.any_number(),
        2 | 3 => one | few_ones(random, 27) << 21,
        _ => one,
    }
}

/// A word to advertise. Fields that the device fills in itself are set at random.
pub fn advertisement(random: &mut Random) -> u64 {
    if random.once_in(12) {
        return narrow_word(random);
    }
    let fields = few_ones(random, 21);
    let forced = random.pick(&[0, 0, FORCED_ROLE.ones()]);
    let highest = random.pick(&[0, HIGHEST_NONCE_BIT.ones()]);
    some_rates(random) | fields | forced | highest
}

/// A partner's page that a device with this own page takes as its first.
pub fn first_page(random: &mut Random, own: u64) -> u64 {
    let other_nonce = (NONCE.of(own) + 1 + random.below(31)) % 32;
    let abilities = match random.below(8) {
        0 => some_rates(random),
        1 => few_ones(random, 27) << 21,
        _ => own & all_rates(),
    };
    let once_in_four = [
        FORCED_ROLE.ones(),
        REMOTE_FAULT.ones(),
        TOGGLE.ones(),
        ACK.ones() | ECHOED_NONCE.put(0, NONCE.of(own)),
    ];
    let fields = once_in_four
        .into_iter()
        .filter(|_| random.once_in(4))
        .sum::<u64>();
    let has_more = random.below(2);
    let page = NEXT_PAGE.put(abilities | fields | OUR_SELECTOR, has_more);
    NONCE.put(page, other_nonce)
}

/// A page that is wrong where the right one would be expected, or that may be: another
/// selector, the own nonce, another echo, no acknowledgement, or some bit changed.
pub fn wrong_page(random: &mut Random, right: u64, own: u64) -> u64 {
    let any = random.any_number();
    match random.below(8) {
        0 => SELECTOR.put(right, any),
        1 | 2 => NONCE.put(right, NONCE.of(own)),
        3 => ECHOED_NONCE.put(right, any),
        4 => ACK.put(right, any),
        5 => NEXT_PAGE.put(right, any),
        6 => right ^ few_ones(random, 48),
        _ => narrow_word(random),
    }
}

/// Any Next Page. After more than every second one another follows.
pub fn next_page(random: &mut Random) -> u64 {
    match random.below(6) {
        0 => NULL_MESSAGE,
        1 | 2 => NEXT_PAGE.put(few_ones(random, 48), 1),
        _ => narrow_word(random),
    }
}

/// A partner's Next Page that a device that holds this page takes as a new one.
pub fn new_next_page(random: &mut Random, held: u64) -> u64 {
    let page = TOGGLE.put(next_page(random), 1 - TOGGLE.of(held));
    match random.once_in(6) {
        true => page,
        false => ACK.put(page, 0),
    }
}

/// The held page once more, acknowledging or not. The echo differs sometimes, which only
/// a base page may.
pub fn repeated_page(random: &mut Random, held: u64) -> u64 {
    let any = random.any_number();
    match random.below(4) {
        0 => held,
        1 => ECHOED_NONCE.put(held, any),
        _ => ACK.put(held, any),
    }
}

/// A page that a device with this held page may not take where Next Pages are exchanged:
/// the same toggle, one bit of the held page changed, or an acknowledgement too early.
pub fn wrong_next_page(random: &mut Random, held: u64) -> u64 {
    let one_bit = 1 << random.below(48);
    match random.below(4) {
        0 => TOGGLE.put(next_page(random), TOGGLE.of(held)),
        1 => held ^ one_bit,
        2 => ACK.put(held ^ one_bit, 1),
        _ => ACK.put(new_next_page(random, held), 1),
    }
}

/// Two words to resolve, of which many settle and many do not.
pub fn two_words(random: &mut Random) -> (u64, u64) {
    let own = page_with_any_fields(random);
    let mut partner = page_with_any_fields(random);
    if random.once_in(2) {
        partner |= own & all_rates();
    }
    if random.once_in(8) {
        partner = NONCE.put(partner, NONCE.of(own));
    }
    (
        something_wrong(random, own),
        something_wrong(random, partner),
    )
}

fn page_with_any_fields(random: &mut Random) -> u64 {
    let fields = random.any_number() & 0x1F_FFE0;
    some_rates(random) | fields | OUR_SELECTOR
}

/// The word, sometimes too wide, with another selector, or any word instead.
fn something_wrong(random: &mut Random, word: u64) -> u64 {
    match random.below(24) {
        0 => word | 1 << (48 + random.below(16)),
        1 => SELECTOR.put(word, random.any_number()),
        2 => narrow_word(random),
        3 => random.any_number(),
        _ => word,
    }
}
