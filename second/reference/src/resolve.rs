//! The choice of rate and role.

use crate::answer;
use crate::check::fits_a_page;
use crate::word::{ability, FORCED_ROLE, HIGHEST_NONCE_BIT, NONCE, OUR_SELECTOR, SELECTOR};

/// A rate that two modules can settle on.
#[derive(Debug, PartialEq)]
pub struct Rate {
    /// The number n of the ability An.
    pub ability: u32,
    pub name: &'static str,
    /// How long Check-link waits for the link, in nanoseconds.
    pub inhibit: u32,
}

/// How long Check-link waits for most rates, and without a rate.
pub const COMMON_INHIBIT: u32 = 97_500_000;
const INHIBIT_OF_10BASE_T1S: u32 = 402_000_000;
const INHIBIT_OF_10BASE_T1L: u32 = 3_060_000_000;

/// All rates, the first that both sides have being the one to take.
pub const RATES: [Rate; 9] = [
    rate(6, "25GBASE-T1", COMMON_INHIBIT),
    rate(5, "10GBASE-T1", COMMON_INHIBIT),
    rate(4, "5GBASE-T1", COMMON_INHIBIT),
    rate(3, "2.5GBASE-T1", COMMON_INHIBIT),
    rate(2, "1000BASE-T1", COMMON_INHIBIT),
    rate(0, "100BASE-T1", COMMON_INHIBIT),
    rate(1, "10BASE-T1S full duplex", INHIBIT_OF_10BASE_T1S),
    rate(9, "10BASE-T1L", INHIBIT_OF_10BASE_T1L),
    rate(22, "10BASE-T1S half duplex", INHIBIT_OF_10BASE_T1S),
];

const fn rate(ability: u32, name: &'static str, inhibit: u32) -> Rate {
    Rate {
        ability,
        name,
        inhibit,
    }
}

/// What two pages lead to, seen from the first one's side.
#[derive(Clone, Copy, Debug, PartialEq)]
pub struct Settled {
    pub rate: &'static Rate,
    pub is_master: bool,
}

impl Settled {
    pub fn answer(self) -> u64 {
        answer::settled(self.rate.ability, self.is_master)
    }
}

/// The rate and the own role, or the first refusal in 01's order.
pub fn resolve(own: u64, partner: u64) -> Result<Settled, u64> {
    let both = [own, partner];
    let refused_first = [
        (!both.into_iter().all(fits_a_page), answer::WIDE),
        (!both.into_iter().all(has_our_selector), answer::SELECTOR),
        (NONCE.of(own) == NONCE.of(partner), answer::TIE),
    ];
    if let Some((_, refusal)) = refused_first.into_iter().find(|(is_so, _)| *is_so) {
        return Err(refusal);
    }
    let rate = first_common_rate(own, partner).ok_or(answer::NONE)?;
    let is_master = own_role(own, partner).ok_or(answer::ROLES)?;
    Ok(Settled { rate, is_master })
}

fn has_our_selector(word: u64) -> bool {
    SELECTOR.of(word) == OUR_SELECTOR
}

fn first_common_rate(own: u64, partner: u64) -> Option<&'static Rate> {
    let common = own & partner;
    RATES
        .iter()
        .find(|rate| ability(rate.ability).is_set(common))
}

/// Whether the own side is master. Two sides forced to the same role have no answer.
fn own_role(own: u64, partner: u64) -> Option<bool> {
    match (forced_master(own), forced_master(partner)) {
        (None, None) => Some(NONCE.of(own) > NONCE.of(partner)),
        (Some(own_is_master), None) => Some(own_is_master),
        (None, Some(partner_is_master)) => Some(!partner_is_master),
        (Some(own_is_master), Some(partner_is_master)) => {
            (own_is_master != partner_is_master).then_some(own_is_master)
        }
    }
}

/// The role that the word forces for its sender, if it forces one. Without M/S the
/// highest bit of the nonce says nothing about the role.
fn forced_master(word: u64) -> Option<bool> {
    FORCED_ROLE
        .is_set(word)
        .then(|| HIGHEST_NONCE_BIT.is_set(word))
}

#[cfg(test)]
mod tests {
    use super::*;

    /// A page with selector 1 and these abilities.
    fn page(nonce: u64, abilities: &[u32]) -> u64 {
        let with_nonce = NONCE.put(1, nonce);
        abilities
            .iter()
            .fold(with_nonce, |word, number| ability(*number).put(word, 1))
    }

    fn ability_settled(own: &[u32], partner: &[u32]) -> Result<u32, u64> {
        resolve(page(1, own), page(2, partner)).map(|settled| settled.rate.ability)
    }

    #[test]
    fn the_earlier_rate_of_01s_row_is_taken() {
        let order = [6, 5, 4, 3, 2, 0, 1, 9, 22];
        for (place, first) in order.into_iter().enumerate() {
            assert_eq!(ability_settled(&order[place..], &order), Ok(first));
        }
    }

    #[test]
    fn other_abilities_are_no_rate() {
        let others: Vec<u32> = (0..27)
            .filter(|number| ![6, 5, 4, 3, 2, 0, 1, 9, 22].contains(number))
            .collect();
        assert_eq!(ability_settled(&others, &others), Err(answer::NONE));
    }

    #[test]
    fn all_refusals_come_in_01s_order() {
        let forced = FORCED_ROLE.ones();
        let (wide, other_selector) = (1 << 48, 1);
        let rate = ability(2).ones();
        let own = page(3, &[]) | forced;
        assert_eq!(resolve(own ^ other_selector | wide, own), Err(answer::WIDE));
        assert_eq!(resolve(own, own ^ other_selector), Err(answer::SELECTOR));
        assert_eq!(resolve(own, own), Err(answer::TIE));
        let same_role = page(4, &[]) | forced;
        assert_eq!(resolve(own, same_role), Err(answer::NONE));
        assert_eq!(resolve(own | rate, same_role | rate), Err(answer::ROLES));
    }

    #[test]
    fn one_forced_side_decides_for_both() {
        for (nonce, is_master) in [(0b01111, false), (0b10000, true)] {
            let forced = page(nonce, &[2]) | FORCED_ROLE.ones();
            // The other side's own nonce would say otherwise.
            for other_nonce in [0b00001, 0b11111] {
                let free = page(other_nonce, &[2]);
                let role = |own, partner| resolve(own, partner).map(|settled| settled.is_master);
                assert_eq!(role(forced, free), Ok(is_master));
                assert_eq!(role(free, forced), Ok(!is_master));
            }
        }
    }
}
