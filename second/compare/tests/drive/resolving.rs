//! Rate and role: the edges one by one, and many random pairs of words.

use compare::agreement::{assert_agreement, assert_answers};
use compare::call::Call;
use compare::generate::resolve_call;
use compare::kinds::{Kind, Kinds};
use compare::random::Random;
use compare::tally::Tally;
use reference::answer::{
    kind, settled, settled_as_master, NONE, ROLES, SELECTOR, SETTLED, TIE, WIDE,
};
use reference::calls;
use reference::resolve::RATES;
use reference::word::{FORCED_ROLE, HIGHEST_NONCE_BIT, SELECTOR as SELECTOR_FIELD};

const PAIRS: usize = 40_000;

const TWO_TO_48: u64 = 1 << 48;

/// The largest word that is not too wide.
const ALL_ONES: u64 = TWO_TO_48 - 1;

#[test]
fn the_table_of_01_holds() {
    assert_answers(&[
        (Call::resolve(0x850001, 0xA90001), settled(2, false)),
        (Call::resolve(0xA90001, 0x850001), settled(2, true)),
        (Call::resolve(0x851001, 0xA91001), ROLES),
        (Call::resolve(0x951001, 0xA90001), settled(2, true)),
        (Call::resolve(0xA90001, 0x951001), settled(2, false)),
        (Call::resolve(0x850001, 0x850001), TIE),
        (Call::resolve(0x450001, 0xA90001), NONE),
    ]);
}

#[test]
fn a_word_of_2_to_48_is_too_wide_on_either_side() {
    // All ones have selector 31, which is looked at only if both words are narrow.
    assert_answers(&[
        (Call::resolve(ALL_ONES, 0x850001), SELECTOR),
        (Call::resolve(0x850001, ALL_ONES), SELECTOR),
        (Call::resolve(TWO_TO_48, 0x850001), WIDE),
        (Call::resolve(0x850001, TWO_TO_48), WIDE),
        (Call::resolve(TWO_TO_48 + 0x850001, 0xA90001), WIDE),
        (Call::resolve(0x850001, TWO_TO_48 + 0xA90001), WIDE),
        (Call::resolve(u64::MAX, u64::MAX), WIDE),
        (Call::resolve((1 << 63) + 0x850001, 0xA90000), WIDE),
        (Call::resolve(0, TWO_TO_48), WIDE),
    ]);
}

#[test]
fn the_first_of_several_refusals_is_answered() {
    let same_role_and_nothing_common = (0x051001, 0x091001);
    let (own, partner) = same_role_and_nothing_common;
    assert_answers(&[
        (Call::resolve(own, partner), NONE),
        (Call::resolve(0x851001, 0x851001), TIE),
        (Call::resolve(0x850000, 0x850001), SELECTOR),
        (Call::resolve(0x850001, 0x850003), SELECTOR),
        (Call::resolve(0x850000, 0x850000), SELECTOR),
    ]);
}

#[test]
fn the_highest_nonce_bit_is_a_role_only_where_it_is_forced() {
    // Nonces 15 and 16, and 31 and 16: 01's slip is to read T4 where M/S is 0.
    assert_answers(&[
        (Call::resolve(0x8F0001, 0x900001), settled(2, false)),
        (Call::resolve(0x9F0001, 0x900001), settled(2, true)),
        (Call::resolve(0x8F1001, 0x800001), settled(2, false)),
        (Call::resolve(0x901001, 0x9F0001), settled(2, true)),
        (Call::resolve(0x9F0001, 0x901001), settled(2, false)),
        (Call::resolve(0x8F1001, 0x901001), settled(2, false)),
        (Call::resolve(0x901001, 0x8F1001), settled(2, true)),
        (Call::resolve(0x901001, 0x911001), ROLES),
    ]);
}

#[test]
fn each_of_the_27_abilities_alone() {
    // The numbers of 01's row; all other abilities are ignored.
    let rates = [6, 5, 4, 3, 2, 0, 1, 9, 22];
    let calls: Vec<(Call, u64)> = (0..27)
        .map(|number| {
            let ability = 1 << (21 + number);
            let call = Call::resolve(ability | 0x050001, ability | 0x090001);
            match rates.contains(&number) {
                true => (call, settled(number, false)),
                false => (call, NONE),
            }
        })
        .collect();
    assert_answers(&calls);
}

#[test]
fn of_two_common_rates_the_one_named_first_is_taken() {
    let rates = [6, 5, 4, 3, 2, 0, 1, 9, 22];
    let mut calls = Vec::new();
    for (place, first) in rates.into_iter().enumerate() {
        for later in &rates[place..] {
            let both = 1 << (21 + first) | 1 << (21 + later);
            let call = Call::resolve(both | 0x090001, both | 0x050001);
            calls.push((call, settled(first, true)));
        }
    }
    assert_answers(&calls);
}

#[test]
fn fields_that_do_not_matter_do_not_matter() {
    // E, pause, remote fault, Ack, NP and the abilities that are no rate, bit by bit.
    let rates: u64 = [6, 5, 4, 3, 2, 0, 1, 9, 22]
        .map(|n| 1 << (21 + n))
        .iter()
        .sum();
    let that_matter = rates | 0x1F_101F;
    let others = (0..48)
        .map(|bit| 1 << bit)
        .filter(|bit| bit & that_matter == 0);
    let calls: Vec<(Call, u64)> = others
        .flat_map(|bit| {
            [
                (Call::resolve(0x850001 | bit, 0xA90001), settled(2, false)),
                (Call::resolve(0x850001, 0xA90001 | bit), settled(2, false)),
            ]
        })
        .collect();
    assert_eq!(calls.len(), 2 * (48 - 9 - 11));
    assert_answers(&calls);
}

#[test]
fn random_pairs_agree() {
    let mut random = Random::from_environment();
    let calls: Vec<Call> = (0..PAIRS).map(|_| resolve_call(&mut random)).collect();
    let mut met = Kinds::new(PAIR_KINDS);
    let mut settled_on = Tally::of(all_settlings());
    for call in &calls {
        met.count(call);
        settled_on.meet(&settling(call));
    }
    met.assert_all_met();
    settled_on.assert_all_met();
    assert_agreement(&calls);
}

/// Every rate with both roles, each with no side, one side and both sides forced.
fn all_settlings() -> Vec<String> {
    let mut names = Vec::new();
    for rate in &RATES {
        for forced in 0..4 {
            for is_master in [false, true] {
                names.push(settling_name(settled(rate.ability, is_master), forced));
            }
        }
    }
    names
}

fn settling_name(answer: u64, forced: usize) -> String {
    let whose = ["nobody", "own side", "partner", "both"][forced];
    format!("answer {answer:#x}, forced: {whose}")
}

fn settling(call: &Call) -> String {
    let [own, partner] = [0, 1].map(|side| FORCED_ROLE.is_set(call.arguments[side]));
    settling_name(answer(call), usize::from(own) + 2 * usize::from(partner))
}

const PAIR_KINDS: &[Kind<Call>] = &[
    ("wide: own", |call| {
        answer(call) == WIDE && partner(call) < TWO_TO_48
    }),
    ("wide: partner", |call| {
        answer(call) == WIDE && own(call) < TWO_TO_48
    }),
    ("wide: both", |call| {
        own(call) >= TWO_TO_48 && partner(call) >= TWO_TO_48
    }),
    ("wide, and the rest would settle", |call| {
        let narrow = calls::resolve(own(call) % TWO_TO_48, partner(call) % TWO_TO_48);
        answer(call) == WIDE && kind(narrow) == SETTLED
    }),
    ("selector: own", |call| {
        answer(call) == SELECTOR && SELECTOR_FIELD.of(partner(call)) == 1
    }),
    ("selector: partner", |call| {
        answer(call) == SELECTOR && SELECTOR_FIELD.of(own(call)) == 1
    }),
    ("tie", |call| answer(call) == TIE),
    ("tie of two forced sides", |call| {
        answer(call) == TIE && both_forced(call)
    }),
    ("no common rate", |call| answer(call) == NONE),
    ("no common rate, same forced roles", |call| {
        answer(call) == NONE && both_forced(call) && same_highest_bits(call)
    }),
    ("roles, both masters", |call| {
        answer(call) == ROLES && HIGHEST_NONCE_BIT.is_set(own(call))
    }),
    ("roles, both slaves", |call| {
        answer(call) == ROLES && !HIGHEST_NONCE_BIT.is_set(own(call))
    }),
    ("settled against the order of the nonces", |call| {
        let own_is_higher = own(call) & 0x1F_0000 > partner(call) & 0x1F_0000;
        kind(answer(call)) == SETTLED && own_is_higher != settled_as_master(answer(call))
    }),
];

fn own(call: &Call) -> u64 {
    call.arguments[0]
}

fn partner(call: &Call) -> u64 {
    call.arguments[1]
}

fn answer(call: &Call) -> u64 {
    calls::resolve(own(call), partner(call))
}

fn both_forced(call: &Call) -> bool {
    FORCED_ROLE.is_set(own(call) & partner(call))
}

fn same_highest_bits(call: &Call) -> bool {
    !HIGHEST_NONCE_BIT.is_set(own(call) ^ partner(call))
}
