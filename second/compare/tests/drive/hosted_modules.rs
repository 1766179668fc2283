//! Two modules on a wire, each with a host that has zero to four Next Pages to say: what
//! they are, what happens to them, and what must be so when they have settled.

use compare::joined::{Joined, Module, Side, LEFT, RIGHT};
use compare::next_page::{as_loaded, in_a_row, is_null, message_page, unformatted_page};
use compare::random::Random;
use reference::answer::{settled_ability, settled_as_master};
use reference::device::{Round, State};
use reference::resolve::{COMMON_INHIBIT, RATES};
use reference::word::{ability, FORCED_ROLE, HIGHEST_NONCE_BIT};
use std::collections::BTreeSet;

const MICROSECOND: u64 = 1000;
const MILLISECOND: u64 = 1_000_000;

/// A host has at most so many pages to say.
pub const MOST_PAGES: usize = 4;

/// Two ends can send one another to Break by turns, and one end can wait for a link that
/// never comes, so this is long.
const TIME_TO_SETTLE: u64 = 600 * MILLISECOND;

/// In this time both hosts have read what there was last.
const TIME_TO_READ: u64 = 3 * MILLISECOND;

/// The lowest of the abilities A11 to A21, of which no rate is one. They have the number of
/// the head, so that its base page can be told from that of any other.
const HEAD_NUMBER: u32 = 32;

/// The advertised bits of a forced role.
const SLAVE: u64 = FORCED_ROLE.ones();
const MASTER: u64 = FORCED_ROLE.ones() | HIGHEST_NONCE_BIT.ones();

/// The advertised bits of pause and remote fault. Pause C1 is where a Next Page has its toggle.
const OTHER_FIELDS: u64 = 0x2C00;

/// What a device is at: its state, and where pages are exchanged the round too.
pub type Place = (State, Option<Round>);

pub const PLACES: [Place; 11] = [
    (State::Off, None),
    (State::Break, None),
    (State::Ability, Some(Round::Base)),
    (State::Ability, Some(Round::First)),
    (State::Ability, Some(Round::Later)),
    (State::Ack, Some(Round::Base)),
    (State::Ack, Some(Round::Later)),
    (State::Complete, Some(Round::Base)),
    (State::Complete, Some(Round::Later)),
    (State::CheckLink, None),
    (State::Up, None),
];

fn place(side: &Side) -> Place {
    let state = side.state();
    let has_round = matches!(state, State::Ability | State::Ack | State::Complete);
    (state, has_round.then(|| side.history.device.round()))
}

pub fn name((state, round): Place) -> String {
    match round {
        Some(round) => format!("{state:?}, round {round:?}"),
        None => format!("{state:?}"),
    }
}

#[derive(Clone, Copy, Debug, PartialEq)]
pub enum Disturbance {
    /// Someone restarts the device by its register, and its host is not told.
    Restart,
    /// A new device and a new host take the place of the old ones.
    Swap,
}

pub const DISTURBANCES: [Disturbance; 2] = [Disturbance::Restart, Disturbance::Swap];

pub struct HostedModules {
    pub joined: Joined,
    random: Random,
    heads: u64,
    /// The pages that some head has, so that no two have the same.
    pages: BTreeSet<u64>,
    lateness: u64,
    /// Where the disturbances have met the modules.
    pub disturbed: Vec<String>,
}

impl HostedModules {
    /// Their hosts are not late, or at most so late. They have so many pages to say.
    pub fn new(random: &mut Random, lateness: u64, numbers: [usize; 2]) -> HostedModules {
        let mut modules = HostedModules {
            joined: Joined::new(Random::new(random.any_number())),
            random: Random::new(random.any_number()),
            heads: 0,
            pages: BTreeSet::new(),
            lateness,
            disturbed: Vec::new(),
        };
        let left = modules.module(numbers[LEFT], None);
        let right = modules.module(numbers[RIGHT], Some(left.advertised));
        modules.joined.put_in_both(&left, &right);
        modules
    }

    /// A module that no other is like, with a host that has so many pages to say. It can
    /// settle with one that advertises the other word.
    fn module(&mut self, pages: usize, other: Option<u64>) -> Module {
        self.heads += 1;
        let number = self.heads << HEAD_NUMBER;
        let rates_and_role = self.rates(other) | self.role(other);
        let fields = self.random.any_number() & OTHER_FIELDS;
        let pages = (0..pages).map(|place| self.page(place)).collect();
        let lateness = self.random.pick(&[0, self.lateness]);
        let advertised = rates_and_role | fields | number;
        Module::with_host(advertised, &in_a_row(pages), lateness)
    }

    /// Rates with the usual time for the link: runs with a longer one would be too long.
    fn rates(&mut self, other: Option<u64>) -> u64 {
        let usual = RATES.iter().filter(|rate| rate.inhibit == COMMON_INHIBIT);
        let rates: Vec<u64> = usual.map(|rate| ability(rate.ability).ones()).collect();
        let all: u64 = rates.iter().sum();
        let some = self.random.any_number() & all;
        let one = self.random.pick(&rates);
        some | other.map_or(one, |other| other & all)
    }

    fn role(&mut self, other: Option<u64>) -> u64 {
        let roles = match other.map(|other| other & MASTER) {
            Some(MASTER) => [0, SLAVE],
            Some(SLAVE) => [0, MASTER],
            _ => [SLAVE, MASTER],
        };
        self.random.pick(&[0, roles[0], roles[1]])
    }

    /// A page that no head has had. The first one of a host is a message, and often has
    /// zeros in D16-47, so that 521 and 522 are as Break leaves them.
    fn page(&mut self, place: usize) -> u64 {
        loop {
            let random = &mut self.random;
            let bits = random.any_number() & random.pick(&[0, u64::MAX]);
            let is_message = place == 0 || random.once_in(2);
            let page = match is_message {
                true => message_page(2 + random.below(2046), bits),
                false => unformatted_page(bits),
            };
            if self.pages.insert(page) {
                let ack_2 = random.below(2) << 12;
                return page | ack_2;
            }
        }
    }

    /// Waits until both are up, and holds them to what must be so then.
    pub fn settle(&mut self) {
        let both_up = |joined: &Joined| joined.both_are(State::Up);
        let have_settled = self.joined.run_until(TIME_TO_SETTLE, both_up);
        assert!(have_settled, "they do not settle");
        self.joined.run_for(TIME_TO_READ);
        assert!(self.joined.both_are(State::Up), "they do not stay up");
        self.assert_settled_alike();
        self.assert_told();
    }

    /// Both are on the same rate, in opposite roles.
    fn assert_settled_alike(&self) {
        let settled = self.joined.sides.each_ref().map(|side| side.settled);
        let [left, right] = settled.map(|answer| answer.expect("it has settled"));
        assert_eq!(settled_ability(left), settled_ability(right), "the rates");
        let are_masters = [left, right].map(settled_as_master);
        assert_ne!(are_masters[LEFT], are_masters[RIGHT], "the roles");
    }

    /// Each host has read the pages of the other, in order, and no others but Null messages.
    fn assert_told(&self) {
        for side in [LEFT, RIGHT] {
            let heard = self.joined.sides[1 - side].host().heard().iter();
            let pages = heard.filter(|page| !is_null(**page));
            let pages: Vec<u64> = pages.map(|page| as_loaded(*page)).collect();
            let told = self.joined.sides[side].module().pages();
            assert!(pages == told, "told {told:x?}, heard {pages:x?}");
        }
    }

    /// Waits until the watched side is at the place, or both are up, and often a little
    /// longer. Then the disturbance happens to this side.
    pub fn disturb(&mut self, what: Disturbance, side: usize, watched: usize, wanted: Place) {
        let is_time =
            |joined: &Joined| place(&joined.sides[watched]) == wanted || joined.both_are(State::Up);
        let has_come = self.joined.run_until(TIME_TO_SETTLE, is_time);
        assert!(has_come, "never at {}", name(wanted));
        let most = self.random.pick(&[0, 0, 50, 400]) * MICROSECOND;
        let later = self.random.below(most + 1);
        self.joined.run_for(later);
        self.note(what, side);
        match what {
            Disturbance::Restart => self.joined.restart(side),
            Disturbance::Swap => self.swap(side),
        }
        // What was planned for now happens now.
        self.joined.run_for(0);
    }

    fn note(&mut self, what: Disturbance, side: usize) {
        let [this, other] = [side, 1 - side].map(|side| name(place(&self.joined.sides[side])));
        let notes = [
            format!("{what:?} in {this}"),
            format!("{what:?} with the other in {other}"),
        ];
        self.disturbed.extend(notes);
    }

    fn swap(&mut self, side: usize) {
        let stays = self.joined.sides[1 - side].module().advertised;
        let number = self.random.below(MOST_PAGES as u64 + 1) as usize;
        let newcomer = self.module(number, Some(stays));
        let later = self.random.below(MILLISECOND);
        self.joined.swap_head(later, side, &newcomer);
    }
}
