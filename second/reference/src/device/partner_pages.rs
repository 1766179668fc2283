//! What a device does with a good page of its partner.

use super::{Device, Mark, Round, State, SILENT_TIME};
use crate::answer;
use crate::word::{ACK, ECHOED_NONCE, NONCE, OUR_SELECTOR, REMOTE_FAULT, SELECTOR, TOGGLE};

impl Device {
    /// The partner's page that counts in this round.
    pub fn held_page(&self) -> u64 {
        match self.negotiation.round {
            Round::Base | Round::First => self.negotiation.held_base_page,
            Round::Later => self.negotiation.held_next_page,
        }
    }

    pub(super) fn good_page(&mut self, now: u32, word: u64) -> u64 {
        match self.refusal_of_page(word) {
            None => self.take_page(now, word),
            Some(answer::SELECTOR) => answer::SELECTOR,
            Some(refusal) => {
                self.enter_break(now);
                refusal
            }
        }
    }

    /// The first reason to refuse the page, in 01's order. Complete has none, since it
    /// does not look at what a page says.
    fn refusal_of_page(&self, word: u64) -> Option<u64> {
        let is_base = self.negotiation.round == Round::Base;
        match self.state {
            State::Ability if is_base => self.refusal_of_a_first_base_page(word),
            State::Ack if is_base => self.refusal_of_a_further_base_page(word),
            State::Ability => self.refusal_of_a_first_next_page(word),
            State::Ack => self.refusal_of_a_further_next_page(word),
            _ => None,
        }
    }

    fn refusal_of_a_first_base_page(&self, word: u64) -> Option<u64> {
        if SELECTOR.of(word) != OUR_SELECTOR {
            return Some(answer::SELECTOR);
        }
        let is_tie = NONCE.of(word) == NONCE.of(self.own_page());
        is_tie.then_some(answer::TIE)
    }

    fn refusal_of_a_further_base_page(&self, word: u64) -> Option<u64> {
        if self.differs_beyond(ACK.ones() | ECHOED_NONCE.ones(), word) {
            return Some(answer::CHANGED);
        }
        let own_nonce = NONCE.of(self.own_page());
        let echoes_another = ACK.is_set(word) && ECHOED_NONCE.of(word) != own_nonce;
        echoes_another.then_some(answer::ECHO)
    }

    fn refusal_of_a_first_next_page(&self, word: u64) -> Option<u64> {
        let has_same_toggle = TOGGLE.of(word) == TOGGLE.of(self.held_page());
        let is_refused = has_same_toggle && !self.repeats_the_held_page(word);
        is_refused.then_some(answer::TOGGLE)
    }

    fn refusal_of_a_further_next_page(&self, word: u64) -> Option<u64> {
        let is_another = self.differs_beyond(ACK.ones(), word);
        is_another.then_some(answer::CHANGED)
    }

    /// Whether the partner still sends the page that is held, in Ability with an own Next
    /// Page. At round first that is its base page, which has an echo.
    fn repeats_the_held_page(&self, word: u64) -> bool {
        let may_differ = match self.negotiation.round {
            Round::Later => ACK.ones(),
            Round::Base | Round::First => ACK.ones() | ECHOED_NONCE.ones(),
        };
        !self.differs_beyond(may_differ, word)
    }

    fn differs_beyond(&self, may_differ: u64, word: u64) -> bool {
        (word ^ self.held_page()) & !may_differ != 0
    }

    fn take_page(&mut self, now: u32, word: u64) -> u64 {
        self.negotiation.last_good_page_at = now;
        self.mark = Mark {
            set_at: now,
            has_to_run: SILENT_TIME,
        };
        match self.state {
            State::Ability => self.take_first_page(word),
            State::Ack if ACK.is_set(word) => self.take_acknowledging_page(word),
            _ => {}
        }
        answer::good(word)
    }

    fn take_first_page(&mut self, word: u64) {
        if self.negotiation.round == Round::Base {
            self.negotiation.held_base_page = word;
        } else if self.repeats_the_held_page(word) {
            // It is no new page.
            return;
        } else {
            self.negotiation.held_next_page = word;
            self.negotiation.round = Round::Later;
        }
        self.state = State::Ack;
    }

    fn take_acknowledging_page(&mut self, word: u64) {
        if self.negotiation.round == Round::Base {
            self.negotiation.partner_page = word;
            self.remote_fault |= REMOTE_FAULT.is_set(word);
        } else {
            self.negotiation.partner_next_page = word;
        }
        self.negotiation.pages_sent = 0;
        self.page_received = true;
        self.state = State::Complete;
    }
}
