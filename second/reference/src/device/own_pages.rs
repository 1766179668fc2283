//! The pages that a device sends.

use super::{Device, Round, State};
use crate::word::{
    ACK, ECHOED_NONCE, FORCED_ROLE, HIGHEST_NONCE_BIT, NEXT_PAGE, NONCE, NULL_MESSAGE,
    OUR_SELECTOR, SELECTOR, TOGGLE,
};

impl Device {
    /// The page that is sent in this round.
    pub fn own_page(&self) -> u64 {
        match self.negotiation.round {
            Round::Base => self.negotiation.own_base_page,
            Round::First | Round::Later => self.negotiation.own_next_page,
        }
    }

    /// The own page. Once a page of this round is held, it acknowledges that one; only a
    /// base page has a place for the nonce of the held one.
    pub(super) fn page_for_the_line(&self) -> u64 {
        let own = self.own_page();
        match (self.state, self.negotiation.round) {
            (State::Ability, _) => own,
            (_, Round::Base) => {
                let held_nonce = NONCE.of(self.held_page());
                ACK.put(ECHOED_NONCE.put(own, held_nonce), 1)
            }
            _ => ACK.put(own, 1),
        }
    }

    /// Whether the own page or the held one says that another follows.
    pub(super) fn either_end_has_more(&self) -> bool {
        NEXT_PAGE.is_set(self.own_page()) || NEXT_PAGE.is_set(self.held_page())
    }

    /// The Next Page to send after the own page: the one that is loaded, which is then
    /// loaded no more, or the Null message. There is none if the own page has promised one
    /// and it is not loaded yet.
    pub(super) fn take_next_page_to_send(&mut self) -> Option<u64> {
        let own = self.own_page();
        let word = match self.negotiation.is_loaded {
            true => self.negotiation.next_page_to_send,
            false if NEXT_PAGE.is_set(own) => return None,
            false => NULL_MESSAGE,
        };
        self.negotiation.is_loaded = false;
        let other_toggle = 1 - TOGGLE.of(own);
        Some(TOGGLE.put(ACK.put(word, 0), other_toggle))
    }
}

/// The own page at round base: the advertisement with a drawn nonce, of which the highest
/// bit stays as advertised if the role is forced.
pub(super) fn base_page(advertised: u64, draw: u64, has_next_pages: bool) -> u64 {
    let drawn = NONCE.put(advertised, draw);
    let with_nonce = match FORCED_ROLE.is_set(advertised) {
        true => HIGHEST_NONCE_BIT.put(drawn, HIGHEST_NONCE_BIT.of(advertised)),
        false => drawn,
    };
    let others = [
        (SELECTOR, OUR_SELECTOR),
        (ECHOED_NONCE, 0),
        (ACK, 0),
        (NEXT_PAGE, has_next_pages.into()),
    ];
    others
        .into_iter()
        .fold(with_nonce, |word, (field, value)| field.put(word, value))
}
