//! The negotiation of one port: a device that takes one event after the other.

mod listening;
mod own_pages;
mod partner_pages;
pub mod registers;
#[cfg(test)]
mod tests;

use crate::answer;
use crate::event::Event;
use crate::gap::time_between;
use crate::reader::Outcome;
use crate::resolve::{resolve, Settled, COMMON_INHIBIT};
use listening::Heard;

/// The numbers of the timers, in nanoseconds.
pub const BREAK_TIME: u32 = 8_000_000;
pub const SILENT_TIME: u32 = 33_000;
pub const WAIT_TIME: u32 = 350_000;
pub const LOST_TIME: u32 = 4_000_000;

/// So many pages are sent in Complete before it is decided how to go on.
const PAGES_IN_COMPLETE: u32 = 3;

#[derive(Clone, Copy, Debug, Default, PartialEq)]
pub enum State {
    #[default]
    Off,
    Break,
    Ability,
    Ack,
    Complete,
    CheckLink,
    Up,
}

pub const STATES: [State; 7] = [
    State::Off,
    State::Break,
    State::Ability,
    State::Ack,
    State::Complete,
    State::CheckLink,
    State::Up,
];

/// Which pages the two ends exchange.
#[derive(Clone, Copy, Debug, Default, PartialEq)]
pub enum Round {
    /// The base pages.
    #[default]
    Base,
    /// The first own Next Page is sent, and the partner's base page is still the held one.
    First,
    /// Next Pages at both ends.
    Later,
}

pub const ROUNDS: [Round; 3] = [Round::Base, Round::First, Round::Later];

/// A time that has to run before the next page is ordered: silent since a page was heard,
/// or wait since the device began to wait.
#[derive(Clone, Copy, Debug, Default)]
struct Mark {
    set_at: u32,
    has_to_run: u32,
}

/// All that entering Break or Off forgets.
#[derive(Clone, Debug, Default)]
struct Negotiation {
    heard: Heard,
    round: Round,
    own_base_page: u64,
    held_base_page: u64,
    own_next_page: u64,
    held_next_page: u64,
    page_is_out: bool,
    /// The pages sent in Complete, of which no more than those that it asks for count.
    pages_sent: u32,
    settled: Option<Settled>,
    /// What 517 to 519 hold.
    partner_page: u64,
    /// What 520 to 522 hold.
    next_page_to_send: u64,
    /// Whether 520 was written since the last Next Page was taken from there.
    is_loaded: bool,
    /// What 523 to 525 hold.
    partner_next_page: u64,
    /// The reading of the last good page, or of the entry into Break.
    last_good_page_at: u32,
    link_latch: bool,
}

#[derive(Clone, Debug, Default)]
pub struct Device {
    state: State,
    /// What 514 to 516 hold.
    advertised: u64,
    page_received: bool,
    remote_fault: bool,
    negotiation: Negotiation,
    mark: Mark,
    /// When Break, or Check-link, was entered.
    timer_set_at: u32,
}

impl Device {
    pub fn fresh() -> Device {
        Device::default()
    }

    /// Takes an event at this clock reading and gives the answer.
    pub fn step(&mut self, now: u32, event: Event) -> u64 {
        match event {
            Event::Edge => self.edge(now),
            Event::Tick { draw } => self.tick(now, draw),
            Event::Sent => self.sent(now),
            Event::Link { is_up } => self.link(now, is_up),
            Event::Read { register } => self.read(register),
            Event::Write { register, value } => self.write(now, register, value),
        }
    }

    fn edge(&mut self, now: u32) -> u64 {
        if !self.exchanges_pages() || self.negotiation.page_is_out {
            return answer::NOTHING;
        }
        match self.negotiation.heard.take(now) {
            None => answer::NOTHING,
            Some(Outcome::Good(word)) => self.good_page(now, word),
            Some(bad) => bad.answer(),
        }
    }

    fn tick(&mut self, now: u32, draw: u64) -> u64 {
        match self.state {
            State::Break if self.timer_has_run(now, BREAK_TIME) => self.leave_break(now, draw),
            State::CheckLink if self.timer_has_run(now, self.inhibit()) => self.enter_break(now),
            State::Ability | State::Ack | State::Complete if self.partner_is_lost(now) => {
                self.enter_break(now)
            }
            State::Ability | State::Ack | State::Complete => return self.order_if_due(now),
            _ => {}
        }
        answer::NOTHING
    }

    fn timer_has_run(&self, now: u32, number: u32) -> bool {
        time_between(self.timer_set_at, now) >= number
    }

    fn inhibit(&self) -> u32 {
        let settled = self.negotiation.settled;
        settled.map_or(COMMON_INHIBIT, |settled| settled.rate.inhibit)
    }

    /// Whether the partner has fallen silent while Next Pages are exchanged. It is not
    /// asked while a page is out, since then the device does not listen.
    fn partner_is_lost(&self, now: u32) -> bool {
        let silent_for = time_between(self.negotiation.last_good_page_at, now);
        let may_be_lost = self.negotiation.round != Round::Base && !self.negotiation.page_is_out;
        may_be_lost && silent_for >= LOST_TIME
    }

    fn leave_break(&mut self, now: u32, draw: u64) {
        let has_next_pages = self.negotiation.is_loaded;
        self.negotiation.own_base_page =
            own_pages::base_page(self.advertised, draw, has_next_pages);
        self.negotiation.heard = Heard::default();
        self.wait_from(now);
        self.state = State::Ability;
    }

    fn order_if_due(&mut self, now: u32) -> u64 {
        let has_run = time_between(self.mark.set_at, now) >= self.mark.has_to_run;
        if !has_run || self.is_in_an_attempt(now) || self.negotiation.page_is_out {
            return answer::NOTHING;
        }
        self.negotiation.page_is_out = true;
        answer::ordered(self.page_for_the_line())
    }

    fn sent(&mut self, now: u32) -> u64 {
        let is_none_out = !self.negotiation.page_is_out;
        if is_none_out || matches!(self.state, State::Off | State::Break) {
            return answer::TURN;
        }
        self.negotiation.page_is_out = false;
        self.wait_from(now);
        if self.state != State::Complete {
            return answer::NOTHING;
        }
        let sent_by_now = self.negotiation.pages_sent + 1;
        self.negotiation.pages_sent = sent_by_now.min(PAGES_IN_COMPLETE);
        if sent_by_now < PAGES_IN_COMPLETE {
            return answer::NOTHING;
        }
        self.decide_how_to_go_on(now)
    }

    /// The pages of this round are exchanged. Either no end has more to send, or there is
    /// a new own Next Page, or the device goes on sending the one that it has.
    fn decide_how_to_go_on(&mut self, now: u32) -> u64 {
        if !self.either_end_has_more() {
            return self.enter_check_link(now);
        }
        if let Some(word) = self.take_next_page_to_send() {
            self.negotiation.own_next_page = word;
            if self.negotiation.round == Round::Base {
                self.negotiation.round = Round::First;
            }
            self.state = State::Ability;
        }
        answer::NOTHING
    }

    fn enter_check_link(&mut self, now: u32) -> u64 {
        let Negotiation {
            own_base_page,
            held_base_page,
            ..
        } = self.negotiation;
        let outcome = resolve(own_base_page, held_base_page);
        self.negotiation.settled = outcome.ok();
        self.timer_set_at = now;
        self.state = State::CheckLink;
        outcome.map_or_else(|refusal| refusal, Settled::answer)
    }

    fn link(&mut self, now: u32, is_up: bool) -> u64 {
        let has_a_rate = self.negotiation.settled.is_some();
        match self.state {
            State::CheckLink if is_up && has_a_rate => self.state = State::Up,
            State::Up if !is_up => self.enter_break(now),
            _ => {}
        }
        answer::NOTHING
    }

    fn enter_break(&mut self, now: u32) {
        self.negotiation = Negotiation {
            last_good_page_at: now,
            ..Negotiation::default()
        };
        self.timer_set_at = now;
        self.state = State::Break;
    }

    fn enter_off(&mut self) {
        self.negotiation = Negotiation::default();
        self.state = State::Off;
    }

    fn wait_from(&mut self, now: u32) {
        self.mark = Mark {
            set_at: now,
            has_to_run: WAIT_TIME,
        };
    }

    fn is_on(&self) -> bool {
        self.state != State::Off
    }

    /// Whether the device is in a state that listens and orders pages.
    fn exchanges_pages(&self) -> bool {
        matches!(self.state, State::Ability | State::Ack | State::Complete)
    }
}

/// What those who choose the next event want to know. A device tells no caller this.
impl Device {
    pub fn state(&self) -> State {
        self.state
    }

    pub fn round(&self) -> Round {
        self.negotiation.round
    }

    pub fn page_is_out(&self) -> bool {
        self.negotiation.page_is_out
    }

    /// Whether an attempt is open whose last edge is less than the quiet limit old.
    pub fn is_in_an_attempt(&self, now: u32) -> bool {
        self.negotiation.heard.is_in_an_attempt(now)
    }

    /// Whether a Next Page is loaded that was not sent yet.
    pub fn is_loaded(&self) -> bool {
        self.negotiation.is_loaded
    }

    /// Whether Complete has sent all the pages that it asks for and goes on sending, since
    /// there is no new Next Page.
    pub fn is_holding(&self) -> bool {
        self.state == State::Complete && self.negotiation.pages_sent == PAGES_IN_COMPLETE
    }

    /// The reading at which the time that matters in this state has just run out, if
    /// there is such a time.
    pub fn time_runs_out_at(&self) -> Option<u32> {
        let (set_at, number) = match self.state {
            State::Off | State::Up => return None,
            State::Break => (self.timer_set_at, BREAK_TIME),
            State::CheckLink => (self.timer_set_at, self.inhibit()),
            _ => (self.mark.set_at, self.mark.has_to_run),
        };
        Some(set_at.wrapping_add(number))
    }

    /// The reading at which the partner is lost if no page is heard before, where that
    /// is looked at.
    pub fn lost_at(&self) -> Option<u32> {
        let is_looked_at = self.exchanges_pages() && self.round() != Round::Base;
        is_looked_at.then(|| self.negotiation.last_good_page_at.wrapping_add(LOST_TIME))
    }
}
