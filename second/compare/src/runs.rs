//! Random runs of a device: rows of events that really lead through all its states.
//!
//! Events drawn blindly would stay in Break for ever. So the next event is chosen by what
//! a device of the reference would do with it: mostly a sensible one, sometimes one that
//! is wrong in this state, late, early or senseless.

use crate::captures::{damaged_page_gaps, page_gaps};
use crate::event::{self, EventCells, EDGE, LINK, READ, SENT, TICK, WRITE};
use crate::history::History;
use crate::random::Random;
use crate::words;
use reference::device::registers::{CONTROL, ENABLE, OWN_NEXT_PAGE, RESET, RESTART, STATUS};
use reference::device::{Round, State};
use reference::line_mode::LSM;
use reference::word::{ACK, ECHOED_NONCE, NONCE};

/// No timer's number is larger. A time left that is longer has run out already.
const LONGEST_TIME: u32 = 3_060_000_000;

/// A run in the making.
pub struct Run<'a> {
    pub history: History,
    random: &'a mut Random,
    now: u32,
    most_events: usize,
    /// Whether the bits that are not looked at are set at random.
    is_wide: bool,
    /// Whether little happens that does not lead on, so that the run leads far.
    is_calm: bool,
}

/// A random run of exactly so many events.
pub fn random_run(random: &mut Random, events: usize) -> History {
    let mut run = Run::new(random, events);
    while run.history.steps.len() < events {
        run.next();
    }
    run.history
}

impl Run<'_> {
    /// Events past the most are left out.
    pub fn new(random: &mut Random, most_events: usize) -> Run<'_> {
        let near_the_end = u32::MAX - random.below(9_000_000) as u32;
        let now = match random.below(3) {
            0 => near_the_end,
            1 => random.any_number() as u32,
            _ => 0,
        };
        let is_wide = random.once_in(4);
        let is_calm = random.once_in(2);
        Run {
            history: History::default(),
            random,
            now,
            most_events,
            is_wide,
            is_calm,
        }
    }

    /// A run that goes on where this one ended.
    pub fn after(random: &mut Random, history: History, most_events: usize) -> Run<'_> {
        let last = history.steps.last().map_or(0, |step| step.event[1]);
        Run {
            history,
            now: last as u32,
            ..Run::new(random, most_events)
        }
    }

    pub fn state(&self) -> State {
        self.history.device.state()
    }

    pub fn now(&self) -> u32 {
        self.now
    }

    /// The nonce of the page that the device sends in this round.
    pub fn own_nonce(&self) -> u64 {
        NONCE.of(self.history.device.own_page())
    }

    /// Gives the device an event now.
    pub fn give(&mut self, kind: u64, argument: u64) {
        if self.history.steps.len() < self.most_events {
            let event = [kind, self.now.into(), argument];
            let event = self.with_unused_bits(event);
            self.history.give(event);
        }
    }

    fn with_unused_bits(&mut self, event: EventCells) -> EventCells {
        if !self.is_wide {
            return event;
        }
        let [kind, reading, argument] = event;
        let any = self.random.any_number();
        let argument = match kind {
            EDGE | SENT => any,
            TICK => argument % 32 + (any << 5),
            LINK if argument != 0 => any | 1 << 40,
            _ => argument,
        };
        [kind, reading | any << 32, argument]
    }

    fn pass(&mut self, time: u32) {
        self.now = self.now.wrapping_add(time);
    }

    /// Lets up to so much time pass.
    fn pass_up_to(&mut self, most: u64) {
        let time = self.random.below(most) as u32;
        self.pass(time);
    }

    pub fn write(&mut self, register: u64, value: u16) {
        self.give(WRITE, register << 16 | u64::from(value));
    }

    pub fn advertise(&mut self, word: u64) {
        for (register, value) in event::advertising(word) {
            self.write(register, value);
        }
    }

    /// A sensible event most times, else any other.
    pub fn next(&mut self) {
        if self.is_calm && !self.random.once_in(4) {
            return self.go_on();
        }
        match self.random.below(40) {
            0..=24 => self.go_on(),
            25..=27 => self.stray_events(),
            28 | 29 => self.use_registers(),
            30 | 31 => self.tick_near_the_time(),
            32 | 33 => self.wrong_page(),
            34 => self.stray_edges(),
            35 => self.read_status(),
            36 if self.random.once_in(2) => self.write_control(),
            37 if self.random.once_in(4) => self.jump(),
            37 | 38 => self.tick_near_lost(),
            39 => self.load_any_next_page(),
            _ => self.pass_up_to(50_000),
        }
    }

    /// What brings the device on towards Up, and from there back to Break.
    pub fn go_on(&mut self) {
        match self.state() {
            State::Off if self.random.once_in(3) => self.use_registers(),
            State::Off if self.random.once_in(6) => self.go_off_once_more(),
            State::Off => self.enable(),
            State::Ability if self.is_at_round_later() && self.random.once_in(8) => self.linger(),
            State::Ability | State::Ack if self.history.device.page_is_out() => self.send(),
            State::Ability | State::Ack => self.order_or_hear(),
            State::Complete if self.history.device.page_is_out() => self.send(),
            State::Complete if self.history.device.is_holding() => self.go_on_in_the_hold(),
            State::Break if self.random.once_in(3) => self.load_any_next_page(),
            State::Break | State::Complete => self.tick_when_due(),
            State::CheckLink if self.random.once_in(5) => self.tick_when_due(),
            State::CheckLink if self.random.once_in(4) => self.linger(),
            State::CheckLink => self.report_link(true),
            State::Up if self.random.once_in(2) => self.linger(),
            State::Up => self.report_link(false),
        }
    }

    /// Going off forgets what was loaded, also where the device is off.
    fn go_off_once_more(&mut self) {
        self.load_any_next_page();
        let restart = self.random.pick(&[0, RESTART]);
        self.write(CONTROL, restart);
        for register in OWN_NEXT_PAGE {
            self.give(READ, register);
        }
    }

    fn is_at_round_later(&self) -> bool {
        self.history.device.round() == Round::Later
    }

    /// What would hardly happen in a state that is soon left.
    fn linger(&mut self) {
        match self.random.below(8) {
            0 => self.write_control(),
            1..=3 => self.use_registers(),
            4 => self.tick_near_lost(),
            _ => self.stray_events(),
        }
    }

    /// Goes on until the device is in this state, at this round if one is named. The
    /// advertisement must have a rate.
    pub fn go_on_to(&mut self, state: State, round: Option<Round>) {
        while !self.is_in(state, round) {
            self.go_on();
        }
    }

    pub fn is_in(&self, state: State, round: Option<Round>) -> bool {
        let is_this_round = |round| self.history.device.round() == round;
        self.state() == state && round.is_none_or(is_this_round)
    }

    /// The device waits for another Next Page to be loaded. It sends its page once more,
    /// or hears the partner's, so that it does not take the partner for lost.
    fn go_on_in_the_hold(&mut self) {
        match self.random.below(4) {
            0 => self.load_any_next_page(),
            1 => {
                let word = self.right_page();
                self.hear_page(word);
            }
            _ => self.tick_when_due(),
        }
    }

    fn load_any_next_page(&mut self) {
        let word = words::next_page(self.random);
        self.load(word);
    }

    /// Writes a Next Page into its registers, sometimes not all of it, or in another order.
    fn load(&mut self, word: u64) {
        let mut writes = event::loading(word);
        match self.random.below(6) {
            0 => writes.reverse(),
            1 => return self.write(writes[2].0, writes[2].1),
            _ => {}
        }
        for (register, value) in writes {
            self.write(register, value);
        }
    }

    fn enable(&mut self) {
        if !self.random.once_in(6) {
            let word = words::advertisement(self.random);
            self.advertise(word);
        }
        let restart = self.random.pick(&[0, 0, RESTART]);
        self.write(CONTROL, ENABLE | restart);
    }

    pub fn send(&mut self) {
        match self.random.below(4) {
            0 => self.pass_up_to(400_000),
            1 => self.stray_edges(),
            _ => self.pass(124_800),
        }
        self.give(SENT, 0);
    }

    fn order_or_hear(&mut self) {
        if self.random.once_in(4) {
            return self.tick_when_due();
        }
        let word = self.right_page();
        self.hear_page(word);
    }

    fn report_link(&mut self, is_up: bool) {
        if self.random.once_in(2) {
            self.read_status();
        }
        self.pass_up_to(3_000_000);
        self.give(LINK, is_up.into());
    }

    /// A tick at the reading at which the time has run out, or some time later.
    pub fn tick_when_due(&mut self) {
        let left = self.time_left();
        if left <= LONGEST_TIME {
            self.pass(left);
        }
        if self.random.once_in(4) {
            self.pass_up_to(30_000);
        }
        self.tick();
    }

    /// Ticks just before, exactly at and just after the reading at which the time has
    /// run out, or only some of them.
    fn tick_near_the_time(&mut self) {
        let left = self.time_left();
        if left == 0 || left > LONGEST_TIME {
            return self.tick();
        }
        let before = self.random.below(3.min(left.into())) as u32;
        self.pass(left - before);
        let between = 1 + self.random.below(2) as u32;
        for _ in 0..=self.random.below(3) {
            self.tick();
            self.pass(between);
        }
    }

    /// Ticks just before, exactly at and just after the reading at which the partner is
    /// lost, or only one of them: a tick before it may order a page, and then it is not
    /// looked at.
    fn tick_near_lost(&mut self) {
        let Some(lost_at) = self.history.device.lost_at() else {
            return;
        };
        if self.history.device.page_is_out() && self.random.once_in(2) {
            self.give(SENT, 0);
        }
        let before = self.random.pick(&[2, 1, 0, 0, u32::MAX]);
        self.now = lost_at.wrapping_sub(before);
        for _ in 0..=self.random.below(3) {
            self.tick();
            self.pass(1);
        }
    }

    /// A tick that finds the partner lost, at the first reading at which it is or some time
    /// later. That must be looked at where the device is.
    pub fn tick_when_lost(&mut self) {
        let lost_at = self.history.device.lost_at();
        self.now = lost_at.expect("the partner can be lost here");
        if self.random.once_in(2) {
            self.pass_up_to(100_000);
        }
        self.tick();
    }

    /// How long the time that matters in this state still has to run.
    fn time_left(&self) -> u32 {
        let runs_out_at = self.history.device.time_runs_out_at();
        runs_out_at.map_or(0, |reading| reading.wrapping_sub(self.now))
    }

    fn tick(&mut self) {
        let draw = self.random.below(64);
        self.give(TICK, draw);
    }

    /// Edges with these gaps, after a gap that is mostly quiet. A tick or a read may come
    /// between two of them.
    fn hear(&mut self, gaps: &[u32]) {
        let before = match self.random.below(12) {
            0 => self.random.below(3441) as u32,
            1 | 2 => LSM.quiet_limit,
            _ => LSM.quiet_limit + self.random.below(20_000) as u32,
        };
        self.pass(before);
        self.give(EDGE, 0);
        for gap in gaps {
            if self.random.once_in(60) {
                self.disturb(*gap);
            } else {
                self.pass(*gap);
            }
            self.give(EDGE, 0);
        }
    }

    /// Something that happens within a gap and does not concern the line.
    fn disturb(&mut self, gap: u32) {
        let before = self.random.below(u64::from(gap) + 1) as u32;
        self.pass(before);
        match self.random.below(3) {
            0 => self.read_status(),
            _ => self.tick(),
        }
        self.pass(gap - before);
    }

    /// The page that the partner would send in this state.
    pub fn right_page(&mut self) -> u64 {
        let own = self.history.device.own_page();
        let held = self.history.device.held_page();
        let is_base = self.history.device.round() == Round::Base;
        match self.state() {
            State::Ack if self.random.once_in(6) => held,
            State::Ack if is_base => ACK.put(ECHOED_NONCE.put(held, NONCE.of(own)), 1),
            State::Ack => ACK.put(held, 1),
            _ if is_base => words::first_page(self.random, own),
            _ if self.random.once_in(4) => words::repeated_page(self.random, held),
            _ => words::new_next_page(self.random, held),
        }
    }

    /// A page that the partner would not send in this state, or a damaged one.
    fn wrong_page(&mut self) {
        if !matches!(self.state(), State::Ability | State::Ack | State::Complete) {
            return self.stray_edges();
        }
        let right = self.right_page();
        if self.random.once_in(3) {
            let gaps = damaged_page_gaps(self.random, &LSM, right);
            return self.hear(&gaps);
        }
        let device = &self.history.device;
        let word = match device.round() {
            Round::Base => words::wrong_page(self.random, right, device.own_page()),
            Round::First | Round::Later => words::wrong_next_page(self.random, device.held_page()),
        };
        self.hear_page(word);
    }

    /// A page with each gap somewhere in its window.
    pub fn hear_page(&mut self, word: u64) {
        let gaps = page_gaps(self.random, &LSM, word);
        self.hear(&gaps);
    }

    /// Loads a Next Page and lets the device hear half a page, or one of them, or neither.
    /// While a page is out the device hears nothing.
    pub fn leave_traces(&mut self) {
        if !self.random.once_in(3) {
            self.load_any_next_page();
        }
        if !self.random.once_in(3) {
            let word = self.right_page();
            let gaps = page_gaps(self.random, &LSM, word);
            self.hear(&gaps[..gaps.len() / 2]);
        }
    }

    /// A few edges of some page.
    fn stray_edges(&mut self) {
        let mut gaps = damaged_page_gaps(self.random, &LSM, 1);
        gaps.truncate(self.random.below(6) as usize);
        self.hear(&gaps);
    }

    /// Events of kinds that may not fit the state at all.
    fn stray_events(&mut self) {
        for _ in 0..=self.random.below(3) {
            self.pass_up_to(5000);
            let kind = match self.random.below(8) {
                6 | 7 => self.random.pick(&[6, 7, 255, 1 << 32, u64::MAX]),
                kind => kind.min(LINK),
            };
            let argument = match kind {
                LINK => self.random.pick(&[0, 1, 2, 1 << 32]),
                _ => self.random.any_number(),
            };
            self.give(kind, argument);
        }
    }

    fn use_registers(&mut self) {
        for _ in 0..=self.random.below(3) {
            self.use_a_register();
        }
    }

    /// A read or a write of any register but 512, or of none that is there.
    fn use_a_register(&mut self) {
        let register = match self.random.below(15) {
            0 => self.random.pick(&[0, 511, 526, 1 << 31, (1 << 32) + 512]),
            1 => CONTROL,
            other => STATUS + other - 2,
        };
        if register == CONTROL || self.random.once_in(2) {
            return self.give(READ, register);
        }
        let value = self.random.any_number() as u16;
        self.write(register, value);
    }

    fn read_status(&mut self) {
        for _ in 0..=self.random.below(2) {
            self.give(READ, STATUS);
        }
    }

    fn write_control(&mut self) {
        let other_bits = self.random.any_number() as u16 & !(RESET | ENABLE | RESTART);
        let value = match self.random.below(8) {
            0 => RESET | self.random.any_number() as u16,
            1 => 0,
            2 => RESTART,
            3 => ENABLE,
            _ => ENABLE | RESTART,
        };
        let noise = self.random.pick(&[0, other_bits]);
        self.write(CONTROL, value | noise);
    }

    /// The clock goes back or far ahead.
    fn jump(&mut self) {
        let time = match self.random.below(3) {
            0 => 0_u32.wrapping_sub(self.random.below(400_000) as u32),
            1 => u32::MAX - self.random.below(3) as u32,
            _ => self.random.any_number() as u32,
        };
        self.pass(time);
    }
}
