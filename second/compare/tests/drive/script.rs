//! A run of a device with the expected answers written beside the events.
//!
//! The device advertises 1000BASE-T1 and draws 5, so its own page is 850001 hex; its
//! partner's page is A90001, with nonce 9. These are the words of P9 in 01's table.

use compare::agreement::assert_answer_cells;
use compare::call::Call;
use compare::event::{self, EventCells};
use reference::answer::{good, ordered, register, settled, CHECK, NOTHING};
use reference::line_mode::LSM;
use reference::page::{readings, transitions};

pub const OWN: u64 = 0x850001;
pub const PARTNER: u64 = 0xA90001;
/// The own page with Ack and the partner's nonce 9 echoed.
pub const OWN_ACK: u64 = 0x854121;
/// The partner's page with Ack and the own nonce 5 echoed.
pub const PARTNER_ACK: u64 = 0xA940A1;

pub const CONTROL: u64 = 512;
pub const STATUS: u64 = 513;
/// Values of 512.
pub const ENABLE: u16 = 0x1000;
pub const RESTART: u16 = 0x1200;

/// How long a page is on the line.
pub const PAGE_TIME: u32 = 124_800;

#[derive(Clone, Default)]
pub struct Script {
    events: Vec<EventCells>,
    expected: Vec<u64>,
    now: u32,
}

impl Script {
    /// Fails the test if `drive` or the model answers one event otherwise.
    pub fn assert_holds(self) {
        assert_all_hold(vec![self]);
    }

    pub fn now(&self) -> u32 {
        self.now
    }

    /// Whether the register was written.
    pub fn has_written(&self, number: u64) -> bool {
        let is_write = |event: &&EventCells| event[0] == event::WRITE;
        let mut writes = self.events.iter().filter(is_write);
        writes.any(|event| event::register(event) == Some(number))
    }

    pub fn give(&mut self, event: EventCells, expected: u64) {
        self.events.push(event);
        self.expected.push(expected);
    }

    /// Lets this time pass.
    pub fn after(&mut self, time: u32) -> &mut Script {
        self.now = self.now.wrapping_add(time);
        self
    }

    /// Sets the clock.
    pub fn at(&mut self, now: u32) -> &mut Script {
        self.now = now;
        self
    }

    pub fn edge(&mut self, expected: u64) {
        self.give(event::edge(self.now), expected);
    }

    /// A tick with the draw 0, which matters to no test that uses this.
    pub fn tick(&mut self, expected: u64) {
        self.tick_with(0, expected);
    }

    pub fn tick_with(&mut self, draw: u64, expected: u64) {
        self.give(event::tick(self.now, draw), expected);
    }

    pub fn sent(&mut self, expected: u64) {
        self.give(event::sent(self.now), expected);
    }

    pub fn link(&mut self, is_up: bool) {
        self.give(event::link(self.now, is_up), NOTHING);
    }

    pub fn read(&mut self, number: u64, value: u16) {
        self.give(event::read(self.now, number), register(value));
    }

    pub fn write(&mut self, number: u64, value: u16) {
        self.give(event::write(self.now, number, value), NOTHING);
    }

    pub fn advertise(&mut self, word: u64) {
        for (register, value) in event::advertising(word) {
            self.write(register, value);
        }
    }

    /// Writes a Next Page into its registers, 520 last, which loads it.
    pub fn load(&mut self, word: u64) {
        for (register, value) in event::loading(word) {
            self.write(register, value);
        }
    }

    /// All edges of a page, the first one now. Only the last one has an answer.
    pub fn page(&mut self, word: u64, expected: u64) {
        self.page_with(word, expected, false);
    }

    /// The same, with a tick that answers nothing after each edge but the last.
    pub fn page_with(&mut self, word: u64, expected: u64, ticks_between: bool) {
        let edges = readings(&LSM, word, self.now);
        let (last, before) = edges.split_last().expect("a page has edges");
        for reading in before {
            self.at(*reading).edge(NOTHING);
            if ticks_between {
                self.tick(NOTHING);
            }
        }
        self.at(*last).edge(expected);
    }

    /// The edges of a page with one bit of its check bits flipped: position 154 is the
    /// last of them, and the check bits of the word have to end with a zero.
    pub fn page_with_a_wrong_check(&mut self, word: u64) {
        let mut positions = transitions(&LSM, word);
        let place = positions
            .binary_search(&154)
            .expect_err("the last check bit is 0");
        positions.insert(place, 154);
        let first = self.now;
        let (last, before) = positions.split_last().expect("a page has edges");
        let reading = |position: usize| first + (position as u32 - 1) * 800;
        for position in before {
            self.at(reading(*position)).edge(NOTHING);
        }
        self.at(reading(*last)).edge(CHECK);
    }

    /// A page that is on the line for its time.
    pub fn own_page_goes_out(&mut self, word: u64, answer_to_sent: u64) {
        self.tick(ordered(word));
        self.after(PAGE_TIME).sent(answer_to_sent);
    }

    /// The tick that leaves Break, which was entered now.
    pub fn leave_break(&mut self, draw: u64) {
        self.after(8_000_000).tick_with(draw, NOTHING);
    }
}

/// Fails the test if one of the scripts does not hold.
pub fn assert_all_hold(scripts: Vec<Script>) {
    let with_call = |script: Script| (Call::run(&script.events), script.expected);
    let calls: Vec<(Call, Vec<u64>)> = scripts.into_iter().map(with_call).collect();
    assert_answer_cells(&calls);
}

/// Just enabled, at reading 0.
pub fn in_break() -> Script {
    let mut script = Script::default();
    script.write(515, 0x0080);
    script.write(CONTROL, ENABLE);
    script
}

/// At the reading of the tick that left Break.
pub fn in_ability() -> Script {
    let mut script = in_break();
    script.leave_break(5);
    script
}

/// At the reading of the last edge of the partner's first page.
pub fn in_ack() -> Script {
    let mut script = in_ability();
    script.after(10_000).page(PARTNER, good(PARTNER));
    script
}

/// At the reading of the last edge of the partner's second page.
pub fn in_complete() -> Script {
    let mut script = in_ack();
    script.after(10_000).page(PARTNER_ACK, good(PARTNER_ACK));
    script
}

/// The own page is sent three times in Complete, the third time with this answer.
pub fn send_three_pages(script: &mut Script, word: u64, last_answer: u64) {
    script.after(33_000).own_page_goes_out(word, NOTHING);
    script.after(350_000).own_page_goes_out(word, NOTHING);
    script.after(350_000).own_page_goes_out(word, last_answer);
}

/// At the reading of the third Sent.
pub fn in_check_link() -> Script {
    let mut script = in_complete();
    send_three_pages(&mut script, OWN_ACK, settled(2, false));
    script
}

/// At the reading of the report that the link is up.
pub fn in_up() -> Script {
    let mut script = in_check_link();
    script.after(1_000_000).link(true);
    script
}

/// A script in each of the states, with a name for it.
pub fn in_every_state() -> [(&'static str, Script); 7] {
    [
        ("Off", Script::default()),
        ("Break", in_break()),
        ("Ability", in_ability()),
        ("Ack", in_ack()),
        ("Complete", in_complete()),
        ("Check-link", in_check_link()),
        ("Up", in_up()),
    ]
}

/// A whole round from Off to Check-link with these two words: what the device advertises,
/// of which only abilities and pause may be ones, and the partner's page.
pub fn settle_with(advertised: u64, partner: u64, answer: u64) -> Script {
    settle_from(0, advertised, partner, answer)
}

/// The same, starting at this reading.
pub fn settle_from(start: u32, advertised: u64, partner: u64, answer: u64) -> Script {
    let mut script = Script::default();
    script.at(start).advertise(advertised);
    script.write(CONTROL, ENABLE);
    hear_and_send(&mut script, advertised | 0x050001, partner, answer);
    script
}

/// From the start of Break to Check-link, the draw being 5.
pub fn hear_and_send(script: &mut Script, own: u64, partner: u64, answer: u64) {
    script.leave_break(5);
    script.after(10_000).page(partner, good(partner));
    let acknowledging = partner | 0x40A0;
    script
        .after(10_000)
        .page(acknowledging, good(acknowledging));
    let held_nonce = partner >> 16 & 0x1F;
    send_three_pages(script, own | 0x4000 | held_nonce << 5, answer);
}
