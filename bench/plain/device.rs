//! The device in plain Rust: the negotiation of a port at low speed, its registers, and rate and role.
//!
//! It has two callers, the run and the step of a lent device. With two the compiler would lay the device into neither
//! of them; so `run.rs` and `lent.rs` each have this file as a module of their own, and it is compiled twice.
use crate::{Outcome, Reader, Refusal, LSM, ORDER, PAGE, SETTLED, VALUE};

// The numbers of the timers, in ns.
const BREAK: u32 = 8_000_000;
const SILENT: u32 = 33_000;
const WAIT: u32 = 350_000;
const LOST: u32 = 4_000_000;
const INHIBIT: u32 = 97_500_000;
const INHIBIT_T1S: u32 = 402_000_000;
const INHIBIT_T1L: u32 = 3_060_000_000;

/// A field of a word: its lowest bit and its width.
#[derive(Clone, Copy)]
struct Field(u32, u32);

const SELECTOR: Field = Field(0, 5);
const ECHOED_NONCE: Field = Field(5, 5);
const TOGGLE: Field = Field(11, 1);
const FORCED_ROLE: Field = Field(12, 1);
const REMOTE_FAULT: Field = Field(13, 1);
const ACK: Field = Field(14, 1);
const NEXT_PAGE: Field = Field(15, 1);
const NONCE: Field = Field(16, 5);
const ABILITIES: Field = Field(21, 27);

impl Field {
    const fn mask(self) -> u64 {
        ((1 << self.1) - 1) << self.0
    }

    fn get(self, word: u64) -> u64 {
        (word & self.mask()) >> self.0
    }

    fn set(self, word: u64, value: u64) -> u64 {
        word & !self.mask() | value << self.0 & self.mask()
    }
}

/// The numbers of the abilities, the preferred first.
const RATE_ORDER: [u8; 9] = [6, 5, 4, 3, 2, 0, 1, 9, 22];

/// The number of the ability that two sides have settled on, and whether the own one is master.
#[derive(Clone, Copy)]
struct Settled {
    ability: u8,
    master: bool,
}

fn is_forced(word: u64) -> bool {
    FORCED_ROLE.get(word) == 1
}

/// T4.
fn asks_master(word: u64) -> bool {
    NONCE.get(word) >= 16
}

fn is_master(own: u64, partner: u64) -> Result<bool, Refusal> {
    match (is_forced(own), is_forced(partner)) {
        (false, false) => Ok(NONCE.get(own) > NONCE.get(partner)),
        (true, false) => Ok(asks_master(own)),
        (false, true) => Ok(!asks_master(partner)),
        (true, true) if asks_master(own) == asks_master(partner) => Err(Refusal::Roles),
        (true, true) => Ok(asks_master(own)),
    }
}

fn resolve(own: u64, partner: u64) -> Result<Settled, Refusal> {
    crate::narrow(own)?;
    crate::narrow(partner)?;
    if SELECTOR.get(own) != 1 || SELECTOR.get(partner) != 1 {
        return Err(Refusal::Selector);
    }
    if NONCE.get(own) == NONCE.get(partner) {
        return Err(Refusal::Tie);
    }
    let common = ABILITIES.get(own & partner);
    let first = RATE_ORDER.into_iter().find(|ability| common >> ability & 1 == 1);
    let ability = first.ok_or(Refusal::None)?;
    let master = is_master(own, partner)?;
    Ok(Settled { ability, master })
}

/// The page that a device sends first; its NP says whether a Next Page follows.
fn base_page(advertised: u64, draw: u64, is_loaded: bool) -> u64 {
    let drawn = match is_forced(advertised) {
        true => draw & 15 | NONCE.get(advertised) & 16,
        false => draw,
    };
    let page = ACK.set(ECHOED_NONCE.set(SELECTOR.set(advertised, 1), 0), 0);
    NONCE.set(NEXT_PAGE.set(page, u64::from(is_loaded)), drawn)
}

/// The Next Page that a side sends which has nothing more to say.
const NULL_MESSAGE: u64 = 0x2001;

/// A word as the Next Page that follows an own page.
fn next_page(before: u64, word: u64) -> u64 {
    TOGGLE.set(ACK.set(word, 0), 1 - TOGGLE.get(before))
}

/// The own page with Ack and the partner's nonce.
fn echoing_page(own: u64, held: u64) -> u64 {
    ACK.set(ECHOED_NONCE.set(own, NONCE.get(held)), 1)
}

/// Whether two base pages are the same but for Ack and the echoed nonce.
fn is_same_base(one: u64, other: u64) -> bool {
    (one ^ other) & !(ACK.mask() | ECHOED_NONCE.mask()) == 0
}

/// Whether two Next Pages are the same but for Ack.
fn is_same_next(one: u64, other: u64) -> bool {
    (one ^ other) & !ACK.mask() == 0
}

/// A page as the values of its three registers.
fn registers_of(word: u64) -> [u16; 3] {
    [word as u16, (word >> 16) as u16, (word >> 32) as u16]
}

fn word_of(registers: [u16; 3]) -> u64 {
    let [low, middle, high] = registers.map(u64::from);
    low | middle << 16 | high << 32
}

#[derive(Clone, Copy, PartialEq)]
enum State {
    Off,
    Break,
    Ability,
    Ack,
    Complete,
    CheckLink,
    Up,
}

/// From when on the other side was heard, or is waited for.
#[derive(Clone, Copy)]
enum Mark {
    Heard(u32),
    Waiting(u32),
}

/// Which pages are traded: base pages, the first own Next Page while the partner's is not yet held, or later ones.
#[derive(Clone, Copy, PartialEq)]
enum Round {
    Base,
    First,
    Later,
}

/// What belongs to one link and is forgotten with it.
struct Talk {
    round: Round,
    own_base: u64,
    held_base: u64,
    own_next: u64,
    held_next: u64,
    is_out: bool,
    sent: u32,
    mark: Mark,
    last_good: u32,
    timer: u32,
    latch: bool,
    outcome: Option<Result<Settled, Refusal>>,
    partner: [u16; 3],
    /// The own Next Page as it is written, and whether it is still to be sent.
    next: [u16; 3],
    is_loaded: bool,
    partner_next: [u16; 3],
    reader: Reader,
}

impl Talk {
    fn new(reading: u32) -> Talk {
        Talk {
            round: Round::Base,
            own_base: 0,
            held_base: 0,
            own_next: 0,
            held_next: 0,
            is_out: false,
            sent: 0,
            mark: Mark::Waiting(reading),
            last_good: reading,
            timer: reading,
            latch: false,
            outcome: None,
            partner: [0; 3],
            next: [0; 3],
            is_loaded: false,
            partner_next: [0; 3],
            reader: Reader::Fresh,
        }
    }

    /// The own page of the round.
    fn own(&self) -> u64 {
        match self.round {
            Round::Base => self.own_base,
            Round::First | Round::Later => self.own_next,
        }
    }

    /// The held page of the round.
    fn held(&self) -> u64 {
        match self.round {
            Round::Base | Round::First => self.held_base,
            Round::Later => self.held_next,
        }
    }

    /// Whether a page is the held one once more.
    fn repeats_held(&self, word: u64) -> bool {
        match self.round {
            Round::Base | Round::First => is_same_base(word, self.held_base),
            Round::Later => is_same_next(word, self.held_next),
        }
    }

    /// Whether either side has a page to follow.
    fn has_more(&self) -> bool {
        NEXT_PAGE.get(self.own() | self.held()) == 1
    }
}

pub struct Device {
    state: State,
    advertised: [u16; 3],
    received: bool,
    fault: bool,
    talk: Talk,
}

enum Event {
    Edge,
    Tick { draw: u64 },
    Sent,
    Report { up: bool },
    Read { register: u64 },
    Write { register: u64, value: u16 },
}

enum Answer {
    Nothing,
    Refused(Refusal),
    Page(u64),
    Order(u64),
    Settled(Settled),
    Value(u16),
}

impl Event {
    fn new(kind: u64, argument: u64) -> Option<Event> {
        Some(match kind {
            0 => Event::Edge,
            1 => Event::Tick { draw: argument },
            2 => Event::Sent,
            3 => Event::Report { up: argument != 0 },
            4 => Event::Read { register: argument },
            5 => Event::Write {
                register: argument >> 16,
                value: argument as u16,
            },
            _ => return None,
        })
    }
}

impl Answer {
    fn packed(self) -> u64 {
        match self {
            Answer::Nothing => 0,
            Answer::Refused(refusal) => (refusal as u64) << 56,
            Answer::Page(word) => PAGE << 56 | word,
            Answer::Order(word) => ORDER << 56 | word,
            Answer::Settled(Settled { ability, master }) => {
                SETTLED << 56 | u64::from(master) << 8 | u64::from(ability)
            }
            Answer::Value(value) => VALUE << 56 | u64::from(value),
        }
    }
}

/// Whether a timer that was started at one reading has run out at another.
fn has_run(number: u32, start: u32, reading: u32) -> bool {
    reading.wrapping_sub(start) >= number
}

impl Device {
    pub(crate) fn fresh() -> Device {
        Device {
            state: State::Off,
            advertised: [0; 3],
            received: false,
            fault: false,
            talk: Talk::new(0),
        }
    }

    /// Takes an event as numbers. One of a kind that there is not changes nothing.
    pub(crate) fn take(&mut self, kind: u64, clock: u64, argument: u64) -> u64 {
        match Event::new(kind, argument) {
            Some(event) => self.step(clock as u32, event).packed(),
            None => 0,
        }
    }

    fn step(&mut self, reading: u32, event: Event) -> Answer {
        match event {
            Event::Edge => self.edge(reading),
            Event::Tick { draw } => self.tick(reading, draw),
            Event::Sent => self.sent(reading),
            Event::Report { up } => self.report(reading, up),
            Event::Read { register } => self.read(register),
            Event::Write { register, value } => self.write(register, value, reading),
        }
    }

    /// Goes to a state that forgets the link: Break or Off.
    fn enter(&mut self, state: State, reading: u32) {
        self.state = state;
        self.talk = Talk::new(reading);
    }

    fn break_off(&mut self, refusal: Refusal, reading: u32) -> Answer {
        self.enter(State::Break, reading);
        Answer::Refused(refusal)
    }

    fn is_talking(&self) -> bool {
        matches!(self.state, State::Ability | State::Ack | State::Complete)
    }

    fn edge(&mut self, reading: u32) -> Answer {
        if !self.is_talking() || self.talk.is_out {
            return Answer::Nothing;
        }
        let ended: Option<Outcome> = self.talk.reader.edge::<true>(&LSM, reading);
        match ended {
            None => Answer::Nothing,
            Some(Ok(word)) => self.page(word, reading),
            Some(Err(refusal)) => Answer::Refused(refusal),
        }
    }

    fn page(&mut self, word: u64, reading: u32) -> Answer {
        match (self.state, self.talk.round) {
            (State::Ability, Round::Base) => self.base_page_in_ability(word, reading),
            (State::Ability, _) => self.next_page_in_ability(word, reading),
            (State::Ack, Round::Base) => self.base_page_in_ack(word, reading),
            (State::Ack, _) => self.next_page_in_ack(word, reading),
            (State::Complete, _) => self.hear(word, reading),
            _ => Answer::Nothing,
        }
    }

    /// The page is not refused.
    fn hear(&mut self, word: u64, reading: u32) -> Answer {
        self.talk.mark = Mark::Heard(reading);
        self.talk.last_good = reading;
        Answer::Page(word)
    }

    fn base_page_in_ability(&mut self, word: u64, reading: u32) -> Answer {
        if SELECTOR.get(word) != 1 {
            return Answer::Refused(Refusal::Selector);
        }
        if NONCE.get(word) == NONCE.get(self.talk.own_base) {
            return self.break_off(Refusal::Tie, reading);
        }
        self.talk.held_base = word;
        self.state = State::Ack;
        self.hear(word, reading)
    }

    fn next_page_in_ability(&mut self, word: u64, reading: u32) -> Answer {
        if !self.talk.repeats_held(word) {
            if TOGGLE.get(word) == TOGGLE.get(self.talk.held()) {
                return self.break_off(Refusal::Toggle, reading);
            }
            self.talk.held_next = word;
            self.talk.round = Round::Later;
            self.state = State::Ack;
        }
        self.hear(word, reading)
    }

    fn base_page_in_ack(&mut self, word: u64, reading: u32) -> Answer {
        if !is_same_base(word, self.talk.held_base) {
            return self.break_off(Refusal::Changed, reading);
        }
        if ACK.get(word) == 1 {
            if ECHOED_NONCE.get(word) != NONCE.get(self.talk.own_base) {
                return self.break_off(Refusal::Echo, reading);
            }
            self.talk.partner = registers_of(word);
            self.fault |= REMOTE_FAULT.get(word) == 1;
            self.complete();
        }
        self.hear(word, reading)
    }

    fn next_page_in_ack(&mut self, word: u64, reading: u32) -> Answer {
        if !is_same_next(word, self.talk.held()) {
            return self.break_off(Refusal::Changed, reading);
        }
        if ACK.get(word) == 1 {
            self.talk.partner_next = registers_of(word);
            self.complete();
        }
        self.hear(word, reading)
    }

    fn complete(&mut self) {
        self.state = State::Complete;
        self.talk.sent = 0;
        self.received = true;
    }

    fn tick(&mut self, reading: u32, draw: u64) -> Answer {
        match self.state {
            State::Off | State::Up => {}
            State::Break => {
                if has_run(BREAK, self.talk.timer, reading) {
                    self.leave_break(reading, draw);
                }
            }
            State::Ability | State::Ack | State::Complete => {
                if self.is_lost(reading) {
                    self.enter(State::Break, reading);
                } else if self.may_order(reading) {
                    return self.order();
                }
            }
            State::CheckLink => {
                if has_run(self.inhibit(), self.talk.timer, reading) {
                    self.enter(State::Break, reading);
                }
            }
        }
        Answer::Nothing
    }

    fn leave_break(&mut self, reading: u32, draw: u64) {
        self.talk.own_base = base_page(word_of(self.advertised), draw, self.talk.is_loaded);
        self.talk.mark = Mark::Waiting(reading);
        self.talk.reader = Reader::Fresh;
        self.state = State::Ability;
    }

    /// Whether a partner of whom Next Pages are awaited has fallen silent.
    fn is_lost(&self, reading: u32) -> bool {
        !self.talk.is_out
            && self.talk.round != Round::Base
            && has_run(LOST, self.talk.last_good, reading)
    }

    fn may_order(&self, reading: u32) -> bool {
        if self.talk.is_out {
            return false;
        }
        // An attempt that is open may go on.
        if let Reader::Open { last, .. } = self.talk.reader {
            if !has_run(LSM.quiet, last, reading) {
                return false;
            }
        }
        match self.talk.mark {
            Mark::Heard(start) => has_run(SILENT, start, reading),
            Mark::Waiting(start) => has_run(WAIT, start, reading),
        }
    }

    fn order(&mut self) -> Answer {
        self.talk.is_out = true;
        Answer::Order(match (self.state, self.talk.round) {
            (State::Ability, _) => self.talk.own(),
            (_, Round::Base) => echoing_page(self.talk.own_base, self.talk.held_base),
            _ => ACK.set(self.talk.own_next, 1),
        })
    }

    fn inhibit(&self) -> u32 {
        match self.talk.outcome {
            Some(Ok(Settled { ability: 1 | 22, .. })) => INHIBIT_T1S,
            Some(Ok(Settled { ability: 9, .. })) => INHIBIT_T1L,
            _ => INHIBIT,
        }
    }

    fn sent(&mut self, reading: u32) -> Answer {
        if matches!(self.state, State::Off | State::Break) || !self.talk.is_out {
            return Answer::Refused(Refusal::Turn);
        }
        self.talk.is_out = false;
        self.talk.mark = Mark::Waiting(reading);
        if self.state != State::Complete {
            return Answer::Nothing;
        }
        // The third page sent decides, and each later one.
        if self.talk.sent < 2 {
            self.talk.sent += 1;
            return Answer::Nothing;
        }
        if self.talk.has_more() {
            self.go_on();
            return Answer::Nothing;
        }
        self.settle(reading)
    }

    /// Turns to the next own page: the loaded one, or the null message if none was to follow. Else it is waited for.
    fn go_on(&mut self) {
        let before = self.talk.own();
        let word = if self.talk.is_loaded {
            word_of(self.talk.next)
        } else if NEXT_PAGE.get(before) == 0 {
            NULL_MESSAGE
        } else {
            return;
        };
        self.talk.is_loaded = false;
        self.talk.own_next = next_page(before, word);
        if self.talk.round == Round::Base {
            self.talk.round = Round::First;
        }
        self.state = State::Ability;
    }

    fn settle(&mut self, reading: u32) -> Answer {
        let outcome = resolve(self.talk.own_base, self.talk.held_base);
        self.talk.outcome = Some(outcome);
        self.talk.timer = reading;
        self.state = State::CheckLink;
        match outcome {
            Ok(settled) => Answer::Settled(settled),
            Err(refusal) => Answer::Refused(refusal),
        }
    }

    fn report(&mut self, reading: u32, up: bool) -> Answer {
        match self.state {
            State::CheckLink if up && matches!(self.talk.outcome, Some(Ok(_))) => {
                self.state = State::Up;
            }
            State::Up if !up => self.enter(State::Break, reading),
            _ => {}
        }
        Answer::Nothing
    }

    fn read(&mut self, register: u64) -> Answer {
        Answer::Value(match register {
            512 => u16::from(self.state != State::Off) << 12,
            513 => self.read_status(),
            514..=516 => self.advertised[(register - 514) as usize],
            517..=519 => self.talk.partner[(register - 517) as usize],
            520..=522 => self.talk.next[(register - 520) as usize],
            523..=525 => self.talk.partner_next[(register - 523) as usize],
            _ => return Answer::Refused(Refusal::Register),
        })
    }

    /// The value is taken first, since the read clears what it answers.
    fn read_status(&mut self) -> u16 {
        let is_up = self.state == State::Up;
        let value = u16::from(self.received) << 6
            | u16::from(is_up) << 5
            | u16::from(self.fault) << 4
            | 1 << 3
            | u16::from(self.talk.latch) << 2;
        self.received = false;
        self.fault = false;
        self.talk.latch = is_up;
        value
    }

    fn write(&mut self, register: u64, value: u16, reading: u32) -> Answer {
        match register {
            512 => self.command(value, reading),
            514..=516 => self.advertised[(register - 514) as usize] = value,
            520..=522 => {
                self.talk.next[(register - 520) as usize] = value;
                self.talk.is_loaded |= register == 520;
            }
            513 | 517..=519 | 523..=525 => {}
            _ => return Answer::Refused(Refusal::Register),
        }
        Answer::Nothing
    }

    fn command(&mut self, value: u16, reading: u32) {
        let has_bit = |n: u32| value >> n & 1 == 1;
        if has_bit(15) {
            *self = Device::fresh();
        } else if !has_bit(12) {
            self.enter(State::Off, 0);
        } else if has_bit(9) || self.state == State::Off {
            self.enter(State::Break, reading);
        }
    }
}
