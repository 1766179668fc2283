//! Two devices of the reference joined by a wire, in simulated time.
//!
//! Each has a clock of its own, and may have a host (`hosts`). A page that one orders
//! becomes edges at the other, unless the wire loses or damages it; the link between them
//! comes up some time after both have settled on the same rate, and goes down some time
//! after one of them has left it.

use crate::event::{self, EventCells};
use crate::history::History;
use crate::hosts::{between, Access, Host};
use crate::random::Random;
use crate::wire::Wire;
use reference::answer;
use reference::device::registers::{CONTROL, ENABLE, RESET, RESTART};
use reference::device::State;
use std::collections::BTreeMap;

pub const LEFT: usize = 0;
pub const RIGHT: usize = 1;

const MICROSECOND: u64 = 1000;
const MILLISECOND: u64 = 1_000_000;

/// Two devices that step together never meet (point 57), so what happens to both
/// happens to them this far apart: at least, and at most, in nanoseconds.
pub const APART: (u64, u64) = (140 * MICROSECOND, 200 * MICROSECOND);

/// How long a tick is after the one before at most, by what the device does: so that each
/// timer is found run out within its window (`windows`), and runs stay short all the same.
const ANSWERING_TICKS: u64 = 1600;
pub const WAITING_TICKS: u64 = 20 * MICROSECOND;
const BREAK_TICKS: u64 = 133 * MICROSECOND;
const LINK_TICKS: u64 = 500 * MICROSECOND;

/// How long it is where both sides have their ticks at the same times.
const TICKS_IN_STEP: u64 = 10 * MICROSECOND;

/// A side that ignores edges gets all edges of one page in so many, so that it is seen to
/// ignore them, and runs stay short all the same.
const SHOWN_ONCE_IN: u64 = 8;

#[derive(Clone, Copy)]
enum Happening {
    /// It is shown to a side that ignores edges too, or is not.
    Edge {
        is_shown: bool,
    },
    Tick,
    Sent,
    LinkUp {
        link: u64,
    },
    LinkDown,
    Read {
        register: u64,
    },
    Write {
        register: u64,
        value: u16,
    },
    /// The host makes its next access.
    Host,
}

impl Happening {
    /// Whether it ends with the head of this side.
    fn is_of_the_head(self) -> bool {
        use Happening::{Host, Read, Sent, Write};
        matches!(self, Sent | Read { .. } | Write { .. } | Host)
    }

    fn is_edge(self) -> bool {
        matches!(self, Happening::Edge { .. })
    }
}

/// What is put in at a side: a device that advertises a word, and its host, if it has one.
#[derive(Clone, Debug)]
pub struct Module {
    pub advertised: u64,
    pub host: Option<Telling>,
}

/// What a host has to say, and how late it is at most.
#[derive(Clone, Debug)]
pub struct Telling {
    pub pages: Vec<u64>,
    pub lateness: u64,
}

impl Module {
    pub fn without_host(advertised: u64) -> Module {
        let host = None;
        Module { advertised, host }
    }

    pub fn with_host(advertised: u64, pages: &[u64], lateness: u64) -> Module {
        let pages = pages.to_vec();
        let host = Some(Telling { pages, lateness });
        Module { advertised, host }
    }

    /// The Next Pages that it has to say.
    pub fn pages(&self) -> &[u64] {
        self.host.as_ref().map_or(&[], |host| &host.pages)
    }
}

pub struct Side {
    pub history: History,
    /// The simulated time of each step.
    pub times: Vec<u64>,
    /// All modules that were here, and when each was put in.
    pub modules: Vec<(u64, Module)>,
    /// The hosts of these modules, as far as they have one.
    pub hosts: Vec<Host>,
    /// What the clock of this side shows at time 0.
    clock_at_start: u32,
    /// The last answer that says on what this side has settled, while it holds.
    pub settled: Option<u64>,
    /// Whether this side has heard a page and has not ordered one since.
    is_answering: bool,
}

impl Side {
    fn new(random: &mut Random) -> Side {
        Side {
            history: History::default(),
            times: Vec::new(),
            modules: Vec::new(),
            hosts: Vec::new(),
            clock_at_start: random.any_number() as u32,
            settled: None,
            is_answering: false,
        }
    }

    pub fn state(&self) -> State {
        self.history.device.state()
    }

    /// The module that is there now.
    pub fn module(&self) -> &Module {
        &self.modules.last().expect("a module was put in").1
    }

    /// The host that is there now.
    pub fn host(&self) -> &Host {
        self.hosts.last().expect("the module has a host")
    }

    /// How long the next tick is after this one at most.
    fn longest_to_the_next_tick(&self) -> u64 {
        match self.state() {
            State::Off | State::CheckLink | State::Up => LINK_TICKS,
            State::Break => BREAK_TICKS,
            _ if self.is_answering => ANSWERING_TICKS,
            _ => WAITING_TICKS,
        }
    }

    fn ignores_edges(&self) -> bool {
        use State::{Break, CheckLink, Off, Up};
        matches!(self.state(), Off | Break | CheckLink | Up)
    }
}

pub struct Joined {
    pub sides: [Side; 2],
    pub now: u64,
    pub wire: Wire,
    random: Random,
    /// What is to happen, by time and then in the order of planning, and to which side.
    agenda: BTreeMap<(u64, u64), (usize, Happening)>,
    planned: u64,
    /// The number of the link that is there or is coming up, if there is one.
    link: Option<u64>,
    has_ticks_in_step: bool,
}

impl Joined {
    pub fn new(mut random: Random) -> Joined {
        let sides = [Side::new(&mut random), Side::new(&mut random)];
        let mut joined = Joined {
            sides,
            now: 0,
            wire: Wire::default(),
            random,
            agenda: BTreeMap::new(),
            planned: 0,
            link: None,
            has_ticks_in_step: false,
        };
        joined.plan(0, LEFT, Happening::Tick);
        joined.plan(0, RIGHT, Happening::Tick);
        joined
    }

    /// Both sides have their ticks at the same times.
    pub fn with_ticks_in_step(random: Random) -> Joined {
        let mut joined = Joined::new(random);
        joined.has_ticks_in_step = true;
        joined
    }

    fn plan(&mut self, later: u64, side: usize, happening: Happening) {
        self.planned += 1;
        let when = (self.now + later, self.planned);
        self.agenda.insert(when, (side, happening));
    }

    /// Puts a module in now. It is enabled so much later, and then its host begins.
    pub fn put_in(&mut self, later: u64, side: usize, module: &Module) {
        let this = &mut self.sides[side];
        this.modules.push((self.now, module.clone()));
        for (register, value) in event::advertising(module.advertised) {
            self.plan(later, side, Happening::Write { register, value });
        }
        self.write_control(later, side, ENABLE);
        if let Some(Telling { pages, lateness }) = &module.host {
            self.sides[side].hosts.push(Host::new(pages, *lateness));
            self.plan(later, side, Happening::Host);
        }
    }

    /// Enables both sides, the right one some time after the left one.
    pub fn put_in_both(&mut self, left: &Module, right: &Module) {
        let apart = between(&mut self.random, APART);
        self.put_in(0, LEFT, left);
        self.put_in(apart, RIGHT, right);
    }

    /// Another module takes the place of this one, and is enabled so much later. What the
    /// old one has still to do, and the rest of its page, is gone.
    pub fn swap_head(&mut self, later: u64, side: usize, module: &Module) {
        self.agenda
            .retain(|_, (whose, happening)| match *whose == side {
                true => !happening.is_of_the_head(),
                false => !happening.is_edge(),
            });
        self.sides[side].clock_at_start = self.random.any_number() as u32;
        self.write_control(0, side, RESET);
        self.put_in(later, side, module);
    }

    /// Someone restarts the device by its register; its host is not told.
    pub fn restart(&mut self, side: usize) {
        self.write_control(0, side, ENABLE | RESTART);
    }

    fn write_control(&mut self, later: u64, side: usize, value: u16) {
        let register = CONTROL;
        self.plan(later, side, Happening::Write { register, value });
    }

    pub fn read(&mut self, side: usize, register: u64) {
        self.plan(0, side, Happening::Read { register });
    }

    /// Lets happen what is planned until this holds, and says whether it does before so
    /// much time has passed.
    pub fn run_until(&mut self, most: u64, holds: impl Fn(&Joined) -> bool) -> bool {
        let end = self.now + most;
        while !holds(self) {
            let (when, (side, happening)) = self.agenda.pop_first().expect("ticks never end");
            if when.0 > end {
                self.agenda.insert(when, (side, happening));
                self.now = end;
                return false;
            }
            self.now = when.0;
            self.let_happen(side, happening);
        }
        true
    }

    /// Lets so much time pass.
    pub fn run_for(&mut self, time: u64) {
        self.run_until(time, |_| false);
    }

    pub fn both_are(&self, state: State) -> bool {
        self.sides.iter().all(|side| side.state() == state)
    }

    fn let_happen(&mut self, side: usize, happening: Happening) {
        let now = self.sides[side]
            .clock_at_start
            .wrapping_add(self.now as u32);
        let event = match happening {
            Happening::Edge { is_shown: false } if self.sides[side].ignores_edges() => return,
            Happening::Edge { .. } => event::edge(now),
            Happening::Tick => self.tick(side, now),
            Happening::Sent => event::sent(now),
            // The two have parted before the link was there.
            Happening::LinkUp { link } if self.link != Some(link) => return,
            Happening::LinkUp { .. } => event::link(now, true),
            Happening::LinkDown => event::link(now, false),
            Happening::Read { register } => event::read(now, register),
            Happening::Write { register, value } => event::write(now, register, value),
            Happening::Host => return self.let_host_act(side, now),
        };
        self.give(side, event);
        self.watch_the_link();
    }

    /// The tick, with any draw, and the plan for the one after it.
    fn tick(&mut self, side: usize, now: u32) -> EventCells {
        let most = self.sides[side].longest_to_the_next_tick();
        let later = match self.has_ticks_in_step {
            true => TICKS_IN_STEP,
            false => between(&mut self.random, (most / 2, most)),
        };
        self.plan(later, side, Happening::Tick);
        event::tick(now, self.random.below(32))
    }

    /// One access of the host, and the plan for the one after it.
    fn let_host_act(&mut self, side: usize, now: u32) {
        let hosts = &mut self.sides[side].hosts;
        let access = hosts.last_mut().expect("a host acts").next_access();
        let value = self.give(
            side,
            match access {
                Access::Read { register } => event::read(now, register),
                Access::Write { register, value } => event::write(now, register, value),
            },
        );
        let host = self.sides[side].hosts.last_mut().expect("a host acts");
        let later = host.take(access, value as u16, self.now, &mut self.random);
        self.plan(later, side, Happening::Host);
    }

    fn give(&mut self, side: usize, event: EventCells) -> u64 {
        let this = &mut self.sides[side];
        let answer = this.history.give(event);
        this.times.push(self.now);
        match answer::kind(answer) {
            answer::GOOD_PAGE => this.is_answering = true,
            answer::ORDERED_PAGE => this.is_answering = false,
            answer::SETTLED => this.settled = Some(answer),
            _ => {}
        }
        match this.state() {
            State::CheckLink | State::Up => {}
            State::Break => (this.settled, this.is_answering) = (None, false),
            _ => this.settled = None,
        }
        if answer::kind(answer) == answer::ORDERED_PAGE {
            self.send(side, answer & ((1 << 48) - 1));
        }
        answer
    }

    /// Puts the edges of a page on the wire.
    fn send(&mut self, side: usize, word: u64) {
        let (edges, sent) = self.wire.carry(word, self.now, &mut self.random);
        let is_shown = self.random.once_in(SHOWN_ONCE_IN);
        for later in edges {
            self.plan(later, 1 - side, Happening::Edge { is_shown });
        }
        self.plan(sent, side, Happening::Sent);
    }

    fn watch_the_link(&mut self) {
        let [left, right] = [LEFT, RIGHT].map(|side| self.sides[side].settled);
        let have_one_rate = match (left, right) {
            (Some(left), Some(right)) => {
                answer::settled_ability(left) == answer::settled_ability(right)
            }
            _ => false,
        };
        if have_one_rate == self.link.is_some() {
            return;
        }
        if !have_one_rate {
            self.link = None;
            return self.plan_apart(0, Happening::LinkDown);
        }
        let link = self.planned;
        self.link = Some(link);
        self.plan_apart(MILLISECOND, Happening::LinkUp { link });
    }

    /// Plans the same for both sides, apart.
    fn plan_apart(&mut self, later: u64, happening: Happening) {
        let apart = between(&mut self.random, APART);
        let first = self.random.below(2) as usize;
        self.plan(later, first, happening);
        self.plan(later + apart, 1 - first, happening);
    }
}
