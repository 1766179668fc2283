//! The windows that Clause 98 (98.5.2, at low speed) has for a device's timers, as
//! docs/INTEGRATING.md tells them, the house's own timer, and whether a device has kept them.
//!
//! A device is never early by 01's numbers, but it looks at its timers on ticks only: it is
//! late by up to the time between two ticks, and ticks that are too far apart let it leave
//! a window.

use crate::event::{self, EDGE, SENT, TICK, WRITE};
use crate::history::Step;
use crate::joined::{Side, WAITING_TICKS};
use reference::answer;
use reference::device::registers::{CONTROL, RESTART};
use reference::device::State;
use reference::line_mode::LSM;

/// A timer has to run at least and at most so long, in nanoseconds.
#[derive(Clone, Copy, Debug, PartialEq)]
pub struct Window {
    pub timer: &'static str,
    least: u64,
    most: u64,
}

pub const SILENT: Window = window("silent", 31_400, 34_600);
pub const WAIT: Window = window("wait", 330_000, 370_000);
pub const BREAK: Window = window("break", 8_000_000, 8_133_000);
pub const INHIBIT: Window = window("inhibit", 97_000_000, 98_000_000);
pub const INHIBIT_T1S: Window = window("inhibit of 10BASE-T1S", 400_000_000, 405_000_000);
pub const INHIBIT_T1L: Window = window("inhibit of 10BASE-T1L", 3_030_000_000, 3_090_000_000);

/// Those of Clause 98.
pub const WINDOWS: [Window; 6] = [SILENT, WAIT, BREAK, INHIBIT, INHIBIT_T1S, INHIBIT_T1L];

/// The house's own timer, for which there is no window of Clause 98. It is held to its
/// number: a tick finds it run out, but no tick while a page is out.
pub const LOST: Window = window("lost", LOST_NUMBER, LOST_NUMBER + PAGE + WAITING_TICKS);

const LOST_NUMBER: u64 = 4_000_000;
/// How long a page is out.
const PAGE: u64 = 124_800;

const fn window(timer: &'static str, least: u64, most: u64) -> Window {
    Window { timer, least, most }
}

/// A timer that a device took for run out, and how long it had run by then.
#[derive(Clone, Copy, Debug, PartialEq)]
pub struct Run {
    pub window: Window,
    pub took: u64,
    /// Whether it was out before, and a page that was coming in held back the order.
    pub was_held_back: bool,
}

impl Run {
    /// Fails unless the timer has run for a time in its window.
    fn kept(&self) -> Result<(), String> {
        let Window { timer, least, most } = self.window;
        let is_in_time = self.took <= most || self.was_held_back;
        match least <= self.took && is_in_time {
            true => Ok(()),
            false => Err(format!(
                "the timer {timer} has run {} ns, and its window is {least} to {most} ns",
                self.took
            )),
        }
    }
}

/// Each timer that has run out at this side, or words on the first that did so outside of
/// its window.
pub fn runs_in_windows(side: &Side) -> Result<Vec<Run>, String> {
    let runs = runs(&side.history.steps, &side.times);
    runs.iter().try_for_each(Run::kept)?;
    Ok(runs)
}

/// Each timer that has run out in these steps, by the times at which they happened.
fn runs(steps: &[Step], times: &[u64]) -> Vec<Run> {
    let mut watch = Watch::default();
    let mut runs = Vec::new();
    for (step, now) in steps.iter().zip(times) {
        runs.extend(watch.run_out_at(step, *now));
        watch.look_at(step, *now);
    }
    runs
}

/// What is known of the timers of a device, from its steps so far.
#[derive(Default)]
struct Watch {
    /// The timer that was started last, and when.
    started: Option<(Window, u64)>,
    was_held_back: bool,
    last_good_page: u64,
    /// The last edge that the device has looked at.
    last_edge: Option<u64>,
}

impl Watch {
    /// The timer that this step finds run out, if it finds one.
    fn run_out_at(&self, step: &Step, now: u64) -> Option<Run> {
        let (window, at) = match is_lost(step) {
            true => (LOST, self.last_good_page),
            false => self.started.filter(|_| is_by_a_timer(step))?,
        };
        Some(Run {
            window,
            took: now - at,
            was_held_back: self.was_held_back && window != LOST,
        })
    }

    fn look_at(&mut self, step: &Step, now: u64) {
        if answer::kind(step.answer) == answer::GOOD_PAGE {
            self.last_good_page = now;
        }
        if step.event[0] == EDGE && exchanges_pages(step.before) && !step.page_was_out {
            self.last_edge = Some(now);
        }
        let is_hearing = |edge: u64| now - edge < LSM.quiet_limit.into();
        let may_be_out = |(window, at): (Window, u64)| now - at >= window.least;
        self.was_held_back |=
            self.last_edge.is_some_and(is_hearing) && self.started.is_some_and(may_be_out);
        if let Some(window) = starts(step) {
            self.started = Some((window, now));
            self.was_held_back = false;
        }
    }
}

fn exchanges_pages(state: State) -> bool {
    matches!(state, State::Ability | State::Ack | State::Complete)
}

/// Whether a tick has found that the partner has fallen silent.
fn is_lost(step: &Step) -> bool {
    step.event[0] == TICK && exchanges_pages(step.before) && step.after == State::Break
}

/// Whether a tick has found a timer run out: it orders a page, or leaves a state.
fn is_by_a_timer(step: &Step) -> bool {
    let orders = answer::kind(step.answer) == answer::ORDERED_PAGE;
    step.event[0] == TICK && (orders || step.before != step.after)
}

/// The timer that this step starts, if it starts one.
fn starts(step: &Step) -> Option<Window> {
    match (step.before, step.after) {
        (State::Break, State::Ability) => Some(WAIT),
        (State::Complete, State::CheckLink) => Some(inhibit(step.answer)),
        (before, State::Break) if before != State::Break || is_restart(step) => Some(BREAK),
        _ if answer::kind(step.answer) == answer::GOOD_PAGE => Some(SILENT),
        _ if step.event[0] == SENT && step.answer == answer::NOTHING => Some(WAIT),
        _ => None,
    }
}

/// Whether it enters Break, from Break too.
fn is_restart(step: &Step) -> bool {
    let value = step.event[2] as u16;
    event::register(&step.event) == Some(CONTROL) && step.event[0] == WRITE && value & RESTART != 0
}

/// The time for the link, by what the device has answered on settling.
fn inhibit(answer: u64) -> Window {
    match answer::kind(answer) == answer::SETTLED {
        true => match answer::settled_ability(answer) {
            1 | 22 => INHIBIT_T1S,
            9 => INHIBIT_T1L,
            _ => INHIBIT,
        },
        false => INHIBIT,
    }
}

#[cfg(test)]
mod tests {
    use super::*;
    use crate::history::History;
    use crate::joined::{Joined, Module, LEFT, RIGHT};
    use crate::next_page::{in_a_row, message_page};
    use crate::random::Random;
    use reference::device::registers::ENABLE;
    use reference::device::Round;

    /// A device that is enabled at 0, and gets ticks at these times.
    fn with_ticks_at(times: &[u32]) -> (Vec<Step>, Vec<u64>) {
        let mut history = History::default();
        history.give(event::write(0, CONTROL, ENABLE));
        times.iter().for_each(|time| {
            history.give(event::tick(*time, 5));
        });
        let all = [0].iter().chain(times).map(|time| u64::from(*time));
        (history.steps, all.collect())
    }

    fn is_kept_with_ticks_at(ticks: &[u32]) -> bool {
        let (steps, times) = with_ticks_at(ticks);
        runs(&steps, &times).iter().all(|run| run.kept().is_ok())
    }

    #[test]
    fn each_timer_that_runs_out_is_told() {
        let (steps, times) = with_ticks_at(&[7_999_999, 8_000_100, 8_350_099, 8_350_200]);
        let run = |window: Window, took: u64| Run {
            window,
            took,
            was_held_back: false,
        };
        let expected = [run(BREAK, 8_000_100), run(WAIT, 350_100)];
        assert_eq!(runs(&steps, &times), expected);
    }

    #[test]
    fn a_tick_too_late_leaves_the_window() {
        assert!(is_kept_with_ticks_at(&[8_133_000, 8_503_000]));
        assert!(!is_kept_with_ticks_at(&[8_133_001]));
        assert!(!is_kept_with_ticks_at(&[8_133_000, 8_503_001]));
    }

    /// Two modules, until the right one is taken out while Next Pages are exchanged.
    fn with_partner_taken_out() -> Joined {
        let mut joined = Joined::new(Random::new(1));
        let pages = in_a_row(vec![message_page(6, 0), message_page(10, 0)]);
        let module = Module::with_host(1 << 21, &pages, 0);
        joined.put_in_both(&module, &module);
        let is_later = |joined: &Joined| joined.sides[LEFT].history.device.round() == Round::Later;
        assert!(joined.run_until(20_000_000, is_later));
        joined.swap_head(5_000_000, RIGHT, &module);
        joined
    }

    #[test]
    fn a_partner_that_is_gone_is_lost_in_time() {
        let mut joined = with_partner_taken_out();
        let left_is_in_break = |joined: &Joined| joined.sides[LEFT].state() == State::Break;
        assert!(joined.run_until(5_000_000, left_is_in_break));
        let runs = runs_in_windows(&joined.sides[LEFT]).expect("all are in their windows");
        let last = runs.last().expect("timers have run out");
        assert_eq!(last.window, LOST);
        for (took, is_in_time) in [
            (3_999_999, false),
            (4_000_000, true),
            (4_144_800, true),
            (4_144_801, false),
        ] {
            assert_eq!(Run { took, ..*last }.kept().is_ok(), is_in_time);
        }
    }
}
