//! A device of the reference, and all that has happened to it.

use crate::event::EventCells;
use reference::calls;
use reference::device::{Device, Round, State};

/// What of a device matters to the Next Pages.
#[derive(Clone, Copy, Debug, PartialEq)]
pub struct Glimpse {
    pub round: Round,
    pub own_page: u64,
    pub held_page: u64,
    pub is_loaded: bool,
    pub is_holding: bool,
    /// When the partner is lost if it stays silent, where that is looked at.
    pub lost_at: Option<u32>,
}

impl Glimpse {
    pub fn of(device: &Device) -> Glimpse {
        Glimpse {
            round: device.round(),
            own_page: device.own_page(),
            held_page: device.held_page(),
            is_loaded: device.is_loaded(),
            is_holding: device.is_holding(),
            lost_at: device.lost_at(),
        }
    }
}

/// One event, what it was answered, and the states around it.
#[derive(Clone, Debug)]
pub struct Step {
    pub event: EventCells,
    pub before: State,
    pub page_was_out: bool,
    /// When the time that mattered before the event was to run out, if there was one.
    pub runs_out_at: Option<u32>,
    pub answer: u64,
    pub after: State,
    pub glimpse_before: Glimpse,
    pub glimpse_after: Glimpse,
}

#[derive(Clone, Default)]
pub struct History {
    pub device: Device,
    pub steps: Vec<Step>,
}

impl History {
    pub fn give(&mut self, event: EventCells) -> u64 {
        let before = self.device.state();
        let page_was_out = self.device.page_is_out();
        let runs_out_at = self.device.time_runs_out_at();
        let glimpse_before = Glimpse::of(&self.device);
        let answer = calls::step(&mut self.device, event);
        self.steps.push(Step {
            event,
            before,
            page_was_out,
            runs_out_at,
            answer,
            after: self.device.state(),
            glimpse_before,
            glimpse_after: Glimpse::of(&self.device),
        });
        answer
    }

    pub fn events(&self) -> Vec<EventCells> {
        self.steps.iter().map(|step| step.event).collect()
    }
}
