//! Runs of a device that have more events than one call of `drive` has room for.
//!
//! Such a run goes on in a further call from where its device has entered Break. By demand 3
//! nothing of what was before matters from there on but what it advertises, and two bits of
//! 513 until they are read. So the further call begins with a fresh device that advertises
//! the same and is enabled at the reading of that entry. A run that reads 513 later on is
//! not for this.

use crate::call::Call;
use crate::cells::MOST_CELLS;
use crate::event::{self, EventCells, WRITE};
use crate::history::Step;
use reference::answer::NOTHING;
use reference::device::registers::{ADVERTISED, CONTROL, ENABLE, RESET};
use reference::device::State;

/// So many events fit into one call, beside the operation and the number of cells.
pub const MOST_EVENTS: usize = (MOST_CELLS - 2) / 3;

/// A call, and the answers that it must have.
pub struct Part {
    pub call: Call,
    pub answers: Vec<u64>,
}

impl Part {
    /// These steps, after events that are answered with nothing.
    fn of(first: &[EventCells], steps: &[Step]) -> Part {
        let mut events = first.to_vec();
        events.extend(steps.iter().map(|step| step.event));
        let mut answers = vec![NOTHING; first.len()];
        answers.extend(steps.iter().map(|step| step.answer));
        let call = Call::run(&events);
        Part { call, answers }
    }
}

/// The calls for a run with these steps, none with more events than the most.
pub fn parts(steps: &[Step], most: usize) -> Vec<Part> {
    let (mut first, mut advertised) = (Vec::new(), 0);
    let mut rest = steps;
    let mut parts = Vec::new();
    while first.len() + rest.len() > most {
        let fitting = &rest[..most - first.len()];
        let entry = fitting.iter().rposition(enters_break);
        let entry = entry.expect("a run as long as this has been in Break");
        let (these, others) = rest.split_at(entry + 1);
        parts.push(Part::of(&first, these));
        advertised = these.iter().fold(advertised, advertised_after);
        first = into_break(these[entry].event[1] as u32, advertised);
        rest = others;
    }
    parts.push(Part::of(&first, rest));
    parts
}

fn enters_break(step: &Step) -> bool {
    step.before != State::Break && step.after == State::Break
}

/// What a device advertises after this step.
fn advertised_after(advertised: u64, step: &Step) -> u64 {
    let [kind, _, argument] = step.event;
    let (register, value) = (argument >> 16, argument & 0xFFFF);
    if kind != WRITE {
        return advertised;
    }
    if register == CONTROL && value & u64::from(RESET) != 0 {
        return 0;
    }
    match ADVERTISED.iter().position(|number| *number == register) {
        Some(part) => advertised & !(0xFFFF << (16 * part)) | value << (16 * part),
        None => advertised,
    }
}

/// What brings a fresh device into Break at this reading.
fn into_break(reading: u32, advertised: u64) -> Vec<EventCells> {
    let writes = event::advertising(advertised).into_iter();
    let all = writes.chain([(CONTROL, ENABLE)]);
    all.map(|(register, value)| event::write(reading, register, value))
        .collect()
}

#[cfg(test)]
mod tests {
    use super::*;
    use crate::joined::{Joined, Module, LEFT};
    use crate::model::answer_cells;
    use crate::random::Random;

    /// What happens to a module that settles and is restarted a few times.
    fn steps() -> Vec<Step> {
        let mut joined = Joined::new(Random::new(1));
        let module = Module::without_host(1 << 21);
        joined.put_in_both(&module, &module);
        for _ in 0..3 {
            let both_up = |joined: &Joined| joined.both_are(State::Up);
            assert!(joined.run_until(200_000_000, both_up));
            joined.restart(LEFT);
            joined.run_for(20_000_000);
        }
        joined.sides[LEFT].history.steps.clone()
    }

    #[test]
    fn a_run_in_parts_has_the_answers_of_the_whole() {
        let steps = steps();
        assert_eq!(parts(&steps, MOST_EVENTS).len(), 1);
        let most = steps.len() / 2;
        let parts = parts(&steps, most);
        assert!(parts.len() > 1);
        for part in &parts {
            assert!(part.answers.len() <= most);
            assert_eq!(answer_cells(&part.call), part.answers);
        }
        let of_parts: usize = parts.iter().map(|part| part.answers.len()).sum();
        assert_eq!(of_parts, steps.len() + 4 * (parts.len() - 1));
    }
}
