//! A run of events from a fresh device.
use crate::Refusal;
use device::Device;

#[path = "device.rs"]
mod device;

/// A fresh device takes the events, three cells each, and each gets its answer; tells their number.
pub(crate) fn run(events: &[u64], answers: &mut [u64]) -> Result<u64, Refusal> {
    let count = events.len() / 3;
    let answers = answers.get_mut(..count).ok_or(Refusal::Room)?;
    let mut device = Device::fresh();
    for (cells, answer) in events.chunks_exact(3).zip(answers) {
        *answer = device.take(cells[0], cells[1], cells[2]);
    }
    Ok(count as u64)
}
