//! Events as three cells each: kind, clock reading, argument.

pub type EventCells = [u64; 3];

pub const EDGE: u64 = 0;
pub const TICK: u64 = 1;
pub const SENT: u64 = 2;
pub const LINK: u64 = 3;
pub const READ: u64 = 4;
pub const WRITE: u64 = 5;

pub fn edge(now: u32) -> EventCells {
    [EDGE, now.into(), 0]
}

pub fn tick(now: u32, draw: u64) -> EventCells {
    [TICK, now.into(), draw]
}

pub fn sent(now: u32) -> EventCells {
    [SENT, now.into(), 0]
}

pub fn link(now: u32, is_up: bool) -> EventCells {
    [LINK, now.into(), is_up.into()]
}

pub fn read(now: u32, register: u64) -> EventCells {
    [READ, now.into(), register]
}

pub fn write(now: u32, register: u64, value: u16) -> EventCells {
    [WRITE, now.into(), register << 16 | u64::from(value)]
}

/// The registers 514 to 516, each with the value that makes a device advertise this word.
pub fn advertising(word: u64) -> [(u64, u16); 3] {
    in_three_registers(514, word)
}

/// The registers of the own Next Page, each with its value for this word. The write of 520
/// loads the page, so it is the last one.
pub fn loading(word: u64) -> [(u64, u16); 3] {
    let [low, middle, high] = in_three_registers(520, word);
    [high, middle, low]
}

fn in_three_registers(first: u64, word: u64) -> [(u64, u16); 3] {
    let part = |lowest: u32| (word >> lowest) as u16;
    [
        (first, part(0)),
        (first + 1, part(16)),
        (first + 2, part(32)),
    ]
}

/// The register of a read or a write.
pub fn register(event: &EventCells) -> Option<u64> {
    match event[0] {
        READ => Some(event[2]),
        WRITE => Some(event[2] >> 16),
        _ => None,
    }
}
