//! The two line modes and the numbers that each of them owns.

/// What 01 says of one mode. All times are in nanoseconds.
#[derive(Debug)]
pub struct LineMode {
    pub name: &'static str,
    pub spacing: u32,
    pub tolerance: u32,
    pub quiet_limit: u32,
    /// The positions among 1 to 26 that have a transition.
    pub delimiter: &'static [usize],
}

/// Mode 0, high speed.
pub const HSM: LineMode = LineMode {
    name: "HSM",
    spacing: 30,
    tolerance: 9,
    quiet_limit: 130,
    delimiter: &[1, 2, 3, 5, 7, 8, 12, 13, 14, 15, 19, 21, 24, 25, 26],
};

/// Mode 1, low speed.
pub const LSM: LineMode = LineMode {
    name: "LSM",
    spacing: 800,
    tolerance: 240,
    quiet_limit: 3441,
    delimiter: &[
        1, 2, 3, 4, 5, 6, 7, 8, 9, 11, 13, 15, 16, 18, 19, 20, 22, 23, 24, 26,
    ],
};

/// The mode with this number. The whole number is looked at, so 2^32 is no mode.
pub fn line_mode(number: u64) -> Option<&'static LineMode> {
    match number {
        0 => Some(&HSM),
        1 => Some(&LSM),
        _ => None,
    }
}
