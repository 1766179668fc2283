//! The time between two readings, and what a gap counts as.

use crate::answer;
use crate::line_mode::LineMode;

/// The most positions that a gap can count as.
const MOST_POSITIONS: u32 = 4;

/// The later reading less the earlier, modulo 2^32. The clock may have rolled over,
/// so which of the two readings is the larger one says nothing.
pub fn time_between(earlier: u32, later: u32) -> u32 {
    later.wrapping_sub(earlier)
}

/// What a gap counts as: a number of positions, quiet or unfit.
pub fn judge_gap(mode: &LineMode, gap: u32) -> u64 {
    for positions in 1..=MOST_POSITIONS {
        let middle = positions * mode.spacing;
        if gap.abs_diff(middle) <= mode.tolerance {
            return answer::number(u64::from(positions));
        }
    }
    if gap >= mode.quiet_limit {
        answer::QUIET
    } else {
        answer::UNFIT
    }
}

#[cfg(test)]
mod tests {
    use super::*;
    use crate::line_mode::{HSM, LSM};

    #[test]
    fn the_hsm_examples_of_01() {
        assert_eq!(judge_gap(&HSM, 20), answer::UNFIT);
        assert_eq!(judge_gap(&HSM, 21), answer::number(1));
        assert_eq!(judge_gap(&HSM, 39), answer::number(1));
        assert_eq!(judge_gap(&HSM, 40), answer::UNFIT);
        assert_eq!(judge_gap(&HSM, 129), answer::number(4));
        assert_eq!(judge_gap(&HSM, 130), answer::QUIET);
    }

    #[test]
    fn the_ends_of_the_lsm_windows() {
        assert_eq!(judge_gap(&LSM, 559), answer::UNFIT);
        assert_eq!(judge_gap(&LSM, 560), answer::number(1));
        assert_eq!(judge_gap(&LSM, 1040), answer::number(1));
        assert_eq!(judge_gap(&LSM, 1041), answer::UNFIT);
        assert_eq!(judge_gap(&LSM, 3440), answer::number(4));
        assert_eq!(judge_gap(&LSM, 3441), answer::QUIET);
    }

    #[test]
    fn no_gap_at_all_is_unfit_and_the_longest_is_quiet() {
        for mode in [&HSM, &LSM] {
            assert_eq!(judge_gap(mode, 0), answer::UNFIT);
            assert_eq!(judge_gap(mode, u32::MAX), answer::QUIET);
        }
    }
}
