//! Reading a capture.
//!
//! 01 tells the reading edge by edge. Here it is done another way, so that this is no
//! copy of a program that follows 01's telling: all gaps of the capture are judged
//! first. Then the edges of an attempt are laid out on the positions of a page, each
//! as many positions further as its gap counts, and the laid-out positions are held
//! against the pattern as a whole.

use crate::answer;
use crate::check::{remainder_bits, word_of, CHECK_BITS, WORD_BITS};
use crate::gap::{judge_gap, time_between};
use crate::line_mode::LineMode;
use crate::page::{asked, Asked, LAST_POSITION};

/// How an attempt ends.
#[derive(Clone, Copy, Debug, PartialEq)]
pub enum Outcome {
    Good(u64),
    Gap,
    Cut,
    Check,
}

impl Outcome {
    /// The outcome as the one number that the calls answer.
    pub fn answer(self) -> u64 {
        match self {
            Outcome::Good(word) => answer::good(word),
            Outcome::Gap => answer::GAP,
            Outcome::Cut => answer::CUT,
            Outcome::Check => answer::CHECK,
        }
    }
}

/// One attempt of a capture. Edges are named by their places in the capture.
#[derive(Clone, Debug, PartialEq)]
pub struct Attempt {
    /// The edge that is position 1.
    pub opens: usize,
    pub outcome: Outcome,
    /// The edge that ends the attempt. If there is none, the end of the capture does.
    pub ended_by: Option<usize>,
    /// The edge that opens the next attempt, or the length of the capture.
    pub next: usize,
}

/// What lies between an edge of a capture and the edge before it.
#[derive(Clone, Copy, Debug, PartialEq)]
enum Judged {
    Positions(usize),
    Quiet,
    Unfit,
}

/// A capture with all its gaps judged.
pub struct JudgedCapture<'a> {
    mode: &'a LineMode,
    length: usize,
    /// The gap after each edge but the last.
    gaps: Vec<Judged>,
}

/// How the edges of an attempt lie on the positions of a page.
struct Layout {
    /// The positions of the edges, the first being 1. The layout goes on for as long
    /// as gaps count as positions, and not further than can matter.
    positions: Vec<usize>,
    /// The gap after the last edge of the layout.
    stopped_by: Judged,
}

/// Judges every gap of the capture.
pub fn judge_all<'a>(mode: &'a LineMode, readings: &[u32]) -> JudgedCapture<'a> {
    let gaps = readings
        .windows(2)
        .map(|pair| judged(mode, time_between(pair[0], pair[1])))
        .collect();
    JudgedCapture {
        mode,
        length: readings.len(),
        gaps,
    }
}

fn judged(mode: &LineMode, gap: u32) -> Judged {
    match judge_gap(mode, gap) {
        answer::QUIET => Judged::Quiet,
        answer::UNFIT => Judged::Unfit,
        number => Judged::Positions((number - answer::number(0)) as usize),
    }
}

impl JudgedCapture<'_> {
    /// All attempts from the first edge on, each opening where the one before says.
    pub fn attempts(&self) -> Vec<Attempt> {
        let mut attempts = Vec::new();
        let mut place = 0;
        while place < self.length {
            let attempt = self.attempt(place);
            place = attempt.next;
            attempts.push(attempt);
        }
        attempts
    }

    /// The attempt that opens at this edge, which must be there. The gap before the
    /// edge is not looked at.
    pub fn attempt(&self, opens: usize) -> Attempt {
        let layout = self.layout(opens);
        let (outcome, edges_later) = outcome(self.mode, &layout);
        let ending_edge = opens + edges_later;
        let ended_by = (ending_edge < self.length).then_some(ending_edge);
        Attempt {
            opens,
            outcome,
            ended_by,
            next: self.first_after_quiet(ending_edge),
        }
    }

    /// The edges from this one on, laid out. Each is at least one position further than
    /// the one before, so after as many edges as there are positions the page is over.
    fn layout(&self, opens: usize) -> Layout {
        let mut positions = vec![1];
        let mut position = 1;
        for gap in self.gaps[opens..].iter().take(LAST_POSITION) {
            let Judged::Positions(further) = gap else {
                break;
            };
            position += further;
            positions.push(position);
        }
        // The end of the capture counts as quiet.
        let after_the_last = opens + positions.len() - 1;
        let stopped_by = *self.gaps.get(after_the_last).unwrap_or(&Judged::Quiet);
        Layout {
            positions,
            stopped_by,
        }
    }

    /// The first edge, not before this one, that follows a quiet gap; else the length.
    ///
    /// An edge that ends an attempt as Cut follows a quiet gap and opens the next one
    /// itself. An edge that ends it in another way does not, and is never found here.
    fn first_after_quiet(&self, edge: usize) -> usize {
        (edge..self.length)
            .find(|edge| self.gaps[edge - 1] == Judged::Quiet)
            .unwrap_or(self.length)
    }
}

/// How the attempt ends, and how many edges after its first the edge is that ends it.
///
/// No quiet gap is in the layout, so quiet has been looked at before the pattern is.
fn outcome(mode: &LineMode, layout: &Layout) -> (Outcome, usize) {
    let positions = &layout.positions;
    let is_wrong = |edge: &usize| !fits(mode, positions[edge - 1], positions[*edge]);
    let first_wrong = (1..positions.len()).find(is_wrong);
    let last = positions.iter().position(|at| *at == LAST_POSITION);
    match (first_wrong, last) {
        // Positions rise, so an edge at the last position is wrong itself or comes
        // before every edge that lies too far.
        (Some(wrong), Some(last)) if wrong <= last => (Outcome::Gap, wrong),
        (_, Some(last)) => (page_outcome(&positions[..=last]), last),
        (Some(wrong), None) => (Outcome::Gap, wrong),
        (None, None) if layout.stopped_by == Judged::Quiet => (Outcome::Cut, positions.len()),
        (None, None) => (Outcome::Gap, positions.len()),
    }
}

/// Whether an edge may be at this position if the edge before it is at that one: 01 lets
/// a transition be here, and none that 01 asks for is missing in between.
fn fits(mode: &LineMode, before: usize, position: usize) -> bool {
    let mut between = before + 1..position;
    asked(mode, position) != Asked::NoTransition
        && between.all(|missing| asked(mode, missing) != Asked::Transition)
}

/// Good or Check, for a page whose edges are all at positions that fit.
fn page_outcome(positions: &[usize]) -> Outcome {
    let bits: Vec<bool> = (0..WORD_BITS + CHECK_BITS)
        .map(|bit| positions.contains(&(28 + 2 * bit)))
        .collect();
    let (word_bits, check_bits) = bits.split_at(WORD_BITS);
    let word = word_of(word_bits);
    if remainder_bits(word) == check_bits {
        Outcome::Good(word)
    } else {
        Outcome::Check
    }
}

/// What a fresh reader answers at each edge: the outcome at the edge that ends an
/// attempt, else nothing. An attempt that only the end of the capture ends is still
/// open for the reader.
pub fn answers_at_edges(mode: &LineMode, readings: &[u32]) -> Vec<u64> {
    let mut answers = vec![answer::NOTHING; readings.len()];
    for attempt in judge_all(mode, readings).attempts() {
        if let Some(edge) = attempt.ended_by {
            answers[edge] = attempt.outcome.answer();
        }
    }
    answers
}

#[cfg(test)]
mod tests;
