//! What a device has heard on its line.
//!
//! There is no reader here that moves from edge to edge. The edges are kept, and each new
//! one has the whole list read again, as a capture that ends there.

use crate::gap::time_between;
use crate::line_mode::LSM;
use crate::reader::{judge_all, Attempt, Outcome};

/// The edges that the reader has taken since it was fresh, without those from before the
/// attempt that opened last, since these can alter nothing any more.
#[derive(Clone, Debug, Default)]
pub struct Heard {
    edges: Vec<u32>,
    is_open: bool,
}

impl Heard {
    /// Takes an edge, and gives the outcome of the attempt that it ends, if it ends one.
    pub fn take(&mut self, reading: u32) -> Option<Outcome> {
        self.edges.push(reading);
        let this_edge = self.edges.len() - 1;
        let attempts = judge_all(&LSM, &self.edges).attempts();
        let ended_here = |attempt: &&Attempt| attempt.ended_by == Some(this_edge);
        let outcome = attempts.iter().find(ended_here).map(|ended| ended.outcome);
        let newest = attempts.last().expect("the first edge opens an attempt");
        // Only the end of the list ends it, so for the reader it is still open.
        self.is_open = newest.ended_by.is_none();
        self.edges.drain(..newest.opens);
        outcome
    }

    /// Whether an attempt is open whose last edge is less than the quiet limit old.
    pub fn is_in_an_attempt(&self, now: u32) -> bool {
        let is_recent = |edge: &u32| time_between(*edge, now) < LSM.quiet_limit;
        self.is_open && self.edges.last().is_some_and(is_recent)
    }
}

#[cfg(test)]
mod tests {
    use super::*;
    use crate::page::readings;

    fn outcomes(edges: &[u32]) -> (Vec<Option<Outcome>>, Heard) {
        let mut heard = Heard::default();
        let outcomes = edges.iter().map(|edge| heard.take(*edge)).collect();
        (outcomes, heard)
    }

    #[test]
    fn a_page_ends_at_its_last_edge_and_closes_the_attempt() {
        let page = readings(&LSM, 0x1234, u32::MAX - 50_000);
        let (told, heard) = outcomes(&page);
        let (last, before) = told.split_last().expect("a page has edges");
        assert_eq!(*last, Some(Outcome::Good(0x1234)));
        assert!(before.iter().all(Option::is_none));
        assert!(!heard.is_in_an_attempt(page[page.len() - 1]));
    }

    #[test]
    fn an_attempt_is_recent_for_one_less_than_the_quiet_limit() {
        let (_, heard) = outcomes(&[u32::MAX]);
        assert!(heard.is_in_an_attempt(u32::MAX));
        assert!(heard.is_in_an_attempt(3439));
        assert!(!heard.is_in_an_attempt(3440));
        assert!(!Heard::default().is_in_an_attempt(0));
    }

    #[test]
    fn a_cut_edge_opens_the_next_attempt_and_a_gap_opens_none() {
        let (told, heard) = outcomes(&[0, 800, 5000, 5100, 5900, 9341]);
        let expected = [None, None, Some(Outcome::Cut), Some(Outcome::Gap)];
        assert_eq!(told[..4], expected);
        assert_eq!(told[4..], [None, None]);
        assert!(heard.is_in_an_attempt(9341));
        assert_eq!(heard.edges, [9341]);
    }
}
