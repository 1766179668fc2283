//! Counting which kinds of cases a random test has met.
//!
//! A random test that never meets a case shows nothing about it. So each test names
//! the kinds that it must meet, and fails if one of them never came.

/// A kind: its name, and whether a case is of this kind.
pub type Kind<Case> = (&'static str, fn(&Case) -> bool);

pub struct Kinds<Case: 'static> {
    kinds: &'static [Kind<Case>],
    counts: Vec<u64>,
}

impl<Case> Kinds<Case> {
    pub fn new(kinds: &'static [Kind<Case>]) -> Kinds<Case> {
        Kinds {
            kinds,
            counts: vec![0; kinds.len()],
        }
    }

    pub fn count(&mut self, case: &Case) {
        for ((_, is_of_this_kind), count) in self.kinds.iter().zip(&mut self.counts) {
            if is_of_this_kind(case) {
                *count += 1;
            }
        }
    }

    /// Prints all counts and fails the test if one of them is zero.
    pub fn assert_all_met(&self) {
        for ((name, _), count) in self.kinds.iter().zip(&self.counts) {
            println!("{count:>8}  {name}");
        }
        for ((name, _), count) in self.kinds.iter().zip(&self.counts) {
            assert!(*count > 0, "never met: {name}");
        }
    }
}
