//! Counting by name how often something was met, where a test learns the names only as
//! it runs. As with `kinds`, what must be met is named beforehand.

use std::collections::BTreeMap;

pub struct Tally {
    counts: BTreeMap<String, u64>,
}

impl Tally {
    /// A tally of these names, each of which must be met.
    pub fn of<Name: Into<String>>(names: impl IntoIterator<Item = Name>) -> Tally {
        let counts = names.into_iter().map(|name| (name.into(), 0)).collect();
        Tally { counts }
    }

    /// Counts one. A name that was not given beforehand is not counted.
    pub fn meet(&mut self, name: &str) {
        if let Some(count) = self.counts.get_mut(name) {
            *count += 1;
        }
    }

    /// Prints all counts and fails the test if one of them is zero.
    pub fn assert_all_met(&self) {
        for (name, count) in &self.counts {
            println!("{count:>8}  {name}");
        }
        for (name, count) in &self.counts {
            assert!(*count > 0, "never met: {name}");
        }
    }
}
