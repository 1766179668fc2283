//! The wire between two modules: how the edges of a page come to the other end, and what
//! becomes of a page where the wire is bad.

use crate::random::Random;
use reference::line_mode::LSM;
use reference::page::readings;

/// How long an edge takes from one end of the wire to the other, in nanoseconds.
const DELAY: u64 = 50;

/// What a bad wire does to a page.
#[derive(Clone, Copy, Debug, PartialEq)]
pub enum Fault {
    /// No edge of it comes.
    Dropped,
    /// Only its first edges come.
    Cut,
    /// One edge does not come.
    EdgeMissing,
    /// One edge comes too late.
    EdgeMoved,
    /// It comes as another page, and the check bits agree.
    Altered,
}

pub const FAULTS: [Fault; 5] = [
    Fault::Dropped,
    Fault::Cut,
    Fault::EdgeMissing,
    Fault::EdgeMoved,
    Fault::Altered,
];

/// Edges that are so much late fit no gap.
const TOO_LATE: u32 = 400;

#[derive(Default)]
pub struct Wire {
    /// It damages one page in so many, until this time.
    bad: Option<(u64, u64)>,
    /// What it has done to pages.
    pub faults: Vec<Fault>,
}

impl Wire {
    pub fn damage_one_page_in(&mut self, so_many: u64, until: u64) {
        self.bad = Some((so_many, until));
    }

    /// How much later each edge of the page is at the other end, and how much later its
    /// last edge is sent.
    pub fn carry(&mut self, word: u64, now: u64, random: &mut Random) -> (Vec<u64>, u64) {
        let whole = readings(&LSM, word, 0);
        let sent = whole[whole.len() - 1];
        let carried = match self.fault(now, random) {
            None => whole,
            Some(fault) => {
                self.faults.push(fault);
                damaged(whole, word, fault, random)
            }
        };
        let edges = carried.into_iter().map(|edge| u64::from(edge) + DELAY);
        (edges.collect(), sent.into())
    }

    fn fault(&self, now: u64, random: &mut Random) -> Option<Fault> {
        let (one_in, until) = self.bad?;
        let is_damaged = now < until && random.once_in(one_in);
        is_damaged.then(|| random.pick(&FAULTS))
    }
}

/// What comes of a page with these edges.
fn damaged(mut edges: Vec<u32>, word: u64, fault: Fault, random: &mut Random) -> Vec<u32> {
    let place = random.below(edges.len() as u64) as usize;
    match fault {
        Fault::Dropped => edges.clear(),
        Fault::Cut => edges.truncate(place),
        Fault::EdgeMissing => drop(edges.remove(place)),
        Fault::EdgeMoved => edges[place] += TOO_LATE,
        Fault::Altered => {
            let bits = 1 << random.below(48) | 1 << random.below(48);
            return readings(&LSM, word ^ bits, 0);
        }
    }
    edges
}

#[cfg(test)]
mod tests {
    use super::*;

    #[test]
    fn a_good_wire_only_delays() {
        let page = readings(&LSM, 0x1234, 0);
        let delayed: Vec<u64> = page.iter().map(|edge| u64::from(*edge) + 50).collect();
        let mut wire = Wire::default();
        let carried = wire.carry(0x1234, 0, &mut Random::new(1));
        assert_eq!(carried, (delayed, 124_800));
        assert_eq!(wire.faults, []);
    }

    #[test]
    fn a_bad_wire_damages_pages_until_it_is_good_again() {
        let mut wire = Wire::default();
        wire.damage_one_page_in(1, 1000);
        let good = Wire::default().carry(0x1234, 0, &mut Random::new(1));
        let mut random = Random::new(1);
        assert_ne!(wire.carry(0x1234, 999, &mut random).0, good.0);
        assert_eq!(wire.carry(0x1234, 1000, &mut random).0, good.0);
        assert_eq!(wire.faults.len(), 1);
    }
}
