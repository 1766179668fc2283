//! The host of a module: the controller's software, which uses the registers of a device to
//! load its own Next Pages and to read those of the partner.
//!
//! It makes one access after the other. A look reads what the partner has sent and what is
//! loaded; after each look the host may load a page, and then it looks again. It knows
//! nothing of the device but what it reads:
//!
//! - 517 is zero from Break on until the partner's base page is acknowledged. Break forgets
//!   the registers too, so page 1 is due whenever 517 is zero and 520-522 are not page 1.
//!   Break is long enough for a host that looks often enough to load it there.
//! - Page k+1 is due once 523-525 have shown the partner's page k: only then has the device
//!   taken page k out of 520-522.

use crate::event;
use crate::random::Random;
use reference::device::registers::{OWN_NEXT_PAGE, PARTNER, PARTNER_NEXT_PAGE};
use std::collections::VecDeque;

const MICROSECOND: u64 = 1000;

/// How long an access is after the one before, and a look after the one before: at least,
/// and at most. A heard page stays in 523-525 for 1262 microseconds at least (four times
/// silent and a page at each end), and a device does not wait for a host that has nothing
/// more to say, so looks must come more often.
const BETWEEN_ACCESSES: (u64, u64) = (10 * MICROSECOND, 30 * MICROSECOND);
const BETWEEN_LOOKS: (u64, u64) = (100 * MICROSECOND, 700 * MICROSECOND);

/// With this lateness, page 1 is still loaded within Break.
pub const LATEST: u64 = 5000 * MICROSECOND;

/// A number from the least to the most.
pub fn between(random: &mut Random, (least, most): (u64, u64)) -> u64 {
    least + random.below(most - least + 1)
}

/// One access to a register.
#[derive(Clone, Copy, Debug, PartialEq)]
pub enum Access {
    Read { register: u64 },
    Write { register: u64, value: u16 },
}

/// What a host has done or understood.
#[derive(Clone, Copy, Debug, PartialEq)]
pub enum Note {
    /// It has loaded this page of its own, counted from 1.
    Loaded { number: usize, page: u64 },
    /// It has read this page for the first time.
    Heard { page: u64 },
    /// It has found 517 zero, so the partner is gone, and this in 523-525.
    BeganAnew { heard: u64 },
    /// A page came between its reads of 523-525, so it has to read them again.
    Torn,
}

/// What a host has read in one look.
#[derive(Debug, Default)]
struct Look {
    partner: u64,
    loaded: u64,
    heard: u64,
    /// 523 once more. There is no latch: if a page comes between the reads, they are of two
    /// pages. Pages in a row have different toggles, so 523 tells.
    low_part_again: u16,
}

impl Look {
    fn accesses() -> impl Iterator<Item = Access> {
        let all = [PARTNER, OWN_NEXT_PAGE, PARTNER_NEXT_PAGE];
        let words = all.into_iter().flatten();
        let again = PARTNER_NEXT_PAGE[0];
        words
            .chain([again])
            .map(|register| Access::Read { register })
    }

    fn of(values: &[u16]) -> Look {
        let word = |first: usize| {
            let parts = values[first..first + 3].iter().rev();
            parts.fold(0, |word, part| word << 16 | u64::from(*part))
        };
        Look {
            partner: word(0),
            loaded: word(3),
            heard: word(6),
            low_part_again: values[9],
        }
    }

    fn is_torn(&self) -> bool {
        self.heard as u16 != self.low_part_again
    }

    /// Whether 523-525 hold a page. One that is there has Ack, so 523 is not zero; 524 and
    /// 525 may be of a page that Break has taken away again between the reads of 523.
    fn has_a_page(&self) -> bool {
        self.low_part_again != 0
    }

    /// Whether the device has been in Break, and no partner has come since.
    fn has_no_partner(&self) -> bool {
        self.partner as u16 == 0
    }
}

pub struct Host {
    /// What it has to say, one page after the other.
    pages: Vec<u64>,
    /// A page is loaded at most so long after it was found to be due.
    lateness: u64,
    accesses: VecDeque<Access>,
    /// What this look has read so far.
    values: Vec<u16>,
    has_partner: bool,
    /// How many of its pages are loaded, since there is this partner.
    loaded: usize,
    /// The pages of this partner, Null messages too.
    heard: Vec<u64>,
    /// The place of the page that is due, and when it is to be loaded.
    due: Option<(usize, u64)>,
    /// All that it has done and understood, and when.
    pub notes: Vec<(u64, Note)>,
}

impl Host {
    pub fn new(pages: &[u64], lateness: u64) -> Host {
        Host {
            pages: pages.to_vec(),
            lateness,
            accesses: Look::accesses().collect(),
            values: Vec::new(),
            has_partner: false,
            loaded: 0,
            heard: Vec::new(),
            due: None,
            notes: Vec::new(),
        }
    }

    /// All pages of this partner, Null messages too.
    pub fn heard(&self) -> &[u64] {
        &self.heard
    }

    /// The access that it makes now.
    pub fn next_access(&mut self) -> Access {
        self.accesses.pop_front().expect("a host never ends")
    }

    /// Takes what the access was answered, and says how much later the next one is.
    pub fn take(&mut self, access: Access, value: u16, now: u64, random: &mut Random) -> u64 {
        match access {
            Access::Read { .. } => self.values.push(value),
            Access::Write { register, .. } => self.note_load(register, now),
        }
        if !self.accesses.is_empty() {
            return between(random, BETWEEN_ACCESSES);
        }
        let look = Look::of(&std::mem::take(&mut self.values));
        self.understand(&look, now);
        let hurries = look.is_torn() || self.load_what_is_due(&look, now, random);
        self.accesses.extend(Look::accesses());
        let pause = match hurries {
            true => BETWEEN_ACCESSES,
            false => BETWEEN_LOOKS,
        };
        between(random, pause)
    }

    /// The write of 520 is the one that loads the page.
    fn note_load(&mut self, register: u64, now: u64) {
        if register == OWN_NEXT_PAGE[0] {
            let number = self.loaded;
            let page = self.pages[number - 1];
            self.notes.push((now, Note::Loaded { number, page }));
        }
    }

    fn understand(&mut self, look: &Look, now: u64) {
        if look.has_no_partner() {
            return self.begin_anew(look, now);
        }
        self.has_partner = true;
        if look.is_torn() {
            return self.notes.push((now, Note::Torn));
        }
        let page = look.heard;
        if look.has_a_page() && self.heard.last() != Some(&page) {
            self.heard.push(page);
            self.notes.push((now, Note::Heard { page }));
        }
    }

    fn begin_anew(&mut self, look: &Look, now: u64) {
        if self.has_partner {
            let heard = look.heard;
            self.notes.push((now, Note::BeganAnew { heard }));
        }
        self.has_partner = false;
        self.heard.clear();
        let has_page_1 = self.pages.first() == Some(&look.loaded);
        self.loaded = has_page_1.into();
    }

    /// Plans to load a page if one is due and it is time. Says whether it does.
    fn load_what_is_due(&mut self, look: &Look, now: u64, random: &mut Random) -> bool {
        let Some(place) = self.place_of_page_to_load(look) else {
            self.due = None;
            return false;
        };
        let is_known = self.due.is_some_and(|(known, _)| known == place);
        if !is_known {
            let later = random.below(self.lateness + 1);
            self.due = Some((place, now + later));
        }
        if self.due.is_some_and(|(_, when)| now < when) {
            return false;
        }
        self.load(place);
        true
    }

    fn place_of_page_to_load(&self, look: &Look) -> Option<usize> {
        let is_there = |place: usize| self.pages.get(place) == Some(&look.loaded);
        let place = match self.loaded {
            0 => 0,
            // Break has come between the look at 517 and this one, or between two writes.
            loaded if !is_there(loaded - 1) => loaded - 1,
            loaded if self.heard.len() >= loaded => loaded,
            _ => return None,
        };
        (place < self.pages.len()).then_some(place)
    }

    fn load(&mut self, place: usize) {
        let writes = event::loading(self.pages[place]);
        let accesses = writes.map(|(register, value)| Access::Write { register, value });
        self.accesses.extend(accesses);
        self.loaded = place + 1;
        self.due = None;
    }
}

#[cfg(test)]
mod tests {
    use super::*;
    use crate::next_page::{in_a_row, message_page};
    use std::collections::BTreeMap;

    /// A host with two pages, and the registers that it uses.
    struct Bench {
        host: Host,
        pages: Vec<u64>,
        registers: BTreeMap<u64, u16>,
    }

    impl Bench {
        fn new() -> Bench {
            let pages = in_a_row(vec![message_page(6, 0), message_page(10, 0x1234_5678)]);
            Bench {
                host: Host::new(&pages, 0),
                pages,
                registers: BTreeMap::new(),
            }
        }

        /// One access of the host.
        fn access(&mut self) {
            let access = self.host.next_access();
            let value = match access {
                Access::Read { register } => *self.registers.entry(register).or_default(),
                Access::Write { register, value } => {
                    self.registers.insert(register, value);
                    0
                }
            };
            self.host.take(access, value, 0, &mut Random::new(1));
        }

        /// So many accesses that the host has looked, has loaded a page if it is due, and
        /// has looked once more.
        fn look_twice(&mut self) {
            (0..25).for_each(|_| self.access());
        }

        fn put(&mut self, registers: [u64; 3], word: u64) {
            let parts = [word, word >> 16, word >> 32].map(|part| part as u16);
            self.registers.extend(registers.into_iter().zip(parts));
        }

        fn loaded(&self) -> Vec<u64> {
            let loaded = self.host.notes.iter().filter_map(|(_, note)| match note {
                Note::Loaded { page, .. } => Some(*page),
                _ => None,
            });
            loaded.collect()
        }
    }

    #[test]
    fn page_1_is_loaded_again_when_break_has_forgotten_it() {
        let mut bench = Bench::new();
        bench.look_twice();
        assert_eq!(bench.loaded(), [bench.pages[0]]);
        // 521 and 522 are zero in page 1, so only 520 tells.
        bench.put(OWN_NEXT_PAGE, 0);
        bench.look_twice();
        assert_eq!(bench.loaded(), [bench.pages[0]; 2]);
    }

    #[test]
    fn page_2_waits_for_the_partners_page_1() {
        let mut bench = Bench::new();
        bench.look_twice();
        bench.put(PARTNER, 0x4001);
        bench.look_twice();
        assert_eq!(bench.loaded(), [bench.pages[0]]);
        bench.put(PARTNER_NEXT_PAGE, 0x6001);
        bench.look_twice();
        bench.look_twice();
        assert_eq!(bench.loaded(), bench.pages);
        assert_eq!(bench.host.heard(), [0x6001]);
        // The link begins anew.
        bench.put(PARTNER, 0);
        bench.put(PARTNER_NEXT_PAGE, 0);
        bench.look_twice();
        assert_eq!(bench.loaded()[2..], bench.pages[..1]);
        assert_eq!(bench.host.heard(), []);
    }

    #[test]
    fn reads_of_two_pages_are_no_page() {
        let mut bench = Bench::new();
        bench.put(PARTNER, 0x4001);
        bench.put(PARTNER_NEXT_PAGE, 0x1111_1111_E806);
        while bench.host.values.len() < 8 {
            bench.access();
        }
        bench.put(PARTNER_NEXT_PAGE, 0x2222_2222_4045);
        (0..2).for_each(|_| bench.access());
        assert_eq!(bench.host.heard(), []);
        bench.look_twice();
        assert_eq!(bench.host.heard(), [0x2222_2222_4045]);
    }
}
