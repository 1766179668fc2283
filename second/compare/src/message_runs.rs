//! Random runs of heard pages, drawn kind by kind: how many pages, where the message pages
//! stand among them, what each page holds, and what is wrong.

use crate::generate::{few_ones, narrow_word, wide_word};
use crate::random::Random;
use reference::messages::MOST_PAGES;
use reference::word::{CODE, MESSAGE_PAGE};

const TWO_TO_48: u64 = 1 << 48;

/// Runs that are too long have mostly up to so many pages more than they may.
const MOST_TOO_MANY: u64 = 40;

/// Each thing that can be wrong with the pages is so in one run of so many.
const WRONG_ONCE_IN: u64 = 6;

/// The length of a run: mostly one that may be, each as often as another.
pub fn any_length(random: &mut Random) -> usize {
    let most = MOST_PAGES as u64;
    let length = match random.below(12) {
        0 => random.pick(&[0, 1, most - 1, most, most, most + 1]),
        1 => most + 1 + random.below(MOST_TOO_MANY),
        // The lowest byte of these lengths alone would do.
        2 if random.once_in(4) => random.pick(&[256, 257, 256 + most, 1024]),
        _ => random.below(most + 1),
    };
    length as usize
}

/// The length of a run that is sent among other calls: mostly short.
pub fn short_length(random: &mut Random) -> usize {
    match random.once_in(8) {
        true => MOST_PAGES + random.below(2) as usize,
        false => random.below(10) as usize,
    }
}

/// A run of so many pages. More than every second one has nothing wrong but, perhaps, its
/// length.
pub fn message_run(random: &mut Random, length: usize) -> Vec<u64> {
    let mut is_message = kinds_in_a_row(random, length);
    if let Some(first) = is_message.first_mut() {
        *first = !random.once_in(WRONG_ONCE_IN);
    }
    let mut run: Vec<u64> = is_message
        .into_iter()
        .map(|is_message| page(random, is_message))
        .collect();
    if random.once_in(WRONG_ONCE_IN) && length > 0 {
        widen_some(random, &mut run);
    }
    run
}

/// For each page of a run whether it is a message page.
fn kinds_in_a_row(random: &mut Random, length: usize) -> Vec<bool> {
    let every = 1 + random.below(8);
    let (row, places) = (vec![false; length], 0..length as u64);
    match random.below(6) {
        0 => vec![true; length],
        1 => row,
        2 => with_a_few_turned(random, row),
        3 => with_a_few_turned(random, vec![true; length]),
        4 => places.map(|place| place % every == 0).collect(),
        _ => places.map(|_| random.below(9) < every).collect(),
    }
}

/// The row with up to three of its kinds turned into the other kind.
fn with_a_few_turned(random: &mut Random, mut row: Vec<bool>) -> Vec<bool> {
    for _ in 0..=random.below(3) {
        if !row.is_empty() {
            let place = random.below(row.len() as u64) as usize;
            row[place] = !row[place];
        }
    }
    row
}

/// A page of this kind. What else it holds is random, also where it does not matter.
fn page(random: &mut Random, is_message: bool) -> u64 {
    let word = MESSAGE_PAGE.put(narrow_word(random), u64::from(is_message));
    match random.below(4) {
        0 => CODE.put(word, random.pick(&[0, 1, CODE.ones() - 1, CODE.ones()])),
        1 => CODE.put(word, few_ones(random, 11)),
        _ => word,
    }
}

/// Makes a page too wide, sometimes up to three, and often the first or the last one.
fn widen_some(random: &mut Random, run: &mut [u64]) {
    let last = run.len() - 1;
    for _ in 0..random.pick(&[1, 1, 2, 3]) {
        let inside = random.below(run.len() as u64) as usize;
        let place = random.pick(&[0, inside, inside, last]);
        run[place] = too_wide(random, run[place]);
    }
}

/// A page that is too wide: the right one with a bit above D47, or any other.
fn too_wide(random: &mut Random, right: u64) -> u64 {
    match random.below(3) {
        0 => right | 1 << (48 + random.below(16)),
        1 => random.pick(&[TWO_TO_48, u64::MAX]),
        _ => wide_word(random),
    }
}
