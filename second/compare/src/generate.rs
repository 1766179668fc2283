//! Random arguments, drawn so that the interesting cases come often.

use crate::call::Call;
use crate::captures::any_short_capture;
use crate::frames::{any_finish, any_take};
use crate::message_runs::{any_length, message_run, short_length};
use crate::random::Random;
use crate::runs::random_run;
use crate::words::two_words;
use reference::line_mode::{line_mode, LineMode, HSM, LSM};
use reference::parity::STATE_ENTRIES;
use reference::{check, page};

const TWO_TO_32: u64 = 1 << 32;
const TWO_TO_48: u64 = 1 << 48;

/// Every page has at least as many transitions, and at most as many, as these.
pub const FEWEST_ENTRIES: u64 = 81;
const MOST_ENTRIES: u64 = 150;

/// The lists of the writing calls have up to so many entries more than the page.
const MOST_SPARE_ENTRIES: u64 = 60;

/// The captures of calls that are sent among others have up to so many readings.
const MOST_SHORT_READINGS: usize = 40;

/// The runs of calls that are sent among others have up to so many events.
const MOST_SHORT_EVENTS: u64 = 15;

/// The bursts of calls that are sent among others have up to so many symbols.
const MOST_SHORT_SYMBOLS: u64 = 10;

pub const WRONG_MODES: [u64; 10] = [
    2,
    3,
    255,
    256,
    257,
    TWO_TO_32 - 1,
    TWO_TO_32,
    TWO_TO_32 + 1,
    1 << 63,
    u64::MAX,
];

/// A word that a page can hold.
pub fn narrow_word(random: &mut Random) -> u64 {
    let edges = [
        0,
        1,
        1 << 45,
        1 << 46,
        1 << 47,
        TWO_TO_48 - 2,
        TWO_TO_48 - 1,
    ];
    match random.below(6) {
        0 => random.pick(&edges),
        1 => few_ones(random, 48),
        2 => (TWO_TO_48 - 1) ^ few_ones(random, 48),
        _ => random.below(TWO_TO_48),
    }
}

/// A word that is too wide for a page.
pub fn wide_word(random: &mut Random) -> u64 {
    let highest = 1 << (48 + random.below(16));
    match random.below(4) {
        0 => TWO_TO_48 + random.below(4),
        1 => highest | few_ones(random, 48),
        2 => u64::MAX ^ few_ones(random, 48),
        _ => highest | random.any_number(),
    }
}

/// A number with one to three ones among so many lowest bits.
pub fn few_ones(random: &mut Random, bits: u64) -> u64 {
    (0..=random.below(3)).fold(0, |word, _| word | 1 << random.below(bits))
}

pub fn wrong_mode(random: &mut Random) -> u64 {
    if random.once_in(4) {
        random.any_number().max(2)
    } else {
        random.pick(&WRONG_MODES)
    }
}

pub fn check_call(random: &mut Random) -> Call {
    if random.once_in(4) {
        Call::check(wide_word(random))
    } else {
        Call::check(narrow_word(random))
    }
}

pub fn judge_call(random: &mut Random) -> Call {
    let mode = if random.once_in(8) {
        wrong_mode(random)
    } else {
        random.below(2)
    };
    let windows_of = line_mode(mode).unwrap_or(random.pick(&[&HSM, &LSM]));
    let gap = match random.below(6) {
        0 => random.any_number(),
        1 => random.below(4000),
        _ => near_a_window_end(random, windows_of),
    };
    if random.once_in(4) {
        let rounds_of_the_clock = random.any_number() << 32;
        return Call::judge(mode, gap.wrapping_add(rounds_of_the_clock));
    }
    Call::judge(mode, gap)
}

/// A gap within 3 of a number at which the judgement changes.
pub fn near_a_window_end(random: &mut Random, mode: &LineMode) -> u64 {
    let ends = window_ends(mode);
    (random.pick(&ends) + random.below(7)).saturating_sub(3)
}

/// The first and the last gap of every window, the quiet limit, and both ends of the clock.
pub fn window_ends(mode: &LineMode) -> Vec<u64> {
    let mut ends = vec![0, u64::from(mode.quiet_limit), TWO_TO_32 - 1];
    for positions in 1..=4 {
        let middle = u64::from(positions * mode.spacing);
        ends.push(middle - u64::from(mode.tolerance));
        ends.push(middle + u64::from(mode.tolerance));
    }
    ends
}

/// A writing call. About two thirds of them have nothing wrong.
pub fn write_call(random: &mut Random) -> Call {
    let mode = if random.once_in(8) {
        wrong_mode(random)
    } else {
        random.below(2)
    };
    let word = match random.below(8) {
        0 => wide_word(random),
        1 | 2 => few_ones(random, 48),
        _ => narrow_word(random),
    };
    let count = entries_of_the_page(random, mode, word);
    let (length, place) = if random.once_in(5) {
        too_little_room(random, count)
    } else {
        enough_room(random, count)
    };
    let entries = entries(random, length);
    Call::write(mode, word, first_reading(random), place, &entries)
}

/// The number of the page's readings, or any likely number if there is no such page.
fn entries_of_the_page(random: &mut Random, mode: u64, word: u64) -> u64 {
    match line_mode(mode) {
        Some(mode) if check::fits_a_page(word) => page::edge_count(mode, word) as u64,
        _ => FEWEST_ENTRIES + random.below(MOST_ENTRIES - FEWEST_ENTRIES + 1),
    }
}

/// Mostly few: short lists let more calls into one process.
fn spare_entries(random: &mut Random) -> u64 {
    let most = random.pick(&[4, 4, 4, MOST_SPARE_ENTRIES]);
    random.below(most)
}

/// The length of a list and a place in it from which so many entries are there.
fn enough_room(random: &mut Random, count: u64) -> (u64, u64) {
    let spare = spare_entries(random);
    match random.below(6) {
        0 | 1 => (count, 0),
        2 => (count + 1, random.below(2)),
        3 => (count + spare, spare),
        _ => (count + spare, random.below(spare + 1)),
    }
}

/// The length of a list and a place from which there are fewer entries than that.
fn too_little_room(random: &mut Random, count: u64) -> (u64, u64) {
    let length = random.below(count);
    let spare = spare_entries(random);
    match random.below(8) {
        0 => (count - 1, 0),
        1 => (length, length),
        2 => (length, length + 1),
        3 => (length, random.pick(&[1 << 63, u64::MAX, u64::MAX - 1])),
        4 => (count + spare, spare + 1),
        5 => (0, random.below(2)),
        // The sum of place and count would roll over to a number within the list.
        6 => (
            count + spare,
            (u64::MAX - count + 1) + random.below(spare + 1),
        ),
        // The low half of the place alone would be a good place.
        _ => (count + spare, TWO_TO_32 + random.below(spare + 1)),
    }
}

/// Half of the lists have cells above 2^32.
fn entries(random: &mut Random, length: u64) -> Vec<u64> {
    let wide = random.once_in(2);
    (0..length)
        .map(|_| random.any_number() >> if wide { 0 } else { 32 })
        .collect()
}

/// The cells of a capture's readings. Of some captures they are above 2^32, which makes
/// no difference to what they mean.
pub fn reading_cells(random: &mut Random, readings: &[u32]) -> Vec<u64> {
    let wide = random.once_in(4);
    readings
        .iter()
        .map(|reading| match wide {
            true => random.any_number() << 32 | u64::from(*reading),
            false => u64::from(*reading),
        })
        .collect()
}

/// A reading of a short capture, from any place. A few have something wrong.
pub fn read_call(random: &mut Random) -> Call {
    let (mode, cells) = short_capture(random);
    let length = cells.len() as u64;
    let place = match random.below(6) {
        0 => random.pick(&[length, length + 1, TWO_TO_32, u64::MAX]),
        1 | 2 => random.below(length + 1),
        _ => 0,
    };
    Call::read(mode, place, &cells)
}

/// The edges of a short capture. A few have a wrong mode.
pub fn edges_call(random: &mut Random) -> Call {
    let (mode, cells) = short_capture(random);
    Call::edges(mode, &cells)
}

fn short_capture(random: &mut Random) -> (u64, Vec<u64>) {
    let capture = any_short_capture(random, MOST_SHORT_READINGS);
    let mode = if random.once_in(8) {
        wrong_mode(random)
    } else {
        capture.mode
    };
    (mode, reading_cells(random, &capture.readings))
}

pub fn resolve_call(random: &mut Random) -> Call {
    let (own, partner) = two_words(random);
    Call::resolve(own, partner)
}

/// A run of a few events. Some have a cell or two after the last event.
pub fn short_run_call(random: &mut Random) -> Call {
    let events = random.below(MOST_SHORT_EVENTS + 1) as usize;
    let mut call = Call::run(&random_run(random, events).events());
    for _ in 0..random.below(3) {
        call.arguments.push(random.below(8));
    }
    call
}

/// A run of heard pages. About every second one has nothing wrong.
pub fn messages_call(random: &mut Random) -> Call {
    let length = any_length(random);
    Call::messages(&message_run(random, length))
}

/// The same, with few pages most times.
pub fn short_messages_call(random: &mut Random) -> Call {
    let length = short_length(random);
    Call::messages(&message_run(random, length))
}

/// A take with no more than a few symbols.
pub fn short_take_call(random: &mut Random) -> Call {
    let mut take = any_take(random).call;
    let longest = random.below(MOST_SHORT_SYMBOLS + 1) as usize;
    take.arguments.truncate(STATE_ENTRIES + longest);
    take
}

pub fn finish_call(random: &mut Random) -> Call {
    any_finish(random).call
}

pub fn first_reading(random: &mut Random) -> u64 {
    match random.below(6) {
        0 => 0,
        1 => TWO_TO_32 - 1 - random.below(4680),
        2 => TWO_TO_32 - 1 - random.below(124_800),
        3 => TWO_TO_32 + random.below(5),
        4 => random.any_number(),
        _ => random.below(TWO_TO_32),
    }
}
