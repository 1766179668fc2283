//! Random frames and calls for their parity, drawn kind by kind: what the register holds,
//! how many symbols count as taken, how long the burst is and what it holds, and which
//! symbols are wrong.

use crate::call::Call;
use crate::model;
use crate::random::Random;
use reference::field::ELEMENTS;
use reference::parity::{DATA_SYMBOLS, PARITY_SYMBOLS, STATE_ENTRIES};

const SYMBOLS: u64 = ELEMENTS as u64;
const LARGEST_SYMBOL: u64 = SYMBOLS - 1;

const WHOLE_COUNT: u64 = DATA_SYMBOLS as u64;

const TWO_TO_16: u64 = 1 << 16;
const TWO_TO_32: u64 = 1 << 32;

/// Counts past 406. Of some the lowest 16 or 32 bits alone would be a count that may be.
pub const COUNTS_TOO_LARGE: [u64; 14] = [
    WHOLE_COUNT + 1,
    WHOLE_COUNT + 2,
    SYMBOLS,
    // With 406 symbols more these are 65 536 and a whole count after it.
    TWO_TO_16 - WHOLE_COUNT,
    TWO_TO_16 - 1,
    TWO_TO_16,
    TWO_TO_16 + 1,
    TWO_TO_16 + WHOLE_COUNT,
    TWO_TO_16 + WHOLE_COUNT + 1,
    TWO_TO_32,
    TWO_TO_32 + WHOLE_COUNT,
    1 << 63,
    (1 << 63) + WHOLE_COUNT,
    u64::MAX,
];

/// Numbers that are no symbols. Of some the lowest 9, 16 or 32 bits alone would be one.
pub const WRONG_SYMBOLS: [u64; 12] = [
    SYMBOLS,
    SYMBOLS + 5,
    1023,
    1024,
    TWO_TO_16 - 1,
    TWO_TO_16,
    TWO_TO_16 + 5,
    TWO_TO_16 + LARGEST_SYMBOL,
    TWO_TO_32,
    TWO_TO_32 + 5,
    1 << 63,
    u64::MAX,
];

/// The register, or the burst, of one call in so many has wrong symbols.
const WRONG_ONCE_IN: u64 = 4;

/// One take in so many has fewer arguments than a state has entries.
const TOO_FEW_ONCE_IN: u64 = 40;

/// A call, and of which kind the register of its state was before anything was made wrong.
pub struct DrawnCall {
    pub register: &'static str,
    pub call: Call,
}

/// How a register of one kind is drawn for a state with this count.
type DrawRegister = fn(&mut Random, u64) -> Vec<u64>;

pub const REGISTERS: &[(&str, DrawRegister)] = &[
    ("zero", |_, _| vec![0; PARITY_SYMBOLS]),
    ("made by a take", register_made_by_a_take),
    ("random symbols", |random, _| {
        random_symbols(random, PARITY_SYMBOLS)
    }),
    ("511 everywhere", |_, _| {
        vec![LARGEST_SYMBOL; PARITY_SYMBOLS]
    }),
    ("one symbol that is not zero", |random, _| {
        one_symbol(random, PARITY_SYMBOLS)
    }),
];

/// The state of a frame of which nothing was taken.
pub fn new_frame() -> Vec<u64> {
    vec![0; STATE_ENTRIES]
}

/// The register after so many random symbols, or any number of them if that is too many.
fn register_made_by_a_take(random: &mut Random, count: u64) -> Vec<u64> {
    let length = match count <= WHOLE_COUNT {
        true => count,
        false => random.below(WHOLE_COUNT + 1),
    };
    let burst = symbols(random, length as usize);
    let answer = model::answer_cells(&Call::parity_take(&new_frame(), &burst));
    answer[1..=PARITY_SYMBOLS].to_vec()
}

/// So many symbols of any kind.
pub fn symbols(random: &mut Random, length: usize) -> Vec<u64> {
    match random.below(6) {
        0 => vec![0; length],
        1 => vec![LARGEST_SYMBOL; length],
        2 => one_symbol(random, length),
        _ => random_symbols(random, length),
    }
}

fn random_symbols(random: &mut Random, length: usize) -> Vec<u64> {
    (0..length).map(|_| random.below(SYMBOLS)).collect()
}

/// So many symbols, of which all but one are zero.
fn one_symbol(random: &mut Random, length: usize) -> Vec<u64> {
    let mut symbols = vec![0; length];
    if length > 0 {
        let place = random.below(length as u64) as usize;
        symbols[place] = 1 + random.below(LARGEST_SYMBOL);
    }
    symbols
}

/// A take. About every third one has nothing wrong.
pub fn any_take(random: &mut Random) -> DrawnCall {
    let count = any_count(random);
    let (register, mut state) = any_state(random, count);
    let length = burst_length(random, count);
    let mut burst = symbols(random, length);
    make_wrong_at_times(random, &mut state[..PARITY_SYMBOLS]);
    make_wrong_at_times(random, &mut burst);
    let mut call = Call::parity_take(&state, &burst);
    if random.once_in(TOO_FEW_ONCE_IN) {
        let too_few = random.below(STATE_ENTRIES as u64) as usize;
        let arguments = random.pick(&[0, too_few, STATE_ENTRIES - 1]);
        call.arguments.truncate(arguments);
    }
    DrawnCall { register, call }
}

/// A finish. About every second one has nothing wrong. Some have further arguments.
pub fn any_finish(random: &mut Random) -> DrawnCall {
    let count = match random.once_in(3) {
        true => any_count(random),
        false => WHOLE_COUNT,
    };
    let (register, mut state) = any_state(random, count);
    make_wrong_at_times(random, &mut state[..PARITY_SYMBOLS]);
    if random.once_in(8) {
        state.extend((0..=random.below(3)).map(|_| random.any_number()));
    }
    let call = Call::parity_finish(&state);
    DrawnCall { register, call }
}

/// A state with this count, and the kind of its register.
fn any_state(random: &mut Random, count: u64) -> (&'static str, Vec<u64>) {
    let (kind, draw) = random.pick(REGISTERS);
    let mut state = draw(random, count);
    state.push(count);
    (kind, state)
}

/// Mostly a count that may be.
fn any_count(random: &mut Random) -> u64 {
    match random.below(8) {
        0 | 1 => random.pick(&[0, 0, 1, 404, 405, 406]),
        2 => random.pick(&COUNTS_TOO_LARGE),
        3 => random.below(TWO_TO_16),
        _ => random.below(WHOLE_COUNT + 1),
    }
}

/// The length of a burst that comes at this count. Most times there is room for it.
fn burst_length(random: &mut Random, count: u64) -> usize {
    let left = WHOLE_COUNT.saturating_sub(count);
    let length = match random.below(12) {
        0 | 1 => random.pick(&[0, 1, 2, 9]),
        2 => random.pick(&[405, 406, 407]),
        3 | 4 => left,
        5 => left + 1,
        6 => random.below(WHOLE_COUNT + 1),
        7 if random.once_in(4) => WHOLE_COUNT + 2 + random.below(1000),
        _ => random.below(left + 1),
    };
    length as usize
}

/// Makes some of the symbols of one row in four wrong, mostly a single one.
fn make_wrong_at_times(random: &mut Random, symbols: &mut [u64]) {
    if symbols.is_empty() || !random.once_in(WRONG_ONCE_IN) {
        return;
    }
    let last = symbols.len() - 1;
    for _ in 0..random.pick(&[1, 1, 1, 1, 2, 5]) {
        let any = random.below(symbols.len() as u64) as usize;
        let place = match random.below(12) {
            0 => 0,
            1 => last,
            _ => any,
        };
        symbols[place] = wrong_symbol(random, symbols[place]);
    }
}

/// A number that is no symbol; sometimes its lowest bits are still the right one.
fn wrong_symbol(random: &mut Random, right: u64) -> u64 {
    match random.below(6) {
        0 | 1 => random.pick(&WRONG_SYMBOLS),
        2 => SYMBOLS + random.below(TWO_TO_16 - SYMBOLS),
        3 | 4 => right % SYMBOLS + random.pick(&[SYMBOLS, 1024, TWO_TO_16, TWO_TO_32, 1 << 63]),
        _ if random.once_in(2) => TWO_TO_16 - 1,
        _ => random.any_number() | TWO_TO_16,
    }
}

/// The data cut into bursts at so many random places; some bursts are empty.
pub fn cut_at_random<'a>(random: &mut Random, data: &'a [u64], cuts: u64) -> Vec<&'a [u64]> {
    let mut borders = vec![0, data.len()];
    for _ in 0..cuts {
        let inside = random.below(data.len() as u64 + 1) as usize;
        let again = random.pick(&borders);
        borders.push(random.pick(&[inside, inside, inside, again]));
    }
    borders.sort_unstable();
    let bursts = borders.windows(2);
    bursts.map(|pair| &data[pair[0]..pair[1]]).collect()
}

/// The takes of these bursts, one after the other from a new frame, and then the finish.
/// Each call has the state that the model answers to the one before it.
pub fn calls_of_a_frame(bursts: &[&[u64]]) -> Vec<Call> {
    let mut state = new_frame();
    let mut calls = Vec::new();
    for burst in bursts {
        let call = Call::parity_take(&state, burst);
        state = model::answer_cells(&call).split_off(1);
        calls.push(call);
    }
    calls.push(Call::parity_finish(&state));
    calls
}
