//! The measured calls in plain Rust: the same algorithms as maststep's, with nothing proved, for the
//! bench to compare with. Safe Rust but for the C interface at the end.
#![no_std]

mod lent;
mod messages;
mod parity;
mod run;

/// The refusals, by the numbers of the scope and of its requests.
#[derive(Clone, Copy)]
enum Refusal {
    Gap = 1,
    Cut = 2,
    Check = 3,
    Selector = 4,
    Tie = 5,
    Changed = 6,
    Echo = 7,
    None = 8,
    Roles = 9,
    Register = 10,
    Turn = 11,
    Room = 12,
    Wide = 13,
    Mode = 14,
    Toggle = 17,
    Symbol = 20,
    Count = 21,
    Run = 24,
    Length = 25,
}

/// The kind of an answer that is a page.
const PAGE: u64 = 0x80;

/// The kind of an answer that orders a page.
const ORDER: u64 = 0x81;

/// The kind of an answer that is a rate and a role.
const SETTLED: u64 = 0x82;

/// The kind of an answer that is a register's value.
const VALUE: u64 = 0x83;

/// The kind of an answer that is a number.
const NUMBER: u64 = 0x84;

/// The numbers of a line mode.
struct Line {
    spacing: u32,
    tolerance: u32,
    quiet: u32,
    /// Bit p is one where the delimiter has a transition at position p.
    delimiter: u32,
}

const HSM: Line = Line {
    spacing: 30,
    tolerance: 9,
    quiet: 130,
    delimiter: mask(&[1, 2, 3, 5, 7, 8, 12, 13, 14, 15, 19, 21, 24, 25, 26]),
};

const LSM: Line = Line {
    spacing: 800,
    tolerance: 240,
    quiet: 3441,
    delimiter: mask(&[1, 2, 3, 4, 5, 6, 7, 8, 9, 11, 13, 15, 16, 18, 19, 20, 22, 23, 24, 26]),
};

/// The mask with a one at each of these positions, worked out by the compiler.
const fn mask(positions: &[u32]) -> u32 {
    let mut mask = 0;
    let mut i = 0;
    while i < positions.len() {
        mask |= 1 << positions[i];
        i += 1;
    }
    mask
}

fn line(mode: u32) -> Result<&'static Line, Refusal> {
    match mode {
        0 => Ok(&HSM),
        1 => Ok(&LSM),
        _ => Err(Refusal::Mode),
    }
}

fn narrow(word: u64) -> Result<u64, Refusal> {
    if word < 1 << 48 {
        Ok(word)
    } else {
        Err(Refusal::Wide)
    }
}

/// The remainder of the first bits of a number, lowest first, bit by bit.
fn remainder(bits: u64, count: u32) -> u32 {
    let mut reg: u32 = 0;
    for i in 0..count {
        let d = (bits >> i) as u32 & 1;
        let x = (reg << 1) ^ (d << 16);
        reg = if x & 0x1_0000 != 0 { x ^ 0x1_8005 } else { x };
    }
    reg
}

/// The check bits of a word of 48 bits, D0 first.
fn check_bits(word: u64) -> u32 {
    remainder(word, 48)
}

fn check(word: u64) -> Result<u64, Refusal> {
    Ok(u64::from(check_bits(narrow(word)?)))
}

/// Writes the readings of a page into the list from a place on, and tells their number.
fn write(list: &mut [u32], place: usize, mode: u32, word: u64, first: u32) -> Result<u64, Refusal> {
    let line = line(mode)?;
    let word = narrow(word)?;
    // The 64 bits in the order of the line, the first to be sent lowest: D0 to D47, then S15 to S0.
    let bits = word | u64::from(check_bits(word).reverse_bits() >> 16) << 48;
    // The delimiter, 64 clocks, the ones, and the two transitions at the end.
    let count = (line.delimiter.count_ones() + 64 + bits.count_ones() + 2) as usize;
    let page = match list.get_mut(place..) {
        Some(tail) if tail.len() >= count => tail,
        _ => return Err(Refusal::Room),
    };

    let mut written = 0;
    let mut reading = first;
    // Not 1..=157: an inclusive range has one test more at every turn.
    for position in 1..158u32 {
        let stands = if position < 27 {
            line.delimiter >> position & 1 == 1
        } else if position % 2 == 1 {
            true
        } else if position < 155 {
            bits >> ((position - 28) / 2) & 1 == 1
        } else {
            false
        };
        if stands {
            page[written] = reading;
            written += 1;
        }
        reading = reading.wrapping_add(line.spacing);
    }
    Ok(written as u64)
}

/// What a gap between two edges is.
enum Gap {
    Positions(u32),
    Quiet,
    Unfit,
}

impl Line {
    /// Whether a gap counts as so many positions.
    fn counts_as(&self, k: u32, gap: u32) -> bool {
        let centre = k * self.spacing;
        (centre - self.tolerance..=centre + self.tolerance).contains(&gap)
    }

    fn judge(&self, gap: u32) -> Gap {
        for k in 1..5 {
            if self.counts_as(k, gap) {
                return Gap::Positions(k);
            }
        }
        if gap >= self.quiet {
            Gap::Quiet
        } else {
            Gap::Unfit
        }
    }

    /// Whether of the delimiter and the first clock just the edges at this position and k after it may stand there.
    fn spans(&self, at: u32, k: u32) -> bool {
        (self.delimiter | 1 << 27) >> at & ((2 << k) - 1) == 1 << k | 1
    }
}

/// What a reader holds between two edges. Of an open attempt it knows the position and the reading of
/// the last edge and the bits so far, the newest the highest.
#[derive(Clone, Copy)]
enum Reader {
    Fresh,
    Open { at: u32, last: u32, bits: u64 },
    Dropping { last: u32 },
}

/// How an attempt ended: a page's word, or why it is none.
type Outcome = Result<u64, Refusal>;

impl Reader {
    fn opened(reading: u32) -> Reader {
        Reader::Open {
            at: 1,
            last: reading,
            bits: 0,
        }
    }

    fn is_open(self) -> bool {
        matches!(self, Reader::Open { .. })
    }

    /// Takes an edge; tells the outcome of the attempt that it ended, if it ended one. Of a further edge either the
    /// position of the last one is asked for first or the gap: each is the faster one for some callers. They call it
    /// at three places, and by itself the compiler would lay it into none.
    #[inline(always)]
    fn edge<const POSITION_FIRST: bool>(&mut self, line: &Line, reading: u32) -> Option<Outcome> {
        match *self {
            Reader::Fresh => {
                *self = Reader::opened(reading);
                None
            }
            Reader::Open { at, last, bits } => {
                let gap = reading.wrapping_sub(last);
                if POSITION_FIRST {
                    self.on_by_position(line, at, gap, bits, reading)
                } else {
                    self.on_by_gap(line, at, gap, bits, reading)
                }
            }
            Reader::Dropping { last } => {
                *self = match line.judge(reading.wrapping_sub(last)) {
                    Gap::Quiet => Reader::opened(reading),
                    _ => Reader::Dropping { last: reading },
                };
                None
            }
        }
    }

    /// A further edge, first by where the last one stood: in the delimiter, at a bit, at a clock or at the end. Two
    /// devices call it, so that it is marked as `edge` is.
    #[inline(always)]
    fn on_by_position(&mut self, line: &Line, at: u32, gap: u32, bits: u64, reading: u32) -> Option<Outcome> {
        match at {
            0..=26 => match line.judge(gap) {
                Gap::Positions(k) if line.spans(at, k) => self.moved(at + k, bits, reading),
                Gap::Quiet => self.cut(reading),
                _ => self.wrong(reading),
            },
            27..=154 if at % 2 == 0 && line.counts_as(1, gap) => self.moved(at + 1, bits, reading),
            27..=154 if at % 2 == 1 && line.counts_as(1, gap) => self.moved(at + 1, bits >> 1 | 1 << 63, reading),
            27..=154 if at % 2 == 1 && line.counts_as(2, gap) => self.moved(at + 2, bits >> 1, reading),
            155 if line.counts_as(2, gap) => self.whole(bits, reading),
            _ if gap >= line.quiet => self.cut(reading),
            _ => self.wrong(reading),
        }
    }

    /// A further edge, first by its gap.
    fn on_by_gap(&mut self, line: &Line, at: u32, gap: u32, bits: u64, reading: u32) -> Option<Outcome> {
        match line.judge(gap) {
            Gap::Positions(k) => self.step_on(line, at, k, bits, reading),
            Gap::Quiet => self.cut(reading),
            Gap::Unfit => self.wrong(reading),
        }
    }

    /// An edge so many positions after the last one: in the delimiter, at a bit or a clock, or at the end.
    fn step_on(&mut self, line: &Line, at: u32, k: u32, bits: u64, reading: u32) -> Option<Outcome> {
        match at {
            0..=26 if line.spans(at, k) => self.moved(at + k, bits, reading),
            27..=154 if at % 2 == 0 => match k {
                1 => self.moved(at + 1, bits, reading),
                _ => self.wrong(reading),
            },
            27..=154 => match k {
                1 => self.moved(at + 1, bits >> 1 | 1 << 63, reading),
                2 => self.moved(at + 2, bits >> 1, reading),
                _ => self.wrong(reading),
            },
            155 if k == 2 => self.whole(bits, reading),
            _ => self.wrong(reading),
        }
    }

    /// The attempt goes on from a position.
    fn moved(&mut self, at: u32, bits: u64, last: u32) -> Option<Outcome> {
        *self = Reader::Open { at, last, bits };
        None
    }

    /// A quiet gap before the edge at 157.
    fn cut(&mut self, reading: u32) -> Option<Outcome> {
        *self = Reader::opened(reading);
        Some(Err(Refusal::Cut))
    }

    /// A gap that the pattern does not ask for.
    fn wrong(&mut self, reading: u32) -> Option<Outcome> {
        *self = Reader::Dropping { last: reading };
        Some(Err(Refusal::Gap))
    }

    /// The edge at 157. A word and its check bits, taken together, leave no remainder.
    fn whole(&mut self, bits: u64, reading: u32) -> Option<Outcome> {
        *self = Reader::Dropping { last: reading };
        Some(if remainder(bits, 64) == 0 {
            Ok(bits & ((1 << 48) - 1))
        } else {
            Err(Refusal::Check)
        })
    }
}

/// The first attempt from a place of a capture on, or nothing at its end, and where the next one opens.
fn read(capture: &[u32], place: usize, mode: u32) -> Result<(Option<Outcome>, usize), Refusal> {
    let line = line(mode)?;
    let tail = capture.get(place..).ok_or(Refusal::Room)?;
    if tail.is_empty() {
        return Ok((None, place));
    }
    let mut reader = Reader::Fresh;
    let ended = tail
        .iter()
        .enumerate()
        .find_map(|(i, &reading)| Some((i, reader.edge::<false>(line, reading)?)));
    // The end of the capture counts as quiet.
    let (i, outcome) = match ended {
        Some(ended) => ended,
        None => return Ok((Some(Err(Refusal::Cut)), capture.len())),
    };
    if reader.is_open() {
        return Ok((Some(outcome), place + i));
    }
    // Edges are dropped until one follows a quiet gap.
    let is_quiet = |pair: &[u32]| matches!(line.judge(pair[1].wrapping_sub(pair[0])), Gap::Quiet);
    let next = match tail[i..].windows(2).position(is_quiet) {
        Some(dropped) => place + i + 1 + dropped,
        None => capture.len(),
    };
    Ok((Some(outcome), next))
}

/// An answer as one number: the kind in the top byte, the value below it.
fn packed(answer: Result<u64, Refusal>) -> u64 {
    match answer {
        Ok(value) => NUMBER << 56 | value,
        Err(refusal) => (refusal as u64) << 56,
    }
}

/// As `maststep_check`.
#[no_mangle]
pub extern "C" fn plain_check(word: u64) -> u64 {
    packed(check(word))
}

/// As `maststep_write`.
///
/// # Safety
/// `list` points to `length` entries that nothing else uses during the call.
#[no_mangle]
pub unsafe extern "C" fn plain_write(
    list: *mut u32,
    length: usize,
    place: usize,
    mode: u32,
    word: u64,
    first: u32,
) -> u64 {
    let list = core::slice::from_raw_parts_mut(list, length);
    packed(write(list, place, mode, word, first))
}

/// As `maststep_read`.
///
/// # Safety
/// `list` points to `length` entries that nothing writes during the call, and `next` to a place of its own.
#[no_mangle]
pub unsafe extern "C" fn plain_read(
    list: *const u32,
    length: usize,
    place: usize,
    mode: u32,
    next: *mut usize,
) -> u64 {
    match read(core::slice::from_raw_parts(list, length), place, mode) {
        Ok((outcome, opens)) => {
            *next = opens;
            match outcome {
                None => 0,
                Some(Ok(word)) => PAGE << 56 | word,
                Some(Err(refusal)) => packed(Err(refusal)),
            }
        }
        Err(refusal) => packed(Err(refusal)),
    }
}

/// As `maststep_run`.
///
/// # Safety
/// `events` points to `cells` cells that nothing writes during the call, and `answers` to `room` entries that
/// nothing else uses.
#[no_mangle]
pub unsafe extern "C" fn plain_run(
    events: *const u64,
    cells: usize,
    answers: *mut u64,
    room: usize,
) -> u64 {
    let events = core::slice::from_raw_parts(events, cells);
    let answers = core::slice::from_raw_parts_mut(answers, room);
    packed(run::run(events, answers))
}

/// As `maststep_fresh`.
///
/// # Safety
/// `device` points to the memory of a device, of any content, that nothing else uses during the call.
#[no_mangle]
pub unsafe extern "C" fn plain_fresh(device: *mut lent::Device) {
    device.write(lent::Device::fresh());
}

/// As `maststep_step`.
///
/// # Safety
/// `device` points to a device that `plain_fresh` has made and that nothing else uses during the call.
#[no_mangle]
pub unsafe extern "C" fn plain_step(device: *mut lent::Device, kind: u64, clock: u64, argument: u64) -> u64 {
    (*device).take(kind, clock, argument)
}

/// As `maststep_messages`, the messages told in one of two ways.
#[inline(always)]
unsafe fn messages_by(
    told_by: fn(&[u64], &mut [u64]),
    pages: *const u64,
    length: usize,
    list: *mut u64,
    room: usize,
) -> u64 {
    let pages = core::slice::from_raw_parts(pages, length);
    let list = core::slice::from_raw_parts_mut(list, room);
    packed(messages::messages(pages, list, told_by))
}

/// As `maststep_messages`, by two functions that call one another.
///
/// # Safety
/// `pages` points to `length` pages that nothing writes during the call, and `list` to `room` cells that
/// nothing else uses.
#[no_mangle]
pub unsafe extern "C" fn plain_messages(pages: *const u64, length: usize, list: *mut u64, room: usize) -> u64 {
    messages_by(messages::by_two_readers, pages, length, list, room)
}

/// The same in one loop.
///
/// # Safety
/// As `plain_messages`.
#[no_mangle]
pub unsafe extern "C" fn plain_messages_in_one_loop(pages: *const u64, length: usize, list: *mut u64, room: usize) -> u64 {
    messages_by(messages::by_one_loop, pages, length, list, room)
}

/// As `maststep_parity_take`.
///
/// # Safety
/// `state` points to `entries` entries that nothing else uses during the call, and `burst` to `length` symbols that
/// nothing writes.
#[no_mangle]
pub unsafe extern "C" fn plain_parity_take(state: *mut u16, entries: usize, burst: *const u16, length: usize) -> u64 {
    let state = core::slice::from_raw_parts_mut(state, entries);
    packed(parity::take(state, core::slice::from_raw_parts(burst, length)))
}

/// As `maststep_parity_finish`.
///
/// # Safety
/// `state` points to `entries` entries that nothing writes during the call, and `parity` to `room` entries that
/// nothing else uses.
#[no_mangle]
pub unsafe extern "C" fn plain_parity_finish(state: *const u16, entries: usize, parity: *mut u16, room: usize) -> u64 {
    let parity = core::slice::from_raw_parts_mut(parity, room);
    packed(parity::finish(core::slice::from_raw_parts(state, entries), parity))
}

#[panic_handler]
fn panic(_: &core::panic::PanicInfo) -> ! {
    loop {}
}
