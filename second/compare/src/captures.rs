//! Random captures, kind by kind, so that every way in which an attempt can end comes
//! often. A capture is drawn as a row of gaps; the readings follow from the first one.

use crate::cells::modulo_2_to_32;
use crate::generate::{first_reading, narrow_word, near_a_window_end};
use crate::random::Random;
use reference::line_mode::{line_mode, LineMode, HSM, LSM};
use reference::page::transitions;

/// A capture and the mode in which it is to be read.
#[derive(Clone, Debug)]
pub struct Capture {
    pub kind: &'static str,
    pub mode: u64,
    pub readings: Vec<u32>,
}

/// How the gaps of one kind of capture are drawn.
type DrawGaps = fn(&mut Random, &LineMode) -> Vec<u32>;

/// How a gap that counts as so many positions is drawn.
type DrawGap = fn(&mut Random, &LineMode, u32) -> u32;

pub const KINDS: &[(&str, DrawGaps)] = &[
    ("page at nominal spacing", |random, mode| {
        page(random, mode, nominal)
    }),
    (
        "page with gaps anywhere in their windows",
        |random, mode| page(random, mode, in_the_window),
    ),
    (
        "page with gaps at the ends of their windows",
        |random, mode| page(random, mode, at_a_window_end),
    ),
    ("page with one gap one beyond its window", one_gap_beyond),
    ("page with one gap of any sort", one_gap_changed),
    ("page with a gap of 0", gap_of_0),
    ("page with a reading that goes back", reading_back),
    ("cut page", cut_page),
    ("page from its middle on", from_the_middle),
    ("page without one edge", edge_missing),
    ("page with one edge more", edge_added),
    ("page with flipped bits", flipped_bits),
    ("page with another gap after position 155", other_end),
    ("page of the other mode", |random, mode| {
        any_page(random, other_mode(mode))
    }),
    ("page, quiet limit, page", |random, mode| {
        two_pages(random, mode, mode.quiet_limit)
    }),
    ("page, one under the quiet limit, page", |random, mode| {
        two_pages(random, mode, mode.quiet_limit - 1)
    }),
    ("page, one position, page", |random, mode| {
        two_pages(random, mode, mode.spacing)
    }),
    ("page, gap of any sort, page", |random, mode| {
        let between = any_gap(random, mode);
        two_pages(random, mode, between)
    }),
    ("cut page, quiet gap, page", cut_and_page),
    (
        "wrong gap, dropped edges, quiet gap, page",
        dropped_and_page,
    ),
    ("several pages, sound and damaged", several_parts),
    ("few distinct gaps", few_distinct_gaps),
    ("quiet gaps only", quiet_gaps_only),
    ("starts of pages, quiet gaps between", starts_of_pages),
    (
        "starts of pages, each window's end after one",
        starts_and_window_ends,
    ),
];

/// So many captures, with equally many of each kind.
pub fn captures(random: &mut Random, number: usize) -> Vec<Capture> {
    (0..number)
        .map(|index| capture(random, &KINDS[index % KINDS.len()]))
        .collect()
}

/// So many captures with no more than so many readings.
pub fn short_captures(random: &mut Random, number: usize, longest: usize) -> Vec<Capture> {
    captures(random, number)
        .into_iter()
        .map(|capture| shortened(random, capture, longest))
        .collect()
}

/// One capture of any kind with no more than so many readings.
pub fn any_short_capture(random: &mut Random, longest: usize) -> Capture {
    let kind = random.pick(KINDS);
    let capture = capture(random, &kind);
    shortened(random, capture, longest)
}

/// The start of the capture, its end, or a part of its middle.
fn shortened(random: &mut Random, mut capture: Capture, longest: usize) -> Capture {
    let whole = capture.readings.len() as u64;
    let length = random.below(longest as u64 + 1).min(whole);
    let first = match random.below(3) {
        0 => 0,
        1 => whole - length,
        _ => random.below(whole - length + 1),
    };
    capture.readings.drain(..first as usize);
    capture.readings.truncate(length as usize);
    capture
}

fn capture(random: &mut Random, kind: &(&'static str, DrawGaps)) -> Capture {
    let mode = random.below(2);
    let gaps = (kind.1)(random, line_mode(mode).expect("0 and 1 are modes"));
    let first = modulo_2_to_32(first_reading(random));
    Capture {
        kind: kind.0,
        mode,
        readings: readings(first, &gaps),
    }
}

/// The readings with these gaps between them: one more than there are gaps.
pub fn readings(first: u32, gaps: &[u32]) -> Vec<u32> {
    let mut readings = vec![first];
    let mut reading = first;
    for gap in gaps {
        reading = reading.wrapping_add(*gap);
        readings.push(reading);
    }
    readings
}

fn other_mode(mode: &LineMode) -> &'static LineMode {
    if mode.name == HSM.name {
        &LSM
    } else {
        &HSM
    }
}

fn nominal(_: &mut Random, mode: &LineMode, positions: u32) -> u32 {
    positions * mode.spacing
}

fn in_the_window(random: &mut Random, mode: &LineMode, positions: u32) -> u32 {
    let width = 2 * mode.tolerance + 1;
    positions * mode.spacing - mode.tolerance + random.below(width.into()) as u32
}

fn at_a_window_end(random: &mut Random, mode: &LineMode, positions: u32) -> u32 {
    let middle = positions * mode.spacing;
    random.pick(&[middle - mode.tolerance, middle + mode.tolerance])
}

/// A gap of any sort: a number of positions, near a window's end, quiet or nearly so,
/// or one of a clock that goes back.
pub fn any_gap(random: &mut Random, mode: &LineMode) -> u32 {
    let positions = 1 + random.below(4) as u32;
    match random.below(9) {
        0 => nominal(random, mode, positions),
        1 => in_the_window(random, mode, positions),
        2 => u32::MAX - random.below(100_000) as u32,
        3 => mode.quiet_limit - 1,
        4 | 5 => quiet_gap(random, mode),
        _ => modulo_2_to_32(near_a_window_end(random, mode)),
    }
}

pub fn quiet_gap(random: &mut Random, mode: &LineMode) -> u32 {
    match random.below(3) {
        0 => mode.quiet_limit,
        1 => mode.quiet_limit + random.below(mode.quiet_limit.into()) as u32,
        _ => mode.quiet_limit + random.below(1 << 31) as u32,
    }
}

/// The gaps between edges at these positions.
fn gaps(random: &mut Random, mode: &LineMode, positions: &[usize], draw: DrawGap) -> Vec<u32> {
    positions
        .windows(2)
        .map(|pair| draw(random, mode, (pair[1] - pair[0]) as u32))
        .collect()
}

fn any_precision(random: &mut Random) -> DrawGap {
    random.pick(&[nominal as DrawGap, in_the_window, at_a_window_end])
}

fn any_positions(random: &mut Random, mode: &LineMode) -> Vec<usize> {
    transitions(mode, narrow_word(random))
}

fn page(random: &mut Random, mode: &LineMode, draw: DrawGap) -> Vec<u32> {
    let positions = any_positions(random, mode);
    gaps(random, mode, &positions, draw)
}

fn any_page(random: &mut Random, mode: &LineMode) -> Vec<u32> {
    let draw = any_precision(random);
    page(random, mode, draw)
}

/// Any index of a row that is not empty.
fn any_index<T>(random: &mut Random, row: &[T]) -> usize {
    random.below(row.len() as u64) as usize
}

/// The number of positions of the gap is drawn first, as some numbers are rare.
fn one_gap_beyond(random: &mut Random, mode: &LineMode) -> Vec<u32> {
    let positions = any_positions(random, mode);
    let steps: Vec<usize> = positions.windows(2).map(|pair| pair[1] - pair[0]).collect();
    let most = *steps.iter().max().expect("a page has edges");
    let step = 1 + random.below(most as u64) as usize;
    let with_this_step: Vec<usize> = (0..steps.len()).filter(|at| steps[*at] == step).collect();
    let draw = any_precision(random);
    let mut gaps = gaps(random, mode, &positions, draw);
    let middle = step as u32 * mode.spacing;
    let beyond = mode.tolerance + 1;
    gaps[random.pick(&with_this_step)] = random.pick(&[middle - beyond, middle + beyond]);
    gaps
}

fn one_gap_changed(random: &mut Random, mode: &LineMode) -> Vec<u32> {
    let mut gaps = any_page(random, mode);
    let index = any_index(random, &gaps);
    gaps[index] = any_gap(random, mode);
    gaps
}

fn gap_of_0(random: &mut Random, mode: &LineMode) -> Vec<u32> {
    let mut gaps = any_page(random, mode);
    let index = any_index(random, &gaps);
    if random.once_in(2) {
        gaps[index] = 0;
    } else {
        gaps.insert(index, 0);
    }
    gaps
}

/// One reading lies before the one before it; those after it are as they were.
fn reading_back(random: &mut Random, mode: &LineMode) -> Vec<u32> {
    let mut gaps = any_page(random, mode);
    let index = any_index(random, &gaps);
    let back = gaps[index] + 1 + random.below(5 * u64::from(mode.spacing)) as u32;
    gaps[index] = gaps[index].wrapping_sub(back);
    if let Some(after) = gaps.get_mut(index + 1) {
        *after = after.wrapping_add(back);
    }
    gaps
}

fn cut_page(random: &mut Random, mode: &LineMode) -> Vec<u32> {
    let mut gaps = any_page(random, mode);
    gaps.truncate(any_index(random, &gaps));
    gaps
}

fn from_the_middle(random: &mut Random, mode: &LineMode) -> Vec<u32> {
    let mut gaps = any_page(random, mode);
    gaps.drain(..any_index(random, &gaps));
    gaps
}

fn edge_missing(random: &mut Random, mode: &LineMode) -> Vec<u32> {
    let mut positions = any_positions(random, mode);
    positions.remove(any_index(random, &positions));
    let draw = any_precision(random);
    gaps(random, mode, &positions, draw)
}

/// At a position that has none, up to some past the page, or between two positions.
fn edge_added(random: &mut Random, mode: &LineMode) -> Vec<u32> {
    if random.once_in(3) {
        let mut gaps = any_page(random, mode);
        let index = any_index(random, &gaps);
        let before = random.below(u64::from(gaps[index]) + 1) as u32;
        gaps[index] -= before;
        gaps.insert(index, before);
        return gaps;
    }
    let mut positions = any_positions(random, mode);
    let free: Vec<usize> = (2..=160).filter(|at| !positions.contains(at)).collect();
    positions.push(random.pick(&free));
    positions.sort();
    let draw = any_precision(random);
    gaps(random, mode, &positions, draw)
}

fn flipped_bits(random: &mut Random, mode: &LineMode) -> Vec<u32> {
    let mut positions = any_positions(random, mode);
    for _ in 0..=random.below(3) {
        flip_a_bit(random, &mut positions);
    }
    let draw = any_precision(random);
    gaps(random, mode, &positions, draw)
}

/// Takes away the edge of one of the 64 bits, or puts one in.
fn flip_a_bit(random: &mut Random, positions: &mut Vec<usize>) {
    let bit = 28 + 2 * random.below(64) as usize;
    match positions.binary_search(&bit) {
        Ok(index) => drop(positions.remove(index)),
        Err(index) => positions.insert(index, bit),
    }
}

/// Half of these go on after the changed gap.
fn other_end(random: &mut Random, mode: &LineMode) -> Vec<u32> {
    let mut gaps = any_page(random, mode);
    gaps.pop();
    gaps.push(if random.once_in(2) {
        mode.spacing * (1 + random.below(4) as u32)
    } else {
        any_gap(random, mode)
    });
    if random.once_in(2) {
        gaps.push(mode.spacing * (1 + random.below(4) as u32));
        gaps.push(any_gap(random, mode));
    }
    gaps
}

fn two_pages(random: &mut Random, mode: &LineMode, between: u32) -> Vec<u32> {
    let mut gaps = any_page(random, mode);
    gaps.push(between);
    gaps.extend(any_page(random, mode));
    gaps
}

fn cut_and_page(random: &mut Random, mode: &LineMode) -> Vec<u32> {
    let mut gaps = any_page(random, mode);
    // Often all but the last edge or two are there.
    let missing = match random.below(3) {
        0 => 1 + random.below(2) as usize,
        _ => 1 + any_index(random, &gaps),
    };
    gaps.truncate(gaps.len() - missing);
    gaps.push(quiet_gap(random, mode));
    gaps.extend(any_page(random, mode));
    gaps
}

/// None of the dropped edges follows a quiet gap, but many come later than the quiet
/// limit after the wrong gap.
fn dropped_and_page(random: &mut Random, mode: &LineMode) -> Vec<u32> {
    let mut gaps = cut_page(random, mode);
    gaps.push(mode.spacing + mode.tolerance + 1);
    for _ in 0..random.below(12) {
        gaps.push(match random.below(4) {
            0 => mode.spacing * (1 + random.below(4) as u32),
            1 => mode.quiet_limit - 1,
            2 => 0,
            _ => random.below(mode.quiet_limit.into()) as u32,
        });
    }
    gaps.push(quiet_gap(random, mode));
    gaps.extend(any_page(random, mode));
    gaps
}

fn several_parts(random: &mut Random, mode: &LineMode) -> Vec<u32> {
    let mut gaps = any_part(random, mode);
    for _ in 0..=random.below(3) {
        gaps.push(if random.once_in(4) {
            any_gap(random, mode)
        } else {
            quiet_gap(random, mode)
        });
        gaps.extend(any_part(random, mode));
    }
    gaps
}

fn any_part(random: &mut Random, mode: &LineMode) -> Vec<u32> {
    let parts = [
        any_page as DrawGaps,
        any_page,
        flipped_bits,
        edge_missing,
        edge_added,
        cut_page,
        one_gap_changed,
    ];
    random.pick(&parts)(random, mode)
}

fn few_distinct_gaps(random: &mut Random, mode: &LineMode) -> Vec<u32> {
    let choices: Vec<u32> = (0..=random.below(3))
        .map(|_| any_gap(random, mode))
        .collect();
    (0..random.below(40))
        .map(|_| random.pick(&choices))
        .collect()
}

fn quiet_gaps_only(random: &mut Random, mode: &LineMode) -> Vec<u32> {
    (0..random.below(30))
        .map(|_| quiet_gap(random, mode))
        .collect()
}

fn starts_of_pages(random: &mut Random, mode: &LineMode) -> Vec<u32> {
    let mut gaps = Vec::new();
    for _ in 0..=random.below(6) {
        let start = any_page(random, mode);
        gaps.extend(&start[..random.below(30) as usize]);
        gaps.push(quiet_gap(random, mode));
    }
    gaps
}

/// Every end of every window, and one beyond it, each in an attempt of its own.
fn starts_and_window_ends(random: &mut Random, mode: &LineMode) -> Vec<u32> {
    let mut gaps = Vec::new();
    for positions in 1..=4 {
        for off in [mode.tolerance, mode.tolerance + 1] {
            let middle = positions * mode.spacing;
            for end in [middle - off, middle + off] {
                let start = any_page(random, mode);
                gaps.extend(&start[..random.below(20) as usize]);
                gaps.push(end);
                gaps.push(quiet_gap(random, mode));
            }
        }
    }
    gaps
}

/// The gaps of a page with this word, each somewhere in its window.
pub fn page_gaps(random: &mut Random, mode: &LineMode, word: u64) -> Vec<u32> {
    let draw = any_precision(random);
    gaps(random, mode, &transitions(mode, word), draw)
}

/// The gaps of a page with this word that lost an edge or its end, or has a flipped bit or
/// another gap.
pub fn damaged_page_gaps(random: &mut Random, mode: &LineMode, word: u64) -> Vec<u32> {
    let mut positions = transitions(mode, word);
    let index = any_index(random, &positions);
    let draw = any_precision(random);
    match random.below(4) {
        0 => drop(positions.remove(index)),
        1 => positions.truncate(index + 1),
        2 => flip_a_bit(random, &mut positions),
        _ => {
            let mut gaps = gaps(random, mode, &positions, draw);
            gaps[index.saturating_sub(1)] = any_gap(random, mode);
            return gaps;
        }
    }
    gaps(random, mode, &positions, draw)
}
