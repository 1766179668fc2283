//! Whole frames through operations 9 and 10, held against what wish 10 says of them from
//! the answer cells of `drive` alone.

use crate::by_doubling::{is_frame, product, GENERATOR};
use crate::parity_by_drive::{parities, states_after};
use compare::agreement::{assert_agreement, drives_answers};
use compare::frames::{calls_of_a_frame, cut_at_random, new_frame, symbols};
use compare::random::Random;
use compare::tally::Tally;
use std::ops::Range;

/// So many frames are led through `drive`, each cut at up to so many places.
const FRAMES: usize = 300;
const MOST_CUTS: u64 = 11;

/// So many frames are cut at up to so many places, which is mostly more than once a symbol.
const FRAMES_OF_MANY_BURSTS: usize = 20;
const VERY_MANY_CUTS: u64 = 800;

/// So many pairs of frames are taken for each number of data symbols that differ.
const PAIRS: usize = 6;

/// Frames with random data, cut at random and finished. The state of each call is what
/// `drive` answered to the one before it.
fn finished_frames(random: &mut Random) -> Vec<Vec<u64>> {
    let data: Vec<Vec<u64>> = (0..FRAMES).map(|_| symbols(random, 406)).collect();
    let mut bursts = Vec::new();
    for data in &data {
        let cuts = random.below(MOST_CUTS + 1);
        bursts.push(cut_at_random(random, data, cuts));
    }
    count_bursts(&bursts);
    let parities = parities(&states_after_all(&bursts));
    let both = data.iter().zip(&parities);
    both.map(|(data, parity)| [&data[..], parity].concat())
        .collect()
}

/// Counts the frames by their bursts and fails unless each number of them is met, and empty
/// bursts first, last and in between.
fn count_bursts(bursts_of_frames: &[Vec<&[u64]>]) {
    let number = |bursts: usize| format!("frames of {bursts:>2} bursts");
    let empty =
        ["first", "last", "inside"].map(|place| format!("frames with an empty burst {place}"));
    let numbers = (1..=MOST_CUTS as usize + 1).map(number);
    let mut met = Tally::of(numbers.chain(empty.clone()));
    for bursts in bursts_of_frames {
        met.meet(&number(bursts.len()));
        let last = bursts.len() - 1;
        let inside = bursts.get(1..last).unwrap_or(&[]);
        let is_so = [
            bursts[0].is_empty(),
            bursts[last].is_empty(),
            inside.iter().any(|burst| burst.is_empty()),
        ];
        for (name, _) in empty.iter().zip(is_so).filter(|(_, is_so)| *is_so) {
            met.meet(name);
        }
    }
    met.assert_all_met();
}

/// The states after all bursts of each frame, in turns of one burst of every frame.
fn states_after_all(bursts_of_frames: &[Vec<&[u64]>]) -> Vec<Vec<u64>> {
    let turns = bursts_of_frames.iter().map(Vec::len).max();
    let mut states = vec![new_frame(); bursts_of_frames.len()];
    for turn in 0..turns.unwrap_or(0) {
        let mut states_and_bursts = Vec::new();
        for (state, bursts) in states.into_iter().zip(bursts_of_frames) {
            // After its last burst a frame takes empty ones.
            let burst: &[u64] = bursts.get(turn).copied().unwrap_or(&[]);
            states_and_bursts.push((state, burst));
        }
        states = states_after(&states_and_bursts);
    }
    states
}

#[test]
fn parity_makes_frames_that_are_zero_at_the_44_powers() {
    let frames = finished_frames(&mut Random::from_environment());
    let are_frames = frames.iter().filter(|frame| is_frame(frame)).count();
    assert_eq!(are_frames, FRAMES);
}

#[test]
fn parity_shows_that_1_to_44_symbols_were_changed() {
    let mut random = Random::from_environment();
    for frame in finished_frames(&mut random) {
        assert!(is_frame(&frame));
        for number in 1..=44 {
            let anywhere = some_of(&mut random, 0..450, number);
            let in_the_data = some_of(&mut random, 0..406, number);
            let in_the_parity = some_of(&mut random, 406..450, number);
            let first = random.below(450 - number as u64 + 1) as usize;
            let in_a_row = (first..first + number).collect();
            for places in [anywhere, in_the_data, in_the_parity, in_a_row] {
                let changed = changed_at(&mut random, &frame, &places);
                assert!(!is_frame(&changed), "{number} changed at {places:?}");
            }
        }
    }
}

/// So many different places of these.
fn some_of(random: &mut Random, places: Range<usize>, number: usize) -> Vec<usize> {
    let mut places: Vec<usize> = places.collect();
    let take_one = |_| places.swap_remove(random.below(places.len() as u64) as usize);
    (0..number).map(take_one).collect()
}

/// The symbols with another symbol at each of these places.
fn changed_at(random: &mut Random, symbols: &[u64], places: &[usize]) -> Vec<u64> {
    let mut changed = symbols.to_vec();
    for place in places {
        changed[*place] = (symbols[*place] + 1 + random.below(511)) % 512;
    }
    changed
}

/// With 45 symbols changed it can be another frame: a multiple of the generator away. With
/// any one of them as before, 44 are changed, and it is no frame.
#[test]
fn parity_is_right_again_a_multiple_of_the_generator_away_and_not_before() {
    let mut random = Random::from_environment();
    for frame in finished_frames(&mut random) {
        let factor = 1 + random.below(511);
        let first = random.below(406) as usize;
        let mut other = frame.clone();
        other[first] ^= factor;
        for (symbol, coefficient) in other[first + 1..].iter_mut().zip(GENERATOR) {
            *symbol ^= product(factor, coefficient);
        }
        assert!(is_frame(&other));
        for place in first..first + 45 {
            let mut nearly = other.clone();
            nearly[place] = frame[place];
            assert!(!is_frame(&nearly), "{place} of {first} on");
        }
    }
}

/// Two frames differ in 45 symbols or more. So where few data symbols differ, nearly all
/// parity symbols do, and where only one does, all of them.
#[test]
fn parity_differs_in_the_more_symbols_the_fewer_data_symbols_differ() {
    let mut random = Random::from_environment();
    for number in 1..=44 {
        let mut data = Vec::new();
        for _ in 0..PAIRS {
            let first = symbols(&mut random, 406);
            let places = some_of(&mut random, 0..406, number);
            let second = changed_at(&mut random, &first, &places);
            data.extend([first, second]);
        }
        let from_new = data.iter().map(|data| (new_frame(), &data[..]));
        let parities = parities(&states_after(&from_new.collect::<Vec<_>>()));
        for pair in parities.chunks(2) {
            let both = pair[0].iter().zip(&pair[1]);
            let differ = both.filter(|(first, second)| first != second).count();
            assert!(differ + number >= 45, "{differ} differ by {number}");
        }
    }
}

#[test]
fn parity_of_frames_cut_into_very_many_bursts() {
    let mut random = Random::from_environment();
    for _ in 0..FRAMES_OF_MANY_BURSTS {
        let data = symbols(&mut random, 406);
        let cuts = random.below(VERY_MANY_CUTS + 1);
        let calls = calls_of_a_frame(&cut_at_random(&mut random, &data, cuts));
        assert_agreement(&calls);
        let whole = parities(&states_after(&[(new_frame(), &data)]));
        let finish = &drives_answers(&calls)[calls.len() - 1];
        assert_eq!(finish[1..], whole[0]);
    }
}
