//! Many random calls of each operation.

use compare::agreement::assert_agreement;
use compare::call::Call;
use compare::generate::{check_call, judge_call, window_ends, write_call, FEWEST_ENTRIES};
use compare::kinds::{Kind, Kinds};
use compare::random::Random;
use reference::line_mode::{line_mode, HSM, LSM};
use reference::{answer, calls, check, page};

const CALLS: usize = 20_000;

const LARGEST_READING: u64 = u32::MAX as u64;

/// Draws the calls, compares them, and demands that every kind was met.
fn compare_random_calls(draw: fn(&mut Random) -> Call, kinds: &'static [Kind<Call>]) {
    let mut random = Random::from_environment();
    let calls: Vec<Call> = (0..CALLS).map(|_| draw(&mut random)).collect();
    let mut met = Kinds::new(kinds);
    calls.iter().for_each(|call| met.count(call));
    met.assert_all_met();
    assert_agreement(&calls);
}

#[test]
fn random_checks_agree() {
    compare_random_calls(check_call, CHECK_KINDS);
}

#[test]
fn random_judgements_agree() {
    compare_random_calls(judge_call, JUDGE_KINDS);
}

#[test]
fn random_writings_agree() {
    compare_random_calls(write_call, WRITE_KINDS);
}

const CHECK_KINDS: &[Kind<Call>] = &[
    ("word below 2^48", |call| word(call) < 1 << 48),
    ("word 2^48 - 1", |call| word(call) == (1 << 48) - 1),
    ("word 2^48", |call| word(call) == 1 << 48),
    ("word above 2^48", |call| word(call) > 1 << 48),
    ("word of 2^63 or more", |call| word(call) >= 1 << 63),
    ("word with at most 3 ones", |call| {
        word(call).count_ones() <= 3
    }),
    ("word with 45 to 48 ones, below 2^48", |call| {
        word(call) < 1 << 48 && word(call).count_ones() >= 45
    }),
];

fn word(check: &Call) -> u64 {
    check.arguments[0]
}

const JUDGE_KINDS: &[Kind<Call>] = &[
    ("HSM, one position", |call| {
        judged(call, 0, answer::number(1))
    }),
    ("HSM, two positions", |call| {
        judged(call, 0, answer::number(2))
    }),
    ("HSM, three positions", |call| {
        judged(call, 0, answer::number(3))
    }),
    ("HSM, four positions", |call| {
        judged(call, 0, answer::number(4))
    }),
    ("HSM, quiet", |call| judged(call, 0, answer::QUIET)),
    ("HSM, unfit", |call| judged(call, 0, answer::UNFIT)),
    ("LSM, one position", |call| {
        judged(call, 1, answer::number(1))
    }),
    ("LSM, two positions", |call| {
        judged(call, 1, answer::number(2))
    }),
    ("LSM, three positions", |call| {
        judged(call, 1, answer::number(3))
    }),
    ("LSM, four positions", |call| {
        judged(call, 1, answer::number(4))
    }),
    ("LSM, quiet", |call| judged(call, 1, answer::QUIET)),
    ("LSM, unfit", |call| judged(call, 1, answer::UNFIT)),
    ("exactly at an end of a window", |call| {
        let mut ends = window_ends(&HSM);
        ends.extend(window_ends(&LSM));
        ends.contains(&call.arguments[1])
    }),
    ("gap above 2^32 that is a number of positions", |call| {
        call.arguments[1] > LARGEST_READING && answer::kind(judgement(call)) == answer::NUMBER
    }),
    ("mode 2 or 3", |call| [2, 3].contains(&call.arguments[0])),
    ("mode 2^32", |call| call.arguments[0] == 1 << 32),
    ("mode 2^32 + 1", |call| call.arguments[0] == (1 << 32) + 1),
    ("mode 2^64 - 1", |call| call.arguments[0] == u64::MAX),
];

fn judgement(judge: &Call) -> u64 {
    calls::judge(judge.arguments[0], judge.arguments[1] as u32)
}

fn judged(judge: &Call, mode: u64, expected: u64) -> bool {
    judge.arguments[0] == mode && judgement(judge) == expected
}

const WRITE_KINDS: &[Kind<Call>] = &[
    ("nothing wrong", |call| wrong(call) == (false, false, false)),
    ("mode wrong", |call| wrong(call) == (true, false, false)),
    ("word wide", |call| wrong(call) == (false, true, false)),
    ("no room", |call| wrong(call) == (false, false, true)),
    ("mode wrong, word wide", |call| {
        wrong(call) == (true, true, false)
    }),
    ("mode wrong, no room", |call| {
        wrong(call) == (true, false, true)
    }),
    ("word wide, no room", |call| {
        wrong(call) == (false, true, true)
    }),
    ("mode wrong, word wide, no room", |call| {
        wrong(call) == (true, true, true)
    }),
    ("list is exactly the page", |call| {
        place(call) == 0 && Some(length(call)) == count(call)
    }),
    ("page in the middle, entries on both sides", |call| {
        place(call) > 0 && count(call).is_some_and(|count| count < entries_from_place(call))
    }),
    ("page at the end, entries before it", |call| {
        place(call) > 0 && count(call) == Some(entries_from_place(call))
    }),
    ("list one short, place 0", |call| {
        place(call) == 0 && count(call) == Some(length(call) + 1)
    }),
    ("list long enough, place one too far", |call| {
        place(call) > 0 && count(call) == Some(entries_from_place(call) + 1)
    }),
    ("empty list, place 0", |call| {
        length(call) == 0 && place(call) == 0
    }),
    ("place is the length", |call| place(call) == length(call)),
    ("place is the length and one", |call| {
        place(call) == length(call) + 1
    }),
    ("place 2^63", |call| place(call) == 1 << 63),
    ("place 2^64 - 1", |call| place(call) == u64::MAX),
    ("place and count roll over into the list", |call| {
        count(call).is_some_and(|count| {
            place(call) > 1 << 63 && place(call).wrapping_add(count) <= length(call)
        })
    }),
    ("low half of the place would do", |call| {
        let low_half = place(call) & LARGEST_READING;
        place(call) > LARGEST_READING
            && count(call).is_some_and(|count| low_half + count <= length(call))
    }),
    ("first reading 0", |call| first(call) == 0),
    ("first reading above 2^32", |call| {
        first(call) > LARGEST_READING
    }),
    ("clock rolls over inside the page", clock_rolls_over),
    ("entries above 2^32", |call| {
        call.arguments[4..]
            .iter()
            .any(|entry| *entry > LARGEST_READING)
    }),
];

fn first(write: &Call) -> u64 {
    write.arguments[2]
}

fn place(write: &Call) -> u64 {
    write.arguments[3]
}

fn length(write: &Call) -> u64 {
    write.arguments.len() as u64 - 4
}

fn entries_from_place(write: &Call) -> u64 {
    length(write).saturating_sub(place(write))
}

/// The number of the page's readings, if there is such a page.
fn count(write: &Call) -> Option<u64> {
    let mode = line_mode(write.arguments[0])?;
    let word = write.arguments[1];
    check::fits_a_page(word).then(|| page::edge_count(mode, word) as u64)
}

/// Whether the mode is wrong, the word is too wide, and the room is too small. Where
/// there is no such page, the room counts as too small if no page at all would fit.
fn wrong(write: &Call) -> (bool, bool, bool) {
    let needed = count(write).unwrap_or(FEWEST_ENTRIES);
    (
        line_mode(write.arguments[0]).is_none(),
        !check::fits_a_page(write.arguments[1]),
        entries_from_place(write) < needed,
    )
}

fn clock_rolls_over(write: &Call) -> bool {
    let Some(mode) = line_mode(write.arguments[0]) else {
        return false;
    };
    let duration = 156 * u64::from(mode.spacing);
    let nothing_wrong = wrong(write) == (false, false, false);
    nothing_wrong && (first(write) & LARGEST_READING) + duration > LARGEST_READING
}
