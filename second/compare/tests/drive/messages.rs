//! Message runs (operation 8): the borders of wish 8 one by one, with the answers written
//! out. The random runs are in `random_messages`.

use compare::agreement::{
    assert_agreement, assert_answer_cells, assert_output, assert_rows_do_not_disturb,
};
use compare::call::{all_cells, Call};
use compare::cells::MOST_CELLS;
use reference::answer::{number, LENGTH, RUN, WIDE};

const TWO_TO_48: u64 = 1 << 48;

/// The largest page that is not too wide. It is a message page with the code 2047.
const ALL_ONES: u64 = TWO_TO_48 - 1;

/// An unformatted page with as many ones as one can have.
const UNFORMATTED_ONES: u64 = ALL_ONES - 0x2000;

/// Pages that are too wide: the first one, the last one, and some whose lower 48 bits, or
/// lower 32, would be a right page of either kind.
const WIDE_PAGES: [u64; 8] = [
    TWO_TO_48,
    TWO_TO_48 + 0x2001,
    1 << 49,
    (1 << 56) + 0x2001,
    1 << 63,
    (1 << 63) + 0x2001,
    u64::MAX - 0x2000,
    u64::MAX,
];

/// A message page with this code and nothing else.
fn message(code: u64) -> u64 {
    0x2000 + code
}

/// A call with these pages, and the messages that it answers, each with its code, its first
/// place and its number of unformatted pages.
fn told(pages: &[u64], messages: &[[u64; 3]]) -> (Call, Vec<u64>) {
    let mut cells = vec![number(messages.len() as u64)];
    cells.extend(messages.as_flattened());
    (Call::messages(pages), cells)
}

/// A call with these pages, and its refusal, after which no cells follow.
fn refused(pages: &[u64], refusal: u64) -> (Call, Vec<u64>) {
    (Call::messages(pages), vec![refusal])
}

/// So many pages, the first one a message page with this code, all others unformatted.
fn one_message(code: u64, length: usize) -> Vec<u64> {
    let mut pages = vec![0; length];
    pages[0] = message(code);
    pages
}

/// The pages with another one at this place.
fn with(mut pages: Vec<u64>, place: usize, page: u64) -> Vec<u64> {
    pages[place] = page;
    pages
}

#[test]
fn small_runs_with_every_cell_written_out() {
    let cells = |pages: &[u64], cells: &[u64]| (Call::messages(pages), cells.to_vec());
    assert_answer_cells(&[
        cells(&[], &[0x8400_0000_0000_0000]),
        cells(&[0x2001], &[0x8400_0000_0000_0001, 1, 0, 0]),
        cells(&[0x2001, 0x0002], &[0x8400_0000_0000_0001, 1, 0, 1]),
        cells(
            &[0x2001, 0x2002],
            &[0x8400_0000_0000_0002, 1, 0, 0, 2, 1, 0],
        ),
        cells(
            &[0x2006, 0, 0, 0x27FF, 0, 0x2000],
            &[0x8400_0000_0000_0003, 6, 0, 2, 2047, 3, 1, 0, 5, 0],
        ),
        cells(
            &[0xFFFF_FFFF_FFFF, 0xFFFF_FFFF_DFFF, 0x1234_5678_ABCD],
            &[0x8400_0000_0000_0002, 2047, 0, 1, 0x3CD, 2, 0],
        ),
        cells(&[0x0001], &[0x1800_0000_0000_0000]),
        cells(&[0x0001, 0x2001], &[0x1800_0000_0000_0000]),
        cells(&[0x2001, 1 << 48], &[0x0D00_0000_0000_0000]),
        cells(&[0x2001; 65], &[0x1900_0000_0000_0000]),
    ]);
}

#[test]
fn point_104_places_count_from_0() {
    assert_answer_cells(&[
        told(&[message(3)], &[[3, 0, 0]]),
        told(&[message(3), message(4)], &[[3, 0, 0], [4, 1, 0]]),
        told(
            &with(one_message(3, 64), 63, message(4)),
            &[[3, 0, 62], [4, 63, 0]],
        ),
    ]);
}

#[test]
fn point_105_an_empty_run_gives_an_empty_list() {
    // It stands between two runs with messages, of which nothing may be left.
    let before = told(&[message(3), 0], &[[3, 0, 1]]);
    let after = told(&[message(4)], &[[4, 0, 0]]);
    assert_answer_cells(&[
        told(&[], &[]),
        before,
        told(&[], &[]),
        after,
        told(&[], &[]),
    ]);
}

#[test]
fn every_length_up_to_64_with_messages_only() {
    let calls: Vec<_> = (0..=64)
        .map(|length| {
            let pages: Vec<u64> = (0..length).map(|place| message(100 + place)).collect();
            let messages: Vec<_> = (0..length).map(|place| [100 + place, place, 0]).collect();
            told(&pages, &messages)
        })
        .collect();
    assert_answer_cells(&calls);
}

#[test]
fn every_length_up_to_64_as_one_message() {
    let calls: Vec<_> = (1..=64)
        .map(|length| told(&one_message(9, length), &[[9, 0, length as u64 - 1]]))
        .collect();
    assert_answer_cells(&calls);
}

#[test]
fn every_length_up_to_64_with_a_message_at_every_other_place() {
    let calls: Vec<_> = (0..=64)
        .map(|length: u64| {
            let pages = [message(7), 8].into_iter().cycle().take(length as usize);
            let pages: Vec<u64> = pages.collect();
            let messages: Vec<_> = (0..length)
                .step_by(2)
                .map(|place| [7, place, u64::from(place + 1 < length)])
                .collect();
            told(&pages, &messages)
        })
        .collect();
    assert_answer_cells(&calls);
}

#[test]
fn more_than_64_pages_are_too_long_whatever_they_are() {
    // The lowest byte of some of these lengths alone would do.
    let lengths = [65, 66, 127, 128, 255, 256, 257, 319, 320, 321, 1000, 1024];
    let mut calls = Vec::new();
    for length in lengths {
        let pages = one_message(1, length);
        calls.push(refused(&pages, LENGTH));
        calls.push(refused(&vec![message(1); length], LENGTH));
        calls.push(refused(&vec![0; length], LENGTH));
        for place in [0, 1, 63, 64, length - 1] {
            calls.push(refused(&with(pages.clone(), place, u64::MAX), LENGTH));
        }
    }
    assert_answer_cells(&calls);
}

#[test]
fn a_wide_page_at_each_place() {
    let mut calls = Vec::new();
    for length in [1, 2, 64] {
        for place in 0..length {
            for wide in WIDE_PAGES {
                let messages_only = vec![message(5); length];
                calls.push(refused(&with(messages_only, place, wide), WIDE));
                calls.push(refused(&with(one_message(5, length), place, wide), WIDE));
            }
        }
        calls.push(refused(&vec![u64::MAX; length], WIDE));
    }
    assert_answer_cells(&calls);
}

#[test]
fn a_page_of_2_to_48_less_1_is_not_wide_at_any_place() {
    let mut calls = Vec::new();
    for length in [1, 2, 64] {
        let first = with(one_message(5, length), 0, ALL_ONES);
        calls.push(told(&first, &[[2047, 0, length as u64 - 1]]));
        for place in 1..length {
            let pages = with(one_message(5, length), place, ALL_ONES);
            let before = place as u64 - 1;
            let after = (length - place) as u64 - 1;
            let messages = [[5, 0, before], [2047, place as u64, after]];
            calls.push(told(&pages, &messages));
            // The largest page without D13 belongs to the message before it.
            let pages = with(one_message(5, length), place, UNFORMATTED_ONES);
            calls.push(told(&pages, &[[5, 0, length as u64 - 1]]));
        }
    }
    assert_answer_cells(&calls);
}

#[test]
fn an_unformatted_page_first_is_refused() {
    let mut calls = Vec::new();
    for first in [0, 1, 0x7FF, 0x1000, 0x4000, 0xD7FF, UNFORMATTED_ONES] {
        for length in [1, 2, 3, 63, 64] {
            for others in [0, message(1), ALL_ONES, UNFORMATTED_ONES, first] {
                let pages = with(vec![others; length], 0, first);
                calls.push(refused(&pages, RUN));
            }
            let one_at_the_end = with(vec![first; length + 1], length, message(1));
            calls.push(match length {
                64 => refused(&one_at_the_end, LENGTH),
                _ => refused(&one_at_the_end, RUN),
            });
        }
    }
    assert_answer_cells(&calls);
}

#[test]
fn point_105_the_first_of_several_refusals_is_answered() {
    let mut calls = Vec::new();
    for (first, wide) in [(0, TWO_TO_48), (0x7FF, u64::MAX)] {
        let (long, right) = (vec![first; 65], vec![first; 64]);
        // Too long, and besides: a wide page within the first 64 or after them, an
        // unformatted page first, or both.
        for place in [1, 63, 64] {
            let both = with(long.clone(), place, wide);
            calls.push(refused(&both, LENGTH));
            calls.push(refused(&with(both, 0, message(1)), LENGTH));
        }
        calls.push(refused(&long, LENGTH));
        calls.push(refused(&with(long.clone(), 0, wide), LENGTH));
        // A wide page at any place, and an unformatted one first.
        for place in 1..64 {
            calls.push(refused(&with(right.clone(), place, wide), WIDE));
        }
        calls.push(refused(&[first, wide], WIDE));
        // The page that is first is both.
        calls.push(refused(&[wide & !0x2000], WIDE));
        calls.push(refused(&[wide & !0x2000, message(1)], WIDE));
        calls.push(refused(&with(right.clone(), 0, wide & !0x2000), WIDE));
        calls.push(refused(&right, RUN));
    }
    assert_answer_cells(&calls);
}

#[test]
fn every_code_is_told_of_a_first_and_of_a_later_message() {
    let calls: Vec<_> = (0..2048)
        .map(|code| {
            // The D0-10 of an unformatted page are no code.
            let other = 2047 - code;
            let pages = [message(code), other, message(other), code];
            told(&pages, &[[code, 0, 1], [other, 2, 1]])
        })
        .collect();
    assert_answer_cells(&calls);
}

#[test]
fn every_code_is_told_at_every_place() {
    let calls: Vec<_> = (0..2048)
        .map(|first| {
            let code = |place| (first + place) % 2048;
            let pages: Vec<u64> = (0..64).map(|place| message(code(place))).collect();
            let messages: Vec<_> = (0..64).map(|place| [code(place), place, 0]).collect();
            told(&pages, &messages)
        })
        .collect();
    assert_answer_cells(&calls);
}

#[test]
fn fields_that_do_not_matter_do_not_matter() {
    let pages = [message(0x155), 0, 0, message(0x2AA), 0];
    let messages = [[0x155, 0, 2], [0x2AA, 3, 1]];
    let fields_of_messages: u64 = 0xFFFF_FFFF_D800;
    let mut calls = vec![told(&pages, &messages)];
    for (place, page) in pages.into_iter().enumerate() {
        let is_message = page != 0;
        let do_not_matter = match is_message {
            true => fields_of_messages,
            false => UNFORMATTED_ONES,
        };
        for bit in (0..48).map(|bit| 1 << bit) {
            if bit & do_not_matter != 0 {
                calls.push(told(&with(pages.to_vec(), place, page | bit), &messages));
            }
        }
        let all_set = with(pages.to_vec(), place, page | do_not_matter);
        calls.push(told(&all_set, &messages));
    }
    // 36 bits of each message page, 47 of each unformatted one.
    assert_eq!(calls.len(), 1 + 2 * 37 + 3 * 48);
    calls.push(told(&pages.map(|page| page | 0xFFFF_FFFF_D800), &messages));
    assert_answer_cells(&calls);
}

#[test]
fn neither_toggle_nor_np_nor_the_null_message_ends_a_run() {
    let (toggle, ack, has_more) = (0x0800, 0x4000, 0x8000);
    assert_answer_cells(&[
        // Toggles that alternate, that do not, and NP that is zero before the last page.
        told(&[0x2005, toggle, 0x2006], &[[5, 0, 1], [6, 2, 0]]),
        told(&[0x2005 + toggle, toggle, toggle], &[[5, 0, 2]]),
        told(&[0x2005 + has_more, 0, has_more, ack], &[[5, 0, 3]]),
        told(&[0x2005, 0x2006 + has_more], &[[5, 0, 0], [6, 1, 0]]),
        told(
            &[0x2001, 0, 0x2001, 0x2005],
            &[[1, 0, 1], [1, 2, 0], [5, 3, 0]],
        ),
    ]);
}

#[test]
fn every_row_of_kinds_up_to_ten_pages() {
    let row = |length: u64, kinds: u64| -> Vec<u64> {
        (0..length)
            .map(|place| (kinds >> place & 1) * 0x2000 + 0x11 * place)
            .collect()
    };
    let calls: Vec<Call> = (0..=10)
        .flat_map(|length| (0..1 << length).map(move |kinds| (length, kinds)))
        .map(|(length, kinds)| Call::messages(&row(length, kinds)))
        .collect();
    assert_eq!(calls.len(), 2047);
    assert_agreement(&calls);
}

#[test]
fn two_more_messages_at_every_pair_of_places_of_64() {
    let mut calls = Vec::new();
    for second in 1..64 {
        for third in second + 1..64 {
            let pages = with(one_message(10, 64), second, message(20));
            let pages = with(pages, third, message(30));
            let [second, third] = [second as u64, third as u64];
            let messages = [
                [10, 0, second - 1],
                [20, second, third - second - 1],
                [30, third, 63 - third],
            ];
            calls.push(told(&pages, &messages));
        }
    }
    assert_answer_cells(&calls);
}

/// Calls with very different answers: long, short, empty and refused runs, and others.
fn calls_of_all_sorts() -> Vec<Call> {
    vec![
        Call::messages(&vec![ALL_ONES; 64]),
        Call::messages(&[]),
        Call::messages(&one_message(2047, 64)),
        Call::messages(&[0, message(1)]),
        Call::messages(&[message(8)]),
        Call::messages(&vec![u64::MAX; 500]),
        Call::check(1 << 47),
        Call::messages(&[message(1), u64::MAX]),
        Call::messages(&[message(1), 0, message(2), 0, 0]),
        Call::read(0, 0, &[0, 30, 60]),
        Call::messages(&vec![message(0); 63]),
        Call::write(0, 0, 7, 0, &[9; 81]),
    ]
}

#[test]
fn calls_in_one_row_do_not_disturb_one_another() {
    assert_rows_do_not_disturb(&calls_of_all_sorts());
}

#[test]
fn the_answers_to_65_536_cells_may_be_nearly_three_times_as_long() {
    // Each call of 66 cells has 194 answer cells, with their number.
    let pages: Vec<u64> = (0..64).map(|place| message(64 + place)).collect();
    let mut calls = vec![Call::messages(&pages); 992];
    calls.push(Call::messages(&pages[..62]));
    assert_eq!(all_cells(&calls).len(), MOST_CELLS);
    let answer = |length: u64| {
        let messages = (0..length).flat_map(|place| [64 + place, place, 0]);
        [1 + 3 * length, number(length)].into_iter().chain(messages)
    };
    let mut expected: Vec<u64> = (0..992).flat_map(|_| answer(64)).collect();
    expected.extend(answer(62));
    assert_output(&calls, &expected);
}

#[test]
fn empty_runs_up_to_cell_65_536_are_answered_and_none_after_it() {
    let calls_that_fit = MOST_CELLS / 2;
    let mut calls = vec![Call::messages(&[]); calls_that_fit];
    let expected = [1, number(0)].repeat(calls_that_fit);
    assert_eq!(all_cells(&calls).len(), MOST_CELLS);
    assert_output(&calls, &expected);
    calls.push(Call::messages(&[]));
    assert_output(&calls, &expected);
}

#[test]
fn one_run_may_fill_all_65_536_cells_and_is_too_long() {
    for page in [0, message(1), u64::MAX] {
        let longest = vec![page; MOST_CELLS - 2];
        assert_output(&[Call::messages(&longest)], &[1, LENGTH]);
        let past_the_end = vec![page; MOST_CELLS - 1];
        assert_output(&[Call::messages(&past_the_end)], &[]);
    }
}
