//! The parity of a frame (operations 9 and 10): the borders of wish 10 one by one, with the
//! answers written out. The random calls are in `random_parity`, and random frames in
//! `frames_of_parity`.

use crate::by_doubling::{is_frame, product, GENERATOR};
use crate::parity_by_drive::{parities, states_after};
use compare::agreement::{
    assert_agreement, assert_answer_cells, assert_output, assert_rows_do_not_disturb,
};
use compare::call::{all_cells, Call, PARITY_FINISH, PARITY_TAKE};
use compare::cells::MOST_CELLS;
use compare::frames::{calls_of_a_frame, new_frame, COUNTS_TOO_LARGE, WRONG_SYMBOLS};
use reference::answer::{number, COUNT, SYMBOL};

const ZERO: [u64; 44] = [0; 44];

/// A register of which every symbol is another one: 1 to 44.
fn counting_up() -> Vec<u64> {
    (1..=44).collect()
}

fn state(register: &[u64], count: u64) -> Vec<u64> {
    [register, &[count]].concat()
}

/// The row with another entry at this place.
fn with(mut row: Vec<u64>, place: usize, entry: u64) -> Vec<u64> {
    row[place] = entry;
    row
}

/// A take, and the register and the count after it.
fn taken(state: &[u64], burst: &[u64], register: &[u64], count: u64) -> (Call, Vec<u64>) {
    let cells = [&[number(count)], register, &[count]].concat();
    (Call::parity_take(state, burst), cells)
}

/// A take and its refusal. The state comes back as it was, or 65 535 where it was more.
fn refused(state: &[u64], burst: &[u64], refusal: u64) -> (Call, Vec<u64>) {
    let mut cells = vec![refusal];
    cells.extend(state.iter().map(|entry| (*entry).min(65_535)));
    (Call::parity_take(state, burst), cells)
}

/// A finish of a whole frame with this register, which is its parity.
fn finished(register: &[u64]) -> (Call, Vec<u64>) {
    let cells = [&[number(44)], register].concat();
    (Call::parity_finish(&state(register, 406)), cells)
}

/// A finish and its refusal, after which no cells follow.
fn unfinished(state: &[u64], refusal: u64) -> (Call, Vec<u64>) {
    (Call::parity_finish(state), vec![refusal])
}

/// Rows of 406 data symbols that are very different from one another.
fn rows_of_data() -> [Vec<u64>; 4] {
    [
        (1..=406).collect(),
        vec![511; 406],
        (0..406).map(|place| place * place * 7 % 512).collect(),
        with(vec![0; 406], 0, 1),
    ]
}

/// A take and its answer cells, both as rows that are joined.
fn told(before: &[&[u64]], burst: &[u64], after: &[&[u64]]) -> (Call, Vec<u64>) {
    (Call::parity_take(&before.concat(), burst), after.concat())
}

#[test]
fn small_takes_with_every_cell_written_out() {
    let after = [0x8400_0000_0000_0000, 0x8400_0000_0000_0001];
    assert_answer_cells(&[
        told(&[&[0; 45]], &[], &[&after[..1], &[0; 45]]),
        told(&[&[0; 45]], &[0], &[&after[1..], &[0; 44], &[1]]),
        told(&[&[0; 45]], &[1], &[&after[1..], &GENERATOR, &[1]]),
        // 5 stands at Z^0 and goes to Z^2.
        told(
            &[&[0; 43], &[5, 9]],
            &[0, 0],
            &[&[0x8400_0000_0000_000B], &[0; 41], &[5, 0, 0, 11]],
        ),
        // 5 stands at Z^43 and goes to Z^44, where the burst's 5 is; their sum is 0.
        told(
            &[&[5], &[0; 42], &[7, 405]],
            &[5],
            &[&[0x8400_0000_0000_0196], &[0; 42], &[7, 0, 406]],
        ),
    ]);
}

#[test]
fn small_refused_takes_with_every_cell_written_out() {
    let (symbol, count) = (0x1400_0000_0000_0000, 0x1500_0000_0000_0000);
    let at_406: [&[u64]; 2] = [&[0; 44], &[406]];
    let at_405: [&[u64]; 2] = [&[0; 44], &[405]];
    let wrong: [&[u64]; 3] = [&[0; 43], &[512], &[9]];
    assert_answer_cells(&[
        told(&at_406, &[0], &[&[count], &[0; 44], &[406]]),
        told(&at_406, &[512], &[&[count], &[0; 44], &[406]]),
        told(&at_405, &[512], &[&[symbol], &[0; 44], &[405]]),
        told(&at_405, &[511, 512], &[&[count], &[0; 44], &[405]]),
        told(&wrong, &[], &[&[symbol], &[0; 43], &[512], &[9]]),
    ]);
}

#[test]
fn small_finishes_with_every_cell_written_out() {
    let told = |state: &[&[u64]], answer: &[&[u64]]| {
        (Call::parity_finish(&state.concat()), answer.concat())
    };
    let counting = counting_up();
    assert_answer_cells(&[
        told(&[&[0; 44], &[406]], &[&[0x8400_0000_0000_002C], &[0; 44]]),
        told(&[&counting, &[406]], &[&[0x8400_0000_0000_002C], &counting]),
        told(&[&[0; 44], &[405]], &[&[0x1500_0000_0000_0000]]),
        told(&[&[512], &[0; 43], &[406]], &[&[0x1400_0000_0000_0000]]),
    ]);
}

/// At count 405 this is the frame of 97.3.5.3, which has nothing but its OAM symbol.
#[test]
fn each_symbol_alone_gives_its_multiple_of_the_generator() {
    let mut calls = Vec::new();
    for symbol in 0..512 {
        let multiple = GENERATOR.map(|coefficient| product(symbol, coefficient));
        calls.push(taken(&new_frame(), &[symbol], &multiple, 1));
        calls.push(taken(&state(&ZERO, 405), &[symbol], &multiple, 406));
        calls.push(finished(&multiple));
    }
    assert_answer_cells(&calls);
}

#[test]
fn a_burst_that_begins_as_the_register_does_takes_it_away() {
    let register = counting_up();
    let calls: Vec<_> = (0..=44)
        .map(|length| {
            let burst = &register[..length];
            let left = [&register[length..], &ZERO[..length]].concat();
            taken(&state(&register, 100), burst, &left, 100 + length as u64)
        })
        .collect();
    assert_answer_cells(&calls);
}

#[test]
fn zeros_move_the_register_up_as_far_as_it_goes() {
    let mut calls = Vec::new();
    for length in 0..=44 {
        let symbols: Vec<u64> = (300..).take(44 - length).collect();
        let before = [&ZERO[..length], &symbols].concat();
        let after = [&symbols, &ZERO[..length]].concat();
        let count = 100 + length as u64;
        calls.push(taken(&state(&before, 100), &ZERO[..length], &after, count));
    }
    assert_answer_cells(&calls);
}

#[test]
fn zeros_leave_zeros() {
    let mut calls = vec![finished(&ZERO)];
    for length in 0..=406 {
        calls.push(taken(&new_frame(), &vec![0; length], &ZERO, length as u64));
        let left = state(&ZERO, 406 - length as u64);
        calls.push(taken(&left, &vec![0; length], &ZERO, 406));
    }
    assert_answer_cells(&calls);
}

#[test]
fn point_110_the_first_symbol_is_that_of_the_highest_power() {
    // The generator, with its leading one first, leaves nothing when it is divided.
    let whole = [&[1], &GENERATOR[..]].concat();
    let followed = [&whole[..], &[7]].concat();
    let sevenfold = GENERATOR.map(|coefficient| product(7, coefficient));
    assert_answer_cells(&[
        taken(&new_frame(), &whole, &ZERO, 45),
        taken(&new_frame(), &followed, &sevenfold, 46),
        taken(&state(&GENERATOR, 1), &GENERATOR, &ZERO, 45),
    ]);
    let backwards: Vec<u64> = whole.into_iter().rev().collect();
    let left = states_after(&[(new_frame(), &backwards)]);
    assert!(left[0][..44] != ZERO);
    assert_agreement(&[Call::parity_take(&new_frame(), &backwards)]);
}

#[test]
fn every_cut_of_a_frame_into_two_bursts() {
    for data in rows_of_data() {
        assert_agreement(&calls_of_a_frame(&[&data]));
        let whole = states_after(&[(new_frame(), &data)]);
        let firsts: Vec<(Vec<u64>, &[u64])> =
            (0..=406).map(|cut| (new_frame(), &data[..cut])).collect();
        let seconds: Vec<(Vec<u64>, &[u64])> = states_after(&firsts)
            .into_iter()
            .enumerate()
            .map(|(cut, state)| (state, &data[cut..]))
            .collect();
        for (cut, state) in states_after(&seconds).iter().enumerate() {
            assert_eq!(*state, whole[0], "cut at {cut}");
        }
        let parity = &parities(&whole)[0];
        assert!(is_frame(&[&data, &parity[..]].concat()));
    }
}

#[test]
fn bursts_of_every_length() {
    let data = &rows_of_data()[0];
    let mut calls = Vec::new();
    for length in 1..=406 {
        let bursts: Vec<&[u64]> = data.chunks(length).collect();
        calls.extend(calls_of_a_frame(&bursts));
    }
    assert_agreement(&calls);
}

#[test]
fn empty_bursts_between_single_symbols() {
    for data in rows_of_data() {
        let mut bursts: Vec<&[u64]> = vec![&[]];
        for symbol in data.chunks(1) {
            bursts.extend([symbol, &[]]);
        }
        assert_agreement(&calls_of_a_frame(&bursts));
    }
}

#[test]
fn one_symbol_of_data_at_each_place() {
    let mut calls = Vec::new();
    for place in 0..406 {
        let data = with(vec![0; 406], place, 1 + place as u64);
        calls.extend(calls_of_a_frame(&[&data[..=place], &data[place + 1..]]));
    }
    assert_agreement(&calls);
}

#[test]
fn every_count_takes_what_is_left_and_not_one_symbol_more() {
    let mut calls = Vec::new();
    for count in 0..=406 {
        let state = state(&ZERO, count);
        let left = vec![0; 406 - count as usize];
        calls.push(taken(&state, &left, &ZERO, 406));
        calls.push(refused(&state, &[&left[..], &[0]].concat(), COUNT));
    }
    for length in [405, 406] {
        let burst = vec![0; length];
        calls.push(taken(&new_frame(), &burst, &ZERO, length as u64));
    }
    for length in [407, 408, 512, 1000] {
        calls.push(refused(&new_frame(), &vec![0; length], COUNT));
    }
    assert_answer_cells(&calls);
}

#[test]
fn point_108_a_whole_frame_takes_an_empty_burst_and_a_larger_count_takes_none() {
    let register = counting_up();
    let mut calls = vec![taken(&state(&register, 406), &[], &register, 406)];
    for count in (407..=1000).chain(COUNTS_TOO_LARGE) {
        for burst in [&[][..], &[0], &[511, 3]] {
            calls.push(refused(&state(&register, count), burst, COUNT));
        }
    }
    assert_answer_cells(&calls);
}

/// Each of these sums is, less 65 536, a count that may be.
#[test]
fn the_sum_of_count_and_length_does_not_roll_over() {
    let calls: Vec<_> = [
        (65_535, 1),
        (65_535, 407),
        (65_130, 406),
        (65_000, 600),
        (47, MOST_CELLS - 2 - 45),
        (405, MOST_CELLS - 2 - 45),
        (406, 65_130),
        (406, 65_300),
    ]
    .into_iter()
    .map(|(count, length)| refused(&state(&ZERO, count), &vec![0; length], COUNT))
    .collect();
    for (call, _) in &calls {
        let sum = call.arguments[44] + call.arguments.len() as u64 - 45;
        assert!((65_536..=65_536 + 406).contains(&sum));
    }
    assert_answer_cells(&calls);
}

#[test]
fn a_wrong_symbol_at_each_place_of_the_register() {
    let mut calls = Vec::new();
    for place in 0..44 {
        for wrong in WRONG_SYMBOLS {
            let register = with(counting_up(), place, wrong);
            calls.push(refused(&state(&register, 0), &[], SYMBOL));
            calls.push(refused(&state(&register, 404), &[0, 511], SYMBOL));
            calls.push(refused(&state(&register, 406), &[], SYMBOL));
            calls.push(unfinished(&state(&register, 406), SYMBOL));
        }
    }
    for wrong in WRONG_SYMBOLS {
        calls.push(refused(&state(&[wrong; 44], 0), &[wrong; 9], SYMBOL));
        calls.push(unfinished(&state(&[wrong; 44], 406), SYMBOL));
    }
    assert_answer_cells(&calls);
}

#[test]
fn a_wrong_symbol_at_each_place_of_a_short_burst() {
    let mut calls = Vec::new();
    for length in [1, 2, 9] {
        for place in 0..length {
            for wrong in WRONG_SYMBOLS {
                let burst = with(vec![511; length], place, wrong);
                calls.push(refused(&new_frame(), &burst, SYMBOL));
                let last = state(&counting_up(), 406 - length as u64);
                calls.push(refused(&last, &burst, SYMBOL));
            }
        }
    }
    assert_answer_cells(&calls);
}

#[test]
fn a_wrong_symbol_at_each_place_of_a_whole_burst() {
    let data = &rows_of_data()[0];
    let mut calls = Vec::new();
    for place in 0..406 {
        for turn in [0, 5] {
            let wrong = WRONG_SYMBOLS[(place + turn) % WRONG_SYMBOLS.len()];
            let burst = with(data.clone(), place, wrong);
            calls.push(refused(&new_frame(), &burst, SYMBOL));
        }
    }
    assert_answer_cells(&calls);
}

#[test]
fn a_symbol_of_511_is_right_at_each_place() {
    let mut calls: Vec<Call> = Vec::new();
    for place in 0..44 {
        let register = with(ZERO.to_vec(), place, 511);
        calls.push(Call::parity_take(&state(&register, 0), &[]));
        calls.push(Call::parity_take(&state(&register, 397), &[511; 9]));
        calls.push(Call::parity_finish(&state(&register, 406)));
        let burst = with(ZERO.to_vec(), place, 511);
        calls.push(Call::parity_take(&new_frame(), &burst));
    }
    assert_agreement(&calls);
    assert_answer_cells(&[
        taken(&state(&[511; 44], 406), &[], &[511; 44], 406),
        taken(&state(&[511; 44], 0), &[511; 44], &ZERO, 44),
        finished(&[511; 44]),
    ]);
}

#[test]
fn points_108_and_109_count_comes_before_symbol() {
    let mut calls = Vec::new();
    for wrong in WRONG_SYMBOLS {
        let in_register = with(counting_up(), 20, wrong);
        for (count, length) in [(406, 1), (405, 2), (0, 407), (407, 9), (65_536, 9)] {
            let right = vec![0; length];
            let in_first = with(right.clone(), 0, wrong);
            let in_last = with(right.clone(), length - 1, wrong);
            calls.push(refused(&state(&in_register, count), &right, COUNT));
            calls.push(refused(&state(&in_register, count), &in_first, COUNT));
            calls.push(refused(&state(&ZERO, count), &in_first, COUNT));
            calls.push(refused(&state(&ZERO, count), &in_last, COUNT));
        }
        for count in [0, 405, 407, 65_536 + 406, u64::MAX] {
            calls.push(unfinished(&state(&in_register, count), COUNT));
        }
        calls.push(refused(&state(&in_register, 407), &[], COUNT));
        calls.push(refused(&state(&in_register, u64::MAX), &[], COUNT));
    }
    assert_answer_cells(&calls);
}

#[test]
fn a_finish_at_every_other_count_is_refused() {
    let counts = (0..=1000).filter(|count| *count != 406);
    let mut calls: Vec<_> = counts
        .chain(COUNTS_TOO_LARGE)
        .map(|count| unfinished(&state(&counting_up(), count), COUNT))
        .collect();
    calls.push(finished(&counting_up()));
    assert_answer_cells(&calls);
}

#[test]
fn point_109_a_frame_may_be_finished_twice() {
    let register = counting_up();
    assert_answer_cells(&[
        finished(&register),
        finished(&register),
        taken(&state(&register, 406), &[], &register, 406),
        finished(&register),
        refused(&state(&register, 406), &[1], COUNT),
        finished(&register),
    ]);
}

#[test]
fn fewer_than_45_arguments_answer_no_cells() {
    let mut calls = Vec::new();
    for operation in [PARITY_TAKE, PARITY_FINISH] {
        for arguments in 0..45 {
            for cell in [0, 1, 406, 512, 65_536, u64::MAX] {
                let call = Call::new(operation, &vec![cell; arguments]);
                calls.push((call, vec![]));
            }
        }
    }
    calls.push(taken(&new_frame(), &[], &ZERO, 0));
    calls.push(unfinished(&new_frame(), COUNT));
    assert_answer_cells(&calls);
}

#[test]
fn further_arguments_of_a_finish_are_not_looked_at() {
    let (finish, answer) = finished(&counting_up());
    let mut calls = Vec::new();
    for further in [0, 1, 512, 65_536, u64::MAX] {
        for number in [1, 44, 400] {
            let mut call = finish.clone();
            call.arguments.extend(vec![further; number]);
            calls.push((call, answer.clone()));
        }
    }
    assert_answer_cells(&calls);
}

#[test]
fn cells_above_65_535_come_back_as_65_535() {
    let large = [65_535, 65_536, 65_537, 1 << 32, (1 << 32) + 406, u64::MAX];
    let mut calls = Vec::new();
    for cell in large {
        calls.push(told(&[&[cell; 45]], &[cell], &[&[COUNT], &[65_535; 45]]));
        calls.push(told(&[&ZERO, &[cell]], &[], &[&[COUNT], &ZERO, &[65_535]]));
        let kept: [&[u64]; 4] = [&[SYMBOL, 3], &[65_535], &[0; 42], &[9]];
        calls.push(told(&[&[3, cell], &[0; 42], &[9]], &[], &kept));
        calls.push(told(&[&ZERO, &[9]], &[cell], &[&[SYMBOL], &ZERO, &[9]]));
    }
    // What is not above it comes back as it was.
    let register: Vec<u64> = (65_491..=65_534).collect();
    calls.push(told(&[&register, &[9]], &[], &[&[SYMBOL], &register, &[9]]));
    assert_answer_cells(&calls);
}

#[test]
fn calls_in_one_row_do_not_disturb_one_another() {
    let data = &rows_of_data()[2];
    let with_511 = state(&[511; 44], 406);
    assert_rows_do_not_disturb(&[
        Call::parity_take(&new_frame(), data),
        Call::parity_take(&new_frame(), &[]),
        Call::parity_finish(&with_511),
        Call::parity_take(&with_511, &[]),
        Call::parity_take(&[u64::MAX; 45], &[u64::MAX; 500]),
        Call::parity_finish(&state(&[512; 44], 406)),
        Call::messages(&[0x2001; 64]),
        Call::parity_take(&state(&counting_up(), 200), &data[..206]),
        Call::parity_finish(&new_frame()),
        Call::new(PARITY_TAKE, &[511; 44]),
        Call::write(0, 0, 7, 0, &[9; 81]),
        Call::parity_take(&new_frame(), &[512]),
        Call::check(1 << 47),
        Call::parity_take(&new_frame(), &[1]),
    ]);
}

/// Calls of an unknown operation that fill the input up, two cells each.
fn filled_up(mut calls: Vec<Call>) -> Vec<Call> {
    let cells_left = MOST_CELLS - all_cells(&calls).len();
    calls.extend(vec![Call::new(0, &[]); cells_left / 2]);
    assert_eq!(all_cells(&calls).len(), MOST_CELLS);
    calls
}

#[test]
fn as_many_takes_and_finishes_as_the_pipe_takes() {
    // A call without a burst has 47 cells.
    let calls_that_fit = MOST_CELLS / 47;
    let register = counting_up();
    for (call, answer) in [
        taken(&state(&register, 7), &[], &register, 7),
        finished(&register),
    ] {
        let calls = filled_up(vec![call; calls_that_fit]);
        let answer = [&[answer.len() as u64], &answer[..]].concat();
        let mut expected = answer.repeat(calls_that_fit);
        expected.extend(vec![0; calls.len() - calls_that_fit]);
        assert_output(&calls, &expected);
        // After the limit no take or finish is answered either.
        assert_output(&[&calls[..], &calls[..1]].concat(), &expected);
    }
}

#[test]
fn as_many_whole_frames_as_the_pipe_takes() {
    // A call with a whole frame has 453 cells.
    let whole = taken(&new_frame(), &vec![0; 406], &ZERO, 406);
    let calls_that_fit = MOST_CELLS / 453;
    let calls = filled_up(vec![whole.0; calls_that_fit]);
    let answer = [&[46], &whole.1[..]].concat();
    let mut expected = answer.repeat(calls_that_fit);
    expected.extend(vec![0; calls.len() - calls_that_fit]);
    assert_output(&calls, &expected);
}

#[test]
fn one_burst_may_fill_all_65_536_cells_and_is_too_long() {
    for symbol in [0, 511, 512, u64::MAX] {
        let longest = vec![symbol; MOST_CELLS - 2 - 45];
        let (call, answer) = refused(&new_frame(), &longest, COUNT);
        assert_eq!(call.length(), MOST_CELLS);
        let expected = [&[46], &answer[..]].concat();
        assert_output(&[call], &expected);
        let past_the_end = vec![symbol; MOST_CELLS - 2 - 44];
        assert_output(&[Call::parity_take(&new_frame(), &past_the_end)], &[]);
    }
}
