//! The protocol of `drive`: what it answers to calls that are unknown, cut or too long.

use compare::agreement::assert_scripts_agree;
use compare::call::{
    all_cells, printed, Call, CHECK, EDGES, JUDGE, MESSAGES, OPERATIONS, PARITY_FINISH,
    PARITY_TAKE, READ, RESOLVE, RUN, WRITE,
};
use compare::cells::{to_bytes, whole_cells, MOST_CELLS};
use compare::{drive, model};
use reference::answer::{number, register, MODE, NOTHING, TIE};

/// A call whose answer is easy to know again: 8005 hex.
fn known_check() -> Call {
    Call::check(1 << 47)
}

/// The answer of `known_check`, after its number of cells.
const KNOWN_ANSWER: [u64; 2] = [1, number(0x8005)];

/// So many calls of a kind that has two cells, the fewest that a call can have.
fn shortest_calls(number: usize) -> Vec<u64> {
    vec![0; 2 * number]
}

/// Sends the cells, and fails unless these cells come out and the model agrees.
fn assert_output(cells: &[u64], expected: &[u64]) {
    let input = to_bytes(cells);
    let output = drive::run(&input).unwrap_or_else(|words| panic!("{words}"));
    assert!(
        output == to_bytes(expected),
        "input {}\n  expected {}\n  got      {} ({} bytes)",
        printed(cells),
        printed(expected),
        printed(&whole_cells(&output)),
        output.len()
    );
    assert!(model::output(&input) == output, "the model differs");
}

/// Sends calls that have no answer, each with a known call behind it that has one.
fn assert_no_cells(unanswered: impl IntoIterator<Item = Call>) {
    let mut calls = Vec::new();
    let mut expected = Vec::new();
    for call in unanswered {
        calls.extend([call, known_check()]);
        expected.push(0);
        expected.extend(KNOWN_ANSWER);
    }
    assert_output(&all_cells(&calls), &expected);
}

#[test]
fn unknown_operations_answer_no_cells() {
    let with_arguments =
        |operation| [0, 1, 7, 500].map(|count| Call::new(operation, &vec![1; count]));
    assert_no_cells([0, 11, 99, u64::MAX].into_iter().flat_map(with_arguments));
}

#[test]
fn known_operations_with_too_few_arguments_answer_no_cells() {
    let too_few =
        |(operation, needed)| (0..needed).map(move |count| Call::new(operation, &vec![1; count]));
    assert_no_cells(OPERATIONS.into_iter().flat_map(too_few));
}

#[test]
fn further_arguments_of_check_judge_and_resolve_are_not_looked_at() {
    let calls = [
        Call::new(CHECK, &[1 << 47, 5]),
        Call::new(CHECK, &[1 << 47, u64::MAX, 1, 1, 1, 1]),
        Call::new(JUDGE, &[0, 30, 2]),
        Call::new(JUDGE, &[2, 30, 0, 30, 0, 30]),
        Call::new(RESOLVE, &[0x850001, 0x850001, 0xA90001]),
        known_check(),
    ];
    let answers = [
        number(0x8005),
        number(0x8005),
        number(1),
        MODE,
        TIE,
        number(0x8005),
    ];
    let expected: Vec<u64> = answers.into_iter().flat_map(|answer| [1, answer]).collect();
    assert_output(&all_cells(&calls), &expected);
}

#[test]
fn cells_after_the_last_whole_event_of_a_run_are_not_looked_at() {
    let read_status = [4, 0, 513];
    let mut cells = Call::new(RUN, &[]).cells();
    let mut expected = vec![0];
    for further in [&[][..], &[4], &[5, 1]] {
        cells.extend(Call::new(RUN, &[&read_status, &read_status, further].concat()).cells());
        expected.extend([2, register(8), register(8)]);
    }
    assert_output(&cells, &expected);
}

#[test]
fn a_run_may_fill_all_65_536_cells() {
    // 21 844 events and two cells more. All but the last write 515, which that one reads.
    let write = |value: u64| [5, value, 515 << 16 | value];
    let mut events: Vec<u64> = (0..21_843).flat_map(write).collect();
    events.extend([4, 0, 515, 5, 0]);
    let run = Call::new(RUN, &events);
    assert_eq!(run.length(), MOST_CELLS);
    let mut expected = vec![21_844];
    expected.extend(vec![NOTHING; 21_843]);
    expected.push(register(21_842));
    assert_output(&run.cells(), &expected);
}

#[test]
fn input_that_ends_inside_a_call_ends_the_program() {
    let whole = to_bytes(&all_cells(&[Call::new(99, &[]), known_check()]));
    let cuts: Vec<Vec<u8>> = (0..=whole.len()).map(|end| whole[..end].to_vec()).collect();
    assert_scripts_agree(&cuts);
}

#[test]
fn a_call_with_more_arguments_than_the_input_has_is_not_answered() {
    // Some of these become small numbers if only their low half is taken, or if they are
    // counted in bytes, eight for each cell.
    let operations_and_numbers = [
        (CHECK, u64::MAX),
        (JUDGE, u64::MAX - 1),
        (WRITE, 1 << 63),
        (READ, 1 << 61),
        (EDGES, (1 << 61) + 1),
        (RESOLVE, (1 << 32) + 1),
        (RUN, (1 << 61) + 2),
        (99, (1 << 61) + 3),
        (MESSAGES, (1 << 61) + 4),
        (PARITY_TAKE, (1 << 61) + 4),
        (PARITY_FINISH, (1 << 32) + 4),
    ];
    let mut scripts = Vec::new();
    for (operation, number_of_arguments) in operations_and_numbers {
        let mut cells = known_check().cells();
        cells.extend([operation, number_of_arguments, 0, 0, 0, 0]);
        cells.extend(known_check().cells());
        scripts.push(to_bytes(&cells));
    }
    assert_scripts_agree(&scripts);
}

#[test]
fn empty_input_gives_empty_output() {
    assert_output(&[], &[]);
}

#[test]
fn exactly_65_536_cells_are_all_answered() {
    // The last cell is the last of a short call.
    let mut cells = shortest_calls((MOST_CELLS - 4) / 2);
    let mut expected = vec![0; (MOST_CELLS - 4) / 2];
    cells.extend(Call::judge(0, 30).cells());
    expected.extend([1, number(1)]);
    assert_eq!(cells.len(), MOST_CELLS);
    assert_output(&cells, &expected);
}

#[test]
fn one_call_may_fill_all_65_536_cells() {
    let entries = vec![5; MOST_CELLS - 6];
    let call = Call::write(0, 0, 0, entries.len() as u64 - 81, &entries);
    assert_eq!(call.length(), MOST_CELLS);
    let longer = Call::write(0, 0, 0, 0, &vec![5; MOST_CELLS - 5]);
    assert_scripts_agree(&[to_bytes(&call.cells()), to_bytes(&longer.cells())]);
}

#[test]
fn a_capture_may_fill_all_65_536_cells() {
    // Every fifth gap is quiet in HSM.
    let readings: Vec<u64> = (0..MOST_CELLS as u64)
        .map(|edge| 30 * edge + 100 * (edge / 5))
        .collect();
    let last_place = MOST_CELLS as u64 - 5;
    let scripts: Vec<Vec<u8>> = [
        Call::read(0, 0, &readings[4..]),
        Call::read(0, last_place, &readings[4..]),
        Call::edges(0, &readings[3..]),
        Call::read(0, 0, &readings[3..]),
        Call::edges(0, &readings[2..]),
    ]
    .iter()
    .map(|call| to_bytes(&call.cells()))
    .collect();
    assert_scripts_agree(&scripts);
}

#[test]
fn a_call_after_cell_65_536_is_not_answered() {
    let calls = MOST_CELLS / 2;
    let mut cells = shortest_calls(calls);
    cells.extend(known_check().cells());
    assert_output(&cells, &vec![0; calls]);
}

#[test]
fn a_call_that_reaches_past_cell_65_536_ends_the_program() {
    // Of the first check after the long call, one or two cells are within the limit.
    for within in [1, 2] {
        let mut calls = vec![known_check(); 2];
        calls.push(Call::new(0, &vec![0; MOST_CELLS - 2 * 3 - 2 - within]));
        assert_eq!(all_cells(&calls).len(), MOST_CELLS - within);
        calls.extend([known_check(), known_check()]);
        let expected = [&KNOWN_ANSWER[..], &KNOWN_ANSWER[..], &[0]].concat();
        assert_output(&all_cells(&calls), &expected);
    }
}

#[test]
fn input_far_longer_than_the_limit_does_not_hang() {
    let cells = shortest_calls(4 * MOST_CELLS);
    assert_output(&cells, &vec![0; MOST_CELLS / 2]);
}
