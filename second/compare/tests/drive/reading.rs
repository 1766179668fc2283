//! The edges of the rules of reading, one by one, with the answers written out. The
//! points are those of docs/READINGS.md.

use compare::agreement::assert_answer_cells;
use compare::call::Call;
use compare::generate::WRONG_MODES;
use reference::answer::{good, CHECK, CUT, GAP, MODE, NOTHING, ROOM};
use reference::line_mode::LineMode;
use reference::{line_mode, page};

const HSM: u64 = 0;
const LSM: u64 = 1;
const TWO_TO_32: u64 = 1 << 32;

const WORD: u64 = 0x1234_5678_9ABC;

fn numbers_of(mode: u64) -> &'static LineMode {
    line_mode::line_mode(mode).expect("0 and 1 are modes")
}

fn quiet(mode: u64) -> u64 {
    numbers_of(mode).quiet_limit.into()
}

fn spacing(mode: u64) -> u64 {
    numbers_of(mode).spacing.into()
}

/// The readings of edges at these positions, position 1 being at the first reading.
fn at_positions(mode: u64, positions: &[usize], first: u64) -> Vec<u64> {
    positions
        .iter()
        .map(|position| (first + (*position as u64 - 1) * spacing(mode)) % TWO_TO_32)
        .collect()
}

fn positions(mode: u64, word: u64) -> Vec<usize> {
    page::transitions(numbers_of(mode), word)
}

fn page(mode: u64, word: u64, first: u64) -> Vec<u64> {
    at_positions(mode, &positions(mode, word), first)
}

/// The readings and then more of them, each so long after the one before.
fn and_after(readings: &[u64], gaps: &[u64]) -> Vec<u64> {
    let mut readings = readings.to_vec();
    for gap in gaps {
        let last = readings[readings.len() - 1];
        readings.push((last + gap) % TWO_TO_32);
    }
    readings
}

/// A reading from this place, with the answer and the next place.
fn read(mode: u64, place: usize, readings: &[u64], expected: (u64, usize)) -> (Call, Vec<u64>) {
    let call = Call::read(mode, place as u64, readings);
    (call, vec![expected.0, expected.1 as u64])
}

/// All edges, with the places and the answers of those that have one.
fn edges(mode: u64, readings: &[u64], expected: &[(usize, u64)]) -> (Call, Vec<u64>) {
    let mut answers = vec![NOTHING; readings.len()];
    for (edge, answer) in expected {
        answers[*edge] = *answer;
    }
    (Call::edges(mode, readings), answers)
}

#[test]
fn the_capture_of_01s_listing() {
    assert_answer_cells(&[
        read(HSM, 0, &[0, 30, 60], (CUT, 3)),
        edges(HSM, &[0, 30, 60], &[]),
    ]);
}

#[test]
fn every_single_bit_is_read_in_both_modes() {
    let mut calls = Vec::new();
    for mode in [HSM, LSM] {
        for bit in 0..48 {
            let readings = page(mode, 1 << bit, 1000 * bit);
            let length = readings.len();
            calls.push(read(mode, 0, &readings, (good(1 << bit), length)));
            calls.push(edges(mode, &readings, &[(length - 1, good(1 << bit))]));
        }
    }
    assert_answer_cells(&calls);
}

#[test]
fn every_flipped_bit_of_a_page_is_check() {
    let mut calls = Vec::new();
    for mode in [HSM, LSM] {
        for flipped in (28..=154).step_by(2) {
            let mut positions = positions(mode, WORD);
            match positions.binary_search(&flipped) {
                Ok(index) => drop(positions.remove(index)),
                Err(index) => positions.insert(index, flipped),
            }
            let readings = at_positions(mode, &positions, 0);
            let length = readings.len();
            calls.push(read(mode, 0, &readings, (CHECK, length)));
            calls.push(edges(mode, &readings, &[(length - 1, CHECK)]));
        }
    }
    assert_answer_cells(&calls);
}

#[test]
fn point_3_position_155_is_no_clock() {
    let mut calls = Vec::new();
    for mode in [HSM, LSM] {
        let up_to_155 = page(mode, WORD, 0);
        let up_to_155 = &up_to_155[..up_to_155.len() - 1];
        let length = up_to_155.len() + 1;
        for (steps, outcome) in [(1, GAP), (2, good(WORD)), (3, GAP), (4, GAP)] {
            let readings = and_after(up_to_155, &[steps * spacing(mode)]);
            calls.push(read(mode, 0, &readings, (outcome, length)));
            calls.push(edges(mode, &readings, &[(length - 1, outcome)]));
        }
        // An edge at 156 and one at 157.
        let readings = and_after(up_to_155, &[spacing(mode), spacing(mode)]);
        calls.push(read(mode, 0, &readings, (GAP, length + 1)));
        calls.push(edges(mode, &readings, &[(length - 1, GAP)]));
    }
    assert_answer_cells(&calls);
}

#[test]
fn point_4_a_gap_of_zero_is_unfit() {
    let mut calls = Vec::new();
    for mode in [HSM, LSM] {
        for reading in [0, 77, TWO_TO_32 - 1] {
            calls.push(read(mode, 0, &[reading, reading], (GAP, 2)));
            calls.push(edges(mode, &[reading, reading], &[(1, GAP)]));
        }
        // A reading of the page stands there twice.
        for twice in [0, 1, 30, 70] {
            let mut readings = page(mode, WORD, 500);
            readings.insert(twice, readings[twice]);
            calls.push(read(mode, 0, &readings, (GAP, readings.len())));
            calls.push(edges(mode, &readings, &[(twice + 1, GAP)]));
        }
    }
    assert_answer_cells(&calls);
}

#[test]
fn point_7_a_fresh_reader_asks_for_no_quiet_gap_before_it() {
    let mut calls = Vec::new();
    for mode in [HSM, LSM] {
        // Edges one position apart lead straight into a page.
        let lead = 40;
        let page_alone = page(mode, WORD, lead * spacing(mode));
        let mut readings: Vec<u64> = (0..lead).map(|edge| edge * spacing(mode)).collect();
        readings.extend(&page_alone);
        let (place, length) = (lead as usize, readings.len());
        calls.push(read(mode, 0, &readings, (GAP, length)));
        calls.push(read(mode, place, &readings, (good(WORD), length)));
        // From inside the page the attempt opens there too, and soon ends.
        calls.push(read(mode, place + 40, &readings, (GAP, length)));
        calls.push(edges(
            mode,
            &page_alone,
            &[(page_alone.len() - 1, good(WORD))],
        ));
    }
    assert_answer_cells(&calls);
}

#[test]
fn point_8_the_edge_of_a_cut_is_position_1() {
    let three_and_four = [0, 30, 60, 190, 220, 250, 310];
    let mut calls = vec![
        edges(HSM, &three_and_four, &[(3, CUT)]),
        read(HSM, 0, &three_and_four, (CUT, 3)),
        read(HSM, 3, &three_and_four, (CUT, 7)),
    ];
    for mode in [HSM, LSM] {
        let mut readings = vec![0, spacing(mode)];
        readings.extend(page(mode, WORD, spacing(mode) + quiet(mode)));
        let length = readings.len();
        calls.push(edges(
            mode,
            &readings,
            &[(2, CUT), (length - 1, good(WORD))],
        ));
        calls.push(read(mode, 0, &readings, (CUT, 2)));
        calls.push(read(mode, 2, &readings, (good(WORD), length)));
        // Every edge cuts the attempt before it.
        let lonely = and_after(&[9], &[quiet(mode), quiet(mode), quiet(mode)]);
        calls.push(edges(mode, &lonely, &[(1, CUT), (2, CUT), (3, CUT)]));
        calls.push(read(mode, 0, &lonely, (CUT, 1)));
    }
    assert_answer_cells(&calls);
}

#[test]
fn a_half_read_page_is_forgotten() {
    let mut calls = Vec::new();
    for (mode, unfit) in [(HSM, 40), (LSM, 1200)] {
        let half = page(mode, (1 << 48) - 1, 0)[..100].to_vec();
        let and_a_wrong_edge = and_after(&half, &[unfit]);
        // The edge with place 100 ends the attempt, by a quiet gap or by an unfit one.
        for (outcome, mut readings) in [(CUT, half), (GAP, and_a_wrong_edge)] {
            let opens = readings.len();
            readings.extend(page(mode, 0, readings[opens - 1] + quiet(mode)));
            let length = readings.len();
            calls.push(read(mode, 0, &readings, (outcome, opens)));
            calls.push(read(mode, opens, &readings, (good(0), length)));
            let told = [(100, outcome), (length - 1, good(0))];
            calls.push(edges(mode, &readings, &told));
        }
    }
    assert_answer_cells(&calls);
}

#[test]
fn point_9_while_dropping_a_gap_is_between_neighbours() {
    // 1200 is unfit; then edges come each 1000 ns, for 10 000 ns.
    let mut readings = and_after(&[0], &[1200]);
    readings = and_after(&readings, &[1000; 10]);
    let mut calls = vec![
        edges(LSM, &readings, &[(1, GAP)]),
        read(LSM, 0, &readings, (GAP, 12)),
    ];
    for (mode, unfit) in [(HSM, 40), (LSM, 1200)] {
        // Gaps one under the quiet limit are not quiet, however many there are.
        let dropped = and_after(&[0], &[unfit, quiet(mode) - 1, quiet(mode) - 1, unfit]);
        calls.push(edges(mode, &dropped, &[(1, GAP)]));
        calls.push(read(mode, 0, &dropped, (GAP, 5)));
        let opened = and_after(&dropped, &[quiet(mode), spacing(mode), unfit]);
        calls.push(edges(mode, &opened, &[(1, GAP), (7, GAP)]));
        calls.push(read(mode, 0, &opened, (GAP, 5)));
        calls.push(read(mode, 5, &opened, (GAP, 8)));
    }
    assert_answer_cells(&calls);
}

#[test]
fn point_10_quiet_where_157_is_awaited_is_cut() {
    let mut calls = Vec::new();
    for mode in [HSM, LSM] {
        let mut without_last = page(mode, WORD, 0);
        without_last.pop();
        let length = without_last.len();
        let cut = and_after(&without_last, &[quiet(mode)]);
        calls.push(read(mode, 0, &cut, (CUT, length)));
        calls.push(edges(mode, &cut, &[(length, CUT)]));
        let not_quiet = and_after(&without_last, &[quiet(mode) - 1]);
        calls.push(read(mode, 0, &not_quiet, (GAP, length + 1)));
        calls.push(edges(mode, &not_quiet, &[(length, GAP)]));
    }
    assert_answer_cells(&calls);
}

#[test]
fn point_11_wrong_numbers_of_positions_are_gap_and_quiet_is_cut() {
    let mut calls = Vec::new();
    for mode in [HSM, LSM] {
        for steps in [2, 3, 4] {
            let readings = [0, steps * spacing(mode)];
            calls.push(read(mode, 0, &readings, (GAP, 2)));
            calls.push(edges(mode, &readings, &[(1, GAP)]));
        }
        for quiet_gap in [quiet(mode), 1 << 31, TWO_TO_32 - 1] {
            calls.push(read(mode, 0, &[0, quiet_gap], (CUT, 1)));
            calls.push(edges(mode, &[0, quiet_gap], &[(1, CUT)]));
        }
    }
    assert_answer_cells(&calls);
}

#[test]
fn point_12_time_is_modulo_2_to_32() {
    let mut calls = Vec::new();
    for mode in [HSM, LSM] {
        // A pause of a whole round of the clock and one position.
        calls.push(edges(mode, &[0, spacing(mode)], &[]));
        calls.push(edges(mode, &[0, TWO_TO_32 + spacing(mode)], &[]));
        calls.push(edges(mode, &[9 * TWO_TO_32, spacing(mode)], &[]));
        // A reading that went back is a long time later.
        calls.push(edges(mode, &[spacing(mode), 0], &[(1, CUT)]));
        for before_the_end in [1, 30, 800, 2400, 60_000] {
            let readings = page(mode, WORD, TWO_TO_32 - before_the_end);
            let length = readings.len();
            calls.push(read(mode, 0, &readings, (good(WORD), length)));
            calls.push(edges(mode, &readings, &[(length - 1, good(WORD))]));
        }
    }
    assert_answer_cells(&calls);
}

#[test]
fn points_13_and_16_mode_then_room_then_nothing_and_the_place_is_kept() {
    let mut calls = Vec::new();
    for readings in [&[][..], &[5], &[0, 30, 60]] {
        let length = readings.len() as u64;
        let places = [0, length, length + 1, TWO_TO_32, 1 << 63, u64::MAX];
        for (wrong, place) in WRONG_MODES.into_iter().zip(places.into_iter().cycle()) {
            let call = Call::read(wrong, place, readings);
            calls.push((call, vec![MODE, place]));
            calls.push((Call::edges(wrong, readings), vec![MODE]));
        }
        for mode in [HSM, LSM] {
            for past in &places[2..] {
                calls.push((Call::read(mode, *past, readings), vec![ROOM, *past]));
            }
            let at_length = Call::read(mode, length, readings);
            calls.push((at_length, vec![NOTHING, length]));
        }
    }
    calls.push(edges(HSM, &[], &[]));
    calls.push(edges(LSM, &[], &[]));
    assert_answer_cells(&calls);
}

#[test]
fn point_14_the_end_of_the_capture_counts_as_quiet() {
    let mut calls = Vec::new();
    for mode in [HSM, LSM] {
        let whole = page(mode, WORD, 0);
        let length = whole.len();
        for end in 1..length {
            calls.push(read(mode, 0, &whole[..end], (CUT, end)));
        }
        calls.push(edges(mode, &whole[..length - 1], &[]));
        calls.push(read(mode, 0, &whole, (good(WORD), length)));
        calls.push(read(mode, length - 1, &whole, (CUT, length)));
    }
    assert_answer_cells(&calls);
}

/// Outcomes other than Cut, each with readings of which the last one ends an attempt so.
fn ends_of_attempts(mode: u64) -> Vec<(u64, Vec<u64>)> {
    let mut flipped = positions(mode, 0);
    flipped.insert(flipped.len() - 2, 154);
    vec![
        (good(WORD), page(mode, WORD, 0)),
        (CHECK, at_positions(mode, &flipped, 0)),
        (GAP, vec![0, 2 * spacing(mode)]),
    ]
}

#[test]
fn point_15_where_the_next_attempt_opens() {
    let mut calls = Vec::new();
    for mode in [HSM, LSM] {
        for (outcome, readings) in ends_of_attempts(mode) {
            let end = readings.len();
            let told = (end - 1, outcome);
            // Nothing after it, only dropped edges after it, and a quiet gap at once.
            let dropped = and_after(&readings, &[spacing(mode), 0, quiet(mode) - 1]);
            let at_once = and_after(&readings, &[quiet(mode), spacing(mode)]);
            calls.push(read(mode, 0, &readings, (outcome, end)));
            calls.push(read(mode, 0, &dropped, (outcome, end + 3)));
            calls.push(read(mode, 0, &at_once, (outcome, end)));
            calls.push(edges(mode, &at_once, &[told]));
            // A quiet gap after dropped edges, and another one after that.
            let later = and_after(&dropped, &[quiet(mode), quiet(mode)]);
            calls.push(read(mode, 0, &later, (outcome, end + 3)));
            calls.push(edges(mode, &later, &[told, (end + 4, CUT)]));
        }
        let cut = and_after(&[0], &[spacing(mode), quiet(mode), quiet(mode)]);
        calls.push(read(mode, 0, &cut, (CUT, 2)));
        calls.push(read(mode, 2, &cut, (CUT, 3)));
    }
    assert_answer_cells(&calls);
}
