use super::*;
use crate::line_mode::{HSM, LSM};
use crate::page::{readings, transitions};

/// The readings of edges at these positions, at nominal spacing.
fn at_positions(mode: &LineMode, positions: &[usize]) -> Vec<u32> {
    positions
        .iter()
        .map(|position| *position as u32 * mode.spacing)
        .collect()
}

fn attempts(mode: &LineMode, readings: &[u32]) -> Vec<Attempt> {
    judge_all(mode, readings).attempts()
}

/// The outcome and the next place of the first attempt.
fn first(mode: &LineMode, readings: &[u32]) -> (Outcome, usize) {
    let attempt = judge_all(mode, readings).attempt(0);
    (attempt.outcome, attempt.next)
}

#[test]
fn the_three_edges_of_01s_listing_are_cut_by_the_end() {
    assert_eq!(first(&HSM, &[0, 30, 60]), (Outcome::Cut, 3));
    assert_eq!(answers_at_edges(&HSM, &[0, 30, 60]), [0, 0, 0]);
}

#[test]
fn every_page_that_is_written_is_read() {
    for mode in [&HSM, &LSM] {
        for word in [0, 1, 1 << 47, 0x1234_5678_9ABC, (1 << 48) - 1] {
            let page = readings(mode, word, u32::MAX - 2000);
            assert_eq!(first(mode, &page), (Outcome::Good(word), page.len()));
        }
    }
}

#[test]
fn gaps_at_the_ends_of_their_windows_are_taken() {
    for (mode, off) in [(&HSM, -9), (&HSM, 9), (&LSM, -240), (&LSM, 240)] {
        let nominal = readings(mode, 5, 0);
        let shifted: Vec<u32> = (0..)
            .zip(&nominal)
            .map(|(edge, reading)| reading.wrapping_add_signed(edge * off))
            .collect();
        assert_eq!(first(mode, &shifted), (Outcome::Good(5), nominal.len()));
        let beyond: Vec<u32> = (0..)
            .zip(&nominal)
            .map(|(edge, reading)| reading.wrapping_add_signed(edge * (off + off.signum())))
            .collect();
        assert_eq!(first(mode, &beyond).0, Outcome::Gap);
    }
}

#[test]
fn an_edge_at_156_is_gap() {
    for mode in [&HSM, &LSM] {
        let mut positions = transitions(mode, 0);
        *positions.last_mut().expect("a page has edges") = 156;
        let length = positions.len();
        let readings = at_positions(mode, &positions);
        assert_eq!(first(mode, &readings), (Outcome::Gap, length));
        assert_eq!(answers_at_edges(mode, &readings)[length - 1], answer::GAP);
    }
}

#[test]
fn an_edge_beyond_the_page_is_gap() {
    for further in [158, 159] {
        let mut positions = transitions(&HSM, 0);
        *positions.last_mut().expect("a page has edges") = further;
        let readings = at_positions(&HSM, &positions);
        assert_eq!(first(&HSM, &readings), (Outcome::Gap, positions.len()));
    }
}

#[test]
fn two_equal_readings_are_gap() {
    assert_eq!(first(&HSM, &[0, 0]), (Outcome::Gap, 2));
    assert_eq!(answers_at_edges(&LSM, &[5, 5]), [0, answer::GAP]);
}

#[test]
fn a_flipped_bit_is_check() {
    for flipped in (28..=154).step_by(2) {
        let mut positions = transitions(&LSM, 0);
        positions.push(flipped);
        positions.sort();
        let readings = at_positions(&LSM, &positions);
        assert_eq!(first(&LSM, &readings), (Outcome::Check, positions.len()));
    }
}

#[test]
fn a_missing_clock_or_delimiter_edge_is_gap_at_the_edge_after_it() {
    let positions = transitions(&HSM, 0);
    for missing in 1..positions.len() - 1 {
        let mut damaged = positions.clone();
        damaged.remove(missing);
        let attempt = judge_all(&HSM, &at_positions(&HSM, &damaged)).attempt(0);
        let expected = match positions[missing + 1] - positions[missing - 1] {
            0..=4 => Outcome::Gap,
            _ => Outcome::Cut,
        };
        assert_eq!(attempt.outcome, expected);
        assert_eq!(attempt.ended_by, Some(missing));
    }
}

#[test]
fn the_edge_of_a_cut_is_position_1_of_the_next_attempt() {
    let cut_by_3 = [0, 30, 60, 190, 220, 250, 310];
    let answers = answers_at_edges(&HSM, &cut_by_3);
    assert_eq!(answers, [0, 0, 0, answer::CUT, 0, 0, 0]);
    assert_eq!(first(&HSM, &cut_by_3), (Outcome::Cut, 3));
    assert_eq!(attempts(&HSM, &cut_by_3)[1].opens, 3);
}

#[test]
fn while_dropping_a_gap_is_between_neighbours() {
    // The second edge is Gap, and edges follow each 1000 ns for 10 000 ns.
    let mut readings = vec![0];
    readings.extend((0..=10).map(|edge| 1200 + 1000 * edge));
    assert_eq!(first(&LSM, &readings), (Outcome::Gap, 12));
    // One more edge after a quiet gap opens.
    readings.push(11_200 + 3441);
    assert_eq!(first(&LSM, &readings), (Outcome::Gap, 12));
    assert_eq!(attempts(&LSM, &readings).len(), 2);
}

#[test]
fn a_page_without_its_last_edge_is_cut() {
    for mode in [&HSM, &LSM] {
        let mut page = readings(mode, 9, 0);
        let last = page.pop().expect("a page has edges");
        assert_eq!(first(mode, &page), (Outcome::Cut, page.len()));
        page.push(last + mode.quiet_limit);
        assert_eq!(first(mode, &page), (Outcome::Cut, page.len() - 1));
    }
}

#[test]
fn a_page_right_after_a_page_is_dropped_and_one_after_quiet_is_read() {
    for mode in [&HSM, &LSM] {
        let page = readings(mode, 0, 0);
        let end = page[page.len() - 1];
        for (pause, found) in [(mode.quiet_limit - 1, 1), (mode.quiet_limit, 2)] {
            let mut both = page.clone();
            both.extend(readings(mode, 0, end + pause));
            let attempts = attempts(mode, &both);
            assert_eq!(attempts.len(), found);
            assert_eq!(attempts[0].next, page.len() * (3 - found));
        }
    }
}

#[test]
fn a_reading_that_went_back_is_quiet() {
    let answers = answers_at_edges(&HSM, &[100, 130, 120, 150]);
    assert_eq!(answers, [0, 0, answer::CUT, 0]);
}
