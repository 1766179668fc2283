//! The examples of 01 and the edges of its rules, with the listings written out.

use compare::listing::{assert_listings_agree, input, run};
use reference::line_mode::{HSM, LSM};
use reference::page;

const MOST_READINGS: u32 = 8000;

/// Fails unless the program writes exactly this text, and the reference too.
fn assert_listing(input: &[u8], expected: &str) {
    let output = run(input).unwrap_or_else(|words| panic!("{words}"));
    assert_eq!(String::from_utf8_lossy(&output), expected);
    assert_eq!(reference::listing::listing(input), expected.as_bytes());
}

/// So many readings, the same time apart.
fn evenly(number: u32, gap: u32) -> Vec<u32> {
    (0..number).map(|edge| edge.wrapping_mul(gap)).collect()
}

#[test]
fn the_example_of_01() {
    let three = input(0, &[0, 30, 60]);
    assert_listing(&three, "mode HSM edges 3\n1 cut\npages 0 bad 1\n");
}

#[test]
fn the_zero_page_alone() {
    let in_hsm = input(0, &page::readings(&HSM, 0, 0));
    let in_lsm = input(1, &page::readings(&LSM, 0, 0));
    assert_listing(
        &in_hsm,
        "mode HSM edges 81\n1 good 000000000000\npages 1 bad 0\n",
    );
    assert_listing(
        &in_lsm,
        "mode LSM edges 86\n1 good 000000000000\npages 1 bad 0\n",
    );
}

#[test]
fn a_word_is_printed_as_a_number() {
    let highest_bit = input(0, &page::readings(&HSM, 1 << 47, 0));
    assert_listing(
        &highest_bit,
        "mode HSM edges 85\n1 good 800000000000\npages 1 bad 0\n",
    );
    let readings = page::readings(&HSM, 0x00AB_CDEF_0123, 0);
    let edges = readings.len();
    assert_listing(
        &input(0, &readings),
        &format!("mode HSM edges {edges}\n1 good 00abcdef0123\npages 1 bad 0\n"),
    );
}

#[test]
fn one_attempt_of_each_outcome() {
    // A page of LSM, one whose last check bit is flipped, two edges two positions apart,
    // and three lonely edges; quiet gaps between them.
    let mut readings = page::readings(&LSM, 1, 0);
    readings.extend(page::readings(&LSM, 0, 1_000_000));
    let last = readings.len() - 1;
    readings.insert(last - 1, 1_000_000 + 153 * 800);
    readings.extend([2_000_000, 2_001_600, 3_000_000, 4_000_000, 5_000_000]);
    let edges = readings.len();
    let expected = format!(
        "mode LSM edges {edges}\n\
         1 good 000000000001\n2 check\n3 gap\n4 cut\n5 cut\n6 cut\n\
         pages 1 bad 5\n"
    );
    assert_listing(&input(1, &readings), &expected);
}

#[test]
fn point_79_dropped_edges_have_no_line() {
    let mut readings = page::readings(&LSM, 0, 0);
    readings.extend((1..=10).map(|edge| 124_800 + 800 * edge));
    assert_listing(
        &input(1, &readings),
        "mode LSM edges 96\n1 good 000000000000\npages 1 bad 0\n",
    );
}

#[test]
fn without_readings_the_outer_lines_stand_alone() {
    assert_listing(&[0], "mode HSM edges 0\npages 0 bad 0\n");
    assert_listing(&[1], "mode LSM edges 0\npages 0 bad 0\n");
}

#[test]
fn a_missing_or_wrong_mode_is_refused_before_all_else() {
    assert_listing(&[], "refused 14\n");
    for mode in [2, 3, b'0', b'1', 127, 128, 254, 255] {
        assert_listing(&[mode], "refused 14\n");
    }
    for length in [2, 4, 5, 32_001, 32_002, 40_000] {
        assert_listing(&vec![2; length], "refused 14\n");
    }
}

#[test]
fn more_than_32_001_bytes_are_refused_before_odd_bytes() {
    for length in [32_002, 32_003, 32_004, 32_005, 40_000, 1_000_000] {
        assert_listing(&vec![0; length], "refused 12\n");
        assert_listing(&vec![1; length], "refused 12\n");
    }
}

#[test]
fn one_to_three_bytes_too_many_are_odd() {
    for after_the_first in [1, 2, 3, 5, 6, 7, 31_997, 31_998, 31_999] {
        assert_listing(&vec![0; 1 + after_the_first], "refused 15\n");
        assert_listing(&vec![1; 1 + after_the_first], "refused 15\n");
    }
}

#[test]
fn the_longest_input_with_an_attempt_for_every_edge() {
    for (mode, name, quiet) in [(0, "HSM", 130), (1, "LSM", 3441), (1, "LSM", 1 << 31)] {
        let mut expected = format!("mode {name} edges 8000\n");
        for number in 1..=MOST_READINGS {
            expected.push_str(&format!("{number} cut\n"));
        }
        expected.push_str("pages 0 bad 8000\n");
        let input = input(mode, &evenly(MOST_READINGS, quiet));
        assert_eq!(input.len(), 32_001);
        assert_listing(&input, &expected);
    }
}

#[test]
fn the_longest_input_with_one_attempt_or_only_gaps() {
    let mut inputs = vec![vec![0; 32_001], vec![1; 32_001]];
    for (mode, spacing, quiet) in [(0, 30, 130), (1, 800, 3441)] {
        inputs.push(input(mode, &evenly(MOST_READINGS, spacing)));
        inputs.push(input(mode, &evenly(MOST_READINGS, quiet - 1)));
        inputs.push(input(mode, &evenly(MOST_READINGS - 1, quiet)));
        // Every other edge ends an attempt as Gap.
        let pairs = (0..MOST_READINGS).map(|edge| (edge / 2) * 2 * quiet + edge % 2);
        inputs.push(input(mode, &pairs.collect::<Vec<u32>>()));
    }
    assert_listings_agree(&inputs);
}
