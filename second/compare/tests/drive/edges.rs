//! The edges of the rules, one by one, with the answers written out.

use compare::agreement::{assert_agreement, assert_answers};
use compare::call::Call;
use compare::cells::{to_bytes, whole_cells};
use compare::drive;
use compare::generate::WRONG_MODES;
use reference::answer::{number, MODE, QUIET, ROOM, UNFIT, WIDE};

const HSM: u64 = 0;
const LSM: u64 = 1;
const TWO_TO_32: u64 = 1 << 32;
const TWO_TO_48: u64 = 1 << 48;

/// A list whose entries are all different and are no readings of the pages written here.
fn list(length: u64) -> Vec<u64> {
    (0..length).map(|entry| 3_000_000_000 + entry).collect()
}

#[test]
fn the_table_of_01_holds() {
    assert_answers(&[
        (Call::check(0), number(0)),
        (Call::check(1 << 47), number(0x8005)),
        (Call::check(1 << 46), number(0x800F)),
        (Call::check(1 << 45), number(0x801B)),
        (Call::write(HSM, 0, 0, 0, &list(81)), number(81)),
        (Call::write(LSM, 0, 0, 0, &list(86)), number(86)),
        (Call::write(HSM, 1 << 47, 0, 0, &list(85)), number(85)),
        (Call::judge(HSM, 20), UNFIT),
        (Call::judge(HSM, 21), number(1)),
        (Call::judge(HSM, 39), number(1)),
        (Call::judge(HSM, 40), UNFIT),
        (Call::judge(HSM, 129), number(4)),
        (Call::judge(HSM, 130), QUIET),
    ]);
}

#[test]
fn word_2_to_48_less_1_is_taken_and_2_to_48_is_too_wide() {
    // 48 ones have the check bits 80F1 hex, six ones more, so the page has 81 + 48 + 6 edges.
    assert_answers(&[
        (Call::check(TWO_TO_48 - 1), number(0x80F1)),
        (Call::check(TWO_TO_48), WIDE),
        (
            Call::write(HSM, TWO_TO_48 - 1, 0, 0, &list(150)),
            number(135),
        ),
        (Call::write(HSM, TWO_TO_48, 0, 0, &list(150)), WIDE),
        (Call::write(LSM, TWO_TO_48, 0, 0, &list(150)), WIDE),
    ]);
}

#[test]
fn a_list_too_short_by_one_is_refused_and_kept() {
    assert_answers(&[
        (Call::write(HSM, 0, 0, 0, &list(80)), ROOM),
        (Call::write(LSM, 0, 0, 0, &list(85)), ROOM),
        (Call::write(HSM, 1 << 47, 0, 0, &list(84)), ROOM),
        (Call::write(HSM, 0, 0, 0, &list(84)), number(81)),
        (Call::write(HSM, 0, 0, 10, &list(90)), ROOM),
        (Call::write(HSM, 0, 0, 9, &list(90)), number(81)),
    ]);
}

#[test]
fn a_place_at_or_past_the_length_has_no_room() {
    let mut calls = Vec::new();
    for length in [0, 1, 81, 200] {
        calls.push((Call::write(HSM, 0, 0, length, &list(length)), ROOM));
        calls.push((Call::write(LSM, 0, 0, length, &list(length)), ROOM));
        calls.push((Call::write(HSM, 0, 0, length + 1, &list(length)), ROOM));
    }
    assert_answers(&calls);
}

#[test]
fn a_place_of_2_to_64_less_1_has_no_room() {
    assert_answers(&[
        (Call::write(HSM, 0, 0, u64::MAX, &list(200)), ROOM),
        (Call::write(LSM, 0, 0, u64::MAX, &list(200)), ROOM),
        (Call::write(HSM, 0, 0, u64::MAX, &[]), ROOM),
        // Place and count together roll over to 0 and to 1.
        (Call::write(HSM, 0, 0, u64::MAX - 80, &list(200)), ROOM),
        (Call::write(HSM, 0, 0, u64::MAX - 79, &list(200)), ROOM),
        // In bytes, the place rolls over to the start of the list.
        (Call::write(HSM, 0, 0, 1 << 62, &list(200)), ROOM),
        (Call::write(HSM, 0, 0, TWO_TO_32, &list(200)), ROOM),
    ]);
}

#[test]
fn readings_roll_over_with_the_clock() {
    let calls: Vec<Call> = [HSM, LSM]
        .into_iter()
        .flat_map(|mode| {
            [0, 1, 29, 30, 31, 799, 800, 801, 4680, 124_800]
                .map(|before_the_end| TWO_TO_32 - before_the_end)
                .map(|first| Call::write(mode, 0x8000_0000_0001, first, 1, &list(95)))
        })
        .collect();
    assert_agreement(&calls);
}

#[test]
fn the_readings_after_a_roll_over_are_small_numbers() {
    let call = Call::write(HSM, 0, TWO_TO_32 - 30, 1, &list(83));
    let input = to_bytes(&call.cells());
    let output = whole_cells(&drive::run(&input).expect("drive ends well"));
    // The number of answer cells, the answer, one entry kept, and positions 1, 2, 3 and 5.
    let start = [84, number(81), 3_000_000_000, TWO_TO_32 - 30, 0, 30, 90];
    assert_eq!(output[..7], start);
    // The last reading, 4680 ns after the first, and one entry kept.
    assert_eq!(output[83..], [4650, 3_000_000_082]);
}

#[test]
fn only_0_and_1_are_modes() {
    let mut calls = vec![
        (Call::judge(HSM, 30), number(1)),
        (Call::judge(LSM, 800), number(1)),
        (Call::write(HSM, 0, 0, 0, &list(90)), number(81)),
        (Call::write(LSM, 0, 0, 0, &list(90)), number(86)),
    ];
    for mode in WRONG_MODES {
        calls.push((Call::judge(mode, 30), MODE));
        calls.push((Call::judge(mode, 800), MODE));
        calls.push((Call::write(mode, 0, 0, 0, &list(90)), MODE));
        calls.push((Call::write(mode, TWO_TO_48, 0, 0, &list(90)), MODE));
        calls.push((Call::write(mode, TWO_TO_48, 0, 91, &list(90)), MODE));
    }
    assert_answers(&calls);
}

#[test]
fn an_empty_list_is_refused_in_the_order_of_01() {
    assert_answers(&[
        (Call::write(HSM, 0, 0, 0, &[]), ROOM),
        (Call::write(LSM, 0, 0, 0, &[]), ROOM),
        (Call::write(HSM, 0, 0, 1, &[]), ROOM),
        (Call::write(HSM, TWO_TO_48, 0, 0, &[]), WIDE),
        (Call::write(2, TWO_TO_48, 0, 0, &[]), MODE),
        (Call::write(2, 0, 0, 0, &[]), MODE),
    ]);
}

#[test]
fn gaps_are_taken_modulo_2_to_32() {
    assert_answers(&[
        (Call::judge(HSM, TWO_TO_32 - 1), QUIET),
        (Call::judge(HSM, TWO_TO_32), UNFIT),
        (Call::judge(HSM, TWO_TO_32 + 30), number(1)),
        (Call::judge(LSM, 7 * TWO_TO_32 + 1600), number(2)),
        (Call::judge(LSM, u64::MAX), QUIET),
    ]);
}

#[test]
fn two_calls_in_one_run_do_not_disturb_one_another() {
    let long = Call::write(LSM, TWO_TO_48 - 1, 5, 3, &list(200));
    let short = Call::write(HSM, 0, 7, 0, &list(85));
    let run = |calls: &[&Call]| {
        let cells: Vec<u64> = calls.iter().flat_map(|call| call.cells()).collect();
        drive::run(&to_bytes(&cells)).expect("drive ends well")
    };
    let (long_alone, short_alone) = (run(&[&long]), run(&[&short]));
    let long_first = run(&[&long, &short]);
    let short_first = run(&[&short, &long]);
    assert!(
        long_first == [&long_alone[..], &short_alone[..]].concat(),
        "{long}\n  and then {short}\n  are answered otherwise than each alone"
    );
    assert!(
        short_first == [&short_alone[..], &long_alone[..]].concat(),
        "{short}\n  and then {long}\n  are answered otherwise than each alone"
    );
}
