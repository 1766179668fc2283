//! P1 to P14 of document 01's table.

use crate::answer;
use crate::calls::{resolve, run};
use crate::check::check_bits;
use crate::gap::time_between;
use crate::line_mode::{LineMode, HSM, LSM};
use crate::page::{edge_count, readings};

fn duration(mode: &LineMode, word: u64) -> u32 {
    let readings = readings(mode, word, 4_294_967_290);
    time_between(readings[0], readings[readings.len() - 1])
}

#[test]
fn p1_check_of_zero() {
    assert_eq!(check_bits(0), 0);
}

#[test]
fn p2_check_of_2_to_the_47() {
    assert_eq!(check_bits(1 << 47), 0x8005);
}

#[test]
fn p3_check_of_2_to_the_46() {
    assert_eq!(check_bits(1 << 46), 0x800F);
}

#[test]
fn p4_check_of_2_to_the_45() {
    assert_eq!(check_bits(1 << 45), 0x801B);
}

#[test]
fn p5_time_over_the_end_of_the_clock() {
    assert_eq!(time_between(4_294_967_290, 24), 30);
}

#[test]
fn p6_zero_page_in_hsm() {
    assert_eq!(edge_count(&HSM, 0), 81);
    assert_eq!(duration(&HSM, 0), 4680);
}

#[test]
fn p7_zero_page_in_lsm() {
    assert_eq!(edge_count(&LSM, 0), 86);
    assert_eq!(duration(&LSM, 0), 124_800);
}

#[test]
fn p8_highest_bit_in_hsm() {
    assert_eq!(edge_count(&HSM, 1 << 47), 85);
}

#[test]
fn p9_higher_nonce_at_the_partner_is_slave() {
    assert_eq!(resolve(0x850001, 0xA90001), answer::settled(2, false));
}

#[test]
fn p10_both_forced_to_one_role() {
    assert_eq!(resolve(0x851001, 0xA91001), answer::ROLES);
}

#[test]
fn p11_the_one_forced_side_is_master() {
    assert_eq!(resolve(0x951001, 0xA90001), answer::settled(2, true));
}

#[test]
fn p12_equal_words_tie() {
    assert_eq!(resolve(0x850001, 0x850001), answer::TIE);
}

#[test]
fn p13_no_common_rate() {
    assert_eq!(resolve(0x450001, 0xA90001), answer::NONE);
}

#[test]
fn p14_a_fresh_status() {
    assert_eq!(run(&[[4, 0, 513]]), [answer::register(0x0008)]);
}
