//! The special runs of points 21 to 56 and 126 to 128 (docs/READINGS.md): one test for each
//! point that can be seen, the expected answers written out from document 01.

use crate::script::{
    assert_all_hold, hear_and_send, in_ability, in_ack, in_break, in_check_link, in_complete,
    in_every_state, in_up, send_three_pages, settle_from, settle_with, Script, CONTROL, ENABLE,
    OWN, OWN_ACK, PAGE_TIME, PARTNER, PARTNER_ACK, RESTART, STATUS,
};
use reference::answer::{
    good, ordered, settled, CHANGED, CUT, ECHO, GAP, NONE, NOTHING, ROLES, SELECTOR, TIE, TURN,
};
use reference::line_mode::LSM;
use reference::page::{readings, transitions};

#[test]
fn point_21_gap_cut_and_check_come_out_of_the_device() {
    let mut scripts = Vec::new();
    for mut script in [in_ability(), in_ack(), in_complete()] {
        script.after(5000).edge(NOTHING);
        script.after(100).edge(GAP);
        script.after(100).edge(NOTHING);
        script.after(3441).edge(NOTHING);
        script.after(3441).edge(CUT);
        script.after(800).edge(NOTHING);
        script.after(100).edge(GAP);
        script.after(5000);
        script.page_with_a_wrong_check(0);
        scripts.push(script);
    }
    assert_all_hold(scripts);
}

#[test]
fn point_22_an_ignored_edge_does_not_touch_the_reader() {
    // So long after the last ignored edge comes the first that is not: a gap of one
    // position, an unfit one, and none. Each is quiet since the last edge before the
    // order, so that edge opens an attempt, which the next one ends.
    let scripts = [1000, 300, 0].map(|gap| {
        let mut script = in_ack();
        script.after(33_000).tick(ordered(OWN_ACK));
        script.after(20_000).edge(NOTHING);
        script.after(800).edge(NOTHING);
        script.sent(NOTHING);
        script.after(gap).edge(NOTHING);
        script.after(100).edge(GAP);
        script
    });
    assert_all_hold(scripts.to_vec());
}

#[test]
fn point_23_ordering_and_sent_do_not_end_an_open_attempt() {
    let mut script = in_ability();
    script.after(350_000).edge(NOTHING);
    script.after(3441).tick(ordered(OWN));
    script.after(PAGE_TIME).sent(NOTHING);
    script.after(10).edge(CUT);
    script.after(100).edge(GAP);
    script.assert_holds();
}

#[test]
fn point_24_an_attempt_holds_back_for_less_than_the_quiet_limit() {
    let mut script = in_ability();
    script.after(350_000).edge(NOTHING);
    script.after(3440).tick(NOTHING);
    script.after(1).tick(ordered(OWN));
    script.assert_holds();
    // An edge in the future is nearly a round of the clock old.
    let mut script = in_ability();
    script.after(350_001).edge(NOTHING);
    let tick_at = script.now() - 1;
    script.at(tick_at).tick(ordered(OWN));
    script.assert_holds();
}

#[test]
fn point_25_dropped_edges_do_not_hold_back() {
    let mut script = in_ability();
    script.after(349_000).edge(NOTHING);
    script.after(100).edge(GAP);
    script.after(800).edge(NOTHING);
    script.after(800).edge(NOTHING);
    script.tick(ordered(OWN));
    script.assert_holds();
}

#[test]
fn point_26_the_tick_that_leaves_break_orders_nothing() {
    let mut script = in_break();
    script.at(7_999_999).tick_with(7, NOTHING);
    script.sent(TURN);
    script.at(8_000_000).tick_with(5, NOTHING);
    script.tick(NOTHING);
    script.at(8_349_999).tick(NOTHING);
    script.at(8_350_000).tick(ordered(OWN));
    script.assert_holds();
}

#[test]
fn point_27_the_advertisement_is_taken_when_break_is_left() {
    let mut script = in_break();
    script.advertise(0x0400_0020_0000);
    script.leave_break(5);
    script.advertise(0x0200_0040_0000);
    script
        .after(350_000)
        .own_page_goes_out(0x0400_0025_0001, NOTHING);
    script.advertise(0x0100_0080_0000);
    script
        .after(350_000)
        .own_page_goes_out(0x0400_0025_0001, NOTHING);
    script.write(CONTROL, RESTART);
    script.leave_break(6);
    script.after(350_000).tick(ordered(0x0100_0086_0001));
    script.assert_holds();
}

/// What a device that advertises this word orders after this draw.
fn assert_ordered(advertised: u64, draw: u64, word: u64) {
    let mut script = Script::default();
    script.advertise(advertised);
    script.write(CONTROL, ENABLE);
    script.leave_break(draw);
    script.after(350_000).tick_with(!draw, ordered(word));
    script.assert_holds();
}

#[test]
fn point_28_the_highest_nonce_bit_is_as_advertised_if_the_role_is_forced() {
    assert_ordered(0x00_1000, 31, 0x0F_1001);
    assert_ordered(0x10_1000, 0, 0x10_1001);
    assert_ordered(0x0F_1000, 0b10010, 0x02_1001);
    assert_ordered(0x1F_0000, 5, 0x05_0001);
    assert_ordered(0x00_0000, 31, 0x1F_0001);
}

#[test]
fn point_29_the_draw_is_taken_modulo_32() {
    assert_ordered(0, 32, 0x00_0001);
    assert_ordered(0, u64::MAX, 0x1F_0001);
    assert_ordered(0, (1 << 32) + 33, 0x01_0001);
    assert_ordered(0x00_1000, 63, 0x0F_1001);
}

#[test]
fn point_30_everything_else_of_the_advertisement_goes_out() {
    assert_ordered(0xFFFF_FFFF_FFFF, 0, 0xFFFF_FFF0_3C01);
}

#[test]
fn point_31_selector_comes_before_tie() {
    let mut script = in_ability();
    let other_selector_and_own_nonce = 0x850002;
    script
        .after(10_000)
        .page(other_selector_and_own_nonce, SELECTOR);
    script.after(10_000).page(0x850000, SELECTOR);
    // It stayed in Ability: a right page is taken.
    script.after(10_000).page(PARTNER, good(PARTNER));
    script.assert_holds();
    let mut script = in_ability();
    script.after(10_000).page(0xA50001, TIE);
    script.sent(TURN);
    script.after(10_000).page(PARTNER, NOTHING);
    script.assert_holds();
}

#[test]
fn point_32_a_refused_page_does_not_mark_heard() {
    let mut script = in_ability();
    script.after(10_000).page(0xA90003, SELECTOR);
    script.after(33_000).tick(NOTHING);
    script.at(8_349_999).tick(NOTHING);
    script.at(8_350_000).tick(ordered(OWN));
    script.assert_holds();
    // Nor do Gap, Cut and Check: the wait goes on from the tick that left Break.
    let mut script = in_ability();
    script.after(10_000).edge(NOTHING);
    script.after(10_000).edge(CUT);
    script.after(100).edge(GAP);
    script.after(10_000);
    script.page_with_a_wrong_check(0);
    script.after(33_000).tick(NOTHING);
    script.at(8_349_999).tick(NOTHING);
    script.at(8_350_000).tick(ordered(OWN));
    script.assert_holds();
}

#[test]
fn point_33_a_first_page_with_ack_is_only_held() {
    let mut script = in_ability();
    script.after(10_000).page(PARTNER_ACK, good(PARTNER_ACK));
    script.read(517, 0);
    script.read(STATUS, 0x0008);
    script.after(10_000).page(PARTNER_ACK, good(PARTNER_ACK));
    script.read(517, 0x40A1);
    script.read(STATUS, 0x0048);
    script.assert_holds();
}

#[test]
fn point_34_only_ack_and_the_echo_may_differ_from_the_held_page() {
    let mut scripts = Vec::new();
    for bit in 0..48 {
        let is_of_the_echo = (5..=9).contains(&bit);
        let mut script = in_ack();
        let other = PARTNER ^ 1 << bit;
        let answer = match bit {
            14 => ECHO,
            _ if is_of_the_echo => good(other),
            _ => CHANGED,
        };
        script.after(10_000).page(other, answer);
        let answer_to_sent = if is_of_the_echo { NOTHING } else { TURN };
        script.after(33_000);
        script.tick(if is_of_the_echo {
            ordered(OWN_ACK)
        } else {
            NOTHING
        });
        script.sent(answer_to_sent);
        scripts.push(script);
    }
    assert_all_hold(scripts);
}

#[test]
fn point_34_changed_comes_before_echo() {
    let mut script = in_ack();
    let changed_and_wrong_echo = PARTNER_ACK ^ 0x8000 ^ 0x20;
    script.after(10_000).page(changed_and_wrong_echo, CHANGED);
    script.assert_holds();
}

#[test]
fn point_35_selector_and_tie_are_not_looked_at_in_ack() {
    for other in [0xA940A2, 0xA540A1] {
        let mut script = in_ack();
        script.after(10_000).page(other, CHANGED);
        script.sent(TURN);
        script.assert_holds();
    }
}

#[test]
fn point_36_the_page_with_ack_is_loaded() {
    let mut script = in_ability();
    script
        .after(10_000)
        .page(0x1234_56A9_2801, good(0x1234_56A9_2801));
    script.read(517, 0);
    script
        .after(10_000)
        .page(0x1234_56A9_2841, good(0x1234_56A9_2841));
    for register in [517, 518, 519] {
        script.read(register, 0);
    }
    script
        .after(10_000)
        .page(0x1234_56A9_68A1, good(0x1234_56A9_68A1));
    script.read(517, 0x68A1);
    script.read(518, 0x56A9);
    script.read(519, 0x1234);
    script.read(STATUS, 0x0058);
    script.assert_holds();
}

#[test]
fn point_38_remote_fault_stays_until_it_is_read() {
    let mut script = in_break();
    for (fault, draw) in [(0x2000, 5), (0, 5)] {
        script.leave_break(draw);
        let (first, second) = (PARTNER | fault, PARTNER_ACK | fault);
        script.after(10_000).page(first, good(first));
        script.after(10_000).page(second, good(second));
        script.write(CONTROL, RESTART);
    }
    script.read(STATUS, 0x0058);
    script.read(STATUS, 0x0008);
    script.assert_holds();
}

#[test]
fn point_39_complete_looks_at_no_page() {
    // Another selector, the own nonce, no Ack, other abilities.
    let mut scripts = Vec::new();
    for word in [0, OWN, PARTNER, 0x1234_5678_9ABC, 0xFFFF_FFFF_FFFF] {
        let mut script = in_complete();
        script.after(10_000).page(word, good(word));
        script.after(32_999).tick(NOTHING);
        script.after(1).own_page_goes_out(OWN_ACK, NOTHING);
        script.read(517, 0x40A1);
        // The held page is still the one that counts.
        script.after(350_000).own_page_goes_out(OWN_ACK, NOTHING);
        script
            .after(350_000)
            .own_page_goes_out(OWN_ACK, settled(2, false));
        scripts.push(script);
    }
    assert_all_hold(scripts);
}

#[test]
fn point_40_pages_sent_before_complete_do_not_count() {
    let mut script = in_ability();
    script.after(350_000).own_page_goes_out(OWN, NOTHING);
    script.after(10_000).page(PARTNER, good(PARTNER));
    script.after(33_000).own_page_goes_out(OWN_ACK, NOTHING);
    script.after(350_000).own_page_goes_out(OWN_ACK, NOTHING);
    script.after(10_000).page(PARTNER_ACK, good(PARTNER_ACK));
    send_three_pages(&mut script, OWN_ACK, settled(2, false));
    script.assert_holds();
}

/// The device has just gone to Check-link with a rate: one nanosecond before its time is
/// out the link can still come up, and then no more.
fn assert_waits_for_the_link(mut script: Script, inhibit: u32) {
    script.after(inhibit - 1).tick(NOTHING);
    let mut still = script.clone();
    still.link(true);
    still.read(STATUS, 0x0068);
    still.assert_holds();
    script.after(1).tick(NOTHING);
    script.link(true);
    script.read(STATUS, 0x0048);
    script.assert_holds();
}

#[test]
fn point_41_the_third_sent_settles_and_starts_the_timer() {
    assert_waits_for_the_link(in_check_link(), 97_500_000);
}

#[test]
fn point_42_refusals_of_resolving_lead_to_check_link_without_a_rate() {
    let nothing_common = settle_with(0x40_0000, 0xA90001, NONE);
    let mut same_roles = Script::default();
    same_roles.advertise(0x80_1000);
    same_roles.write(CONTROL, ENABLE);
    hear_and_send(&mut same_roles, 0x85_1001, 0xA9_1001, ROLES);
    for (mut script, partner_low) in [(nothing_common, 0x40A1), (same_roles, 0x50A1)] {
        script.after(10).link(true);
        script.read(STATUS, 0x0048);
        script.after(97_499_989).tick(NOTHING);
        script.read(517, partner_low);
        script.after(1).tick(NOTHING);
        script.read(517, 0);
        script.assert_holds();
    }
}

#[test]
fn point_43_sent_with_no_page_out_is_turn_in_every_state() {
    let mut scripts = Vec::new();
    for (_, mut script) in in_every_state() {
        script.sent(TURN);
        script.after(100).sent(TURN);
        scripts.push(script);
    }
    assert_all_hold(scripts);
}

#[test]
fn point_44_a_restart_forgets_the_page_that_is_out() {
    let mut script = in_ability();
    script.after(350_000).tick(ordered(OWN));
    script.write(CONTROL, RESTART);
    script.after(100).sent(TURN);
    let entered = script.now() - 100;
    script.at(entered + 8_000_000).tick_with(5, NOTHING);
    script.sent(TURN);
    // The edges are listened to again.
    script.after(10_000).page(PARTNER, good(PARTNER));
    script.assert_holds();
}

#[test]
fn point_47_timers_are_modulo_2_to_32_and_looked_at_on_ticks_only() {
    let mut script = in_break();
    // 2^32 ns and one millisecond after the start.
    script.give([1, (1 << 32) + 1_000_000, 5], NOTHING);
    script.sent(TURN);
    script.at(8_000_000).tick_with(5, NOTHING);
    script.after(10_000).page(PARTNER, good(PARTNER));
    script.assert_holds();
    let mut script = in_check_link();
    script.after(98_000_000).link(true);
    script.read(STATUS, 0x0068);
    script.assert_holds();
}

#[test]
fn point_47_every_time_may_roll_over_with_the_clock() {
    // A whole round takes less than ten milliseconds; the clock rolls over somewhere in it.
    let scripts = (0..=40).map(|part| {
        let start = 0_u32.wrapping_sub(part * 250_000);
        let mut script = settle_from(start, 0x80_0000, PARTNER, settled(2, false));
        script.after(97_499_999).tick(NOTHING);
        script.link(true);
        script.read(STATUS, 0x0068);
        script
    });
    assert_all_hold(scripts.collect());
}

#[test]
fn point_48_at_its_number_a_timer_is_out() {
    let mut script = in_break();
    script.at(7_999_999).tick_with(5, NOTHING);
    script.edge(NOTHING);
    script.after(100).edge(NOTHING);
    script.at(8_000_000).tick_with(5, NOTHING);
    script.edge(NOTHING);
    script.after(100).edge(GAP);
    script.at(8_349_999).tick(NOTHING);
    script.at(8_350_000).tick(ordered(OWN));
    script.assert_holds();
    let mut script = in_ack();
    script.after(32_999).tick(NOTHING);
    script.after(1).tick(ordered(OWN_ACK));
    script.assert_holds();
}

#[test]
fn point_49_the_inhibit_time_is_that_of_the_rate() {
    let all = [
        (6, 97_500_000),
        (5, 97_500_000),
        (4, 97_500_000),
        (3, 97_500_000),
        (2, 97_500_000),
        (0, 97_500_000),
        (1, 402_000_000),
        (9, 3_060_000_000),
        (22, 402_000_000),
    ];
    for (ability, inhibit) in all {
        let word: u64 = 1 << (21 + ability);
        let script = settle_with(word, word | 0x010001, settled(ability, true));
        assert_waits_for_the_link(script, inhibit);
    }
}

#[test]
fn point_50_link_down_is_ignored_in_check_link() {
    let mut script = in_check_link();
    script.after(10).link(false);
    script.after(10).link(true);
    script.read(STATUS, 0x0068);
    script.assert_holds();
    let mut script = settle_with(0x40_0000, PARTNER, NONE);
    script.after(10).link(false);
    script.after(10).link(true);
    script.read(STATUS, 0x0048);
    // Still in Check-link: the partner's page is still there.
    script.read(517, 0x40A1);
    script.assert_holds();
}

#[test]
fn point_51_a_report_before_check_link_is_forgotten() {
    let mut script = in_complete();
    script.link(true);
    send_three_pages(&mut script, OWN_ACK, settled(2, false));
    script.read(STATUS, 0x0048);
    script.after(10).tick(NOTHING);
    script.read(STATUS, 0x0008);
    script.after(10).link(true);
    script.read(STATUS, 0x0028);
    script.assert_holds();
}

#[test]
fn point_52_heard_is_marked_at_the_last_edge_and_waiting_at_sent() {
    let mut script = in_ack();
    script.after(32_999).tick(NOTHING);
    script.after(1_000).tick(ordered(OWN_ACK));
    script.after(500_000).tick(NOTHING);
    script.sent(NOTHING);
    script.after(349_999).tick(NOTHING);
    script.after(1).tick(ordered(OWN_ACK));
    script.assert_holds();
}

#[test]
fn point_52_a_page_without_ack_marks_heard_in_ack() {
    let mut script = in_ack();
    script.after(20_000).page(PARTNER, good(PARTNER));
    script.after(32_999).tick(NOTHING);
    script.after(1).tick(ordered(OWN_ACK));
    script.assert_holds();
    // Also where the wait has begun in between.
    let mut script = in_ack();
    script.after(33_000).own_page_goes_out(OWN_ACK, NOTHING);
    script.after(20_000).page(PARTNER, good(PARTNER));
    script.after(32_999).tick(NOTHING);
    script.after(1).tick(ordered(OWN_ACK));
    script.assert_holds();
}

#[test]
fn point_53_heard_replaces_waiting() {
    let mut script = in_ability();
    script
        .after(349_999 - PAGE_TIME)
        .page(PARTNER, good(PARTNER));
    assert_eq!(script.now(), 8_349_999);
    script.after(1).tick(NOTHING);
    script.after(32_998).tick(NOTHING);
    script.after(1).tick(ordered(OWN_ACK));
    script.assert_holds();
}

#[test]
fn point_54_a_page_may_be_out_for_ever() {
    let mut script = in_ack();
    script.after(33_000).tick(ordered(OWN_ACK));
    for _ in 0..5 {
        script.after(900_000_000).tick(NOTHING);
        script.after(10_000).page(PARTNER_ACK, NOTHING);
    }
    script.read(517, 0);
    script.write(CONTROL, RESTART);
    script.leave_break(5);
    script.after(10_000).page(PARTNER, good(PARTNER));
    script.assert_holds();
}

#[test]
fn point_55_a_time_out_of_check_link_starts_the_break_timer_there() {
    let mut script = in_check_link();
    script.after(98_000_000).tick(NOTHING);
    script.after(7_999_999).tick(NOTHING);
    script.sent(TURN);
    script.edge(NOTHING);
    script.after(100).edge(NOTHING);
    script.after(3_441).tick_with(5, NOTHING);
    script.edge(NOTHING);
    script.after(100).edge(GAP);
    script.assert_holds();
}

#[test]
fn point_56_an_edge_that_enters_break_starts_its_timer() {
    let refused = [
        (in_ability(), 0xA50001, TIE),
        (in_ack(), PARTNER ^ 0x8000, CHANGED),
        (in_ack(), PARTNER_ACK ^ 0x20, ECHO),
    ];
    let mut scripts = Vec::new();
    for (mut script, word, refusal) in refused {
        script.after(10_000).page(word, refusal);
        let entered = script.now();
        script.after(10_000).page(PARTNER, NOTHING);
        script.at(entered + 7_999_999).tick_with(5, NOTHING);
        script.edge(NOTHING);
        script.after(1).tick_with(5, NOTHING);
        // The reader is fresh: no quiet gap is asked.
        script.after(1).page(PARTNER, good(PARTNER));
        scripts.push(script);
    }
    assert_all_hold(scripts);
}

#[test]
fn point_126_ack_and_echo_are_put_into_the_order_only() {
    let mut script = in_ability();
    script.after(350_000).own_page_goes_out(OWN, NOTHING);
    script.after(10_000).page(PARTNER, good(PARTNER));
    script.after(33_000).own_page_goes_out(OWN_ACK, NOTHING);
    script.after(10_000).page(PARTNER_ACK, good(PARTNER_ACK));
    script.after(33_000).own_page_goes_out(OWN_ACK, NOTHING);
    script.assert_holds();
    // All five bits of the held nonce are echoed, in E and not in T.
    let mut script = in_ability();
    script.after(10_000).page(0xBF0001, good(0xBF0001));
    script.after(33_000).tick(ordered(0x8543E1));
    script.assert_holds();
}

#[test]
fn point_127_ability_orders_after_the_wait_only() {
    let mut script = in_ability();
    for _ in 0..3 {
        script.after(33_000).tick(NOTHING);
        script.after(349_999 - 33_000).tick(NOTHING);
        script.after(1).own_page_goes_out(OWN, NOTHING);
    }
    script.assert_holds();
}

#[test]
fn point_128_leaving_break_in_the_middle_of_a_page_gives_a_refusal() {
    // The zero page has edges at all odd positions from 27 to 157.
    let mut script = in_break();
    let edges = readings(&LSM, 0, 8_000_000 - 30 * 800);
    let (in_break, later) = edges.split_at(transitions(&LSM, 0).partition_point(|at| *at <= 31));
    for edge in in_break {
        script.at(*edge).edge(NOTHING);
    }
    script.at(8_000_000).tick_with(5, NOTHING);
    script.at(later[0]).edge(NOTHING);
    // Two positions where the delimiter asks for one.
    script.at(later[1]).edge(GAP);
    for edge in &later[2..] {
        script.at(*edge).edge(NOTHING);
    }
    script.after(3441).page(PARTNER, good(PARTNER));
    script.assert_holds();
}

#[test]
fn an_attempt_under_way_holds_every_order_back() {
    let mut script = in_ability();
    script
        .after(340_000)
        .page_with(PARTNER, good(PARTNER), true);
    script.tick(NOTHING);
    script.after(33_000).tick(ordered(OWN_ACK));
    script.assert_holds();
}

#[test]
fn link_down_in_up_starts_the_break_timer() {
    let mut script = in_up();
    script.after(5_000_000).edge(NOTHING);
    script.tick(NOTHING);
    script.link(true);
    script.after(5_000_000).link(false);
    let entered = script.now();
    script.link(true);
    script.at(entered + 7_999_999).tick_with(7, NOTHING);
    script.edge(NOTHING);
    script.edge(NOTHING);
    script.at(entered + 8_000_000).tick_with(5, NOTHING);
    script.edge(NOTHING);
    script.edge(GAP);
    script.after(350_000).tick(ordered(OWN));
    script.assert_holds();
}
