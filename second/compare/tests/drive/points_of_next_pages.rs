//! The special runs of request 7 of the amendments to 01 and of points 100 to 103
//! (docs/READINGS.md): the expected answers are written out by hand.

use crate::next_page_script::{
    assert_is_in_break, at_every_other_round, hear_both, in_ability_first,
    in_ability_first_with_ours, in_ability_later, in_ack_later, in_check_link_later,
    in_complete_later, in_complete_with_more, in_the_hold, in_up_later, NULL_ONE, NULL_ONE_ACK,
    NULL_ZERO, NULL_ZERO_ACK, OURS, OURS_ACK, OURS_LOADED, OWN_MORE, OWN_MORE_ACK, PARTNER_MORE,
    PARTNER_MORE_ACK, THEIRS, THEIRS_ACK, THEIR_LAST, THEIR_LAST_ACK,
};
use crate::script::{
    assert_all_hold, in_ability, in_ack, in_break, in_complete, in_every_state, send_three_pages,
    Script, CONTROL, ENABLE, OWN, OWN_ACK, PAGE_TIME, PARTNER, PARTNER_ACK, RESTART, STATUS,
};
use compare::event;
use reference::answer::{
    good, ordered, settled, CHANGED, ECHO, NONE, NOTHING, REGISTER, ROLES, SELECTOR, TIE, TOGGLE,
    TURN,
};

/// A device that advertises this word and has loaded these pages in Break, at the reading
/// of the tick that leaves it.
fn in_ability_with(advertised: u64, loaded: &[u64]) -> Script {
    let mut script = Script::default();
    script.advertise(advertised);
    script.write(CONTROL, ENABLE);
    loaded.iter().for_each(|word| script.load(*word));
    script.leave_break(5);
    script
}

/// A script in each state and at each round.
fn everywhere() -> Vec<Script> {
    let scripts = in_every_state().into_iter().chain(at_every_other_round());
    scripts.map(|(_, script)| script).collect()
}

#[test]
fn point_100_the_first_toggle_is_the_inverse_of_d11_of_the_own_base_page() {
    let mut scripts = Vec::new();
    // D11 of the partner's page does not matter to the own toggle.
    for theirs in [0, 0x0800] {
        for (advertised, own, first, loaded) in [
            (0x80_0000, 0x85_0000, NULL_ONE, 0x0800_0000_0F00),
            (0x80_0800, 0x85_0800, NULL_ZERO, 0x0800_0000_0700),
        ] {
            let pages = [PARTNER_MORE | theirs, PARTNER_MORE_ACK | theirs];
            let mut script = in_ability_with(advertised, &[]);
            hear_both(&mut script, pages);
            send_three_pages(&mut script, own | 0x4121, NOTHING);
            script.after(350_000).tick(ordered(first));
            scripts.push(script);
            // A loaded page has the same toggle, whichever toggle it was loaded with.
            for word in [0x0800_0000_0700, 0x0800_0000_0F00] {
                let mut script = in_ability_with(advertised, &[word]);
                hear_both(&mut script, pages);
                send_three_pages(&mut script, own | 0xC121, NOTHING);
                script.after(350_000).tick(ordered(loaded));
                scripts.push(script);
            }
        }
    }
    assert_all_hold(scripts);
}

#[test]
fn point_100_the_toggle_alternates_at_both_ends() {
    let mut script = in_ability_first();
    let rounds = [
        (NULL_ONE, NULL_ONE_ACK, 0x0000_0001_8803),
        (NULL_ZERO, NULL_ZERO_ACK, 0x0000_0002_8003),
        (NULL_ONE, NULL_ONE_ACK, 0x0000_0003_8803),
        (NULL_ZERO, NULL_ZERO_ACK, 0x0000_0004_8003),
    ];
    for (own, own_ack, theirs) in rounds {
        script.after(350_000).own_page_goes_out(own, NOTHING);
        hear_both(&mut script, [theirs, theirs | 0x4000]);
        send_three_pages(&mut script, own_ack, NOTHING);
    }
    // A loaded page goes on with the toggle of the Null message before it.
    script.load(0x0007);
    script.after(350_000).own_page_goes_out(NULL_ONE, NOTHING);
    hear_both(&mut script, [0x0000_0005_8803, 0x0000_0005_C803]);
    send_three_pages(&mut script, NULL_ONE_ACK, NOTHING);
    script.after(350_000).tick(ordered(0x0007));
    script.assert_holds();
}

#[test]
fn point_101_only_a_write_of_520_loads() {
    let writes: [(&[(u64, u16)], u64); 5] = [
        (&[], OWN),
        (&[(521, 0xFFFF), (522, 0xFFFF)], OWN),
        (&[(520, 0x0000)], OWN_MORE),
        (&[(520, 0x8001)], OWN_MORE),
        (&[(522, 1), (521, 1), (520, 1), (521, 2)], OWN_MORE),
    ];
    let scripts = writes.map(|(writes, own)| {
        let mut script = in_break();
        for (register, value) in writes {
            script.write(*register, *value);
        }
        script.leave_break(5);
        script.after(350_000).tick(ordered(own));
        script
    });
    assert_all_hold(scripts.to_vec());
}

#[test]
fn point_101_only_what_is_loaded_in_break_sets_the_bit() {
    let mut off = Script::default();
    off.write(515, 0x0080);
    off.load(OURS_LOADED);
    off.read(520, 0xD3E1);
    off.write(CONTROL, ENABLE);
    off.read(520, 0);
    off.leave_break(5);
    let mut restarted = in_break();
    restarted.load(OURS_LOADED);
    restarted.write(CONTROL, RESTART);
    restarted.read(520, 0);
    restarted.leave_break(5);
    // The own page is made when Break is left, and stays.
    let mut too_late = in_ability();
    too_late.load(OURS_LOADED);
    for mut script in [off, restarted, too_late] {
        script.after(350_000).own_page_goes_out(OWN, NOTHING);
        script.after(350_000).tick(ordered(OWN));
        script.assert_holds();
    }
    // Enabling a device that is on is no way into Break.
    let mut script = in_break();
    script.load(OURS_LOADED);
    script.write(CONTROL, ENABLE);
    script.leave_break(5);
    script.after(350_000).tick(ordered(OWN_MORE));
    script.assert_holds();
}

#[test]
fn the_bit_of_the_base_page_is_not_as_advertised() {
    let mut script = in_ability_with(0xFFFF_FFFF_FFFF, &[]);
    script.after(350_000).tick(ordered(0xFFFF_FFF5_3C01));
    script.assert_holds();
    let mut script = in_ability_with(0xFFFF_FFFF_FFFF, &[0]);
    script.after(350_000).tick(ordered(0xFFFF_FFF5_BC01));
    script.assert_holds();
}

#[test]
fn point_101_the_own_next_page_reads_as_written_in_every_state() {
    let mut scripts = everywhere();
    for script in &mut scripts {
        for number in 520..=522 {
            for value in [0xFFFF, 0x0000, 0x5AA5] {
                script.write(number, value);
                script.read(number, value);
            }
        }
        script.load(0x1234_5678_9ABC);
        script.read(520, 0x9ABC);
        script.read(521, 0x5678);
        script.read(522, 0x1234);
    }
    assert_all_hold(scripts);
}

#[test]
fn the_heard_next_page_is_read_only_in_every_state() {
    let mut scripts = Vec::new();
    for (name, mut script) in at_every_other_round() {
        let heard = match name {
            "Ability at round first" | "Ack at round later" => [0, 0, 0],
            "the hold" => [0x6801, 0, 0],
            "Check-link at round later" | "Up at round later" => [0x6007, 0x5432, 0x9876],
            _ => [0xEBE5, 0x5645, 0x1234],
        };
        for value in [0xFFFF, 0x0000] {
            for (number, heard) in (523..).zip(heard) {
                script.write(number, value);
                script.read(number, heard);
            }
        }
        scripts.push(script);
    }
    for (_, mut script) in in_every_state() {
        for number in 523..=525 {
            script.write(number, 0xFFFF);
            script.read(number, 0);
        }
        scripts.push(script);
    }
    assert_all_hold(scripts);
}

#[test]
fn point_101_reads_of_the_six_change_nothing() {
    let read_all = |script: &mut Script, values: [u16; 6]| {
        for _ in 0..2 {
            for (number, value) in (520..).zip(values) {
                script.read(number, value);
            }
        }
    };
    let mut script = in_break();
    script.load(OURS_LOADED);
    let loaded = [0xD3E1, 0xBA98, 0xFEDC, 0, 0, 0];
    read_all(&mut script, loaded);
    script.leave_break(5);
    hear_both(&mut script, [PARTNER, PARTNER_ACK]);
    read_all(&mut script, loaded);
    send_three_pages(&mut script, OWN_MORE_ACK, NOTHING);
    read_all(&mut script, loaded);
    hear_both(&mut script, [NULL_ONE, NULL_ONE_ACK]);
    let heard = [0xD3E1, 0xBA98, 0xFEDC, 0x6801, 0, 0];
    read_all(&mut script, heard);
    // Page received is still set.
    script.read(STATUS, 0x0048);
    read_all(&mut script, heard);
    script.after(33_000).tick(ordered(OURS_ACK));
    script.assert_holds();
}

#[test]
fn other_registers_are_refused_at_every_round() {
    let mut scripts = everywhere();
    for script in &mut scripts {
        for number in [0, 511, 526, 1023, (1 << 32) + 520] {
            let now = script.now();
            script.give(event::read(now, number), REGISTER);
            script.give(event::write(now, number, 0x8000), REGISTER);
        }
    }
    assert_all_hold(scripts);
}

#[test]
fn entering_break_or_off_forgets_everything_at_every_round() {
    for (_, mut script) in at_every_other_round() {
        script.load(OURS_LOADED);
        let mut off = script.clone();
        script.write(CONTROL, RESTART);
        let entered = script.now();
        assert_is_in_break(&mut script, entered);
        script.assert_holds();
        off.write(CONTROL, 0);
        for number in 517..=525 {
            off.read(number, 0);
        }
        off.sent(TURN);
        off.write(CONTROL, ENABLE);
        let entered = off.now();
        assert_is_in_break(&mut off, entered);
        off.assert_holds();
    }
}

#[test]
fn every_way_into_break_forgets_the_next_pages() {
    let with_a_page_loaded = |mut script: Script| {
        script.load(OURS_LOADED);
        script
    };
    let mut toggle = with_a_page_loaded(in_ability_later());
    toggle.after(10_000).page(THEIRS ^ 1, TOGGLE);
    let mut changed = with_a_page_loaded(in_ack_later());
    changed.after(10_000).page(THEIRS_ACK ^ 1, CHANGED);
    let mut time_out = with_a_page_loaded(in_check_link_later());
    time_out.after(97_500_000).tick(NOTHING);
    let mut link_down = with_a_page_loaded(in_up_later());
    link_down.after(10).link(false);
    let mut tie = with_a_page_loaded(in_ability());
    tie.after(10_000).page(0xA50001, TIE);
    let mut echo = with_a_page_loaded(in_ack());
    echo.after(10_000).page(PARTNER_ACK ^ 0x20, ECHO);
    for mut script in [toggle, changed, time_out, link_down, tie, echo] {
        let entered = script.now();
        assert_is_in_break(&mut script, entered);
        script.assert_holds();
    }
}

#[test]
fn after_break_the_round_is_base_again() {
    let mut script = in_ability_later();
    script.write(CONTROL, RESTART);
    script.leave_break(5);
    // What counts in a base page only is looked at again.
    script.after(10_000).page(THEIRS, SELECTOR);
    script.after(10_000).page(PARTNER, good(PARTNER));
    script.after(33_000).own_page_goes_out(OWN_ACK, NOTHING);
    script.after(10_000).page(PARTNER_ACK, good(PARTNER_ACK));
    script.after(4_000_000).own_page_goes_out(OWN_ACK, NOTHING);
    script.after(350_000).own_page_goes_out(OWN_ACK, NOTHING);
    script
        .after(350_000)
        .own_page_goes_out(OWN_ACK, settled(2, false));
    script.assert_holds();
}

#[test]
fn going_off_from_off_forgets_too() {
    for value in [0, 0x0200] {
        let mut script = Script::default();
        script.load(0x1234_5678_9ABC);
        script.write(CONTROL, value);
        for number in 520..=525 {
            script.read(number, 0);
        }
        script.assert_holds();
    }
}

#[test]
fn page_received_of_a_next_page_outlives_break() {
    for value in [RESTART, 0] {
        let mut script = in_ack_later();
        script.read(STATUS, 0x0048);
        script.read(STATUS, 0x0008);
        script.after(10_000).page(THEIRS_ACK, good(THEIRS_ACK));
        script.write(CONTROL, value);
        script.read(STATUS, 0x0048);
        script.read(STATUS, 0x0008);
        script.assert_holds();
    }
}

/// The page of the held one's content with one bit flipped, for each bit, in Ability: the
/// bits of `may_differ` make it a repeat, D11 a new page, and all others are refused.
fn assert_repeats(start: fn() -> Script, held: u64, own: [u64; 2], may_differ: u64) {
    let mut scripts = Vec::new();
    for bit in (0..48).map(|place| 1 << place).chain([0]) {
        let word = held ^ bit;
        let mut script = start();
        script.after(10_000);
        if bit & !may_differ == 0 {
            script.page(word, good(word));
            script.after(32_999).tick(NOTHING);
            script.after(1).tick(ordered(own[0]));
        } else if bit == 0x0800 {
            script.page(word, good(word));
            script.after(32_999).tick(NOTHING);
            script.after(1).tick(ordered(own[1]));
        } else {
            script.page(word, TOGGLE);
            let entered = script.now();
            assert_is_in_break(&mut script, entered);
        }
        scripts.push(script);
    }
    assert_all_hold(scripts);
}

#[test]
fn point_102_at_round_first_a_repeat_may_differ_in_ack_and_echo() {
    let own = [NULL_ONE, NULL_ONE_ACK];
    assert_repeats(in_ability_first, PARTNER_MORE, own, 0x43E0);
}

#[test]
fn point_102_at_round_later_a_repeat_may_differ_in_ack() {
    let own = [NULL_ZERO, NULL_ZERO_ACK];
    assert_repeats(in_ability_later, THEIRS, own, 0x4000);
}

#[test]
fn a_repeat_is_no_new_page() {
    // All of Ack and the echo may differ at once, and a repeat may come any number of times.
    let mut script = in_ability_first();
    script.read(STATUS, 0x0048);
    for word in [PARTNER_MORE_ACK, 0xA9C3E1, 0xA98001, PARTNER_MORE_ACK] {
        script.after(10_000).page(word, good(word));
        script.read(523, 0);
        script.read(STATUS, 0x0008);
        script.after(33_000).own_page_goes_out(NULL_ONE, NOTHING);
    }
    hear_both(&mut script, [THEIRS, THEIRS_ACK]);
    script.read(517, 0xC0A1);
    script.read(STATUS, 0x0048);
    send_three_pages(&mut script, NULL_ONE_ACK, NOTHING);
    for word in [THEIRS_ACK, THEIRS, THEIRS_ACK] {
        script.after(10_000).page(word, good(word));
        script.read(STATUS, 0x0008);
        script.after(33_000).own_page_goes_out(NULL_ZERO, NOTHING);
    }
    hear_both(&mut script, [THEIR_LAST, THEIR_LAST_ACK]);
    script.read(523, 0x6007);
    script.assert_holds();
}

#[test]
fn the_toggle_is_held_against_the_held_page_and_not_the_own_one() {
    // Both of the partner's first toggles, with both of the own ones.
    let mut scripts = Vec::new();
    for (advertised, own) in [(0x80_0000, 0x85_4121), (0x80_0800, 0x85_4921)] {
        for (base, right, wrong) in [(0, 0x0803, 0x0003), (0x0800, 0x0003, 0x0803)] {
            let mut script = in_ability_with(advertised, &[]);
            hear_both(&mut script, [PARTNER_MORE | base, PARTNER_MORE_ACK | base]);
            send_three_pages(&mut script, own, NOTHING);
            let mut refused = script.clone();
            refused.after(10_000).page(wrong, TOGGLE);
            refused.sent(TURN);
            script.after(10_000).page(right, good(right));
            scripts.extend([script, refused]);
        }
    }
    assert_all_hold(scripts);
}

#[test]
fn point_102_toggle_comes_after_check() {
    let mut script = in_ability_first();
    script.after(10_000).page_with_a_wrong_check(0);
    script.after(10_000).page(0, TOGGLE);
    script.assert_holds();
}

#[test]
fn a_first_next_page_with_ack_is_only_held() {
    let mut script = in_ability_first();
    script.after(10_000).page(THEIRS_ACK, good(THEIRS_ACK));
    for number in 523..=525 {
        script.read(number, 0);
    }
    script
        .after(33_000)
        .own_page_goes_out(NULL_ONE_ACK, NOTHING);
    // It is in Ack, so a page without Ack does not lead on.
    script.after(10_000).page(THEIRS, good(THEIRS));
    script.read(523, 0);
    script.after(10_000).page(THEIRS_ACK, good(THEIRS_ACK));
    script.read(523, 0xEBE5);
    script.assert_holds();
}

#[test]
fn point_102_in_ack_only_ack_may_differ_from_the_held_next_page() {
    let mut scripts = Vec::new();
    for bit in (0..48).map(|place| 1 << place).filter(|bit| *bit != 0x4000) {
        for right in [THEIRS, THEIRS_ACK] {
            let mut script = in_ack_later();
            script.after(10_000).page(right ^ bit, CHANGED);
            let entered = script.now();
            assert_is_in_break(&mut script, entered);
            scripts.push(script);
        }
    }
    assert_all_hold(scripts);
}

#[test]
fn in_ack_a_next_page_without_ack_marks_heard() {
    let mut script = in_ack_later();
    script
        .after(33_000)
        .own_page_goes_out(NULL_ONE_ACK, NOTHING);
    script.after(20_000).page(THEIRS, good(THEIRS));
    script.after(32_999).tick(NOTHING);
    script.after(1).tick(ordered(NULL_ONE_ACK));
    script.assert_holds();
}

#[test]
fn the_next_page_with_ack_is_loaded() {
    let mut script = in_ack_later();
    for number in 523..=525 {
        script.read(number, 0);
    }
    script.after(10_000).page(THEIRS_ACK, good(THEIRS_ACK));
    script.read(523, 0xEBE5);
    script.read(524, 0x5645);
    script.read(525, 0x1234);
    // The base page stays where it is.
    script.read(517, 0xC0A1);
    script.read(518, 0x00A9);
    script.read(519, 0x0000);
    script.after(32_999).tick(NOTHING);
    script.after(1).tick(ordered(NULL_ONE_ACK));
    script.assert_holds();
}

#[test]
fn point_102_page_received_is_set_for_each_and_remote_fault_for_none() {
    // THEIRS and THEIR_LAST have D13, which is Remote fault in a base page only.
    let mut script = in_ability_first();
    script.read(STATUS, 0x0048);
    script.after(10_000).page(THEIRS, good(THEIRS));
    script.read(STATUS, 0x0008);
    script.after(10_000).page(THEIRS_ACK, good(THEIRS_ACK));
    script.read(STATUS, 0x0048);
    script.read(STATUS, 0x0008);
    send_three_pages(&mut script, NULL_ONE_ACK, NOTHING);
    hear_both(&mut script, [THEIR_LAST, THEIR_LAST_ACK]);
    script.read(STATUS, 0x0048);
    script.assert_holds();
    // Remote fault of the base page stays until it is read.
    let mut script = in_ability();
    hear_both(
        &mut script,
        [PARTNER_MORE | 0x2000, PARTNER_MORE_ACK | 0x2000],
    );
    send_three_pages(&mut script, OWN_ACK, NOTHING);
    hear_both(&mut script, [0x8803, 0xC803]);
    script.read(STATUS, 0x0058);
    script.assert_holds();
}

#[test]
fn point_102_the_ordered_next_page_has_ack_and_no_echo() {
    // The nonce of the held base page is 31, which would fill the place of the echo.
    let mut script = in_ability_with(0x80_0000, &[0x8000]);
    hear_both(&mut script, [0xBF0001, 0xBF40A1]);
    send_three_pages(&mut script, 0x85_C3E1, NOTHING);
    // In Ability without Ack, in Ack and Complete with it.
    script.after(350_000).own_page_goes_out(0x8800, NOTHING);
    script.after(10_000).page(0x001F_0803, good(0x001F_0803));
    script.after(33_000).own_page_goes_out(0xC800, NOTHING);
    script.after(10_000).page(0x001F_4803, good(0x001F_4803));
    script.after(33_000).own_page_goes_out(0xC800, NOTHING);
    script.assert_holds();
}

#[test]
fn point_102_complete_looks_at_no_next_page() {
    let words = [0, OWN, PARTNER, THEIRS, THEIRS ^ 0x0800, 0xFFFF_FFFF_FFFF];
    let scripts = words.map(|word| {
        let mut script = in_complete_later();
        script.after(10_000).page(word, good(word));
        script.read(523, 0xEBE5);
        script.read(STATUS, 0x0048);
        script.after(32_999).tick(NOTHING);
        script.after(1).own_page_goes_out(NULL_ONE_ACK, NOTHING);
        script
            .after(350_000)
            .own_page_goes_out(NULL_ONE_ACK, NOTHING);
        script
            .after(350_000)
            .own_page_goes_out(NULL_ONE_ACK, NOTHING);
        // The held page is the one that counts: it says that more follows.
        script.after(350_000).tick(ordered(NULL_ZERO));
        script
    });
    assert_all_hold(scripts.to_vec());
}

#[test]
fn point_103_with_both_bits_zero_the_third_sent_settles() {
    let mut script = in_complete();
    send_three_pages(&mut script, OWN_ACK, settled(2, false));
    script.assert_holds();
    // Also where a page was loaded on the way, since no bit has said that it follows.
    let starts: [(Script, &[u64]); 3] = [
        (in_ability(), &[PARTNER, PARTNER_ACK]),
        (in_ack(), &[PARTNER_ACK]),
        (in_complete(), &[]),
    ];
    for (mut script, pages) in starts {
        script.load(OURS_LOADED);
        for word in pages {
            script.after(10_000).page(*word, good(*word));
        }
        send_three_pages(&mut script, OWN_ACK, settled(2, false));
        script.read(520, 0xD3E1);
        script.link(true);
        script.read(STATUS, 0x0068);
        script.assert_holds();
    }
}

#[test]
fn point_103_either_bit_of_the_base_pages_asks_for_a_next_page() {
    let mut own_only = in_ability_first_with_ours();
    own_only.after(350_000).tick(ordered(OURS));
    let mut partner_only = in_ability_first();
    // The last Sent has begun the wait.
    partner_only.after(349_999).tick(NOTHING);
    partner_only.after(1).tick(ordered(NULL_ONE));
    let mut both = in_break();
    both.load(OURS_LOADED);
    both.leave_break(5);
    hear_both(&mut both, [PARTNER_MORE, PARTNER_MORE_ACK]);
    send_three_pages(&mut both, OWN_MORE_ACK, NOTHING);
    both.after(350_000).tick(ordered(OURS));
    // A page that was loaded late goes before the Null message.
    let mut late = in_complete_with_more();
    late.load(OURS_LOADED);
    send_three_pages(&mut late, OWN_ACK, NOTHING);
    late.after(350_000).tick(ordered(OURS));
    assert_all_hold(vec![own_only, partner_only, both, late]);
}

#[test]
fn the_loaded_page_is_taken_as_the_registers_stand_then() {
    let mut script = in_break();
    script.load(0x1111_1111_1111);
    script.leave_break(5);
    script.write(522, 0x2222);
    hear_both(&mut script, [PARTNER, PARTNER_ACK]);
    script
        .after(33_000)
        .own_page_goes_out(OWN_MORE_ACK, NOTHING);
    script.write(521, 0x3333);
    script
        .after(350_000)
        .own_page_goes_out(OWN_MORE_ACK, NOTHING);
    script.after(350_000).tick(ordered(OWN_MORE_ACK));
    script.write(520, 0x0444);
    script.after(PAGE_TIME).sent(NOTHING);
    // What is written later is no part of it.
    script.load(0x5555_5555_5555);
    script
        .after(350_000)
        .own_page_goes_out(0x2222_3333_0C44, NOTHING);
    script.assert_holds();
}

#[test]
fn a_page_that_was_taken_is_loaded_no_more() {
    // The page says that no more follows, and the partner has more: a Null message is next.
    let mut script = in_complete_with_more();
    script.load(0x0000_0000_0123);
    send_three_pages(&mut script, OWN_ACK, NOTHING);
    hear_both(&mut script, [THEIRS, THEIRS_ACK]);
    send_three_pages(&mut script, 0x4923, NOTHING);
    script.read(520, 0x0123);
    script.after(350_000).own_page_goes_out(NULL_ZERO, NOTHING);
    script.assert_holds();
    // It is a Null message too if only the other two registers were written since.
    let mut script = in_complete_with_more();
    script.load(0x0000_0000_0123);
    send_three_pages(&mut script, OWN_ACK, NOTHING);
    script.write(521, 0xFFFF);
    script.write(522, 0xFFFF);
    hear_both(&mut script, [THEIRS, THEIRS_ACK]);
    send_three_pages(&mut script, 0x4923, NOTHING);
    script.after(350_000).own_page_goes_out(NULL_ZERO, NOTHING);
    script.assert_holds();
}

#[test]
fn several_next_pages_at_both_ends() {
    let mut script = in_break();
    script.load(0x1111_0000_8001);
    script.leave_break(5);
    hear_both(&mut script, [PARTNER_MORE, PARTNER_MORE_ACK]);
    send_three_pages(&mut script, OWN_MORE_ACK, NOTHING);
    // Own page, what is loaded next, and the partner's page.
    let rounds = [
        (0x1111_0000_8801, 0x2222_0000_8802, 0x0001_0000_8833),
        (0x2222_0000_8002, 0x3333_0000_2003, 0x0002_0000_8033),
    ];
    for (own, next, theirs) in rounds {
        script.load(next);
        script.after(350_000).own_page_goes_out(own, NOTHING);
        hear_both(&mut script, [theirs, theirs | 0x4000]);
        send_three_pages(&mut script, own | 0x4000, NOTHING);
    }
    // The own pages are at an end, and the partner has one more.
    hear_both(&mut script, [0x0003_0000_8833, 0x0003_0000_C833]);
    send_three_pages(&mut script, 0x3333_0000_6803, NOTHING);
    hear_both(&mut script, [0x0004_0000_0033, 0x0004_0000_4033]);
    send_three_pages(&mut script, NULL_ZERO_ACK, settled(2, false));
    script.read(523, 0x4033);
    script.read(525, 0x0004);
    script.assert_holds();
}

#[test]
fn point_103_each_next_page_is_sent_three_times_acknowledged() {
    let mut script = in_ability_first();
    // Pages sent in Ability and Ack do not count.
    for _ in 0..4 {
        script.after(350_000).own_page_goes_out(NULL_ONE, NOTHING);
    }
    script.after(10_000).page(THEIRS, good(THEIRS));
    script
        .after(33_000)
        .own_page_goes_out(NULL_ONE_ACK, NOTHING);
    for _ in 0..3 {
        script
            .after(350_000)
            .own_page_goes_out(NULL_ONE_ACK, NOTHING);
    }
    script.after(10_000).page(THEIRS_ACK, good(THEIRS_ACK));
    send_three_pages(&mut script, NULL_ONE_ACK, NOTHING);
    script.after(350_000).tick(ordered(NULL_ZERO));
    script.sent(NOTHING);
    hear_both(&mut script, [THEIR_LAST, THEIR_LAST_ACK]);
    send_three_pages(&mut script, NULL_ZERO_ACK, settled(2, false));
    script.assert_holds();
}

#[test]
fn point_103_rate_and_role_come_from_the_base_pages() {
    // The Next Pages, taken for base pages, would settle on 10BASE-T1L as master, with
    // nonces 31 and 0.
    let mut script = in_ability_with(0x80_0000, &[0x0000_401F_2001]);
    hear_both(&mut script, [PARTNER, PARTNER_ACK]);
    send_three_pages(&mut script, OWN_MORE_ACK, NOTHING);
    hear_both(&mut script, [0x0000_4000_0801, 0x0000_4000_4801]);
    send_three_pages(&mut script, 0x0000_401F_6801, settled(2, false));
    script.after(97_499_999).tick(NOTHING);
    script.link(true);
    script.read(STATUS, 0x0068);
    script.assert_holds();
}

#[test]
fn refusals_of_resolving_come_after_the_next_pages() {
    let nothing_common = (0x40_0000, 0x45_0001, PARTNER_MORE, NONE);
    let same_roles = (0x80_1000, 0x85_1001, PARTNER_MORE | 0x1000, ROLES);
    for (advertised, own, partner, refusal) in [nothing_common, same_roles] {
        let mut script = in_ability_with(advertised, &[]);
        hear_both(&mut script, [partner, partner | 0x40A0]);
        send_three_pages(&mut script, own | 0x4120, NOTHING);
        hear_both(&mut script, [0x0803, 0x4803]);
        send_three_pages(&mut script, NULL_ONE_ACK, refusal);
        script.link(true);
        script.read(STATUS, 0x0048);
        script.after(97_499_999).tick(NOTHING);
        script.read(523, 0x4803);
        script.after(1).tick(NOTHING);
        script.read(523, 0);
        script.assert_holds();
    }
}

#[test]
fn a_whole_exchange_settles_and_comes_up() {
    let mut script = in_up_later();
    script.read(STATUS, 0x0068);
    script.read(STATUS, 0x002C);
    script.read(517, 0xC0A1);
    script.read(523, 0x6007);
    script.after(10).link(false);
    let entered = script.now();
    assert_is_in_break(&mut script, entered);
    script.assert_holds();
}

#[test]
fn point_103_in_the_hold_the_page_goes_out_again_and_again() {
    let mut script = in_the_hold();
    for _ in 0..5 {
        script.after(349_999).tick(NOTHING);
        script.after(1).own_page_goes_out(OURS_ACK, NOTHING);
    }
    // A page that is heard marks heard, also one that the partner would send later.
    for word in [NULL_ONE_ACK, 0x2001, THEIRS] {
        script.after(10_000).page(word, good(word));
        script.after(32_999).tick(NOTHING);
        script.after(1).own_page_goes_out(OURS_ACK, NOTHING);
    }
    script.read(523, 0x6801);
    script.assert_holds();
}

#[test]
fn point_103_a_page_loaded_in_the_hold_is_taken_at_the_next_sent() {
    let mut script = in_the_hold();
    script.after(350_000).own_page_goes_out(OURS_ACK, NOTHING);
    script.write(521, 0x0042);
    script.after(350_000).own_page_goes_out(OURS_ACK, NOTHING);
    script.write(522, 0);
    script.write(520, 0x0001);
    // Neither the write nor a tick takes it, nor a page that is heard.
    script.after(10_000).page(NULL_ONE_ACK, good(NULL_ONE_ACK));
    script.after(33_000).tick(ordered(OURS_ACK));
    script.after(PAGE_TIME).sent(NOTHING);
    script
        .after(350_000)
        .own_page_goes_out(0x0042_0001, NOTHING);
    hear_both(&mut script, [NULL_ZERO, NULL_ZERO_ACK]);
    send_three_pages(&mut script, 0x0042_4001, settled(2, false));
    script.assert_holds();
}

#[test]
fn a_page_loaded_while_the_last_one_is_out_is_in_time() {
    // Before the third Sent, so there is no hold; and before one of the hold's.
    let mut early = in_ability_first_with_ours();
    hear_both(&mut early, [NULL_ONE, NULL_ONE_ACK]);
    early.after(33_000).own_page_goes_out(OURS_ACK, NOTHING);
    early.after(350_000).own_page_goes_out(OURS_ACK, NOTHING);
    for mut script in [early, in_the_hold()] {
        script.after(350_000).tick(ordered(OURS_ACK));
        script.load(0x0000_0000_2001);
        script.after(PAGE_TIME).sent(NOTHING);
        script.after(350_000).tick(ordered(NULL_ZERO));
        script.assert_holds();
    }
}

#[test]
fn the_hold_does_not_depend_on_the_partners_bit() {
    let mut script = in_ability_first_with_ours();
    hear_both(&mut script, [THEIRS, THEIRS_ACK]);
    send_three_pages(&mut script, OURS_ACK, NOTHING);
    for _ in 0..3 {
        script.after(350_000).own_page_goes_out(OURS_ACK, NOTHING);
    }
    script.load(0x0000_0000_2001);
    script.after(350_000).own_page_goes_out(OURS_ACK, NOTHING);
    script.after(350_000).own_page_goes_out(NULL_ZERO, NOTHING);
    script.assert_holds();
}

#[test]
fn the_count_begins_anew_with_each_page() {
    // After a hold of many pages, the next page is sent three times all the same.
    let mut script = in_the_hold();
    for _ in 0..4 {
        script.after(350_000).own_page_goes_out(OURS_ACK, NOTHING);
    }
    script.load(0x0000_0000_2001);
    script.after(350_000).own_page_goes_out(OURS_ACK, NOTHING);
    hear_both(&mut script, [NULL_ZERO, NULL_ZERO_ACK]);
    send_three_pages(&mut script, NULL_ZERO_ACK, settled(2, false));
    script.assert_holds();
}

#[test]
fn edges_are_ignored_while_a_next_page_is_out() {
    let starts = [
        (in_ability_first(), NULL_ONE),
        (in_ack_later(), NULL_ONE_ACK),
        (in_complete_later(), NULL_ONE_ACK),
    ];
    let scripts = starts.map(|(mut script, own)| {
        script.after(350_000).tick(ordered(own));
        script.after(10_000).page(0x1234, NOTHING);
        script.sent(NOTHING);
        script.after(350_000).tick(ordered(own));
        script
    });
    assert_all_hold(scripts.to_vec());
}

#[test]
fn the_exchange_may_roll_over_with_the_clock() {
    // The whole exchange takes about fourteen milliseconds.
    let scripts = (0..=30).map(|part| {
        let start = 0_u32.wrapping_sub(part * 500_000);
        let mut script = Script::default();
        script.at(start).advertise(0x80_0000);
        script.write(CONTROL, ENABLE);
        script.leave_break(5);
        hear_both(&mut script, [PARTNER_MORE, PARTNER_MORE_ACK]);
        send_three_pages(&mut script, OWN_ACK, NOTHING);
        hear_both(&mut script, [THEIRS, THEIRS_ACK]);
        send_three_pages(&mut script, NULL_ONE_ACK, NOTHING);
        let heard_at = script.now().wrapping_sub(1_107_400);
        let mut lost = script.clone();
        lost.at(heard_at.wrapping_add(3_999_999))
            .tick(ordered(NULL_ZERO));
        lost.sent(NOTHING);
        lost.after(1).tick(NOTHING);
        lost.sent(TURN);
        hear_both(&mut script, [THEIR_LAST, THEIR_LAST_ACK]);
        send_three_pages(&mut script, NULL_ZERO_ACK, settled(2, false));
        [script, lost]
    });
    assert_all_hold(scripts.flatten().collect());
}
