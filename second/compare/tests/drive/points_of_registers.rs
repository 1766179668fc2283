//! The special runs of points 58 to 69 (docs/READINGS.md): one test for each point, the
//! expected answers written out from document 01.

use crate::script::{
    assert_all_hold, in_ability, in_break, in_check_link, in_complete, in_every_state, in_up,
    Script, CONTROL, ENABLE, OWN, PARTNER, PARTNER_ACK, RESTART, STATUS,
};
use compare::event;
use reference::answer::{good, ordered, NOTHING, REGISTER, TURN};

const RESET: u16 = 0x8000;

#[test]
fn point_58_enabling_again_changes_nothing() {
    let mut script = in_break();
    script.after(5_000_000).write(CONTROL, ENABLE);
    script.at(8_000_000).tick_with(5, NOTHING);
    script.write(CONTROL, ENABLE);
    script.after(350_000).tick(ordered(OWN));
    script.write(CONTROL, ENABLE);
    script.sent(NOTHING);
    script.assert_holds();
    let mut script = in_up();
    script.write(CONTROL, ENABLE);
    script.read(STATUS, 0x0068);
    script.write(CONTROL, ENABLE);
    script.read(STATUS, 0x002C);
    script.assert_holds();
}

#[test]
fn point_59_a_restart_in_break_restarts_the_timer() {
    let mut script = in_break();
    script.at(5_000_000).write(CONTROL, RESTART);
    script.at(8_000_000).tick_with(7, NOTHING);
    script.at(12_999_999).tick_with(7, NOTHING);
    script.sent(TURN);
    script.at(13_000_000).tick_with(5, NOTHING);
    script.after(350_000).tick(ordered(OWN));
    script.assert_holds();
    // From Off, enabling goes to Break with bit 9 and without.
    for value in [ENABLE, RESTART] {
        let mut script = Script::default();
        script.after(77).write(CONTROL, value);
        script.read(CONTROL, 0x1000);
        script.leave_break(5);
        script.after(350_000).tick(ordered(0x05_0001));
        script.assert_holds();
    }
}

#[test]
fn point_60_restart_without_enable_goes_off() {
    let mut scripts = Vec::new();
    for (name, mut script) in in_every_state() {
        let is_on = name != "Off";
        script.read(CONTROL, if is_on { 0x1000 } else { 0 });
        script.write(CONTROL, 0x0200);
        script.read(CONTROL, 0);
        // Off ignores everything: nothing is ordered at any time.
        script.sent(TURN);
        script.after(8_000_000).tick(NOTHING);
        script.after(350_000).tick(NOTHING);
        script.after(10_000).page(PARTNER, NOTHING);
        scripts.push(script);
    }
    assert_all_hold(scripts);
}

#[test]
fn point_61_bit_15_makes_the_device_fresh() {
    let mut scripts = Vec::new();
    for value in [RESET, 0xFFFF, RESET | ENABLE, RESET | RESTART] {
        for (_, mut script) in in_every_state() {
            script.advertise(0xFFFF_FFFF_FFFF);
            script.load(0xFFFF_FFFF_FFFF);
            script.write(CONTROL, value);
            script.read(CONTROL, 0);
            script.read(STATUS, 0x0008);
            for number in 514..=525 {
                script.read(number, 0);
            }
            script.sent(TURN);
            script.after(8_000_000).tick(NOTHING);
            script.after(350_000).tick(NOTHING);
            scripts.push(script);
        }
    }
    assert_all_hold(scripts);
}

#[test]
fn point_62_page_received_and_remote_fault_outlive_break_and_off() {
    for value in [RESTART, 0] {
        let mut script = in_ability();
        let (first, second) = (PARTNER | 0x2000, PARTNER_ACK | 0x2000);
        script.after(10_000).page(first, good(first));
        script.after(10_000).page(second, good(second));
        script.read(517, 0x60A1);
        script.write(CONTROL, value);
        for number in 517..=525 {
            script.read(number, 0);
        }
        script.read(STATUS, 0x0058);
        script.read(STATUS, 0x0008);
        script.assert_holds();
    }
}

#[test]
fn point_63_the_advertisement_outlives_break_and_off() {
    let mut script = Script::default();
    script.advertise(0x1234_5678_9ABC);
    for value in [ENABLE, RESTART, 0, 0, ENABLE] {
        script.write(CONTROL, value);
        script.read(514, 0x9ABC);
        script.read(515, 0x5678);
        script.read(516, 0x1234);
    }
    script.assert_holds();
}

#[test]
fn point_64_the_advertisement_reads_as_written() {
    let mut scripts = Vec::new();
    for (_, mut script) in in_every_state() {
        for number in 514..=516 {
            for value in [0xFFFF, 0x0000, 0x5AA5] {
                script.write(number, value);
                script.read(number, value);
            }
        }
        scripts.push(script);
    }
    assert_all_hold(scripts);
}

#[test]
fn point_65_the_status_in_every_state() {
    let expected = [8, 8, 8, 8, 0x48, 0x48, 0x68];
    let mut scripts = Vec::new();
    for ((_, mut script), first) in in_every_state().into_iter().zip(expected) {
        script.read(STATUS, first);
        scripts.push(script);
    }
    assert_all_hold(scripts);
    // A read in Off clears, too.
    let mut script = in_complete();
    script.write(CONTROL, 0);
    script.read(STATUS, 0x0048);
    script.read(STATUS, 0x0008);
    script.assert_holds();
}

#[test]
fn point_66_only_a_read_in_up_sets_the_latch() {
    let mut script = in_up();
    script.read(STATUS, 0x0068);
    script.read(STATUS, 0x002C);
    script.read(STATUS, 0x002C);
    script.assert_holds();
    let mut script = in_check_link();
    script.read(STATUS, 0x0048);
    script.after(1000).link(true);
    script.read(STATUS, 0x0028);
    script.read(STATUS, 0x002C);
    script.assert_holds();
}

#[test]
fn point_67_outside_up_the_latch_is_clear() {
    for value in [RESTART, 0] {
        let mut script = in_up();
        script.read(STATUS, 0x0068);
        script.read(STATUS, 0x002C);
        script.write(CONTROL, value);
        script.read(STATUS, 0x0008);
        script.read(STATUS, 0x0008);
        script.assert_holds();
    }
    let mut script = in_up();
    script.read(STATUS, 0x0068);
    script.after(10).link(false);
    script.read(STATUS, 0x0008);
    script.assert_holds();
}

#[test]
fn point_68_writes_answer_nothing_and_read_only_registers_stay() {
    let mut script = in_up();
    for number in [513, 517, 518, 519, 523, 524, 525] {
        script.write(number, 0xFFFF);
        script.write(number, 0);
    }
    script.read(517, 0x40A1);
    script.read(518, 0x00A9);
    for number in [519, 523, 524, 525] {
        script.read(number, 0);
    }
    script.read(STATUS, 0x0068);
    script.write(STATUS, 0);
    script.read(STATUS, 0x002C);
    script.assert_holds();
}

#[test]
fn point_69_other_registers_are_refused_in_every_state() {
    let others = [0, 1, 511, 526, 0xFFFF, 0x10200, (1 << 32) + 512];
    let mut scripts = Vec::new();
    for (_, mut script) in in_every_state() {
        for number in others {
            script.give(event::read(script.now(), number), REGISTER);
            script.give(event::write(script.now(), number, 0x8000), REGISTER);
        }
        // A read takes the whole cell as the number.
        script.give([event::READ, 0, 512 << 16], REGISTER);
        script.give([event::READ, 0, (1 << 63) + 513], REGISTER);
        let advertised = if script.has_written(515) { 0x80 } else { 0 };
        script.read(515, advertised);
        scripts.push(script);
    }
    assert_all_hold(scripts);
}
