use super::registers::{COMPLETE, CONTROL, ENABLE, LINK_LATCH, PAGE_RECEIVED, RESTART, STATUS};
use super::*;
use crate::line_mode::LSM;
use crate::page::readings;

/// Advertises 1000BASE-T1; everything else is zero.
const ADVERTISED: u64 = 1 << 23;
/// The own page with draw 5.
const OWN: u64 = 0x850001;
/// The partner's page with nonce 9, and the same acknowledging nonce 5.
const PARTNER: u64 = 0xA90001;
const PARTNER_ACK: u64 = PARTNER | 0x4000 | 5 << 5;

/// A device at the reading of the tick with which it went to Ability.
fn in_ability() -> (Device, u32) {
    let mut device = Device::fresh();
    for (register, value) in [(515, 0x80), (CONTROL, ENABLE)] {
        let write = Event::Write { register, value };
        assert_eq!(device.step(0, write), answer::NOTHING);
    }
    assert_eq!(device.advertised, ADVERTISED);
    assert_eq!(device.step(BREAK_TIME, Event::Tick { draw: 5 }), 0);
    assert_eq!(device.state(), State::Ability);
    (device, BREAK_TIME)
}

/// Lets the device hear a page; gives the answer at its last edge, and that edge's time.
fn hear(device: &mut Device, first: u32, word: u64) -> (u64, u32) {
    let edges = readings(&LSM, word, first);
    let (last, before) = edges.split_last().expect("a page has edges");
    for edge in before {
        assert_eq!(device.step(*edge, Event::Edge), answer::NOTHING);
    }
    (device.step(*last, Event::Edge), *last)
}

fn tick(device: &mut Device, now: u32) -> u64 {
    device.step(now, Event::Tick { draw: 0 })
}

/// A device in Complete, at the reading of the last edge of the page that led there.
fn in_complete() -> (Device, u32) {
    let (mut device, now) = in_ability();
    let (answer, now) = hear(&mut device, now, PARTNER);
    assert_eq!(answer, answer::good(PARTNER));
    assert_eq!(device.state(), State::Ack);
    let (answer, now) = hear(&mut device, now + LSM.quiet_limit, PARTNER_ACK);
    assert_eq!(answer, answer::good(PARTNER_ACK));
    assert_eq!(device.state(), State::Complete);
    (device, now)
}

/// Sends the three pages of Complete; gives the answer of the third Sent and its time.
fn send_three_pages(device: &mut Device, heard_at: u32) -> (u64, u32) {
    let ordered = answer::ordered(OWN | 0x4000 | 9 << 5);
    let mut now = heard_at + SILENT_TIME;
    for _ in 0..2 {
        assert_eq!(tick(device, now), ordered);
        assert_eq!(device.step(now + 125_000, Event::Sent), answer::NOTHING);
        now += 125_000 + WAIT_TIME;
    }
    assert_eq!(tick(device, now), ordered);
    (device.step(now, Event::Sent), now)
}

fn status(device: &mut Device) -> u64 {
    device.step(0, Event::Read { register: STATUS })
}

#[test]
fn a_whole_settling() {
    let (mut device, heard_at) = in_complete();
    let (answer, now) = send_three_pages(&mut device, heard_at);
    assert_eq!(answer, answer::settled(2, false));
    assert_eq!(device.step(now, Event::Link { is_up: true }), 0);
    assert_eq!(device.state(), State::Up);
    let first = PAGE_RECEIVED | COMPLETE | 8;
    assert_eq!(status(&mut device), answer::register(first));
    let second = COMPLETE | LINK_LATCH | 8;
    assert_eq!(status(&mut device), answer::register(second));
    assert_eq!(device.step(now + 1, Event::Link { is_up: false }), 0);
    assert_eq!(device.state(), State::Break);
    assert_eq!(status(&mut device), answer::register(8));
}

#[test]
fn a_timer_runs_out_at_its_number_and_not_before() {
    let (mut device, now) = in_ability();
    assert_eq!(tick(&mut device, now + WAIT_TIME - 1), answer::NOTHING);
    assert_eq!(tick(&mut device, now + WAIT_TIME), answer::ordered(OWN));
    let restart = Event::Write {
        register: CONTROL,
        value: ENABLE | RESTART,
    };
    device.step(7, restart);
    tick(&mut device, 7 + BREAK_TIME - 1);
    assert_eq!(device.state(), State::Break);
    tick(&mut device, 7 + BREAK_TIME);
    assert_eq!(device.state(), State::Ability);
}

#[test]
fn each_rate_has_its_own_inhibit_time() {
    let (mut device, heard_at) = in_complete();
    let (_, now) = send_three_pages(&mut device, heard_at);
    tick(&mut device, now + 97_499_999);
    assert_eq!(device.state(), State::CheckLink);
    tick(&mut device, now + 97_500_000);
    assert_eq!(device.state(), State::Break);
    let inhibits: Vec<u32> = crate::resolve::RATES
        .iter()
        .map(|rate| rate.inhibit)
        .filter(|inhibit| *inhibit != COMMON_INHIBIT)
        .collect();
    assert_eq!(inhibits, [402_000_000, 3_060_000_000, 402_000_000]);
}

#[test]
fn refused_pages_leave_the_states_that_01_names() {
    let (device, now) = in_ability();
    let in_ability_refused = [
        (PARTNER ^ 2, answer::SELECTOR, State::Ability),
        (OWN | 0x1000, answer::TIE, State::Break),
        // Another selector and the own nonce.
        (OWN ^ 1, answer::SELECTOR, State::Ability),
    ];
    for (word, refusal, state) in in_ability_refused {
        let mut device = device.clone();
        assert_eq!(hear(&mut device, now, word).0, refusal);
        assert_eq!(device.state(), state);
    }
    let mut device = device.clone();
    let (_, now) = hear(&mut device, now, PARTNER);
    let in_ack = [
        (PARTNER ^ 0x8000, answer::CHANGED, State::Break),
        (PARTNER_ACK ^ 1 << 5, answer::ECHO, State::Break),
        (PARTNER ^ 1 << 5, answer::good(PARTNER ^ 1 << 5), State::Ack),
    ];
    for (word, answer, state) in in_ack {
        let mut device = device.clone();
        assert_eq!(hear(&mut device, now + 3441, word).0, answer);
        assert_eq!(device.state(), state);
    }
}

#[test]
fn the_own_page_takes_the_draw_but_not_for_a_forced_role() {
    let ones = (1 << 48) - 1;
    assert_eq!(own_pages::base_page(ones, 0, false), 0xFFFF_FFF0_3C01);
    assert_eq!(own_pages::base_page(0x1000, 31, false), 0x0F_1001);
    assert_eq!(own_pages::base_page(0x10_0000, 5, true), 0x05_8001);
}

/// A Next Page of the partner, which has more to send, and its acknowledging form. Its
/// toggle is the inverse of D11 of the partner's base page.
const FIRST_NEXT_PAGE: u64 = 0x1111_2222_A805;
const FIRST_NEXT_PAGE_ACK: u64 = FIRST_NEXT_PAGE | 0x4000;
/// The Null message with either toggle.
const NULL_WITH_ONE: u64 = 0x2801;
const NULL_WITH_ZERO: u64 = 0x2001;

fn write(device: &mut Device, register: u64, value: u16) {
    let write = Event::Write { register, value };
    assert_eq!(device.step(0, write), answer::NOTHING);
}

fn read(device: &mut Device, register: u64) -> u64 {
    device.step(0, Event::Read { register })
}

/// A device in Complete at round base, whose partner's page says that more follows.
fn in_complete_with_more() -> (Device, u32) {
    let (mut device, now) = in_ability();
    let (_, now) = hear(&mut device, now, PARTNER | 0x8000);
    let (_, now) = hear(&mut device, now + LSM.quiet_limit, PARTNER_ACK | 0x8000);
    assert_eq!(device.state(), State::Complete);
    (device, now)
}

/// The device hears a page as soon as it can, and is in this state then.
fn hear_next(device: &mut Device, now: u32, word: u64, state: State) -> u32 {
    let (answer, now) = hear(device, now + LSM.quiet_limit, word);
    assert_eq!((answer, device.state()), (answer::good(word), state));
    now
}

/// A device with the Null message as its first Next Page, at the reading of its last Sent.
fn in_ability_at_round_first() -> (Device, u32) {
    let (mut device, heard_at) = in_complete_with_more();
    let (answer, now) = send_three_pages(&mut device, heard_at);
    assert_eq!(answer, answer::NOTHING);
    assert_eq!(
        (device.state(), device.round()),
        (State::Ability, Round::First)
    );
    assert_eq!(device.own_page(), NULL_WITH_ONE);
    (device, now)
}

fn in_complete_at_round_later() -> (Device, u32) {
    let (mut device, now) = in_ability_at_round_first();
    let now = hear_next(&mut device, now, FIRST_NEXT_PAGE, State::Ack);
    assert_eq!(device.round(), Round::Later);
    let now = hear_next(&mut device, now, FIRST_NEXT_PAGE_ACK, State::Complete);
    (device, now)
}

/// Sends so many pages, each ordered as this word; gives the answer of the last Sent and
/// its time.
fn send_next_pages(device: &mut Device, now: u32, pages: u32, word: u64) -> (u64, u32) {
    let (mut answer, mut now) = (answer::NOTHING, now);
    for _ in 0..pages {
        assert_eq!(answer, answer::NOTHING);
        now += WAIT_TIME;
        assert_eq!(tick(device, now), answer::ordered(word));
        answer = device.step(now, Event::Sent);
    }
    (answer, now)
}

#[test]
fn a_whole_settling_with_next_pages_at_one_end() {
    let (mut device, now) = in_complete_at_round_later();
    assert_eq!(read(&mut device, 523), answer::register(0xE805));
    assert_eq!(read(&mut device, 525), answer::register(0x1111));
    let null_ack = NULL_WITH_ONE | 0x4000;
    let (answer, now) = send_next_pages(&mut device, now, 3, null_ack);
    // The partner's page says that more follows, so there is a Null message again.
    assert_eq!((answer, device.own_page()), (0, NULL_WITH_ZERO));
    // The partner is late, and still sends its page.
    let now = hear_next(&mut device, now, FIRST_NEXT_PAGE_ACK, State::Ability);
    assert_eq!(tick(&mut device, now + SILENT_TIME - 1), answer::NOTHING);
    let ordered = answer::ordered(NULL_WITH_ZERO);
    assert_eq!(tick(&mut device, now + SILENT_TIME), ordered);
    assert_eq!(device.step(now + SILENT_TIME, Event::Sent), 0);
    let now = hear_next(&mut device, now + SILENT_TIME, 0x0007, State::Ack);
    let now = hear_next(&mut device, now, 0x4007, State::Complete);
    assert_eq!(device.round(), Round::Later);
    let (answer, _) = send_next_pages(&mut device, now, 3, NULL_WITH_ZERO | 0x4000);
    assert_eq!(answer, answer::settled(2, false));
    assert_eq!(read(&mut device, 523), answer::register(0x4007));
    assert_eq!(status(&mut device), answer::register(PAGE_RECEIVED | 8));
}

#[test]
fn a_loaded_next_page_sets_the_bit_and_is_sent_with_the_other_toggle() {
    let mut device = Device::fresh();
    write(&mut device, CONTROL, ENABLE);
    write(&mut device, 515, 0x80);
    for (register, value) in [(522, 0x1234), (521, 0x5678), (520, 0xE800)] {
        assert!(!device.is_loaded());
        write(&mut device, register, value);
    }
    tick(&mut device, BREAK_TIME);
    assert_eq!(device.own_page(), 0x80_8001);
    let (_, now) = hear(&mut device, BREAK_TIME, PARTNER | 0x800);
    let now = hear_next(&mut device, now, PARTNER | 0x4800, State::Complete);
    assert!(device.is_loaded());
    let (_, now) = send_next_pages(&mut device, now, 3, 0x80_C121);
    assert_eq!(device.state(), State::Ability);
    assert!(!device.is_loaded());
    // The toggle stays one, since D11 of the own base page is zero; Ack is gone.
    assert_eq!(device.own_page(), 0x1234_5678_A800);
    assert_eq!(read(&mut device, 520), answer::register(0xE800));
    let now = hear_next(&mut device, now, NULL_WITH_ZERO, State::Ack);
    let now = hear_next(&mut device, now, NULL_WITH_ZERO | 0x4000, State::Complete);
    // The page has promised another. Until it is loaded, the device goes on sending.
    let (_, now) = send_next_pages(&mut device, now, 5, 0x1234_5678_E800);
    assert!(device.is_holding());
    write(&mut device, 521, 0);
    let (_, now) = send_next_pages(&mut device, now, 1, 0x1234_5678_E800);
    assert!(device.is_holding());
    write(&mut device, 520, 0x0800);
    let (answer, _) = send_next_pages(&mut device, now, 1, 0x1234_5678_E800);
    assert_eq!((answer, device.own_page()), (0, 0x1234_0000_0000));
    assert_eq!(
        (device.state(), device.round()),
        (State::Ability, Round::Later)
    );
}

#[test]
fn refused_next_pages_lead_to_break() {
    let at_first = in_ability_at_round_first();
    let mut in_ack = at_first.clone();
    in_ack.1 = hear_next(&mut in_ack.0, in_ack.1, FIRST_NEXT_PAGE, State::Ack);
    let mut at_later = in_complete_at_round_later();
    let null_ack = NULL_WITH_ONE | 0x4000;
    at_later.1 = send_next_pages(&mut at_later.0, at_later.1, 3, null_ack).1;
    let refused = [
        (&at_first, 0x2001, answer::TOGGLE),
        // Only at round first may the echo of a repeat differ.
        (&at_later, FIRST_NEXT_PAGE ^ 0x20, answer::TOGGLE),
        (&in_ack, FIRST_NEXT_PAGE ^ 0x20, answer::CHANGED),
        (&in_ack, FIRST_NEXT_PAGE_ACK ^ 0x800, answer::CHANGED),
    ];
    for ((device, now), word, refusal) in refused {
        let mut device = device.clone();
        assert_eq!(hear(&mut device, now + LSM.quiet_limit, word).0, refusal);
        assert_eq!(
            (device.state(), device.round()),
            (State::Break, Round::Base)
        );
        assert_eq!(read(&mut device, 523), answer::register(0));
    }
    let (mut device, now) = at_first;
    hear_next(&mut device, now, PARTNER | 0x83E0, State::Ability);
    assert_eq!(device.round(), Round::First);
}

#[test]
fn a_partner_that_falls_silent_is_lost_with_no_page_out() {
    let in_states = [
        in_ability_at_round_first(),
        in_complete_at_round_later(),
        in_complete_with_more(),
    ];
    for (mut device, now) in in_states {
        let heard_at = device.negotiation.last_good_page_at;
        let is_base = device.round() == Round::Base;
        let lost_at = heard_at + LOST_TIME;
        assert_eq!(device.lost_at(), (!is_base).then_some(lost_at));
        let state = device.state();
        assert_ne!(tick(&mut device, now + WAIT_TIME), answer::NOTHING);
        // A page is out.
        assert_eq!(tick(&mut device, lost_at), answer::NOTHING);
        assert_eq!(device.state(), state);
        device.step(lost_at - 1, Event::Sent);
        assert_eq!(tick(&mut device, lost_at - 1), answer::NOTHING);
        assert_eq!(device.state(), state);
        assert_eq!(tick(&mut device, lost_at), answer::NOTHING);
        assert_eq!(device.state() == State::Break, !is_base);
        assert_eq!(device.timer_set_at == lost_at, !is_base);
    }
}

#[test]
fn entering_break_or_off_forgets_the_next_pages() {
    for value in [ENABLE | RESTART, 0] {
        let (mut device, _) = in_complete_at_round_later();
        write(&mut device, 520, 0x8007);
        write(&mut device, CONTROL, value);
        for register in 520..=525 {
            assert_eq!(read(&mut device, register), answer::register(0));
        }
        assert!(!device.is_loaded());
        assert_eq!(device.round(), Round::Base);
    }
    let mut device = Device::fresh();
    write(&mut device, 521, 7);
    write(&mut device, CONTROL, 0);
    assert_eq!(read(&mut device, 521), answer::register(0));
}

#[test]
fn the_registers_end_at_525() {
    let mut device = Device::fresh();
    for register in 523..=525 {
        write(&mut device, register, 0xFFFF);
        assert_eq!(read(&mut device, register), answer::register(0));
    }
    for register in [511, 526] {
        assert_eq!(read(&mut device, register), answer::REGISTER);
        let write = Event::Write { register, value: 0 };
        assert_eq!(device.step(0, write), answer::REGISTER);
    }
}
