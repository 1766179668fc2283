//! Lost, of the amendments to 01: a partner that falls silent while Next Pages are
//! exchanged. The expected answers are written out by hand.

use crate::next_page_script::{
    assert_is_in_break, in_ability_first, in_ability_later, in_ack_later, in_check_link_later,
    in_complete_later, in_complete_with_more, in_the_hold, in_up_later, NULL_ONE, NULL_ONE_ACK,
    NULL_ZERO, OURS_ACK, PARTNER_MORE, THEIRS, THEIR_LAST, THREE_PAGES,
};
use crate::script::{
    assert_all_hold, in_ability, in_ack, send_three_pages, Script, OWN, OWN_ACK, STATUS,
};
use reference::answer::{good, ordered, CUT, GAP, NOTHING};

/// Where the partner can be lost: the run to there, the reading of the last good page, and
/// the page that a tick orders there.
struct Place {
    script: Script,
    heard_at: u32,
    own: u64,
    /// A page of the partner that changes no state there.
    theirs: u64,
}

fn place(script: Script, since_heard: u32, own: u64, theirs: u64) -> Place {
    let heard_at = script.now() - since_heard;
    Place {
        script,
        heard_at,
        own,
        theirs,
    }
}

fn places() -> [Place; 5] {
    [
        place(in_ability_first(), THREE_PAGES, NULL_ONE, PARTNER_MORE),
        place(in_ack_later(), 0, NULL_ONE_ACK, THEIRS),
        place(in_complete_later(), 0, NULL_ONE_ACK, THEIR_LAST),
        place(in_ability_later(), THREE_PAGES, NULL_ZERO, THEIRS),
        place(in_the_hold(), THREE_PAGES, OURS_ACK, THEIR_LAST),
    ]
}

/// A run for each of the places.
fn assert_at_every_place(run: fn(Place) -> Script) {
    assert_all_hold(places().into_iter().map(run).collect());
}

#[test]
fn at_its_number_lost_leads_to_break() {
    assert_at_every_place(|place| {
        let mut script = place.script;
        let lost_at = place.heard_at + 4_000_000;
        script.at(lost_at).tick(NOTHING);
        assert_is_in_break(&mut script, lost_at);
        script
    });
}

#[test]
fn before_its_number_the_tick_orders_a_page() {
    assert_at_every_place(|place| {
        let mut script = place.script;
        script
            .at(place.heard_at + 3_999_999)
            .tick(ordered(place.own));
        script.sent(NOTHING);
        script.after(1).tick(NOTHING);
        assert_is_in_break(&mut script, place.heard_at + 4_000_000);
        script
    });
}

#[test]
fn lost_starts_the_break_timer_at_the_tick_that_finds_it() {
    assert_at_every_place(|place| {
        let mut script = place.script;
        script.at(place.heard_at + 6_543_210).tick(NOTHING);
        assert_is_in_break(&mut script, place.heard_at + 6_543_210);
        script
    });
}

#[test]
fn while_a_page_is_out_nothing_is_lost() {
    assert_at_every_place(|place| {
        let mut script = place.script;
        script
            .at(place.heard_at + 3_999_000)
            .tick(ordered(place.own));
        for _ in 0..3 {
            script.after(2_000_000).tick(NOTHING);
        }
        // It is not in Break, where a Sent would be refused.
        script.sent(NOTHING);
        script.tick(NOTHING);
        let entered = script.now();
        assert_is_in_break(&mut script, entered);
        script
    });
}

#[test]
fn only_a_tick_looks_at_lost() {
    assert_at_every_place(|place| {
        let mut script = place.script;
        script.at(place.heard_at + 4_500_000);
        script.link(true);
        script.read(STATUS, 0x0048);
        script.page(place.theirs, good(place.theirs));
        // The page was heard in time, since no tick came before its end.
        script.after(33_000).tick(ordered(place.own));
        script
    });
}

#[test]
fn an_open_attempt_does_not_hold_lost_back() {
    assert_at_every_place(|place| {
        let mut script = place.script;
        let lost_at = place.heard_at + 4_000_000;
        script.at(lost_at - 1_000).edge(NOTHING);
        script.at(lost_at - 200).edge(NOTHING);
        // It holds the order back.
        script.at(lost_at - 1).tick(NOTHING);
        script.at(lost_at).tick(NOTHING);
        assert_is_in_break(&mut script, lost_at);
        script
    });
}

#[test]
fn what_is_not_a_good_page_does_not_count() {
    assert_at_every_place(|place| {
        let mut script = place.script;
        script.at(place.heard_at + 3_500_000).edge(NOTHING);
        script.after(10_000).edge(CUT);
        script.after(100).edge(GAP);
        script.after(10_000).page_with_a_wrong_check(0);
        script.at(place.heard_at + 4_000_000).tick(NOTHING);
        assert_is_in_break(&mut script, place.heard_at + 4_000_000);
        script
    });
}

#[test]
fn each_good_page_that_is_not_refused_counts() {
    assert_at_every_place(|place| {
        let mut script = place.script;
        let mut heard_at = place.heard_at;
        for _ in 0..3 {
            script.at(heard_at + 3_700_000);
            script.page(place.theirs, good(place.theirs));
            heard_at = script.now();
        }
        script.at(heard_at + 3_999_999).tick(ordered(place.own));
        script.sent(NOTHING);
        script.at(heard_at + 4_000_000).tick(NOTHING);
        assert_is_in_break(&mut script, heard_at + 4_000_000);
        script
    });
}

#[test]
fn a_good_page_in_complete_counts_at_round_base_too() {
    let mut script = in_complete_with_more();
    script.after(700_000).page(0, good(0));
    let heard_at = script.now();
    send_three_pages(&mut script, OWN_ACK, NOTHING);
    script.at(heard_at + 3_999_999).tick(ordered(NULL_ONE));
    script.sent(NOTHING);
    script.after(1).tick(NOTHING);
    assert_is_in_break(&mut script, heard_at + 4_000_000);
    script.assert_holds();
}

#[test]
fn at_round_base_nothing_is_lost() {
    let own_pages = [
        (in_ability(), OWN),
        (in_ack(), OWN_ACK),
        (in_complete_with_more(), OWN_ACK),
    ];
    let scripts = own_pages.map(|(mut script, own)| {
        script.after(4_000_000).own_page_goes_out(own, NOTHING);
        script.after(4_000_000).own_page_goes_out(own, NOTHING);
        script
    });
    assert_all_hold(scripts.to_vec());
}

#[test]
fn with_the_last_page_of_round_base_lost_begins_to_be_looked_at() {
    // The pages of Complete take longer than lost, and the last Sent makes the round first.
    let mut script = in_complete_with_more();
    for _ in 0..3 {
        script.after(2_000_000).own_page_goes_out(OWN_ACK, NOTHING);
    }
    let entered = script.now();
    script.tick(NOTHING);
    assert_is_in_break(&mut script, entered);
    script.assert_holds();
}

#[test]
fn in_check_link_and_up_nothing_is_lost() {
    let mut script = in_check_link_later();
    script.after(97_499_999).tick(NOTHING);
    script.link(true);
    script.read(STATUS, 0x0068);
    script.assert_holds();
    let mut script = in_up_later();
    script.after(500_000_000).tick(NOTHING);
    script.read(STATUS, 0x0068);
    script.assert_holds();
}

#[test]
fn lost_is_modulo_2_to_32() {
    assert_at_every_place(|place| {
        let mut script = place.script;
        // A tick before the last good page is nearly a round of the clock after it.
        script.at(place.heard_at - 1).tick(NOTHING);
        assert_is_in_break(&mut script, place.heard_at - 1);
        script
    });
    assert_at_every_place(|place| {
        let mut script = place.script;
        // A whole round of the clock later it is as if no time had passed.
        let later = (1 << 32) + u64::from(place.heard_at) + 3_999_999;
        script.give([1, later, 0], ordered(place.own));
        script
    });
}
