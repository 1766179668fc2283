//! Runs that lead to the rounds of Next Pages, the words being those of `script`.
//!
//! In most of them the partner has Next Pages to send and the device has none, so it sends
//! the Null message. D11 of both base pages is zero, so the first toggle is one.

use crate::script::{
    in_ability, in_break, send_three_pages, Script, OWN, OWN_ACK, PARTNER, PARTNER_ACK,
};
use reference::answer::{good, ordered, settled, GAP, NOTHING, TURN};

/// The partner's base page, after which more follows, and the same with Ack and the own
/// nonce 5 echoed.
pub const PARTNER_MORE: u64 = 0xA98001;
pub const PARTNER_MORE_ACK: u64 = 0xA9C0A1;

/// The own base page, after which more follows, with Ack and the partner's nonce 9 echoed.
pub const OWN_MORE: u64 = 0x858001;
pub const OWN_MORE_ACK: u64 = 0x85C121;

/// The partner's first Next Page, after which more follows. Taken for a base page it would
/// be refused: its selector is 5, its nonce is the own one, and its echo is another. It
/// would set Remote fault, too.
pub const THEIRS: u64 = 0x1234_5645_ABE5;
pub const THEIRS_ACK: u64 = 0x1234_5645_EBE5;

/// The partner's second Next Page, which is its last one.
pub const THEIR_LAST: u64 = 0x9876_5432_2007;
pub const THEIR_LAST_ACK: u64 = 0x9876_5432_6007;

/// The Null message with either toggle.
pub const NULL_ONE: u64 = 0x2801;
pub const NULL_ONE_ACK: u64 = 0x6801;
pub const NULL_ZERO: u64 = 0x2001;
pub const NULL_ZERO_ACK: u64 = 0x6001;

/// An own Next Page as it is loaded, with Ack and the toggle zero; and as it is sent first.
pub const OURS_LOADED: u64 = 0xFEDC_BA98_D3E1;
pub const OURS: u64 = 0xFEDC_BA98_9BE1;
pub const OURS_ACK: u64 = 0xFEDC_BA98_DBE1;

/// So much later than the last good page is the Sent that led to Ability.
pub const THREE_PAGES: u32 = 33_000 + 124_800 + 2 * (350_000 + 124_800);

/// The partner sends a page and then the same with Ack. The device is in Complete then.
pub fn hear_both(script: &mut Script, [first, acknowledging]: [u64; 2]) {
    script.after(10_000).page(first, good(first));
    script
        .after(10_000)
        .page(acknowledging, good(acknowledging));
}

/// In Complete at round base, the partner having more. At the reading of the last good page.
pub fn in_complete_with_more() -> Script {
    let mut script = in_ability();
    hear_both(&mut script, [PARTNER_MORE, PARTNER_MORE_ACK]);
    script
}

/// In Ability at round first with the Null message. At the reading of the third Sent.
pub fn in_ability_first() -> Script {
    let mut script = in_complete_with_more();
    send_three_pages(&mut script, OWN_ACK, NOTHING);
    script
}

/// In Ack at round later. At the reading of the last good page.
pub fn in_ack_later() -> Script {
    let mut script = in_ability_first();
    script.after(10_000).page(THEIRS, good(THEIRS));
    script
}

/// In Complete at round later. At the reading of the last good page.
pub fn in_complete_later() -> Script {
    let mut script = in_ack_later();
    script.after(10_000).page(THEIRS_ACK, good(THEIRS_ACK));
    script
}

/// In Ability at round later with the Null message again. At the reading of the third Sent.
pub fn in_ability_later() -> Script {
    let mut script = in_complete_later();
    send_three_pages(&mut script, NULL_ONE_ACK, NOTHING);
    script
}

/// In Check-link after the Next Pages. At the reading of the third Sent.
pub fn in_check_link_later() -> Script {
    let mut script = in_ability_later();
    hear_both(&mut script, [THEIR_LAST, THEIR_LAST_ACK]);
    send_three_pages(&mut script, NULL_ZERO_ACK, settled(2, false));
    script
}

/// At the reading of the report that the link is up.
pub fn in_up_later() -> Script {
    let mut script = in_check_link_later();
    script.after(1_000_000).link(true);
    script
}

/// In Ability at round first with the own Next Page that was loaded in Break. The partner
/// has nothing to say. At the reading of the third Sent.
pub fn in_ability_first_with_ours() -> Script {
    let mut script = in_break();
    script.load(OURS_LOADED);
    script.leave_break(5);
    hear_both(&mut script, [PARTNER, PARTNER_ACK]);
    send_three_pages(&mut script, OWN_MORE_ACK, NOTHING);
    script
}

/// In Complete at round later: the own Next Page says that more follows, but nothing is
/// loaded, so after three pages sent the device goes on sending. At the third Sent.
pub fn in_the_hold() -> Script {
    let mut script = in_ability_first_with_ours();
    hear_both(&mut script, [NULL_ONE, NULL_ONE_ACK]);
    send_three_pages(&mut script, OURS_ACK, NOTHING);
    script
}

/// A script in each of the states at a round other than base, with a name for it.
pub fn at_every_other_round() -> [(&'static str, Script); 7] {
    [
        ("Ability at round first", in_ability_first()),
        ("Ability at round later", in_ability_later()),
        ("Ack at round later", in_ack_later()),
        ("Complete at round later", in_complete_later()),
        ("the hold", in_the_hold()),
        ("Check-link at round later", in_check_link_later()),
        ("Up at round later", in_up_later()),
    ]
}

/// The device has entered Break at this reading, which is now: everything is forgotten, it
/// hears nothing, and it leaves Break after its time with a base page.
pub fn assert_is_in_break(script: &mut Script, entered: u32) {
    script.sent(TURN);
    for register in 517..=525 {
        script.read(register, 0);
    }
    let out_at = entered.wrapping_add(8_000_000);
    script.at(out_at.wrapping_sub(1)).tick_with(7, NOTHING);
    script.edge(NOTHING);
    script.edge(NOTHING);
    script.at(out_at).tick_with(5, NOTHING);
    script.edge(NOTHING);
    script.edge(GAP);
    script.after(350_000).tick(ordered(OWN));
}
