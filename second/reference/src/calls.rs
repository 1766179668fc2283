//! The calls that programs outside can make, each with its answer as one number.
//! Wrong things are looked at in 01's order: Mode, Wide, Room; those of a message run in
//! 02's: Length, Wide, Run, and then Room; those of a frame's parity in that of the fixed
//! interfaces: Room, and then 02's Count, Symbol.

use crate::device::Device;
use crate::event::event;
use crate::line_mode::line_mode;
use crate::messages::Message;
use crate::parity::{State, PARITY_SYMBOLS, STATE_ENTRIES};
use crate::resolve::{self, Settled};
use crate::{answer, check, gap, messages, page, reader};

/// The check bits of a word, or Wide.
pub fn check(word: u64) -> u64 {
    if check::fits_a_page(word) {
        answer::number(check::check_bits(word))
    } else {
        answer::WIDE
    }
}

/// What a gap counts as, or Mode.
pub fn judge(mode: u64, gap: u32) -> u64 {
    match line_mode(mode) {
        Some(mode) => gap::judge_gap(mode, gap),
        None => answer::MODE,
    }
}

/// Puts the readings of a page into the list from the place on and answers their
/// number. Everything else in the list stays as it was, and all of it on a refusal.
pub fn write(list: &mut [u32], place: u64, mode: u64, word: u64, first: u32) -> u64 {
    let Some(mode) = line_mode(mode) else {
        return answer::MODE;
    };
    if !check::fits_a_page(word) {
        return answer::WIDE;
    }
    let readings = page::readings(mode, word, first);
    match room_for(list, place, readings.len()) {
        Some(room) => room.copy_from_slice(&readings),
        None => return answer::ROOM,
    }
    answer::number(readings.len() as u64)
}

/// The part of the list that starts at the place and has so many entries, if it is there.
fn room_for(list: &mut [u32], place: u64, entries: usize) -> Option<&mut [u32]> {
    let place = usize::try_from(place).ok()?;
    list.get_mut(place..)?.get_mut(..entries)
}

/// The outcome of the first attempt from the place on, and where the next one opens.
/// A refusal, and nothing, name no next place.
pub fn read(list: &[u32], place: u64, mode: u64) -> (u64, Option<u64>) {
    let Some(mode) = line_mode(mode) else {
        return (answer::MODE, None);
    };
    let length = list.len() as u64;
    if place > length {
        return (answer::ROOM, None);
    }
    if place == length {
        return (answer::NOTHING, None);
    }
    // The place is below the length, so it fits.
    let attempt = reader::judge_all(mode, list).attempt(place as usize);
    (attempt.outcome.answer(), Some(attempt.next as u64))
}

/// What a fresh reader answers at each edge, or Mode.
pub fn edges(mode: u64, readings: &[u32]) -> Result<Vec<u64>, u64> {
    match line_mode(mode) {
        Some(mode) => Ok(reader::answers_at_edges(mode, readings)),
        None => Err(answer::MODE),
    }
}

/// The rate and the role that two words lead to, seen from the own side, or a refusal.
pub fn resolve(own: u64, partner: u64) -> u64 {
    resolve::resolve(own, partner).map_or_else(|refusal| refusal, Settled::answer)
}

/// What a fresh device answers to each event.
pub fn run(events: &[[u64; 3]]) -> Vec<u64> {
    let mut device = Device::fresh();
    events
        .iter()
        .map(|cells| step(&mut device, *cells))
        .collect()
}

/// Gives the device an event: a kind, a clock reading and an argument. Kinds that 01 does
/// not name answer nothing and alter nothing.
pub fn step(device: &mut Device, [kind, reading, argument]: [u64; 3]) -> u64 {
    match event(kind, argument) {
        // Only the low half of the reading is kept: it is taken modulo 2^32.
        Some(event) => device.step(reading as u32, event),
        None => answer::NOTHING,
    }
}

/// Puts the messages of a run of pages into the room, three cells each, and answers their
/// number. Cells past the last message stay as they were, and all of them on a refusal.
pub fn messages(pages: &[u64], room: &mut [u64]) -> u64 {
    let messages = match messages::messages(pages) {
        Ok(messages) => messages,
        Err(refusal) => return refusal,
    };
    let cells: Vec<u64> = messages.iter().flat_map(Message::cells).collect();
    match room.get_mut(..cells.len()) {
        Some(taken) => taken.copy_from_slice(&cells),
        None => return answer::ROOM,
    }
    answer::number(messages.len() as u64)
}

/// Takes a burst of symbols into the lent state and answers the new count. Entries past
/// the 45th stay as they were, and all of them on a refusal.
pub fn parity_take(state: &mut [u16], burst: &[u16]) -> u64 {
    let Some(lent) = lent_state(state) else {
        return answer::ROOM;
    };
    match lent.after(burst) {
        Ok(next) => {
            state[..STATE_ENTRIES].copy_from_slice(&next.entries());
            answer::number(u64::from(next.count))
        }
        Err(refusal) => refusal,
    }
}

/// Puts the parity symbols of a frame whose data were all taken into the room, the first
/// sent first, and answers their number. Entries past them stay as they were, and all of
/// them on a refusal.
pub fn parity_finish(state: &[u16], room: &mut [u16]) -> u64 {
    let (Some(lent), Some(room)) = (lent_state(state), room.get_mut(..PARITY_SYMBOLS)) else {
        return answer::ROOM;
    };
    match lent.parity() {
        Ok(parity) => {
            room.copy_from_slice(&parity);
            answer::number(PARITY_SYMBOLS as u64)
        }
        Err(refusal) => refusal,
    }
}

/// The state in the first 45 entries, if there are so many.
fn lent_state(entries: &[u16]) -> Option<State> {
    let entries = entries.get(..STATE_ENTRIES)?.try_into().ok()?;
    Some(State::from_entries(entries))
}

#[cfg(test)]
mod tests {
    use super::*;

    const TOO_WIDE: u64 = 1 << 48;

    #[test]
    fn check_refuses_a_wide_word() {
        assert_eq!(check(TOO_WIDE), answer::WIDE);
        assert_eq!(answer::kind(check(TOO_WIDE - 1)), answer::NUMBER);
    }

    #[test]
    fn judge_refuses_every_other_mode() {
        for mode in [2, 3, 1 << 32, (1 << 32) + 1, u64::MAX] {
            assert_eq!(judge(mode, 30), answer::MODE);
        }
    }

    #[test]
    fn writing_changes_the_page_and_nothing_else() {
        let mut list = [7; 90];
        assert_eq!(write(&mut list, 4, 0, 0, 1000), answer::number(81));
        assert_eq!(list[..4], [7; 4]);
        assert_eq!(list[4..8], [1000, 1030, 1060, 1120]);
        assert_eq!(list[84], 1000 + 4680);
        assert_eq!(list[85..], [7; 5]);
    }

    #[test]
    fn a_list_of_84_takes_zero_and_refuses_the_highest_bit() {
        assert_eq!(write(&mut [7; 84], 0, 0, 0, 0), answer::number(81));
        let mut list = [7; 84];
        assert_eq!(write(&mut list, 0, 0, 1 << 47, 0), answer::ROOM);
        assert_eq!(list, [7; 84]);
    }

    #[test]
    fn the_order_is_mode_then_wide_then_room() {
        assert_eq!(write(&mut [], 0, 2, TOO_WIDE, 0), answer::MODE);
        assert_eq!(write(&mut [], 0, 1, TOO_WIDE, 0), answer::WIDE);
        assert_eq!(write(&mut [], 0, 1, 0, 0), answer::ROOM);
    }

    #[test]
    fn places_past_the_end_have_no_room() {
        for place in [90, 91, 1 << 32, 1 << 63, u64::MAX] {
            assert_eq!(write(&mut [7; 90], place, 0, 0, 0), answer::ROOM);
        }
    }

    #[test]
    fn reading_refuses_mode_then_room_and_answers_nothing_at_the_length() {
        for list in [&[][..], &[0, 30, 60]] {
            let length = list.len() as u64;
            for place in [0, length, length + 1, u64::MAX] {
                assert_eq!(read(list, place, 2), (answer::MODE, None));
            }
            for past in [length + 1, 1 << 32, u64::MAX] {
                assert_eq!(read(list, past, 0), (answer::ROOM, None));
            }
            assert_eq!(read(list, length, 1), (answer::NOTHING, None));
        }
    }

    #[test]
    fn reading_starts_at_the_named_place() {
        let list = [0, 30, 60, 190, 220];
        assert_eq!(read(&list, 0, 0), (answer::CUT, Some(3)));
        assert_eq!(read(&list, 2, 0), (answer::CUT, Some(3)));
        assert_eq!(read(&list, 3, 0), (answer::CUT, Some(5)));
    }

    #[test]
    fn a_run_answers_every_event_and_skips_unknown_kinds() {
        let events = [[4, 0, 513], [6, 0, 513], [4, 1 << 40, 526], [2, 0, 0]];
        let answers = [answer::register(8), 0, answer::REGISTER, answer::TURN];
        assert_eq!(run(&events), answers);
        assert_eq!(run(&[]), []);
    }

    #[test]
    fn edges_are_answered_one_by_one_or_the_mode_is_refused() {
        assert_eq!(edges(0, &[0, 0]), Ok(vec![answer::NOTHING, answer::GAP]));
        assert_eq!(edges(1, &[]), Ok(vec![]));
        assert_eq!(edges(2, &[0, 0]), Err(answer::MODE));
    }

    #[test]
    fn messages_take_three_cells_each_and_leave_the_others() {
        let mut room = [7; 8];
        let answer = messages(&[0x2005, 0, 0x27FF], &mut room);
        assert_eq!(answer, answer::number(2));
        assert_eq!(room, [5, 0, 1, 0x7FF, 2, 0, 7, 7]);
    }

    #[test]
    fn exactly_three_cells_a_message_are_room_enough() {
        let pages = [0x2001, 0x2002, 0, 0x2003];
        for (cells, expected) in [
            (0, answer::ROOM),
            (8, answer::ROOM),
            (9, answer::number(3)),
            (10, answer::number(3)),
        ] {
            let mut room = vec![7; cells];
            assert_eq!(messages(&pages, &mut room), expected);
            assert_eq!(room == vec![7; cells], expected == answer::ROOM);
        }
        // No messages need no room.
        assert_eq!(messages(&[], &mut []), answer::number(0));
    }

    #[test]
    fn a_refused_run_is_refused_before_the_room_and_writes_nothing() {
        let too_long = [0x2001; 65];
        let refused = [
            (&too_long[..], answer::LENGTH),
            (&[0x2001, TOO_WIDE], answer::WIDE),
            (&[0, 0x2001], answer::RUN),
        ];
        for (pages, refusal) in refused {
            assert_eq!(messages(pages, &mut []), refusal);
            let mut room = [7; 200];
            assert_eq!(messages(pages, &mut room), refusal);
            assert_eq!(room, [7; 200]);
        }
    }

    /// A state of 47 entries, two more than are looked at.
    fn long_state(first_symbol: u16, count: u16) -> [u16; 47] {
        let mut state = [0; 47];
        (state[0], state[44], state[45], state[46]) = (first_symbol, count, 7000, 7001);
        state
    }

    #[test]
    fn taking_changes_the_first_45_entries_and_nothing_else() {
        let mut state = long_state(5, 3);
        // 5 Z^43 times Z and the burst's 5 times Z^44 add up to zero.
        assert_eq!(parity_take(&mut state, &[5]), answer::number(4));
        assert_eq!(state, long_state(0, 4));
    }

    #[test]
    fn a_refused_burst_leaves_the_state() {
        let refused = [
            (long_state(0, 406), &[1][..], answer::COUNT),
            (long_state(512, 406), &[512], answer::COUNT),
            (long_state(512, 405), &[1], answer::SYMBOL),
            (long_state(0, 405), &[512], answer::SYMBOL),
        ];
        for (before, burst, refusal) in refused {
            let mut state = before;
            assert_eq!(parity_take(&mut state, burst), refusal);
            assert_eq!(state, before);
        }
    }

    #[test]
    fn a_finish_fills_44_entries_and_keeps_the_rest() {
        let mut room = [7; 46];
        let answer = parity_finish(&long_state(5, 406), &mut room);
        assert_eq!(answer, answer::number(44));
        assert_eq!(room[..2], [5, 0]);
        assert_eq!(room[42..], [0, 0, 7, 7]);
        for (state, refusal) in [
            (long_state(5, 405), answer::COUNT),
            (long_state(5, 407), answer::COUNT),
            (long_state(512, 405), answer::COUNT),
            (long_state(512, 406), answer::SYMBOL),
        ] {
            let mut room = [7; 46];
            assert_eq!(parity_finish(&state, &mut room), refusal);
            assert_eq!(room, [7; 46]);
        }
    }

    #[test]
    fn too_few_entries_are_refused_before_anything_else() {
        for entries in [0, 1, 44] {
            let mut state = vec![u16::MAX; entries];
            assert_eq!(parity_take(&mut state, &[u16::MAX; 407]), answer::ROOM);
            assert_eq!(state, vec![u16::MAX; entries]);
            assert_eq!(parity_finish(&state, &mut [7; 44]), answer::ROOM);
        }
        let wrong = [u16::MAX; 45];
        assert_eq!(parity_finish(&wrong, &mut [7; 43]), answer::ROOM);
        assert_eq!(parity_finish(&wrong, &mut [7; 44]), answer::COUNT);
        assert_eq!(parity_finish(&long_state(0, 406), &mut []), answer::ROOM);
    }
}
