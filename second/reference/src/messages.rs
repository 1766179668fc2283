//! The messages of a run of heard pages, by wish 8 of document 02.
//!
//! 02 tells it as one reader that hands over to another and gets the run back at the next
//! message. Here nobody reads from page to page: the places of all message pages are found
//! first, and what lies between two neighbours belongs to the former.

use crate::answer;
use crate::check::fits_a_page;
use crate::word::{CODE, MESSAGE_PAGE};

/// A run has no more pages than this.
pub const MOST_PAGES: usize = 64;

/// A message page with the unformatted pages that belong to it.
#[derive(Debug, PartialEq)]
pub struct Message {
    pub code: u64,
    /// The place of its message page in the run, counted from 0.
    pub first_place: usize,
    pub unformatted_pages: usize,
}

/// The number of cells that tell of one message.
pub const CELLS_OF_A_MESSAGE: usize = 3;

impl Message {
    pub fn cells(&self) -> [u64; CELLS_OF_A_MESSAGE] {
        [
            self.code,
            self.first_place as u64,
            self.unformatted_pages as u64,
        ]
    }
}

/// The messages of the run in their order, or the first refusal in 02's order.
pub fn messages(run: &[u64]) -> Result<Vec<Message>, u64> {
    let starts_unformatted = run.first().is_some_and(|page| !MESSAGE_PAGE.is_set(*page));
    let refused_first = [
        (run.len() > MOST_PAGES, answer::LENGTH),
        (!run.iter().copied().all(fits_a_page), answer::WIDE),
        (starts_unformatted, answer::RUN),
    ];
    match refused_first.into_iter().find(|(is_so, _)| *is_so) {
        Some((_, refusal)) => Err(refusal),
        None => Ok(between_message_pages(run)),
    }
}

/// The messages of a run that is not refused. The first message page is its first page, so
/// no page is left out; the last message ends where the run does.
fn between_message_pages(run: &[u64]) -> Vec<Message> {
    let mut borders = places_of_message_pages(run);
    borders.push(run.len());
    borders
        .windows(2)
        .map(|neighbours| message(run, neighbours[0], neighbours[1]))
        .collect()
}

fn places_of_message_pages(run: &[u64]) -> Vec<usize> {
    (0..run.len())
        .filter(|place| MESSAGE_PAGE.is_set(run[*place]))
        .collect()
}

/// The message from the first place up to, but without, the end.
fn message(run: &[u64], first_place: usize, end: usize) -> Message {
    Message {
        code: CODE.of(run[first_place]),
        first_place,
        // All its pages but the message page itself.
        unformatted_pages: end - first_place - 1,
    }
}

#[cfg(test)]
mod tests {
    use super::*;

    const TOO_WIDE: u64 = 1 << 48;

    /// A message page with this code and nothing else.
    fn message_page(code: u64) -> u64 {
        0x2000 | code
    }

    /// Each message as its code, its first place and its number of unformatted pages.
    fn told(run: &[u64]) -> Result<Vec<[u64; 3]>, u64> {
        messages(run).map(|messages| messages.iter().map(Message::cells).collect())
    }

    #[test]
    fn an_empty_run_has_no_messages() {
        assert_eq!(told(&[]), Ok(vec![]));
    }

    #[test]
    fn each_message_ends_where_the_next_begins() {
        assert_eq!(told(&[0x2001]), Ok(vec![[1, 0, 0]]));
        assert_eq!(told(&[0x2001, 0, 0]), Ok(vec![[1, 0, 2]]));
        assert_eq!(told(&[0x2001, 0x2002]), Ok(vec![[1, 0, 0], [2, 1, 0]]));
        assert_eq!(
            told(&[0x2005, 0x0006, 0x2007, 0x2008, 0x0009, 0x000A]),
            Ok(vec![[5, 0, 1], [7, 2, 0], [8, 3, 2]])
        );
    }

    #[test]
    fn a_run_of_64_is_read_and_one_of_65_is_not() {
        let all_messages: Vec<u64> = (0..65).map(message_page).collect();
        let told_of_64: Vec<[u64; 3]> = (0..64).map(|place| [place, place, 0]).collect();
        assert_eq!(told(&all_messages[..64]), Ok(told_of_64));
        assert_eq!(told(&all_messages), Err(answer::LENGTH));
        let mut one_message = vec![0; 64];
        one_message[0] = 0x27FF;
        assert_eq!(told(&one_message), Ok(vec![[0x7FF, 0, 63]]));
    }

    #[test]
    fn only_d13_tells_the_kind_and_only_d0_to_10_the_code() {
        let all_ones = TOO_WIDE - 1;
        let all_but_d13 = all_ones - 0x2000;
        assert_eq!(
            told(&[all_ones, all_but_d13, 0x2000]),
            Ok(vec![[0x7FF, 0, 1], [0, 2, 0]])
        );
        for bit in (11..48).filter(|bit| *bit != 13) {
            let run = [message_page(5) | 1 << bit, 1 << bit, message_page(6)];
            assert_eq!(told(&run), Ok(vec![[5, 0, 1], [6, 2, 0]]));
        }
    }

    #[test]
    fn an_unformatted_page_first_is_refused() {
        for page in [0, 0x7FF, 0xDFFF, TOO_WIDE - 1 - 0x2000] {
            assert_eq!(told(&[page]), Err(answer::RUN));
            assert_eq!(told(&[page, 0x2001]), Err(answer::RUN));
        }
    }

    #[test]
    fn a_wide_page_at_any_place_is_refused() {
        for wide in [TOO_WIDE, TOO_WIDE | 0x2001, 1 << 63, u64::MAX] {
            for place in 0..64 {
                let mut run = vec![0x2001; 64];
                run[place] = wide;
                assert_eq!(told(&run), Err(answer::WIDE));
            }
        }
    }

    #[test]
    fn the_refusals_come_in_02s_order() {
        let mut run = vec![0; 65];
        assert_eq!(told(&run), Err(answer::LENGTH));
        run[64] = TOO_WIDE;
        assert_eq!(told(&run), Err(answer::LENGTH));
        assert_eq!(told(&run[1..]), Err(answer::WIDE));
        assert_eq!(told(&run[..64]), Err(answer::RUN));
        run[0] = 0x2001;
        assert_eq!(told(&run), Err(answer::LENGTH));
        assert_eq!(told(&run[..64]), Ok(vec![[1, 0, 63]]));
    }
}
