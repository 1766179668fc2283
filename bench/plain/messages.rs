//! A head's message run in plain Rust, in two ways: by two functions that call one another, as 02 asks and as maststep does, and in one loop.
use crate::{narrow, Refusal};

const MOST_PAGES: usize = 64;

/// The cells of a message: its code, its first place, the number of its unformatted pages.
const CELLS: usize = 3;

/// D13 tells a message page from an unformatted one.
fn is_message_page(page: u64) -> bool {
    page >> 13 & 1 == 1
}

/// What one look at all pages brings: the bits that any of them has, and the number of message pages. It goes on
/// to the last page, whatever it meets, so that the compiler takes several pages in a turn.
fn survey(pages: &[u64]) -> (u64, usize) {
    pages.iter().fold((0, 0), |(bits, messages), &page| {
        (bits | page, messages + usize::from(is_message_page(page)))
    })
}

/// The place of the first message page from a place on; the end of the run, if there is none.
fn next_message_page(pages: &[u64], from: usize) -> usize {
    let mut at = from;
    while at < pages.len() && !is_message_page(pages[at]) {
        at += 1;
    }
    at
}

/// Reads the message page at a place, and hands over to the reader of its unformatted pages.
fn read_message(pages: &[u64], at: usize, list: &mut [u64], told: usize) {
    list[told] = pages[at] % 2048;
    list[told + 1] = at as u64;
    read_unformatted(pages, at, list, told);
}

/// Reads the unformatted pages of the message at a place, and hands back at the next message.
fn read_unformatted(pages: &[u64], first: usize, list: &mut [u64], told: usize) {
    let next = next_message_page(pages, first + 1);
    list[told + 2] = (next - first - 1) as u64;
    if next < pages.len() {
        read_message(pages, next, list, told + CELLS);
    }
}

/// Tells the messages of a run, for each of which there are cells, by two functions that call one another.
pub(crate) fn by_two_readers(pages: &[u64], list: &mut [u64]) {
    if !pages.is_empty() {
        read_message(pages, 0, list, 0);
    }
}

/// Tells the message from a place up to the end of its pages.
fn tell(cells: &mut [u64], pages: &[u64], first: usize, end: usize) {
    cells[0] = pages[first] % 2048;
    cells[1] = first as u64;
    cells[2] = (end - first - 1) as u64;
}

/// Tells the messages of a run, for each of which there are cells, in one loop.
pub(crate) fn by_one_loop(pages: &[u64], list: &mut [u64]) {
    let mut cells = list.chunks_exact_mut(CELLS);
    let mut first = 0;
    for (place, pair) in pages.windows(2).enumerate() {
        if is_message_page(pair[1]) {
            if let Some(cells) = cells.next() {
                tell(cells, pages, first, place + 1);
            }
            first = place + 1;
        }
    }
    if let Some(cells) = cells.next() {
        tell(cells, pages, first, pages.len());
    }
}

/// The number of messages of a run, whose cells are then at the head of the list: told in one of these ways.
#[inline(always)]
pub(crate) fn messages(pages: &[u64], list: &mut [u64], told_by: fn(&[u64], &mut [u64])) -> Result<u64, Refusal> {
    if pages.len() > MOST_PAGES {
        return Err(Refusal::Length);
    }
    let (bits, messages) = survey(pages);
    narrow(bits)?;
    if matches!(pages.first(), Some(&page) if !is_message_page(page)) {
        return Err(Refusal::Run);
    }
    let told = list.get_mut(..CELLS * messages).ok_or(Refusal::Room)?;
    told_by(pages, told);
    Ok(messages as u64)
}
