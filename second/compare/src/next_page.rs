//! Next Pages: what their fields say, and how a head tells its model in them.
//!
//! A message page has its code in D0-10, one in D13, and 32 bits of its own in D16-47; an
//! unformatted page has zero in D13 and 43 bits, D0-10 and D16-47. What the pages of a
//! model hold is an example: no document says how a model is told.

use reference::word::{ACK, NEXT_PAGE, NULL_MESSAGE, TOGGLE};

/// D13, which is one in a message page.
const MESSAGE_PAGE: u64 = 1 << 13;

/// D0-10.
const CODE: u64 = 0x7FF;

/// The code of a message that tells what device this is.
pub const DEVICE_IDENTIFIER: u64 = 6;

/// The codes of messages that have a name here.
const NAMES: [(u64, &str); 4] = [
    (1, "Null message"),
    (5, "OUI tag"),
    (DEVICE_IDENTIFIER, "device identifier"),
    (10, "EEE"),
];

/// The lowest bits of the letters of an unformatted page, each letter having eight.
const LETTERS: [u32; 5] = [0, 16, 24, 32, 40];

/// A message page with this code and these 32 bits.
pub const fn message_page(code: u64, bits: u64) -> u64 {
    (bits & 0xFFFF_FFFF) << 16 | MESSAGE_PAGE | code & CODE
}

/// An unformatted page with these 43 bits, the lowest 11 in D0-10.
pub const fn unformatted_page(bits: u64) -> u64 {
    (bits >> 11 & 0xFFFF_FFFF) << 16 | bits & CODE
}

pub const fn is_message_page(word: u64) -> bool {
    word & MESSAGE_PAGE != 0
}

/// The code of a message page.
pub const fn code(word: u64) -> u64 {
    word & CODE
}

/// Whether a device with nothing to say has sent this page.
pub fn is_null(word: u64) -> bool {
    is_message_page(word) && code(word) == code(NULL_MESSAGE)
}

/// The page as its host has loaded it: the device of the sender fills in Ack and the toggle.
pub fn as_loaded(word: u64) -> u64 {
    TOGGLE.put(ACK.put(word, 0), 0)
}

/// The pages, each of them saying that another follows, but the last one.
pub fn in_a_row(mut pages: Vec<u64>) -> Vec<u64> {
    let number = pages.len();
    for (place, page) in pages.iter_mut().enumerate() {
        let more_follow = place + 1 < number;
        *page = NEXT_PAGE.put(*page, more_follow.into());
    }
    pages
}

/// What kind of page this is.
pub fn in_words(word: u64) -> String {
    let code = code(word);
    let named = NAMES.iter().find(|(number, _)| *number == code);
    match (is_message_page(word), named) {
        (false, _) => "unformatted".to_string(),
        (true, Some((_, name))) => name.to_string(),
        (true, None) => format!("message {code}"),
    }
}

/// A message page with the number of letters in D16-23, and as many unformatted pages of
/// five letters as it takes.
pub fn telling_model(model: &str) -> Vec<u64> {
    let number = model.len() as u64;
    let mut pages = vec![message_page(DEVICE_IDENTIFIER, number)];
    pages.extend(model.as_bytes().chunks(LETTERS.len()).map(with_letters));
    in_a_row(pages)
}

fn with_letters(letters: &[u8]) -> u64 {
    let each = letters.iter().zip(LETTERS);
    each.map(|(letter, lowest)| u64::from(*letter) << lowest)
        .sum()
}

/// The letters of an unformatted page. Where it has none left it has zeros.
pub fn letters(word: u64) -> String {
    let each = LETTERS.map(|lowest| (word >> lowest) as u8);
    let letters = each.into_iter().filter(|letter| *letter != 0);
    letters.map(char::from).collect()
}

/// The number of letters that follow a message page.
pub fn number_of_letters(word: u64) -> usize {
    usize::from((word >> 16) as u8)
}

/// The model that these pages end with, if it is there in full.
pub fn model(pages: &[u64]) -> Option<String> {
    let begins = pages.iter().rposition(|page| is_message_page(*page))?;
    let (message, unformatted) = pages[begins..].split_first()?;
    let model: String = unformatted.iter().map(|page| letters(*page)).collect();
    let is_a_model = code(*message) == DEVICE_IDENTIFIER;
    (is_a_model && model.len() == number_of_letters(*message)).then_some(model)
}

#[cfg(test)]
mod tests {
    use super::*;

    #[test]
    fn the_fields_lie_where_the_layouts_have_them() {
        assert_eq!(message_page(1, 0), NULL_MESSAGE);
        assert_eq!(message_page(0x7FF, 0xFFFF_FFFF), 0xFFFF_FFFF_27FF);
        assert_eq!(unformatted_page((1 << 43) - 1), 0xFFFF_FFFF_07FF);
        assert_eq!(unformatted_page(1 << 11), 1 << 16);
        assert!(is_null(0x6801) && !is_null(0x0001) && !is_null(0x2006));
        assert_eq!(as_loaded(0xF801), 0xB001);
    }

    #[test]
    fn a_model_is_told_and_understood() {
        let pages = telling_model("EMB-40 17");
        assert_eq!(pages, [0x0009_A006, 0x342D_424D_8045, 0x0037_3120_0030]);
        assert_eq!(model(&pages).as_deref(), Some("EMB-40 17"));
        let heard: Vec<u64> = pages.iter().map(|page| page | 0x4800).collect();
        assert_eq!(model(&heard).as_deref(), Some("EMB-40 17"));
        assert_eq!(model(&pages[..2]), None);
        assert_eq!(model(&pages[1..]), None);
        assert_eq!(model(&telling_model("")).as_deref(), Some(""));
    }

    #[test]
    fn only_the_last_page_says_that_none_follows() {
        let say_more = |pages: &[u64]| pages.iter().map(|page| page >> 15 & 1).collect::<Vec<_>>();
        assert_eq!(say_more(&in_a_row(vec![0, 0x8000, 0x8000])), [1, 1, 0]);
        assert_eq!(in_a_row(vec![]), []);
    }

    #[test]
    fn pages_in_words() {
        assert_eq!(in_words(0x6801), "Null message");
        assert_eq!(in_words(0x0009_A006), "device identifier");
        assert_eq!(in_words(0x2007), "message 7");
        assert_eq!(in_words(0x342D_424D_8045), "unformatted");
    }
}
