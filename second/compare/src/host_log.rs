//! What a host has done and understood, in words for a log.

use crate::event;
use crate::hosts::{Host, Note};
use crate::next_page;

/// What this host has to tell, each with its time. The other module has this name.
pub fn told(host: &Host, other: &str) -> Vec<(u64, String)> {
    let mut heard = Vec::new();
    let mut told = Vec::new();
    for (time, note) in &host.notes {
        told.extend(in_words(note, other).map(|words| (*time, words)));
        match note {
            Note::Heard { page } => heard.push(*page),
            Note::BeganAnew { .. } => heard.clear(),
            _ => continue,
        }
        let model = next_page::model(&heard);
        told.extend(model.map(|model| (*time, format!("host: {other}'s model is \"{model}\""))));
    }
    told
}

fn in_words(note: &Note, other: &str) -> Option<String> {
    match *note {
        Note::Loaded { number, page } => Some(loaded(number, page)),
        Note::Heard { page } => Some(format!(
            "host reads 523-525: {}, {}",
            in_registers(page),
            content(page)
        )),
        Note::BeganAnew { heard } => Some(format!(
            "host reads 517: 0000, 523-525: {}; it knows nothing of {other} any more",
            in_registers(heard)
        )),
        // It reads the page again, and what it reads then is told.
        Note::Torn => None,
    }
}

/// The registers are in the order in which they are written.
fn loaded(number: usize, page: u64) -> String {
    let writes = event::loading(page).map(|(register, value)| format!("{register} = {value:04x}"));
    format!(
        "host loads page {number}: {}, {}",
        writes.join(", "),
        content(page)
    )
}

/// A word as three registers have it, the lowest part first.
fn in_registers(word: u64) -> String {
    let part = |lowest: u32| word >> lowest & 0xFFFF;
    format!("{:04x} {:04x} {:04x}", part(0), part(16), part(32))
}

/// What a page has to say.
fn content(page: u64) -> String {
    let kind = next_page::in_words(page);
    if !next_page::is_message_page(page) {
        return format!("{kind}, \"{}\"", next_page::letters(page));
    }
    match next_page::code(page) {
        next_page::DEVICE_IDENTIFIER => {
            format!("{kind}, {} letters", next_page::number_of_letters(page))
        }
        _ => kind,
    }
}
