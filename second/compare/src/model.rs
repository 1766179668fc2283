//! What `drive` has to do, over the reference: bytes in, bytes out.

use crate::call::{
    Call, CHECK, EDGES, JUDGE, MESSAGES, PARITY_FINISH, PARITY_TAKE, READ, RESOLVE, RUN, WRITE,
};
use crate::cells::{at_most_65_535, modulo_2_to_32, to_bytes, whole_cells, MOST_CELLS};
use reference::messages::CELLS_OF_A_MESSAGE;
use reference::parity::{PARITY_SYMBOLS, STATE_ENTRIES};
use reference::{answer, calls};

/// Everything that `drive` writes for this input.
pub fn output(input: &[u8]) -> Vec<u8> {
    let mut cells = Vec::new();
    for call in whole_calls(input) {
        let answer = answer_cells(&call);
        cells.push(answer.len() as u64);
        cells.extend(answer);
    }
    to_bytes(&cells)
}

/// The calls that are answered: those that end before the input does, and within
/// the most cells that `drive` looks at.
pub fn whole_calls(input: &[u8]) -> Vec<Call> {
    let mut cells = whole_cells(input);
    cells.truncate(MOST_CELLS);
    let mut rest = &cells[..];
    let mut calls = Vec::new();
    while let Some((call, after)) = first_call(rest) {
        calls.push(call);
        rest = after;
    }
    calls
}

/// The call at the front and the cells after it, if the call is there in full.
fn first_call(cells: &[u64]) -> Option<(Call, &[u64])> {
    let [operation, number_of_arguments, rest @ ..] = cells else {
        return None;
    };
    let number_of_arguments = usize::try_from(*number_of_arguments).ok()?;
    let (arguments, after) = rest.split_at_checked(number_of_arguments)?;
    Some((Call::new(*operation, arguments), after))
}

/// The answer cells of one call. Too few arguments and unknown operations have none;
/// `..` in a pattern stands for arguments that are not looked at.
pub fn answer_cells(call: &Call) -> Vec<u64> {
    match (call.operation, &call.arguments[..]) {
        (CHECK, [word, ..]) => vec![calls::check(*word)],
        (JUDGE, [mode, gap, ..]) => vec![calls::judge(*mode, modulo_2_to_32(*gap))],
        (WRITE, [mode, word, first, place, entries @ ..]) => {
            write(*mode, *word, *first, *place, entries)
        }
        (READ, [mode, place, readings @ ..]) => read(*mode, *place, readings),
        (RESOLVE, [own, partner, ..]) => vec![calls::resolve(*own, *partner)],
        // Cells after the last whole event are not looked at.
        (RUN, cells) => calls::run(cells.as_chunks().0),
        (EDGES, [mode, readings @ ..]) => edges(*mode, readings),
        (MESSAGES, pages) => messages(pages),
        (PARITY_TAKE, cells) if cells.len() >= STATE_ENTRIES => {
            let (state, burst) = cells.split_at(STATE_ENTRIES);
            parity_take(state, burst)
        }
        (PARITY_FINISH, cells) if cells.len() >= STATE_ENTRIES => parity_finish(cells),
        _ => Vec::new(),
    }
}

fn write(mode: u64, word: u64, first: u64, place: u64, entries: &[u64]) -> Vec<u64> {
    let mut list = all_modulo_2_to_32(entries);
    let answer = calls::write(&mut list, place, mode, word, modulo_2_to_32(first));
    let mut cells = vec![answer];
    cells.extend(list.into_iter().map(u64::from));
    cells
}

/// Where the call names no next place, it is left as it was; `drive` starts with the
/// place that was named.
fn read(mode: u64, place: u64, readings: &[u64]) -> Vec<u64> {
    let (answer, next) = calls::read(&all_modulo_2_to_32(readings), place, mode);
    vec![answer, next.unwrap_or(place)]
}

fn edges(mode: u64, readings: &[u64]) -> Vec<u64> {
    match calls::edges(mode, &all_modulo_2_to_32(readings)) {
        Ok(answers) => answers,
        Err(refusal) => vec![refusal],
    }
}

/// `drive` has room for a message at every page, so it never lacks room. Only the cells of
/// the messages that are there are answered, and after a refusal none.
fn messages(pages: &[u64]) -> Vec<u64> {
    let mut room = vec![0; CELLS_OF_A_MESSAGE * pages.len()];
    let answer = calls::messages(pages, &mut room);
    let messages = answer::number_of(answer).unwrap_or(0) as usize;
    let mut cells = vec![answer];
    cells.extend(&room[..CELLS_OF_A_MESSAGE * messages]);
    cells
}

/// The state is answered as it is held, so with no entry above 65 535.
fn parity_take(state: &[u64], burst: &[u64]) -> Vec<u64> {
    let mut state = all_at_most_65_535(state);
    let answer = calls::parity_take(&mut state, &all_at_most_65_535(burst));
    let mut cells = vec![answer];
    cells.extend(state.into_iter().map(u64::from));
    cells
}

/// Of the parity symbols nothing is answered after a refusal.
fn parity_finish(state: &[u64]) -> Vec<u64> {
    let mut parity = [0; PARITY_SYMBOLS];
    let answer = calls::parity_finish(&all_at_most_65_535(state), &mut parity);
    let mut cells = vec![answer];
    if answer::number_of(answer).is_some() {
        cells.extend(parity.map(u64::from));
    }
    cells
}

fn all_at_most_65_535(cells: &[u64]) -> Vec<u16> {
    cells.iter().map(|cell| at_most_65_535(*cell)).collect()
}

fn all_modulo_2_to_32(cells: &[u64]) -> Vec<u32> {
    cells.iter().map(|cell| modulo_2_to_32(*cell)).collect()
}

#[cfg(test)]
mod tests {
    use super::*;

    #[test]
    fn whole_calls_are_answered_and_a_cut_call_is_not() {
        let input = to_bytes(&[1, 1, 1 << 47, 99, 0, 1, 1]);
        let expected = to_bytes(&[1, answer::number(0x8005), 0]);
        assert_eq!(output(&input), expected);
    }

    #[test]
    fn nothing_past_the_most_cells_is_looked_at() {
        let input = to_bytes(&vec![0; MOST_CELLS + 2]);
        assert_eq!(whole_calls(&input).len(), MOST_CELLS / 2);
    }

    #[test]
    fn entries_are_answered_modulo_2_to_32_also_on_a_refusal() {
        let call = Call::write(2, 0, 0, 0, &[(3 << 32) + 5]);
        assert_eq!(answer_cells(&call), vec![answer::MODE, 5]);
    }

    #[test]
    fn a_refused_reading_leaves_the_named_place() {
        let call = Call::read(0, 9, &[0, 30]);
        assert_eq!(answer_cells(&call), vec![answer::ROOM, 9]);
    }

    #[test]
    fn edges_in_a_wrong_mode_have_one_answer() {
        let call = Call::edges(2, &[0, 30, 60]);
        assert_eq!(answer_cells(&call), vec![answer::MODE]);
    }

    #[test]
    fn cells_after_the_last_whole_event_are_not_looked_at() {
        let event = [4, 0, 513];
        let fresh_status = answer::register(8);
        for further in [&[][..], &[4], &[4, 0]] {
            let call = Call::new(RUN, &[&event, further].concat());
            assert_eq!(answer_cells(&call), [fresh_status]);
        }
        assert_eq!(answer_cells(&Call::new(RUN, &[4, 0])), []);
    }

    #[test]
    fn a_run_answers_three_cells_a_message_and_a_refused_one_only_the_refusal() {
        let call = Call::messages(&[0x2005, 0, 0, 0x2006]);
        let expected = vec![answer::number(2), 5, 0, 2, 6, 3, 0];
        assert_eq!(answer_cells(&call), expected);
        assert_eq!(answer_cells(&Call::messages(&[])), [answer::number(0)]);
        assert_eq!(answer_cells(&Call::messages(&[0, 0x2006])), [answer::RUN]);
    }

    /// A state with no symbol but the first one.
    fn state(first_symbol: u64, count: u64) -> Vec<u64> {
        let mut cells = vec![0; STATE_ENTRIES];
        (cells[0], cells[STATE_ENTRIES - 1]) = (first_symbol, count);
        cells
    }

    #[test]
    fn a_take_answers_the_state_and_a_refused_one_the_state_as_it_is_held() {
        let took = Call::parity_take(&state(7, 3), &[7]);
        let expected = [&[answer::number(4)], &state(0, 4)[..]].concat();
        assert_eq!(answer_cells(&took), expected);
        let refused = Call::parity_take(&state(1 << 40, 1 << 16), &[]);
        let expected = [&[answer::COUNT], &state(65_535, 65_535)[..]].concat();
        assert_eq!(answer_cells(&refused), expected);
    }

    #[test]
    fn a_finish_answers_44_symbols_and_a_refused_one_only_the_refusal() {
        let finished = Call::parity_finish(&state(7, 406));
        let expected = [&[answer::number(44)], &state(7, 0)[..44]].concat();
        assert_eq!(answer_cells(&finished), expected);
        let refused = [
            (state(7, 65_536 + 406), answer::COUNT),
            (state(65_536 + 7, 406), answer::SYMBOL),
        ];
        for (state, refusal) in refused {
            assert_eq!(answer_cells(&Call::parity_finish(&state)), [refusal]);
        }
    }

    #[test]
    fn fewer_cells_than_a_state_has_are_too_few_arguments() {
        for operation in [PARITY_TAKE, PARITY_FINISH] {
            let call = Call::new(operation, &state(0, 406)[..44]);
            assert_eq!(answer_cells(&call), []);
        }
    }
}
