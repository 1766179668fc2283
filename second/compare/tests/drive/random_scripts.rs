//! Random input, most of it nonsense: `drive` must end well and do what the model does.

use compare::agreement::assert_scripts_agree;
use compare::call::{all_cells, Call, MESSAGES, OPERATIONS, PARITY_FINISH, PARITY_TAKE};
use compare::cells::to_bytes;
use compare::generate::{
    check_call, edges_call, finish_call, judge_call, read_call, resolve_call, short_messages_call,
    short_run_call, short_take_call, write_call,
};
use compare::kinds::{Kind, Kinds};
use compare::model;
use compare::random::Random;
use reference::answer::number_of;

const SCRIPTS: usize = 300;

const MOST_BYTES: u64 = 2000;

#[test]
fn random_scripts_give_what_the_model_gives() {
    let mut random = Random::from_environment();
    let scripts: Vec<Vec<u8>> = (0..SCRIPTS).map(|_| script(&mut random)).collect();
    let mut met = Kinds::new(SCRIPT_KINDS);
    scripts.iter().for_each(|script| met.count(script));
    met.assert_all_met();
    assert_scripts_agree(&scripts);
}

const SCRIPT_KINDS: &[Kind<Vec<u8>>] = &[
    ("no whole call", |script| {
        model::whole_calls(script).is_empty()
    }),
    ("three whole calls or more", |script| {
        model::whole_calls(script).len() >= 3
    }),
    ("ends inside a call", |script| left_over(script) > 0),
    ("ends with a whole call", |script| left_over(script) == 0),
    ("ends inside a cell", |script| script.len() % 8 != 0),
    ("has an answered check, judgement and writing", |script| {
        answered(script, &[1, 2, 3])
    }),
    ("has an answered reading and answered edges", |script| {
        answered(script, &[4, 7])
    }),
    ("has an answered resolving and an answered run", |script| {
        answered(script, &[5, 6])
    }),
    ("has a run with two messages or more", |script| {
        has_a_call(script, MESSAGES, |cells| cells.len() >= 7)
    }),
    ("has a refused run of pages", |script| {
        has_a_call(script, MESSAGES, is_refused)
    }),
    ("has a burst that is taken", |script| {
        has_a_call(script, PARITY_TAKE, is_a_number)
    }),
    ("has a refused burst", |script| {
        has_a_call(script, PARITY_TAKE, is_refused)
    }),
    ("has a finished frame", |script| {
        has_a_call(script, PARITY_FINISH, is_a_number)
    }),
    ("has a refused finish", |script| {
        has_a_call(script, PARITY_FINISH, is_refused)
    }),
    ("has a call with too few arguments", |script| {
        let has_too_few = |call: &Call| {
            OPERATIONS.iter().any(|(operation, needed)| {
                call.operation == *operation && call.arguments.len() < *needed
            })
        };
        model::whole_calls(script).iter().any(has_too_few)
    }),
    ("has an unknown operation", |script| {
        let calls = model::whole_calls(script);
        calls
            .iter()
            .any(|call| call.operation == 0 || call.operation > PARITY_FINISH)
    }),
];

/// Whether the script has a call of each of these operations that has answer cells.
fn answered(script: &[u8], operations: &[u64]) -> bool {
    let calls = model::whole_calls(script);
    operations.iter().all(|operation| {
        let is_answered = |call: &Call| !model::answer_cells(call).is_empty();
        let mut of_this = calls.iter().filter(|call| call.operation == *operation);
        of_this.any(is_answered)
    })
}

/// Whether the script has a call of this operation with answer cells of this kind.
fn has_a_call(script: &[u8], operation: u64, is_of_this_kind: fn(&[u64]) -> bool) -> bool {
    let calls = model::whole_calls(script);
    let mut of_this = calls.iter().filter(|call| call.operation == operation);
    of_this.any(|call| is_of_this_kind(&model::answer_cells(call)))
}

/// Whether the first of these answer cells is a number.
fn is_a_number(cells: &[u64]) -> bool {
    cells.first().is_some_and(|cell| number_of(*cell).is_some())
}

/// Whether there is a first answer cell and it is none.
fn is_refused(cells: &[u64]) -> bool {
    !cells.is_empty() && !is_a_number(cells)
}

/// The number of bytes after the last whole call.
fn left_over(script: &[u8]) -> usize {
    let calls = model::whole_calls(script);
    script.len() - 8 * calls.iter().map(Call::length).sum::<usize>()
}

fn script(random: &mut Random) -> Vec<u8> {
    match random.below(6) {
        0 => random_bytes(random),
        1 => small_cells(random),
        2 => calls(random),
        3 => cut(random),
        _ => disturbed(random),
    }
}

fn random_bytes(random: &mut Random) -> Vec<u8> {
    let length = random.below(MOST_BYTES + 1);
    (0..length).map(|_| random.any_number() as u8).collect()
}

/// Cells that are mostly small, so that many of them can be read as calls.
fn small_cells(random: &mut Random) -> Vec<u8> {
    let length = random.below(MOST_BYTES / 8 + 1);
    let cells: Vec<u64> = (0..length).map(|_| small_cell(random)).collect();
    to_bytes(&cells)
}

fn small_cell(random: &mut Random) -> u64 {
    match random.below(20) {
        0 => 11 + random.below(40),
        1 => random.any_number() >> random.below(64),
        _ => random.below(11),
    }
}

/// Sound calls, as many as there is room for.
fn calls(random: &mut Random) -> Vec<u8> {
    let most = random.below(MOST_BYTES + 1) as usize;
    let mut bytes = Vec::new();
    loop {
        let call = to_bytes(&any_call(random).cells());
        if bytes.len() + call.len() > most {
            return bytes;
        }
        bytes.extend(call);
    }
}

fn any_call(random: &mut Random) -> Call {
    match random.below(15) {
        0 => Call::new(random.pick(&[0, 11, 99, u64::MAX]), &[3; 4]),
        1 => Call::new(random.pick(&OPERATIONS).0, &[1]),
        2 => write_call(random),
        3 => Call::write(random.below(3), 0, 0, 0, &[9; 3]),
        4 | 5 => judge_call(random),
        6 => read_call(random),
        7 => edges_call(random),
        8 => resolve_call(random),
        9 => short_run_call(random),
        10 => short_messages_call(random),
        11 => short_take_call(random),
        12 => finish_call(random),
        _ => check_call(random),
    }
}

/// Sound calls that end somewhere inside.
fn cut(random: &mut Random) -> Vec<u8> {
    let mut bytes = calls(random);
    bytes.truncate(random.below(bytes.len() as u64 + 1) as usize);
    bytes
}

/// Sound calls with one cell put in, taken out or changed, so that what follows is
/// read at the wrong place.
fn disturbed(random: &mut Random) -> Vec<u8> {
    let script: Vec<Call> = (0..=random.below(10)).map(|_| any_call(random)).collect();
    let mut cells = all_cells(&script);
    cells.truncate(MOST_BYTES as usize / 8);
    let place = random.below(cells.len() as u64) as usize;
    match random.below(3) {
        0 if cells.len() < MOST_BYTES as usize / 8 => cells.insert(place, small_cell(random)),
        1 => drop(cells.remove(place)),
        _ => cells[place] = small_cell(random),
    }
    to_bytes(&cells)
}
