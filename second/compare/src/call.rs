//! One call of `drive`: an operation and its arguments.

use crate::event::EventCells;
use reference::parity::STATE_ENTRIES;
use std::fmt;

pub const CHECK: u64 = 1;
pub const JUDGE: u64 = 2;
pub const WRITE: u64 = 3;
pub const READ: u64 = 4;
pub const RESOLVE: u64 = 5;
pub const RUN: u64 = 6;
pub const EDGES: u64 = 7;
pub const MESSAGES: u64 = 8;
pub const PARITY_TAKE: u64 = 9;
pub const PARITY_FINISH: u64 = 10;
/// All operations, each with the fewest arguments with which it has an answer.
pub const OPERATIONS: [(u64, usize); 10] = [
    (CHECK, 1),
    (JUDGE, 2),
    (WRITE, 4),
    (READ, 2),
    (RESOLVE, 2),
    (RUN, 3),
    (EDGES, 1),
    (MESSAGES, 0),
    (PARITY_TAKE, STATE_ENTRIES),
    (PARITY_FINISH, STATE_ENTRIES),
];

/// More arguments than this are not printed.
const MOST_PRINTED: usize = 8;

#[derive(Clone, Debug, PartialEq)]
pub struct Call {
    pub operation: u64,
    pub arguments: Vec<u64>,
}

impl Call {
    pub fn new(operation: u64, arguments: &[u64]) -> Call {
        Call {
            operation,
            arguments: arguments.to_vec(),
        }
    }

    pub fn check(word: u64) -> Call {
        Call::new(CHECK, &[word])
    }

    pub fn judge(mode: u64, gap: u64) -> Call {
        Call::new(JUDGE, &[mode, gap])
    }

    pub fn write(mode: u64, word: u64, first: u64, place: u64, entries: &[u64]) -> Call {
        let mut call = Call::new(WRITE, &[mode, word, first, place]);
        call.arguments.extend(entries);
        call
    }

    pub fn read(mode: u64, place: u64, readings: &[u64]) -> Call {
        let mut call = Call::new(READ, &[mode, place]);
        call.arguments.extend(readings);
        call
    }

    pub fn resolve(own: u64, partner: u64) -> Call {
        Call::new(RESOLVE, &[own, partner])
    }

    pub fn run(events: &[EventCells]) -> Call {
        Call::new(RUN, events.as_flattened())
    }

    pub fn edges(mode: u64, readings: &[u64]) -> Call {
        let mut call = Call::new(EDGES, &[mode]);
        call.arguments.extend(readings);
        call
    }

    pub fn messages(pages: &[u64]) -> Call {
        Call::new(MESSAGES, pages)
    }

    pub fn parity_take(state: &[u64], burst: &[u64]) -> Call {
        let mut call = Call::new(PARITY_TAKE, state);
        call.arguments.extend(burst);
        call
    }

    pub fn parity_finish(state: &[u64]) -> Call {
        Call::new(PARITY_FINISH, state)
    }

    /// The call as it is sent.
    pub fn cells(&self) -> Vec<u64> {
        let mut cells = vec![self.operation, self.arguments.len() as u64];
        cells.extend(&self.arguments);
        cells
    }

    /// The number of cells that are sent.
    pub fn length(&self) -> usize {
        2 + self.arguments.len()
    }
}

/// The cells of several calls, one after the other.
pub fn all_cells(calls: &[Call]) -> Vec<u64> {
    calls.iter().flat_map(Call::cells).collect()
}

impl fmt::Display for Call {
    fn fmt(&self, out: &mut fmt::Formatter) -> fmt::Result {
        let name = match self.operation {
            CHECK => "check",
            JUDGE => "judge",
            WRITE => "write",
            READ => "read",
            RESOLVE => "resolve",
            RUN => "run",
            EDGES => "edges",
            MESSAGES => "messages",
            PARITY_TAKE => "parity take",
            PARITY_FINISH => "parity finish",
            _ => "unknown",
        };
        write!(out, "operation {} ({name}), ", self.operation)?;
        write!(out, "arguments {}", printed(&self.arguments))
    }
}

/// Cells in a form that stays short.
pub fn printed(cells: &[u64]) -> String {
    let first: Vec<String> = cells
        .iter()
        .take(MOST_PRINTED)
        .map(|cell| format!("{cell:#x}"))
        .collect();
    let more = cells.len().saturating_sub(MOST_PRINTED);
    if more == 0 {
        format!("[{}]", first.join(", "))
    } else {
        format!("[{}, and {more} more]", first.join(", "))
    }
}
