//! Compares the programs `drive` and `listing` with the reference, through a pipe.
//!
//! A test makes calls (`call`, `generate`, `captures`, `words`, `message_runs`, `frames`,
//! `runs`, `joined`), sends them to `drive` in batches (`drive`, `program`, `process`) and
//! holds the output against what the reference gives (`model`, `agreement`). `windows` looks
//! at the times of `joined`. `listing` does the same for the program of that name.

pub mod agreement;
pub mod call;
pub mod captures;
pub mod cells;
pub mod drive;
pub mod event;
pub mod frames;
pub mod generate;
pub mod history;
pub mod host_log;
pub mod hosts;
pub mod joined;
pub mod kinds;
pub mod listing;
pub mod long_runs;
pub mod message_runs;
pub mod model;
pub mod next_page;
pub mod process;
pub mod program;
pub mod random;
pub mod runs;
pub mod tally;
pub mod windows;
pub mod wire;
pub mod words;
