//! Starting one of the programs under test, one process for each input.

use crate::process;
use std::path::PathBuf;
use std::process::Command;
use std::sync::atomic::{AtomicUsize, Ordering};
use std::sync::OnceLock;
use std::thread;

/// At least so many processes run side by side: part of a start is waiting.
const FEWEST_SIDE_BY_SIDE: usize = 4;

pub struct Program {
    pub name: &'static str,
    /// The environment variable with the path of the program.
    pub variable: &'static str,
}

impl Program {
    /// The path of the program, or words that say what to set.
    pub fn path(&self) -> Result<PathBuf, String> {
        match std::env::var_os(self.variable) {
            Some(path) if !path.is_empty() => Ok(PathBuf::from(path)),
            _ => Err(format!(
                "{} is not set: set it to the path of the program `{}`, \
                 one executable without arguments",
                self.variable, self.name
            )),
        }
    }

    /// The output for this input. Ending with another status than success is a failure.
    pub fn run(&self, input: &[u8]) -> Result<Vec<u8>, String> {
        let ended = process::run(&mut Command::new(self.path()?), input)?;
        if ended.status.success() {
            Ok(ended.output)
        } else {
            Err(format!("{} did not end well: {}", self.name, ended.status))
        }
    }

    /// Runs each input in a process of its own, several side by side; the outputs are
    /// in the order of the inputs.
    pub fn run_each(&self, inputs: &[Vec<u8>]) -> Vec<Result<Vec<u8>, String>> {
        let outputs: Vec<OnceLock<_>> = inputs.iter().map(|_| OnceLock::new()).collect();
        let next = AtomicUsize::new(0);
        thread::scope(|scope| {
            for _ in 0..side_by_side().min(inputs.len()) {
                scope.spawn(|| loop {
                    let index = next.fetch_add(1, Ordering::Relaxed);
                    let Some(input) = inputs.get(index) else {
                        return;
                    };
                    // No other thread has this index, so the slot is still empty.
                    let _ = outputs[index].set(self.run(input));
                });
            }
        });
        outputs
            .into_iter()
            .map(|slot| slot.into_inner().expect("every input was run"))
            .collect()
    }
}

fn side_by_side() -> usize {
    let processors = thread::available_parallelism().map_or(1, |number| number.get());
    processors.max(FEWEST_SIDE_BY_SIDE)
}
