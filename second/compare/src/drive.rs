//! The program `drive`.

use crate::program::Program;

const DRIVE: Program = Program {
    name: "drive",
    variable: "MASTSTEP_DRIVE",
};

/// The output for this input. Ending with another status than success is a failure.
pub fn run(input: &[u8]) -> Result<Vec<u8>, String> {
    DRIVE.run(input)
}

/// The outputs for these inputs, in their order.
pub fn run_each(inputs: &[Vec<u8>]) -> Vec<Result<Vec<u8>, String>> {
    DRIVE.run_each(inputs)
}
