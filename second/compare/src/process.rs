//! Running a program: its whole input in, its whole output out, within a time limit.

use std::io::{Read, Write};
use std::process::{Child, ChildStdin, ChildStdout, Command, ExitStatus, Stdio};
use std::sync::mpsc;
use std::thread;
use std::time::{Duration, Instant};

/// A program that takes longer is stopped.
pub const TIME_LIMIT: Duration = Duration::from_secs(60);

/// No program here has reason to write more; one that never stops is cut off there.
const MOST_OUTPUT_BYTES: u64 = 1 << 22;

pub struct Ended {
    pub status: ExitStatus,
    pub output: Vec<u8>,
}

/// Runs the command to its end, or says in words why that failed.
pub fn run(command: &mut Command, input: &[u8]) -> Result<Ended, String> {
    let deadline = Instant::now() + TIME_LIMIT;
    let mut child = command
        .stdin(Stdio::piped())
        .stdout(Stdio::piped())
        .spawn()
        .map_err(|error| format!("{command:?} could not be started: {error}"))?;
    let outcome = feed_and_read(&mut child, input, deadline);
    if outcome.is_err() {
        // The process may have ended by itself in between, so failing to stop it is fine.
        let _ = child.kill();
        let _ = child.wait();
    }
    outcome
}

/// Writing and reading go on in threads of their own. If one waited for the other,
/// both sides of a full pipe could wait for ever.
fn feed_and_read(child: &mut Child, input: &[u8], deadline: Instant) -> Result<Ended, String> {
    let pipe_in = child.stdin.take().expect("standard input is a pipe");
    let pipe_out = child.stdout.take().expect("standard output is a pipe");
    write_in_a_thread(pipe_in, input.to_vec());
    let output = read_in_a_thread(pipe_out)
        .recv_timeout(time_left(deadline))
        .map_err(|_| too_long())?;
    let status = wait_until(child, deadline)?;
    Ok(Ended { status, output })
}

fn write_in_a_thread(mut pipe: ChildStdin, input: Vec<u8>) {
    thread::spawn(move || {
        // A program may end before it has read everything; then the pipe is broken,
        // which is no fault. The output tells whether all was well.
        let _ = pipe.write_all(&input);
    });
}

fn read_in_a_thread(pipe: ChildStdout) -> mpsc::Receiver<Vec<u8>> {
    let (sender, receiver) = mpsc::channel();
    thread::spawn(move || {
        let mut output = Vec::new();
        let _ = pipe.take(MOST_OUTPUT_BYTES).read_to_end(&mut output);
        // Nobody listens any more if the time was up; then the output is not needed.
        let _ = sender.send(output);
    });
    receiver
}

fn wait_until(child: &mut Child, deadline: Instant) -> Result<ExitStatus, String> {
    loop {
        match child.try_wait() {
            Ok(Some(status)) => return Ok(status),
            Ok(None) if time_left(deadline).is_zero() => return Err(too_long()),
            Ok(None) => thread::sleep(Duration::from_millis(1)),
            Err(error) => return Err(format!("waiting for the process failed: {error}")),
        }
    }
}

fn time_left(deadline: Instant) -> Duration {
    deadline.saturating_duration_since(Instant::now())
}

fn too_long() -> String {
    format!("the process did not end within {} s", TIME_LIMIT.as_secs())
}
