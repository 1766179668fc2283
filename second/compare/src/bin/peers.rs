//! Compares the check bits of the reference and of `drive` with programs that nobody
//! here wrote. A peer that cannot be had is named as skipped and does not count as passed.

use compare::agreement::answers;
use compare::call::Call;
use compare::generate::narrow_word;
use compare::process;
use compare::random::Random;
use reference::{answer, check};
use std::path::PathBuf;
use std::process::{Command, ExitCode, Stdio};

const PEERS: [&str; 2] = ["crcmod", "digest-crc"];

const RANDOM_WORDS: usize = 5000;

const NAMED_WORDS: [u64; 5] = [0, 1 << 47, 1 << 46, 1 << 45, (1 << 48) - 1];

/// The exit statuses of `crc_peer` that mean that the peer is not there: its own, and
/// that of the shell if there is no such interpreter.
const NOT_THERE: [Option<i32>; 2] = [Some(3), Some(127)];

enum Outcome {
    Agrees,
    Failed(String),
    Skipped,
}

fn main() -> ExitCode {
    install();
    let words = words();
    let (mut passed, mut failed, mut skipped) = (0, 0, 0);
    for peer in PEERS {
        let (count, line) = match compare_with(peer, &words) {
            Outcome::Agrees => (&mut passed, format!("{} words agree", words.len())),
            Outcome::Failed(why) => (&mut failed, format!("FAILED, {why}")),
            Outcome::Skipped => (&mut skipped, "skipped, it could not be installed".into()),
        };
        *count += 1;
        println!("peer {peer}: {line}");
    }
    println!("{passed} passed, {failed} failed, {skipped} skipped");
    ExitCode::from(u8::from(failed > 0))
}

fn script(name: &str) -> Command {
    let compare = PathBuf::from(env!("CARGO_MANIFEST_DIR"));
    Command::new(compare.join("../peers").join(name))
}

/// What the script says is not shown, and how it ended is not asked: a peer that is
/// still not there afterwards is skipped.
fn install() {
    let _ = script("install")
        .stdin(Stdio::null())
        .stdout(Stdio::null())
        .stderr(Stdio::null())
        .status();
}

fn words() -> Vec<u64> {
    let mut random = Random::from_environment();
    let mut words = NAMED_WORDS.to_vec();
    words.extend((0..RANDOM_WORDS).map(|_| narrow_word(&mut random)));
    words
}

fn compare_with(peer: &str, words: &[u64]) -> Outcome {
    let lines: String = words.iter().map(|word| format!("{word:x}\n")).collect();
    let ended = match process::run(script("crc_peer").arg(peer), lines.as_bytes()) {
        Ok(ended) => ended,
        Err(why) => return Outcome::Failed(why),
    };
    if NOT_THERE.contains(&ended.status.code()) {
        return Outcome::Skipped;
    }
    if !ended.status.success() {
        return Outcome::Failed(format!("the peer did not end well: {}", ended.status));
    }
    let compared = check_bits(&ended.output).and_then(|peers| first_difference(words, &peers));
    match compared {
        Ok(()) => Outcome::Agrees,
        Err(why) => Outcome::Failed(why),
    }
}

/// The check bits that the peer printed.
fn check_bits(output: &[u8]) -> Result<Vec<u64>, String> {
    String::from_utf8_lossy(output)
        .lines()
        .map(|line| u64::from_str_radix(line, 16).map_err(|_| format!("it printed {line:?}")))
        .collect()
}

/// The first word on which the peer, the reference and `drive` are not of one mind.
fn first_difference(words: &[u64], peers: &[u64]) -> Result<(), String> {
    if peers.len() != words.len() {
        return Err(format!("it printed {} lines", peers.len()));
    }
    let calls: Vec<Call> = words.iter().map(|word| Call::check(*word)).collect();
    let drives = answers(&calls)?;
    for ((word, peer), drive) in words.iter().zip(peers).zip(drives) {
        let reference = check::check_bits(*word);
        if reference != *peer || drive != Some(answer::number(*peer)) {
            return Err(format!(
                "word {word:#x}: the peer has {peer:#x}, the reference {reference:#x}, \
                 drive answers {drive:x?}"
            ));
        }
    }
    Ok(())
}
