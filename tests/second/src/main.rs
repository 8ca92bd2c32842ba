//! The program: runs `roster.bin` under the events on standard input and prints the answers.

use std::fs::File;
use std::io::{self, Read, Write};
use std::process::ExitCode;

use second::limits::{MAX_EVENT_BYTES, ROSTER_BYTES};
use second::run;

fn main() -> ExitCode {
    // A roster that cannot be read counts as empty, whose length is refused with 11.
    let roster = read_roster().unwrap_or_default();
    // Events that cannot be read to their end count as a stray byte, refused with 21.
    let events = read_events().unwrap_or(vec![0]);
    let text = run::printed(&roster, &events);
    match io::stdout().write_all(text.as_bytes()) {
        Ok(()) => ExitCode::SUCCESS,
        Err(_) => ExitCode::FAILURE,
    }
}

/// The roster's bytes, at most one past the limit: enough to see that there are too many.
fn read_roster() -> io::Result<Vec<u8>> {
    let file = File::open("roster.bin")?;
    read_up_to(file, *ROSTER_BYTES.end())
}

/// The events' bytes, at most one past the limit; the rest is read too, so that whoever writes
/// them is not cut off.
fn read_events() -> io::Result<Vec<u8>> {
    let mut input = io::stdin().lock();
    let bytes = read_up_to(&mut input, MAX_EVENT_BYTES)?;
    io::copy(&mut input, &mut io::sink())?;
    Ok(bytes)
}

fn read_up_to(source: impl Read, limit: usize) -> io::Result<Vec<u8>> {
    let mut bytes = Vec::new();
    source.take(limit as u64 + 1).read_to_end(&mut bytes)?;
    Ok(bytes)
}
