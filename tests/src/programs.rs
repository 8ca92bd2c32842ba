//! The compiled program and the second program's command, each run in a folder of its own, and the lines that they print.

use std::fs::{self, File};
use std::path::{Path, PathBuf};
use std::process::{Command, Stdio};

use crate::events::REPLY_SIZE;

fn in_repository(path: &str) -> PathBuf {
    Path::new(env!("CARGO_MANIFEST_DIR")).join("..").join(path)
}

/// A command that the gate has built; fails with what to do where it has not.
fn built(path: &str, how: &str) -> PathBuf {
    let program = in_repository(path);
    assert!(program.exists(), "{path} is not built: {how}");
    program.canonicalize().unwrap()
}

/// The compiled program.
pub fn proved() -> PathBuf {
    built(
        "crates/dispatcher/out/dispatcher",
        "rt run in crates/dispatcher",
    )
}

/// The second program's command.
pub fn second() -> PathBuf {
    built(
        "tests/second/target/release/second",
        "cargo build --release --manifest-path tests/second/Cargo.toml",
    )
}

/// A folder of its own for each case, removed when the test ends well.
pub fn folder_for(name: &str) -> PathBuf {
    let folder = in_repository("target/programs").join(name);
    let _ = fs::remove_dir_all(&folder);
    fs::create_dir_all(&folder).unwrap();
    folder
}

/// What a program prints in a folder with its `events.bin` as standard input, and whether it ended well.
pub fn printed(program: &Path, folder: &Path) -> (String, bool) {
    let events = File::open(folder.join("events.bin")).unwrap();
    output_of(&mut Command::new(program), folder, events)
}

fn output_of(command: &mut Command, folder: &Path, events: File) -> (String, bool) {
    let command = command.current_dir(folder).stdin(Stdio::from(events));
    let output = command.output().unwrap();
    (
        String::from_utf8(output.stdout).unwrap(),
        output.status.success(),
    )
}

/// The same of a program that has at most so many bytes of stack, in whole KB, and no environment.
pub fn printed_within(program: &Path, folder: &Path, stack: usize) -> (String, bool) {
    let events = File::open(folder.join("events.bin")).unwrap();
    let mut limited = Command::new("/bin/sh");
    limited.args(["-c", "ulimit -s $0 && exec $1"]);
    limited.args([Path::new(&(stack >> 10).to_string()), program]);
    output_of(limited.env_clear(), folder, events)
}

/// What the compiled program and the second program's command print for a roster and events, and whether they ended well.
pub fn both_printed(name: &str, roster: &[u8], events: &[u8]) -> [(String, bool); 2] {
    let folder = folder_for(name);
    fs::write(folder.join("roster.bin"), roster).unwrap();
    fs::write(folder.join("events.bin"), events).unwrap();
    let both = [proved(), second()].map(|program| printed(&program, &folder));
    fs::remove_dir_all(&folder).unwrap();
    both
}

/// The line of a reply: answer, running task or -, report.
pub fn line_of(reply: &[u8]) -> String {
    match reply[1] {
        255 => format!("{} - {}", reply[0], reply[2]),
        task => format!("{} {task} {}", reply[0], reply[2]),
    }
}

/// The lines of a run that is done.
pub fn lines_of(replies: &[u8]) -> String {
    let replies = replies.chunks_exact(REPLY_SIZE);
    let lines: String = replies.map(|reply| line_of(reply) + "\n").collect();
    format!("passed\n{lines}end\n")
}
