//! The command itself: `roster.bin` in its directory, events on standard input, lines out.

use std::fs;
use std::io::Write;
use std::path::PathBuf;
use std::process::{Command, Stdio};

use crate::support::{roster, STEP, WORK};
use crate::whole_case::{low_roster, whole_events, whole_roster, WHOLE_LINES};

/// An empty directory of this name for one test.
fn directory(name: &str) -> PathBuf {
    let path = PathBuf::from(env!("CARGO_TARGET_TMPDIR")).join(name);
    // It may be left over from an earlier time, or not be there.
    let _ = fs::remove_dir_all(&path);
    fs::create_dir_all(&path).expect("a directory can be made");
    path
}

/// What the command prints in that directory.
fn printed(path: &PathBuf, events: &[u8]) -> String {
    let mut child = Command::new(env!("CARGO_BIN_EXE_second"))
        .current_dir(path)
        .stdin(Stdio::piped())
        .stdout(Stdio::piped())
        .stderr(Stdio::piped())
        .spawn()
        .expect("the command starts");
    let mut input = child.stdin.take().expect("standard input");
    input.write_all(events).expect("all events are taken");
    drop(input);
    let output = child.wait_with_output().expect("the command ends");
    assert!(output.status.success());
    assert_eq!(output.stderr, b"");
    String::from_utf8(output.stdout).expect("plain text")
}

/// What the command prints for this roster.
pub fn printed_for(name: &str, roster: &[u8], events: &[u8]) -> String {
    let path = directory(name);
    fs::write(path.join("roster.bin"), roster).expect("the roster is written");
    printed(&path, events)
}

#[test]
fn the_whole_case() {
    let text = printed_for("whole", &whole_roster(), &whole_events());
    assert_eq!(text, WHOLE_LINES);
}

#[test]
fn the_low_ceiling() {
    let text = printed_for("low", &low_roster(), &whole_events());
    assert_eq!(text, "refused 18 1 1\n");
}

#[test]
fn a_missing_roster_is_11() {
    assert_eq!(
        printed(&directory("missing"), &whole_events()),
        "refused 11\n"
    );
}

#[test]
fn an_unreadable_roster_is_11() {
    let path = directory("unreadable");
    fs::create_dir(path.join("roster.bin")).expect("a directory can be made");
    assert_eq!(printed(&path, &whole_events()), "refused 11\n");
}

#[test]
fn a_roster_too_short_or_too_long_is_11() {
    let long = roster(&[(15, vec![WORK; 14996])], &[15]);
    assert_eq!(long.len(), 60000);
    let text = printed_for("longest", &long, &STEP);
    assert_eq!(text, "passed\n0 0 0\nend\n");
    let longer = [&[0][..], &long].concat();
    assert_eq!(printed_for("longer", &longer, &STEP), "refused 11\n");
    let longer = [&long[..], &[0; 100_000]].concat();
    assert_eq!(printed_for("far_longer", &longer, &STEP), "refused 11\n");
    assert_eq!(printed_for("short", &long[..13], &STEP), "refused 11\n");
    assert_eq!(printed_for("empty", &[], &STEP), "refused 11\n");
}

#[test]
fn events_up_to_the_limit_and_over_it() {
    // A roster of 60,000 bytes does not make the events' limit another.
    let bytes = roster(&[(15, vec![WORK; 14996])], &[15]);
    let all = printed_for("limit", &bytes, &STEP.repeat(4096));
    assert_eq!(all, format!("passed\n{}end\n", "0 0 0\n".repeat(4096)));
    let over = printed_for("over", &bytes, &STEP.repeat(4097));
    assert_eq!(over, "refused 21\n");
    let far_over = printed_for("far_over", &bytes, &STEP.repeat(100_000));
    assert_eq!(far_over, "refused 21\n");
    let part = printed_for("part", &bytes, &STEP[..7]);
    assert_eq!(part, "refused 21\n");
}

#[test]
fn no_events() {
    let text = printed_for("no_events", &whole_roster(), &[]);
    assert_eq!(text, "passed\nend\n");
}
