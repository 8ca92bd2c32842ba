//! The writer of rosters (request 2026-03): a roster's bytes from its parts, and the parts of one.

use crate::answer;
use crate::limits::{MAX_OBJECTS, PRIORITIES, ROSTER_BYTES, TASKS};
use crate::roster::{self, Refusal, TaskEntry, MARK, OBJECT_ROW, STEP, TASK_ROW, TRAILER};

/// What a roster is written from, right or wrong. The lengths are in steps, one per base; the steps
/// are the bytes of all scripts, one after the other in task order.
#[derive(Clone, Debug, PartialEq, Eq)]
pub struct Parts {
    pub bases: Vec<u8>,
    pub ceilings: Vec<u8>,
    pub lengths: Vec<u16>,
    pub steps: Vec<u8>,
}

/// The answer to writing these parts into that many bytes, with its place: the first that applies
/// of 13, 14, 15, 16, 11 and 22, or else 0, which refuses nothing.
pub fn answer(parts: &Parts, room: usize) -> Refusal {
    match judge(parts, room) {
        Ok(()) => Refusal::plain(answer::DONE),
        Err(refusal) => refusal,
    }
}

fn judge(parts: &Parts, room: usize) -> Result<(), Refusal> {
    let refuse = |number| Err(Refusal::plain(number));
    if !counts_are_good(parts) {
        return refuse(answer::COUNTS);
    }
    if !lengths_are_good(parts) {
        return refuse(answer::LAYOUT);
    }
    if !values_are_good(parts) {
        return refuse(answer::BAD_VALUE);
    }
    judge_steps(parts)?;
    if length(parts) > *ROSTER_BYTES.end() {
        return refuse(answer::ROSTER_LENGTH);
    }
    if length(parts) > room {
        return refuse(answer::SHORT_BUFFER);
    }
    Ok(())
}

fn counts_are_good(parts: &Parts) -> bool {
    TASKS.contains(&parts.bases.len()) && parts.ceilings.len() <= MAX_OBJECTS
}

/// One length per base, and together exactly the lent steps, which are whole then.
fn lengths_are_good(parts: &Parts) -> bool {
    let steps: usize = parts.lengths.iter().copied().map(usize::from).sum();
    parts.lengths.len() == parts.bases.len() && parts.steps.len() == STEP * steps
}

fn values_are_good(parts: &Parts) -> bool {
    let mut values = parts.bases.iter().chain(&parts.ceilings);
    values.all(|&value| PRIORITIES.contains(&u64::from(value)))
}

/// The reader's test of each script: 16 at the first bad step in task and step order.
fn judge_steps(parts: &Parts) -> Result<(), Refusal> {
    let (tasks, objects) = (parts.bases.len(), parts.ceilings.len());
    for (task, script) in scripts(parts).into_iter().enumerate() {
        let decoded = roster::decode_script(script, tasks, objects);
        decoded.map_err(|step| Refusal::bad_step(task, step))?;
    }
    Ok(())
}

/// The lent steps cut into scripts. Lengths that reach past them, which are 14, get what is left.
fn scripts(parts: &Parts) -> Vec<&[u8]> {
    let mut rest = parts.steps.as_slice();
    let mut scripts = Vec::new();
    for &length in &parts.lengths {
        let end = rest.len().min(STEP * usize::from(length));
        let (script, behind) = rest.split_at(end);
        scripts.push(script);
        rest = behind;
    }
    scripts
}

/// How many bytes the file of these parts has.
pub fn length(parts: &Parts) -> usize {
    let tables = TASK_ROW * parts.bases.len() + OBJECT_ROW * parts.ceilings.len();
    parts.steps.len() + tables + TRAILER
}

/// The file of these parts: scripts, task table, object table, trailer. It is a roster only where
/// the answer is 0 or 22; parts refused with 15 or 16 are laid out the same way.
pub fn file(parts: &Parts) -> Vec<u8> {
    let mut bytes = Vec::new();
    let mut rows = Vec::new();
    for (&base, script) in parts.bases.iter().zip(scripts(parts)) {
        // A script starts where the bytes before it end.
        rows.extend([base, 0]);
        rows.extend(two_bytes(bytes.len()));
        rows.extend(two_bytes(script.len()));
        bytes.extend(script);
    }
    let task_table = bytes.len();
    bytes.extend(rows);
    let object_table = bytes.len();
    for &ceiling in &parts.ceilings {
        bytes.extend([ceiling, 0]);
    }
    bytes.extend(MARK);
    bytes.extend([parts.bases.len() as u8, parts.ceilings.len() as u8]);
    bytes.extend(two_bytes(object_table));
    bytes.extend(two_bytes(task_table));
    bytes
}

/// A number as two bytes, little-endian; no file within its limit has a number that needs more.
fn two_bytes(number: usize) -> [u8; 2] {
    (number as u16).to_le_bytes()
}

/// Writes the file at the buffer's front and gives the answer and how many bytes were written; the
/// bytes past the file stay, and a refusal writes none.
pub fn write(parts: &Parts, buffer: &mut [u8]) -> (Refusal, usize) {
    let answer = answer(parts, buffer.len());
    if answer.number != answer::DONE {
        return (answer, 0);
    }
    let bytes = file(parts);
    buffer[..bytes.len()].copy_from_slice(&bytes);
    (answer, bytes.len())
}

/// The parts of a roster; refused with 11 to 16.
pub fn read(bytes: &[u8]) -> Result<Parts, Refusal> {
    let roster = roster::read(bytes)?;
    // In a roster whose form is right, none of these numbers is too large for its kind.
    let byte = |&value: &u64| value as u8;
    let length = |entry: &TaskEntry| entry.script.len() as u16;
    let steps: usize = roster.tasks.iter().map(|entry| entry.script.len()).sum();
    Ok(Parts {
        bases: roster.bases().iter().map(byte).collect(),
        ceilings: roster.ceilings.iter().map(byte).collect(),
        lengths: roster.tasks.iter().map(length).collect(),
        // The scripts lie at the front in task order, with no gaps.
        steps: bytes[..STEP * steps].to_vec(),
    })
}
