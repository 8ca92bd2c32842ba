//! Rosters of tasks, ceilings and scripts, as bytes: their form, check and parts, a run of one under events, and their writing.
//!
//! ```
//! use dispatch::roster::{self, Parts, Step};
//! use dispatch::{Answer, Object, Task, REPLY_SIZE};
//!
//! let (enter, leave) = (Step::Enter(Object(0)), Step::Leave(Object(0)));
//! let steps = [enter, Step::Work, leave, Step::Delay(5), enter, leave].map(Step::bytes);
//! let mut parts = Parts {
//!     bases: &[10, 20],
//!     ceilings: &[20],
//!     lengths: &[3, 3],
//!     steps: steps.as_flattened(),
//! };
//!
//! let mut buffer = [0; 60];
//! let written = roster::write(&parts, &mut buffer).expect("good parts and room");
//! assert_eq!(written.len(), 46);
//! assert_eq!(roster::check(written), Ok(()));
//! assert_eq!(roster::step(written, Task(1), 0), Ok(Step::Delay(5)));
//! let mut reply = [0; REPLY_SIZE];
//! assert_eq!(roster::run(written, &[3, 0, 0, 0, 0, 0, 0, 0], &mut reply), Ok(()));
//! assert_eq!(reply, [0, 0, 2]);
//!
//! parts.lengths = &[3, 2];
//! let refusal = roster::write(&parts, &mut buffer).unwrap_err();
//! assert_eq!(refusal.answer, Answer::BadLayout);
//! ```

use core::fmt;

use crate::answer::Answer;
use crate::numbers::{Object, Priority, Task};
use crate::raw;

/// Why a roster, a run or a writing is refused, and where: with 16 to 20 the task and the step of the first fault, from 0, else 0 and 0.
#[derive(Clone, Copy, Debug, PartialEq, Eq)]
pub struct Refusal {
    pub answer: Answer,
    pub task: usize,
    pub step: usize,
}

impl fmt::Display for Refusal {
    fn fmt(&self, f: &mut fmt::Formatter<'_>) -> fmt::Result {
        match self.answer.number() {
            16..=20 => write!(f, "refused {} {} {}", self.answer, self.task, self.step),
            _ => write!(f, "refused {}", self.answer),
        }
    }
}

impl core::error::Error for Refusal {}

/// A step of a script. Finish is what a task takes at its script's end.
#[derive(Clone, Copy, Debug, PartialEq, Eq)]
pub enum Step {
    Finish,
    Enter(Object),
    Leave(Object),
    Delay(u16),
    Work,
    Suspend,
    Release(Task),
    Set(Task, Priority),
    Again,
}

impl Step {
    /// The bytes of the step: code, a, b. No roster takes those of Finish, which has no code, or of a number too large for its operand
    /// (16).
    pub fn bytes(self) -> [u8; 4] {
        let (code, a, b) = match self {
            Step::Finish => (0, 0, 0),
            Step::Enter(Object(o)) => (1, o, 0),
            Step::Leave(Object(o)) => (2, o, 0),
            Step::Delay(ticks) => (3, 0, ticks.into()),
            Step::Work => (4, 0, 0),
            Step::Suspend => (5, 0, 0),
            Step::Release(Task(t)) => (6, t, 0),
            Step::Set(Task(t), Priority(p)) => (7, t, p),
            Step::Again => (8, 0, 0),
        };
        // The largest that fits is no task, object or priority either.
        let a = u8::try_from(a).unwrap_or(u8::MAX);
        let [low, high] = u16::try_from(b).unwrap_or(u16::MAX).to_le_bytes();
        [code, a, low, high]
    }
}

fn passed((number, task, step): (u8, usize, usize)) -> Result<(), Refusal> {
    match Answer::from_library(number) {
        Answer::Done => Ok(()),
        answer => Err(Refusal { answer, task, step }),
    }
}

fn value((number, value): (u8, u64)) -> Result<u64, Answer> {
    Answer::from_library(number).done().map(|()| value)
}

/// The form of a roster: refused with 11 to 16.
pub fn form(roster: &[u8]) -> Result<(), Refusal> {
    passed(raw::form(roster))
}

/// Form and check of a roster: refused with 11 to 16, then 17 to 20.
pub fn check(roster: &[u8]) -> Result<(), Refusal> {
    passed(raw::check(roster))
}

/// The script of a task, as a part of the roster: refused with 11 to 16, then 1.
pub fn script(roster: &[u8], task: Task) -> Result<&[u8], Answer> {
    Answer::from_library(raw::script_number(roster, task.0)).done()?;
    let start = raw::script_start(roster, task.0) as usize;
    let length = raw::script_length(roster, task.0) as usize;
    Ok(&roster[start..start + length])
}

/// The base of a task: refused with 11 to 16, then 1.
pub fn base(roster: &[u8], task: Task) -> Result<Priority, Answer> {
    value(raw::base(roster, task.0)).map(Priority)
}

/// The ceiling of a protected object: refused with 11 to 16, then 2.
pub fn ceiling(roster: &[u8], object: Object) -> Result<Priority, Answer> {
    value(raw::ceiling(roster, object.0)).map(Priority)
}

/// How many steps a task's script has: refused with 11 to 16, then 1.
pub fn step_count(roster: &[u8], task: Task) -> Result<u64, Answer> {
    value(raw::step_count(roster, task.0))
}

/// A step of a task's script, Finish at its end and behind it: refused with 11 to 16, then 1.
pub fn step(roster: &[u8], task: Task, step: u64) -> Result<Step, Answer> {
    let packed = value(raw::step(roster, task.0, step))?;
    let (a, b) = (packed >> 8 & 0xFF, packed >> 16);
    Ok(match packed as u8 {
        1 => Step::Enter(Object(a)),
        2 => Step::Leave(Object(a)),
        3 => Step::Delay(b as u16),
        4 => Step::Work,
        5 => Step::Suspend,
        6 => Step::Release(Task(a)),
        7 => Step::Set(Task(a), Priority(b)),
        8 => Step::Again,
        _ => Step::Finish,
    })
}

/// Runs a roster under events of 8 bytes each and writes three bytes for each into the buffer: the answer, the running task or 255,
/// and the report. Refused with 11 to 20, then 21, then 22; a refused run writes nothing, and bytes behind the last reply stay.
pub fn run(roster: &[u8], events: &[u8], buffer: &mut [u8]) -> Result<(), Refusal> {
    passed(raw::run(roster, events, buffer))
}

/// What a roster is written from.
#[derive(Clone, Copy, Debug, PartialEq, Eq)]
pub struct Parts<'a> {
    /// The base of each task.
    pub bases: &'a [u8],
    /// The ceiling of each protected object.
    pub ceilings: &'a [u8],
    /// How many steps the script of each task has.
    pub lengths: &'a [u16],
    /// The steps of all scripts, 4 bytes each, one script after the other in task order.
    pub steps: &'a [u8],
}

/// Writes a roster at the front of the buffer and hands back exactly the bytes that it has; those behind it stay. Refused with 13; 14 for
/// lengths that are not one per base or do not add up to the steps; 15; 16; then 11 for a roster over 60,000 bytes; then 22 for a
/// buffer that is shorter than the roster. A refusal writes nothing. What [`check`] refuses with 17 to 20 is written.
pub fn write<'a>(parts: &Parts<'_>, buffer: &'a mut [u8]) -> Result<&'a mut [u8], Refusal> {
    let Parts {
        bases,
        ceilings,
        lengths,
        steps,
    } = *parts;
    let length = raw::written(bases, ceilings, lengths, steps, buffer) as usize;
    if length == 0 {
        write_answer(parts, buffer.len())?;
    }
    Ok(&mut buffer[..length])
}

/// What [`write`] says with a buffer of so many bytes.
pub fn write_answer(parts: &Parts<'_>, room: usize) -> Result<(), Refusal> {
    let Parts {
        bases,
        ceilings,
        lengths,
        steps,
    } = *parts;
    passed(raw::write_answer(
        bases,
        ceilings,
        lengths,
        steps,
        room as u64,
    ))
}
