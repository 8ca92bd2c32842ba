//! The library's calls in the second program's kinds: an event, a script, a step and the next row of a board.

use dispatch::raw;
use second::machine::{Event, Outcome};

/// What an accepted event gives back.
pub const fn done(report: u8) -> Outcome {
    Outcome { answer: 0, report }
}

/// What a refused event gives back: "A refused event reports 0."
pub const fn refusal(answer: u8) -> Outcome {
    Outcome { answer, report: 0 }
}

/// One event on a state's bytes: its answer and its report.
pub fn event(state: &mut [u8], event: Event) -> Outcome {
    let (answer, report) = match event {
        Event::Enter(o) => raw::enter(state, o as u64),
        Event::Leave(o) => raw::leave(state, o as u64),
        Event::Delay(d) => raw::delay(state, d),
        Event::Suspend => raw::suspend(state),
        Event::Release(t) => raw::release(state, t as u64),
        Event::Clock(r) => raw::clock(state, r),
        Event::Set(t, p) => raw::set(state, t as u64, p),
        Event::Work => raw::work(state),
        Event::Finish => raw::finish(state),
    };
    Outcome { answer, report }
}

/// The part of the roster that is the script of a task, or the number of the refusal, which gives an empty part.
pub fn script(roster: &[u8], task: u64) -> Result<&[u8], u8> {
    let start = raw::script_start(roster, task);
    let length = raw::script_length(roster, task);
    match raw::script_number(roster, task) {
        0 => Ok(&roster[start as usize..(start + length) as usize]),
        refusal => {
            assert_eq!((start, length), (0, 0), "a refusal gives an empty part");
            Err(refusal)
        }
    }
}

/// A value of a roster, or the number of the refusal, which has the value 0 beside it.
pub fn value((number, value): (u8, u64)) -> Result<u64, u8> {
    match number {
        0 => Ok(value),
        refusal => {
            assert_eq!(value, 0, "a refusal gives no value");
            Err(refusal)
        }
    }
}

/// The next row of a board, nobody, or the number of the refusal.
pub fn next(board: &[u8]) -> Result<Option<usize>, u8> {
    match raw::next(board) {
        (0, 255) => Ok(None),
        (0, row) => Ok(Some(row as usize)),
        (refusal, row) => {
            assert_eq!(row, 255, "a refusal names no row");
            Err(refusal)
        }
    }
}
