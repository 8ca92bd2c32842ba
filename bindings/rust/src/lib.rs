//! A proved task dispatcher by Annex D of the Ada reference manual, for Rust: safe functions over `libexports.a`.
//!
//! ```
//! use dispatch::{Answer, Priority, Report, State, Task};
//!
//! let (answer, mut state) = State::fresh(&[10, 20, 10], &[]);
//! assert_eq!(answer, Answer::Done);
//! assert_eq!(state.running(), Some(Task(1)));
//! assert_eq!(state.set(Task(1), Priority(10)).done(), Ok(Report::Changed));
//! assert_eq!(state.running(), Some(Task(0)));
//! ```
//!
//! - [`State`] is a state of tasks and protected objects: make a fresh one, then let events move it.
//! - [`roster`] reads, checks and writes a roster of tasks, ceilings and scripts, and runs it under events.
//! - [`Row`] is a row of a board, which a state fills and which [`next`] asks for the row to run next.
//! - [`Answer`] has every number that a call answers, and says which call can answer which.
//! - [`Report`] says why the processor changed hands at an event; an [`Outcome`] has both.
//! - [`raw`] has the same calls on bytes of any length, with plain numbers.
//!
//! Every number is taken as it is: one that is out of range is refused by its rule, and no call panics because of one.

#![no_std]

mod answer;
mod board;
mod numbers;
pub mod raw;
mod report;
pub mod roster;
mod state;

pub use answer::Answer;
pub use board::{next, Place, Row};
pub use numbers::{
    Object, Priority, Task, LARGEST_READING, LARGEST_ROSTER, LONGEST_ADVANCE, MOST_EVENTS,
    MOST_OBJECTS, MOST_TASKS, REPLY_SIZE, ROW_SIZE, SMALLEST_ROSTER, STATE_SIZE,
};
pub use report::{Outcome, Report};
pub use state::State;
