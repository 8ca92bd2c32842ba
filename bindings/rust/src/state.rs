//! A state of tasks and protected objects, moved by events.

use crate::answer::Answer;
use crate::board::{bytes_of_mut, Row};
use crate::numbers::{Object, Priority, Task, STATE_SIZE};
use crate::raw;
use crate::report::Outcome;

/// A state, as its 5264 bytes. Every event answers and reports why the processor changed hands, and a refused one leaves the state just
/// as it was.
#[derive(Clone, Debug, PartialEq, Eq)]
pub struct State {
    bytes: [u8; STATE_SIZE],
}

impl State {
    /// The fresh state of these bases (one for each task) and ceilings (one for each object): 0, else 13 for counts out of range,
    /// else 15 for a bad value. Beside a refusal stands the fresh state of a single task of base 1 without objects.
    pub fn fresh(bases: &[u8], ceilings: &[u8]) -> (Answer, State) {
        let mut bytes = [0; STATE_SIZE];
        let number = raw::fresh(bases, ceilings, &mut bytes);
        (Answer::from_library(number), State { bytes })
    }

    /// A state from bytes that were kept: any bytes are a state, though few are sound.
    pub const fn from_bytes(bytes: [u8; STATE_SIZE]) -> State {
        State { bytes }
    }

    /// The state's bytes, to be kept; `docs/LAYOUT.md` has their layout.
    pub const fn as_bytes(&self) -> &[u8; STATE_SIZE] {
        &self.bytes
    }

    /// The running task enters an object: 0, 2, 5, 7, 8, 10.
    pub fn enter(&mut self, object: Object) -> Outcome {
        Outcome::from_library(raw::enter(&mut self.bytes, object.0))
    }

    /// The running task leaves its innermost object: 0, 2, 5, 9, 10.
    pub fn leave(&mut self, object: Object) -> Outcome {
        Outcome::from_library(raw::leave(&mut self.bytes, object.0))
    }

    /// The running task is delayed by this many ticks; 0 sends it to the tail of its ready queue: 0, 5, 7, 10.
    pub fn delay(&mut self, ticks: u16) -> Outcome {
        Outcome::from_library(raw::delay(&mut self.bytes, ticks))
    }

    /// The running task is suspended, or uses up its permit and runs on: 0, 5, 7, 10.
    pub fn suspend(&mut self) -> Outcome {
        Outcome::from_library(raw::suspend(&mut self.bytes))
    }

    /// A suspended task becomes ready, any other gets a permit: 0, 1, 10.
    pub fn release(&mut self, task: Task) -> Outcome {
        Outcome::from_library(raw::release(&mut self.bytes, task.0))
    }

    /// The clock reads this, from now to the longest advance past it: tasks that are due become ready: 0, 4, 10.
    pub fn clock(&mut self, reading: u64) -> Outcome {
        Outcome::from_library(raw::clock(&mut self.bytes, reading))
    }

    /// A task's base becomes this, or waits until the task leaves its outermost object: 0, 1, 3, 6, 10.
    /// A ready or running task goes to the tail of its queue, whatever the value.
    pub fn set(&mut self, task: Task, priority: Priority) -> Outcome {
        Outcome::from_library(raw::set(&mut self.bytes, task.0, priority.0))
    }

    /// The running task works; nothing changes: 0, 5, 10.
    pub fn work(&mut self) -> Outcome {
        Outcome::from_library(raw::work(&mut self.bytes))
    }

    /// The running task is ended: 0, 5, 7, 10.
    pub fn finish(&mut self) -> Outcome {
        Outcome::from_library(raw::finish(&mut self.bytes))
    }

    /// Whether the state is sound. Fresh states are, and events keep it so.
    pub fn is_sound(&self) -> bool {
        raw::sound(&self.bytes) == 0
    }

    /// The running task, if one runs.
    pub fn running(&self) -> Option<Task> {
        match raw::running(&self.bytes) {
            raw::NOBODY => None,
            task => Some(Task(task.into())),
        }
    }

    /// Fills the first rows of a board, one for each task, and no others: 0; or 10, then 13 for too few rows, writing nothing.
    pub fn fill(&self, board: &mut [Row]) -> Answer {
        Answer::from_library(raw::fill(&self.bytes, bytes_of_mut(board)))
    }
}
