//! The kinds of numbers, so that none is passed for another, and the sizes.

/// How many bytes a row of a board has.
pub const ROW_SIZE: usize = 3;

/// A state or a roster has 1 to this many tasks, and a board that is asked at most this many rows.
pub const MOST_TASKS: usize = 64;

/// A state or a roster has at most this many protected objects.
pub const MOST_OBJECTS: usize = 32;

/// A roster has at least this many bytes.
pub const SMALLEST_ROSTER: usize = 14;

/// A roster has at most this many bytes.
pub const LARGEST_ROSTER: usize = 60_000;

/// How many bytes a state has: a head; a row and a list of what is held for each task; a ceiling for each object; a ready queue for each
/// priority. A list begins with its length.
pub const STATE_SIZE: usize = HEAD_SIZE
    + MOST_TASKS * (TASK_SIZE + 1 + MOST_OBJECTS)
    + MOST_OBJECTS
    + Priority::LAST.0 as usize * (1 + MOST_TASKS);
const HEAD_SIZE: usize = 16;
const TASK_SIZE: usize = 16;

/// A run has at most this many events, of 8 bytes each.
pub const MOST_EVENTS: usize = 4096;

/// A run writes this many bytes for each event: answer, running task or 255, report.
pub const REPLY_SIZE: usize = 3;

/// The largest reading of the clock.
pub const LARGEST_READING: u64 = 281_474_976_710_655;

/// A reading is at most this many ticks past now.
pub const LONGEST_ADVANCE: u64 = 86_400_000;

/// The number of a task, from 0.
#[derive(Clone, Copy, Debug, PartialEq, Eq, PartialOrd, Ord, Hash)]
pub struct Task(pub u64);

/// The number of a protected object, from 0.
#[derive(Clone, Copy, Debug, PartialEq, Eq, PartialOrd, Ord, Hash)]
pub struct Object(pub u64);

/// A priority: 1 to 30 are Priority, 31 and 32 Interrupt_Priority. Any other number is refused with 3.
#[derive(Clone, Copy, Debug, PartialEq, Eq, PartialOrd, Ord, Hash)]
pub struct Priority(pub u64);

impl Priority {
    pub const FIRST: Priority = Priority(1);
    pub const LAST: Priority = Priority(32);
    pub const DEFAULT: Priority = Priority(15);
}
