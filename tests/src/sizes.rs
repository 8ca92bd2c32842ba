//! The sizes that the papers set, each named once: every other size in the tests is reckoned from these.

/// How many tasks a state or a roster has at most.
pub const MOST_TASKS: usize = 64;
/// How many protected objects a state or a roster has at most.
pub const MOST_OBJECTS: usize = 32;
/// How many bytes a roster has at least, and at most.
pub const SMALLEST_ROSTER: usize = 14;
pub const LARGEST_ROSTER: usize = 60_000;
/// How many rows a board has at most when it is asked for its next row.
pub const MOST_ROWS: usize = 64;

/// The highest numbers of a task and of an object.
pub const LAST_TASK: usize = MOST_TASKS - 1;
pub const LAST_OBJECT: usize = MOST_OBJECTS - 1;

/// How many bytes an event of a run has, and how many events a run takes: 32,768 bytes of them.
pub const EVENT_SIZE: usize = 8;
pub const MOST_EVENTS: usize = 32_768 / EVENT_SIZE;
