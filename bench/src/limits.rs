//! The sizes that the plain codes are written for: those that the library names, and what the rules say beside them.

use std::fmt;

pub use dispatch::raw::NOBODY;
pub use dispatch::{
    LARGEST_READING, LARGEST_ROSTER, LONGEST_ADVANCE, MOST_EVENTS, MOST_OBJECTS, MOST_TASKS,
    REPLY_SIZE, SMALLEST_ROSTER, STATE_SIZE,
};

/// Priorities are 1 to this, whatever the other sizes.
pub const PRIORITIES: usize = dispatch::Priority::LAST.0 as usize;

pub const LONGEST_DELAY: u64 = 65_535;

/// How many tasks and objects something is measured with.
#[derive(Clone, Copy, PartialEq)]
pub struct Size {
    pub tasks: usize,
    pub objects: usize,
}

impl fmt::Display for Size {
    fn fmt(&self, f: &mut fmt::Formatter<'_>) -> fmt::Result {
        write!(f, "{} tasks, {} objects", self.tasks, self.objects)
    }
}

/// As many as there may be.
pub const FULL: Size = Size {
    tasks: MOST_TASKS,
    objects: MOST_OBJECTS,
};

/// Half of that, as in the figures of the time when no more were allowed.
pub const HALF: Size = Size {
    tasks: MOST_TASKS / 2,
    objects: MOST_OBJECTS / 2,
};

/// A small box.
pub const SMALL: Size = Size {
    tasks: 8,
    objects: HALF.objects,
};
