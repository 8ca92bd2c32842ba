//! The sizes of document 01 and its requests, each named once.

use std::ops::RangeInclusive;

/// How many tasks a state or a roster has (request 2026-07).
pub const TASKS: RangeInclusive<usize> = 1..=64;

/// How many protected objects a state or a roster has at most (request 2026-07).
pub const MAX_OBJECTS: usize = 32;

/// The priorities that a base, a ceiling or a Set may name. Request 2026-07 lets them stay, so that
/// there can be more tasks than priorities.
pub const PRIORITIES: RangeInclusive<u64> = 1..=32;

/// How many ready queues there are: one for each priority.
pub const QUEUES: usize = 32;

/// The largest reading of the clock (48 bits).
pub const LARGEST_READING: u64 = 281_474_976_710_655;

/// How many ticks past now a reading is at most (request 2026-08).
pub const LONGEST_ADVANCE: u64 = 86_400_000;

/// The longest Delay (16 bits).
pub const LONGEST_DELAY: u64 = 65_535;

/// How many bytes a roster has, the most by request 2026-07; two bytes can name every place in it.
pub const ROSTER_BYTES: RangeInclusive<usize> = 14..=60_000;

/// How many bytes the events of a run have at most; longer rosters do not make it more.
pub const MAX_EVENT_BYTES: usize = 32_768;

/// How many rows a board has at most when it is asked for its next task (request 2026-07).
pub const MAX_ROWS: usize = 64;
