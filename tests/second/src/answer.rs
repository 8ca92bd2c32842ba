//! The numbers of document 01: answers of events (0 to 10) and refusals of rosters and runs.

pub const DONE: u8 = 0;
pub const NO_SUCH_TASK: u8 = 1;
pub const NO_SUCH_OBJECT: u8 = 2;
pub const BAD_PRIORITY: u8 = 3;
pub const BAD_READING: u8 = 4;
pub const NOBODY_RUNS: u8 = 5;
pub const ENDED_TASK: u8 = 6;
pub const INSIDE_ACTION: u8 = 7;
pub const ABOVE_CEILING: u8 = 8;
pub const NOT_INNERMOST: u8 = 9;
pub const UNSOUND: u8 = 10;

pub const ROSTER_LENGTH: u8 = 11;
pub const ROSTER_MARK: u8 = 12;
pub const COUNTS: u8 = 13;
pub const LAYOUT: u8 = 14;
pub const BAD_VALUE: u8 = 15;
pub const BAD_STEP: u8 = 16;

pub const HELD_IN_CHECK: u8 = 17;
pub const CEILING_IN_CHECK: u8 = 18;
pub const LEAVE_IN_CHECK: u8 = 19;
pub const OTHER_TASK_IN_CHECK: u8 = 20;

pub const BAD_EVENTS: u8 = 21;
pub const SHORT_BUFFER: u8 = 22;
