//! What the tests share: made inputs, the library's calls in the second program's kinds, the programs, and reports.

pub mod calls;
pub mod compare;
pub mod events;
pub mod layout;
pub mod levels;
pub mod parts;
pub mod premises;
pub mod programs;
pub mod random;
pub mod report;
pub mod rosters;
pub mod runs;
pub mod sizes;
pub mod states;
pub mod writers;
