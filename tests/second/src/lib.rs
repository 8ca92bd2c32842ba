//! The independent second program: the dispatcher's rules in plain Rust, to compare answers with.

#![forbid(unsafe_code)]

pub mod answer;
pub mod board;
pub mod check;
pub mod limits;
pub mod machine;
pub mod report;
pub mod roster;
pub mod rules;
pub mod run;
pub mod sound;
pub mod state;
pub mod writer;
