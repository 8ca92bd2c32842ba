//! The tests of the second program, gathered in one crate so that they share their helpers.

mod big_rosters;
mod board;
mod check;
mod events;
mod form;
mod fresh;
mod leaps;
mod marked_cases;
mod marks;
mod program;
mod random;
mod random_parts;
mod reports;
mod run;
mod same_base;
mod sizes;
mod soundness;
mod support;
mod vectors;
mod whole_case;
mod writer;
