//! The proved reader and check of rosters against the second program, on made and damaged rosters.

use dispatch::raw;
use harness::compare::{compare_parts, compare_roster};
use harness::report::{bytes_of, hex, Histogram};
use harness::rosters::{made, WHOLE_CASE};
use harness::sizes::{LAST_OBJECT, LAST_TASK, MOST_OBJECTS, MOST_TASKS};

const CASES: u64 = 24_000;
const LEAST: usize = 200;

#[test]
fn form_and_check_agree_with_the_second_program() {
    let mut histogram = Histogram::new();
    for seed in 0..CASES {
        histogram.count(compare_roster(&made(seed), &format!("seed {seed}")));
    }
    histogram.print("rosters by answer of the check");
    histogram.require(&[0, 11, 12, 13, 14, 15, 16, 17, 18, 19, 20], LEAST);
    assert!(histogram.of(0) * 2 >= CASES as usize, "at least half pass");
}

#[test]
fn the_parts_agree_with_the_second_program() {
    let around = |numbers: [usize; 4]| {
        let far = [200, 256, 1 << 32, (1 << 32) + 1, u64::MAX];
        let near = numbers.map(|n| n as u64).into_iter();
        [0].into_iter().chain(near).chain(far).collect::<Vec<u64>>()
    };
    let tasks = around([1, 4, LAST_TASK, MOST_TASKS]);
    let objects = around([1, 3, LAST_OBJECT, MOST_OBJECTS]);
    for seed in (0..CASES).step_by(12) {
        let bytes = made(seed);
        let input = || format!("seed {seed}, roster {}", hex(&bytes));
        compare_parts(&bytes, &tasks, &objects, &input);
    }
}

/// Document 01's whole case, and the variant with ceiling 19.
#[test]
fn the_whole_case() {
    let bytes = bytes_of(WHOLE_CASE);
    assert_eq!(bytes.len(), 46);
    assert_eq!(raw::check(&bytes), (0, 0, 0));
    let mut low = bytes.clone();
    low[36] = 0x13;
    assert_eq!(raw::check(&low), (18, 1, 1));
}
