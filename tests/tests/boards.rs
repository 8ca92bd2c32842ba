//! Boards through the exported functions, against the second program: filled from sound and scrambled states, and made ones asked.

use harness::calls;
use harness::compare::compare_fill;
use harness::layout::{bytes_of, mend_marks_in, put_rows, rows_of, state_of, ROW_SIZE, STATE_SIZE};
use harness::random::Random;
use harness::report::{hex, Histogram};
use harness::sizes::{MOST_ROWS, MOST_TASKS};
use harness::states::{plant, sound_state};
use second::board::{self, Kind, Row};

const CASES: u64 = 12_000;
const LEAST: usize = 200;

fn made_state(random: &mut Random) -> Vec<u8> {
    let mut state = sound_state(random);
    if random.once_in(3) {
        plant(random, &mut state);
    }
    let mut bytes = bytes_of(&state);
    if random.once_in(10) {
        bytes[random.below(STATE_SIZE)] = random.byte();
        // so that a changed queue is not refused for its mark alone
        if random.once_in(2) {
            mend_marks_in(&mut bytes);
        }
    }
    bytes
}

#[test]
fn filling_agrees_with_the_second_program() {
    let mut answers = Histogram::new();
    for seed in 0..CASES {
        let mut random = Random::new(seed);
        let bytes = made_state(&mut random);
        let tasks = state_of(&bytes).tasks.len();
        // around the number of tasks, and now and then far from it; bytes behind the last whole row too
        let rows = match random.below(4) {
            0 => random.below(tasks + 1),
            1 => random.below(MOST_TASKS + 8),
            _ => tasks + random.below(3),
        };
        let board: Vec<u8> = (0..ROW_SIZE * rows + random.below(3))
            .map(|_| random.byte())
            .collect();
        let answer = compare_fill(&bytes, &board, &format!("seed {seed}"));
        answers.count(answer);
    }
    answers.print("boards filled by answer");
    answers.require(&[0, 10, 13], LEAST);
}

fn made_row(random: &mut Random, priorities: usize) -> Row {
    let kinds = [
        Kind::Running,
        Kind::Ready,
        Kind::Ready,
        Kind::Delayed,
        Kind::Suspended,
        Kind::Ended,
    ];
    Row {
        kind: random.pick(&kinds),
        priority: random.within(1, priorities) as u64,
        position: random.pick(&[0, 0, 1, 2, 255]),
    }
}

#[test]
fn the_next_row_agrees_with_the_second_program() {
    let mut answers = Histogram::new();
    let (mut nobody, mut last) = (0, 0);
    for seed in 0..CASES {
        let mut random = Random::new(seed);
        let count = match random.below(10) {
            0..=3 => random.below(4),
            4 => random.within(8, MOST_ROWS),
            5..=7 => MOST_ROWS - random.below(2),
            _ => MOST_ROWS + random.pick(&[1, 8]),
        };
        let priorities = random.pick(&[1, 2, 32]);
        let rows: Vec<Row> = (0..count)
            .map(|_| made_row(&mut random, priorities))
            .collect();
        let mut bytes = vec![0; ROW_SIZE * count + random.below(3)];
        put_rows(&mut bytes, &rows);
        if count > 0 && random.once_in(4) {
            bytes[ROW_SIZE * random.below(count) + 1] = random.pick(&[0, 33, 255]);
        }
        if count > 0 && random.once_in(8) {
            bytes[ROW_SIZE * random.below(count)] = random.byte();
        }
        let before = bytes.clone();
        let found = calls::next(&bytes);
        let input = || format!("seed {seed}, board {}", hex(&bytes));
        assert_eq!(found, board::next(&rows_of(&bytes)), "{}", input());
        assert_eq!(bytes, before, "asking changes nothing, {}", input());
        match found {
            Ok(None) => nobody += 1,
            Ok(Some(row)) => last += (row + 1 == count) as usize,
            Err(_) => {}
        }
        answers.count(found.err().unwrap_or(0));
    }
    answers.print("boards asked by answer");
    println!("nobody {nobody}, the last row {last}");
    answers.require(&[0, 3, 13], LEAST);
    assert!(nobody >= LEAST && last >= LEAST);
}
