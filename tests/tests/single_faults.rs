//! One fault at a time, in every field of a roster, of a run's events and of a fresh start: what random faults may never make alone.

use harness::compare::{compare_fresh, compare_roster, compare_run};
use harness::random::Random;
use harness::report::{bytes_of, Histogram};
use harness::rosters::{every_step, most_rows, Plan, OBJECT_ROW, TASK_ROW, WHOLE_CASE};
use harness::sizes::{LAST_OBJECT, LAST_TASK, MOST_OBJECTS, MOST_TASKS};

/// Every byte of a roster as every other byte.
#[test]
fn every_byte_of_a_roster() {
    let mut answers = Histogram::new();
    for bytes in [every_step().bytes(), bytes_of(WHOLE_CASE)] {
        assert_eq!(compare_roster(&bytes, "as it is"), 0);
        for at in 0..bytes.len() {
            for value in 0..=255 {
                let mut changed = bytes.clone();
                changed[at] = value;
                answers.count(compare_roster(&changed, &format!("byte {at} as {value}")));
            }
        }
    }
    answers.print("changed rosters by answer");
    answers.require(&[0, 12, 13, 14, 15, 16, 17, 18, 19, 20], 1);
}

/// Every byte of a roster with all the tasks and objects there can be, as a few others.
#[test]
fn every_byte_of_the_most_rows() {
    let bytes = most_rows().bytes();
    assert_eq!(compare_roster(&bytes, "as it is"), 0);
    for at in 0..bytes.len() {
        let (tasks, objects) = (MOST_TASKS as u8, MOST_OBJECTS as u8);
        let limits = [objects, objects + 1, tasks, tasks + 1];
        let turned = [bytes[at] ^ 1, bytes[at] ^ 128];
        let few = [0, 1, 2, 9, 128, 255];
        for value in few.into_iter().chain(limits).chain(turned) {
            let mut changed = bytes.clone();
            changed[at] = value;
            compare_roster(&changed, &format!("byte {at} as {value}"));
        }
    }
}

/// Two bytes of a roster changed: which of two faults is named.
#[test]
fn two_bytes_of_a_roster() {
    let bytes = every_step().bytes();
    let mut answers = Histogram::new();
    for seed in 0..12_000 {
        let mut random = Random::new(seed);
        let mut changed = bytes.clone();
        for _ in 0..2 {
            let at = random.below(bytes.len());
            changed[at] = random.pick(&[0, 1, 2, 3, 5, 7, 8, 9, 12, 21, 33, 255]);
        }
        answers.count(compare_roster(&changed, &format!("seed {seed}")));
    }
    answers.print("twice changed rosters by answer");
}

/// A bad base, ceiling or zero byte in one row alone, at every row and every count of rows.
#[test]
fn one_bad_row() {
    for tasks in [1, 2, LAST_TASK, MOST_TASKS] {
        for objects in [0, 1, 2, LAST_OBJECT, MOST_OBJECTS] {
            let plan = Plan {
                bases: vec![7; tasks],
                ceilings: vec![7; objects],
                scripts: vec![Vec::new(); tasks],
            };
            let bytes = plan.bytes();
            assert_eq!(compare_roster(&bytes, "as it is"), 0);
            let rows = (0..tasks).map(|t| TASK_ROW * t);
            let rows = rows.chain((0..objects).map(|o| TASK_ROW * tasks + OBJECT_ROW * o));
            for row in rows {
                for (at, value) in [
                    (row, 0),
                    (row, 33),
                    (row, 255),
                    (row + 1, 1),
                    (row + 1, 128),
                ] {
                    let mut changed = bytes.clone();
                    changed[at] = value;
                    let number = compare_roster(&changed, &format!("byte {at} as {value}"));
                    assert_eq!(number, 15, "byte {at} as {value}, {tasks} tasks");
                }
            }
        }
    }
}

/// A roster of two tasks and one object over eight bytes of scripts, with these starts and lengths in its tables.
fn with_layout(rows: [(usize, usize); 2], object_table: usize, task_table: usize) -> Vec<u8> {
    let mut bytes = [4, 0, 0, 0].repeat(2);
    for (start, length) in rows {
        bytes.extend([7, 0, start as u8, 0, length as u8, 0]);
    }
    bytes.extend([7, 0, 0x52, 0x35, 2, 1]);
    bytes.extend([object_table as u8, 0, task_table as u8, 0]);
    bytes
}

/// Every start and length of two scripts: gaps, overlaps, parts of steps and the wrong order.
#[test]
fn every_layout_of_two_scripts() {
    let mut answers = Histogram::new();
    let pairs = || (0..=9).flat_map(|start| (0..=9).map(move |length| (start, length)));
    for first in pairs() {
        for second in pairs() {
            let bytes = with_layout([first, second], 20, 8);
            answers.count(compare_roster(&bytes, &format!("{first:?} {second:?}")));
        }
    }
    // no steps and two, one and one, two and none
    assert_eq!(answers.of(0), 3);
}

/// Every start of the two tables.
#[test]
fn every_layout_of_the_tables() {
    let mut answers = Histogram::new();
    for object_table in 0..=40 {
        for task_table in 0..=40 {
            let bytes = with_layout([(0, 4), (4, 4)], object_table, task_table);
            answers.count(compare_roster(
                &bytes,
                &format!("{object_table} {task_table}"),
            ));
        }
    }
    assert_eq!((answers.of(0), answers.of(14)), (1, 41 * 41 - 1));
}

/// A record of every kind with nothing else in it, and of each kind around those there are with one bit elsewhere: alone, and
/// among good Steps.
#[test]
fn every_field_of_an_event() {
    let roster = every_step().bytes();
    let mut records: Vec<[u8; 8]> = (0..=255).map(|kind| [kind, 0, 0, 0, 0, 0, 0, 0]).collect();
    for kind in 0..=5 {
        for bit in 0..56 {
            let mut record = [kind, 0, 0, 0, 0, 0, 0, 0];
            record[1 + bit / 8] = 1 << (bit % 8);
            records.push(record);
        }
    }
    let mut answers = Histogram::new();
    let step = [3, 0, 0, 0, 0, 0, 0, 0];
    for record in records {
        for events in [
            vec![record],
            vec![record, step, step],
            vec![step, step, record],
        ] {
            let bytes = events.concat();
            answers.count(compare_run(
                &roster,
                &bytes,
                10,
                &format!("record {record:?}"),
            ));
        }
    }
    answers.print("lists with one odd record by answer");
    answers.require(&[0, 21], 200);
}

/// Every pair of faults of a run: roster, events, buffer.
#[test]
fn every_pair_of_faults_of_a_run() {
    let good = every_step().bytes();
    let mut low_ceiling = every_step();
    low_ceiling.ceilings[1] = 11;
    let mut bad_step = every_step();
    bad_step.scripts[1][0].b = 1;
    let rosters = [
        good.clone(),
        Vec::new(),
        bad_step.bytes(),
        low_ceiling.bytes(),
    ];
    let step = [3, 0, 0, 0, 0, 0, 0, 0];
    let lists = [
        Vec::new(),
        step.to_vec(),
        step.repeat(3),
        step.repeat(2)[..15].to_vec(),
        [step, [9; 8]].concat(),
        [[9; 8], step].concat(),
    ];
    let mut answers = Histogram::new();
    for (r, roster) in rosters.iter().enumerate() {
        for (e, events) in lists.iter().enumerate() {
            for size in 0..15 {
                let input = format!("roster {r}, events {e}");
                answers.count(compare_run(roster, events, size, &input));
            }
        }
    }
    answers.require(&[0, 11, 16, 18, 21, 22], 1);
}

/// A fresh start of every number of tasks and objects around the limits, and with one bad value at every place.
#[test]
fn every_value_of_a_fresh_start() {
    for tasks in 0..=MOST_TASKS + 2 {
        for objects in 0..=MOST_OBJECTS + 2 {
            let (mut bases, mut ceilings) = (vec![9; tasks], vec![9; objects]);
            let counted = (1..=MOST_TASKS).contains(&tasks) && objects <= MOST_OBJECTS;
            let wanted = if counted { 0 } else { 13 };
            assert_eq!(
                compare_fresh(&bases, &ceilings, "one fault"),
                wanted,
                "{tasks}, {objects}"
            );
            bases.iter_mut().take(1).for_each(|base| *base = 0);
            ceilings
                .iter_mut()
                .take(1)
                .for_each(|ceiling| *ceiling = 33);
            compare_fresh(&bases, &ceilings, "one fault");
        }
    }
    for place in 0..MOST_TASKS + MOST_OBJECTS {
        for value in 0..=255 {
            let (mut bases, mut ceilings) = ([9; MOST_TASKS], [9; MOST_OBJECTS]);
            match place {
                0..=LAST_TASK => bases[place] = value,
                _ => ceilings[place - MOST_TASKS] = value,
            }
            compare_fresh(&bases, &ceilings, "one fault");
        }
    }
}
