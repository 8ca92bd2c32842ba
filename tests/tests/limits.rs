//! Sizes at their limits and one beyond, with nothing else wrong: rosters, events, buffers, boards and numbers.

use harness::calls::{self, done};
use harness::compare::{compare_after, compare_event, compare_parts, compare_roster, compare_run};
use harness::events::{record_of, room_for, REPLY_SIZE, STEP};
use harness::layout::{bytes_of, put_rows, rows_of, ROW_SIZE};
use harness::random::Random;
use harness::report::hex;
use harness::rosters::{
    every_step, largest, step, Plan, AGAIN, DELAY, ENTER, TASK_ROW, TRAILER, WORK,
};
use harness::sizes::{
    LARGEST_ROSTER, LAST_OBJECT, LAST_TASK, MOST_EVENTS, MOST_OBJECTS, MOST_ROWS, MOST_TASKS,
    SMALLEST_ROSTER,
};
use harness::states::sound_state;
use second::board::{self, Kind, Row};
use second::limits::{LARGEST_READING, LONGEST_ADVANCE};
use second::machine::Event;
use second::run::Command;
use second::state::fresh;

/// Tasks and objects with which whole steps fill the largest roster.
const FULL: [(usize, usize); 4] = [
    (1, 1),
    (2, 0),
    (LAST_TASK, LAST_OBJECT),
    (MOST_TASKS, MOST_OBJECTS),
];

#[test]
fn a_roster_of_the_largest_size() {
    for (tasks, objects) in FULL {
        let plan = largest(tasks, objects);
        let bytes = plan.bytes();
        let input = format!("{tasks} tasks, {objects} objects");
        assert_eq!(bytes.len(), LARGEST_ROSTER);
        assert_eq!(compare_roster(&bytes, &input), 0);
        let ends = |last: usize| [0, 1, last as u64, last as u64 + 1];
        let (ts, os) = (ends(LAST_TASK), ends(LAST_OBJECT));
        compare_parts(&bytes, &ts, &os, &|| input.clone());
        let steps = MOST_TASKS + 8;
        let answer = compare_run(&bytes, &STEP.repeat(steps), REPLY_SIZE * steps, &input);
        assert_eq!(answer, 0);
        // the last step is looked at too
        let mut late = plan.clone();
        *late.scripts[tasks - 1].last_mut().unwrap() = step(WORK, 1, 0);
        assert_eq!(compare_roster(&late.bytes(), &input), 16);
        if objects > 0 {
            *late.scripts[tasks - 1].last_mut().unwrap() = step(ENTER, 0, 0);
            assert_eq!(compare_roster(&late.bytes(), &input), 17);
        }
        // one byte more, anywhere, and one step more
        let ends = [LARGEST_ROSTER - TRAILER, LARGEST_ROSTER];
        for at in [0, 4, LARGEST_ROSTER / 2].into_iter().chain(ends) {
            let mut longer = bytes.clone();
            longer.insert(at, 0);
            assert_eq!(
                compare_roster(&longer, &format!("{input}, more at {at}")),
                11
            );
        }
        let mut longer = plan.clone();
        longer.scripts[tasks - 1].push(step(WORK, 0, 0));
        assert_eq!(compare_roster(&longer.bytes(), &input), 11);
    }
}

/// Every bit of the tables and the trailer of the largest roster, whose starts and lengths fill both bytes.
#[test]
fn the_tables_of_a_roster_of_the_largest_size() {
    let bytes = largest(2, 0).bytes();
    let trailer = LARGEST_ROSTER - TRAILER;
    for at in trailer - 2 * TASK_ROW..LARGEST_ROSTER {
        for bit in 0..8 {
            let mut changed = bytes.clone();
            changed[at] ^= 1 << bit;
            let number = compare_roster(&changed, &format!("bit {bit} of byte {at}"));
            assert!(number != 0 || at < trailer, "bit {bit} of byte {at}");
        }
    }
}

/// Every length up to that of a small roster, from its front and from its back.
#[test]
fn a_part_of_a_roster() {
    let smallest = Plan {
        bases: vec![1],
        ceilings: Vec::new(),
        scripts: vec![Vec::new()],
    };
    assert_eq!(smallest.bytes().len(), SMALLEST_ROSTER);
    for bytes in [smallest.bytes(), every_step().bytes()] {
        for cut in 0..=bytes.len() {
            compare_roster(&bytes[cut..], &format!("without the first {cut}"));
            compare_roster(&bytes[..cut], &format!("the first {cut}"));
        }
    }
}

/// Good Steps up to the most there may be, and beyond; and the same with a few bytes more or less.
#[test]
fn the_most_events() {
    let roster = every_step().bytes();
    let most = (MOST_EVENTS - 1..=MOST_EVENTS + 2).chain(2 * MOST_EVENTS - 1..=2 * MOST_EVENTS + 1);
    for count in [0, 1, 2, 10_000].into_iter().chain(most) {
        let input = format!("{count} steps");
        let events = STEP.repeat(count);
        let needed = REPLY_SIZE * count;
        for size in [needed, needed + 1, needed + 9] {
            let wanted = if count <= MOST_EVENTS { 0 } else { 21 };
            assert_eq!(compare_run(&roster, &events, size, &input), wanted);
        }
        if count > 0 {
            let wanted = if count <= MOST_EVENTS { 22 } else { 21 };
            for size in [0, count, 2 * count, needed - REPLY_SIZE, needed - 1] {
                assert_eq!(compare_run(&roster, &events, size, &input), wanted);
            }
        }
        for more in 1..8 {
            let longer = [&events[..], &STEP[..more]].concat();
            let size = needed + REPLY_SIZE;
            assert_eq!(compare_run(&roster, &longer, size, &input), 21);
        }
    }
}

const DELAYS: [u16; 10] = [1, 2, 255, 256, 257, 32_767, 32_768, 32_769, 65_534, 65_535];

/// Around a due time, and with each of its lowest bits turned.
fn readings_around(due: u64) -> Vec<u64> {
    let turned = (0..16).map(|bit| due ^ (1 << bit));
    [due - 1, due, due + 1].into_iter().chain(turned).collect()
}

/// A task that delays itself by a step, and readings around the time when it is due.
#[test]
fn every_length_of_a_delay() {
    let clock = |reading| record_of(Command::Clock(reading));
    for d in DELAYS {
        let plan = Plan {
            bases: vec![1, 2],
            ceilings: Vec::new(),
            scripts: vec![vec![step(AGAIN, 0, 0)], vec![step(DELAY, 0, d)]],
        };
        for now in [0, 1, 65_535, LONGEST_ADVANCE] {
            let due = now + d as u64;
            for reading in readings_around(due) {
                let events = [clock(now), STEP, clock(reading), STEP, clock(due - 1)].concat();
                let input = format!("{d} from {now}");
                compare_run(&plan.bytes(), &events, room_for(&events), &input);
            }
        }
    }
}

/// The same on states, which no run reaches: at and just below the largest reading.
#[test]
fn every_length_of_a_delay_near_the_largest_reading() {
    for d in DELAYS {
        for before in [0, 1, 65_534, 65_535, 65_536, 65_537] {
            let (_, mut state) = fresh(&[1, 2], &[]);
            state.now = LARGEST_READING - before;
            let input = format!("{d} from {}", state.now);
            let due = state.now + d as u64;
            let (outcome, bytes) = compare_after(&bytes_of(&state), Event::Delay(d), &input);
            assert_eq!(outcome, done(2), "{input}");
            for reading in readings_around(due).into_iter().chain([LARGEST_READING]) {
                compare_event(&bytes, Event::Clock(reading), &input);
            }
        }
    }
}

/// Asks a board; gives whether it is refused.
fn compare_next(bytes: &[u8]) -> bool {
    let found = calls::next(bytes);
    assert_eq!(found, board::next(&rows_of(bytes)), "board {}", hex(bytes));
    found.is_err()
}

/// Every two rows of a few kinds, priorities and positions, and every two positions.
#[test]
fn every_two_rows() {
    let mut rows = Vec::new();
    for kind in [0, 1, 2, 3, 4, 5, 255] {
        for priority in [0, 1, 2, 31, 32, 33] {
            rows.extend([0, 1, 128, 255].map(|position| [kind, priority, position]));
        }
    }
    for first in &rows {
        for second in &rows {
            compare_next(&[*first, *second].concat());
        }
    }
    for position in 0..=255 {
        for other in 0..=255 {
            compare_next(&[1, 7, position, 1, 7, other]);
        }
    }
}

/// Boards of many sizes whose rows are all good, and with one bad priority in a row of each kind.
#[test]
fn the_most_rows() {
    let kinds = [
        Kind::Running,
        Kind::Ready,
        Kind::Delayed,
        Kind::Suspended,
        Kind::Ended,
    ];
    let far = [255, 256, 257, 256 + MOST_ROWS, 1000];
    for count in (0..=MOST_ROWS + 8).chain([2 * MOST_ROWS]).chain(far) {
        for kind in kinds {
            let row = Row {
                kind,
                priority: 32,
                position: 0,
            };
            let mut bytes = vec![0; ROW_SIZE * count];
            put_rows(&mut bytes, &vec![row; count]);
            assert_eq!(compare_next(&bytes), count > MOST_ROWS);
            for (at, value) in [(0, 0), (0, 33), (count / 2, 128), (count.max(1) - 1, 255)] {
                let mut changed = bytes.clone();
                if let Some(priority) = changed.get_mut(ROW_SIZE * at + 1) {
                    *priority = value;
                    assert!(compare_next(&changed), "row {at} as {value}");
                }
            }
        }
    }
}

/// Events with numbers at the limits and far beyond, on sound states.
#[test]
fn every_number_of_an_event() {
    let mut counts: Vec<usize> = (0..=MOST_TASKS + 2).collect();
    counts.extend([
        255,
        256,
        257,
        65_536,
        1 << 32,
        (1 << 32) + 1,
        1 << 63,
        usize::MAX,
    ]);
    let mut priorities: Vec<u64> = vec![0, 1, 2, 15, 31, 32, 33, 34, 64, 128, 254, 255];
    priorities.extend(FAR_PRIORITIES);
    for seed in 0..60 {
        let mut random = Random::new(seed);
        let state = sound_state(&mut random);
        let bytes = bytes_of(&state);
        let now = state.now;
        let mut events: Vec<Event> = Vec::new();
        for &n in &counts {
            events.extend([Event::Enter(n), Event::Leave(n), Event::Release(n)]);
            events.extend(priorities.iter().map(|p| Event::Set(n, *p)));
        }
        events.extend([now.wrapping_sub(1), now, now + 1, u64::MAX].map(Event::Clock));
        for top in [1 << 48, 1 << 49, 1 << 60, 1 << 63] {
            events.extend([top - 1, top, top | now, top | (now + 1)].map(Event::Clock));
        }
        events.extend([LARGEST_READING - 1, LARGEST_READING].map(Event::Clock));
        let farthest = now + LONGEST_ADVANCE;
        events.extend([farthest - 1, farthest, farthest + 1].map(Event::Clock));
        events.extend([0, 1, 255, 256, 32_767, 32_768, 65_534, 65_535].map(Event::Delay));
        for event in events {
            compare_event(&bytes, event, &format!("seed {seed}"));
        }
    }
}

/// Priorities that fit no byte.
const FAR_PRIORITIES: [u64; 8] = [
    256,
    257,
    65_536 + 1,
    (1 << 32) + 1,
    (1 << 48) + 15,
    (1 << 63) + 32,
    u64::MAX - 255 + 1,
    u64::MAX,
];
