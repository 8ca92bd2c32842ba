//! The events of a run, 8 bytes each: of a command, and made ones, mostly good; and its replies, 3 bytes each.

use second::limits::LONGEST_ADVANCE;
use second::machine::Outcome;
use second::run::{Command, Run};

use crate::random::Random;
use crate::sizes::{EVENT_SIZE, MOST_EVENTS, MOST_TASKS};

/// What a run writes for an event: answer, running task or 255, report.
pub const REPLY_SIZE: usize = 3;

/// Document 01's events of its whole case: Step, Step, Clock 5, Step, Step, Step, Clock 4, then four Steps.
pub const WHOLE_CASE_EVENTS: &str = "0300000000000000 0300000000000000 0100050000000000 \
    0300000000000000 0300000000000000 0300000000000000 0100040000000000 \
    0300000000000000 0300000000000000 0300000000000000 0300000000000000";

/// A Step as an event of a run.
pub const STEP: [u8; EVENT_SIZE] = [3, 0, 0, 0, 0, 0, 0, 0];

/// How many bytes a run writes for these events.
pub fn room_for(events: &[u8]) -> usize {
    events.len() / EVENT_SIZE * REPLY_SIZE
}

/// The second program's reply to one event.
pub fn reply_of(run: &mut Run, command: Command) -> [u8; REPLY_SIZE] {
    let Outcome { answer, report } = run.take(command);
    [answer, run.running_byte(), report]
}

/// "0 no change": that a report is 0 exactly where the same task runs as in the reply before, or nobody in both.
pub fn assert_no_change_is_0(replies: &[u8], input: &dyn Fn() -> String) {
    let replies: Vec<&[u8]> = replies.chunks_exact(REPLY_SIZE).collect();
    for (i, two) in replies.windows(2).enumerate() {
        let (same, unchanged) = (two[0][1] == two[1][1], two[1][2] == 0);
        assert_eq!(same, unchanged, "reply {}, {}", i + 1, input());
    }
}

/// The bytes of one event.
pub fn record_of(command: Command) -> [u8; EVENT_SIZE] {
    let (kind, a, value) = match command {
        Command::Clock(reading) => (1, 0, reading),
        Command::Release(t) => (2, t as u8, 0),
        Command::Step => (3, 0, 0),
        Command::Set(t, p) => (4, t as u8, p),
    };
    let [v0, v1, v2, v3, v4, v5, ..] = value.to_le_bytes();
    [kind, a, v0, v1, v2, v3, v4, v5]
}

/// The bytes of some events.
pub fn records_of(commands: &[Command]) -> Vec<u8> {
    commands.iter().flat_map(|c| record_of(*c)).collect()
}

/// A reading: mostly on by little; now and then backwards, past a long Delay, around the longest advance, or a leap. Now goes on
/// to one that is taken.
pub fn reading_of(random: &mut Random, now: &mut u64) -> u64 {
    let reading = match random.below(24) {
        0 | 1 => now.saturating_sub(random.within(1, 9) as u64),
        2 => *now + random.pick(&[300, 70_000]),
        3 => *now + LONGEST_ADVANCE + random.below(2) as u64,
        4 => random.word() >> 16,
        _ => *now + random.below(10) as u64,
    };
    if (*now..=*now + LONGEST_ADVANCE).contains(&reading) {
        *now = reading;
    }
    reading
}

/// One record: mostly a Step; a Release and a Set name a task of a small roster, or one up to the most and past it.
fn record(random: &mut Random, now: &mut u64) -> [u8; EVENT_SIZE] {
    let mut raw = [0; EVENT_SIZE];
    let tasks = random.pick(&[6, MOST_TASKS + 2]);
    match random.below(20) {
        0..=2 => return record_of(Command::Clock(reading_of(random, now))),
        3 | 4 => {
            raw[0] = 2;
            raw[1] = random.below(tasks) as u8;
        }
        5 | 6 => {
            raw[0] = 4;
            raw[1] = random.below(tasks) as u8;
            raw[2] = random.pick(&[0, 1, 2, 5, 15, 20, 31, 32, 33, 255]);
            raw[6] = random.once_in(20) as u8;
        }
        _ => raw[0] = 3,
    }
    raw
}

/// So many events of a run, none of them bad.
pub fn good_events(random: &mut Random, count: usize) -> Vec<u8> {
    let mut now = 0;
    let records = (0..count).flat_map(|_| record(random, &mut now));
    records.collect()
}

/// The events of a run; about one list in twelve is bad in one of the ways that answer 21 names.
pub fn events_of(random: &mut Random) -> Vec<u8> {
    let longest = random.pick(&[0, 4, 40, 40, 400, 1500, MOST_EVENTS]);
    let count = random.below(longest + 1);
    let mut events = good_events(random, count);
    if random.once_in(12) {
        spoil(random, &mut events);
    }
    events
}

/// One fault and no other: a stray part of a record, an unknown kind, a byte in an unused field, or good Steps beyond the most.
fn spoil(random: &mut Random, events: &mut Vec<u8>) {
    let mut record = [0; EVENT_SIZE];
    match random.below(4) {
        0 => return events.extend(vec![0; random.within(1, 7)]),
        1 => {
            let other = random.within(5, 255) as u8;
            record[0] = random.pick(&[0, 5, 255, other]);
        }
        2 => {
            let (kind, first, last) = random.pick(&[(1, 1, 1), (2, 2, 7), (3, 1, 7)]);
            record[0] = kind;
            record[random.within(first, last)] = 1 << random.below(8);
        }
        _ => {
            let most = MOST_EVENTS + random.within(1, 3);
            while events.len() < EVENT_SIZE * most {
                events.extend(STEP);
            }
            return;
        }
    }
    let at = EVENT_SIZE * random.within(0, events.len() / EVENT_SIZE);
    events.splice(at..at, record);
}
