//! The proved run against the second program: its answer, and every byte of the buffer.

use dispatch::raw;
use harness::events::{assert_no_change_is_0, events_of, room_for, REPLY_SIZE, WHOLE_CASE_EVENTS};
use harness::random::Random;
use harness::report::{bytes_of, save, Histogram};
use harness::rosters::{made, passing, WHOLE_CASE};
use harness::sizes::MOST_EVENTS;
use second::run as other;

const CASES: u64 = 24_000;
const LEAST: usize = 200;

/// Mostly a roster that passes; else one with a fault of each kind in turn, or with whatever else is made.
fn roster_of(random: &mut Random, seed: u64) -> Vec<u8> {
    match seed % 8 {
        0 => made(10 * (seed / 8) + 6),
        1 => made(seed),
        _ => passing(random).bytes(),
    }
}

/// Around what is needed, and now and then far from it.
fn room_around(random: &mut Random, needed: usize) -> usize {
    match random.below(12) {
        0 => random.below(needed + 1),
        1 => needed.saturating_sub(1),
        2 => needed + MOST_EVENTS,
        _ => needed + random.below(5),
    }
}

/// The replies of runs by their answers, and by their reports.
#[derive(Default)]
struct Replies {
    answers: Histogram,
    reports: Histogram,
}

impl Replies {
    fn count(&mut self, replies: &[u8]) {
        for reply in replies.chunks_exact(REPLY_SIZE) {
            self.answers.count(reply[0]);
            self.reports.count(reply[2]);
        }
    }

    /// A roster that passes names only what is listed and leaves in order, so no event of a run is answered 2, 7 or 9.
    fn require(&self) {
        let answers = [0, 1, 3, 4, 5, 6, 8];
        self.answers.print("events by answer");
        self.answers.require(&answers, LEAST);
        self.answers.require_no_other(&answers);
        self.reports.print("events by report");
        self.reports.require(&[0, 1, 2], LEAST);
        self.reports.require_no_other(&[0, 1, 2]);
    }
}

#[test]
fn a_run_agrees_with_the_second_program() {
    let mut answers = Histogram::new();
    let mut replies = Replies::default();
    for seed in 0..CASES {
        let mut random = Random::new(seed);
        let roster = roster_of(&mut random, seed);
        let events = events_of(&mut random);
        let needed = room_for(&events);
        let size = room_around(&mut random, needed);
        let mut found = vec![0xA5; size];
        let mut wanted = found.clone();
        let answer = raw::run(&roster, &events, &mut found);
        let expected = match other::run(&roster, &events, &mut wanted) {
            Ok(()) => (0, 0, 0),
            Err(refusal) => (refusal.number, refusal.task, refusal.step),
        };
        let input = || {
            format!(
                "seed {seed}, room {size}, {}",
                save("run", seed, &roster, &events)
            )
        };
        assert_eq!(answer, expected, "answer, {}", input());
        assert!(found == wanted, "buffer, {}", input());
        answers.count(answer.0);
        if answer.0 == 0 {
            replies.count(&found[..needed]);
        }
    }
    answers.print("runs by answer");
    answers.require(&[0, 11, 12, 13, 14, 15, 16, 17, 18, 19, 20, 21, 22], LEAST);
    assert!(2 * answers.of(0) >= CASES as usize, "at least half run");
    replies.require();
}

/// Document 01's whole case.
#[test]
fn the_whole_case_runs() {
    let (roster, events) = (bytes_of(WHOLE_CASE), bytes_of(WHOLE_CASE_EVENTS));
    let mut buffer = [0xA5; 35];
    assert_eq!(raw::run(&roster, &events, &mut buffer), (0, 0, 0));
    let replies = "000002 000000 000000 000000 000101 000100 \
        040100 000100 000002 00FF02 05FF00 A5A5";
    assert_eq!(buffer[..], bytes_of(replies));
}

/// Plays recorded runs of a real Ada run-time, and gives their number. A recording has the answers and who runs, which decides
/// whether a report is 0.
fn met(recorded: &str) -> usize {
    for line in recorded.lines() {
        let fields: Vec<&str> = line.split_whitespace().collect();
        let [name, roster, events, wanted] = fields[..] else {
            panic!("not four fields: {line}");
        };
        let events = bytes_of(events);
        let mut buffer = vec![0xA5; room_for(&events)];
        let answer = raw::run(&bytes_of(roster), &events, &mut buffer);
        assert_eq!(answer, (0, 0, 0), "{name}");
        let replies = buffer.chunks_exact(REPLY_SIZE);
        let found: Vec<u8> = replies.flat_map(|reply| [reply[0], reply[1]]).collect();
        assert_eq!(found, bytes_of(wanted), "{name}");
        assert_no_change_is_0(&buffer, &|| name.to_string());
    }
    recorded.lines().count()
}

/// What a real Ada run-time did, Sets to the same base included: tests/second/tests/vectors/README.md says how it was recorded.
#[test]
fn the_recordings_of_an_ada_run_time_are_met() {
    let base = include_str!("../second/tests/vectors/ada-base.txt");
    let set = include_str!("../second/tests/vectors/ada-set.txt");
    assert_eq!((met(base), met(set)), (182, 15));
}
