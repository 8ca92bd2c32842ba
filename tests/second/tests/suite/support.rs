//! Helpers of the tests: rosters and events from parts, states from events, random numbers.

use second::machine::{apply, Event, Outcome};
use second::roster::{admit, Refusal};
use second::run;
use second::state::{self, State};

/// The largest reading, written out as in document 01.
pub const LARGEST: u64 = 281474976710655;

/// The longest advance, written out as in request 2026-08.
pub const LONGEST: u64 = 86400000;

/// A step as its four bytes.
pub type RawStep = [u8; 4];

/// An event of a run as its eight bytes.
pub type Record = [u8; 8];

/// The reply to an event of a run: answer, running task or 255, report.
pub type Reply = (u8, u8, u8);

pub const WORK: RawStep = [4, 0, 0, 0];
pub const SUSPEND: RawStep = [5, 0, 0, 0];
pub const AGAIN: RawStep = [8, 0, 0, 0];
pub const STEP: Record = [3, 0, 0, 0, 0, 0, 0, 0];

pub fn enter(o: u8) -> RawStep {
    [1, o, 0, 0]
}

pub fn leave(o: u8) -> RawStep {
    [2, o, 0, 0]
}

pub fn delay(d: u16) -> RawStep {
    let [low, high] = d.to_le_bytes();
    [3, 0, low, high]
}

pub fn release(t: u8) -> RawStep {
    [6, t, 0, 0]
}

pub fn set(t: u8, p: u16) -> RawStep {
    let [low, high] = p.to_le_bytes();
    [7, t, low, high]
}

pub fn clock_event(value: u64) -> Record {
    record(1, 0, value)
}

pub fn release_event(t: u8) -> Record {
    record(2, t, 0)
}

pub fn set_event(t: u8, value: u64) -> Record {
    record(4, t, value)
}

pub fn record(kind: u8, a: u8, value: u64) -> Record {
    let v = value.to_le_bytes();
    [kind, a, v[0], v[1], v[2], v[3], v[4], v[5]]
}

/// A roster laid out as document 01 says, from bases, scripts and ceilings that may be wrong.
pub fn roster(tasks: &[(u8, Vec<RawStep>)], ceilings: &[u8]) -> Vec<u8> {
    let mut bytes: Vec<u8> = tasks
        .iter()
        .flat_map(|(_, script)| script.concat())
        .collect();
    let task_table = bytes.len() as u16;
    let mut start = 0u16;
    for (base, script) in tasks {
        let length = script.len() as u16 * 4;
        bytes.extend([*base, 0]);
        bytes.extend(start.to_le_bytes());
        bytes.extend(length.to_le_bytes());
        start += length;
    }
    let object_table = bytes.len() as u16;
    for &ceiling in ceilings {
        bytes.extend([ceiling, 0]);
    }
    bytes.extend([0x52, 0x35, tasks.len() as u8, ceilings.len() as u8]);
    bytes.extend(object_table.to_le_bytes());
    bytes.extend(task_table.to_le_bytes());
    bytes
}

/// The number and place with which a roster is refused; 0, 0, 0 when it passes.
pub fn verdict(roster: &[u8]) -> (u8, usize, usize) {
    place(admit(roster).map(|_| ()))
}

/// A refusal as number, task and step; 0, 0, 0 for none.
pub fn place(result: Result<(), Refusal>) -> (u8, usize, usize) {
    match result {
        Ok(()) => (0, 0, 0),
        Err(refusal) => (refusal.number, refusal.task, refusal.step),
    }
}

/// The replies that a run writes for a roster that passes.
pub fn replies(roster: &[u8], events: &[Record]) -> Vec<Reply> {
    let mut buffer = vec![0xEE; 3 * events.len()];
    assert_eq!(run::run(roster, &events.concat(), &mut buffer), Ok(()));
    buffer
        .chunks_exact(3)
        .map(|reply| (reply[0], reply[1], reply[2]))
        .collect()
}

/// The outcome of an accepted event that reports this.
pub fn done(report: u8) -> Outcome {
    Outcome { answer: 0, report }
}

/// The outcome of an event refused with this number: every refused event reports 0.
pub fn refused(answer: u8) -> Outcome {
    Outcome { answer, report: 0 }
}

/// The fresh state of bases and ceilings that are good.
pub fn fresh(bases: &[u64], ceilings: &[u64]) -> State {
    let (answer, state) = state::fresh(bases, ceilings);
    assert_eq!(answer, 0);
    state
}

/// The same state at another now.
pub fn at(now: u64, state: State) -> State {
    State { now, ..state }
}

/// The reports of events that are all accepted, and the state after them.
pub fn play_reporting(mut state: State, events: &[Event]) -> (Vec<u8>, State) {
    let mut reports = Vec::new();
    for &event in events {
        let (outcome, after) = apply(state, event);
        assert_eq!(outcome.answer, 0, "{event:?}");
        reports.push(outcome.report);
        state = after;
    }
    (reports, state)
}

/// The state after events that are all accepted.
pub fn play(state: State, events: &[Event]) -> State {
    play_reporting(state, events).1
}

/// The answer to an event, having seen that a refusal hands the same state back and reports 0.
pub fn answer(state: &State, event: Event) -> u8 {
    let (outcome, after) = apply(state.clone(), event);
    let Outcome { answer, report } = outcome;
    assert!(answer == 0 || (report, &after) == (0, state), "{event:?}");
    answer
}

/// The tasks in the ready queue for a priority, its head first.
pub fn queue(state: &State, priority: u64) -> Vec<usize> {
    let queue = state.queue(priority).expect("a priority");
    queue.iter().copied().collect()
}

/// The word of marks as the tests reckon it: from the highest priority down, each bit moving the
/// ones before it up.
pub fn reckoned(state: &State) -> u32 {
    (1..=32).rev().fold(0, |word, priority| {
        word * 2 + u32::from(!queue(state, priority).is_empty())
    })
}

/// Sets the marks right after queues were changed by hand, so that the marks are no damage too.
pub fn mend_marks(state: &mut State) {
    state.marks = reckoned(state);
}

/// The bytes that hexadecimal digits stand for; blanks between them do not count.
pub fn hex(text: &str) -> Vec<u8> {
    let digits: Vec<u32> = text
        .chars()
        .filter(|c| !c.is_whitespace())
        .map(|c| c.to_digit(16).expect("a hexadecimal digit"))
        .collect();
    assert_eq!(digits.len() % 2, 0);
    digits
        .chunks_exact(2)
        .map(|pair| (pair[0] * 16 + pair[1]) as u8)
        .collect()
}

/// A small generator of numbers that repeat with their seed.
pub struct Random(u64);

impl Random {
    pub fn new(seed: u64) -> Random {
        Random(seed.wrapping_mul(0x9E37_79B9_7F4A_7C15) | 1)
    }

    /// A number below `bound`.
    pub fn below(&mut self, bound: u64) -> u64 {
        self.0 ^= self.0 << 13;
        self.0 ^= self.0 >> 7;
        self.0 ^= self.0 << 17;
        (self.0 >> 16) % bound
    }

    /// An index below `bound`.
    pub fn index(&mut self, bound: usize) -> usize {
        self.below(bound as u64) as usize
    }

    /// A reading next to now, or next to the longest advance past it: one before, exactly that,
    /// one more or two more.
    pub fn reading(&mut self, now: u64) -> u64 {
        let advance = if self.below(4) == 0 { LONGEST } else { 0 };
        now.wrapping_add(advance + self.below(4)).wrapping_sub(1)
    }
}
