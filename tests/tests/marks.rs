//! Request 2026-02, the word of marks in a state: every wrong word is answered 10, and every word that the library writes is right.

use dispatch::raw;
use harness::calls::{self, refusal};
use harness::compare::{
    compare_after, compare_event, compare_fill, compare_readers, compare_state,
};
use harness::layout::{
    bytes_of, marks_in, mend_marks_in, put_marks, state_of, MARKS, READY, READY_ROW, ROW_SIZE,
    STATE_SIZE, TASKS,
};
use harness::random::Random;
use harness::report::{hex, seen, Histogram};
use harness::sizes::{MOST_OBJECTS, MOST_ROWS, MOST_TASKS};
use harness::states::{dues, event_of, one_of_each, sound_state};
use second::machine::{apply, apply_to, Event, Outcome};
use second::sound::broken;
use second::state::{Place, State, Task};

/// How many states for each priority have its mark wrong, each way.
const EACH: u64 = 250;
const STATES: u64 = 3_000;
const HISTORIES: u64 = 4_000;
const EVENTS: usize = 100;
const LEAST: usize = 200;

/// How a mark is wrong.
#[derive(Clone, Copy, Debug, PartialEq, Eq, PartialOrd, Ord)]
enum Wrong {
    /// on, though the queue is empty
    TooMany,
    /// off, though the queue is not empty
    TooFew,
}

use Wrong::*;

/// Every priority, each both ways.
fn each_way() -> Vec<(Wrong, u64)> {
    let ways = [TooMany, TooFew].into_iter();
    ways.flat_map(|way| (1..=32).map(move |p| (way, p)))
        .collect()
}

/// A sound state with the ready queue for this priority empty or not: the end of a made history, and then Sets to the priority and
/// Releases, since some priorities hardly come otherwise.
fn with_queue(random: &mut Random, p: u64, empty: bool) -> State {
    loop {
        let mut state = sound_state(random);
        for _ in 0..random.below(8) {
            let t = random.below(state.tasks.len());
            let event = random.pick(&[Event::Set(t, p), Event::Release(t)]);
            apply_to(&mut state, event);
        }
        if state.queues[p as usize - 1].is_empty() == empty {
            return state;
        }
    }
}

/// Where the priority of a mark lies to the running task's.
#[derive(Clone, Copy, Debug, PartialEq, Eq, PartialOrd, Ord)]
enum Lies {
    Above,
    Same,
    Below,
    NobodyRuns,
}

use Lies::*;

fn lies(state: &State, p: u64) -> Lies {
    match state.running.and_then(|t| state.active(t)) {
        None => NobodyRuns,
        Some(active) if p > active => Above,
        Some(active) if p == active => Same,
        Some(_) => Below,
    }
}

/// In a sound state nobody is ready above the running task, or where nobody runs.
const WRONG_AND_LIES: [(Wrong, Lies); 6] = [
    (TooMany, Above),
    (TooMany, Same),
    (TooMany, Below),
    (TooMany, NobodyRuns),
    (TooFew, Same),
    (TooFew, Below),
];

/// That these bytes are refused with 10 and left alone by the nine kinds of events, whatever else is wrong with an event, and by
/// what reads them.
fn assert_refused(random: &mut Random, bytes: &[u8], input: &str) {
    let state = || format!("{input}, state {}", hex(bytes));
    for event in one_of_each(random, &state_of(bytes)) {
        let outcome = compare_event(bytes, event, input);
        assert_eq!(outcome, refusal(10), "{event:?}, {}", state());
    }
    assert!(!compare_readers(bytes, input), "sound, {}", state());
    let rows = random.below(MOST_ROWS + 8);
    let filled = compare_fill(bytes, &vec![0xA5; ROW_SIZE * rows], input);
    assert_eq!(filled, 10, "fill, {}", state());
}

#[test]
fn one_wrong_mark_is_answered_10() {
    let mut counts = Histogram::new();
    let mut closer = Histogram::new();
    for seed in 0..32 * EACH {
        let p = 1 + seed % 32;
        let mut random = Random::new(seed);
        for way in [TooMany, TooFew] {
            let mut state = with_queue(&mut random, p, way == TooMany);
            let input = format!("seed {seed}, priority {p}, {way:?}");
            state.marks ^= 1 << (p - 1);
            assert_eq!(broken(&state), ["marks_wrong"], "{input}, {state:?}");
            assert_refused(&mut random, &bytes_of(&state), &input);
            counts.count((way, p));
            closer.count((way, lies(&state, p)));
        }
    }
    println!("one wrong mark: least {}", counts.least(&each_way()));
    counts.require(&each_way(), LEAST);
    closer.print("one wrong mark, by where its priority lies to the running task's");
    closer.require(&WRONG_AND_LIES, LEAST);
    closer.require_no_other(&WRONG_AND_LIES);
}

/// Words in place of the right one: most have several wrong marks, and some are the right one now and then.
#[derive(Clone, Copy, Debug, PartialEq, Eq, PartialOrd, Ord)]
enum Word {
    Several,
    /// one mark on in place of another
    Moved,
    Any,
    AllOff,
    AllOn,
    OfAnotherState,
    /// as the next event would leave it
    OfNextState,
    BytesTurned,
    BitsTurned,
    ShiftedUp,
    ShiftedDown,
    Opposite,
}

const WORDS: [Word; 12] = [
    Word::Several,
    Word::Moved,
    Word::Any,
    Word::AllOff,
    Word::AllOn,
    Word::OfAnotherState,
    Word::OfNextState,
    Word::BytesTurned,
    Word::BitsTurned,
    Word::ShiftedUp,
    Word::ShiftedDown,
    Word::Opposite,
];

/// A word of this kind for a state whose own is right.
fn word_of(random: &mut Random, kind: Word, state: &State) -> u32 {
    let marks = state.marks;
    match kind {
        Word::Several => {
            let wrong = (0..random.within(2, 6)).map(|_| 1 << random.below(32));
            wrong.fold(marks, |word: u32, mark: u32| word ^ mark)
        }
        Word::Moved => marks ^ one_bit(random, marks) ^ one_bit(random, !marks),
        Word::Any => random.word() as u32,
        Word::AllOff => 0,
        Word::AllOn => u32::MAX,
        Word::OfAnotherState => sound_state(random).marks,
        Word::OfNextState => apply(state.clone(), moving_event(random, state)).1.marks,
        Word::BytesTurned => marks.swap_bytes(),
        Word::BitsTurned => marks.reverse_bits(),
        Word::ShiftedUp => marks << 1,
        Word::ShiftedDown => marks >> 1,
        Word::Opposite => !marks,
    }
}

/// One of the bits that are on, or none.
fn one_bit(random: &mut Random, word: u32) -> u32 {
    let bits = (0..32).map(|bit| 1 << bit & word);
    let on: Vec<u32> = bits.filter(|bit| *bit != 0).collect();
    match on[..] {
        [] => 0,
        _ => random.pick(&on),
    }
}

#[test]
fn another_word_is_answered_10() {
    let mut counts = Histogram::new();
    for seed in 0..STATES {
        let mut random = Random::new(seed);
        let nobody_there = random.once_in(4);
        let state = with_queue(&mut random, 1 + seed % 32, nobody_there);
        for kind in WORDS {
            let word = word_of(&mut random, kind, &state);
            let mut bytes = bytes_of(&state);
            put_marks(&mut bytes, word);
            let input = format!("seed {seed}, {kind:?}");
            let right = word == state.marks;
            if right {
                let sound = compare_state(&bytes, Event::Work, &input);
                assert!(sound, "{input}, {state:?}");
            } else {
                let faults = broken(&state_of(&bytes));
                assert_eq!(faults, ["marks_wrong"], "{input}, {state:?}");
                assert_refused(&mut random, &bytes, &input);
            }
            counts.count((kind, right));
        }
    }
    counts.print("words by kind, and whether it is the right one");
    counts.require(&WORDS.map(|kind| (kind, false)), LEAST);
}

/// The mark of a priority in a state's bytes, by docs/LAYOUT.md.
fn mark(bytes: &[u8], p: usize) -> bool {
    bytes[MARKS + (p - 1) / 8] >> ((p - 1) % 8) & 1 == 1
}

/// Whether the ready queue for a priority has a length above 0, by docs/LAYOUT.md.
fn is_filled(bytes: &[u8], p: usize) -> bool {
    bytes[READY + READY_ROW * (p - 1)] > 0
}

/// That a mark is on exactly where its queue is not empty, that counting zeros finds the highest such queue, and that the tests' own
/// mending finds nothing to mend.
fn assert_marked(bytes: &[u8], input: &dyn Fn() -> String) {
    let input = || format!("{}, state {}", input(), hex(bytes));
    for p in 1..=32 {
        let (on, filled) = (mark(bytes, p), is_filled(bytes, p));
        assert_eq!(on, filled, "mark of {p}, {}", input());
    }
    let highest = (1..=32).rfind(|p| is_filled(bytes, *p));
    let counted = 32 - marks_in(bytes).leading_zeros() as usize;
    assert_eq!(counted, highest.unwrap_or(0), "highest, {}", input());
    let mut mended = bytes.to_vec();
    mend_marks_in(&mut mended);
    assert_eq!(mended, bytes, "mended, {}", input());
}

/// A fresh start over bytes that hold anything: mostly of priorities of every height; now and then refused, with the state that is
/// then written.
fn started(random: &mut Random) -> (u8, Vec<u8>) {
    let tasks = random.pick(&[2, 3, 5, 8, MOST_TASKS / 2, MOST_TASKS]);
    let objects = random.below(MOST_OBJECTS + 1);
    let mut values = |n: usize| -> Vec<u8> {
        let each = (0..n).map(|_| random.within(1, 32) as u8);
        each.collect()
    };
    let (mut bases, ceilings) = (values(tasks), values(objects));
    match random.below(12) {
        0 => bases.clear(),
        1 => bases[0] = 33,
        _ => {}
    }
    let mut bytes: Vec<u8> = (0..STATE_SIZE).map(|_| random.byte()).collect();
    (raw::fresh(&bases, &ceilings, &mut bytes), bytes)
}

/// An event that often moves a task between queues of every height, or wakes all that are delayed.
fn moving_event(random: &mut Random, state: &State) -> Event {
    let t = random.below(state.tasks.len());
    let own = state.running.unwrap_or(t);
    let p = random.within(1, 32) as u64;
    match (random.below(10), dues(state).into_iter().max()) {
        (0 | 1, _) => Event::Set(t, p),
        (2, _) => Event::Set(own, p),
        (3 | 4, _) => Event::Release(t),
        (5, Some(due)) => Event::Clock(due),
        _ => event_of(random, state),
    }
}

/// How tasks join and leave ready queues at an accepted event; one event may be several of these.
#[derive(Clone, Copy, Debug, PartialEq, Eq, PartialOrd, Ord)]
enum Move {
    Preempted,
    DelayZero,
    OneWoken,
    SeveralWoken,
    Released,
    SetReady,
    SetRunning,
    /// the outermost object is left, and a base waits for that
    LeftWithBase,
    Picked,
}

use Move::*;

const MOVES: [Move; 9] = [
    Preempted,
    DelayZero,
    OneWoken,
    SeveralWoken,
    Released,
    SetReady,
    SetRunning,
    LeftWithBase,
    Picked,
];

fn moves(before: &State, after: &State, event: Event, report: u8) -> Vec<Move> {
    let both = before.tasks.iter().zip(&after.tasks);
    let is_delayed = |task: &Task| matches!(task.place, Place::Delayed { .. });
    let woken = both.filter(|(old, new)| is_delayed(old) && !is_delayed(new));
    let woken = woken.count();
    // inside an action a base waits, and nobody moves
    let set_of = |place| match event {
        Event::Set(t, _) => before.tasks[t].place == place && before.tasks[t].held.is_empty(),
        _ => false,
    };
    let released = match event {
        Event::Release(t) => before.tasks[t].place == Place::Suspended,
        _ => false,
    };
    let waits = |task: &Task| task.held.len() == 1 && task.waiting.is_some();
    let left = matches!(event, Event::Leave(_)) && before.running_task().is_some_and(waits);
    let picked = after.running.is_some() && after.running != before.running;
    seen([
        (Preempted, report == 1),
        (DelayZero, event == Event::Delay(0)),
        (OneWoken, woken == 1),
        (SeveralWoken, woken > 1),
        (Released, released),
        (SetReady, set_of(Place::Ready)),
        (SetRunning, set_of(Place::Running)),
        (LeftWithBase, left),
        (Picked, picked),
    ])
}

/// What came in the histories.
#[derive(Default)]
struct Counts {
    starts: Histogram,
    answers: Histogram,
    /// The marks that events turned, by priority.
    turned: Histogram<(&'static str, usize)>,
    /// By whether the event turned a mark.
    moves: Histogram<(Move, bool)>,
}

impl Counts {
    fn count(&mut self, before: &[u8], after: &[u8], event: Event, outcome: Outcome) {
        self.answers.count(outcome.answer);
        if outcome.answer != 0 {
            return;
        }
        for p in (1..=32).filter(|p| mark(before, *p) != mark(after, *p)) {
            let way = if mark(after, p) { "on" } else { "off" };
            self.turned.count((way, p));
        }
        let turned = marks_in(before) != marks_in(after);
        let all = moves(&state_of(before), &state_of(after), event, outcome.report);
        all.into_iter().for_each(|m| self.moves.count((m, turned)));
    }

    fn require(&self) {
        self.starts.print("fresh starts by answer");
        self.starts.require(&[0, 13, 15], LEAST);
        self.answers.print("events by answer");
        self.answers.require(&Vec::from_iter(0..=9), LEAST);
        self.answers.require_no_other(&Vec::from_iter(0..=9));
        let each = (1..=32).flat_map(|p| [("on", p), ("off", p)]);
        let each: Vec<(&str, usize)> = each.collect();
        println!("marks turned: least {}", self.turned.least(&each));
        self.turned.require(&each, LEAST);
        self.moves
            .print("how tasks moved, and whether a mark was turned");
        // at a Delay 0 the task is picked again, or an equal is, whose place in the queue it takes
        let can_turn = |m: &Move| (*m, *m != DelayZero);
        let needed: Vec<(Move, bool)> = MOVES.iter().map(can_turn).collect();
        self.moves.require(&needed, LEAST);
        assert_eq!(self.moves.of((DelayZero, true)), 0);
    }
}

#[test]
fn the_marks_are_right_after_a_fresh_start_and_every_event() {
    let mut counts = Counts::default();
    for seed in 0..HISTORIES {
        let mut random = Random::new(seed);
        let (answer, mut bytes) = started(&mut random);
        counts.starts.count(answer);
        assert_marked(&bytes, &|| format!("seed {seed}, fresh start"));
        for i in 0..EVENTS {
            let event = moving_event(&mut random, &state_of(&bytes));
            let input = format!("seed {seed}, event {i}");
            let (outcome, after) = compare_after(&bytes, event, &input);
            assert_marked(&after, &|| format!("{input}, {event:?}"));
            counts.count(&bytes, &after, event, outcome);
            bytes = after;
        }
    }
    counts.require();
}

/// Bases of a fresh start, the bytes of its marks, and accepted events with the marks after each.
type Case = (&'static [u8], [u8; 4], &'static [(Event, [u8; 4])]);

/// Marks worked out by hand from docs/LAYOUT.md.
const BY_HAND: [Case; 4] = [
    (&[5], [0, 0, 0, 0], &[(Event::Suspend, [0, 0, 0, 0])]),
    // the neighbours on both sides of each byte
    (
        &[32, 32, 8, 9, 16, 17, 24, 25],
        [0x80, 0x81, 0x81, 0x81],
        &[(Event::Finish, [0x80, 0x81, 0x81, 0x01])],
    ),
    (
        &[32, 1, 31],
        [0x01, 0, 0, 0x40],
        &[(Event::Delay(3), [0x01, 0, 0, 0])],
    ),
    (
        &[20, 20, 10, 1],
        [0x01, 0x02, 0x08, 0],
        &[
            // 1 runs, alone at 20; 0 comes back to that queue
            (Event::Suspend, [0x01, 0x02, 0, 0]),
            (Event::Release(0), [0x01, 0x02, 0x08, 0]),
            // 2 preempts 1, and nobody is left at 10
            (Event::Set(2, 32), [0x01, 0, 0x08, 0]),
            // 1 runs, and 0 stays ready; they change places
            (Event::Finish, [0x01, 0, 0x08, 0]),
            (Event::Delay(0), [0x01, 0, 0x08, 0]),
            // 1 runs, then 3, then 0, by which 3 is preempted
            (Event::Delay(5), [0x01, 0, 0, 0]),
            (Event::Suspend, [0, 0, 0, 0]),
            (Event::Clock(5), [0x01, 0, 0, 0]),
        ],
    ),
];

#[test]
fn marks_worked_out_by_hand() {
    for (case, (bases, marks, events)) in BY_HAND.iter().enumerate() {
        let mut state = [0xA5; STATE_SIZE];
        assert_eq!(raw::fresh(bases, &[], &mut state), 0, "case {case}");
        assert_eq!(state[MARKS..TASKS], *marks, "case {case}");
        for (event, marks) in *events {
            let outcome = calls::event(&mut state, *event);
            assert_eq!(outcome.answer, 0, "case {case}, {event:?}");
            assert_eq!(state[MARKS..TASKS], *marks, "case {case}, {event:?}");
        }
    }
}

/// The byte before the marks may hold anything: it changes no answer, and an accepted event writes it as 0.
#[test]
fn byte_11_is_not_read_and_is_written_as_0() {
    let mut answers = Histogram::new();
    for seed in 0..STATES {
        let mut random = Random::new(seed);
        let state = sound_state(&mut random);
        let mut bytes = bytes_of(&state);
        let value = random.within(1, 255) as u8;
        bytes[11] = value;
        let input = format!("seed {seed}, byte 11 as {value}");
        let sound = compare_state(&bytes, Event::Work, &input);
        assert!(sound, "{input}, {state:?}");
        for event in one_of_each(&mut random, &state) {
            let (outcome, after) = compare_after(&bytes, event, &input);
            let wanted = if outcome.answer == 0 { 0 } else { value };
            assert_eq!(after[11], wanted, "{input}, {event:?}, {state:?}");
            answers.count(outcome.answer);
        }
    }
    answers.print("events with byte 11 not 0 by answer");
    answers.require(&Vec::from_iter(0..=9), LEAST);
}
