//! That the plain and the lean code do the same job as the proved code, on made input good and bad, and that plain has the whole state.

use dispatch::raw;
use harness::calls;
use harness::events::{self, room_for};
use harness::layout::bytes_of;
use harness::random::Random;
use harness::report::{hex, save};
use harness::rosters::{passing, plant, step, AGAIN, WORK};
use harness::states::{self, event_of, sound_state};
use second::machine::{apply_to, Event};
use second::roster;
use second::run::{decode, Run};

use crate::cases::{self, REALISTIC};
use crate::limits::{Size, FULL, HALF, LARGEST_ROSTER, MOST_EVENTS, STATE_SIZE};
use crate::{lean, plain, plain_state};

const RUNS: u64 = 3_000;
const STATES: u64 = 3_000;
const FULL_SIZES: u64 = 20;

type RunCall = fn(&[u8], &[u8], &mut [u8]) -> (u8, usize, usize);
type Check = fn(&[u8]) -> (u8, usize, usize);

const OPPONENTS: [(&str, RunCall, Check); 2] = [
    ("plain", plain::run, plain::check),
    ("lean", lean::run, lean::check),
];

/// A made roster, in one of three with a planted fault or a changed byte.
fn roster_of(random: &mut Random) -> Vec<u8> {
    let mut plan = passing(random);
    match random.below(6) {
        0 => {
            let number = random.within(15, 20) as u8;
            plant(random, &mut plan, number);
        }
        1 => {
            let mut bytes = plan.bytes();
            change_byte(random, &mut bytes);
            return bytes;
        }
        _ => {}
    }
    plan.bytes()
}

fn change_byte(random: &mut Random, bytes: &mut [u8]) {
    let at = random.below(bytes.len());
    bytes[at] = random.byte();
}

/// All codes give the same answer, the same replies in a buffer of this size, and the same check; gives the answer.
fn assert_run(seed: u64, roster: &[u8], events: &[u8], room: usize) -> u8 {
    let mut proved = vec![0xA5; room];
    let answer = raw::run(roster, events, &mut proved);
    let input = || format!("seed {seed}, {}", save("bench-run", seed, roster, events));
    for (name, run, check) in OPPONENTS {
        let mut other = vec![0xA5; room];
        let found = run(roster, events, &mut other);
        assert_eq!(answer, found, "answer of the {name} run, {}", input());
        assert!(proved == other, "replies of the {name} run, {}", input());
        let checked = (raw::check(roster), check(roster));
        assert_eq!(checked.0, checked.1, "{name} check, {}", input());
    }
    answer.0
}

fn assert_made_run(seed: u64) {
    let mut random = Random::new(seed);
    let roster = roster_of(&mut random);
    let events = events::events_of(&mut random);
    let room = room_for(&events) + 2 - random.below(4).min(room_for(&events) + 2);
    assert_run(seed, &roster, &events, room);
}

/// The plain run has the whole state of the rules after every event, whoever ran and whatever was refused.
fn assert_states(seed: u64, roster: &[u8], events: &[u8]) {
    let Ok(commands) = decode(events) else {
        return;
    };
    let mut run = Run::start(roster::admit(roster).expect("a roster that passes"));
    let states = plain::states(roster, events);
    assert_eq!(states.len(), commands.len(), "seed {seed}");
    for (command, state) in commands.into_iter().zip(states) {
        run.take(command);
        assert_eq!(state, run.state, "seed {seed}, after {command:?}");
    }
}

fn assert_made_states(seed: u64) {
    let mut random = Random::new(seed);
    let roster = passing(&mut random).bytes();
    let events = events::events_of(&mut random);
    assert_states(seed, &roster, &events);
}

/// A roster of exactly the largest size: what each script repeats is there many times over, and Works fill up what is left.
fn largest_of(random: &mut Random, size: Size) -> Vec<u8> {
    let mut plan = cases::plan_of(random, size);
    let once = plan.scripts.clone();
    let mut left = (LARGEST_ROSTER - plan.bytes().len()) / 4;
    for t in (0..size.tasks).cycle() {
        let body = once[t].strip_suffix(&[step(AGAIN, 0, 0)]).unwrap();
        if body.len() > left {
            plan.scripts[t].splice(0..0, vec![step(WORK, 0, 0); left]);
            return plan.bytes();
        }
        plan.scripts[t].splice(0..0, body.iter().copied());
        left -= body.len();
    }
    unreachable!("each script has a step to repeat")
}

/// Whole, with a byte changed, and too long.
fn assert_largest(seed: u64) {
    let mut random = Random::new(seed);
    let size = random.pick(&[FULL, HALF]);
    let mut roster = largest_of(&mut random, size);
    let events = cases::events_of(&mut random, REALISTIC, size.tasks, MOST_EVENTS);
    let room = room_for(&events);
    assert_eq!(roster.len(), LARGEST_ROSTER);
    assert_eq!(assert_run(seed, &roster, &events, room), 0, "seed {seed}");
    assert_states(seed, &roster, &events);
    let mut longer = roster.clone();
    longer.insert(0, 0);
    assert_eq!(assert_run(seed, &longer, &events, room), 11, "seed {seed}");
    change_byte(&mut random, &mut roster);
    assert_run(seed, &roster, &events, room);
}

/// Bytes that may be anything: in unread places of a sound state, or anywhere.
fn spoil(random: &mut Random, bytes: &mut [u8]) {
    for _ in 0..random.pick(&[1, 2, 4, 40]) {
        let at = random.below(STATE_SIZE);
        bytes[at] = random.byte();
    }
}

/// One event on bytes by both codes; gives the bytes after it, or nothing where they were unsound.
fn assert_event(seed: u64, bytes: &[u8], event: Event) -> Option<Vec<u8>> {
    let (mut proved, mut other) = (bytes.to_vec(), bytes.to_vec());
    let outcome = calls::event(&mut proved, event);
    let found = plain_state::event(&mut other, event);
    let input = || format!("seed {seed}, {event:?}, state {}", hex(bytes));
    assert_eq!((outcome.answer, outcome.report), found, "{}", input());
    assert!(proved == other, "bytes after, {}", input());
    (outcome.answer != 10).then_some(proved)
}

/// A history of events on bytes, some of them from a spoilt state, which may be sound all the same.
fn assert_history(seed: u64) {
    let mut random = Random::new(seed);
    let mut state = sound_state(&mut random);
    if random.once_in(4) {
        states::plant(&mut random, &mut state);
    }
    let mut bytes = bytes_of(&state);
    if random.once_in(2) {
        spoil(&mut random, &mut bytes);
    }
    for _ in 0..random.within(1, 40) {
        let event = event_of(&mut random, &state);
        let Some(after) = assert_event(seed, &bytes, event) else {
            return;
        };
        apply_to(&mut state, event);
        bytes = after;
    }
}

/// The events of a run of full size on bytes, which comes to states that short histories do not.
fn assert_full_history(seed: u64) {
    let case = cases::case_of(seed, REALISTIC, FULL, MOST_EVENTS / 4);
    let (mut bytes, history) = cases::history_of(&case);
    for event in history {
        bytes = assert_event(seed, &bytes, event).expect("a state of a run is sound");
    }
}

pub fn assert_all() {
    (0..RUNS).for_each(assert_made_run);
    (0..RUNS).for_each(assert_made_states);
    (0..STATES).for_each(assert_history);
    (0..FULL_SIZES).for_each(assert_largest);
    (0..FULL_SIZES).for_each(assert_full_history);
    let short = &mut [0; STATE_SIZE - 1];
    assert_eq!(plain_state::event(short, Event::Work), (10, 0));
}
