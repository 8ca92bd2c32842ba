//! Single events and fresh starts through the exported functions, against the second program: the answer, the report and every byte
//! of the state.

use std::collections::BTreeMap;

use dispatch::raw;
use harness::calls::{self, refusal};
use harness::compare::{compare_event, compare_fresh, compare_readers};
use harness::layout::{
    bring_in_range, bytes_of, in_range, mend_marks_in, state_of, OBJECT_COUNT, ROW_SIZE, RUNNING,
    STATE_SIZE, TASK_COUNT,
};
use harness::random::Random;
use harness::report::Histogram;
use harness::sizes::MOST_TASKS;
use harness::states::{event_of, plant, sound_state};
use second::machine::{self, Event};
use second::sound::{broken, CLAUSES};
use second::state;

const CASES: u64 = 24_000;
const LEAST: usize = 200;
const LEAST_ALONE: usize = 20;

/// The bytes of a state: half of them of a sound one, the others with one planted fault or two, a changed byte, or noise.
fn made(random: &mut Random, seed: u64) -> Vec<u8> {
    let mut state = sound_state(random);
    match seed % 16 {
        0..=8 => bytes_of(&state),
        9..=12 => {
            plant(random, &mut state);
            bytes_of(&state)
        }
        13 => {
            plant(random, &mut state);
            plant(random, &mut state);
            bytes_of(&state)
        }
        14 => {
            let mut bytes = bytes_of(&state);
            let anywhere = random.below(STATE_SIZE);
            let at = random.pick(&[RUNNING, TASK_COUNT, OBJECT_COUNT, anywhere]);
            bytes[at] = random.byte();
            // so that a changed queue is not refused for its mark alone
            if random.once_in(2) {
                mend_marks_in(&mut bytes);
            }
            bytes
        }
        _ => {
            let mut bytes: Vec<u8> = (0..STATE_SIZE).map(|_| random.byte()).collect();
            if random.once_in(2) {
                bring_in_range(&mut bytes);
                mend_marks_in(&mut bytes);
            }
            bytes
        }
    }
}

#[test]
fn an_event_agrees_with_the_second_program() {
    let mut answers = Histogram::new();
    let mut clauses: BTreeMap<&str, usize> = BTreeMap::new();
    let mut alone: BTreeMap<&str, usize> = BTreeMap::new();
    let mut sound = 0;
    for seed in 0..CASES {
        let mut random = Random::new(seed);
        let before = made(&mut random, seed);
        let state = state_of(&before);
        let event = event_of(&mut random, &state);
        let input = format!("seed {seed}");
        sound += compare_readers(&before, &input) as usize;
        let faults = broken(&state);
        faults
            .iter()
            .for_each(|name| *clauses.entry(name).or_insert(0) += 1);
        if let ([only], true) = (&faults[..], in_range(&before)) {
            *alone.entry(only).or_insert(0) += 1;
        }
        answers.count(compare_event(&before, event, &input).answer);
    }
    answers.print("events by answer");
    answers.require(&[0, 1, 2, 3, 4, 5, 6, 7, 8, 9, 10], LEAST);
    println!("states by what is wrong, and by what alone is wrong ({sound} of {CASES} are sound)");
    for clause in &CLAUSES {
        let of = |counts: &BTreeMap<&str, usize>| counts.get(clause.name).copied().unwrap_or(0);
        let (times, only) = (of(&clauses), of(&alone));
        println!("  {:34} {times:5} {only:5}", clause.name);
        assert!(times >= LEAST, "{} came {times} times", clause.name);
        assert!(
            only >= LEAST_ALONE,
            "{} came {only} times alone",
            clause.name
        );
    }
    assert!(2 * sound >= CASES as usize, "{sound} sound states");
}

#[test]
fn a_history_agrees_with_the_second_program() {
    for seed in 0..600 {
        let mut random = Random::new(seed);
        let mut state = sound_state(&mut random);
        let mut bytes = bytes_of(&state);
        for step in 0..200 {
            let event = event_of(&mut random, &state);
            let (wanted, next) = machine::apply(state, event);
            state = next;
            let outcome = calls::event(&mut bytes, event);
            let input = format!("seed {seed}, event {step}, {event:?}");
            assert_eq!(outcome, wanted, "{input}");
            assert_eq!(bytes, bytes_of(&state), "state, {input}");
        }
    }
}

#[test]
fn a_fresh_start_agrees_with_the_second_program() {
    let mut answers = Histogram::new();
    for seed in 0..3_000 {
        let mut random = Random::new(seed);
        let few_or_most = [(4, 32), (MOST_TASKS, 32), (MOST_TASKS + 8, 33), (3, 40)];
        let (most, spread) = random.pick(&few_or_most);
        let tasks = random.below(most + 1);
        let objects = random.below(most / 2 + 1);
        let mut values = |n: usize| {
            (0..n)
                .map(|_| random.below(spread) as u8 + 1)
                .collect::<Vec<u8>>()
        };
        let (bases, ceilings) = (values(tasks), values(objects));
        let answer = compare_fresh(&bases, &ceilings, &format!("seed {seed}"));
        answers.count(answer);
    }
    answers.print("fresh starts by answer");
    answers.require(&[0, 13, 15], LEAST);
}

/// Every length below a state's, for every call on a state.
#[test]
fn a_state_that_is_too_short_is_refused_and_kept() {
    let (_, state) = state::fresh(&[10, 20], &[20]);
    let events = [
        Event::Enter(0),
        Event::Leave(0),
        Event::Delay(1),
        Event::Suspend,
        Event::Release(0),
        Event::Clock(1),
        Event::Set(0, 1),
        Event::Work,
        Event::Finish,
    ];
    for length in 0..STATE_SIZE {
        let mut bytes = bytes_of(&state)[..length].to_vec();
        let before = bytes.clone();
        let mut board = [0xA5; ROW_SIZE * MOST_TASKS];
        for event in events {
            let outcome = calls::event(&mut bytes, event);
            assert_eq!(outcome, refusal(10), "length {length}, {event:?}");
        }
        let fresh = raw::fresh(&[10], &[], &mut bytes);
        let fill = raw::fill(&bytes, &mut board);
        let (sound, running) = (raw::sound(&bytes), raw::running(&bytes));
        let found = (fresh, fill, sound, running);
        assert_eq!(found, (10, 10, 10, 255), "length {length}");
        assert_eq!(bytes, before, "length {length}");
        assert!(board.iter().all(|b| *b == 0xA5), "length {length}");
    }
}
