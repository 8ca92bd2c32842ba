//! Everything there is in small: all short scripts through the check, and every event in each state within reach of a fresh start.

use std::collections::HashSet;

use harness::compare::{compare_event, compare_roster, compare_run, compare_state};
use harness::events::room_for;
use harness::layout::bytes_of;
use harness::report::Histogram;
use harness::rosters::{step, Plan, Step, AGAIN, DELAY, ENTER, LEAVE, RELEASE, SET, SUSPEND, WORK};
use second::machine::{apply, Event};
use second::state::{fresh, State};

/// All lists of these steps of exactly this length.
fn scripts(steps: &[Step], length: usize) -> Vec<Vec<Step>> {
    let mut all = vec![Vec::new()];
    for _ in 0..length {
        let longer = all.iter().flat_map(|script: &Vec<Step>| {
            steps.iter().map(move |s| [&script[..], &[*s]].concat())
        });
        all = longer.collect();
    }
    all
}

const STEPS: [Step; 12] = [
    step(ENTER, 0, 0),
    step(ENTER, 1, 0),
    step(LEAVE, 0, 0),
    step(LEAVE, 1, 0),
    step(DELAY, 0, 0),
    step(DELAY, 0, 5),
    step(WORK, 0, 0),
    step(SUSPEND, 0, 0),
    step(RELEASE, 0, 0),
    step(SET, 1, 16),
    step(SET, 1, 2),
    step(SET, 0, 17),
];

/// Of two tasks the second has every script of up to three steps, and every one of four that ends in Again or a Leave; ceilings
/// below, at and above the base, rising and falling.
#[test]
fn every_short_script() {
    let mut answers = Histogram::new();
    for ceilings in [[15, 15], [15, 16], [16, 15], [14, 16], [16, 14], [32, 31]] {
        let check = |script: Vec<Step>| {
            let plan = Plan {
                bases: vec![15, 15],
                ceilings: ceilings.to_vec(),
                scripts: vec![vec![step(WORK, 0, 0)], script],
            };
            compare_roster(&plan.bytes(), "a short script")
        };
        for length in 0..=3 {
            for script in scripts(&STEPS, length) {
                for last in [None, Some(step(AGAIN, 0, 0)), Some(step(LEAVE, 0, 0))] {
                    let script = script.iter().copied().chain(last).collect();
                    answers.count(check(script));
                }
            }
        }
    }
    answers.print("short scripts by answer");
    answers.require(&[0, 17, 18, 19, 20], 1000);
}

/// Nested Enters up to four deep with every order of ceilings, left in every way.
#[test]
fn every_nesting() {
    let ceilings = [10, 20, 20, 30];
    let enters: Vec<Step> = (0..4).map(|o| step(ENTER, o, 0)).collect();
    let leaves: Vec<Step> = (0..4).map(|o| step(LEAVE, o, 0)).collect();
    for depth in 1..=4 {
        for outer in scripts(&enters, depth) {
            for (first, bases) in [
                (leaves[0], [10, 5]),
                (leaves[1], [20, 5]),
                (leaves[3], [1, 5]),
            ] {
                let back = outer.iter().rev().map(|s| step(LEAVE, s.a, 0));
                let well: Vec<Step> = outer.iter().copied().chain(back).collect();
                let badly = [&outer[..], &[first]].concat();
                for script in [well, badly] {
                    let plan = Plan {
                        bases: bases.to_vec(),
                        ceilings: ceilings.to_vec(),
                        scripts: vec![script, vec![step(SET, 0, 1)]],
                    };
                    compare_roster(&plan.bytes(), "nested");
                }
            }
        }
    }
}

/// Two tasks with every pair of short scripts that pass, run for a while under Steps, readings and a Release.
#[test]
fn every_pair_of_short_scripts_runs() {
    let steps = [
        step(ENTER, 0, 0),
        step(LEAVE, 0, 0),
        step(DELAY, 0, 1),
        step(SUSPEND, 0, 0),
        step(RELEASE, 1, 0),
        step(AGAIN, 0, 0),
    ];
    let mut events = Vec::new();
    for reading in 1..5 {
        events.extend([3, 0, 0, 0, 0, 0, 0, 0].repeat(3));
        events.extend([2, reading % 2, 0, 0, 0, 0, 0, 0]);
        events.extend([1, 0, reading, 0, 0, 0, 0, 0]);
        events.extend([4, reading % 2, reading, 0, 0, 0, 0, 0]);
    }
    let mut answers = Histogram::new();
    for length in 0..=3 {
        for script in scripts(&steps, length) {
            for other in scripts(&steps, 2) {
                for bases in [vec![2, 2], vec![2, 3]] {
                    let plan = Plan {
                        bases,
                        ceilings: vec![3],
                        scripts: vec![script.clone(), other.clone()],
                    };
                    let input = format!("{plan:?}");
                    let room = room_for(&events);
                    answers.count(compare_run(&plan.bytes(), &events, room, &input));
                }
            }
        }
    }
    answers.print("runs of short scripts by answer");
    answers.require(&[0, 16, 17, 19], 100);
}

/// Every event that has a meaning in a state of so few tasks and objects, and those just beyond.
fn events_in(state: &State) -> Vec<Event> {
    let mut events = vec![Event::Suspend, Event::Work, Event::Finish];
    events.extend([0, 1, 2].map(Event::Delay));
    for o in 0..=state.ceilings.len() {
        events.extend([Event::Enter(o), Event::Leave(o)]);
    }
    for t in 0..=state.tasks.len() {
        events.push(Event::Release(t));
        events.extend([0, 1, 2, 3, 33].map(|p| Event::Set(t, p)));
    }
    let now = state.now;
    events.extend([now, now + 1, now + 2].map(Event::Clock));
    events.extend(now.checked_sub(1).map(Event::Clock));
    events
}

/// Every event in each state within reach of some fresh starts, nearest first; and the board of each of these states.
#[test]
fn every_event_within_reach() {
    let starts: [(&[u64], &[u64]); 4] = [
        (&[2, 2], &[2]),
        (&[1, 2, 2], &[2, 3]),
        (&[3, 2, 1], &[3, 2]),
        (&[2, 2, 2], &[3, 3]),
    ];
    let mut answers = Histogram::new();
    let mut reports = Histogram::new();
    for (bases, ceilings) in starts {
        let mut states = vec![fresh(bases, ceilings).1];
        let mut seen: HashSet<Vec<u8>> = HashSet::new();
        let mut at = 0;
        while at < states.len().min(1_200) {
            let state = states[at].clone();
            at += 1;
            let bytes = bytes_of(&state);
            assert!(compare_state(&bytes, Event::Work, "within reach"));
            for event in events_in(&state) {
                let outcome = compare_event(&bytes, event, "within reach");
                answers.count(outcome.answer);
                reports.count(outcome.report);
                let (_, next) = apply(state.clone(), event);
                if states.len() < 1_200 && seen.insert(bytes_of(&next)) {
                    states.push(next);
                }
            }
        }
    }
    answers.print("events within reach by answer");
    answers.require(&[0, 1, 2, 3, 4, 5, 6, 7, 8, 9], 50);
    reports.print("events within reach by report");
    reports.require(&[0, 1, 2], 50);
    reports.require_no_other(&[0, 1, 2]);
}
