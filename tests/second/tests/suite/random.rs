//! Random histories, scrambled states and random bytes: nothing panics, and what must hold holds.

use std::collections::BTreeMap;

use crate::support::{answer, at, fresh, mend_marks, refused, Random, LARGEST, LONGEST};
use second::board::{fill, next, Kind, Row};
use second::machine::{apply, Event};
use second::roster::{admit, base, ceiling, script};
use second::run::{decode, printed};
use second::sound::{broken, is_sound};
use second::state::{Place, State};

pub fn random_fresh(random: &mut Random) -> State {
    let value = |random: &mut Random| 1 + random.below(4);
    let tasks = 1 + random.index(5);
    let bases: Vec<u64> = (0..tasks).map(|_| value(random)).collect();
    let objects = random.index(4);
    let ceilings: Vec<u64> = (0..objects).map(|_| 1 + value(random)).collect();
    fresh(&bases, &ceilings)
}

/// An event that is mostly in range and likely to be accepted.
pub fn random_event(random: &mut Random, state: &State) -> Event {
    let innermost = state.running_task().and_then(|task| task.held.last());
    let object = random.index(state.ceilings.len() + 1);
    let task = random.index(state.tasks.len() + 1);
    match random.below(14) {
        0..=2 => Event::Enter(object),
        3 => Event::Leave(object),
        4 | 5 => Event::Leave(innermost.copied().unwrap_or(0)),
        6 => Event::Delay(random.below(4) as u16),
        7 => Event::Suspend,
        8 | 9 => Event::Release(task),
        10 | 11 => Event::Clock(random.reading(state.now)),
        12 => Event::Set(task, random.below(7)),
        _ if random.below(8) == 0 => Event::Finish,
        _ => Event::Work,
    }
}

/// A fresh state of any size with priorities from 1 to 32.
fn wide_fresh(random: &mut Random) -> State {
    let (tasks, objects) = (1 + random.index(64), random.index(33));
    let bases: Vec<u64> = (0..tasks).map(|_| 1 + random.below(32)).collect();
    let ceilings: Vec<u64> = (0..objects).map(|_| 1 + random.below(32)).collect();
    fresh(&bases, &ceilings)
}

/// An event that often moves a task to a queue all over the priorities.
fn wide_event(random: &mut Random, state: &State) -> Event {
    let task = random.index(state.tasks.len() + 1);
    match random.below(4) {
        0 => Event::Set(task, random.below(34)),
        1 => Event::Release(task),
        _ => random_event(random, state),
    }
}

/// A fresh state for a history that is wide or not.
pub fn any_fresh(random: &mut Random, is_wide: bool) -> State {
    if is_wide {
        wide_fresh(random)
    } else {
        random_fresh(random)
    }
}

/// An event for it.
pub fn any_event(random: &mut Random, is_wide: bool, state: &State) -> Event {
    if is_wide {
        wide_event(random, state)
    } else {
        random_event(random, state)
    }
}

/// Whether a reading is taken, by sums in numbers that are wide enough for them.
pub fn is_taken(now: u64, reading: u64) -> bool {
    let (now, reading) = (i128::from(now), i128::from(reading));
    now <= reading && reading <= now + 86_400_000 && reading <= 281_474_976_710_655
}

/// No object has two holders.
pub fn holders_are_single(state: &State) -> bool {
    let mut held: Vec<usize> = state.tasks.iter().flat_map(|t| t.held.clone()).collect();
    let all = held.len();
    held.sort_unstable();
    held.dedup();
    held.len() == all
}

#[test]
fn fresh_histories_stay_sound_with_one_holder_for_each_object() {
    let mut answers = [0; 11];
    let (mut longest, mut leaps) = (0, 0);
    for seed in 0..2000 {
        let mut random = Random::new(seed);
        let is_wide = seed % 4 == 0;
        let mut state = any_fresh(&mut random, is_wide);
        for _ in 0..60 {
            let event = any_event(&mut random, is_wide, &state);
            let (outcome, after) = apply(state.clone(), event);
            let answer = outcome.answer;
            assert!(answer == 0 || after == state, "seed {seed}");
            assert_eq!(broken(&after), [""; 0], "seed {seed}, {event:?}");
            assert!(holders_are_single(&after), "seed {seed}, {event:?}");
            answers[usize::from(answer)] += 1;
            if let Event::Clock(r) = event {
                assert_eq!(
                    answer == 0,
                    is_taken(state.now, r),
                    "seed {seed}, {event:?}"
                );
                longest += u32::from(r == state.now + LONGEST);
                leaps += u32::from(r == state.now + LONGEST + 1);
            }
            state = after;
        }
    }
    // Every answer but 10 is met.
    assert!(answers[..10].iter().all(|&count| count > 0), "{answers:?}");
    assert_eq!(answers[10], 0);
    assert!(
        longest > 100 && leaps > 100,
        "{longest} longest, {leaps} leaps"
    );
}

#[test]
fn readings_from_every_now_are_0_or_4() {
    let ends = [0, LONGEST, LARGEST - LONGEST, LARGEST];
    let mut answers = [0; 5];
    for seed in 0..20_000 {
        let mut random = Random::new(seed);
        let near = ends[random.index(4)].saturating_sub(2) + random.below(5);
        let any = random.below(LARGEST + 1);
        let now = if random.below(2) == 0 {
            any
        } else {
            near.min(LARGEST)
        };
        let reading = match random.below(4) {
            0 => LARGEST - 2 + random.below(4),
            1 => odd_number(&mut random),
            _ => random.reading(now),
        };
        let given = answer(&at(now, fresh(&[10], &[])), Event::Clock(reading));
        let expected = if is_taken(now, reading) { 0 } else { 4 };
        assert_eq!(given, expected, "now {now}, reading {reading}");
        answers[usize::from(given)] += 1;
    }
    assert!(answers[0] > 1000 && answers[4] > 1000, "{answers:?}");
}

#[test]
fn the_board_names_the_task_that_would_run_next() {
    for seed in 0..500 {
        let mut random = Random::new(seed);
        let is_wide = seed % 4 == 0;
        let mut state = any_fresh(&mut random, is_wide);
        for _ in 0..40 {
            let event = any_event(&mut random, is_wide, &state);
            state = apply(state, event).1;
            let blank = Row {
                kind: Kind::Ready,
                priority: 99,
                position: 0,
            };
            let mut rows = vec![blank; state.tasks.len()];
            assert_eq!(fill(&state, &mut rows), 0);
            let head = state.queues.iter().rev().find_map(|queue| queue.front());
            assert_eq!(next(&rows), Ok(head.copied()), "seed {seed}");
        }
    }
}

/// A number that is often at an end of some range.
fn odd_number(random: &mut Random) -> u64 {
    let odd = [
        0,
        1,
        2,
        31,
        32,
        33,
        63,
        64,
        65,
        255,
        65535,
        LONGEST,
        LONGEST + 1,
        LARGEST - LONGEST,
        LARGEST,
        LARGEST + 1,
        u64::MAX,
    ];
    odd[random.index(odd.len())]
}

/// Changes something by hand; the marks follow the queues.
pub fn scramble(random: &mut Random, state: &mut State) {
    let number = odd_number(random);
    let small = random.index(6);
    let t = random.index(state.tasks.len().max(1));
    let queue = &mut state.queues[random.index(32)];
    match random.below(12) {
        0 => state.now = number,
        1 => state.running = Some(number as usize),
        2 => state.running = (random.below(2) == 0).then_some(small),
        3 => state.ceilings.push(number),
        4 => drop(state.ceilings.pop()),
        5 => queue.push_back(small),
        6 => drop(queue.pop_front()),
        7 => drop(state.tasks.pop()),
        8 => scramble_task(random, state, t, number),
        _ => scramble_task(random, state, t, small as u64),
    }
    mend_marks(state);
}

fn scramble_task(random: &mut Random, state: &mut State, t: usize, number: u64) {
    let Some(task) = state.tasks.get_mut(t) else {
        return;
    };
    match random.below(8) {
        0 => task.base = number,
        1 => task.waiting = Some(number),
        2 => task.held.push(number as usize),
        3 => task.held.clear(),
        4 => task.place = Place::Delayed { due: number },
        5 => task.place = Place::Suspended,
        6 => task.place = Place::Running,
        _ => task.place = Place::Ready,
    }
}

#[test]
fn scrambled_states_never_panic_and_unsound_ones_are_refused() {
    let (mut sound, mut unsound) = (0, 0);
    for seed in 0..20_000 {
        let mut random = Random::new(seed);
        let is_wide = seed % 4 == 0;
        let mut state = any_fresh(&mut random, is_wide);
        for _ in 0..random.below(20) {
            let event = any_event(&mut random, is_wide, &state);
            state = apply(state, event).1;
        }
        for _ in 0..1 + random.below(3) {
            scramble(&mut random, &mut state);
        }
        let event = match random.below(4) {
            0 => Event::Clock(random.reading(state.now)),
            _ => random_event(&mut random, &fresh(&[10], &[20])),
        };
        let (outcome, after) = apply(state.clone(), event);
        if is_sound(&state) {
            sound += 1;
            assert_ne!(outcome.answer, 10, "seed {seed}");
            assert_eq!(broken(&after), [""; 0], "seed {seed}, {event:?}");
        } else {
            unsound += 1;
            assert_eq!((outcome, &after), (refused(10), &state), "seed {seed}");
        }
    }
    assert!(
        sound > 1000 && unsound > 1000,
        "{sound} sound, {unsound} unsound"
    );
}

#[test]
fn random_bytes_never_panic() {
    let start = crate::whole_case::whole_roster();
    let events = crate::whole_case::whole_events();
    let mut met: BTreeMap<String, u32> = BTreeMap::new();
    for seed in 0..20_000 {
        let mut random = Random::new(seed);
        let (mut roster, mut events) = (start.clone(), events.clone());
        for _ in 0..1 + random.below(3) {
            let at = random.index(roster.len());
            roster[at] = random.below(256) as u8;
            let at = random.index(events.len());
            events[at] = random.below(40) as u8;
        }
        roster.truncate(random.index(200) + 10);
        events.truncate(random.index(12) * 8 + random.index(2));
        let text = printed(&roster, &events);
        let expected = match (admit(&roster), decode(&events)) {
            (Err(refusal), _) => format!("refused {}", refusal.number),
            (Ok(_), Err(number)) => format!("refused {number}\n"),
            (Ok(_), Ok(_)) => String::from("passed\n"),
        };
        assert!(text.starts_with(&expected), "seed {seed}: {text}");
        *met.entry(expected).or_insert(0) += 1;
        for index in [0, 1, 2, 200, usize::MAX] {
            let known = script(&roster, index).is_ok();
            assert_eq!(base(&roster, index).is_ok(), known);
            assert!(index < 32 || ceiling(&roster, index).is_err());
        }
    }
    // All of 11 to 21, and rosters that pass.
    assert_eq!(met.len(), 12, "{met:?}");
}
