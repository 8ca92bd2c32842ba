//! Scrambled states: every byte of a sound one changed alone, its lists changed, and every pair of changes of a small one. Where a
//! change empties a ready queue or fills an empty one, it is looked at with the marks as they were and with the marks set right.

use harness::compare::{compare_event, compare_fill, compare_readers, compare_state};
use harness::layout::{
    bytes_of, mend_marks_in, CEILINGS, HELD, HELD_ROW, OBJECT_COUNT, READY, READY_ROW, ROW_SIZE,
    TASKS, TASK_COUNT, TASK_ROW,
};
use harness::random::Random;
use harness::sizes::{LAST_OBJECT, LAST_TASK, MOST_OBJECTS, MOST_TASKS};
use harness::states::{event_of, mend_marks, sound_state};
use second::limits::QUEUES;
use second::machine::{apply_to, Event};
use second::state::{fresh, Place, State};

/// The state after these events, all of which are accepted.
fn after(bases: &[u64], ceilings: &[u64], events: &[Event]) -> State {
    let (_, mut state) = fresh(bases, ceilings);
    for event in events {
        assert_eq!(apply_to(&mut state, *event).answer, 0, "{event:?}");
    }
    state
}

/// Sound states of many kinds: all the tasks and objects there can be, tasks in all places, nested holders, one that holds all, a
/// base that waits, nobody running, and everybody ended.
fn sound_states() -> Vec<State> {
    // bases from 1 to 16, ceilings from 17 to 32, rising with the numbers
    let rising = |most: usize| move |n: usize| (n * 16 / most) as u64;
    let bases: Vec<u64> = (0..MOST_TASKS)
        .map(rising(MOST_TASKS))
        .map(|p| 1 + p)
        .collect();
    let ceilings: Vec<u64> = (0..MOST_OBJECTS)
        .map(rising(MOST_OBJECTS))
        .map(|p| 17 + p)
        .collect();
    let first = MOST_TASKS - MOST_TASKS / 16;
    let inside = [
        Event::Enter(0),
        Event::Enter(LAST_OBJECT),
        Event::Set(first, 3),
    ];
    let waiting = [Event::Delay(0), Event::Suspend, Event::Enter(0)];
    let late = [Event::Delay(0), Event::Delay(9), Event::Clock(3)];
    let nested = [Event::Enter(0), Event::Enter(1), Event::Set(2, 4)];
    let all: Vec<Event> = (0..MOST_OBJECTS).map(Event::Enter).collect();
    let away = [
        Event::Suspend,
        Event::Delay(7),
        Event::Finish,
        Event::Clock(7),
    ];
    vec![
        after(&bases, &ceilings, &inside),
        after(&bases, &ceilings, &waiting),
        after(&bases, &ceilings, &late),
        after(&[5, 17], &ceilings, &all),
        after(&[5, 5, 9], &[9, 10], &nested),
        after(&[3, 2, 1], &[4], &away[..3]),
        after(&[3, 2, 1], &[4], &away),
        after(&[3, 2], &[], &[Event::Finish, Event::Finish]),
        fresh(&[1], &[]).1,
    ]
}

/// The changed bytes as they are, and, where the marks are then wrong, with the marks set right: so that it is seen what else the
/// change does.
fn both_ways(changed: Vec<u8>) -> Vec<(&'static str, Vec<u8>)> {
    let mut mended = changed.clone();
    mend_marks_in(&mut mended);
    let mut ways = vec![("marks as they were", changed)];
    if mended != ways[0].1 {
        ways.push(("marks set right", mended));
    }
    ways
}

/// Whether a byte is read, or comes next behind those that are: behind the listed tasks and objects, or the end of a list.
fn is_near(bytes: &[u8], at: usize) -> bool {
    let (tasks, objects) = (bytes[TASK_COUNT] as usize, bytes[OBJECT_COUNT] as usize);
    let in_list = |rows: usize, size: usize| {
        let place = (at - rows) % size;
        place <= bytes[at - place] as usize + 1
    };
    match at {
        ..TASKS => true,
        TASKS..CEILINGS => (at - TASKS) / TASK_ROW <= tasks,
        CEILINGS..HELD => at - CEILINGS <= objects,
        HELD..READY => (at - HELD) / HELD_ROW <= tasks && in_list(HELD, HELD_ROW),
        _ => in_list(READY, READY_ROW),
    }
}

/// What a byte is changed to: a few values, and of those that are not read just two.
fn values_at(random: &mut Random, bytes: &[u8], at: usize) -> Vec<u8> {
    let old = bytes[at];
    let mut values = vec![255, random.byte()];
    if is_near(bytes, at) {
        values.extend([0, 1, 2, 5, MOST_OBJECTS as u8 + 1, MOST_TASKS as u8 + 1]);
        values.extend([old ^ 1, old.wrapping_add(1)]);
    }
    values
}

/// Every byte of these states as a few others: soundness, the running task, an event and the board.
#[test]
fn every_byte_of_a_state() {
    let (mut sound, mut all) = (0, 0);
    for (which, state) in sound_states().iter().enumerate() {
        let mut random = Random::new(which as u64);
        let bytes = bytes_of(state);
        assert!(
            compare_state(&bytes, Event::Work, "as it is"),
            "state {which} is sound"
        );
        for at in 0..bytes.len() {
            for value in values_at(&mut random, &bytes, at) {
                let mut changed = bytes.clone();
                changed[at] = value;
                let event = event_of(&mut random, state);
                for (way, changed) in both_ways(changed) {
                    let input = format!("state {which}, byte {at} as {value}, {way}");
                    sound += compare_state(&changed, event, &input) as usize;
                    all += 1;
                }
            }
        }
    }
    println!("{sound} of {all} changed states are sound");
    assert!(sound > 1000 && all - sound > 1000);
}

/// Every value of the bytes that a state begins with, its marks among them, and of those that the rows of tasks have.
#[test]
fn every_value_of_a_field() {
    for (which, state) in sound_states().iter().enumerate() {
        let bytes = bytes_of(state);
        let tasks = state.tasks.len();
        let rows = [0, tasks - 1, tasks.min(LAST_TASK), LAST_TASK];
        let fields = rows
            .iter()
            .flat_map(|t| (7..13).map(move |at| TASKS + TASK_ROW * t + at));
        for at in (6..TASKS).chain(fields) {
            for value in 0..=255 {
                let mut changed = bytes.clone();
                changed[at] = value;
                let input = format!("state {which}, byte {at} as {value}");
                compare_readers(&changed, &input);
                compare_event(&changed, Event::Work, &input);
                compare_fill(&changed, &[0xA5; ROW_SIZE * (MOST_TASKS + 1)], &input);
            }
        }
    }
}

/// Every list with one number more at its front or end, one less, or turned about; lengths up to and past the row.
#[test]
fn every_list_of_a_state() {
    for (which, state) in sound_states().iter().enumerate() {
        let bytes = bytes_of(state);
        // those of the listed tasks, and of the next
        let rows = MOST_TASKS.min(state.tasks.len() + 1);
        let held = (0..rows).map(|t| (HELD + HELD_ROW * t, HELD_ROW));
        let ready = (0..QUEUES).map(|q| (READY + READY_ROW * q, READY_ROW));
        for (at, size) in held.chain(ready) {
            let length = bytes[at] as usize;
            let list = &bytes[at + 1..][..length];
            let mut lists = vec![list.iter().rev().copied().collect::<Vec<u8>>()];
            lists.extend((1..=length).map(|n| [&list[..n - 1], &list[n..]].concat()));
            for n in (0..=size as u8).chain([254, 255]) {
                lists.push([list, &[n]].concat());
                lists.push([&[n], list].concat());
            }
            for new in lists.iter().filter(|new| new.len() < size) {
                let mut changed = bytes.clone();
                changed[at] = new.len() as u8;
                changed[at + 1..][..new.len()].copy_from_slice(new);
                for (way, changed) in both_ways(changed) {
                    let input = format!("state {which}, list at {at} as {new:?}, {way}");
                    compare_state(&changed, Event::Work, &input);
                }
            }
            for length in 0..=255 {
                let mut changed = bytes.clone();
                changed[at] = length;
                for (way, changed) in both_ways(changed) {
                    let input = format!("state {which}, length at {at} as {length}, {way}");
                    compare_readers(&changed, &input);
                }
            }
        }
    }
}

type Change = Box<dyn Fn(&mut State)>;

/// The changes of a small state, each of one field.
fn changes(state: &State) -> Vec<Change> {
    let mut all: Vec<Change> = Vec::new();
    let now = state.now;
    for running in [None, Some(0), Some(1), Some(2), Some(3)] {
        all.push(Box::new(move |s| s.running = running));
    }
    for t in 0..state.tasks.len() {
        let places = [Place::Running, Place::Ready, Place::Suspended, Place::Ended];
        let dues = [now, now + 1, now + 65_535, now + 65_536].map(|due| Place::Delayed { due });
        for place in places.into_iter().chain(dues) {
            all.push(Box::new(move |s| s.tasks[t].place = place));
        }
        for base in [0, 1, 2, 3, 33] {
            all.push(Box::new(move |s| s.tasks[t].base = base));
        }
        for waiting in [None, Some(0), Some(1), Some(2), Some(33)] {
            all.push(Box::new(move |s| s.tasks[t].waiting = waiting));
        }
        for held in HELD_LISTS {
            all.push(Box::new(move |s| s.tasks[t].held = held.to_vec()));
        }
    }
    for o in 0..state.ceilings.len() {
        for ceiling in [0, 1, 2, 3, 33] {
            all.push(Box::new(move |s| s.ceilings[o] = ceiling));
        }
    }
    for q in 0..3 {
        for queue in QUEUE_LISTS {
            all.push(Box::new(move |s| {
                s.queues[q] = queue.iter().copied().collect();
                mend_marks(s);
            }));
        }
    }
    // of these queues too: beside a change that empties or fills one, its mark is then as it was
    for mark in [0, 1, 2, 3, 31] {
        all.push(Box::new(move |s| s.marks ^= 1 << mark));
    }
    all
}

const HELD_LISTS: [&[usize]; 9] = [
    &[],
    &[0],
    &[1],
    &[0, 1],
    &[1, 0],
    &[0, 0],
    &[0, 1, 0],
    &[2],
    &[0, 2],
];
const QUEUE_LISTS: [&[usize]; 8] = [&[], &[0], &[1], &[0, 1], &[1, 0], &[1, 1], &[0, 1, 0], &[2]];

/// Small sound states, and every pair of changes of each.
#[test]
fn every_pair_of_changes_of_a_small_state() {
    let states = [
        after(&[2, 2], &[2, 3], &[]),
        after(
            &[2, 2],
            &[2, 3],
            &[Event::Enter(0), Event::Enter(1), Event::Set(0, 1)],
        ),
        after(
            &[1, 2],
            &[1, 3],
            &[Event::Suspend, Event::Enter(0), Event::Release(1)],
        ),
        after(&[1, 2], &[3, 3], &[Event::Delay(5), Event::Suspend]),
        after(&[1, 2], &[3, 3], &[Event::Finish]),
    ];
    let mut random = Random::new(0);
    let (mut sound, mut all) = (0, 0);
    for (which, state) in states.iter().enumerate() {
        let changes = changes(state);
        for (i, first) in changes.iter().enumerate() {
            for (j, second) in changes.iter().enumerate() {
                let mut changed = state.clone();
                first(&mut changed);
                second(&mut changed);
                let event = event_of(&mut random, state);
                let input = format!("state {which}, changes {i} and {j}");
                sound += compare_state(&bytes_of(&changed), event, &input) as usize;
                all += 1;
            }
        }
    }
    println!("{sound} of {all} changed states are sound");
    assert!(sound > 1000 && all - sound > 1000);
}

/// A byte of a sound state changed at random, and another with it now and then.
#[test]
fn any_byte_of_a_state() {
    for seed in 0..10_000 {
        let mut random = Random::new(seed);
        let state = sound_state(&mut random);
        let mut bytes = bytes_of(&state);
        for _ in 0..random.within(1, 2) {
            let at = random.below(bytes.len());
            bytes[at] = random.byte();
        }
        let event = event_of(&mut random, &state);
        for (way, bytes) in both_ways(bytes) {
            compare_state(&bytes, event, &format!("seed {seed}, {way}"));
        }
    }
}
