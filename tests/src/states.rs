//! Made states: sound ones at the end of made histories, and ones with a planted fault of every kind.

use std::mem::discriminant;

use second::limits::{LARGEST_READING, LONGEST_ADVANCE, LONGEST_DELAY, QUEUES};
use second::machine::{apply_to, Event};
use second::state::{fresh, marks_of, Place, State};

use crate::random::Random;
use crate::sizes::{MOST_OBJECTS, MOST_TASKS};

/// How many kinds of events there are.
const KINDS: usize = 9;

/// An event that may be refused; numbers are mostly in range.
pub fn event_of(random: &mut Random, state: &State) -> Event {
    let tasks = state.tasks.len().max(1);
    let objects = state.ceilings.len().max(1);
    let mut object = random.below(objects + 1);
    let mut task = random.below(tasks + 1);
    if random.once_in(20) {
        object = random.pick(&[MOST_OBJECTS, MOST_OBJECTS + 1, 255, 256, usize::MAX]);
        task = random.pick(&[MOST_TASKS, MOST_TASKS + 1, 255, 256, usize::MAX]);
    }
    match random.below(12) {
        0 | 1 => Event::Enter(object),
        2 => Event::Leave(object),
        3 | 4 => Event::Leave(innermost(state).unwrap_or(object)),
        5 => Event::Delay(random.pick(&[0, 1, 2, 5, 300, 65_535])),
        6 => Event::Suspend,
        7 => Event::Release(task),
        8 => Event::Clock(reading(random, state.now)),
        9 | 10 => Event::Set(task, random.pick(&[0, 1, 1, 2, 3, 15, 20, 31, 32, 33, 255])),
        _ if random.once_in(3) => Event::Work,
        _ => Event::Finish,
    }
}

/// One such event of each kind, in any order.
pub fn one_of_each(random: &mut Random, state: &State) -> Vec<Event> {
    let mut events: Vec<Event> = Vec::new();
    while events.len() < KINDS {
        let event = event_of(random, state);
        let kind = discriminant(&event);
        if events.iter().all(|other| discriminant(other) != kind) {
            events.push(event);
        }
    }
    events
}

fn innermost(state: &State) -> Option<usize> {
    state.running_task()?.held.last().copied()
}

fn reading(random: &mut Random, now: u64) -> u64 {
    match random.below(11) {
        0 => now.wrapping_sub(1),
        1 => random.pick(&[LARGEST_READING, LARGEST_READING + 1, u64::MAX]),
        2 => now,
        3 => now.saturating_add(LONGEST_DELAY),
        4 => now.saturating_add(LONGEST_ADVANCE + random.below(2) as u64),
        _ => now.saturating_add(random.below(8) as u64),
    }
}

/// Where a history begins: at 0, at any reading, or within some longest advances or Delays of the largest.
fn first_now(random: &mut Random) -> u64 {
    match random.below(8) {
        0 => random.word() >> 16,
        1 => LARGEST_READING - random.within(0, 3) as u64 * LONGEST_ADVANCE,
        2 => LARGEST_READING - random.within(0, 3) as u64 * LONGEST_DELAY,
        _ => 0,
    }
}

/// A sound state: a fresh start, though not always at 0, and some accepted events.
pub fn sound_state(random: &mut Random) -> State {
    let tasks = random.pick(&[1, 2, 3, 4, 5, 8, MOST_TASKS]);
    let objects = random.pick(&[0, 1, 2, 3, 4, MOST_OBJECTS]);
    let spread = random.pick(&[1, 3, 32]);
    let bases: Vec<u64> = (0..tasks)
        .map(|_| random.within(1, spread) as u64)
        .collect();
    let ceilings: Vec<u64> = (0..objects)
        .map(|_| random.within(33 - spread, 32) as u64)
        .collect();
    let (_, mut state) = fresh(&bases, &ceilings);
    state.now = first_now(random);
    for _ in 0..random.below(60) {
        let event = event_of(random, &state);
        // few readings go on to the end, where no other can follow
        if event != Event::Clock(LARGEST_READING) || random.once_in(8) {
            apply_to(&mut state, event);
        }
    }
    state
}

/// The same state at another now: due times move along, so a sound state stays sound.
pub fn at_now(state: &State, now: u64) -> State {
    let mut moved = state.clone();
    moved.now = now;
    for task in &mut moved.tasks {
        if let Place::Delayed { due } = &mut task.place {
            *due = now + (*due - state.now);
        }
    }
    moved
}

/// The due times of the delayed tasks.
pub fn dues(state: &State) -> Vec<u64> {
    let due = |place| match place {
        Place::Delayed { due } => Some(due),
        _ => None,
    };
    let tasks = state.tasks.iter();
    tasks.filter_map(|task| due(task.place)).collect()
}

fn tasks_at(state: &State, wanted: fn(Place) -> bool) -> Vec<usize> {
    let tasks = 0..state.tasks.len();
    tasks.filter(|t| wanted(state.tasks[*t].place)).collect()
}

fn one_of(random: &mut Random, from: &[usize]) -> Option<usize> {
    (!from.is_empty()).then(|| random.pick(from))
}

/// Sets the marks right after queues were changed by hand, so that the marks are no damage too.
pub fn mend_marks(state: &mut State) {
    state.marks = marks_of(&state.queues);
}

fn leave_queue(state: &mut State, t: usize) {
    for queue in &mut state.queues {
        queue.retain(|other| *other != t);
    }
}

/// Plants a fault: in the marks, or beside them with the marks right.
pub fn plant(random: &mut Random, state: &mut State) {
    if random.once_in(23) {
        state.marks ^= 1 << random.below(QUEUES);
    } else {
        plant_beside_marks(random, state);
        mend_marks(state);
    }
}

/// Some of these faults need a task in a certain place, and leave the state alone where there is none.
fn plant_beside_marks(random: &mut Random, state: &mut State) {
    let any = random.below(state.tasks.len());
    let object = random.below(state.ceilings.len().max(1));
    let ready = one_of(random, &tasks_at(state, |p| p == Place::Ready));
    let away = one_of(
        random,
        &tasks_at(state, |p| p != Place::Ready && p != Place::Running),
    );
    match random.below(22) {
        0 => state.now = random.pick(&[LARGEST_READING + 1, u64::MAX]),
        1 => state.tasks[any].base = random.pick(&[0, 33, 200]),
        2 => state.running = Some(state.tasks.len() + random.below(3)),
        3 => state.queues[random.below(QUEUES)].push_back(state.tasks.len() + random.below(3)),
        4 => state.tasks[any].waiting = Some(random.within(0, 33) as u64),
        5 => state.tasks[any]
            .held
            .push(state.ceilings.len() + random.below(3)),
        6 => {
            let delays = random.pick(&[0, 0, LONGEST_DELAY + 1, LONGEST_DELAY + 1, u64::MAX / 2]);
            state.tasks[any].place = Place::Delayed {
                due: state.now.saturating_add(delays),
            };
            leave_queue(state, any);
            if state.running == Some(any) {
                state.running = None;
            }
        }
        7 => state.tasks[any].held.extend([object, object]),
        8 => state.tasks[any].held.push(object),
        9 => state.tasks[any].held.insert(0, object),
        10 => state.tasks[any].base = random.within(1, 32) as u64,
        11 => {
            if let Some(t) = ready {
                let queue = queue_for(random, state, t);
                state.queues[queue].push_front(t);
            }
        }
        12 => {
            if let Some(t) = ready {
                leave_queue(state, t);
            }
        }
        13 => {
            if let Some(t) = ready {
                leave_queue(state, t);
                let queue = random.below(QUEUES);
                state.queues[queue].push_back(t);
            }
        }
        14 => {
            if let Some(t) = away {
                state.tasks[t].place = random.pick(&[Place::Ready, Place::Running]);
            }
        }
        15 => {
            if let Some(t) = runner(state) {
                state.running = None;
                state.tasks[t].place = Place::Suspended;
            }
        }
        16 => {
            if let Some(t) = runner(state) {
                let queue = queue_for(random, state, t);
                state.queues[queue].push_back(t);
            }
        }
        17 => {
            if let Some(o) = state.ceilings.get_mut(object) {
                *o = random.within(0, 33) as u64;
            }
        }
        18 => {
            if let Some(t) = away {
                let queue = queue_for(random, state, t);
                state.queues[queue].push_back(t);
            }
        }
        19 => swap_running(state, ready),
        _ => hold_wrongly(random, state),
    }
}

/// The running task holds objects from the highest ceiling down, or one whose ceiling is below its base.
fn hold_wrongly(random: &mut Random, state: &mut State) {
    let Some(t) = runner(state) else {
        return;
    };
    let base = state.tasks[t].base;
    let below = random.once_in(2);
    let mut objects: Vec<usize> = (0..state.ceilings.len()).collect();
    objects.retain(|o| (state.ceilings[*o] < base) == below);
    objects.sort_by_key(|o| std::cmp::Reverse(state.ceilings[*o]));
    objects.truncate(if below {
        1
    } else {
        random.within(2, MOST_OBJECTS)
    });
    state.tasks[t].held = objects;
}

/// The place of a task's own queue, or of any.
fn queue_for(random: &mut Random, state: &State, t: usize) -> usize {
    match state.active(t) {
        Some(p @ 1..=32) if random.once_in(2) => p as usize - 1,
        _ => random.below(QUEUES),
    }
}

/// The running task, if it is one: two faults may meet.
fn runner(state: &State) -> Option<usize> {
    state.running.filter(|t| *t < state.tasks.len())
}

/// A ready task runs, and the running one goes to the head of its queue.
fn swap_running(state: &mut State, ready: Option<usize>) {
    if let (Some(r), Some(t)) = (runner(state), ready) {
        leave_queue(state, t);
        let level = state.active(r).unwrap_or(1).clamp(1, 32) as usize;
        state.queues[level - 1].push_front(r);
        state.tasks[r].place = Place::Ready;
        state.tasks[t].place = Place::Running;
        state.running = Some(t);
    }
}
