//! The nine events: how an accepted event moves the state and what it reports, and that a refused
//! one moves nothing.

use crate::answer;
use crate::report;
use crate::rules;
use crate::state::{Place, State};

/// An event; task and object numbers, readings and priorities may be out of range.
#[derive(Clone, Copy, Debug, PartialEq, Eq)]
pub enum Event {
    Enter(usize),
    Leave(usize),
    Delay(u16),
    Suspend,
    Release(usize),
    Clock(u64),
    Set(usize, u64),
    Work,
    Finish,
}

/// What an event gives beside the state: its answer, and its report of why the processor changed
/// hands.
#[derive(Clone, Copy, Debug, PartialEq, Eq)]
pub struct Outcome {
    pub answer: u8,
    pub report: u8,
}

/// The outcome of an event and the state after it; a refused event hands the state back as it was
/// and reports no change.
pub fn apply(mut state: State, event: Event) -> (Outcome, State) {
    let outcome = apply_to(&mut state, event);
    (outcome, state)
}

/// The same on a state in its place.
pub fn apply_to(state: &mut State, event: Event) -> Outcome {
    let answer = rules::answer(state, event);
    let mut report = report::UNCHANGED;
    if answer == answer::DONE {
        // Only sound states come here, so every number in them can be used as an index.
        let before = state.running;
        perform(state, event);
        // No event itself makes a task run: whom the dispatch finds running is the old task.
        let sent_to_head = state.dispatch();
        report = report::of(before, state.running, sent_to_head);
    }
    Outcome { answer, report }
}

fn perform(state: &mut State, event: Event) {
    match (event, state.running) {
        (Event::Clock(r), _) => clock(state, r),
        (Event::Release(t), _) => release(state, t),
        (Event::Set(t, p), _) => set(state, t, p),
        (Event::Enter(o), Some(t)) => state.tasks[t].held.push(o),
        (Event::Leave(_), Some(t)) => leave(state, t),
        (Event::Delay(d), Some(t)) => delay(state, t, d),
        (Event::Suspend, Some(t)) => suspend(state, t),
        (Event::Finish, Some(t)) => stop(state, t, Place::Ended),
        (Event::Work, _) | (_, None) => {}
    }
}

/// The running task stops running and is blocked or ended.
fn stop(state: &mut State, t: usize, place: Place) {
    state.running = None;
    state.tasks[t].place = place;
}

/// The running task stops running and goes to the tail of the queue for its active priority.
fn go_to_tail(state: &mut State, t: usize) {
    state.running = None;
    state.join_tail(t);
}

fn clock(state: &mut State, reading: u64) {
    state.now = reading;
    let due_time = |place| match place {
        Place::Delayed { due } if due <= reading => Some(due),
        _ => None,
    };
    let tasks = state.tasks.iter().enumerate();
    let mut woken: Vec<(u64, usize)> = tasks
        .filter_map(|(t, task)| Some((due_time(task.place)?, t)))
        .collect();
    // By due time, then by number: the order in which they become ready.
    woken.sort_unstable();
    for (_, t) in woken {
        state.join_tail(t);
    }
}

fn release(state: &mut State, t: usize) {
    if state.tasks[t].place == Place::Suspended {
        state.join_tail(t);
    } else {
        state.tasks[t].permit = true;
    }
}

/// A Set that takes effect sends a ready or running task to the tail, whatever the value: request
/// 2026-04, by D.2.3 note 15 (whether or not the active priority of a ready task changes) and by
/// D.2.3 paragraph 6, which makes no exception for a running task either.
fn set(state: &mut State, t: usize, p: u64) {
    let task = &mut state.tasks[t];
    if !task.held.is_empty() {
        // A base changed inside an action would let an equal task enter the same object.
        task.waiting = Some(p);
        return;
    }
    task.base = p;
    match task.place {
        Place::Running => go_to_tail(state, t),
        Place::Ready => {
            state.take_out(t);
            state.join_tail(t);
        }
        // A delayed or suspended task stands in no ready queue, and an ended one is refused.
        Place::Delayed { .. } | Place::Suspended | Place::Ended => {}
    }
}

fn leave(state: &mut State, t: usize) {
    let task = &mut state.tasks[t];
    task.held.pop();
    if !task.held.is_empty() {
        return;
    }
    // Without a waiting base the task runs on, also before its equals.
    if let Some(p) = task.waiting.take() {
        task.base = p;
        go_to_tail(state, t);
    }
}

fn delay(state: &mut State, t: usize, d: u16) {
    if d == 0 {
        go_to_tail(state, t);
    } else {
        let due = state.now + u64::from(d);
        stop(state, t, Place::Delayed { due });
    }
}

fn suspend(state: &mut State, t: usize) {
    if state.tasks[t].permit {
        state.tasks[t].permit = false;
    } else {
        stop(state, t, Place::Suspended);
    }
}
