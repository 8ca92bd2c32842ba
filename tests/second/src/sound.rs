//! When a state is sound: each way to be unsound is a function that says whether it is so.

use crate::limits::{LARGEST_READING, LONGEST_DELAY, MAX_OBJECTS, PRIORITIES, TASKS};
use crate::state::{Place, State, Task};

/// One clause of "unsound means": its name, and whether a state breaks it.
pub struct Clause {
    pub name: &'static str,
    pub broken: fn(&State) -> bool,
}

macro_rules! clauses {
    ($($function:ident),* $(,)?) => {
        [$(Clause { name: stringify!($function), broken: $function }),*]
    };
}

/// All clauses, in the order of document 01; that of request 2026-02 is the last.
pub const CLAUSES: [Clause; 15] = clauses![
    count_out_of_range,
    number_out_of_range,
    task_in_two_places,
    task_in_no_place,
    ready_in_wrong_queue,
    due_not_after_now,
    due_too_far_ahead,
    running_below_ready,
    nobody_running_while_ready,
    object_held_twice,
    ceilings_falling_inwards,
    ceilings_starting_below_base,
    holder_neither_ready_nor_running,
    waiting_base_outside_action,
    marks_wrong,
];

/// A state is sound when it breaks no clause.
pub fn is_sound(state: &State) -> bool {
    !CLAUSES.iter().any(|clause| (clause.broken)(state))
}

/// The names of the clauses that a state breaks.
pub fn broken(state: &State) -> Vec<&'static str> {
    let broken = CLAUSES.iter().filter(|clause| (clause.broken)(state));
    broken.map(|clause| clause.name).collect()
}

/// There is no task, or there are more tasks or objects than a state may have.
pub fn count_out_of_range(state: &State) -> bool {
    !TASKS.contains(&state.tasks.len()) || state.ceilings.len() > MAX_OBJECTS
}

/// A reading, priority, task number or object number lies outside its kind.
pub fn number_out_of_range(state: &State) -> bool {
    let no_priority = |p: &u64| !PRIORITIES.contains(p);
    let no_task = |&t: &usize| t >= state.tasks.len();
    let no_object = |&o: &usize| o >= state.ceilings.len();
    let bad_record = |task: &Task| {
        no_priority(&task.base)
            || task.waiting.as_ref().is_some_and(no_priority)
            || task.held.iter().any(no_object)
    };
    state.now > LARGEST_READING
        || state.running.as_ref().is_some_and(no_task)
        || state.queues.iter().flatten().any(no_task)
        || state.ceilings.iter().any(no_priority)
        || state.tasks.iter().any(bad_record)
}

/// A task is found more than once among the queues and the running task, or is found where its
/// own record does not put it.
pub fn task_in_two_places(state: &State) -> bool {
    let queued = count_in_queues(state);
    let mut records = state.tasks.iter().zip(queued).enumerate();
    records.any(|(t, (task, queued))| {
        let running = state.running == Some(t);
        match task.place {
            Place::Running => queued > 0,
            Place::Ready => running || queued > 1,
            Place::Delayed { .. } | Place::Suspended | Place::Ended => running || queued > 0,
        }
    })
}

/// A task's record calls it running or ready, and it is not found there.
pub fn task_in_no_place(state: &State) -> bool {
    let queued = count_in_queues(state);
    let mut records = state.tasks.iter().zip(queued).enumerate();
    records.any(|(t, (task, queued))| match task.place {
        Place::Running => state.running != Some(t),
        Place::Ready => queued == 0,
        Place::Delayed { .. } | Place::Suspended | Place::Ended => false,
    })
}

/// How often each task stands in the ready queues; numbers of no task are left out.
fn count_in_queues(state: &State) -> Vec<usize> {
    let mut counts = vec![0; state.tasks.len()];
    for &t in state.queues.iter().flatten() {
        if let Some(count) = counts.get_mut(t) {
            *count += 1;
        }
    }
    counts
}

/// A ready queue holds a task of another active priority.
pub fn ready_in_wrong_queue(state: &State) -> bool {
    (1..).zip(&state.queues).any(|(priority, queue)| {
        let misplaced = |&t: &usize| state.active(t).is_some_and(|active| active != priority);
        queue.iter().any(misplaced)
    })
}

/// A due time is at or before now.
pub fn due_not_after_now(state: &State) -> bool {
    due_times(state).any(|due| due <= state.now)
}

/// A due time is over 65,535 past now.
pub fn due_too_far_ahead(state: &State) -> bool {
    due_times(state).any(|due| due.saturating_sub(state.now) > LONGEST_DELAY)
}

fn due_times(state: &State) -> impl Iterator<Item = u64> + '_ {
    state.tasks.iter().filter_map(|task| match task.place {
        Place::Delayed { due } => Some(due),
        _ => None,
    })
}

/// The running task's active priority is below that of a nonempty ready queue.
pub fn running_below_ready(state: &State) -> bool {
    let running = state.running.and_then(|t| state.active(t));
    running.is_some_and(|active| state.highest_ready() > Some(active))
}

/// Nobody runs, though a ready queue is not empty.
pub fn nobody_running_while_ready(state: &State) -> bool {
    state.running.is_none() && state.highest_ready().is_some()
}

/// An object stands twice in one task's held list.
pub fn object_held_twice(state: &State) -> bool {
    state.tasks.iter().any(|task| {
        let mut held = task.held.iter().enumerate();
        held.any(|(index, o)| task.held[..index].contains(o))
    })
}

/// A held object's ceiling is below that of the object just outside it.
pub fn ceilings_falling_inwards(state: &State) -> bool {
    let ceiling = |o: usize| state.ceilings.get(o);
    let falls = |pair: &[usize]| match (ceiling(pair[0]), ceiling(pair[1])) {
        (Some(outer), Some(inner)) => inner < outer,
        _ => false,
    };
    let falling = |task: &Task| task.held.windows(2).any(falls);
    state.tasks.iter().any(falling)
}

/// The outermost held object's ceiling is below the task's base.
pub fn ceilings_starting_below_base(state: &State) -> bool {
    state.tasks.iter().any(|task| {
        let outermost = task.held.first().and_then(|&o| state.ceilings.get(o));
        outermost.is_some_and(|&ceiling| ceiling < task.base)
    })
}

/// A task holds something and is delayed, suspended or ended.
pub fn holder_neither_ready_nor_running(state: &State) -> bool {
    let can_hold = |place| matches!(place, Place::Running | Place::Ready);
    let bad = |task: &Task| !task.held.is_empty() && !can_hold(task.place);
    state.tasks.iter().any(bad)
}

/// A base waits, though its task holds nothing.
pub fn waiting_base_outside_action(state: &State) -> bool {
    let bad = |task: &Task| task.waiting.is_some() && task.held.is_empty();
    state.tasks.iter().any(bad)
}

/// The state keeps the word, a mark on exactly when its queue is nonempty; otherwise it is unsound
/// (request 2026-02). So a mark is on though its queue is empty, or off though it is not.
pub fn marks_wrong(state: &State) -> bool {
    (0..).zip(&state.queues).any(|(bit, queue)| {
        let is_on = state.marks >> bit & 1 == 1;
        is_on == queue.is_empty()
    })
}
