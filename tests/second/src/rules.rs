//! When an event is refused: the table of document 01, one function for each number.

use crate::answer;
use crate::limits::{LARGEST_READING, LONGEST_ADVANCE, PRIORITIES};
use crate::machine::Event;
use crate::sound;
use crate::state::{Place, State};

type Rule = fn(&State, Event) -> bool;

/// In the order of their numbers, so that the first rule that applies gives the lowest.
const RULES: [(u8, Rule); 9] = [
    (answer::NO_SUCH_TASK, no_such_task),
    (answer::NO_SUCH_OBJECT, no_such_object),
    (answer::BAD_PRIORITY, bad_priority),
    (answer::BAD_READING, bad_reading),
    (answer::NOBODY_RUNS, nobody_runs),
    (answer::ENDED_TASK, ended_task),
    (answer::INSIDE_ACTION, inside_action),
    (answer::ABOVE_CEILING, above_ceiling),
    (answer::NOT_INNERMOST, not_innermost),
];

/// The answer to an event: 10 in an unsound state, else the lowest number that applies, else 0.
pub fn answer(state: &State, event: Event) -> u8 {
    if !sound::is_sound(state) {
        return answer::UNSOUND;
    }
    let refused = RULES.iter().find(|(_, rule)| rule(state, event));
    refused.map_or(answer::DONE, |&(number, _)| number)
}

fn no_such_task(state: &State, event: Event) -> bool {
    match event {
        Event::Release(t) | Event::Set(t, _) => t >= state.tasks.len(),
        _ => false,
    }
}

fn no_such_object(state: &State, event: Event) -> bool {
    match event {
        Event::Enter(o) | Event::Leave(o) => o >= state.ceilings.len(),
        _ => false,
    }
}

fn bad_priority(_: &State, event: Event) -> bool {
    matches!(event, Event::Set(_, p) if !PRIORITIES.contains(&p))
}

/// A reading below now, more than the longest advance past it, or above the largest.
fn bad_reading(state: &State, event: Event) -> bool {
    let Event::Clock(r) = event else {
        return false;
    };
    // A reading below now is 0 past it, so that no number overflows.
    let is_leap = r.saturating_sub(state.now) > LONGEST_ADVANCE;
    r < state.now || is_leap || r > LARGEST_READING
}

fn nobody_runs(state: &State, event: Event) -> bool {
    let from_outside = matches!(event, Event::Release(_) | Event::Clock(_) | Event::Set(..));
    !from_outside && state.running.is_none()
}

fn ended_task(state: &State, event: Event) -> bool {
    let ended = |t: usize| state.tasks.get(t).map(|task| task.place) == Some(Place::Ended);
    matches!(event, Event::Set(t, _) if ended(t))
}

/// What follows is about the running task, and does not apply where nobody runs.
fn inside_action(state: &State, event: Event) -> bool {
    let Some(task) = state.running_task() else {
        return false;
    };
    match event {
        Event::Delay(_) | Event::Suspend | Event::Finish => !task.held.is_empty(),
        Event::Enter(o) => task.held.contains(&o),
        _ => false,
    }
}

fn above_ceiling(state: &State, event: Event) -> bool {
    let (Some(task), Event::Enter(o)) = (state.running_task(), event) else {
        return false;
    };
    let active = task.active(&state.ceilings);
    let ceiling = state.ceilings.get(o);
    ceiling.is_some_and(|&ceiling| active > ceiling)
}

fn not_innermost(state: &State, event: Event) -> bool {
    let (Some(task), Event::Leave(o)) = (state.running_task(), event) else {
        return false;
    };
    task.held.last() != Some(&o)
}
