//! Soundness, clause by clause: each state breaks exactly the clauses named beside it.

use std::collections::VecDeque;

use crate::support::{fresh, mend_marks, play, LARGEST};
use second::machine::apply;
use second::machine::Event::{Delay, Enter, Finish, Release, Suspend, Work};
use second::sound::{broken, is_sound, CLAUSES};
use second::state::{Place, State};

/// Tasks of bases 10, 20, 10 (0 running, 1 delayed until 5, 2 ready) and four objects.
fn base_state() -> State {
    play(fresh(&[10, 20, 10], &[20, 15, 20, 10]), &[Delay(5)])
}

/// A change of the base state breaks exactly these clauses, and every event is then refused. The
/// marks follow the queues, so that the change stays the only damage.
fn breaks(expected: &[&str], change: impl Fn(&mut State)) {
    let mut state = base_state();
    change(&mut state);
    mend_marks(&mut state);
    assert_eq!(broken(&state), expected);
    assert_eq!(is_sound(&state), expected.is_empty());
    let answer = if expected.is_empty() { 0 } else { 10 };
    let event = if state.running.is_some() {
        Work
    } else {
        Release(0)
    };
    let (given, after) = apply(state.clone(), event);
    assert_eq!(given.answer, answer);
    assert!(answer == 0 || (given.report, after) == (0, state));
}

fn queue_mut(state: &mut State, priority: usize) -> &mut VecDeque<usize> {
    &mut state.queues[priority - 1]
}

#[test]
fn the_base_state_is_sound() {
    breaks(&[], |_| {});
    assert_eq!(CLAUSES.len(), 15);
}

#[test]
fn counts_out_of_range() {
    breaks(&["count_out_of_range"], |state| {
        state.ceilings = vec![20; 33]
    });
    breaks(&[], |state| state.ceilings = vec![20; 32]);
    breaks(&[], |state| state.ceilings.clear());
    let add = |state: &mut State, count: usize| {
        let ended = play(fresh(&[10], &[]), &[Finish]).tasks[0].clone();
        state.tasks.resize(count, ended);
    };
    breaks(&[], |state| add(state, 64));
    breaks(&["count_out_of_range"], |state| add(state, 65));
    breaks(&["count_out_of_range"], |state| {
        state.tasks.clear();
        state.running = None;
        queue_mut(state, 10).clear();
    });
}

#[test]
fn numbers_out_of_range() {
    let number = &["number_out_of_range"][..];
    for value in [0, 33, u64::MAX] {
        breaks(number, |state| state.tasks[1].base = value);
        breaks(number, |state| state.ceilings[3] = value);
        breaks(number, |state| {
            state.tasks[0].held = vec![3];
            state.tasks[0].waiting = Some(value);
        });
    }
    breaks(number, |state| {
        state.tasks[1].place = Place::Ended;
        state.now = LARGEST + 1;
    });
    breaks(&[], |state| {
        state.tasks[1].place = Place::Ended;
        state.now = LARGEST;
    });
    breaks(number, |state| state.tasks[0].held = vec![4]);
    breaks(number, |state| queue_mut(state, 10).push_back(3));
    breaks(number, |state| queue_mut(state, 1).push_back(usize::MAX));
    breaks(&["number_out_of_range", "task_in_no_place"], |state| {
        state.running = Some(3);
    });
}

#[test]
fn a_task_in_two_places() {
    let two = &["task_in_two_places"][..];
    breaks(two, |state| queue_mut(state, 10).push_back(2));
    breaks(two, |state| queue_mut(state, 10).push_back(0));
    breaks(&["task_in_two_places", "running_below_ready"], |state| {
        queue_mut(state, 20).push_back(1);
    });
    for place in [Place::Suspended, Place::Ended, Place::Delayed { due: 1 }] {
        breaks(two, |state| state.tasks[0].place = place);
        breaks(two, |state| state.tasks[2].place = place);
    }
    breaks(&["task_in_two_places", "task_in_no_place"], |state| {
        state.tasks[0].place = Place::Ready;
    });
    breaks(&["task_in_two_places", "task_in_no_place"], |state| {
        state.tasks[2].place = Place::Running;
    });
}

#[test]
fn a_task_in_no_place() {
    let none = &["task_in_no_place"][..];
    breaks(none, |state| queue_mut(state, 10).clear());
    breaks(none, |state| state.tasks[1].place = Place::Running);
    breaks(none, |state| state.tasks[1].place = Place::Ready);
    breaks(none, |state| {
        queue_mut(state, 10).clear();
        state.running = None;
        state.tasks[2].place = Place::Suspended;
    });
}

#[test]
fn a_ready_task_in_another_queue() {
    breaks(&["ready_in_wrong_queue"], |state| {
        queue_mut(state, 10).clear();
        queue_mut(state, 9).push_back(2);
    });
    breaks(&["ready_in_wrong_queue", "running_below_ready"], |state| {
        queue_mut(state, 10).clear();
        queue_mut(state, 11).push_back(2);
    });
    // By the active priority and not by the base.
    breaks(&["ready_in_wrong_queue"], |state| {
        state.tasks[2].held = vec![1]
    });
    breaks(&[], |state| {
        state.tasks[0].held = vec![1];
        state.tasks[2].held = vec![1];
        let moved = std::mem::take(queue_mut(state, 10));
        *queue_mut(state, 15) = moved;
    });
}

#[test]
fn due_times() {
    let due = |value: u64| {
        move |state: &mut State| {
            state.now = 100;
            state.tasks[1].place = Place::Delayed { due: value };
        }
    };
    breaks(&[], due(101));
    breaks(&["due_not_after_now"], due(100));
    breaks(&["due_not_after_now"], due(0));
    breaks(&[], due(65635));
    breaks(&["due_too_far_ahead"], due(65636));
    breaks(&["due_too_far_ahead"], due(u64::MAX));
    breaks(&[], |state| {
        state.now = LARGEST;
        state.tasks[1].place = Place::Delayed {
            due: LARGEST + 65535,
        };
    });
}

#[test]
fn a_running_task_below_a_ready_one() {
    breaks(&["running_below_ready"], |state| state.tasks[0].base = 9);
    breaks(&[], |state| state.tasks[0].base = 11);
    breaks(&[], |state| {
        state.tasks[0].base = 9;
        state.tasks[0].held = vec![3];
    });
}

#[test]
fn nobody_running_while_one_is_ready() {
    breaks(&["nobody_running_while_ready"], |state| {
        state.running = None;
        state.tasks[0].place = Place::Suspended;
    });
    breaks(&[], |state| {
        state.running = None;
        state.tasks[0].place = Place::Suspended;
        state.tasks[2].place = Place::Ended;
        queue_mut(state, 10).clear();
    });
}

#[test]
fn an_object_twice_in_one_held_list() {
    let twice = &["object_held_twice"][..];
    breaks(twice, |state| state.tasks[0].held = vec![0, 0]);
    breaks(twice, |state| state.tasks[0].held = vec![0, 2, 0]);
    breaks(&[], |state| state.tasks[0].held = vec![0, 2]);
}

#[test]
fn one_object_with_two_holders_is_sound() {
    breaks(&[], |state| {
        state.tasks[0].held = vec![3];
        state.tasks[2].held = vec![3];
    });
}

#[test]
fn ceilings_in_a_held_list() {
    breaks(&["ceilings_falling_inwards"], |state| {
        state.tasks[0].held = vec![0, 1]
    });
    breaks(&["ceilings_falling_inwards"], |state| {
        state.tasks[0].held = vec![1, 0, 3];
    });
    breaks(&[], |state| state.tasks[0].held = vec![3, 1, 0, 2]);
    breaks(&["ceilings_starting_below_base"], |state| {
        state.tasks[0].base = 16;
        state.tasks[0].held = vec![1, 0];
    });
    breaks(&[], |state| {
        state.tasks[0].base = 15;
        state.tasks[0].held = vec![1, 0];
    });
}

#[test]
fn a_holder_neither_ready_nor_running() {
    for place in [Place::Delayed { due: 5 }, Place::Suspended, Place::Ended] {
        breaks(&["holder_neither_ready_nor_running"], |state| {
            state.tasks[1].place = place;
            state.tasks[1].held = vec![0];
        });
    }
}

#[test]
fn a_waiting_base_outside_an_action() {
    for t in 0..3 {
        breaks(&["waiting_base_outside_action"], |state| {
            state.tasks[t].waiting = Some(10);
        });
    }
    for p in [1, 32] {
        breaks(&[], |state| {
            state.tasks[0].held = vec![0];
            state.tasks[0].waiting = Some(p);
        });
    }
}

#[test]
fn permits_are_free() {
    breaks(&[], |state| {
        for task in &mut state.tasks {
            task.permit = true;
        }
    });
    let mut state = play(fresh(&[10], &[20]), &[Suspend]);
    state.tasks[0].permit = true;
    assert!(is_sound(&state));
}

#[test]
fn states_reached_by_events_are_sound() {
    let state = play(
        fresh(&[10, 20, 10], &[20, 25]),
        &[Suspend, Enter(0), Release(1), Enter(1)],
    );
    assert_eq!(state.running, Some(0));
    assert_eq!(broken(&state), [""; 0]);
}
