//! The nine events: what each does when accepted, and each number 0 to 9 at its boundaries.

use crate::support::{answer, at, fresh, play, queue, refused, LARGEST};
use second::machine::apply;
use second::machine::Event::{
    self, Clock, Delay, Enter, Finish, Leave, Release, Set, Suspend, Work,
};
use second::sound::is_sound;
use second::state::{Place, State};

/// A state in which the only task is suspended, so that nobody runs.
fn idle() -> State {
    play(fresh(&[10], &[20]), &[Suspend])
}

/// A state in which the only task has ended.
fn ended() -> State {
    play(fresh(&[10], &[20]), &[Finish])
}

// Who runs next.

#[test]
fn a_preempted_task_goes_to_the_head() {
    let state = play(fresh(&[10, 10, 20], &[]), &[Delay(1)]);
    assert_eq!((state.running, queue(&state, 10)), (Some(0), vec![1]));
    let state = play(state, &[Clock(1)]);
    assert_eq!((state.running, queue(&state, 10)), (Some(2), vec![0, 1]));
}

#[test]
fn an_equal_task_does_not_preempt() {
    let state = play(fresh(&[10, 10], &[]), &[Delay(1), Clock(1)]);
    assert_eq!((state.running, queue(&state, 10)), (Some(1), vec![0]));
}

#[test]
fn work_changes_nothing() {
    let state = fresh(&[10, 20, 10], &[20]);
    assert_eq!(play(state.clone(), &[Work]), state);
}

#[test]
fn finish_ends_the_task_and_the_next_runs() {
    let state = play(fresh(&[10, 20], &[]), &[Release(1), Finish]);
    assert_eq!(state.running, Some(0));
    assert_eq!(state.tasks[1].place, Place::Ended);
    assert_eq!((state.tasks[1].base, state.tasks[1].permit), (20, true));
    let state = play(state, &[Finish]);
    assert_eq!(state.running, None);
    assert_eq!(state.queues.iter().flatten().count(), 0);
}

// Enter and Leave.

#[test]
fn enter_raises_the_active_priority_and_leave_lowers_it() {
    let state = play(fresh(&[10], &[20, 32]), &[Enter(0), Enter(1)]);
    assert_eq!(state.tasks[0].held, [0, 1]);
    assert_eq!((state.active(0), state.tasks[0].base), (Some(32), 10));
    let state = play(state, &[Leave(1)]);
    assert_eq!((state.active(0), state.active(1)), (Some(20), None));
    let state = play(state, &[Leave(0)]);
    assert_eq!(state, fresh(&[10], &[20, 32]));
}

#[test]
fn a_task_that_leaves_runs_on_before_its_equals() {
    let state = play(fresh(&[10, 10], &[20]), &[Enter(0), Leave(0)]);
    assert_eq!((state.running, queue(&state, 10)), (Some(0), vec![1]));
}

#[test]
fn a_task_that_leaves_gives_way_to_a_higher_one_from_the_head() {
    let state = fresh(&[10, 15, 10], &[20]);
    let state = play(state, &[Delay(3), Enter(0), Clock(3)]);
    assert_eq!((state.running, queue(&state, 15)), (Some(0), vec![1]));
    let state = play(state, &[Leave(0)]);
    assert_eq!((state.running, queue(&state, 10)), (Some(1), vec![0, 2]));
}

#[test]
fn a_task_above_the_ceiling_preempts_the_holder() {
    let state = fresh(&[10, 21], &[20]);
    let state = play(state, &[Suspend, Enter(0), Release(1)]);
    assert_eq!((state.running, queue(&state, 20)), (Some(1), vec![0]));
    assert_eq!(state.tasks[0].held, [0]);
}

#[test]
fn leaving_an_inner_object_can_let_a_higher_task_run() {
    let state = fresh(&[10, 25], &[20, 30]);
    let state = play(state, &[Delay(1), Enter(0), Enter(1), Clock(1)]);
    assert_eq!(state.running, Some(0));
    let state = play(state, &[Leave(1)]);
    assert_eq!((state.running, queue(&state, 20)), (Some(1), vec![0]));
    let state = play(state, &[Finish]);
    assert_eq!(
        (state.running, state.tasks[0].held.clone()),
        (Some(0), vec![0])
    );
}

#[test]
fn no_such_object_is_2() {
    let state = fresh(&[10], &[20]);
    assert_eq!(answer(&state, Enter(1)), 2);
    assert_eq!(answer(&state, Leave(1)), 2);
    assert_eq!(answer(&state, Enter(usize::MAX)), 2);
    assert_eq!(answer(&idle(), Enter(1)), 2);
    assert_eq!(answer(&idle(), Leave(1)), 2);
    assert_eq!(answer(&fresh(&[10], &[]), Enter(0)), 2);
    assert_eq!(answer(&fresh(&[10], &[20; 32]), Enter(31)), 0);
    assert_eq!(answer(&fresh(&[10], &[20; 32]), Enter(32)), 2);
}

#[test]
fn enter_of_a_held_object_is_7_also_above_its_ceiling() {
    let state = play(fresh(&[10], &[20, 25]), &[Enter(0)]);
    assert_eq!(answer(&state, Enter(0)), 7);
    let state = play(state, &[Enter(1)]);
    assert_eq!(answer(&state, Enter(0)), 7);
    assert_eq!(answer(&state, Enter(1)), 7);
}

#[test]
fn enter_above_the_ceiling_is_8_by_the_active_priority() {
    let state = fresh(&[20], &[19, 20, 25, 24, 25]);
    assert_eq!(answer(&state, Enter(0)), 8);
    assert_eq!(answer(&state, Enter(1)), 0);
    let state = play(state, &[Enter(2)]);
    assert_eq!(answer(&state, Enter(3)), 8);
    assert_eq!(answer(&state, Enter(1)), 8);
    assert_eq!(answer(&state, Enter(4)), 0);
    assert_eq!(play(state, &[Enter(4)]).tasks[0].held, [2, 4]);
}

#[test]
fn leave_not_innermost_is_9() {
    let state = fresh(&[10], &[20, 20]);
    assert_eq!(answer(&state, Leave(0)), 9);
    let state = play(state, &[Enter(0)]);
    assert_eq!(answer(&state, Leave(1)), 9);
    let state = play(state, &[Enter(1)]);
    assert_eq!(answer(&state, Leave(0)), 9);
    assert_eq!(play(state, &[Leave(1)]).tasks[0].held, [0]);
}

// Delay and Clock.

#[test]
fn delay_0_of_the_only_task_lets_it_run_again() {
    let state = fresh(&[10], &[]);
    assert_eq!(play(state.clone(), &[Delay(0)]), state);
}

#[test]
fn delay_0_goes_behind_all_equals_and_before_no_lower() {
    let state = play(fresh(&[10, 10, 10, 5], &[]), &[Delay(0)]);
    assert_eq!((state.running, queue(&state, 10)), (Some(1), vec![2, 0]));
    assert_eq!(queue(&state, 5), [3]);
}

#[test]
fn the_longest_delay() {
    let state = play(fresh(&[10], &[]), &[Clock(7), Delay(65535)]);
    assert_eq!(state.tasks[0].place, Place::Delayed { due: 65542 });
    assert_eq!(play(state.clone(), &[Clock(65541)]).running, None);
    assert_eq!(play(state, &[Clock(65542)]).running, Some(0));
}

#[test]
fn delay_1_wakes_at_the_next_reading() {
    let state = play(fresh(&[10], &[]), &[Clock(7), Delay(1)]);
    assert_eq!(play(state.clone(), &[Clock(7)]).running, None);
    assert_eq!(play(state, &[Clock(8)]).running, Some(0));
}

#[test]
fn a_delay_past_the_largest_reading_never_wakes_and_is_sound() {
    let state = play(at(LARGEST, fresh(&[10], &[])), &[Delay(65535)]);
    let due = LARGEST + 65535;
    assert_eq!(state.tasks[0].place, Place::Delayed { due });
    assert!(is_sound(&state));
    let state = play(state, &[Clock(LARGEST)]);
    assert_eq!(state.tasks[0].place, Place::Delayed { due });
    assert_eq!(answer(&state, Clock(LARGEST + 1)), 4);
}

#[test]
fn a_delay_up_to_the_largest_reading_wakes() {
    let state = play(at(LARGEST - 5, fresh(&[10], &[])), &[Delay(5)]);
    assert_eq!(play(state, &[Clock(LARGEST)]).running, Some(0));
}

#[test]
fn readings_below_now_or_above_the_largest_are_4() {
    let state = play(fresh(&[10], &[]), &[Clock(100)]);
    assert_eq!(answer(&state, Clock(99)), 4);
    assert_eq!(answer(&state, Clock(0)), 4);
    assert_eq!(answer(&state, Clock(100)), 0);
    assert_eq!(answer(&state, Clock(101)), 0);
    let late = at(LARGEST - 100, state);
    assert_eq!(answer(&late, Clock(LARGEST)), 0);
    assert_eq!(answer(&late, Clock(LARGEST + 1)), 4);
    assert_eq!(answer(&late, Clock(u64::MAX)), 4);
    assert_eq!(play(late, &[Clock(LARGEST)]).now, LARGEST);
}

#[test]
fn due_tasks_wake_by_due_time_and_then_by_number() {
    let state = fresh(&[10, 10, 10, 10], &[]);
    let state = play(state, &[Delay(7), Delay(3), Delay(7), Delay(3)]);
    assert_eq!(state.running, None);
    let state = play(state, &[Clock(9)]);
    assert_eq!((state.running, queue(&state, 10)), (Some(1), vec![3, 0, 2]));
}

#[test]
fn only_due_tasks_wake() {
    let state = play(fresh(&[10, 10], &[]), &[Delay(7), Delay(3), Clock(6)]);
    assert_eq!(state.running, Some(1));
    assert_eq!(state.tasks[0].place, Place::Delayed { due: 7 });
}

#[test]
fn one_dispatch_follows_a_clock() {
    let state = fresh(&[10, 20, 30], &[]);
    let state = play(state, &[Delay(2), Delay(1), Clock(2)]);
    assert_eq!(state.running, Some(2));
    assert_eq!((queue(&state, 20), queue(&state, 10)), (vec![1], vec![0]));
}

#[test]
fn a_clock_that_wakes_equals_puts_them_behind_the_waiting() {
    let state = fresh(&[10, 10, 20], &[]);
    let state = play(state, &[Suspend, Delay(4), Release(2), Clock(4)]);
    assert_eq!((state.running, queue(&state, 10)), (Some(2), vec![1, 0]));
}

// Suspend and Release.

#[test]
fn a_permit_counts_once() {
    let state = play(fresh(&[10], &[]), &[Release(0), Release(0), Suspend]);
    assert_eq!((state.running, state.tasks[0].permit), (Some(0), false));
    let state = play(state, &[Suspend]);
    assert_eq!(
        (state.running, state.tasks[0].place),
        (None, Place::Suspended)
    );
}

#[test]
fn release_of_a_suspended_task_uses_no_permit() {
    let state = play(fresh(&[10, 10], &[]), &[Suspend, Release(0)]);
    assert_eq!((state.running, queue(&state, 10)), (Some(1), vec![0]));
    assert!(!state.tasks[0].permit);
}

#[test]
fn release_of_a_suspended_task_with_a_permit_leaves_the_permit() {
    let mut state = idle();
    state.tasks[0].permit = true;
    let state = play(state, &[Release(0)]);
    assert_eq!((state.running, state.tasks[0].permit), (Some(0), true));
}

#[test]
fn release_of_a_ready_delayed_or_ended_task_turns_its_permit_on() {
    let state = fresh(&[10, 10, 10], &[]);
    let state = play(state, &[Delay(5), Finish, Delay(0)]);
    let after = play(state.clone(), &[Release(0), Release(1), Release(2)]);
    assert!(after.tasks.iter().all(|task| task.permit));
    assert_eq!(after.tasks[0].place, Place::Delayed { due: 5 });
    assert_eq!(after.tasks[1].place, Place::Ended);
    assert_eq!((after.running, after.queues), (state.running, state.queues));
}

#[test]
fn release_of_a_higher_task_preempts() {
    let state = play(fresh(&[20, 10, 10], &[]), &[Suspend, Release(0)]);
    assert_eq!((state.running, queue(&state, 10)), (Some(0), vec![1, 2]));
}

#[test]
fn no_such_task_is_1() {
    let state = fresh(&[10, 10], &[]);
    assert_eq!(answer(&state, Release(1)), 0);
    assert_eq!(answer(&state, Release(2)), 1);
    assert_eq!(answer(&state, Set(2, 10)), 1);
    assert_eq!(answer(&state, Set(2, 33)), 1);
    assert_eq!(answer(&state, Set(usize::MAX, 0)), 1);
    let full = fresh(&[10; 64], &[]);
    for (t, expected) in [(63, 0), (64, 1)] {
        assert_eq!(answer(&full, Release(t)), expected, "task {t}");
        assert_eq!(answer(&full, Set(t, 10)), expected, "task {t}");
    }
}

// Set.

#[test]
fn priorities_outside_1_to_32_are_3() {
    let state = fresh(&[10, 10], &[]);
    for p in [0, 33, 256, 257, u64::MAX] {
        assert_eq!(answer(&state, Set(0, p)), 3);
        assert_eq!(answer(&ended(), Set(0, p)), 3);
    }
    assert_eq!(play(state.clone(), &[Set(0, 1)]).tasks[0].base, 1);
    assert_eq!(play(state, &[Set(0, 32)]).tasks[0].base, 32);
}

#[test]
fn set_on_an_ended_task_is_6() {
    assert_eq!(answer(&ended(), Set(0, 10)), 6);
    assert_eq!(answer(&ended(), Set(0, 11)), 6);
    assert_eq!(answer(&ended(), Set(1, 11)), 1);
    assert_eq!(answer(&idle(), Set(0, 11)), 0);
}

#[test]
fn set_on_a_ready_task_sends_it_to_the_tail_of_its_new_queue() {
    let state = fresh(&[20, 10, 10, 5], &[]);
    let lower = play(state.clone(), &[Set(1, 5)]);
    assert_eq!((queue(&lower, 10), queue(&lower, 5)), (vec![2], vec![3, 1]));
    let higher = play(state.clone(), &[Set(3, 10)]);
    assert_eq!(
        (queue(&higher, 10), queue(&higher, 5)),
        (vec![1, 2, 3], vec![])
    );
    let top = play(state, &[Set(2, 21)]);
    assert_eq!((top.running, queue(&top, 20)), (Some(2), vec![0]));
    assert_eq!((queue(&top, 10), queue(&top, 21)), (vec![1], vec![]));
}

#[test]
fn set_on_the_running_task_sends_it_to_the_tail() {
    let state = fresh(&[20, 20, 15], &[]);
    let up = play(state.clone(), &[Set(0, 21)]);
    assert_eq!((up.running, up.active(0)), (Some(0), Some(21)));
    assert_eq!((queue(&up, 20), queue(&up, 21)), (vec![1], vec![]));
    let down = play(state, &[Set(0, 15)]);
    assert_eq!((down.running, queue(&down, 15)), (Some(1), vec![2, 0]));
}

#[test]
fn set_on_a_blocked_task_changes_its_base_alone() {
    let state = play(
        fresh(&[10, 20, 20], &[]),
        &[Delay(5), Suspend, Set(1, 5), Set(2, 30)],
    );
    assert_eq!(state.running, Some(0));
    assert_eq!(state.tasks[1].place, Place::Delayed { due: 5 });
    assert_eq!(state.tasks[2].place, Place::Suspended);
    assert_eq!((state.tasks[1].base, state.tasks[2].base), (5, 30));
    let state = play(state, &[Clock(5), Release(2)]);
    assert_eq!((state.running, queue(&state, 5)), (Some(2), vec![1]));
}

#[test]
fn set_inside_an_action_waits_and_the_last_counts() {
    let state = play(
        fresh(&[10, 10], &[20, 25]),
        &[Enter(0), Enter(1), Set(0, 30), Set(0, 5)],
    );
    assert_eq!((state.tasks[0].base, state.tasks[0].waiting), (10, Some(5)));
    assert_eq!((state.running, state.active(0)), (Some(0), Some(25)));
    let state = play(state, &[Leave(1)]);
    assert_eq!((state.running, state.tasks[0].waiting), (Some(0), Some(5)));
    let state = play(state, &[Leave(0)]);
    assert_eq!((state.tasks[0].base, state.tasks[0].waiting), (5, None));
    assert_eq!((state.running, queue(&state, 5)), (Some(1), vec![0]));
}

#[test]
fn a_waiting_base_may_be_above_the_ceiling() {
    let state = play(fresh(&[10, 10], &[20]), &[Enter(0), Set(0, 32)]);
    assert!(is_sound(&state));
    assert_eq!(state.active(0), Some(20));
    let state = play(state, &[Leave(0)]);
    assert_eq!((state.running, state.active(0)), (Some(0), Some(32)));
}

#[test]
fn set_on_a_preempted_holder_waits_too() {
    let state = fresh(&[10, 25], &[20]);
    let state = play(state, &[Suspend, Enter(0), Release(1), Set(0, 3)]);
    assert_eq!((state.running, queue(&state, 20)), (Some(1), vec![0]));
    assert_eq!((state.tasks[0].base, state.tasks[0].waiting), (10, Some(3)));
    let state = play(state, &[Finish, Leave(0)]);
    assert_eq!((state.running, state.active(0)), (Some(0), Some(3)));
}

#[test]
fn an_equal_task_cannot_enter_an_object_whose_holder_was_set() {
    // If the base of the holder changed at once, task 1 would run and enter the same object.
    let state = fresh(&[20, 20], &[20]);
    let state = play(state, &[Enter(0), Set(0, 10)]);
    assert_eq!((state.running, queue(&state, 20)), (Some(0), vec![1]));
}

// Nobody runs, and inside an action.

#[test]
fn events_of_the_running_task_are_5_where_nobody_runs() {
    let own = [
        Enter(0),
        Leave(0),
        Delay(0),
        Delay(9),
        Suspend,
        Work,
        Finish,
    ];
    for event in own {
        assert_eq!(answer(&idle(), event), 5, "{event:?}");
        assert_eq!(answer(&ended(), event), 5, "{event:?}");
    }
    for event in [Release(0), Clock(0), Set(0, 9)] {
        assert_eq!(answer(&idle(), event), 0, "{event:?}");
    }
}

#[test]
fn blocking_or_ending_inside_an_action_is_7() {
    let state = play(fresh(&[10], &[20]), &[Enter(0), Release(0)]);
    for event in [Delay(0), Delay(1), Delay(65535), Suspend, Finish] {
        assert_eq!(answer(&state, event), 7, "{event:?}");
    }
    let outside = play(state, &[Leave(0)]);
    for event in [Delay(0), Delay(1), Delay(65535), Suspend, Finish] {
        assert_eq!(answer(&outside, event), 0, "{event:?}");
    }
}

#[test]
fn an_unsound_state_is_10_before_everything() {
    let mut state = fresh(&[10], &[20]);
    state.now = LARGEST + 1;
    let events: [Event; 12] = [
        Enter(0),
        Enter(9),
        Leave(9),
        Delay(0),
        Suspend,
        Release(0),
        Release(9),
        Clock(0),
        Set(9, 0),
        Set(0, 10),
        Work,
        Finish,
    ];
    for event in events {
        assert_eq!(apply(state.clone(), event), (refused(10), state.clone()));
    }
}
