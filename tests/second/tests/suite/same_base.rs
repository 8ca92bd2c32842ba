//! Request 2026-04: a Set to the base that a task already has, wherever the task is.

use crate::support::{
    answer, done, enter, fresh, leave, play, queue, replies, roster, set, set_event, AGAIN, STEP,
    SUSPEND, WORK,
};
use second::machine::Event::{Clock, Delay, Enter, Finish, Leave, Release, Set, Suspend};
use second::roster::admit;
use second::run::{Command, Run};
use second::sound::is_sound;
use second::state::{Place, State};

/// Sees who runs and that the ready queues are these, the highest first, all others being empty.
#[track_caller]
pub fn stands(state: &State, running: Option<usize>, queues: &[(u64, &[usize])]) {
    let all = (1..=32)
        .rev()
        .map(|priority| (priority, queue(state, priority)));
    let found: Vec<(u64, Vec<usize>)> = all.filter(|(_, queue)| !queue.is_empty()).collect();
    let expected: Vec<(u64, Vec<usize>)> = queues
        .iter()
        .map(|&(priority, queue)| (priority, queue.to_vec()))
        .collect();
    assert_eq!((state.running, found), (running, expected));
    assert!(is_sound(state));
}

fn start(bytes: &[u8]) -> Run {
    Run::start(admit(bytes).expect("it passes"))
}

// The running task.

#[test]
fn the_only_task_runs_on() {
    let state = fresh(&[10], &[]);
    let after = play(state.clone(), &[Set(0, 10)]);
    stands(&after, Some(0), &[]);
    assert_eq!(after, state);
}

#[test]
fn a_running_task_with_lower_ones_ready_runs_on() {
    let state = fresh(&[20, 19, 10, 10], &[]);
    let after = play(state.clone(), &[Set(0, 20)]);
    stands(&after, Some(0), &[(19, &[1]), (10, &[2, 3])]);
    assert_eq!(after, state);
}

#[test]
fn a_running_task_goes_behind_its_equals_and_the_first_of_them_runs() {
    let state = fresh(&[20, 20, 20, 10], &[]);
    stands(&state, Some(0), &[(20, &[1, 2]), (10, &[3])]);
    let once = play(state.clone(), &[Set(0, 20)]);
    stands(&once, Some(1), &[(20, &[2, 0]), (10, &[3])]);
    let twice = play(once, &[Set(1, 20)]);
    stands(&twice, Some(2), &[(20, &[0, 1]), (10, &[3])]);
    // Once round: the same state again, so nothing but the places moved.
    assert_eq!(play(twice, &[Set(2, 20)]), state);
}

#[test]
fn a_running_task_goes_where_delay_0_would_send_it() {
    let state = play(fresh(&[20, 20, 10], &[25]), &[Release(0)]);
    let after = play(state.clone(), &[Set(0, 20)]);
    stands(&after, Some(1), &[(20, &[0]), (10, &[2])]);
    assert_eq!((after.tasks[0].base, after.tasks[0].permit), (20, true));
    assert_eq!(after, play(state, &[Delay(0)]));
}

// A ready task.

#[test]
fn the_head_of_a_queue_goes_last() {
    let state = play(fresh(&[20, 10, 10, 10, 5], &[]), &[Set(1, 10)]);
    stands(&state, Some(0), &[(10, &[2, 3, 1]), (5, &[4])]);
}

#[test]
fn a_task_in_the_middle_of_its_queue_goes_last() {
    let state = play(fresh(&[20, 10, 10, 10, 5], &[]), &[Set(2, 10)]);
    stands(&state, Some(0), &[(10, &[1, 3, 2]), (5, &[4])]);
}

#[test]
fn the_tail_of_a_queue_stays_where_it_is() {
    let state = fresh(&[20, 10, 10, 10, 5], &[]);
    let after = play(state.clone(), &[Set(3, 10)]);
    stands(&after, Some(0), &[(10, &[1, 2, 3]), (5, &[4])]);
    assert_eq!(after, state);
}

#[test]
fn a_task_alone_in_its_queue_stays_there() {
    let state = fresh(&[20, 15, 10, 5], &[]);
    for (t, base) in [(1, 15), (2, 10), (3, 5)] {
        let after = play(state.clone(), &[Set(t, base)]);
        stands(&after, Some(0), &[(15, &[1]), (10, &[2]), (5, &[3])]);
        assert_eq!(after, state);
    }
}

#[test]
fn an_equal_of_the_running_task_goes_last_and_the_running_task_runs_on() {
    let state = play(fresh(&[10, 10, 10], &[]), &[Set(1, 10)]);
    stands(&state, Some(0), &[(10, &[2, 1])]);
}

#[test]
fn a_preempted_task_loses_the_head_of_its_queue() {
    let state = play(fresh(&[10, 10, 20], &[]), &[Suspend, Release(2)]);
    stands(&state, Some(2), &[(10, &[0, 1])]);
    let state = play(state, &[Set(0, 10)]);
    stands(&state, Some(2), &[(10, &[1, 0])]);
}

#[test]
fn a_ready_task_keeps_its_permit_and_its_base() {
    let state = play(fresh(&[20, 10, 10], &[]), &[Release(1), Set(1, 10)]);
    stands(&state, Some(0), &[(10, &[2, 1])]);
    assert_eq!((state.tasks[1].base, state.tasks[1].permit), (10, true));
}

// A blocked or ended task.

#[test]
fn a_delayed_task_keeps_its_due_time_and_wakes_at_the_tail() {
    let state = play(fresh(&[10, 10, 10], &[]), &[Delay(5), Clock(3)]);
    let after = play(state.clone(), &[Set(0, 10)]);
    stands(&after, Some(1), &[(10, &[2])]);
    assert_eq!(after.tasks[0].place, Place::Delayed { due: 5 });
    assert_eq!(after, state);
    let early = play(after, &[Clock(4)]);
    stands(&early, Some(1), &[(10, &[2])]);
    let woken = play(early, &[Clock(5)]);
    stands(&woken, Some(1), &[(10, &[2, 0])]);
}

#[test]
fn delayed_tasks_wake_in_the_same_order() {
    let state = fresh(&[10, 10, 10, 5], &[]);
    let state = play(state, &[Delay(5), Delay(5), Delay(4)]);
    let after = play(state.clone(), &[Set(2, 10), Set(0, 10)]);
    stands(&after, Some(3), &[]);
    assert_eq!(after, state);
    let woken = play(after, &[Clock(5)]);
    stands(&woken, Some(2), &[(10, &[0, 1]), (5, &[3])]);
}

#[test]
fn a_suspended_task_stays_suspended_with_its_permit_as_it_is() {
    let state = play(fresh(&[10, 10, 10], &[]), &[Suspend]);
    for permit in [false, true] {
        let mut state = state.clone();
        state.tasks[0].permit = permit;
        let after = play(state.clone(), &[Set(0, 10)]);
        stands(&after, Some(1), &[(10, &[2])]);
        assert_eq!(after.tasks[0].place, Place::Suspended);
        assert_eq!(after, state);
        let released = play(after, &[Release(0)]);
        stands(&released, Some(1), &[(10, &[2, 0])]);
        assert_eq!(released.tasks[0].permit, permit);
    }
}

#[test]
fn where_nobody_runs_a_set_wakes_nobody() {
    let state = play(fresh(&[10, 10], &[]), &[Delay(5), Suspend]);
    let after = play(state.clone(), &[Set(0, 10), Set(1, 10)]);
    stands(&after, None, &[]);
    assert_eq!(after, state);
}

#[test]
fn an_ended_task_is_6() {
    let state = play(fresh(&[10, 10, 10], &[]), &[Finish]);
    assert_eq!(answer(&state, Set(0, 10)), 6);
    stands(&state, Some(1), &[(10, &[2])]);
}

// Inside a protected action.

#[test]
fn a_holder_waits_and_goes_to_the_tail_at_the_outermost_leave() {
    let state = fresh(&[10, 10, 10], &[20, 25]);
    let state = play(state, &[Enter(0), Enter(1), Set(0, 10)]);
    stands(&state, Some(0), &[(10, &[1, 2])]);
    assert_eq!(
        (state.tasks[0].base, state.tasks[0].waiting),
        (10, Some(10))
    );
    let state = play(state, &[Leave(1)]);
    stands(&state, Some(0), &[(10, &[1, 2])]);
    assert_eq!(state.tasks[0].waiting, Some(10));
    let state = play(state, &[Leave(0)]);
    stands(&state, Some(1), &[(10, &[2, 0])]);
    assert_eq!((state.tasks[0].base, state.tasks[0].waiting), (10, None));
}

#[test]
fn a_set_to_the_same_base_replaces_a_waiting_one() {
    let state = fresh(&[10, 10, 30], &[20]);
    let state = play(state, &[Suspend, Enter(0), Set(0, 5), Set(0, 10)]);
    stands(&state, Some(0), &[(10, &[1])]);
    assert_eq!(
        (state.tasks[0].base, state.tasks[0].waiting),
        (10, Some(10))
    );
    let state = play(state, &[Leave(0)]);
    stands(&state, Some(1), &[(10, &[0])]);
    assert_eq!((state.tasks[0].base, state.tasks[0].waiting), (10, None));
}

#[test]
fn a_holder_without_equals_runs_on_after_its_leave() {
    let state = play(fresh(&[10, 9], &[20]), &[Enter(0), Set(0, 10), Leave(0)]);
    stands(&state, Some(0), &[(9, &[1])]);
    assert_eq!(state, fresh(&[10, 9], &[20]));
}

#[test]
fn a_preempted_holder_moves_nowhere_until_its_leave() {
    // Task 0 holds the object when 3, its equal there, and then 1, above it, become ready.
    let state = fresh(&[10, 25, 10, 20], &[20]);
    let state = play(state, &[Suspend, Suspend, Enter(0), Release(3), Release(1)]);
    stands(&state, Some(1), &[(20, &[0, 3]), (10, &[2])]);
    // Behind 3 it would let 3 enter the same object.
    let state = play(state, &[Set(0, 10)]);
    stands(&state, Some(1), &[(20, &[0, 3]), (10, &[2])]);
    assert_eq!(
        (state.tasks[0].base, state.tasks[0].waiting),
        (10, Some(10))
    );
    let state = play(state, &[Suspend]);
    stands(&state, Some(0), &[(20, &[3]), (10, &[2])]);
    let state = play(state, &[Leave(0)]);
    stands(&state, Some(3), &[(10, &[2, 0])]);
    assert_eq!((state.tasks[0].base, state.tasks[0].waiting), (10, None));
}

// In a run.

#[test]
fn an_outside_set_of_the_running_task_lets_its_equal_run() {
    let script = vec![WORK, AGAIN];
    let bytes = roster(&[(10, script.clone()), (10, script)], &[]);
    let mut run = start(&bytes);
    assert_eq!(run.take(Command::Step), done(0));
    assert_eq!(run.take(Command::Set(0, 10)), done(2));
    stands(&run.state, Some(1), &[(10, &[0])]);
    assert_eq!(run.places, [1, 0]);
    let events = [
        STEP,
        set_event(0, 10),
        STEP,
        set_event(0, 10),
        set_event(1, 10),
    ];
    let expected = [(0, 0, 0), (0, 1, 2), (0, 1, 0), (0, 1, 0), (0, 0, 2)];
    assert_eq!(replies(&bytes, &events), expected);
}

#[test]
fn an_outside_set_of_a_ready_task_lets_its_equal_run_first() {
    // Marked case C, and then task 1 makes room.
    let bytes = roster(&[(10, vec![]), (20, vec![SUSPEND]), (10, vec![])], &[]);
    let mut run = start(&bytes);
    assert_eq!(run.take(Command::Set(0, 10)), done(0));
    stands(&run.state, Some(1), &[(10, &[2, 0])]);
    let events = [set_event(0, 10), STEP, STEP];
    let expected = [(0, 1, 0), (0, 2, 2), (0, 0, 2)];
    assert_eq!(replies(&bytes, &events), expected);
}

#[test]
fn a_set_step_to_the_same_base_lets_the_equal_run_and_is_taken_once() {
    let bytes = roster(&[(10, vec![set(0, 10), WORK]), (10, vec![WORK])], &[]);
    let mut run = start(&bytes);
    assert_eq!(run.take(Command::Step), done(2));
    stands(&run.state, Some(1), &[(10, &[0])]);
    assert_eq!(run.places, [1, 0]);
    let expected = [(0, 1, 2), (0, 1, 0), (0, 0, 2), (0, 0, 0), (0, 255, 2)];
    assert_eq!(replies(&bytes, &[STEP; 5]), expected);
}

#[test]
fn set_steps_of_equals_let_them_take_turns() {
    let tasks = [(10, vec![set(0, 10), AGAIN]), (10, vec![set(1, 10), AGAIN])];
    let taken = replies(&roster(&tasks, &[]), &[STEP; 6]);
    // A Set lets the other run and the Again after it lets nobody.
    assert_eq!(taken[..3], [(0, 1, 2), (0, 0, 2), (0, 0, 0)]);
    assert_eq!(taken[3..], [(0, 1, 2), (0, 1, 0), (0, 0, 2)]);
}

#[test]
fn a_set_step_inside_an_action_lets_the_equal_run_at_the_leave() {
    let script = vec![enter(0), set(0, 10), leave(0), WORK];
    let bytes = roster(&[(10, script), (10, vec![WORK])], &[20]);
    let mut run = start(&bytes);
    for place in [1, 2] {
        assert_eq!(run.take(Command::Step), done(0));
        stands(&run.state, Some(0), &[(10, &[1])]);
        assert_eq!(run.places, [place, 0]);
    }
    assert_eq!(run.take(Command::Step), done(2));
    stands(&run.state, Some(1), &[(10, &[0])]);
    assert_eq!(run.places, [3, 0]);
}

#[test]
fn an_outside_set_of_a_holder_waits_for_its_leave_step() {
    let bytes = roster(&[(10, vec![enter(0), leave(0)]), (10, vec![WORK])], &[20]);
    let events = [STEP, set_event(0, 10), STEP];
    let expected = [(0, 0, 0), (0, 0, 0), (0, 1, 2)];
    assert_eq!(replies(&bytes, &events), expected);
}
