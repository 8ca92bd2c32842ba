//! The marked cases A to L of document 01, C as request 2026-04 mends it, each with its reports.

use crate::support::{answer, fresh, play, play_reporting, queue};
use second::machine::Event::{Clock, Delay, Enter, Leave, Release, Set, Suspend};
use second::state::{Place, State};

fn case_a() -> State {
    fresh(&[10, 20, 10], &[])
}

#[test]
fn a_fresh_start() {
    let state = case_a();
    assert_eq!(state.running, Some(1));
    assert_eq!(queue(&state, 10), [0, 2]);
    assert_eq!(queue(&state, 20), []);
}

#[test]
fn b_set_to_the_equals_priority_goes_behind_them() {
    let (reports, state) = play_reporting(case_a(), &[Set(1, 10)]);
    assert_eq!(state.running, Some(0));
    assert_eq!(queue(&state, 10), [2, 1]);
    // 1 went to a tail, and the dispatch found nobody running.
    assert_eq!(reports, [2]);
}

#[test]
fn c_set_to_the_same_base_goes_behind_the_equals() {
    let (reports, state) = play_reporting(case_a(), &[Set(0, 10)]);
    assert_eq!(state.running, Some(1));
    assert_eq!(queue(&state, 10), [2, 0]);
    // 1 runs on.
    assert_eq!(reports, [0]);
}

#[test]
fn d_enter_at_the_ceiling_and_one_above() {
    let state = fresh(&[20], &[20, 19]);
    assert_eq!(answer(&state, Enter(0)), 0);
    assert_eq!(answer(&state, Enter(1)), 8);
    assert_eq!(play_reporting(state, &[Enter(0)]).0, [0]);
}

#[test]
fn e_delay_0_goes_behind_the_equal() {
    let (reports, state) = play_reporting(fresh(&[10, 10], &[]), &[Delay(0)]);
    assert_eq!(state.running, Some(1));
    assert_eq!(queue(&state, 10), [0]);
    // 0 went to a tail, though it is at the head now.
    assert_eq!(reports, [2]);
}

#[test]
fn f_due_5_wakes_at_5_and_not_at_4() {
    let state = play(fresh(&[10], &[]), &[Delay(5)]);
    assert_eq!(state.tasks[0].place, Place::Delayed { due: 5 });
    let early = play(state.clone(), &[Clock(4)]);
    assert_eq!((early.running, early.now), (None, 4));
    assert_eq!(early.tasks[0].place, Place::Delayed { due: 5 });
    assert_eq!(play(early, &[Clock(5)]).running, Some(0));
    assert_eq!(play(state, &[Clock(5)]).running, Some(0));
    // To nobody, still nobody, and from nobody.
    let (reports, _) = play_reporting(fresh(&[10], &[]), &[Delay(5), Clock(4), Clock(5)]);
    assert_eq!(reports, [2, 0, 2]);
}

#[test]
fn g_clock_now_and_one_before() {
    let state = play(fresh(&[10], &[]), &[Clock(7)]);
    assert_eq!(answer(&state, Clock(7)), 0);
    assert_eq!(answer(&state, Clock(6)), 4);
    assert_eq!(play_reporting(state, &[Clock(7)]).0, [0]);
}

#[test]
fn h_delay_0_inside_an_action() {
    let state = play(fresh(&[10], &[20]), &[Enter(0)]);
    assert_eq!(answer(&state, Delay(0)), 7);
}

#[test]
fn i_suspend_with_a_permit_runs_on() {
    let state = play(fresh(&[10, 10], &[]), &[Release(0)]);
    assert!(state.tasks[0].permit);
    let (reports, state) = play_reporting(state, &[Suspend]);
    assert_eq!(state, fresh(&[10, 10], &[]));
    assert_eq!((state.running, reports), (Some(0), vec![0]));
}

#[test]
fn j_the_outer_object_cannot_be_left_first() {
    let state = play(fresh(&[10], &[20, 20]), &[Enter(0), Enter(1)]);
    assert_eq!(answer(&state, Leave(0)), 9);
    assert_eq!(answer(&state, Leave(1)), 0);
    assert_eq!(play_reporting(state, &[Leave(1), Leave(0)]).0, [0, 0]);
}

#[test]
fn k_a_waiting_base_equal_to_the_base_still_sends_to_the_tail() {
    let state = fresh(&[10, 10], &[20]);
    let (reports, state) = play_reporting(state, &[Enter(0), Set(0, 10)]);
    assert_eq!((state.running, reports), (Some(0), vec![0, 0]));
    let (reports, state) = play_reporting(state, &[Leave(0)]);
    assert_eq!(state.running, Some(1));
    assert_eq!(queue(&state, 10), [0]);
    // 0 went to a tail, though it is at the head now.
    assert_eq!(reports, [2]);
}

#[test]
fn l_set_at_the_ends_of_the_priorities() {
    let state = fresh(&[10], &[]);
    assert_eq!(answer(&state, Set(0, 32)), 0);
    assert_eq!(answer(&state, Set(0, 33)), 3);
    assert_eq!(answer(&state, Set(0, 0)), 3);
    // It goes to the tail and is picked again.
    assert_eq!(play_reporting(state, &[Set(0, 32)]).0, [0]);
}
