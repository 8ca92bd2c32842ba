//! Request 2026-07: states of up to 64 tasks and 32 objects, and boards of up to 64 rows.

use std::ops::Range;

use crate::board::{row, BLANK};
use crate::marks::is_refused;
use crate::reports::with_witness;
use crate::same_base::stands;
use crate::support::{answer, fresh, mend_marks, play, play_reporting, queue, Random};
use second::board::Kind::{Ended, Ready, Running};
use second::board::{fill, next, Row};
use second::machine::apply;
use second::machine::Event::{
    self, Clock, Delay, Enter, Finish, Leave, Release, Set, Suspend, Work,
};
use second::sound::broken;
use second::state::{self, Place, State};

/// The numbers of a range, as a queue or a held list has them.
fn numbers(range: Range<usize>) -> Vec<usize> {
    range.collect()
}

/// The numbers of a range, and behind them those of another.
fn both(first: Range<usize>, second: Range<usize>) -> Vec<usize> {
    first.chain(second).collect()
}

/// Priorities from 1 to 32 in order.
fn rising() -> Vec<u64> {
    (1..=32).collect()
}

/// The running task enters all 32 objects in number order.
fn inside_all(state: State) -> State {
    let enters: Vec<Event> = (0..32).map(Enter).collect();
    play(state, &enters)
}

/// Leaves of the objects of a range, the last of them first.
fn leaves(objects: Range<usize>) -> Vec<Event> {
    objects.rev().map(Leave).collect()
}

// Counts and numbers.

#[test]
fn every_number_of_tasks_up_to_64_is_ordinary() {
    for count in 1..=64 {
        let state = fresh(&vec![10; count], &[]);
        assert_eq!(broken(&state), [""; 0], "{count} tasks");
        assert_eq!(state.running, Some(0));
        assert_eq!(queue(&state, 10), numbers(1..count));
        for (t, expected) in [(count - 1, 0), (count, 1), (count + 1, 1)] {
            assert_eq!(answer(&state, Release(t)), expected, "{t} of {count}");
            assert_eq!(answer(&state, Set(t, 32)), expected, "{t} of {count}");
        }
    }
}

#[test]
fn every_number_of_objects_up_to_32_is_ordinary() {
    for count in 0..=32 {
        let state = fresh(&[10], &vec![20; count]);
        assert_eq!(broken(&state), [""; 0], "{count} objects");
        for o in 0..count {
            assert_eq!(play(state.clone(), &[Enter(o)]).tasks[0].held, [o]);
            assert_eq!(answer(&state, Leave(o)), 9, "{o} of {count}");
        }
        for o in [count, count + 1, count + 16, count + 32] {
            assert_eq!(answer(&state, Enter(o)), 2, "{o} of {count}");
            assert_eq!(answer(&state, Leave(o)), 2, "{o} of {count}");
        }
    }
}

#[test]
fn a_fresh_start_takes_64_tasks_with_32_objects_and_no_more() {
    let state = fresh(&[15; 64], &[15; 32]);
    assert_eq!((state.tasks.len(), state.ceilings.len()), (64, 32));
    assert_eq!(broken(&state), [""; 0]);
    let past = [(65, 0), (65, 32), (1, 33), (64, 33), (65, 33), (0, 32)];
    // Without their higher bits the last of these would be good.
    let far = [(128, 0), (1, 64), (256 + 64, 0), (1, 256 + 32)];
    for (tasks, objects) in past.into_iter().chain(far) {
        let given = state::fresh(&vec![15; tasks], &vec![15; objects]);
        assert_eq!(given, (13, fresh(&[1], &[])), "{tasks}, {objects}");
    }
}

#[test]
fn task_63_is_the_last() {
    let state = fresh(&[10; 64], &[]);
    let released = play(state.clone(), &[Release(63)]);
    let permits: Vec<bool> = released.tasks.iter().map(|task| task.permit).collect();
    assert_eq!(permits, [[false; 63].as_slice(), &[true]].concat());
    stands(&released, Some(0), &[(10, &numbers(1..64))]);
    let set = play(state.clone(), &[Set(63, 9)]);
    stands(&set, Some(0), &[(10, &numbers(1..63)), (9, &[63])]);
    for t in [64, 65, 95, 127, 255, 256, 256 + 63, usize::MAX] {
        assert_eq!(answer(&state, Release(t)), 1, "task {t}");
        assert_eq!(answer(&state, Set(t, 10)), 1, "task {t}");
        assert_eq!(answer(&state, Set(t, 33)), 1, "task {t}");
    }
}

#[test]
fn object_31_is_the_last() {
    let state = fresh(&[10], &[20; 32]);
    let inside = play(state.clone(), &[Enter(31)]);
    assert_eq!(inside.tasks[0].held, [31]);
    assert_eq!(play(inside, &[Leave(31)]), state);
    for o in [32, 33, 63, 64, 255, 256, 256 + 31, usize::MAX] {
        assert_eq!(answer(&state, Enter(o)), 2, "object {o}");
        assert_eq!(answer(&state, Leave(o)), 2, "object {o}");
    }
}

#[test]
fn more_tasks_than_priorities_bring_no_more_priorities() {
    let state = fresh(&[32; 64], &[32; 32]);
    for p in [0, 33, 63, 64, 65] {
        assert_eq!(answer(&state, Set(63, p)), 3, "priority {p}");
        assert!(state.queue(p).is_none());
        let given = state::fresh(&[p; 64], &[32; 32]);
        assert_eq!(given, (15, fresh(&[1], &[])), "priority {p}");
        let given = state::fresh(&[32; 64], &[p; 32]);
        assert_eq!(given, (15, fresh(&[1], &[])), "priority {p}");
    }
    assert_eq!(state.queues.len(), 32);
}

#[test]
fn a_state_of_65_tasks_is_unsound() {
    let (full, _) = with_witness(&fresh(&[10; 63], &[]), 10);
    assert_eq!(full, fresh(&[10; 64], &[]));
    assert_eq!(broken(&full), [""; 0]);
    let (many, last) = with_witness(&full, 10);
    assert_eq!((many.tasks.len(), last), (65, 64));
    assert_eq!(broken(&many), ["count_out_of_range"]);
    is_refused(&many);
}

#[test]
fn a_state_of_33_objects_is_unsound() {
    let full = inside_all(fresh(&[10, 10], &[20; 32]));
    assert_eq!(broken(&full), [""; 0]);
    let mut many = full;
    many.ceilings.push(20);
    assert_eq!(broken(&many), ["count_out_of_range"]);
    is_refused(&many);
    // Also where the last one is held too.
    many.tasks[0].held.push(32);
    assert_eq!(broken(&many), ["count_out_of_range"]);
    is_refused(&many);
}

#[test]
fn every_base_and_ceiling_of_a_full_fresh_start_counts() {
    for value in [0, 33, 64] {
        for t in 0..64 {
            let mut bases = [10; 64];
            bases[t] = value;
            assert_eq!(state::fresh(&bases, &[20; 32]).0, 15, "task {t}");
        }
        for o in 0..32 {
            let mut ceilings = [20; 32];
            ceilings[o] = value;
            assert_eq!(state::fresh(&[10; 64], &ceilings).0, 15, "object {o}");
        }
    }
}

/// A change of a full state breaks exactly this clause. Task 0 runs at 32, 1 to 63 wait at 10, and
/// the ceilings are 10; the marks follow the queues.
#[track_caller]
fn breaks(clause: &str, change: impl Fn(&mut State)) {
    let bases = [[32].as_slice(), &[10; 63]].concat();
    let mut state = fresh(&bases, &[10; 32]);
    assert_eq!(broken(&state), [""; 0]);
    change(&mut state);
    mend_marks(&mut state);
    assert_eq!(broken(&state), [clause]);
}

/// Takes the last task out of its queue and gives its record this place.
fn move_last(state: &mut State, place: Place) {
    assert_eq!(state.queues[9].pop_back(), Some(63));
    state.tasks[63].place = place;
}

#[test]
fn the_last_of_64_tasks_and_of_32_objects_can_make_a_state_unsound() {
    breaks("number_out_of_range", |state| state.ceilings[31] = 33);
    breaks("number_out_of_range", |state| {
        move_last(state, Place::Suspended);
        state.tasks[63].base = 33;
    });
    breaks("number_out_of_range", |state| {
        state.tasks[63].held = vec![32]
    });
    breaks("number_out_of_range", |state| state.queues[9].push_back(64));
    breaks("task_in_two_places", |state| state.queues[9].push_back(63));
    breaks("task_in_two_places", |state| {
        state.tasks[63].place = Place::Suspended;
    });
    breaks("task_in_no_place", |state| move_last(state, Place::Ready));
    breaks("ready_in_wrong_queue", |state| {
        move_last(state, Place::Ready);
        state.queues[8].push_back(63);
    });
    for (clause, due) in [("due_not_after_now", 0), ("due_too_far_ahead", 65536)] {
        breaks(clause, |state| move_last(state, Place::Delayed { due }));
    }
    breaks("running_below_ready", |state| {
        state.tasks[0].base = 10;
        move_last(state, Place::Ready);
        state.tasks[63].base = 11;
        state.queues[10].push_back(63);
    });
}

#[test]
fn the_last_of_64_tasks_can_hold_what_it_must_not() {
    breaks("object_held_twice", |state| {
        state.tasks[63].held = vec![31, 31]
    });
    breaks("ceilings_falling_inwards", |state| {
        state.ceilings[31] = 9;
        state.tasks[63].held = vec![30, 31];
    });
    breaks("ceilings_starting_below_base", |state| {
        state.ceilings[31] = 9;
        state.tasks[63].held = vec![31];
    });
    breaks("holder_neither_ready_nor_running", |state| {
        move_last(state, Place::Suspended);
        state.tasks[63].held = vec![31];
    });
    breaks("waiting_base_outside_action", |state| {
        state.tasks[63].waiting = Some(10);
    });
}

#[test]
fn a_held_list_of_32_counts_to_its_end() {
    breaks("object_held_twice", |state| {
        state.tasks[63].held = both(0..32, 0..1);
    });
    breaks("object_held_twice", |state| {
        state.tasks[63].held = both(0..31, 30..31);
    });
    breaks("number_out_of_range", |state| {
        state.tasks[63].held = both(0..31, 32..33);
    });
    breaks("ceilings_falling_inwards", |state| {
        state.ceilings[31] = 9;
        state.tasks[63].held = numbers(0..32);
    });
}

// 64 tasks at one priority.

#[test]
fn delay_0_goes_around_all_64_tasks() {
    for p in [1, 10, 32] {
        let start = fresh(&[p; 64], &[]);
        let mut state = start.clone();
        for t in 0..64 {
            // First those that had no turn yet, then those that had one.
            stands(&state, Some(t), &[(p, &both(t + 1..64, 0..t))]);
            let (reports, after) = play_reporting(state, &[Delay(0)]);
            assert_eq!(reports, [2]);
            state = after;
        }
        assert_eq!(state, start);
    }
}

#[test]
fn a_set_of_the_last_of_64_tasks() {
    let start = fresh(&[10; 64], &[]);
    // To its base: it is behind all others already.
    let (reports, same) = play_reporting(start.clone(), &[Set(63, 10)]);
    assert_eq!((reports, &same), (vec![0], &start));
    // Higher: it runs, and 0 goes to the head.
    let (reports, higher) = play_reporting(start.clone(), &[Set(63, 11)]);
    assert_eq!(reports, [1]);
    stands(&higher, Some(63), &[(10, &numbers(0..63))]);
    // Back: it goes behind all others, and 0 runs.
    let (reports, back) = play_reporting(higher, &[Set(63, 10)]);
    assert_eq!((reports, &back), (vec![2], &start));
    // Lower.
    let (reports, lower) = play_reporting(start, &[Set(63, 9)]);
    assert_eq!(reports, [0]);
    stands(&lower, Some(0), &[(10, &numbers(1..63)), (9, &[63])]);
}

#[test]
fn a_set_of_each_of_64_tasks_sends_it_behind_all_others() {
    let start = fresh(&[10; 64], &[]);
    for t in 1..64 {
        let (reports, state) = play_reporting(start.clone(), &[Set(t, 10)]);
        assert_eq!(reports, [0]);
        let rest = [numbers(1..t), both(t + 1..64, t..t + 1)].concat();
        stands(&state, Some(0), &[(10, &rest)]);
    }
    let (reports, state) = play_reporting(start, &[Set(0, 10)]);
    assert_eq!(reports, [2]);
    stands(&state, Some(1), &[(10, &both(2..64, 0..1))]);
}

#[test]
fn a_preempted_task_goes_before_62_equals() {
    let bases = [[10; 63].as_slice(), &[20]].concat();
    let state = fresh(&bases, &[]);
    stands(&state, Some(63), &[(10, &numbers(0..63))]);
    let (reports, state) = play_reporting(state, &[Suspend, Release(63)]);
    assert_eq!(reports, [2, 1]);
    stands(&state, Some(63), &[(10, &numbers(0..63))]);
}

#[test]
fn all_64_tasks_are_suspended_and_released_from_the_last() {
    let state = play(fresh(&[10; 64], &[]), &[Suspend; 64]);
    stands(&state, None, &[]);
    let releases: Vec<Event> = (0..64).rev().map(Release).collect();
    let (reports, state) = play_reporting(state, &releases);
    assert_eq!(reports, [[2].as_slice(), &[0; 63]].concat());
    let waiting: Vec<usize> = (0..63).rev().collect();
    stands(&state, Some(63), &[(10, &waiting)]);
}

#[test]
fn all_64_tasks_end() {
    let (reports, state) = play_reporting(fresh(&[10; 64], &[]), &[Finish; 64]);
    assert_eq!(reports, [2; 64]);
    stands(&state, None, &[]);
    assert!(state.tasks.iter().all(|task| task.place == Place::Ended));
    assert_eq!(answer(&state, Work), 5);
    assert_eq!(answer(&state, Set(63, 10)), 6);
}

// 64 tasks that wake.

/// All 64 tasks are delayed until their due times. The bases do not rise, so that they run and are
/// delayed in number order.
fn all_delayed(bases: &[u64], due: impl Fn(usize) -> u16) -> State {
    let delays: Vec<Event> = (0..64).map(|t| Delay(due(t))).collect();
    let state = play(fresh(bases, &[]), &delays);
    stands(&state, None, &[]);
    for (t, task) in state.tasks.iter().enumerate() {
        let due = u64::from(due(t));
        assert_eq!(task.place, Place::Delayed { due }, "task {t}");
    }
    state
}

/// The order in which tasks of base 10 became ready: the first of them runs.
fn order(state: &State) -> Vec<usize> {
    let first = state.running.into_iter();
    first.chain(queue(state, 10)).collect()
}

#[test]
fn all_64_tasks_due_at_one_time_wake_by_number() {
    for due in [1, 5, 65535] {
        let state = all_delayed(&[10; 64], |_| due);
        let reading = u64::from(due);
        let (reports, early) = play_reporting(state, &[Clock(reading - 1)]);
        assert_eq!((reports, early.running), (vec![0], None));
        let (reports, woken) = play_reporting(early, &[Clock(reading)]);
        assert_eq!((reports, order(&woken)), (vec![2], numbers(0..64)));
    }
}

#[test]
fn the_later_of_64_tasks_is_due_first() {
    // 63 is due at 1, 62 at 2, and so on to 0 at 64.
    let state = all_delayed(&[10; 64], |t| 64 - t as u16);
    let falling: Vec<usize> = (0..64).rev().collect();
    let at_once = play(state.clone(), &[Clock(64)]);
    assert_eq!(order(&at_once), falling);
    // The last reading wakes 0 alone.
    let almost = play(state.clone(), &[Clock(63)]);
    assert_eq!(order(&almost), falling[..63]);
    assert_eq!(play(almost, &[Clock(64)]), at_once);
    // 64 readings wake one task each.
    let readings: Vec<Event> = (1..=64).map(Clock).collect();
    assert_eq!(play(state, &readings), at_once);
}

#[test]
fn sixteen_of_64_tasks_are_due_at_each_of_four_times() {
    let state = all_delayed(&[10; 64], |t| 1 + t as u16 % 4);
    // 0, 4, 8 and so on to 60; 1, 5, 9 and so on to 61; and so on.
    let expected: Vec<usize> = (0..4).flat_map(|t| (t..64).step_by(4)).collect();
    assert_eq!(expected[14..18], [56, 60, 1, 5]);
    assert_eq!(order(&play(state.clone(), &[Clock(4)])), expected);
    assert_eq!(order(&play(state, &[Clock(2)])), expected[..32]);
}

#[test]
fn two_of_64_tasks_are_due_at_each_of_32_times() {
    // 62 and 63 are due at 1, 60 and 61 at 2, and so on.
    let state = all_delayed(&[10; 64], |t| 32 - t as u16 / 2);
    let expected: Vec<usize> = (0..32).rev().flat_map(|n| [2 * n, 2 * n + 1]).collect();
    assert_eq!(expected[..4], [62, 63, 60, 61]);
    assert_eq!(order(&play(state, &[Clock(1000)])), expected);
}

#[test]
fn two_of_64_tasks_wake_into_each_queue() {
    // 0 and 1 have base 32, 2 and 3 base 31, and so on; the second of each two is due first.
    let bases: Vec<u64> = (0..64).map(|t| 32 - t / 2).collect();
    let state = all_delayed(&bases, |t| 2 - t as u16 % 2);
    assert_eq!(state.marks, 0);
    let state = play(state, &[Clock(2)]);
    assert_eq!((state.running, queue(&state, 32)), (Some(1), vec![0]));
    for p in 1..32 {
        let first = 2 * (32 - p as usize);
        assert_eq!(queue(&state, p), [first + 1, first], "priority {p}");
    }
    assert_eq!(state.marks, u32::MAX);
    assert_eq!(broken(&state), [""; 0]);
}

#[test]
fn sixty_three_higher_tasks_wake_while_one_runs() {
    let bases = [[20; 63].as_slice(), &[10]].concat();
    let delays: Vec<Event> = (0..63).map(|t| Delay(63 - t)).collect();
    let state = play(fresh(&bases, &[]), &delays);
    stands(&state, Some(63), &[]);
    let (reports, state) = play_reporting(state, &[Clock(63)]);
    assert_eq!(reports, [1]);
    let waiting: Vec<usize> = (0..62).rev().collect();
    stands(&state, Some(62), &[(20, &waiting), (10, &[63])]);
}

#[test]
fn random_delays_of_64_tasks_wake_by_due_time_and_then_by_number() {
    let readings: Vec<Event> = (1..=100).map(Clock).collect();
    for seed in 0..50 {
        let mut random = Random::new(seed);
        // With a small spread many are equal.
        let spread = 1 + random.below(100);
        let dues: Vec<u16> = (0..64).map(|_| 1 + random.below(spread) as u16).collect();
        let mut expected = numbers(0..64);
        // This sort leaves equals in their order.
        expected.sort_by_key(|&t| dues[t]);
        let state = all_delayed(&[10; 64], |t| dues[t]);
        let at_once = play(state.clone(), &[Clock(100)]);
        assert_eq!(order(&at_once), expected, "seed {seed}");
        assert_eq!(play(state, &readings), at_once, "seed {seed}");
    }
}

// 32 objects.

#[test]
fn all_32_objects_of_one_ceiling_are_left_innermost_first() {
    let start = fresh(&[10, 10], &[20; 32]);
    let mut state = inside_all(start.clone());
    for inside in (1..=32).rev() {
        assert_eq!(state.tasks[0].held, numbers(0..inside));
        assert_eq!((state.running, state.active(0)), (Some(0), Some(20)));
        assert_eq!(broken(&state), [""; 0]);
        for event in [Delay(0), Delay(1), Suspend, Finish] {
            assert_eq!(answer(&state, event), 7, "{event:?}");
        }
        for o in 0..32 {
            let enter = if o < inside { 7 } else { 0 };
            let leave = if o == inside - 1 { 0 } else { 9 };
            let given = (answer(&state, Enter(o)), answer(&state, Leave(o)));
            assert_eq!(given, (enter, leave), "object {o} inside {inside}");
        }
        let (reports, after) = play_reporting(state, &[Leave(inside - 1)]);
        assert_eq!(reports, [0]);
        state = after;
    }
    assert_eq!(state, start);
}

#[test]
fn all_32_objects_of_one_ceiling_are_entered_from_the_last() {
    let start = fresh(&[20, 20], &[20; 32]);
    let enters: Vec<Event> = (0..32).rev().map(Enter).collect();
    let state = play(start.clone(), &enters);
    let held: Vec<usize> = (0..32).rev().collect();
    assert_eq!((&state.tasks[0].held, state.active(0)), (&held, Some(20)));
    assert_eq!(answer(&state, Leave(31)), 9);
    let leaves: Vec<Event> = (0..32).map(Leave).collect();
    assert_eq!(play(state, &leaves), start);
}

#[test]
fn all_32_objects_of_rising_ceilings_are_left_innermost_first() {
    let start = fresh(&[1, 1], &rising());
    let mut state = start.clone();
    for o in 0..32 {
        state = play(state, &[Enter(o)]);
        assert_eq!(state.active(0), Some(o as u64 + 1));
    }
    assert_eq!(state.tasks[0].held, numbers(0..32));
    for o in (0..32).rev() {
        let (reports, after) = play_reporting(state, &[Leave(o)]);
        // Object o - 1 has ceiling o; outside all of them the base is 1.
        let active = if o > 0 { o as u64 } else { 1 };
        assert_eq!((reports, after.active(0)), (vec![0], Some(active)));
        assert_eq!(broken(&after), [""; 0]);
        state = after;
    }
    assert_eq!(state, start);
}

#[test]
fn inside_the_highest_of_32_objects_every_other_is_8() {
    let state = play(fresh(&[1], &rising()), &[Enter(31)]);
    for o in 0..31 {
        assert_eq!(answer(&state, Enter(o)), 8, "object {o}");
    }
    assert_eq!(answer(&state, Enter(31)), 7);
    assert_eq!(answer(&state, Enter(32)), 2);
}

#[test]
fn a_falling_task_gives_way_after_its_17th_of_32_leaves() {
    let state = play(fresh(&[1, 16], &rising()), &[Suspend]);
    let state = play(inside_all(state), &[Release(1)]);
    stands(&state, Some(0), &[(16, &[1])]);
    // It falls from 32 to 16 and is an equal then; and then it falls to 15.
    let (reports, state) = play_reporting(state, &leaves(16..32));
    assert_eq!(reports, [0; 16]);
    stands(&state, Some(0), &[(16, &[1])]);
    let (reports, state) = play_reporting(state, &[Leave(15)]);
    assert_eq!(reports, [1]);
    stands(&state, Some(1), &[(15, &[0])]);
    assert_eq!(state.tasks[0].held, numbers(0..15));
    // It goes on when the other makes room.
    let state = play(state, &[Suspend]);
    let state = play(state, &leaves(0..15));
    stands(&state, Some(0), &[]);
    assert_eq!((state.tasks[0].held.len(), state.active(0)), (0, Some(1)));
}

#[test]
fn a_base_waits_for_the_last_of_32_leaves() {
    let state = inside_all(fresh(&[10, 10], &[20; 32]));
    let state = play(state, &[Set(0, 32), Set(0, 10)]);
    let (reports, state) = play_reporting(state, &leaves(1..32));
    assert_eq!(reports, [0; 31]);
    stands(&state, Some(0), &[(10, &[1])]);
    assert_eq!(state.tasks[0].waiting, Some(10));
    let (reports, state) = play_reporting(state, &[Leave(0)]);
    assert_eq!(reports, [2]);
    stands(&state, Some(1), &[(10, &[0])]);
    assert_eq!(state.tasks[0].waiting, None);
}

#[test]
fn thirty_two_tasks_are_inside_one_object_each() {
    // Task t and object t have priority t + 1; all tasks but 0 are suspended first.
    let mut state = play(fresh(&rising(), &rising()), &[Suspend; 31]);
    stands(&state, Some(0), &[]);
    for t in 0..31 {
        let (reports, after) = play_reporting(state, &[Enter(t), Release(t + 1)]);
        assert_eq!((reports, after.running), (vec![0, 1], Some(t + 1)));
        state = after;
    }
    state = play(state, &[Enter(31)]);
    for (t, task) in state.tasks.iter().enumerate() {
        assert_eq!(task.held, [t]);
    }
    assert_eq!((state.running, state.marks), (Some(31), 0x7FFF_FFFF));
    for t in (1..32).rev() {
        let (reports, after) = play_reporting(state, &[Leave(t), Finish]);
        assert_eq!((reports, after.running), (vec![0, 2], Some(t - 1)));
        state = after;
    }
    stands(&play(state, &[Leave(0), Finish]), None, &[]);
}

/// The answer to an Enter or a Leave of a task of base 10 that is inside these objects.
fn reckoned_answer(held: &[usize], ceilings: &[u64], event: Event) -> u8 {
    let active = held.iter().map(|&o| ceilings[o]).fold(10, u64::max);
    match event {
        Enter(o) | Leave(o) if o >= ceilings.len() => 2,
        Enter(o) if held.contains(&o) => 7,
        Enter(o) if active > ceilings[o] => 8,
        Leave(o) if held.last() != Some(&o) => 9,
        _ => 0,
    }
}

/// Plays random Enters and Leaves beside a held list of their own, counts their answers, and gives
/// the depth that they reach.
fn nest(seed: u64, answers: &mut [u32; 10]) -> usize {
    let mut random = Random::new(seed);
    // In every other history the ceilings are equal, so that all objects can be nested.
    let ceilings: Vec<u64> = match seed % 2 {
        0 => vec![20; 32],
        _ => (0..32).map(|_| 9 + random.below(24)).collect(),
    };
    let mut state = fresh(&[10], &ceilings);
    let (mut held, mut deepest) = (Vec::new(), 0);
    for _ in 0..300 {
        let o = random.index(33);
        let event = match random.below(16) {
            0 => Leave(o),
            1 => Leave(held.last().copied().unwrap_or(o)),
            _ => Enter(o),
        };
        let expected = reckoned_answer(&held, &ceilings, event);
        match event {
            Enter(o) if expected == 0 => held.push(o),
            Leave(_) if expected == 0 => drop(held.pop()),
            _ => {}
        }
        let (outcome, after) = apply(state, event);
        assert_eq!(outcome.answer, expected, "seed {seed}, {event:?}");
        assert_eq!(after.tasks[0].held, held, "seed {seed}, {event:?}");
        answers[usize::from(expected)] += 1;
        deepest = held.len().max(deepest);
        state = after;
    }
    deepest
}

#[test]
fn random_enters_and_leaves_of_32_objects() {
    let mut answers = [0; 10];
    let deepest = (0..100).map(|seed| nest(seed, &mut answers)).max();
    assert_eq!(deepest, Some(32));
    let met = [0, 2, 7, 8, 9].map(|number| answers[number]);
    assert!(met.iter().all(|&count| count > 100), "{answers:?}");
}

// The board.

#[test]
fn a_board_of_64_rows_is_filled_and_asked() {
    // Tasks 0 and 1 have base 1, 2 and 3 base 2, and so on: 62 runs at 32.
    let bases: Vec<u64> = (0..64).map(|t| 1 + t / 2).collect();
    let mut board = [BLANK; 64];
    assert_eq!(fill(&fresh(&bases, &[]), &mut board), 0);
    for (t, &given) in (0..).zip(&board[..62]) {
        assert_eq!(given, row(Ready, 1 + t / 2, t % 2), "task {t}");
    }
    assert_eq!(board[62..], [row(Running, 32, 0), row(Ready, 32, 0)]);
    assert_eq!(next(&board), Ok(Some(63)));
}

#[test]
fn a_board_of_64_rows_follows_delay_0_around() {
    let mut state = fresh(&[7; 64], &[]);
    for t in 0..64 {
        let mut board = [BLANK; 64];
        assert_eq!(fill(&state, &mut board), 0);
        for (other, &given) in board.iter().enumerate() {
            // How far behind t a task stands, once around.
            let expected = match (64 + other - t) % 64 {
                0 => row(Running, 7, 0),
                behind => row(Ready, 7, behind as u64 - 1),
            };
            assert_eq!(given, expected, "{other} while {t} runs");
        }
        assert_eq!(next(&board), Ok(Some((t + 1) % 64)));
        state = play(state, &[Delay(0)]);
    }
}

#[test]
fn filling_for_64_tasks_takes_64_rows_and_leaves_the_others() {
    let state = fresh(&[7; 64], &[]);
    for rows in [0, 1, 32, 33, 63] {
        let mut board = vec![BLANK; rows];
        assert_eq!(fill(&state, &mut board), 13, "{rows} rows");
        assert_eq!(board, vec![BLANK; rows]);
    }
    for rows in [64, 65, 100] {
        let mut board = vec![BLANK; rows];
        assert_eq!(fill(&state, &mut board), 0, "{rows} rows");
        assert_eq!(board[63], row(Ready, 7, 62));
        assert_eq!(board[64..], vec![BLANK; rows - 64]);
        // The rows that were not written have no good priority, and 13 comes before 3.
        let asked = if rows == 64 { Ok(Some(1)) } else { Err(13) };
        assert_eq!(next(&board), asked, "{rows} rows");
    }
}

#[test]
fn every_number_of_rows_up_to_64_can_be_asked() {
    let rows = |count: usize, last: Row| -> Vec<Row> {
        let mut rows = vec![row(Ready, 10, 5); count];
        rows[count - 1] = last;
        rows
    };
    for count in 1..=64 {
        let asked = |last: Row| next(&rows(count, last));
        assert_eq!(asked(row(Ready, 10, 4)), Ok(Some(count - 1)));
        assert_eq!(asked(row(Ready, 11, 99)), Ok(Some(count - 1)));
        assert_eq!(asked(row(Ready, 10, 5)), Ok(Some(0)));
        assert_eq!(asked(row(Ended, 33, 0)), Err(3));
        assert_eq!(asked(row(Ended, 0, 0)), Err(3));
    }
    for count in [65, 66, 128, 256, 256 + 64] {
        assert_eq!(next(&rows(count, row(Ready, 11, 0))), Err(13), "{count}");
        assert_eq!(next(&rows(count, row(Ready, 33, 0))), Err(13), "{count}");
    }
}
