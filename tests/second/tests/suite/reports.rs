//! Request 2026-10: what each event reports, by who runs before it and after it.

use std::collections::BTreeMap;

use crate::leaps::busy;
use crate::program::printed_for;
use crate::random::{any_event, any_fresh, random_fresh};
use crate::support::{
    at, clock_event, delay, enter, fresh, leave, mend_marks, play, play_reporting, queue, refused,
    release_event, replies, roster, set_event, Random, Record, Reply, AGAIN, LARGEST, LONGEST,
    STEP, SUSPEND, WORK,
};
use second::machine::apply;
use second::machine::Event::{
    self, Clock, Delay, Enter, Finish, Leave, Release, Set, Suspend, Work,
};
use second::report::{CHANGED, PREEMPTED, UNCHANGED};
use second::roster::admit;
use second::run::{decode, printed, Run};
use second::sound::is_sound;
use second::state::{Place, State};

/// Who runs before an accepted event, who runs after it, and what it reports.
type Change = (Option<usize>, Option<usize>, u8);

fn change(state: &State, event: Event) -> Change {
    let (outcome, after) = apply(state.clone(), event);
    assert_eq!(outcome.answer, 0, "{event:?}");
    (state.running, after.running, outcome.report)
}

/// The same task runs before and after.
fn same(t: usize) -> Change {
    (Some(t), Some(t), 0)
}

/// The dispatch sent the first task to the head of its queue, and the second runs.
fn preempted(old: usize, new: usize) -> Change {
    (Some(old), Some(new), 1)
}

/// The first task left the processor by the event itself, and the second runs.
fn replaced(old: usize, new: usize) -> Change {
    (Some(old), Some(new), 2)
}

#[test]
fn the_numbers_are_those_of_the_request() {
    assert_eq!((UNCHANGED, PREEMPTED, CHANGED), (0, 1, 2));
}

// Enter and Leave.

#[test]
fn enter_reports_0() {
    let state = fresh(&[10, 10, 5], &[20, 25]);
    assert_eq!(change(&state, Enter(0)), same(0));
    let state = play(state, &[Enter(0)]);
    assert_eq!(change(&state, Enter(1)), same(0));
}

#[test]
fn a_leave_after_which_the_task_runs_on_reports_0() {
    // Task 1 is an equal once both objects are left.
    let state = play(fresh(&[10, 10, 5], &[20, 25]), &[Enter(0), Enter(1)]);
    assert_eq!(change(&state, Leave(1)), same(0));
    let state = play(state, &[Leave(1)]);
    assert_eq!(change(&state, Leave(0)), same(0));
}

/// Task 0 (base 10) is inside object 0 (ceiling 20) when task 1 (base 15) becomes ready.
fn holder_before_15() -> State {
    let state = fresh(&[10, 15], &[20]);
    play(state, &[Delay(3), Enter(0), Clock(3)])
}

#[test]
fn a_leave_that_lets_a_higher_task_in_reports_1() {
    // 0 falls from 20 to 10, below 15, with no base waiting.
    assert_eq!(change(&holder_before_15(), Leave(0)), preempted(0, 1));
}

#[test]
fn a_leave_of_an_inner_object_can_report_1_also_while_a_base_waits() {
    // 0 falls from 30 to 20, below 25; its base waits for the outermost Leave.
    let state = fresh(&[10, 25], &[20, 30]);
    let state = play(state, &[Delay(1), Enter(0), Enter(1), Clock(1)]);
    assert_eq!(change(&state, Leave(1)), preempted(0, 1));
    let waiting = play(state, &[Set(0, 5)]);
    assert_eq!(change(&waiting, Leave(1)), preempted(0, 1));
}

#[test]
fn a_waiting_base_that_lets_another_run_reports_2() {
    // To the tail behind an equal, and to the tail of a lower queue.
    let state = play(fresh(&[10, 10], &[20]), &[Enter(0), Set(0, 10)]);
    assert_eq!(change(&state, Leave(0)), replaced(0, 1));
    let state = play(fresh(&[10, 8], &[20]), &[Enter(0), Set(0, 8)]);
    assert_eq!(change(&state, Leave(0)), replaced(0, 1));
    let state = play(fresh(&[10, 8], &[20]), &[Enter(0), Set(0, 5)]);
    assert_eq!(change(&state, Leave(0)), replaced(0, 1));
}

#[test]
fn a_waiting_base_reports_2_also_where_the_new_task_is_higher() {
    // Without it the same Leave reports 1; who runs and every queue are the same afterwards.
    let state = holder_before_15();
    let waiting = play(state.clone(), &[Set(0, 10)]);
    assert_eq!(change(&state, Leave(0)), preempted(0, 1));
    assert_eq!(change(&waiting, Leave(0)), replaced(0, 1));
    assert_eq!(play(waiting, &[Leave(0)]), play(state, &[Leave(0)]));
}

#[test]
fn a_waiting_base_of_a_task_that_is_picked_again_reports_0() {
    // Lower and still above 5, the same, and above the ceiling.
    let state = play(fresh(&[10, 5], &[20]), &[Enter(0)]);
    for p in [6, 10, 32] {
        let waiting = play(state.clone(), &[Set(0, p)]);
        assert_eq!(change(&waiting, Leave(0)), same(0));
    }
    // Above its equal.
    let state = play(fresh(&[10, 10], &[20]), &[Enter(0), Set(0, 11)]);
    assert_eq!(change(&state, Leave(0)), same(0));
}

// Delay.

#[test]
fn delay_0_reports_0_where_the_task_is_picked_again() {
    assert_eq!(change(&fresh(&[10], &[]), Delay(0)), same(0));
    assert_eq!(change(&fresh(&[10, 9, 9], &[]), Delay(0)), same(0));
}

#[test]
fn delay_0_reports_2_where_an_equal_runs() {
    // With one equal the old task stands alone in its queue, and with two behind the other.
    assert_eq!(change(&fresh(&[10, 10], &[]), Delay(0)), replaced(0, 1));
    assert_eq!(change(&fresh(&[10, 10, 10], &[]), Delay(0)), replaced(0, 1));
}

#[test]
fn a_delay_above_0_reports_2() {
    for d in [1, 65535] {
        assert_eq!(change(&fresh(&[10, 10], &[]), Delay(d)), replaced(0, 1));
        assert_eq!(change(&fresh(&[20, 10], &[]), Delay(d)), replaced(0, 1));
        let to_nobody = (Some(0), None, 2);
        assert_eq!(change(&fresh(&[10], &[]), Delay(d)), to_nobody);
    }
}

// Suspend, Work and Finish.

#[test]
fn suspend_with_a_permit_reports_0() {
    for bases in [&[10][..], &[10, 10], &[20, 10]] {
        let state = play(fresh(bases, &[]), &[Release(0)]);
        assert_eq!(change(&state, Suspend), same(0));
    }
}

#[test]
fn suspend_without_a_permit_reports_2() {
    assert_eq!(change(&fresh(&[10, 10], &[]), Suspend), replaced(0, 1));
    assert_eq!(change(&fresh(&[20, 10], &[]), Suspend), replaced(0, 1));
    assert_eq!(change(&fresh(&[10], &[]), Suspend), (Some(0), None, 2));
}

#[test]
fn work_reports_0() {
    assert_eq!(change(&fresh(&[10, 10], &[]), Work), same(0));
    let inside = play(fresh(&[10, 10], &[20]), &[Enter(0)]);
    assert_eq!(change(&inside, Work), same(0));
}

#[test]
fn finish_reports_2() {
    assert_eq!(change(&fresh(&[10, 10], &[]), Finish), replaced(0, 1));
    assert_eq!(change(&fresh(&[20, 10], &[]), Finish), replaced(0, 1));
    assert_eq!(change(&fresh(&[10], &[]), Finish), (Some(0), None, 2));
}

// Release.

#[test]
fn a_release_that_turns_a_permit_on_reports_0() {
    // 0 is delayed, 1 ended, 2 runs and 3 is ready.
    let state = play(fresh(&[30, 29, 10, 10], &[]), &[Delay(5), Finish]);
    for t in 0..4 {
        assert_eq!(change(&state, Release(t)), same(2));
    }
}

#[test]
fn a_release_of_a_task_that_is_not_higher_reports_0() {
    // 0, an equal of 1, and 2, lower, are suspended.
    let state = fresh(&[10, 10, 5], &[]);
    let state = play(state, &[Suspend, Suspend, Suspend, Release(1)]);
    assert_eq!(change(&state, Release(0)), same(1));
    assert_eq!(change(&state, Release(2)), same(1));
}

#[test]
fn a_release_of_a_higher_task_reports_1() {
    let state = play(fresh(&[10, 10, 20], &[]), &[Suspend]);
    assert_eq!(change(&state, Release(2)), preempted(0, 2));
}

#[test]
fn a_release_of_a_task_above_the_ceiling_preempts_the_holder() {
    let state = |base: u64| play(fresh(&[10, base], &[20]), &[Suspend, Enter(0)]);
    assert_eq!(change(&state(21), Release(1)), preempted(0, 1));
    assert_eq!(change(&state(20), Release(1)), same(0));
}

#[test]
fn a_release_where_nobody_runs() {
    // A suspended task runs, and the permit of a delayed or ended one lets nobody run.
    let state = play(fresh(&[10, 10, 10], &[]), &[Suspend, Delay(5), Finish]);
    assert_eq!(change(&state, Release(0)), (None, Some(0), 2));
    assert_eq!(change(&state, Release(1)), (None, None, 0));
    assert_eq!(change(&state, Release(2)), (None, None, 0));
}

// Clock.

#[test]
fn a_clock_that_wakes_nobody_reports_0() {
    let state = play(fresh(&[10, 20], &[]), &[Delay(5)]);
    for reading in [0, 1, 4] {
        assert_eq!(change(&state, Clock(reading)), same(0));
    }
}

#[test]
fn a_clock_that_wakes_no_higher_task_reports_0() {
    // 0, an equal of 1, is due at 5.
    let state = play(fresh(&[10, 10], &[]), &[Delay(5)]);
    assert_eq!(change(&state, Clock(5)), same(1));
    // 1 is due at 5, and lower than 0, which is released meanwhile.
    let state = fresh(&[20, 10], &[]);
    let state = play(state, &[Suspend, Delay(5), Release(0)]);
    assert_eq!(change(&state, Clock(5)), same(0));
}

#[test]
fn a_clock_that_wakes_a_higher_task_reports_1() {
    let state = play(fresh(&[10, 10, 20], &[]), &[Delay(5)]);
    assert_eq!(change(&state, Clock(5)), preempted(0, 2));
    assert_eq!(change(&state, Clock(LONGEST)), preempted(0, 2));
    // 1 and 2 wake, 1 first; the one dispatch lets 2 run.
    let state = play(fresh(&[10, 20, 30], &[]), &[Delay(2), Delay(1)]);
    assert_eq!(change(&state, Clock(2)), preempted(0, 2));
}

#[test]
fn a_clock_where_nobody_runs() {
    let state = play(fresh(&[10, 20], &[]), &[Delay(5), Delay(5)]);
    assert_eq!(change(&state, Clock(4)), (None, None, 0));
    assert_eq!(change(&state, Clock(5)), (None, Some(1), 2));
}

// Set on the running task.

#[test]
fn a_set_of_the_running_task_reports_0_where_it_is_picked_again() {
    for p in [1, 10, 32] {
        assert_eq!(change(&fresh(&[10], &[]), Set(0, p)), same(0));
    }
    // Raised before its equal; lowered and still above 15; the same without equals.
    assert_eq!(change(&fresh(&[20, 20], &[]), Set(0, 21)), same(0));
    assert_eq!(change(&fresh(&[20, 15], &[]), Set(0, 16)), same(0));
    assert_eq!(change(&fresh(&[20, 15], &[]), Set(0, 20)), same(0));
}

#[test]
fn a_set_of_the_running_task_reports_2_where_another_runs() {
    // Behind its equal; down to an equal; and down below 15, so that the new task is higher.
    assert_eq!(change(&fresh(&[20, 20], &[]), Set(0, 20)), replaced(0, 1));
    assert_eq!(change(&fresh(&[20, 15], &[]), Set(0, 15)), replaced(0, 1));
    assert_eq!(change(&fresh(&[20, 15], &[]), Set(0, 14)), replaced(0, 1));
}

#[test]
fn the_same_state_afterwards_does_not_make_the_same_report() {
    // In both cases 1 runs in place of 0, which is alone in queue 10.
    let end = fresh(&[10, 15], &[]);
    let (lowered, by_set) = play_reporting(fresh(&[20, 15], &[]), &[Set(0, 10)]);
    let suspended = play(end.clone(), &[Suspend]);
    let (released, by_release) = play_reporting(suspended, &[Release(1)]);
    assert_eq!((by_set, by_release), (end.clone(), end));
    assert_eq!((lowered, released), (vec![2], vec![1]));
}

// Set on another task.

#[test]
fn a_set_of_another_task_that_then_preempts_reports_1() {
    assert_eq!(change(&fresh(&[10, 10], &[]), Set(1, 11)), preempted(0, 1));
    let state = fresh(&[10, 10, 5, 5], &[]);
    assert_eq!(change(&state, Set(3, 32)), preempted(0, 3));
}

#[test]
fn a_set_of_another_task_that_gets_no_higher_reports_0() {
    let state = fresh(&[20, 10, 10], &[]);
    for p in [1, 10, 15, 20] {
        assert_eq!(change(&state, Set(1, p)), same(0));
    }
}

#[test]
fn a_set_of_a_blocked_task_reports_0_and_its_waking_1() {
    let state = play(fresh(&[10, 20, 20], &[]), &[Delay(5), Suspend]);
    for t in [1, 2] {
        assert_eq!(change(&state, Set(t, 32)), same(0));
    }
    let state = play(state, &[Set(1, 31), Set(2, 32)]);
    assert_eq!(change(&state, Clock(5)), preempted(0, 1));
    assert_eq!(change(&state, Release(2)), preempted(0, 2));
}

#[test]
fn a_set_where_nobody_runs_reports_0() {
    let state = play(fresh(&[10, 10], &[]), &[Delay(5), Suspend]);
    assert_eq!(change(&state, Set(0, 32)), (None, None, 0));
    assert_eq!(change(&state, Set(1, 10)), (None, None, 0));
}

// Set inside an action.

#[test]
fn a_set_that_waits_reports_0() {
    let state = play(fresh(&[10, 10], &[20]), &[Enter(0)]);
    for p in [1, 10, 32] {
        assert_eq!(change(&state, Set(0, p)), same(0));
    }
    // The holder of an object is ready, and 1 runs above the ceiling.
    let state = fresh(&[10, 25], &[20]);
    let state = play(state, &[Suspend, Enter(0), Release(1)]);
    for p in [1, 10, 32] {
        assert_eq!(change(&state, Set(0, p)), same(1));
    }
}

#[test]
fn a_set_of_another_task_while_the_running_one_is_inside() {
    let state = play(fresh(&[10, 10], &[20]), &[Enter(0)]);
    assert_eq!(change(&state, Set(1, 20)), same(0));
    assert_eq!(change(&state, Set(1, 21)), preempted(0, 1));
}

// Refused events.

#[test]
fn every_refused_event_reports_0() {
    let state = play(fresh(&[10, 20], &[9, 15, 20]), &[Suspend, Enter(1)]);
    let refusals = [
        (1, Release(2)),
        (1, Set(2, 32)),
        (2, Enter(3)),
        (2, Leave(3)),
        (3, Set(1, 33)),
        (4, Clock(LONGEST + 1)),
        (7, Delay(0)),
        (7, Delay(1)),
        (7, Suspend),
        (7, Finish),
        (7, Enter(1)),
        (8, Enter(0)),
        (9, Leave(2)),
    ];
    for (number, event) in refusals {
        let given = apply(state.clone(), event);
        assert_eq!(given, (refused(number), state.clone()), "{event:?}");
    }
}

#[test]
fn every_event_refused_where_nobody_runs_reports_0() {
    let state = play(fresh(&[10], &[20]), &[Finish]);
    let own = [
        Enter(0),
        Leave(0),
        Delay(0),
        Delay(1),
        Suspend,
        Work,
        Finish,
    ];
    for event in own {
        assert_eq!(apply(state.clone(), event), (refused(5), state.clone()));
    }
    let given = apply(state.clone(), Set(0, 32));
    assert_eq!(given, (refused(6), state));
}

#[test]
fn an_unsound_state_reports_0_also_where_a_dispatch_would_change_it() {
    let sound = play(fresh(&[10, 20, 10], &[]), &[Suspend]);
    let mut below = sound.clone();
    below.tasks[0].base = 9;
    let mut nobody = sound.clone();
    nobody.running = None;
    nobody.tasks[0].place = Place::Suspended;
    for state in [below, nobody, at(LARGEST + 1, sound)] {
        assert!(!is_sound(&state));
        for event in [Work, Delay(0), Finish, Release(1), Clock(0), Set(2, 32)] {
            assert_eq!(apply(state.clone(), event), (refused(10), state.clone()));
        }
    }
}

// In a run.

/// At the start 2 runs (base 15), and 0 and 1 wait in queue 10; the object's ceiling is 20.
fn three_tasks() -> Vec<u8> {
    let tasks = [
        (10, vec![delay(0), WORK, AGAIN]),
        (10, vec![enter(0), leave(0), AGAIN]),
        (15, vec![SUSPEND, AGAIN]),
    ];
    roster(&tasks, &[20])
}

/// Events for them, each with its reply.
fn mixed_events() -> Vec<(Record, Reply)> {
    vec![
        // 2 is suspended, and 0 runs.
        (STEP, (0, 0, 2)),
        // 0 goes behind 1 by Delay 0.
        (STEP, (0, 1, 2)),
        // 1 enters.
        (STEP, (0, 1, 0)),
        // 2 is ready at 15, below the ceiling.
        (release_event(2), (0, 1, 0)),
        // A leap.
        (clock_event(LARGEST), (4, 1, 0)),
        // 1 leaves, and 2 is higher: 1 goes to the head, before 0.
        (STEP, (0, 2, 1)),
        // No such task; the report before it is not given again.
        (release_event(3), (1, 2, 0)),
        // 2 goes back to its first step.
        (STEP, (0, 2, 0)),
        // 2 is suspended, and 1 runs.
        (STEP, (0, 1, 2)),
        // 0, which is ready, is raised above 1.
        (set_event(0, 12), (0, 0, 1)),
        // 0 works.
        (STEP, (0, 0, 0)),
        // 0, which runs, goes to the tail of queue 5, though 1 is higher.
        (set_event(0, 5), (0, 1, 2)),
        // 2 is ready at 15, above 1.
        (release_event(2), (0, 2, 1)),
        // 2 goes back to its first step.
        (STEP, (0, 2, 0)),
    ]
}

#[test]
fn a_run_writes_the_report_as_its_third_byte() {
    let (events, expected): (Vec<_>, Vec<_>) = mixed_events().into_iter().unzip();
    assert_eq!(replies(&three_tasks(), &events), expected);
}

#[test]
fn the_program_prints_the_report_as_a_third_number() {
    let (events, expected): (Vec<_>, Vec<_>) = mixed_events().into_iter().unzip();
    let line = |&(answer, task, report): &Reply| format!("{answer} {task} {report}\n");
    let lines: String = expected.iter().map(line).collect();
    let text = printed(&three_tasks(), &events.concat());
    assert_eq!(text, format!("passed\n{lines}end\n"));
    let by_command = printed_for("reports", &three_tasks(), &events.concat());
    assert_eq!(by_command, text);
}

#[test]
fn again_reports_0() {
    // An equal waits, and the task runs on.
    let bytes = roster(&[(10, vec![AGAIN]), (10, vec![])], &[]);
    assert_eq!(replies(&bytes, &[STEP; 3]), [(0, 0, 0); 3]);
}

// Random histories.

/// The reports that an accepted event of each kind can give, by the rules.
const POSSIBLE: [(&str, &[u8]); 13] = [
    ("Enter", &[0]),
    ("Leave", &[0, 1, 2]),
    // The task leaves the processor by the event itself, so that it cannot be preempted.
    ("Delay 0", &[0, 2]),
    ("Delay above 0", &[2]),
    ("Suspend with a permit", &[0]),
    ("Suspend without a permit", &[2]),
    ("Release", &[0, 1, 2]),
    ("Clock", &[0, 1, 2]),
    // No ready task is above the one that runs unless it is raised.
    ("Set on the running task", &[0, 2]),
    ("Set on another task", &[0, 1]),
    ("Set inside an action", &[0]),
    ("Work", &[0]),
    ("Finish", &[2]),
];

/// The kind of an accepted event.
pub fn kind(before: &State, event: Event) -> &'static str {
    let has_permit = before.running_task().is_some_and(|task| task.permit);
    match event {
        Enter(_) => "Enter",
        Leave(_) => "Leave",
        Delay(0) => "Delay 0",
        Delay(_) => "Delay above 0",
        Suspend if has_permit => "Suspend with a permit",
        Suspend => "Suspend without a permit",
        Release(_) => "Release",
        Clock(_) => "Clock",
        Set(t, _) if !before.tasks[t].held.is_empty() => "Set inside an action",
        Set(t, _) if before.running == Some(t) => "Set on the running task",
        Set(..) => "Set on another task",
        Work => "Work",
        Finish => "Finish",
    }
}

/// The state with one more task, ready at the tail of the queue for this priority.
pub fn with_witness(state: &State, priority: u64) -> (State, usize) {
    let mut state = state.clone();
    let witness = state.tasks.len();
    let mut task = fresh(&[priority], &[]).tasks[0].clone();
    task.place = Place::Ready;
    state.tasks.push(task);
    state.queues[priority as usize - 1].push_back(witness);
    mend_marks(&mut state);
    (state, witness)
}

/// The report of an accepted event, reckoned from where tasks stand and not from the dispatch: the
/// event is played again with a witness ready in the queue that the old task comes to. A task sent
/// to the head stands before the witness, one sent to the tail behind it.
fn report_by_witness(before: &State, event: Event, after: &State) -> Option<u8> {
    if before.running == after.running {
        return Some(0);
    }
    let Some(old) = before.running else {
        return Some(2);
    };
    if after.tasks[old].place != Place::Ready {
        return Some(2);
    }
    let priority = after.active(old)?;
    let (watched, witness) = with_witness(before, priority);
    let (_, watched) = apply(watched, event);
    let queue = queue(&watched, priority);
    let place = |t: usize| queue.iter().position(|&other| other == t);
    Some(if place(old)? < place(witness)? { 1 } else { 2 })
}

/// A fresh state that is sound with a witness too, who would be the 65th task in a full one.
fn roomy_fresh(random: &mut Random, is_wide: bool) -> State {
    let state = any_fresh(random, is_wide);
    match state.tasks.len() {
        64 => random_fresh(random),
        _ => state,
    }
}

#[test]
fn random_histories_report_what_a_witness_sees() {
    let mut met: BTreeMap<(&str, u8), u32> = BTreeMap::new();
    for seed in 0..8000 {
        let mut random = Random::new(seed);
        let is_wide = seed % 8 == 0;
        let mut state = roomy_fresh(&mut random, is_wide);
        for _ in 0..60 {
            let event = any_event(&mut random, is_wide, &state);
            let (outcome, after) = apply(state.clone(), event);
            if outcome.answer == 0 {
                let seen = report_by_witness(&state, event, &after);
                assert_eq!(Some(outcome.report), seen, "seed {seed}, {event:?}");
                let entry = met.entry((kind(&state, event), outcome.report));
                *entry.or_insert(0) += 1;
            } else {
                assert_eq!(outcome.report, 0, "seed {seed}, {event:?}");
            }
            state = after;
        }
    }
    // Every kind gives each report that it can, often, and no other.
    let possible = POSSIBLE
        .iter()
        .flat_map(|&(kind, reports)| reports.iter().map(move |&report| (kind, report)));
    for case in possible {
        let count = met.remove(&case).unwrap_or(0);
        assert!(count >= 200, "{case:?} was met {count} times");
    }
    assert_eq!(met, BTreeMap::new());
}

/// An event for the busy roster, at a reading that mostly goes on.
pub fn random_record(random: &mut Random, index: u64) -> Record {
    let t = random.below(5) as u8;
    match random.below(8) {
        0 | 1 => clock_event(index + random.below(6)),
        2 => release_event(t),
        3 => set_event(t, 8 + random.below(13)),
        _ => STEP,
    }
}

#[test]
fn random_runs_write_0_exactly_where_the_running_byte_stays() {
    let mut met = [0; 3];
    for seed in 0..500 {
        let mut random = Random::new(seed);
        let events: Vec<Record> = (0..100)
            .map(|index| random_record(&mut random, index))
            .collect();
        let commands = decode(&events.concat()).expect("good records");
        let mut run = Run::start(admit(&busy()).expect("it passes"));
        for (reply, command) in replies(&busy(), &events).into_iter().zip(commands) {
            let before = run.running_byte();
            let outcome = run.take(command);
            let taken = (outcome.answer, run.running_byte(), outcome.report);
            assert_eq!(reply, taken, "seed {seed}, {command:?}");
            let stays = before == run.running_byte();
            assert_eq!(reply.2 == 0, stays, "seed {seed}, {command:?}");
            met[usize::from(reply.2)] += 1;
        }
    }
    assert!(met.iter().all(|&count| count > 1000), "{met:?}");
}
