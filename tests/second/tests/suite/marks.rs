//! Request 2026-02: the state keeps a word of marks, a mark on exactly when its queue is nonempty.

use std::collections::{BTreeMap, VecDeque};
use std::fmt::Debug;

use crate::board::BLANK;
use crate::leaps::busy;
use crate::random::{any_event, any_fresh, scramble};
use crate::reports::{kind, random_record};
use crate::support::{fresh, play, queue, reckoned, refused, Random, LARGEST};
use second::board::{fill, next};
use second::machine::apply;
use second::machine::Event::{
    self, Clock, Delay, Enter, Finish, Leave, Release, Set, Suspend, Work,
};
use second::roster::admit;
use second::run::{decode, Command, Run};
use second::sound::{broken, is_sound, CLAUSES};
use second::state::{self, marks_of, State};

/// The word with the marks of exactly these priorities on.
fn word(priorities: &[u64]) -> u32 {
    priorities.iter().map(|&p| 2u32.pow(p as u32 - 1)).sum()
}

/// The priorities whose marks are on, the highest first, each found by counting zeros.
fn marked(mut word: u32) -> Vec<u64> {
    let mut priorities = Vec::new();
    while word != 0 {
        let priority = 32 - word.leading_zeros();
        priorities.push(u64::from(priority));
        word -= 2u32.pow(priority - 1);
    }
    priorities
}

/// The priorities whose queues are not empty, the highest first.
fn nonempty(state: &State) -> Vec<u64> {
    let priorities = (1..=32).rev();
    priorities
        .filter(|&p| !queue(state, p).is_empty())
        .collect()
}

/// The same state with another word.
fn with_marks(marks: u32, state: &State) -> State {
    let state = state.clone();
    State { marks, ..state }
}

/// An event, its answer, and the priorities marked after it.
type Answered<'a> = (Event, u8, &'a [u64]);

/// An event that is accepted, and the priorities marked after it.
type Accepted<'a> = (Event, &'a [u64]);

/// Sees the marks at the start, and the answer and the marks of each event.
#[track_caller]
fn answers_and_marks_are(mut state: State, first: &[u64], then: &[Answered]) {
    assert_eq!(state.marks, word(first), "at the start");
    for &(event, answer, priorities) in then {
        let (outcome, after) = apply(state, event);
        assert_eq!(outcome.answer, answer, "{event:?}");
        assert_eq!(after.marks, word(priorities), "{event:?}");
        assert_eq!(broken(&after), [""; 0], "{event:?}");
        state = after;
    }
}

#[track_caller]
fn marks_are(state: State, first: &[u64], then: &[Accepted]) {
    let then: Vec<Answered> = then
        .iter()
        .map(|&(event, marks)| (event, 0, marks))
        .collect();
    answers_and_marks_are(state, first, &then);
}

// The word.

#[test]
fn the_mark_of_a_priority_is_the_bit_one_below_it() {
    assert_eq!((word(&[]), marked(0)), (0, vec![]));
    assert_eq!((word(&[1]), marked(1)), (1, vec![1]));
    assert_eq!((word(&[32]), marked(0x8000_0000)), (0x8000_0000, vec![32]));
    assert_eq!(
        (word(&[10, 20]), marked(0x0008_0200)),
        (0x0008_0200, vec![20, 10])
    );
    assert_eq!(fresh(&[20, 20, 10, 1], &[]).marks, 0x0008_0201);
    assert_eq!(fresh(&[32, 32, 31, 2], &[]).marks, 0xC000_0002);
}

#[test]
fn the_word_of_queues_written_down() {
    let mut all: [VecDeque<usize>; 32] = Default::default();
    assert_eq!(marks_of(&all), 0);
    for p in 1..=32 {
        let index = p as usize - 1;
        let mut one: [VecDeque<usize>; 32] = Default::default();
        // A longer queue has one mark too, and so has a queue of numbers of no task.
        for t in [0, 7, usize::MAX] {
            one[index].push_back(t);
            assert_eq!(marks_of(&one), word(&[p]), "queue {p}");
        }
        all[index].push_back(0);
        assert_eq!(marks_of(&all), u32::MAX >> (32 - p), "queues 1 to {p}");
    }
}

#[test]
fn there_is_one_clause_more_and_it_is_the_last() {
    assert_eq!(CLAUSES.len(), 15);
    assert_eq!(CLAUSES[14].name, "marks_wrong");
    let named = |clause: &&second::sound::Clause| clause.name.contains("marks");
    assert_eq!(CLAUSES.iter().filter(named).count(), 1);
}

// The fresh start.

#[test]
fn a_fresh_start_marks_the_queues_in_which_a_task_waits() {
    for p in 1..=32 {
        assert_eq!(fresh(&[p], &[]).marks, 0, "base {p}");
        assert_eq!(fresh(&[p; 2], &[33 - p]).marks, word(&[p]), "base {p}");
        assert_eq!(fresh(&[p; 64], &[]).marks, word(&[p]), "base {p}");
    }
    let each: Vec<u64> = (1..=32).collect();
    assert_eq!(fresh(&each.repeat(2), &[]).marks, 0xFFFF_FFFF);
    assert_eq!(fresh(&each, &[]).marks, 0x7FFF_FFFF);
    assert_eq!(fresh(&each[..31], &[]).marks, 0x3FFF_FFFF);
    assert_eq!(fresh(&each[..2], &[]).marks, 1);
    assert_eq!(
        fresh(&[5, 32, 5, 32, 1, 32], &[1, 32]).marks,
        word(&[32, 5, 1])
    );
}

#[test]
fn beside_a_refused_start_no_mark_is_on() {
    let starts: [(u8, &[u64], &[u64]); 5] = [
        (13, &[], &[]),
        (13, &[15; 65], &[]),
        (13, &[15, 15], &[15; 33]),
        (15, &[10, 10, 0], &[]),
        (15, &[10, 10, 5], &[33]),
    ];
    for (number, bases, ceilings) in starts {
        let (given, state) = state::fresh(bases, ceilings);
        assert_eq!((given, state.marks), (number, 0), "{bases:?}, {ceilings:?}");
        assert_eq!(broken(&state), [""; 0]);
    }
}

// The marked cases, C as request 2026-04 mends it.

/// Sees that a task alone is never ready after an event, each given with its answer.
#[track_caller]
fn alone_without_marks(then: &[(Event, u8)]) {
    let then: Vec<Answered> = then
        .iter()
        .map(|&(event, answer)| (event, answer, &[][..]))
        .collect();
    answers_and_marks_are(fresh(&[10], &[20, 20]), &[], &then);
}

#[test]
fn the_marked_cases() {
    let seen = answers_and_marks_are;
    let ten: &[u64] = &[10];
    let a = fresh(&[10, 20, 10], &[]);
    seen(a.clone(), ten, &[]);
    // B and C.
    seen(a.clone(), ten, &[(Set(1, 10), 0, ten)]);
    seen(a, ten, &[(Set(0, 10), 0, ten)]);
    // D.
    seen(
        fresh(&[20], &[20, 19]),
        &[],
        &[(Enter(1), 8, &[]), (Enter(0), 0, &[])],
    );
    // E.
    seen(fresh(&[10, 10], &[]), ten, &[(Delay(0), 0, ten)]);
    // F, G, H, J and L.
    alone_without_marks(&[(Delay(5), 0), (Clock(4), 0), (Clock(5), 0)]);
    alone_without_marks(&[(Clock(7), 0), (Clock(7), 0), (Clock(6), 4)]);
    alone_without_marks(&[(Enter(0), 0), (Delay(0), 7)]);
    alone_without_marks(&[(Enter(0), 0), (Enter(1), 0), (Leave(0), 9)]);
    alone_without_marks(&[(Set(0, 32), 0), (Set(0, 33), 3), (Set(0, 0), 3)]);
    // I and K.
    let two = fresh(&[10, 10], &[20]);
    seen(two.clone(), ten, &[(Release(0), 0, ten), (Suspend, 0, ten)]);
    seen(
        two,
        ten,
        &[(Enter(0), 0, ten), (Set(0, 10), 0, ten), (Leave(0), 0, ten)],
    );
}

#[test]
fn the_marked_cases_of_a_task_alone_with_a_lower_one_ready() {
    let below = fresh(&[10, 3], &[20, 20]);
    let three: &[u64] = &[3];
    // F: the lower task runs meanwhile.
    marks_are(
        below.clone(),
        three,
        &[(Delay(5), &[]), (Clock(4), &[]), (Clock(5), three)],
    );
    // G, H, J and L.
    let seen = answers_and_marks_are;
    seen(
        below.clone(),
        three,
        &[(Clock(7), 0, three), (Clock(6), 4, three)],
    );
    seen(
        below.clone(),
        three,
        &[(Enter(0), 0, three), (Delay(0), 7, three)],
    );
    seen(
        below.clone(),
        three,
        &[
            (Enter(0), 0, three),
            (Enter(1), 0, three),
            (Leave(0), 9, three),
        ],
    );
    seen(
        below,
        three,
        &[(Set(0, 32), 0, three), (Set(0, 33), 3, three)],
    );
}

// What each movement does to the marks.

#[test]
fn at_every_priority_a_mark_goes_on_with_the_first_and_off_with_the_last() {
    for p in 1..=32 {
        let one: &[u64] = &[p];
        // 0 runs when 1 and 2 are away; they come back, run out, and 0 wakes.
        let then: [Accepted; 9] = [
            (Delay(0), one),
            (Suspend, one),
            (Suspend, &[]),
            (Release(1), one),
            (Release(2), one),
            (Delay(2), one),
            (Finish, &[]),
            (Clock(1), &[]),
            (Clock(2), one),
        ];
        marks_are(fresh(&[p; 3], &[]), one, &then);
    }
}

#[test]
fn a_preempted_task_turns_its_mark_on() {
    // By Release, and by Clock.
    let state = fresh(&[10, 20], &[]);
    marks_are(state.clone(), &[10], &[(Suspend, &[]), (Release(1), &[10])]);
    marks_are(state, &[10], &[(Delay(5), &[]), (Clock(5), &[10])]);
    // With an equal in its queue the mark is on already.
    let state = fresh(&[10, 10, 20], &[]);
    marks_are(state, &[10], &[(Suspend, &[10]), (Release(2), &[10])]);
}

#[test]
fn a_preempted_holder_is_marked_at_its_active_priority() {
    let then: [Accepted; 5] = [
        (Suspend, &[]),
        (Enter(0), &[]),
        (Release(1), &[20]),
        (Suspend, &[]),
        (Leave(0), &[]),
    ];
    marks_are(fresh(&[10, 25], &[20]), &[10], &then);
}

#[test]
fn a_leave_that_lets_a_higher_task_in_moves_the_mark() {
    let then: [Accepted; 4] = [
        (Delay(3), &[]),
        (Enter(0), &[]),
        (Clock(3), &[15]),
        (Leave(0), &[10]),
    ];
    marks_are(fresh(&[10, 15], &[20]), &[10], &then);
    // Of an inner object: the task is at the outer ceiling then.
    let then: [Accepted; 5] = [
        (Delay(1), &[]),
        (Enter(0), &[]),
        (Enter(1), &[]),
        (Clock(1), &[25]),
        (Leave(1), &[20]),
    ];
    marks_are(fresh(&[10, 25], &[20, 30]), &[10], &then);
}

#[test]
fn a_leave_with_a_waiting_base_marks_the_queue_it_leads_to() {
    let state = play(fresh(&[10, 8], &[20]), &[Enter(0)]);
    // Below 8, behind 8, and picked again.
    marks_are(state.clone(), &[8], &[(Set(0, 5), &[8]), (Leave(0), &[5])]);
    marks_are(state.clone(), &[8], &[(Set(0, 8), &[8]), (Leave(0), &[8])]);
    marks_are(state.clone(), &[8], &[(Set(0, 9), &[8]), (Leave(0), &[8])]);
    marks_are(state, &[8], &[(Set(0, 32), &[8]), (Leave(0), &[8])]);
    // Two tasks wait at 8, so that one stays there.
    let state = play(fresh(&[10, 8, 8], &[20]), &[Enter(0)]);
    marks_are(state, &[8], &[(Set(0, 5), &[8]), (Leave(0), &[8, 5])]);
}

#[test]
fn a_set_that_waits_moves_no_mark() {
    let then: [Accepted; 6] = [
        (Suspend, &[]),
        (Enter(0), &[]),
        (Release(1), &[20]),
        (Set(0, 3), &[20]),
        (Suspend, &[]),
        (Leave(0), &[]),
    ];
    marks_are(fresh(&[10, 25], &[20]), &[10], &then);
}

#[test]
fn delay_0_moves_no_mark() {
    marks_are(fresh(&[10], &[]), &[], &[(Delay(0), &[])]);
    marks_are(fresh(&[10, 9], &[]), &[9], &[(Delay(0), &[9])]);
    let again: Accepted = (Delay(0), &[10]);
    marks_are(fresh(&[10, 10], &[]), &[10], &[again; 3]);
    let again: Accepted = (Delay(0), &[10, 9]);
    marks_are(fresh(&[10, 10, 9], &[]), &[10, 9], &[again; 3]);
}

#[test]
fn the_last_task_picked_from_a_queue_turns_its_mark_off() {
    for event in [Delay(5), Suspend, Finish] {
        let then: [Accepted; 4] = [(event, &[10, 5]), (event, &[5]), (event, &[]), (event, &[])];
        marks_are(fresh(&[20, 10, 10, 5], &[]), &[10, 5], &then);
    }
    let then: [Accepted; 4] = [(Finish, &[1]), (Finish, &[1]), (Finish, &[]), (Finish, &[])];
    marks_are(fresh(&[32, 32, 1, 1], &[]), &[32, 1], &then);
}

#[test]
fn enter_work_and_permits_move_no_mark() {
    let then: [Accepted; 8] = [
        (Work, &[10]),
        (Release(0), &[10]),
        (Release(1), &[10]),
        (Suspend, &[10]),
        (Enter(0), &[10]),
        (Enter(1), &[10]),
        (Leave(1), &[10]),
        (Leave(0), &[10]),
    ];
    marks_are(fresh(&[10, 10], &[10, 32]), &[10], &then);
}

#[test]
fn a_released_task_turns_its_mark_on() {
    let then: [Accepted; 7] = [
        (Suspend, &[10, 5]),
        (Suspend, &[5]),
        (Suspend, &[]),
        (Release(0), &[5]),
        (Release(1), &[10, 5]),
        (Release(2), &[10, 5]),
        (Finish, &[10, 5]),
    ];
    marks_are(fresh(&[20, 10, 10, 5], &[]), &[10, 5], &then);
}

#[test]
fn woken_tasks_turn_their_marks_on() {
    let then: [Accepted; 6] = [
        (Delay(3), &[20, 10]),
        (Delay(1), &[10]),
        (Delay(2), &[]),
        // 1 and 3 wake, and 1 runs in place of 0.
        (Clock(2), &[20, 10]),
        // 2 runs in place of 1.
        (Clock(3), &[20, 10]),
        (Clock(3), &[20, 10]),
    ];
    marks_are(fresh(&[10, 20, 30, 20], &[]), &[20, 10], &then);
    // Where nobody runs, one of the woken tasks does.
    let then: [Accepted; 5] = [
        (Delay(5), &[10]),
        (Delay(5), &[]),
        (Delay(5), &[]),
        (Clock(4), &[]),
        (Clock(5), &[20, 10]),
    ];
    marks_are(fresh(&[10, 20, 20], &[]), &[20, 10], &then);
}

#[test]
fn a_set_of_a_ready_task_moves_its_mark() {
    let then: [Accepted; 8] = [
        (Set(1, 7), &[10, 7, 5]),
        (Set(2, 7), &[7, 5]),
        (Set(3, 5), &[7, 5]),
        (Set(3, 1), &[7, 1]),
        (Set(3, 20), &[20, 7]),
        // 3 runs, and 0 is preempted; then the other way round.
        (Set(3, 21), &[20, 7]),
        (Set(0, 32), &[21, 7]),
        (Set(1, 31), &[31, 21, 7]),
    ];
    marks_are(fresh(&[20, 10, 10, 5], &[]), &[10, 5], &then);
}

#[test]
fn a_set_of_the_running_task_marks_the_queue_it_is_sent_to() {
    let then: [Accepted; 5] = [
        // 1 runs, and 2 is left at 15.
        (Set(0, 14), &[15, 14]),
        // 2 runs.
        (Set(1, 13), &[14, 13]),
        (Set(2, 32), &[14, 13]),
        // 0 runs, and 2 stands where it stood.
        (Set(2, 14), &[14, 13]),
        (Set(0, 1), &[13, 1]),
    ];
    marks_are(fresh(&[20, 15, 15], &[]), &[15], &then);
}

#[test]
fn a_blocked_task_is_marked_at_its_new_base_when_it_is_back() {
    let then: [Accepted; 6] = [
        (Suspend, &[10]),
        (Delay(5), &[]),
        (Set(2, 5), &[]),
        (Set(1, 6), &[]),
        (Release(2), &[5]),
        (Clock(5), &[6, 5]),
    ];
    marks_are(fresh(&[10, 20, 25], &[]), &[20, 10], &then);
}

// Wrong marks.

/// Every kind of event, those that a sound state takes and those that it refuses.
const EVENTS: [Event; 18] = [
    Enter(0),
    Enter(99),
    Leave(0),
    Leave(99),
    Delay(0),
    Delay(1),
    Delay(65535),
    Suspend,
    Release(0),
    Release(99),
    Clock(0),
    Clock(9),
    Clock(LARGEST + 1),
    Set(0, 10),
    Set(0, 33),
    Set(99, 0),
    Work,
    Finish,
];

/// Sees that every call refuses a state with 10 and leaves it, its marks and the board alone.
#[track_caller]
pub fn is_refused(state: &State) {
    assert!(!is_sound(state));
    for event in EVENTS {
        let given = apply(state.clone(), event);
        assert_eq!(given, (refused(10), state.clone()), "{event:?}");
    }
    for rows in [0, state.tasks.len(), 70] {
        let mut board = vec![BLANK; rows];
        assert_eq!(fill(state, &mut board), 10, "{rows} rows");
        assert_eq!(board, vec![BLANK; rows]);
    }
}

/// Sees that a sound state with this word instead is refused, the word being its only damage.
#[track_caller]
fn is_damage(marks: u32, state: &State) {
    assert_eq!(broken(state), [""; 0]);
    let damaged = with_marks(marks, state);
    assert_eq!(
        broken(&damaged),
        ["marks_wrong"],
        "{marks:032b}, {:?}",
        nonempty(state)
    );
    is_refused(&damaged);
}

/// A task runs, and another one is ready at each of these priorities.
fn crowd(priorities: impl Iterator<Item = u64>) -> State {
    let bases: Vec<u64> = [32].into_iter().chain(priorities).collect();
    fresh(&bases, &[32])
}

/// Every ready queue has a task, as there can be more tasks than priorities.
fn full_crowd() -> State {
    crowd(1..=32)
}

/// Every ready queue has a task but that for this priority.
fn crowd_without(p: u64) -> State {
    crowd((1..=32).filter(|&other| other != p))
}

#[test]
fn a_mark_too_many() {
    for p in 1..=32 {
        let other = if p == 10 { 11 } else { 10 };
        let others: Vec<u64> = (1..=32).filter(|&other| other != p).collect();
        let alone = fresh(&[p], &[32]);
        let states = [
            fresh(&[other; 2], &[32]),
            fresh(&others, &[]),
            crowd_without(p),
            // Nobody is ready, and in the first three nobody runs either.
            play(alone.clone(), &[Suspend]),
            play(alone.clone(), &[Delay(5)]),
            play(alone.clone(), &[Finish]),
            play(alone.clone(), &[Enter(0)]),
            alone,
        ];
        for state in states {
            assert_eq!(queue(&state, p), []);
            is_damage(state.marks + word(&[p]), &state);
        }
    }
}

#[test]
fn a_mark_too_few() {
    for p in 1..=32 {
        let states = [
            fresh(&[p; 2], &[]),
            fresh(&[p; 64], &[]),
            full_crowd(),
            // Task 0 is away, and 1 runs inside an object.
            play(fresh(&[p; 3], &[32]), &[Suspend, Enter(0)]),
        ];
        for state in states {
            assert_ne!(queue(&state, p), []);
            is_damage(state.marks - word(&[p]), &state);
        }
    }
}

#[test]
fn a_mark_in_the_place_of_another() {
    for p in 1..=32 {
        let state = fresh(&[p; 2], &[]);
        for q in (1..=32).filter(|&q| q != p) {
            is_damage(word(&[q]), &state);
        }
    }
    // By the base, where the queue is that of the active priority.
    let state = play(fresh(&[10, 25], &[20]), &[Suspend, Enter(0), Release(1)]);
    assert_eq!(state.marks, word(&[20]));
    is_damage(word(&[10]), &state);
    is_damage(word(&[20, 10]), &state);
    // The mark of the running task's priority, whose queue is empty.
    is_damage(word(&[25, 20]), &state);
}

#[test]
fn all_marks_off() {
    for p in 1..=32 {
        is_damage(0, &fresh(&[p; 2], &[]));
        is_damage(0, &crowd_without(p));
        let nobody_ready = fresh(&[p], &[]);
        assert_eq!(nobody_ready, with_marks(0, &nobody_ready));
        assert!(is_sound(&nobody_ready));
    }
}

#[test]
fn all_marks_on() {
    // It is the right word where every queue has a task.
    assert_eq!(full_crowd().marks, u32::MAX);
    assert!(is_sound(&full_crowd()));
    is_damage(0, &full_crowd());
    for p in 1..=32 {
        is_damage(u32::MAX, &fresh(&[p], &[]));
        is_damage(u32::MAX, &fresh(&[p; 2], &[]));
        is_damage(u32::MAX, &crowd_without(p));
        assert_eq!(crowd_without(p).marks.count_ones(), 31);
    }
}

#[test]
fn the_word_in_another_order() {
    for p in 1..=32 {
        let state = fresh(&[p; 2], &[]);
        is_damage(state.marks.reverse_bits(), &state);
        is_damage(state.marks.rotate_left(1), &state);
        is_damage(state.marks.rotate_right(1), &state);
        is_damage(!state.marks, &state);
    }
}

#[test]
fn the_marks_of_another_sound_state() {
    let states = [
        fresh(&[10], &[20]),
        fresh(&[10, 10], &[20]),
        fresh(&[10, 10, 10], &[20]),
        fresh(&[10, 20], &[20]),
        fresh(&[10, 20, 20], &[20]),
        fresh(&[30, 20, 10], &[20]),
        play(fresh(&[10, 20], &[20]), &[Suspend]),
        play(fresh(&[10, 25], &[20]), &[Suspend, Enter(0), Release(1)]),
        crowd_without(1),
        crowd_without(32),
        full_crowd(),
    ];
    let (mut same, mut other) = (0, 0);
    for (a, state) in states.iter().enumerate() {
        for (b, lender) in states.iter().enumerate().filter(|&(b, _)| a != b) {
            if nonempty(state) == nonempty(lender) {
                assert_eq!(
                    broken(&with_marks(lender.marks, state)),
                    [""; 0],
                    "{a}, {b}"
                );
                same += 1;
            } else {
                is_damage(lender.marks, state);
                other += 1;
            }
        }
    }
    assert!(same > 5 && other > 50, "{same} the same, {other} not");
}

#[test]
fn wrong_marks_beside_other_damage() {
    let mut late = fresh(&[10, 10], &[20]);
    late.now = LARGEST + 1;
    assert_eq!(broken(&late), ["number_out_of_range"]);
    let mut idle = fresh(&[10, 10], &[20]);
    idle.running = None;
    assert_eq!(
        broken(&idle),
        ["task_in_no_place", "nobody_running_while_ready"]
    );
    for state in [late, idle] {
        for marks in [0, word(&[9]), word(&[11, 10]), u32::MAX] {
            let damaged = with_marks(marks, &state);
            let expected = [broken(&state), vec!["marks_wrong"]].concat();
            assert_eq!(broken(&damaged), expected);
            is_refused(&damaged);
        }
    }
}

#[test]
fn a_queue_changed_without_its_mark() {
    // What the marks say is no longer so; the first clause broken is about the queue itself.
    let mut emptied = fresh(&[10, 10], &[]);
    emptied.queues[9].clear();
    assert_eq!(broken(&emptied), ["task_in_no_place", "marks_wrong"]);
    is_refused(&emptied);
    let mut filled = fresh(&[10], &[]);
    filled.queues[9].push_back(0);
    assert_eq!(broken(&filled), ["task_in_two_places", "marks_wrong"]);
    is_refused(&filled);
}

#[test]
fn wrong_marks_in_a_run() {
    let commands = [
        Command::Step,
        Command::Clock(5),
        Command::Clock(LARGEST),
        Command::Release(0),
        Command::Release(9),
        Command::Set(0, 12),
        Command::Set(0, 0),
    ];
    let start = Run::start(admit(&busy()).expect("it passes"));
    assert_eq!(start.state.marks, word(&[15, 10]));
    for p in 1..=32 {
        let mut run = start.clone();
        run.state.marks ^= word(&[p]);
        let before = run.clone();
        for command in commands {
            assert_eq!(run.take(command), refused(10), "priority {p}, {command:?}");
            assert_eq!(run, before, "priority {p}, {command:?}");
        }
        // With the right word the run goes on from there.
        run.state.marks ^= word(&[p]);
        assert_eq!(run.take(Command::Step).answer, 0, "priority {p}");
    }
}

// Random histories.

/// Sees that the word is bit for bit what the queues say, and that counting zeros finds the queue
/// that a search finds.
#[track_caller]
fn marks_are_right(state: &State, seed: u64, after: impl Debug) {
    assert_eq!(state.marks, reckoned(state), "seed {seed}, {after:?}");
    let marked = marked(state.marks);
    assert_eq!(marked, nonempty(state), "seed {seed}, {after:?}");
    let highest = marked.first().copied();
    assert_eq!(highest, state.highest_ready(), "seed {seed}, {after:?}");
}

/// The kinds of accepted events that turn marks on and off, by the rules; the others turn none.
const POSSIBLE: [(&str, bool); 11] = [
    ("Leave", true),
    ("Leave", false),
    // The next task is picked and nobody joins a queue.
    ("Delay above 0", false),
    ("Suspend without a permit", false),
    ("Finish", false),
    // Who joins a queue above the running task's joins an empty one, and is picked.
    ("Release", true),
    ("Clock", true),
    ("Set on the running task", true),
    ("Set on the running task", false),
    ("Set on another task", true),
    ("Set on another task", false),
];

#[test]
fn random_histories_keep_the_word_right() {
    let mut met: BTreeMap<(&str, bool), u32> = BTreeMap::new();
    let mut turned = [[0; 32]; 2];
    let mut answers = [0; 11];
    for seed in 0..4000 {
        let mut random = Random::new(seed);
        let is_wide = seed % 2 == 0;
        let mut state = any_fresh(&mut random, is_wide);
        marks_are_right(&state, seed, "the fresh start");
        for _ in 0..60 {
            let event = any_event(&mut random, is_wide, &state);
            let (outcome, after) = apply(state.clone(), event);
            marks_are_right(&after, seed, event);
            if outcome.answer != 0 {
                assert_eq!(after, state, "seed {seed}, {event:?}");
            }
            answers[usize::from(outcome.answer)] += 1;
            for p in marked(state.marks ^ after.marks) {
                let is_on = queue(&state, p).is_empty();
                *met.entry((kind(&state, event), is_on)).or_insert(0) += 1;
                turned[usize::from(is_on)][p as usize - 1] += 1;
            }
            state = after;
        }
    }
    // Every kind turns marks on and off as it can, often, and not otherwise.
    for case in POSSIBLE {
        let count = met.remove(&case).unwrap_or(0);
        assert!(count >= 200, "{case:?} was met {count} times");
    }
    assert_eq!(met, BTreeMap::new());
    let mut counts = turned.iter().flatten();
    assert!(counts.all(|&count: &u32| count >= 200), "{turned:?}");
    assert!(answers[..10].iter().all(|&count| count > 0), "{answers:?}");
    assert_eq!(answers[10], 0);
}

#[test]
fn counting_zeros_finds_the_queue_of_the_next_on_the_board() {
    let mut met = [0; 2];
    for seed in 0..1000 {
        let mut random = Random::new(seed);
        let is_wide = seed % 2 == 0;
        let mut state = any_fresh(&mut random, is_wide);
        for _ in 0..40 {
            let event = any_event(&mut random, is_wide, &state);
            state = apply(state, event).1;
            let mut board = vec![BLANK; state.tasks.len()];
            assert_eq!(fill(&state, &mut board), 0, "seed {seed}, {event:?}");
            let Ok(next) = next(&board) else {
                panic!("seed {seed}, {event:?}");
            };
            let priority = next.map_or(0, |row| board[row].priority);
            let zeros = u64::from(state.marks.leading_zeros());
            assert_eq!(32 - zeros, priority, "seed {seed}, {event:?}");
            met[usize::from(next.is_some())] += 1;
        }
    }
    assert!(met.iter().all(|&count| count > 1000), "{met:?}");
}

#[test]
fn random_runs_keep_the_word_right() {
    let (mut changed, mut not_taken) = (0, 0);
    for seed in 0..500 {
        let mut random = Random::new(seed);
        let mut run = Run::start(admit(&busy()).expect("it passes"));
        for index in 0..100 {
            let record = random_record(&mut random, index);
            let command = decode(&record).expect("a good record")[0];
            let before = run.state.clone();
            let outcome = run.take(command);
            marks_are_right(&run.state, seed, command);
            if outcome.answer != 0 {
                assert_eq!(run.state, before, "seed {seed}, {command:?}");
                not_taken += 1;
            }
            changed += u32::from(run.state.marks != before.marks);
        }
    }
    assert!(
        changed > 1000 && not_taken > 1000,
        "{changed} changed, {not_taken} refused"
    );
}

#[test]
fn random_words_are_sound_only_where_they_are_right() {
    let mut wrong = 0;
    for seed in 0..4000 {
        let mut random = Random::new(seed);
        let is_wide = seed % 2 == 0;
        let mut state = any_fresh(&mut random, is_wide);
        for _ in 0..random.below(30) {
            let event = any_event(&mut random, is_wide, &state);
            let (_, after) = apply(state.clone(), event);
            // The word from before the event, as if it had been forgotten.
            let stale = with_marks(state.marks, &after);
            let expected = if stale == after {
                vec![]
            } else {
                vec!["marks_wrong"]
            };
            assert_eq!(broken(&stale), expected, "seed {seed}, {event:?}");
            state = after;
        }
        let flips = match random.below(3) {
            0 => word(&[1 + random.below(32)]),
            1 => word(&[1 + random.below(16), 17 + random.below(16)]),
            _ => random.below(1 << 32) as u32,
        };
        let damaged = with_marks(state.marks ^ flips, &state);
        if flips != 0 {
            assert_eq!(
                broken(&damaged),
                ["marks_wrong"],
                "seed {seed}, {flips:032b}"
            );
            let event = any_event(&mut random, is_wide, &state);
            let given = apply(damaged.clone(), event);
            assert_eq!(given, (refused(10), damaged), "seed {seed}, {event:?}");
            wrong += 1;
        }
    }
    assert!(wrong > 3000, "{wrong} wrong");
}

#[test]
fn scrambled_states_with_wrong_marks_break_one_clause_more() {
    let mut met = [0; 2];
    for seed in 0..8000 {
        let mut random = Random::new(seed);
        let is_wide = seed % 2 == 0;
        let mut state = any_fresh(&mut random, is_wide);
        for _ in 0..random.below(20) {
            let event = any_event(&mut random, is_wide, &state);
            state = apply(state, event).1;
        }
        for _ in 0..random.below(3) {
            scramble(&mut random, &mut state);
        }
        let before = broken(&state);
        assert!(!before.contains(&"marks_wrong"), "seed {seed}");
        met[usize::from(before.is_empty())] += 1;
        let damaged = with_marks(state.marks ^ word(&[1 + random.below(32)]), &state);
        let expected = [before, vec!["marks_wrong"]].concat();
        assert_eq!(broken(&damaged), expected, "seed {seed}");
        let event = any_event(&mut random, is_wide, &fresh(&[10], &[20]));
        let given = apply(damaged.clone(), event);
        assert_eq!(
            given,
            (refused(10), damaged.clone()),
            "seed {seed}, {event:?}"
        );
        assert_eq!(fill(&damaged, &mut [BLANK; 70]), 10, "seed {seed}");
    }
    assert!(met.iter().all(|&count| count > 1000), "{met:?}");
}
