//! The fresh start: its state, and its refusals 13 and 15 with the state beside them.

use crate::support::{fresh, queue};
use second::sound::broken;
use second::state::{self, Place, State, Task};

/// The number of a refused start, having seen that the state beside it is the agreed one.
fn refusal(bases: &[u64], ceilings: &[u64]) -> u8 {
    let (number, state) = state::fresh(bases, ceilings);
    assert_eq!(state, single());
    number
}

/// One running task of base 1 and no objects, written out.
fn single() -> State {
    State {
        now: 0,
        tasks: vec![Task {
            base: 1,
            place: Place::Running,
            permit: false,
            held: vec![],
            waiting: None,
        }],
        ceilings: vec![],
        queues: Default::default(),
        marks: 0,
        running: Some(0),
    }
}

#[test]
fn a_single_task_of_base_1() {
    assert_eq!(fresh(&[1], &[]), single());
}

#[test]
fn the_first_of_the_highest_runs_and_the_rest_wait_in_number_order() {
    let state = fresh(&[5, 32, 5, 32, 1, 32], &[1, 32]);
    assert_eq!(state.running, Some(1));
    assert_eq!(queue(&state, 32), [3, 5]);
    assert_eq!(queue(&state, 5), [0, 2]);
    assert_eq!(queue(&state, 1), [4]);
    assert_eq!(state.queues.iter().flatten().count(), 5);
    assert_eq!((state.now, state.ceilings.clone()), (0, vec![1, 32]));
    assert_eq!(state.tasks[1].place, Place::Running);
    assert_eq!(state.tasks[3].place, Place::Ready);
    assert!(state.tasks.iter().all(|task| !task.permit));
    assert_eq!(broken(&state), [""; 0]);
}

#[test]
fn counts_of_tasks_and_objects() {
    assert_eq!(refusal(&[], &[]), 13);
    assert_eq!(refusal(&[15; 65], &[]), 13);
    assert_eq!(refusal(&[15], &[15; 33]), 13);
    assert_eq!(refusal(&[15; 65], &[15; 33]), 13);
    assert_eq!(fresh(&[15; 64], &[15; 32]).tasks.len(), 64);
    assert_eq!(fresh(&[15; 64], &[15; 32]).ceilings.len(), 32);
    assert_eq!(fresh(&[15], &[]).tasks.len(), 1);
}

#[test]
fn bases_and_ceilings() {
    assert_eq!(refusal(&[10, 0], &[]), 15);
    assert_eq!(refusal(&[10, 33], &[]), 15);
    assert_eq!(refusal(&[10], &[20, 0]), 15);
    assert_eq!(refusal(&[10], &[20, 33]), 15);
    assert_eq!(refusal(&[u64::MAX], &[]), 15);
    assert_eq!(fresh(&[1, 32], &[1, 32]).running, Some(1));
}

#[test]
fn counts_come_before_values() {
    assert_eq!(refusal(&[0; 65], &[]), 13);
    assert_eq!(refusal(&[0], &[20; 33]), 13);
    assert_eq!(refusal(&[], &[33]), 13);
    assert_eq!(refusal(&[0; 64], &[33; 32]), 15);
}
