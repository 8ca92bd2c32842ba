//! The lent board: filling it (10, then 13) and asking it for its next task (13, then 3).

use crate::support::{fresh, play};
use second::board::Kind::{Delayed, Ended, Ready, Running, Suspended};
use second::board::{fill, next, Kind, Row};
use second::machine::Event::{Clock, Delay, Enter, Finish, Release, Suspend};
use second::state::State;

/// A row that no filling writes.
pub const BLANK: Row = row(Ended, 99, 99);

pub const fn row(kind: Kind, priority: u64, position: u64) -> Row {
    Row {
        kind,
        priority,
        position,
    }
}

/// One task of each kind: 4 runs, 3 is a preempted holder, 5 and 6 wait, 0 to 2 are away.
fn mixed() -> State {
    let state = fresh(&[30, 29, 28, 10, 27, 20, 20], &[20]);
    let state = play(
        state,
        &[Delay(9), Suspend, Finish, Suspend, Suspend, Suspend],
    );
    let state = play(state, &[Enter(0), Release(5), Release(6), Release(4)]);
    play(state, &[Clock(8)])
}

#[test]
fn filling_writes_a_row_for_each_task() {
    let mut board = [BLANK; 7];
    assert_eq!(fill(&mixed(), &mut board), 0);
    let expected = [
        row(Delayed, 30, 0),
        row(Suspended, 29, 0),
        row(Ended, 28, 0),
        row(Ready, 20, 0),
        row(Running, 27, 0),
        row(Ready, 20, 1),
        row(Ready, 20, 2),
    ];
    assert_eq!(board, expected);
    assert_eq!(next(&board), Ok(Some(3)));
}

#[test]
fn filling_leaves_the_other_rows() {
    let mut board = [BLANK; 9];
    assert_eq!(fill(&mixed(), &mut board), 0);
    assert_eq!(board[6], row(Ready, 20, 2));
    assert_eq!(board[7..], [BLANK; 2]);
    let mut long = vec![BLANK; 100];
    assert_eq!(fill(&mixed(), &mut long), 0);
    assert_eq!(long[7..], vec![BLANK; 93]);
}

#[test]
fn too_few_rows_are_13() {
    let mut board = [BLANK; 6];
    assert_eq!(fill(&mixed(), &mut board), 13);
    assert_eq!(board, [BLANK; 6]);
    assert_eq!(fill(&fresh(&[10], &[]), &mut []), 13);
}

#[test]
fn an_unsound_state_is_10_also_with_too_few_rows() {
    let mut state = mixed();
    state.running = None;
    let mut board = [BLANK; 7];
    assert_eq!(fill(&state, &mut board), 10);
    assert_eq!(board, [BLANK; 7]);
    assert_eq!(fill(&state, &mut []), 10);
}

#[test]
fn the_full_board_of_64_tasks() {
    let mut board = [BLANK; 64];
    assert_eq!(fill(&fresh(&[7; 64], &[]), &mut board), 0);
    assert_eq!(board[0], row(Running, 7, 0));
    assert_eq!(board[1], row(Ready, 7, 0));
    assert_eq!(board[63], row(Ready, 7, 62));
    assert_eq!(next(&board), Ok(Some(1)));
}

#[test]
fn the_next_is_by_priority_then_position_then_row() {
    let lower = row(Ready, 10, 0);
    assert_eq!(next(&[lower, row(Ready, 11, 5)]), Ok(Some(1)));
    assert_eq!(next(&[row(Ready, 10, 1), lower, lower]), Ok(Some(1)));
    assert_eq!(next(&[lower, lower]), Ok(Some(0)));
    assert_eq!(next(&[row(Ready, 1, 0)]), Ok(Some(0)));
    assert_eq!(next(&[lower, row(Ready, 32, u64::MAX)]), Ok(Some(1)));
}

#[test]
fn rows_that_are_not_ready_are_passed_over() {
    let others = [Running, Delayed, Suspended, Ended].map(|kind| row(kind, 32, 0));
    assert_eq!(next(&others), Ok(None));
    let mut rows = others.to_vec();
    rows.push(row(Ready, 1, 7));
    assert_eq!(next(&rows), Ok(Some(4)));
}

#[test]
fn no_rows_are_nobody() {
    assert_eq!(next(&[]), Ok(None));
}

#[test]
fn more_than_64_rows_are_13() {
    assert_eq!(next(&[row(Ready, 10, 0); 64]), Ok(Some(0)));
    assert_eq!(next(&[row(Ready, 10, 0); 65]), Err(13));
    assert_eq!(next(&[row(Ready, 0, 0); 65]), Err(13));
    assert_eq!(next(&[row(Ready, 0, 0); 64]), Err(3));
}

#[test]
fn a_priority_out_of_range_in_any_row_is_3() {
    for priority in [0, 33, u64::MAX] {
        for kind in [Running, Ready, Delayed, Suspended, Ended] {
            let rows = [row(Ready, 10, 0), row(kind, priority, 0)];
            assert_eq!(next(&rows), Err(3));
        }
    }
}
