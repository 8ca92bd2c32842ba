//! The lent board: filling it from a state, and asking it for its next task.

use std::cmp::Reverse;

use crate::answer;
use crate::limits::{MAX_ROWS, PRIORITIES};
use crate::sound;
use crate::state::{Place, State};

/// The kind of place a task is in.
#[derive(Clone, Copy, Debug, PartialEq, Eq)]
pub enum Kind {
    Running,
    Ready,
    Delayed,
    Suspended,
    Ended,
}

/// One row for one task; the position is 0 at the head of a queue, and 0 if not ready.
#[derive(Clone, Copy, Debug, PartialEq, Eq)]
pub struct Row {
    pub kind: Kind,
    pub priority: u64,
    pub position: u64,
}

/// Writes the first rows, one per task, and answers 0; or answers 10, then 13, writing nothing.
pub fn fill(state: &State, board: &mut [Row]) -> u8 {
    if !sound::is_sound(state) {
        return answer::UNSOUND;
    }
    let Some(rows) = board.get_mut(..state.tasks.len()) else {
        return answer::COUNTS;
    };
    for (t, row) in rows.iter_mut().enumerate() {
        *row = row_of(state, t);
    }
    answer::DONE
}

fn row_of(state: &State, t: usize) -> Row {
    let task = &state.tasks[t];
    let priority = task.active(&state.ceilings);
    let kind = match task.place {
        Place::Running => Kind::Running,
        Place::Ready => Kind::Ready,
        Place::Delayed { .. } => Kind::Delayed,
        Place::Suspended => Kind::Suspended,
        Place::Ended => Kind::Ended,
    };
    // In a sound state only a ready task stands in a queue.
    let queue = state.queue(priority);
    let position = queue.and_then(|queue| queue.iter().position(|&other| other == t));
    Row {
        kind,
        priority,
        position: position.unwrap_or(0) as u64,
    }
}

/// The row to run next: among ready rows the highest priority, then the lowest position, then
/// the lowest row; or nobody. Refused with 13, then 3.
pub fn next(rows: &[Row]) -> Result<Option<usize>, u8> {
    if rows.len() > MAX_ROWS {
        return Err(answer::COUNTS);
    }
    if rows.iter().any(|row| !PRIORITIES.contains(&row.priority)) {
        return Err(answer::BAD_PRIORITY);
    }
    let ready = rows
        .iter()
        .enumerate()
        .filter(|(_, row)| row.kind == Kind::Ready);
    let best = ready.min_by_key(|&(index, row)| (Reverse(row.priority), row.position, index));
    Ok(best.map(|(index, _)| index))
}
