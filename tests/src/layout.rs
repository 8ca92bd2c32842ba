//! A state and a board as bytes, written from the documented layout: to make states for the exported functions, and to read them.

use second::board::{Kind, Row};
use second::limits::QUEUES;
use second::state::{Place, State, Task};

use crate::sizes::{MOST_OBJECTS, MOST_TASKS};

/// Where the parts of a state begin, and how many bytes a row has; the rows of a list begin with its length.
pub const RUNNING: usize = 8;
pub const TASK_COUNT: usize = 9;
pub const OBJECT_COUNT: usize = 10;
pub const MARKS: usize = 12;
pub const TASKS: usize = MARKS + 4;
pub const TASK_ROW: usize = 16;
pub const CEILINGS: usize = TASKS + TASK_ROW * MOST_TASKS;
pub const HELD: usize = CEILINGS + MOST_OBJECTS;
pub const HELD_ROW: usize = 1 + MOST_OBJECTS;
pub const READY: usize = HELD + HELD_ROW * MOST_TASKS;
pub const READY_ROW: usize = 1 + MOST_TASKS;
pub const STATE_SIZE: usize = READY + READY_ROW * QUEUES;
pub const ROW_SIZE: usize = 3;

const NOBODY: u8 = 255;

fn kind_of(place: Place) -> u8 {
    match place {
        Place::Running => 0,
        Place::Ready => 1,
        Place::Delayed { .. } => 2,
        Place::Suspended => 3,
        Place::Ended => 4,
    }
}

/// A number as a byte; what is too large for one stays out of every range.
fn byte(n: u64) -> u8 {
    n.min(254) as u8
}

fn put_list(row: &mut [u8], list: impl ExactSizeIterator<Item = usize>) {
    row[0] = list.len() as u8;
    for (cell, n) in row[1..].iter_mut().zip(list) {
        *cell = byte(n as u64);
    }
}

/// The bytes of a state of no more tasks and objects than there can be; rows of tasks that are not there are ended, and all else 0.
pub fn bytes_of(state: &State) -> Vec<u8> {
    let mut bytes = vec![0; STATE_SIZE];
    bytes[..8].copy_from_slice(&state.now.to_le_bytes());
    bytes[RUNNING] = state.running.map_or(NOBODY, |t| byte(t as u64));
    bytes[TASK_COUNT] = state.tasks.len() as u8;
    bytes[OBJECT_COUNT] = state.ceilings.len() as u8;
    put_marks(&mut bytes, state.marks);
    for t in 0..MOST_TASKS {
        let row = &mut bytes[TASKS + TASK_ROW * t..][..TASK_ROW];
        match state.tasks.get(t) {
            Some(task) => put_task(row, task),
            None => row[8] = kind_of(Place::Ended),
        }
    }
    for (o, ceiling) in state.ceilings.iter().enumerate() {
        bytes[CEILINGS + o] = byte(*ceiling);
    }
    for (t, task) in state.tasks.iter().enumerate() {
        put_list(
            &mut bytes[HELD + HELD_ROW * t..][..HELD_ROW],
            task.held.iter().copied(),
        );
    }
    for (q, queue) in state.queues.iter().enumerate() {
        put_list(
            &mut bytes[READY + READY_ROW * q..][..READY_ROW],
            queue.iter().copied(),
        );
    }
    bytes
}

/// Writes this word of marks into a state's bytes.
pub fn put_marks(bytes: &mut [u8], marks: u32) {
    bytes[MARKS..TASKS].copy_from_slice(&marks.to_le_bytes());
}

/// The word of marks in a state's bytes, right or wrong.
pub fn marks_in(bytes: &[u8]) -> u32 {
    u32::from_le_bytes(bytes[MARKS..TASKS].try_into().unwrap())
}

/// Sets the marks right after the bytes of a ready queue were changed, so that the marks are no damage too.
pub fn mend_marks_in(bytes: &mut [u8]) {
    let lengths = bytes[READY..STATE_SIZE].iter().step_by(READY_ROW);
    let marks = lengths
        .rev()
        .fold(0, |word, length| word << 1 | (*length > 0) as u32);
    put_marks(bytes, marks);
}

fn put_task(row: &mut [u8], task: &Task) {
    if let Place::Delayed { due } = task.place {
        row[..8].copy_from_slice(&due.to_le_bytes());
    }
    row[8] = kind_of(task.place);
    row[9] = byte(task.base);
    if let Some(p) = task.waiting {
        row[10] = 1;
        row[11] = byte(p);
    }
    row[12] = task.permit as u8;
}

/// A list of a row; a length past the row's end counts as numbers that are nobody's.
fn list_in(row: &[u8]) -> Vec<usize> {
    let length = row[0] as usize;
    let there = row[1..].iter().take(length).map(|n| *n as usize);
    there
        .chain(vec![usize::MAX; length.saturating_sub(row.len() - 1)])
        .collect()
}

/// Whether the numbers of the listed tasks that have few values are such: place kind, waits flag and permit. Bytes where one is not
/// are unsound, whatever else they say.
pub fn in_range(bytes: &[u8]) -> bool {
    let listed = (bytes[TASK_COUNT] as usize).min(MOST_TASKS);
    let rows = bytes[TASKS..][..TASK_ROW * listed].chunks_exact(TASK_ROW);
    rows.into_iter()
        .all(|row| row[8] <= 4 && row[10] <= 1 && row[12] <= 1)
}

/// Brings these numbers in range in every row, so that what else is wrong with the bytes is looked at.
pub fn bring_in_range(bytes: &mut [u8]) {
    for row in bytes[TASKS..CEILINGS].chunks_exact_mut(TASK_ROW) {
        row[8] %= 5;
        row[10] %= 2;
        row[12] %= 2;
    }
}

/// The task that the running byte names: 255 where that is no listed one. Bytes with a task count above the most, or not `in_range`,
/// list nobody.
pub fn running_of(bytes: &[u8]) -> u8 {
    let (running, tasks) = (bytes[RUNNING], bytes[TASK_COUNT]);
    match running < tasks && tasks as usize <= MOST_TASKS && in_range(bytes) {
        true => running,
        false => NOBODY,
    }
}

/// The state that any bytes mean; counts past the rows give tasks and objects that are there in number only, and numbers that are
/// not `in_range` one or the other.
pub fn state_of(bytes: &[u8]) -> State {
    let tasks = bytes[TASK_COUNT] as usize;
    let objects = bytes[OBJECT_COUNT] as usize;
    let mut queues: [_; QUEUES] = Default::default();
    for (q, queue) in queues.iter_mut().enumerate() {
        *queue = list_in(&bytes[READY + READY_ROW * q..][..READY_ROW]).into();
    }
    State {
        now: u64::from_le_bytes(bytes[..8].try_into().unwrap()),
        tasks: (0..tasks)
            .map(|t| task_of(bytes, t.min(MOST_TASKS - 1)))
            .collect(),
        ceilings: (0..objects)
            .map(|o| bytes[CEILINGS + o.min(MOST_OBJECTS - 1)] as u64)
            .collect(),
        queues,
        marks: marks_in(bytes),
        running: Some(bytes[RUNNING] as usize).filter(|t| *t != NOBODY as usize),
    }
}

fn task_of(bytes: &[u8], t: usize) -> Task {
    let row = &bytes[TASKS + TASK_ROW * t..][..TASK_ROW];
    Task {
        base: row[9] as u64,
        place: match row[8] {
            1 => Place::Ready,
            2 => Place::Delayed {
                due: u64::from_le_bytes(row[..8].try_into().unwrap()),
            },
            3 => Place::Suspended,
            4 => Place::Ended,
            _ => Place::Running,
        },
        permit: row[12] != 0,
        held: list_in(&bytes[HELD + HELD_ROW * t..][..HELD_ROW]),
        waiting: Some(row[11] as u64).filter(|_| row[10] != 0),
    }
}

fn row_kind(byte: u8) -> Kind {
    match byte {
        1 => Kind::Ready,
        2 => Kind::Delayed,
        3 => Kind::Suspended,
        4 => Kind::Ended,
        _ => Kind::Running,
    }
}

/// The rows of a board's bytes; what is left behind the last whole row is none.
pub fn rows_of(bytes: &[u8]) -> Vec<Row> {
    let rows = bytes.chunks_exact(ROW_SIZE);
    rows.map(|row| Row {
        kind: row_kind(row[0]),
        priority: row[1] as u64,
        position: row[2] as u64,
    })
    .collect()
}

/// Writes rows over the first bytes of a board.
pub fn put_rows(bytes: &mut [u8], rows: &[Row]) {
    for (cells, row) in bytes.chunks_exact_mut(ROW_SIZE).zip(rows) {
        let kind = match row.kind {
            Kind::Running => 0,
            Kind::Ready => 1,
            Kind::Delayed => 2,
            Kind::Suspended => 3,
            Kind::Ended => 4,
        };
        cells.copy_from_slice(&[kind, row.priority as u8, row.position as u8]);
    }
}
