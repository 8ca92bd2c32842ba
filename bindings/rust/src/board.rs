//! The board: rows of task records, which a state fills and which can be asked for the next.

use core::{mem, slice};

use crate::answer::Answer;
use crate::numbers::ROW_SIZE;
use crate::raw;

/// Where a task is.
#[derive(Clone, Copy, Debug, PartialEq, Eq, Hash)]
pub enum Place {
    Running,
    Ready,
    Delayed,
    Suspended,
    Ended,
}

/// The row of one task: its place as a number (0 running, 1 ready, 2 delayed, 3 suspended, 4 ended), its active priority, and
/// its position in its ready queue (0 at the head, 0 if not ready).
#[derive(Clone, Copy, Debug, Default, PartialEq, Eq, Hash)]
#[repr(C)]
pub struct Row {
    pub kind: u8,
    pub priority: u8,
    pub position: u8,
}

const _: () = assert!(mem::size_of::<Row>() == ROW_SIZE && mem::align_of::<Row>() == 1);

impl Row {
    /// The place of the task; none for a number above 4, which a filled row never has.
    pub const fn place(self) -> Option<Place> {
        match self.kind {
            0 => Some(Place::Running),
            1 => Some(Place::Ready),
            2 => Some(Place::Delayed),
            3 => Some(Place::Suspended),
            4 => Some(Place::Ended),
            _ => None,
        }
    }
}

/// The row to run next: among ready rows the highest priority, then the lowest position, then the lowest row; or none. Refused
/// with 13 for more than 64 rows, then with 3 for a priority outside 1 to 32 in any row.
pub fn next(board: &[Row]) -> Result<Option<usize>, Answer> {
    let (number, row) = raw::next(bytes_of(board));
    Answer::from_library(number).done()?;
    Ok((row != raw::NOBODY.into()).then_some(row as usize))
}

fn bytes_of(board: &[Row]) -> &[u8] {
    // SAFETY: a row is three bytes without padding, as asserted above, and any bytes are a row.
    unsafe { slice::from_raw_parts(board.as_ptr().cast(), ROW_SIZE * board.len()) }
}

pub(crate) fn bytes_of_mut(board: &mut [Row]) -> &mut [u8] {
    // SAFETY: as above.
    unsafe { slice::from_raw_parts_mut(board.as_mut_ptr().cast(), ROW_SIZE * board.len()) }
}
