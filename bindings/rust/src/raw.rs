//! The exported functions on bytes of any length, with plain numbers: each is declared here, and has one safe function.
//!
//! A slice passes as a pointer and a length. No function asks anything of its arguments, so nothing is tested here.

mod exported {
    extern "C" {
        pub fn dispatch_form(roster: *const u8, length: usize) -> u64;
        pub fn dispatch_check(roster: *const u8, length: usize) -> u64;
        pub fn dispatch_script_number(roster: *const u8, length: usize, task: u64) -> u8;
        pub fn dispatch_script_start(roster: *const u8, length: usize, task: u64) -> u64;
        pub fn dispatch_script_length(roster: *const u8, length: usize, task: u64) -> u64;
        pub fn dispatch_base(roster: *const u8, length: usize, task: u64) -> u64;
        pub fn dispatch_ceiling(roster: *const u8, length: usize, object: u64) -> u64;
        pub fn dispatch_step_count(roster: *const u8, length: usize, task: u64) -> u64;
        pub fn dispatch_step(roster: *const u8, length: usize, task: u64, step: u64) -> u64;
        pub fn dispatch_run(
            roster: *const u8,
            length: usize,
            events: *const u8,
            events_length: usize,
            buffer: *mut u8,
            buffer_length: usize,
        ) -> u64;
        pub fn dispatch_write(
            bases: *const u8,
            tasks: usize,
            ceilings: *const u8,
            objects: usize,
            lengths: *const u16,
            lengths_count: usize,
            steps: *const u8,
            steps_length: usize,
            buffer: *mut u8,
            buffer_length: usize,
        ) -> u64;
        pub fn dispatch_write_answer(
            bases: *const u8,
            tasks: usize,
            ceilings: *const u8,
            objects: usize,
            lengths: *const u16,
            lengths_count: usize,
            steps: *const u8,
            steps_length: usize,
            room: u64,
        ) -> u64;
        pub fn dispatch_written(
            bases: *const u8,
            tasks: usize,
            ceilings: *const u8,
            objects: usize,
            lengths: *const u16,
            lengths_count: usize,
            steps: *const u8,
            steps_length: usize,
            buffer: *mut u8,
            buffer_length: usize,
        ) -> u64;
        pub fn dispatch_fresh(
            bases: *const u8,
            tasks: usize,
            ceilings: *const u8,
            objects: usize,
            state: *mut u8,
            length: usize,
        ) -> u8;
        pub fn dispatch_enter(state: *mut u8, length: usize, object: u64, report: *mut u8) -> u8;
        pub fn dispatch_leave(state: *mut u8, length: usize, object: u64, report: *mut u8) -> u8;
        pub fn dispatch_delay(state: *mut u8, length: usize, ticks: u16, report: *mut u8) -> u8;
        pub fn dispatch_suspend(state: *mut u8, length: usize, report: *mut u8) -> u8;
        pub fn dispatch_release(state: *mut u8, length: usize, task: u64, report: *mut u8) -> u8;
        pub fn dispatch_clock(state: *mut u8, length: usize, reading: u64, report: *mut u8) -> u8;
        pub fn dispatch_set(
            state: *mut u8,
            length: usize,
            task: u64,
            priority: u64,
            report: *mut u8,
        ) -> u8;
        pub fn dispatch_work(state: *mut u8, length: usize, report: *mut u8) -> u8;
        pub fn dispatch_finish(state: *mut u8, length: usize, report: *mut u8) -> u8;
        pub fn dispatch_sound(state: *const u8, length: usize) -> u8;
        pub fn dispatch_running(state: *const u8, length: usize) -> u8;
        pub fn dispatch_fill(
            state: *const u8,
            length: usize,
            board: *mut u8,
            board_length: usize,
        ) -> u8;
        pub fn dispatch_next(board: *const u8, board_length: usize) -> u64;
    }
}

/// The running byte of a state, and the row of a board, for nobody.
pub const NOBODY: u8 = 255;

/// Number, task and step of an answer: the lowest byte, the next, and what is above.
fn unpacked(packed: u64) -> (u8, usize, usize) {
    (
        packed as u8,
        (packed >> 8) as usize & 0xFF,
        (packed >> 16) as usize,
    )
}

/// Number and value of an answer: the lowest byte, and what is above.
fn with_value(packed: u64) -> (u8, u64) {
    (packed as u8, packed >> 8)
}

/// The answer of the form: number, task and step.
pub fn form(roster: &[u8]) -> (u8, usize, usize) {
    // SAFETY: the slice is read for the length of the call and no longer.
    unpacked(unsafe { exported::dispatch_form(roster.as_ptr(), roster.len()) })
}

/// The answer of form and check: number, task and step.
pub fn check(roster: &[u8]) -> (u8, usize, usize) {
    // SAFETY: as above.
    unpacked(unsafe { exported::dispatch_check(roster.as_ptr(), roster.len()) })
}

/// The number of the lookup of a task's script.
pub fn script_number(roster: &[u8], task: u64) -> u8 {
    // SAFETY: as above.
    unsafe { exported::dispatch_script_number(roster.as_ptr(), roster.len(), task) }
}

/// Where a task's script starts in the roster; 0 on a refusal.
pub fn script_start(roster: &[u8], task: u64) -> u64 {
    // SAFETY: as above.
    unsafe { exported::dispatch_script_start(roster.as_ptr(), roster.len(), task) }
}

/// How many bytes a task's script has; 0 on a refusal.
pub fn script_length(roster: &[u8], task: u64) -> u64 {
    // SAFETY: as above.
    unsafe { exported::dispatch_script_length(roster.as_ptr(), roster.len(), task) }
}

/// The number, and the base of a task; 0 on a refusal.
pub fn base(roster: &[u8], task: u64) -> (u8, u64) {
    // SAFETY: as above.
    with_value(unsafe { exported::dispatch_base(roster.as_ptr(), roster.len(), task) })
}

/// The number, and the ceiling of an object; 0 on a refusal.
pub fn ceiling(roster: &[u8], object: u64) -> (u8, u64) {
    // SAFETY: as above.
    with_value(unsafe { exported::dispatch_ceiling(roster.as_ptr(), roster.len(), object) })
}

/// The number, and how many steps a task's script has; 0 on a refusal.
pub fn step_count(roster: &[u8], task: u64) -> (u8, u64) {
    // SAFETY: as above.
    with_value(unsafe { exported::dispatch_step_count(roster.as_ptr(), roster.len(), task) })
}

/// The number, and the four bytes of a step as a little-endian number; 0 at the script's end and behind it, and on a refusal.
pub fn step(roster: &[u8], task: u64, step: u64) -> (u8, u64) {
    // SAFETY: as above.
    with_value(unsafe { exported::dispatch_step(roster.as_ptr(), roster.len(), task, step) })
}

/// The answer of a run: number, task and step. What it writes is in the buffer.
pub fn run(roster: &[u8], events: &[u8], buffer: &mut [u8]) -> (u8, usize, usize) {
    // SAFETY: as above; the buffer is lent for writing and overlaps no other slice.
    unpacked(unsafe {
        exported::dispatch_run(
            roster.as_ptr(),
            roster.len(),
            events.as_ptr(),
            events.len(),
            buffer.as_mut_ptr(),
            buffer.len(),
        )
    })
}

/// The answer of writing a roster from its parts: number, task and step. The file is at the front of the buffer.
pub fn write(
    bases: &[u8],
    ceilings: &[u8],
    lengths: &[u16],
    steps: &[u8],
    buffer: &mut [u8],
) -> (u8, usize, usize) {
    // SAFETY: as above; a slice of u16 is aligned as one.
    unpacked(unsafe {
        exported::dispatch_write(
            bases.as_ptr(),
            bases.len(),
            ceilings.as_ptr(),
            ceilings.len(),
            lengths.as_ptr(),
            lengths.len(),
            steps.as_ptr(),
            steps.len(),
            buffer.as_mut_ptr(),
            buffer.len(),
        )
    })
}

/// What `write` answers with a buffer of so many bytes.
pub fn write_answer(
    bases: &[u8],
    ceilings: &[u8],
    lengths: &[u16],
    steps: &[u8],
    room: u64,
) -> (u8, usize, usize) {
    // SAFETY: as above.
    unpacked(unsafe {
        exported::dispatch_write_answer(
            bases.as_ptr(),
            bases.len(),
            ceilings.as_ptr(),
            ceilings.len(),
            lengths.as_ptr(),
            lengths.len(),
            steps.as_ptr(),
            steps.len(),
            room,
        )
    })
}

/// Writes as `write` does: how many bytes the file at the front of the buffer has; 0 on a refusal, whose number `write_answer` tells.
pub fn written(
    bases: &[u8],
    ceilings: &[u8],
    lengths: &[u16],
    steps: &[u8],
    buffer: &mut [u8],
) -> u64 {
    // SAFETY: as above.
    unsafe {
        exported::dispatch_written(
            bases.as_ptr(),
            bases.len(),
            ceilings.as_ptr(),
            ceilings.len(),
            lengths.as_ptr(),
            lengths.len(),
            steps.as_ptr(),
            steps.len(),
            buffer.as_mut_ptr(),
            buffer.len(),
        )
    }
}

/// The fresh start into a state's bytes.
pub fn fresh(bases: &[u8], ceilings: &[u8], state: &mut [u8]) -> u8 {
    // SAFETY: as above; the state is lent for writing and overlaps no other slice.
    unsafe {
        exported::dispatch_fresh(
            bases.as_ptr(),
            bases.len(),
            ceilings.as_ptr(),
            ceilings.len(),
            state.as_mut_ptr(),
            state.len(),
        )
    }
}

/// The number of an event's answer, and of its report: `event` is lent the state's bytes and room for the report.
fn reported(state: &mut [u8], event: impl FnOnce(*mut u8, usize, *mut u8) -> u8) -> (u8, u8) {
    let mut report = 0;
    let number = event(state.as_mut_ptr(), state.len(), &mut report);
    (number, report)
}

pub fn enter(state: &mut [u8], object: u64) -> (u8, u8) {
    // SAFETY: state and report are lent for writing for the length of the call and no longer, and do not overlap.
    reported(state, |bytes, length, report| unsafe {
        exported::dispatch_enter(bytes, length, object, report)
    })
}

pub fn leave(state: &mut [u8], object: u64) -> (u8, u8) {
    // SAFETY: as above.
    reported(state, |bytes, length, report| unsafe {
        exported::dispatch_leave(bytes, length, object, report)
    })
}

pub fn delay(state: &mut [u8], ticks: u16) -> (u8, u8) {
    // SAFETY: as above.
    reported(state, |bytes, length, report| unsafe {
        exported::dispatch_delay(bytes, length, ticks, report)
    })
}

pub fn suspend(state: &mut [u8]) -> (u8, u8) {
    // SAFETY: as above.
    reported(state, |bytes, length, report| unsafe {
        exported::dispatch_suspend(bytes, length, report)
    })
}

pub fn release(state: &mut [u8], task: u64) -> (u8, u8) {
    // SAFETY: as above.
    reported(state, |bytes, length, report| unsafe {
        exported::dispatch_release(bytes, length, task, report)
    })
}

pub fn clock(state: &mut [u8], reading: u64) -> (u8, u8) {
    // SAFETY: as above.
    reported(state, |bytes, length, report| unsafe {
        exported::dispatch_clock(bytes, length, reading, report)
    })
}

pub fn set(state: &mut [u8], task: u64, priority: u64) -> (u8, u8) {
    // SAFETY: as above.
    reported(state, |bytes, length, report| unsafe {
        exported::dispatch_set(bytes, length, task, priority, report)
    })
}

pub fn work(state: &mut [u8]) -> (u8, u8) {
    // SAFETY: as above.
    reported(state, |bytes, length, report| unsafe {
        exported::dispatch_work(bytes, length, report)
    })
}

pub fn finish(state: &mut [u8]) -> (u8, u8) {
    // SAFETY: as above.
    reported(state, |bytes, length, report| unsafe {
        exported::dispatch_finish(bytes, length, report)
    })
}

/// 0, or 10 for a state that is not sound.
pub fn sound(state: &[u8]) -> u8 {
    // SAFETY: the slice is read for the length of the call and no longer.
    unsafe { exported::dispatch_sound(state.as_ptr(), state.len()) }
}

/// The running task, or 255.
pub fn running(state: &[u8]) -> u8 {
    // SAFETY: as above.
    unsafe { exported::dispatch_running(state.as_ptr(), state.len()) }
}

/// Fills the first rows of a board, one for each task.
pub fn fill(state: &[u8], board: &mut [u8]) -> u8 {
    // SAFETY: as above; the board is lent for writing and overlaps no other slice.
    unsafe { exported::dispatch_fill(state.as_ptr(), state.len(), board.as_mut_ptr(), board.len()) }
}

/// The number, and the next row of a board; 255 for nobody and on a refusal.
pub fn next(board: &[u8]) -> (u8, u64) {
    // SAFETY: as above.
    with_value(unsafe { exported::dispatch_next(board.as_ptr(), board.len()) })
}
