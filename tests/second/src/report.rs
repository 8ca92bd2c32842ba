//! The reports of request 2026-10: why the processor changed hands, by who runs before an event
//! and who runs after it.

/// No change.
pub const UNCHANGED: u8 = 0;

/// Another runs and the dispatch sent the old task to the head of its queue.
pub const PREEMPTED: u8 = 1;

/// Any other change.
pub const CHANGED: u8 = 2;

/// The report of an accepted event: who ran before it, who runs after it, and whether its
/// dispatch sent the old task to the head of its queue.
pub(crate) fn of(before: Option<usize>, after: Option<usize>, sent_to_head: bool) -> u8 {
    if before == after {
        UNCHANGED
    } else if sent_to_head {
        PREEMPTED
    } else {
        CHANGED
    }
}
