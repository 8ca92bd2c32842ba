//! What `plain` and `lean` read in the same way: the shape of a roster, and whether events are good.

use crate::limits::{
    LARGEST_ROSTER, MOST_EVENTS, MOST_OBJECTS, MOST_TASKS, PRIORITIES, SMALLEST_ROSTER,
};

pub const TRAILER: usize = 8;
pub const TASK_ROW: usize = 6;
pub const OBJECT_ROW: usize = 2;
const RECORD: usize = 8;

/// The most frequent step, which is tested before the others.
pub const WORK: u32 = 4;

/// The record of a Step, which has no unused field but 0.
pub const STEP: u64 = 3;

/// Number, task and step.
pub type Answer = (u8, usize, usize);

/// Two bytes as a number.
pub fn word(bytes: &[u8], at: usize) -> usize {
    bytes[at] as usize | (bytes[at + 1] as usize) << 8
}

/// Whether this is 1 to the highest priority.
pub fn is_priority(value: u64) -> bool {
    (1..=PRIORITIES as u64).contains(&value)
}

/// Where the parts of a roster are.
pub struct Shape {
    pub tasks: usize,
    pub objects: usize,
    pub task_table: usize,
    pub object_table: usize,
}

impl Shape {
    pub fn task_rows<'a>(&self, roster: &'a [u8]) -> std::slice::ChunksExact<'a, u8> {
        roster[self.task_table..self.object_table].chunks_exact(TASK_ROW)
    }

    pub fn object_rows<'a>(&self, roster: &'a [u8]) -> &'a [[u8; OBJECT_ROW]] {
        let table = &roster[self.object_table..roster.len() - TRAILER];
        table.as_chunks().0
    }
}

/// The shape, or 11 to 15.
pub fn shape_of(roster: &[u8]) -> Result<Shape, u8> {
    let size = roster.len();
    if !(SMALLEST_ROSTER..=LARGEST_ROSTER).contains(&size) {
        return Err(11);
    }
    let end = &roster[size - TRAILER..];
    if end[0] != 0x52 || end[1] != 0x35 {
        return Err(12);
    }
    let shape = Shape {
        tasks: end[2] as usize,
        objects: end[3] as usize,
        task_table: word(end, 6),
        object_table: word(end, 4),
    };
    if shape.tasks == 0 || shape.tasks > MOST_TASKS || shape.objects > MOST_OBJECTS {
        return Err(13);
    }
    if shape.object_table + OBJECT_ROW * shape.objects + TRAILER != size
        || shape.task_table + TASK_ROW * shape.tasks != shape.object_table
        || !scripts_follow(roster, &shape)
    {
        return Err(14);
    }
    let bad = |row: &[u8]| !is_priority(row[0] as u64) || row[1] != 0;
    let mut ceilings = shape.object_rows(roster).iter();
    if shape.task_rows(roster).any(bad) || ceilings.any(|row| bad(row)) {
        return Err(15);
    }
    Ok(shape)
}

/// Whether the scripts stand in task order from byte 0 without a gap, in whole steps.
fn scripts_follow(roster: &[u8], shape: &Shape) -> bool {
    let mut next = 0;
    for row in shape.task_rows(roster) {
        let length = word(row, 4);
        if word(row, 2) != next || !length.is_multiple_of(4) {
            return false;
        }
        next += length;
    }
    next == shape.task_table
}

/// For each kind of event, the bits of a record that have to be 0; for what is no kind, the kind itself.
const UNUSED: [u64; 256] = {
    let mut masks = [0xFF; 256];
    masks[1] = 0xFF00;
    masks[2] = 0xFFFF_FFFF_FFFF_0000;
    masks[3] = 0xFFFF_FFFF_FFFF_FF00;
    masks[4] = 0;
    masks
};

/// A kind: where the bits of no kind are looked at, they differ from it.
const SOME_KIND: u64 = 4;

/// The events as one number each; a stray part of one is left out.
pub fn records(events: &[u8]) -> impl Iterator<Item = u64> + '_ {
    let (records, _) = events.as_chunks::<RECORD>();
    records.iter().map(|e| u64::from_le_bytes(*e))
}

/// Without jumps: what is wrong with any record is or-ed together.
pub fn events_are_good(events: &[u8]) -> bool {
    let wrong = |e: u64| (e ^ SOME_KIND) & UNUSED[e as u8 as usize];
    events.len().is_multiple_of(RECORD)
        && events.len() <= RECORD * MOST_EVENTS
        && records(events).fold(0, |bad, e| bad | wrong(e)) == 0
}

/// How many whole events these are.
pub fn count_of(events: &[u8]) -> usize {
    events.len() / RECORD
}
