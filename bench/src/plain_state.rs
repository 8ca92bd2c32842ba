//! Events on a state's bytes in plain Rust, in place: the same job as the exported functions, to be timed beside them.
//!
//! The layout is that of docs/LAYOUT.md. Every row is tested, since any bytes may be lent; an accepted event also writes 0 over all
//! that is not read, as the exported functions do.

use second::machine::Event;

use crate::limits::{
    LARGEST_READING, LONGEST_ADVANCE, LONGEST_DELAY, MOST_OBJECTS, MOST_TASKS, NOBODY, PRIORITIES,
    STATE_SIZE,
};

const RUNNING: usize = 8;
const TASK_COUNT: usize = 9;
const OBJECT_COUNT: usize = 10;
const UNREAD: usize = 11;
const MARKS: usize = 12;
const TASKS: usize = 16;
const TASK_ROW: usize = 16;
const CEILINGS: usize = TASKS + TASK_ROW * MOST_TASKS;
const HELD: usize = CEILINGS + MOST_OBJECTS;
const HELD_ROW: usize = 1 + MOST_OBJECTS;
const READY: usize = HELD + HELD_ROW * MOST_TASKS;
const READY_ROW: usize = 1 + MOST_TASKS;
const SIZE: usize = READY + READY_ROW * PRIORITIES;
const _: () = assert!(SIZE == STATE_SIZE);
// a bit for each task in 64 of them, for each object and each priority in 32
const _: () = assert!(MOST_TASKS <= 64 && MOST_OBJECTS <= 32 && PRIORITIES <= 32);

const IS_RUNNING: u8 = 0;
const IS_READY: u8 = 1;
const IS_DELAYED: u8 = 2;
const IS_SUSPENDED: u8 = 3;
const IS_ENDED: u8 = 4;

type Bytes = [u8; SIZE];

fn long(bytes: &Bytes, at: usize) -> u64 {
    u64::from_le_bytes(bytes[at..at + 8].try_into().unwrap())
}

fn put_long(bytes: &mut Bytes, at: usize, value: u64) {
    bytes[at..at + 8].copy_from_slice(&value.to_le_bytes());
}

fn marks_in(bytes: &Bytes) -> u32 {
    u32::from_le_bytes(bytes[MARKS..MARKS + 4].try_into().unwrap())
}

/// The highest priority whose queue is not empty, or 0.
fn highest_in(bytes: &Bytes) -> usize {
    (u32::BITS - marks_in(bytes).leading_zeros()) as usize
}

fn good(priority: u8) -> bool {
    priority.wrapping_sub(1) < PRIORITIES as u8
}

/// What the test of the tasks finds: who is in each kind of place and who holds objects, a bit for each task, and the active priorities.
struct Found {
    places: [u64; 8],
    holders: u64,
    active: [u8; MOST_TASKS],
}

/// The active priority of a task that holds `held`, outermost first; 0 where an object is not listed or held twice, or where the
/// ceilings fall inwards or start below the base.
fn raised(held: &[u8], base: u8, ceilings: &[u8]) -> u8 {
    let (mut level, mut falls, mut seen) = (base, 0, 0u32);
    for &object in held {
        let Some(&ceiling) = ceilings.get(object as usize) else {
            return 0;
        };
        // priorities are small: the highest bit is on where it falls
        falls |= ceiling.wrapping_sub(level);
        seen |= 1 << object;
        level = ceiling;
    }
    let once = seen.count_ones() as usize == held.len();
    match once && falls < 0x80 {
        true => level,
        false => 0,
    }
}

/// A task row's last 8 bytes as one number: kind, base, whether a base waits, which, permit.
const ONE_BASE: u64 = 0x0100;
const WAITS: u64 = 0x01_0000;
/// What is added to them, the base less one, so that a byte's highest bit is on where it is more than 4, 31, 1 and 1.
const TO_TOO_MUCH: u64 = 0x007E_007E_607B;
const TOO_MUCH: u64 = 0x0080_0080_8080;

/// Those of these 8 bytes that are not read, and one more where no base waits.
const NEVER_READ: u64 = 0xFFFF_FF00_0000_0000;
const NO_BASE: u64 = 0xFF00_0000;

/// The task rows, each in two halves.
fn rows_in(bytes: &[u8]) -> &[[[u8; 8]; 2]] {
    bytes.as_chunks::<8>().0.as_chunks::<2>().0
}

/// A row's due time, and its last 8 bytes.
fn due_and_word(row: &[[u8; 8]; 2]) -> (u64, u64) {
    (u64::from_le_bytes(row[0]), u64::from_le_bytes(row[1]))
}

/// The task rows and held lists. Faults are or-ed together, so that the common way has few jumps.
fn test_tasks(bytes: &Bytes, tasks: usize, ceilings: &[u8]) -> Option<Found> {
    let now = long(bytes, 0);
    let mut found = Found {
        places: [0; 8],
        holders: 0,
        active: [0; MOST_TASKS],
    };
    let (mut faults, mut bad, mut bit) = (0, false, 1);
    let rows = &rows_in(&bytes[TASKS..CEILINGS])[..tasks];
    let lists = &bytes[HELD..READY].as_chunks::<HELD_ROW>().0[..tasks];
    for ((row, list), active) in rows.iter().zip(lists).zip(&mut found.active) {
        let (due, word) = due_and_word(row);
        let less = word.wrapping_sub(ONE_BASE);
        faults |= less | less.wrapping_add(TO_TOO_MUCH);
        let (kind, base, depth) = (word as u8, (word >> 8) as u8, list[0] as usize);
        if kind == IS_DELAYED {
            bad |= due.wrapping_sub(now).wrapping_sub(1) >= LONGEST_DELAY;
        }
        if word & WAITS != 0 {
            bad |= !good((word >> 24) as u8) | (depth == 0);
        }
        *active = base;
        if depth > 0 {
            *active = raised(list.get(1..=depth)?, base, ceilings);
            bad |= (kind > IS_READY) | (*active == 0);
            found.holders |= bit;
        }
        found.places[kind as usize % 8] |= bit;
        bit <<= 1;
    }
    (!bad && faults & TOO_MUCH == 0).then_some(found)
}

/// Whether the ready queues hold exactly the ready tasks, each in the queue for its active priority, and the marks say which are not
/// empty. As many are queued as are ready, so none twice.
fn test_queues(bytes: &Bytes, found: &Found) -> bool {
    let marks = marks_in(bytes);
    let mut filled = 0;
    for (q, row) in bytes[READY..].chunks_exact(READY_ROW).enumerate() {
        filled |= ((row[0] != 0) as u32) << q;
    }
    let ready = found.places[IS_READY as usize];
    let (mut queued, mut count, mut bad, mut left) = (0u64, 0, filled ^ marks, filled);
    while left != 0 {
        let q = left.trailing_zeros();
        left &= left - 1;
        let row = &bytes[READY + READY_ROW * q as usize..][..READY_ROW];
        let Some(list) = row.get(1..=row[0] as usize) else {
            return false;
        };
        count += list.len() as u32;
        for &t in list {
            let Some(&active) = found.active.get(t as usize) else {
                return false;
            };
            bad |= active as u32 ^ (q + 1);
            queued |= 1 << t;
        }
    }
    bad == 0 && queued == ready && count == ready.count_ones()
}

/// What is found in a sound state.
fn sound(bytes: &Bytes) -> Option<Found> {
    let (tasks, objects) = (bytes[TASK_COUNT] as usize, bytes[OBJECT_COUNT] as usize);
    if long(bytes, 0) > LARGEST_READING || tasks.wrapping_sub(1) >= MOST_TASKS {
        return None;
    }
    let all: &[u8; MOST_OBJECTS] = bytes[CEILINGS..HELD].try_into().unwrap();
    let wrong = |(o, ceiling): (usize, &u8)| (o < objects) & !good(*ceiling);
    let ceilings = all.get(..objects)?;
    if all.iter().enumerate().fold(false, |bad, c| bad | wrong(c)) {
        return None;
    }
    let found = test_tasks(bytes, tasks, ceilings)?;
    if !test_queues(bytes, &found) {
        return None;
    }
    let highest = highest_in(bytes);
    let running = found.places[IS_RUNNING as usize];
    let fits = match bytes[RUNNING] {
        NOBODY => running == 0 && highest == 0,
        t => {
            let active = *found.active.get(t as usize)? as usize;
            running == 1 << t && active >= highest
        }
    };
    fits.then_some(found)
}

/// For each length of a queue, which of its row's cells it fills.
const FILLED: [[u8; MOST_TASKS]; MOST_TASKS + 1] = {
    let mut masks = [[0; MOST_TASKS]; MOST_TASKS + 1];
    let mut cell = 0;
    while cell < MOST_TASKS * MOST_TASKS {
        let (length, place) = (cell / MOST_TASKS + 1, cell % MOST_TASKS);
        masks[length][place] = if place < length { 0xFF } else { 0 };
        cell += 1;
    }
    masks
};

/// Writes 0 behind each queue; many are empty.
fn tidy_queues(queues: &mut [u8]) {
    for [length, cells @ ..] in queues.as_chunks_mut::<READY_ROW>().0 {
        if *length == 0 {
            *cells = [0; MOST_TASKS];
            continue;
        }
        for (cell, mask) in cells.iter_mut().zip(&FILLED[*length as usize]) {
            *cell &= mask;
        }
    }
}

/// Writes 0 behind the holders' lists, up to the next of them at once: they are few.
fn tidy_held(lists: &mut [u8], mut holders: u64) {
    let mut from = 0;
    while holders != 0 {
        let row = HELD_ROW * holders.trailing_zeros() as usize;
        holders &= holders - 1;
        lists[from..row].fill(0);
        from = row + 1 + lists[row] as usize;
    }
    lists[from..].fill(0);
}

fn tidy_rows(rows: &mut [[[u8; 8]; 2]]) {
    for row in rows {
        let (due, word) = due_and_word(row);
        let due = if word as u8 == IS_DELAYED { due } else { 0 };
        let no_base = if word & WAITS == 0 { NO_BASE } else { 0 };
        let word = word & !(NEVER_READ | no_base);
        *row = [due.to_le_bytes(), word.to_le_bytes()];
    }
}

/// Writes 0 over all that is not read, and an ended task in every row behind the count.
fn tidy(bytes: &mut Bytes, holders: u64) {
    let (tasks, objects) = (bytes[TASK_COUNT] as usize, bytes[OBJECT_COUNT] as usize);
    bytes[UNREAD] = 0;
    let rows = bytes[TASKS..CEILINGS].as_chunks_mut::<8>().0;
    let (listed, others) = rows.as_chunks_mut().0.split_at_mut(tasks);
    tidy_rows(listed);
    others.fill([[0; 8], (IS_ENDED as u64).to_le_bytes()]);
    bytes[CEILINGS + objects..HELD].fill(0);
    tidy_held(&mut bytes[HELD..READY], holders);
    tidy_queues(&mut bytes[READY..]);
}

/// A due time is multiplied by this and the task's number added: the order in which the delayed wake.
const KEY: u64 = MOST_TASKS as u64;

/// A sound state under an event.
struct State<'a> {
    bytes: &'a mut Bytes,
    /// What was found before the event; the active priorities are kept right.
    found: Found,
    preempted: bool,
}

impl State<'_> {
    fn now(&self) -> u64 {
        long(self.bytes, 0)
    }

    fn runner(&self) -> Option<usize> {
        Some(self.bytes[RUNNING] as usize).filter(|t| *t < MOST_TASKS)
    }

    fn row(&mut self, t: usize) -> &mut [u8] {
        &mut self.bytes[TASKS + TASK_ROW * t..][..TASK_ROW]
    }

    fn kind(&self, t: usize) -> u8 {
        self.bytes[TASKS + TASK_ROW * t + 8]
    }

    fn held(&self, t: usize) -> &[u8] {
        let list = &self.bytes[HELD + HELD_ROW * t..][..HELD_ROW];
        &list[1..][..list[0] as usize]
    }

    fn queue(&mut self, p: usize) -> &mut [u8; READY_ROW] {
        let at = READY + READY_ROW * (p - 1);
        self.bytes[at..]
            .first_chunk_mut()
            .expect("a queue for each priority")
    }

    fn mark(&mut self, p: usize, on: bool) {
        let bit = 1 << (p - 1);
        let rest = marks_in(self.bytes) & !bit;
        let word = if on { rest | bit } else { rest };
        self.bytes[MARKS..MARKS + 4].copy_from_slice(&word.to_le_bytes());
    }

    fn push_tail(&mut self, t: usize) {
        let p = self.found.active[t] as usize;
        let row = self.queue(p);
        let length = row[0] as usize;
        row[length + 1] = t as u8;
        row[0] += 1;
        self.mark(p, true);
        self.row(t)[8] = IS_READY;
    }

    /// The whole row moves, which needs no loop: behind the list are zeros.
    fn push_head(&mut self, t: usize) {
        let p = self.found.active[t] as usize;
        let row = self.queue(p);
        row.copy_within(1..READY_ROW - 1, 2);
        row[1] = t as u8;
        row[0] += 1;
        self.mark(p, true);
        self.row(t)[8] = IS_READY;
    }

    fn pop(&mut self, p: usize) -> u8 {
        let row = self.queue(p);
        let t = row[1];
        row.copy_within(2.., 1);
        row[READY_ROW - 1] = 0;
        row[0] -= 1;
        let on = row[0] > 0;
        self.mark(p, on);
        t
    }

    fn take_out(&mut self, t: usize) {
        let p = self.found.active[t] as usize;
        let row = self.queue(p);
        let place = row[1..].iter().position(|other| *other == t as u8);
        let place = 1 + place.expect("a ready task stands in its queue");
        row.copy_within(place + 1.., place);
        row[READY_ROW - 1] = 0;
        row[0] -= 1;
        let on = row[0] > 0;
        self.mark(p, on);
    }

    fn dispatch(&mut self) {
        let highest = highest_in(self.bytes);
        if highest == 0 {
            return;
        }
        if let Some(t) = self.runner() {
            if self.found.active[t] as usize >= highest {
                return;
            }
            self.push_head(t);
            self.preempted = true;
        }
        let next = self.pop(highest);
        self.bytes[RUNNING] = next;
        self.row(next as usize)[8] = IS_RUNNING;
    }

    /// The running task is no longer running.
    fn stop(&mut self, t: usize, kind: u8) {
        self.bytes[RUNNING] = NOBODY;
        self.row(t)[8] = kind;
    }

    fn go_to_tail(&mut self, t: usize) {
        self.bytes[RUNNING] = NOBODY;
        self.push_tail(t);
    }

    fn rebase(&mut self, t: usize, p: u8) {
        self.row(t)[9] = p;
        self.found.active[t] = p;
    }

    /// The number of the answer; the lowest wins.
    fn answer(&self, event: Event) -> u8 {
        let tasks = self.bytes[TASK_COUNT] as usize;
        let objects = self.bytes[OBJECT_COUNT] as usize;
        match event {
            Event::Enter(o) | Event::Leave(o) if o >= objects => return 2,
            Event::Release(t) => return (t >= tasks) as u8,
            Event::Clock(r) => return 4 * self.no_reading(r) as u8,
            Event::Set(t, _) if t >= tasks => return 1,
            Event::Set(_, p) if p.wrapping_sub(1) >= PRIORITIES as u64 => return 3,
            Event::Set(t, _) => return 6 * (self.kind(t) == IS_ENDED) as u8,
            _ => {}
        }
        let Some(t) = self.runner() else {
            return 5;
        };
        let held = self.held(t);
        match event {
            Event::Enter(o) if held.contains(&(o as u8)) => 7,
            Event::Enter(o) => 8 * (self.found.active[t] > self.bytes[CEILINGS + o]) as u8,
            Event::Leave(o) => 9 * (held.last() != Some(&(o as u8))) as u8,
            Event::Work => 0,
            _ => 7 * !held.is_empty() as u8,
        }
    }

    fn no_reading(&self, r: u64) -> bool {
        let now = self.now();
        r < now || r > LARGEST_READING || r - now > LONGEST_ADVANCE
    }

    fn perform(&mut self, event: Event) {
        let t = self.runner().unwrap_or(0);
        match event {
            Event::Enter(o) => return self.enter(t, o as u8),
            Event::Leave(_) => self.leave(t),
            Event::Delay(0) => self.go_to_tail(t),
            Event::Delay(d) => {
                let due = self.now() + d as u64;
                put_long(self.bytes, TASKS + TASK_ROW * t, due);
                self.stop(t, IS_DELAYED);
            }
            Event::Suspend => {
                let permit = &mut self.row(t)[12];
                if *permit != 0 {
                    *permit = 0;
                    return;
                }
                self.stop(t, IS_SUSPENDED);
            }
            Event::Release(t) => {
                if self.kind(t) != IS_SUSPENDED {
                    self.row(t)[12] = 1;
                    return;
                }
                self.push_tail(t);
            }
            Event::Clock(r) => self.clock(r),
            Event::Set(t, p) => self.set(t, p as u8),
            Event::Work => return,
            Event::Finish => self.stop(t, IS_ENDED),
        }
        self.dispatch();
    }

    fn enter(&mut self, t: usize, o: u8) {
        let list = &mut self.bytes[HELD + HELD_ROW * t..][..HELD_ROW];
        let depth = list[0] as usize + 1;
        list[depth] = o;
        list[0] = depth as u8;
    }

    fn leave(&mut self, t: usize) {
        let list = &mut self.bytes[HELD + HELD_ROW * t..][..HELD_ROW];
        let depth = list[0] as usize;
        list[depth] = 0;
        list[0] -= 1;
        if depth > 1 {
            let innermost = list[depth - 1] as usize;
            self.found.active[t] = self.bytes[CEILINGS + innermost];
            return;
        }
        let row = self.row(t);
        let (base, waits, waiting) = (row[9], row[10], row[11]);
        row[10..12].fill(0);
        self.found.active[t] = base;
        if waits != 0 {
            self.rebase(t, waiting);
            self.go_to_tail(t);
        }
    }

    fn set(&mut self, t: usize, p: u8) {
        if !self.held(t).is_empty() {
            self.row(t)[10..12].copy_from_slice(&[1, p]);
            return;
        }
        let kind = self.kind(t);
        if kind == IS_READY {
            self.take_out(t);
        }
        self.rebase(t, p);
        match kind {
            IS_READY => self.push_tail(t),
            IS_RUNNING => self.go_to_tail(t),
            _ => {}
        }
    }

    /// Everybody due, by due time, lower number first when equal.
    fn clock(&mut self, r: u64) {
        put_long(self.bytes, 0, r);
        let mut woken = [0; MOST_TASKS];
        let mut count = 0;
        let mut left = self.found.places[IS_DELAYED as usize];
        while left != 0 {
            let t = left.trailing_zeros() as usize;
            left &= left - 1;
            let due = long(self.bytes, TASKS + TASK_ROW * t);
            if due <= r {
                woken[count] = due * KEY + t as u64;
                count += 1;
            }
        }
        let woken = &mut woken[..count];
        woken.sort_unstable();
        for key in woken {
            let t = (*key % KEY) as usize;
            put_long(self.bytes, TASKS + TASK_ROW * t, 0);
            self.push_tail(t);
        }
    }
}

/// One event on a state's bytes: the numbers of its answer and of its report.
pub fn event(state: &mut [u8], event: Event) -> (u8, u8) {
    let Some(bytes) = state.first_chunk_mut::<SIZE>() else {
        return (10, 0);
    };
    let Some(found) = sound(bytes) else {
        return (10, 0);
    };
    let before = bytes[RUNNING];
    let mut state = State {
        bytes,
        found,
        preempted: false,
    };
    let answer = state.answer(event);
    if answer != 0 {
        return (answer, 0);
    }
    tidy(state.bytes, state.found.holders);
    state.perform(event);
    let report = match state.preempted {
        true => 1,
        false => 2 * (state.bytes[RUNNING] != before) as u8,
    };
    (0, report)
}
