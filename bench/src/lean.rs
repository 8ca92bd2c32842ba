//! A leaner run in plain Rust than `plain`: it keeps less and so does less for the same bytes; timed beside the proved run as well.
//!
//! It keeps only what the replies need: no lists of held objects, no bases, a place only where a task is away. What it leaves out it takes
//! from facts about whole runs: the check, after which no Step is refused with 1, 2, 3, 6, 7 or 9, and the proved theorem that an object
//! has one holder, so that the priority to go back to is kept with the object. So it has no state to hand out at an event. Its check is
//! one pass, and looks for the place again on a refusal.

use crate::limits::{LONGEST_ADVANCE, MOST_OBJECTS, MOST_TASKS, NOBODY, PRIORITIES, REPLY_SIZE};
use crate::queues::Queues;
use crate::shape::{self, is_priority, shape_of, word, Answer, Shape, OBJECT_ROW, STEP, WORK};

fn step_is_good(step: &[u8], last: bool, tasks: usize, objects: usize) -> bool {
    let (a, b) = (step[1] as usize, word(step, 2));
    match step[0] {
        1 | 2 => a < objects && b == 0,
        3 => a == 0,
        4 | 5 => a == 0 && b == 0,
        6 => a < tasks && b == 0,
        7 => a < tasks && is_priority(b as u64),
        8 => a == 0 && b == 0 && last,
        _ => false,
    }
}

/// An object's row of a roster: its ceiling, and 0.
type Row = [u8; OBJECT_ROW];

/// What is wrong with one script, and at which step: 17 to 20.
fn script_fault(script: &[u8], t: usize, base: u8, objects: &[Row]) -> Option<(u8, usize)> {
    let sets = script
        .chunks_exact(4)
        .filter(|s| s[0] == 7 && s[1] as usize == t);
    let top = sets.fold(base, |most, s| most.max(s[2]));
    let mut held = [0u8; MOST_OBJECTS];
    let mut levels = [0u8; MOST_OBJECTS];
    let mut depth = 0;
    for (k, s) in script.chunks_exact(4).enumerate() {
        let a = s[1] as usize;
        match s[0] {
            1 => {
                if held[..depth].contains(&s[1]) {
                    return Some((17, k));
                }
                let level = if depth == 0 { top } else { levels[depth - 1] };
                if objects[a][0] < level {
                    return Some((18, k));
                }
                held[depth] = s[1];
                levels[depth] = objects[a][0];
                depth += 1;
            }
            2 => {
                if depth == 0 || held[depth - 1] != s[1] {
                    return Some((19, k));
                }
                depth -= 1;
            }
            3 | 5 | 8 if depth > 0 => return Some((17, k)),
            7 if a != t => return Some((20, k)),
            _ => {}
        }
    }
    (depth > 0).then_some((17, script.len() / 4))
}

/// What a script holds while it is walked through. The innermost object is kept as the step that leaves it, with its ceiling above
/// that, and 0 for none; an object that is held keeps what was innermost before it.
struct Holding<'a> {
    objects: &'a [Row],
    innermost: u64,
    outer: [u64; MOST_OBJECTS],
    lowest: u8,
}

/// For an object that is not held.
const FREE: u64 = u64::MAX;

/// The operands of a step that should have this code: a wrong code is moved into the highest bits, where no operand is.
fn operands(s: u32, code: u32) -> u32 {
    (s ^ code).rotate_right(8)
}

impl Holding<'_> {
    fn enter(&mut self, s: u32) -> bool {
        let o = operands(s, 1) as usize;
        let Some(&[ceiling, _]) = self.objects.get(o) else {
            return false;
        };
        let outer = &mut self.outer[o % MOST_OBJECTS];
        let good = *outer == FREE && ceiling as u64 >= self.innermost >> 32;
        *outer = self.innermost;
        self.innermost = (ceiling as u64) << 32 | (s ^ 3) as u64;
        self.lowest = self.lowest.min(ceiling);
        good
    }

    fn leave(&mut self, s: u32) -> bool {
        let good = s == self.innermost as u32;
        let outer = &mut self.outer[(s >> 8) as usize % MOST_OBJECTS];
        self.innermost = *outer;
        *outer = FREE;
        good
    }

    /// Whether a script breaks no rule of 16 to 20, in one pass; where it does, `first_fault` finds the place.
    ///
    /// Each step is compared as one word, operands and all. No ceiling entered may be below the base and the own Set values, wherever
    /// these come, so the highest of these and the lowest ceiling are compared at the end.
    fn walks(&mut self, script: &[[u8; 4]], own_set: u32, base: u8, tasks: u32) -> bool {
        self.lowest = PRIORITIES as u8;
        let mut highest = base as u32;
        let mut steps = script.iter();
        while let Some(step) = steps.next() {
            let s = u32::from_le_bytes(*step);
            let good = match s % 8 {
                1 => self.enter(s),
                2 => self.leave(s),
                3 => s as u16 == 3 && self.innermost == 0,
                4 => s == 4,
                5 => s == 5 && self.innermost == 0,
                6 => operands(s, 6) < tasks,
                7 => {
                    highest = highest.max(s >> 16);
                    s & 0xFFFF == own_set && s >> 16 != 0
                }
                _ => s == 8 && self.innermost == 0 && steps.as_slice().is_empty(),
            };
            if !good {
                return false;
            }
        }
        self.innermost == 0 && highest <= self.lowest as u32
    }
}

/// The refusal of a roster with a script that is not good.
#[cold]
fn first_fault(roster: &[u8], shape: &Shape) -> Answer {
    let rows = || shape.task_rows(roster).enumerate();
    let script = |row: &[u8]| {
        let start = word(row, 2);
        &roster[start..start + word(row, 4)]
    };
    for (t, row) in rows() {
        let count = word(row, 4) / 4;
        for (k, step) in script(row).chunks_exact(4).enumerate() {
            if !step_is_good(step, k + 1 == count, shape.tasks, shape.objects) {
                return (16, t, k);
            }
        }
    }
    let objects = shape.object_rows(roster);
    for (t, row) in rows() {
        if let Some((number, k)) = script_fault(script(row), t, row[0], objects) {
            return (number, t, k);
        }
    }
    unreachable!("a script that is not good has a fault")
}

fn checked(roster: &[u8]) -> Result<Shape, Answer> {
    let shape = shape_of(roster).map_err(|number| (number, 0, 0))?;
    let (steps, _) = roster[..shape.task_table].as_chunks();
    let mut holding = Holding {
        objects: shape.object_rows(roster),
        innermost: 0,
        outer: [FREE; MOST_OBJECTS],
        lowest: 0,
    };
    let mut start = 0;
    for (t, row) in shape.task_rows(roster).enumerate() {
        let end = start + word(row, 4) / 4;
        let own_set = 7 | (t as u32) << 8;
        if !holding.walks(&steps[start..end], own_set, row[0], shape.tasks as u32) {
            return Err(first_fault(roster, &shape));
        }
        start = end;
    }
    Ok(shape)
}

/// The answer of form and check.
pub fn check(roster: &[u8]) -> Answer {
    checked(roster).map_or_else(|refusal| refusal, |_| (0, 0, 0))
}

/// Where a task is; of those awake one may be running, and the others are ready.
#[derive(Clone, Copy, PartialEq)]
enum Place {
    Awake,
    Delayed,
    Suspended,
    Ended,
}

/// All that a run changes.
struct Machine {
    now: u64,
    running: u8,
    /// What this event reports.
    report: u8,
    tasks: usize,
    place: [Place; MOST_TASKS],
    active: [u8; MOST_TASKS],
    waiting: [u8; MOST_TASKS],
    permit: [bool; MOST_TASKS],
    /// How many objects a task holds.
    depth: [u8; MOST_TASKS],
    ceilings: [u8; MOST_OBJECTS],
    /// The active priority that the Leave of an object goes back to: in a run an object has one holder.
    outer: [u8; MOST_OBJECTS],
    queues: Queues,
    /// Where scripts start, end and are at, in steps.
    first: [u16; MOST_TASKS],
    end: [u16; MOST_TASKS],
    at: [u16; MOST_TASKS],
}

impl Machine {
    /// Without what `start` reads: filled here, it would be copied as a whole.
    fn empty(tasks: usize) -> Machine {
        Machine {
            now: 0,
            running: NOBODY,
            report: 0,
            tasks,
            place: [Place::Awake; MOST_TASKS],
            active: [0; MOST_TASKS],
            waiting: [0; MOST_TASKS],
            permit: [false; MOST_TASKS],
            depth: [0; MOST_TASKS],
            ceilings: [0; MOST_OBJECTS],
            outer: [0; MOST_OBJECTS],
            queues: Queues::new(),
            first: [0; MOST_TASKS],
            end: [0; MOST_TASKS],
            at: [0; MOST_TASKS],
        }
    }

    fn start(&mut self, roster: &[u8], shape: &Shape) {
        for (ceiling, row) in self.ceilings.iter_mut().zip(shape.object_rows(roster)) {
            *ceiling = row[0];
        }
        for (t, row) in shape.task_rows(roster).enumerate() {
            self.active[t] = row[0];
            self.first[t] = (word(row, 2) / 4) as u16;
            self.at[t] = self.first[t];
            self.end[t] = self.first[t] + (word(row, 4) / 4) as u16;
            self.push_tail(t);
        }
        self.pick();
    }

    fn push_tail(&mut self, t: usize) {
        self.queues.join_tail(self.active[t], t as u8);
    }

    /// The running task has stopped: the head of the highest queue runs, or nobody.
    fn pick(&mut self) {
        let before = self.running;
        let highest = self.queues.highest();
        self.running = match highest {
            0 => NOBODY,
            _ => self.queues.pop(highest),
        };
        self.report = 2 * (self.running != before) as u8;
    }

    /// The running task goes on, unless a higher one is ready.
    fn preempt(&mut self, t: usize) {
        let highest = self.queues.highest();
        if highest > self.active[t] {
            self.queues.join_head(self.active[t], t as u8);
            self.running = self.queues.pop(highest);
            self.report = 1;
        }
    }

    fn dispatch(&mut self) {
        let t = self.running as usize;
        if t < MOST_TASKS {
            self.preempt(t);
        } else {
            self.pick();
        }
    }

    fn clock(&mut self, r: u64) -> u8 {
        if r.wrapping_sub(self.now) > LONGEST_ADVANCE {
            return 4;
        }
        self.now = r;
        if self.queues.next_due <= r {
            let (place, active) = (&mut self.place, &self.active);
            self.queues.wake(r, |t| {
                let t = t as usize % MOST_TASKS;
                place[t] = Place::Awake;
                active[t]
            });
            self.dispatch();
        }
        0
    }

    fn release(&mut self, t: usize) {
        if self.place[t] == Place::Suspended {
            self.place[t] = Place::Awake;
            self.push_tail(t);
            self.dispatch();
        } else {
            self.permit[t] = true;
        }
    }

    fn set(&mut self, t: usize, p: u64) -> u8 {
        if t >= self.tasks || t >= MOST_TASKS {
            return 1;
        }
        if !is_priority(p) {
            return 3;
        }
        if self.place[t] == Place::Ended {
            return 6;
        }
        let p = p as u8;
        if self.depth[t] > 0 {
            self.waiting[t] = p;
        } else if self.place[t] != Place::Awake {
            self.active[t] = p;
        } else if self.running as usize == t {
            self.rebase_running(t, p);
        } else {
            self.queues.take_out(self.active[t], t as u8);
            self.active[t] = p;
            self.push_tail(t);
            self.dispatch();
        }
        0
    }

    fn rebase_running(&mut self, t: usize, p: u8) {
        self.active[t] = p;
        self.push_tail(t);
        self.pick();
    }

    fn enter(&mut self, t: usize, o: usize) -> u8 {
        let (active, ceiling) = (self.active[t], self.ceilings[o]);
        if active > ceiling {
            return 8;
        }
        self.outer[o] = active;
        self.depth[t] += 1;
        self.active[t] = ceiling;
        0
    }

    fn leave(&mut self, t: usize, o: usize) {
        self.depth[t] -= 1;
        self.active[t] = self.outer[o];
        let p = self.waiting[t];
        if p != 0 && self.depth[t] == 0 {
            self.waiting[t] = 0;
            self.rebase_running(t, p);
        } else {
            self.preempt(t);
        }
    }

    fn put_off(&mut self, t: usize, d: u64) {
        if d == 0 {
            self.push_tail(t);
        } else {
            self.place[t] = Place::Delayed;
            self.queues.delay(t as u8, self.now + d);
        }
        self.pick();
    }

    fn suspend(&mut self, t: usize) {
        if self.permit[t] {
            self.permit[t] = false;
        } else {
            self.place[t] = Place::Suspended;
            self.pick();
        }
    }

    fn finish(&mut self, t: usize) {
        self.place[t] = Place::Ended;
        self.pick();
    }

    fn step(&mut self, steps: &[[u8; 4]]) -> u8 {
        let t = self.running as usize;
        if t >= MOST_TASKS {
            return 5;
        }
        let at = self.at[t];
        if at >= self.end[t] {
            self.finish(t);
            return 0;
        }
        let s = u32::from_le_bytes(steps[at as usize]);
        self.at[t] = at + 1;
        if s == WORK {
            return 0;
        }
        let object = || s as usize / 256 % MOST_OBJECTS;
        let value = || s as u64 / 65536;
        match s % 8 {
            1 => {
                let answer = self.enter(t, object());
                if answer != 0 {
                    self.at[t] = at;
                }
                return answer;
            }
            2 => self.leave(t, object()),
            3 => self.put_off(t, value()),
            5 => self.suspend(t),
            6 => self.release(s as usize / 256 % MOST_TASKS),
            7 => {
                self.set(t, value());
            }
            // Again is 8
            0 => self.at[t] = self.first[t],
            _ => {}
        }
        0
    }

    /// An event that is no Step.
    fn take_outside(&mut self, event: u64) -> u8 {
        let (a, value) = ((event >> 8) as u8 as usize, event >> 16);
        match event as u8 {
            1 => self.clock(value),
            2 if a >= self.tasks || a >= MOST_TASKS => 1,
            2 => {
                self.release(a);
                0
            }
            _ => self.set(a, value),
        }
    }
}

/// Three bytes per event: answer, running task or 255, report.
pub fn run(roster: &[u8], events: &[u8], buffer: &mut [u8]) -> Answer {
    let shape = match checked(roster) {
        Ok(shape) => shape,
        Err(refusal) => return refusal,
    };
    if !shape::events_are_good(events) {
        return (21, 0, 0);
    }
    if buffer.len() < shape::count_of(events) * REPLY_SIZE {
        return (22, 0, 0);
    }
    let mut m = Machine::empty(shape.tasks);
    m.start(roster, &shape);
    let (steps, _) = roster[..shape.task_table].as_chunks();
    let replies = buffer.chunks_exact_mut(REPLY_SIZE);
    for (event, reply) in shape::records(events).zip(replies) {
        m.report = 0;
        reply[0] = match event {
            STEP => m.step(steps),
            _ => m.take_outside(event),
        };
        reply[1] = m.running;
        reply[2] = m.report;
    }
    (0, 0, 0)
}
