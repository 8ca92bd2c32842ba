//! A run in plain Rust as a careful programmer writes and tunes it: the same job as the proved run, to be timed beside it.
//!
//! After every event it has the whole state of the rules and could hand it out: for each task its place, base, waiting base, permit, due
//! time and held objects, outermost first; the ready queues in order; now and who is running. It relies on the check, which is local: a
//! script that passes cannot be refused with 1, 2, 3, 6, 7 or 9, so these are not tested for a Step. It uses no fact about whole runs.

use second::state::{self, State};

use crate::limits::{LONGEST_ADVANCE, MOST_OBJECTS, MOST_TASKS, NOBODY, REPLY_SIZE};
use crate::queues::Queues;
use crate::shape::{self, is_priority, shape_of, word, Answer, Shape, STEP, WORK};

/// By code, what the operands of a step have to be below, so that most steps need one comparison; 0 where another test is needed, or
/// where there is no such code.
type Limits = [u8; 256];

fn limits_of(shape: &Shape) -> Limits {
    let mut limits = [0; 256];
    limits[1] = shape.objects as u8;
    limits[2] = shape.objects as u8;
    limits[4] = 1;
    limits[5] = 1;
    limits[6] = shape.tasks as u8;
    limits
}

/// Whether a step that no limit allows is one all the same: a Delay, a Set, or an Again at the end.
fn other_is_good(s: u32, last: bool, tasks: usize) -> bool {
    let (a, b) = (s as usize / 256 % 256, s >> 16);
    match s as u8 {
        3 => a == 0,
        7 => a < tasks && is_priority(b as u64),
        8 => s == 8 && last,
        _ => false,
    }
}

/// The highest of a base and the own Set values of its script, or the first step that is none: 16.
fn form(
    script: &[[u8; 4]],
    t: usize,
    base: u8,
    tasks: usize,
    limits: &Limits,
) -> Result<u8, usize> {
    let mut highest = base;
    let mut steps = script.iter();
    while let Some(step) = steps.next() {
        let s = u32::from_le_bytes(*step);
        if s >> 8 < limits[s as u8 as usize] as u32 {
            continue;
        }
        let left = steps.as_slice().len();
        if !other_is_good(s, left == 0, tasks) {
            return Err(script.len() - left - 1);
        }
        if s & 0xFFFF == own_set(t) {
            highest = highest.max((s >> 16) as u8);
        }
    }
    Ok(highest)
}

/// What a script holds while it is walked through. The innermost object is kept as the step that leaves it, or 0, with the priority
/// inside it above that; an object that is held keeps what was innermost before it.
struct Holding {
    ceilings: [u8; MOST_OBJECTS],
    innermost: u64,
    outer: [u64; MOST_OBJECTS],
}

/// For an object that is not held.
const FREE: u64 = u64::MAX;

impl Holding {
    /// 17 or 18, or 0.
    fn enter(&mut self, s: u32) -> u8 {
        let o = s as usize / 256 % MOST_OBJECTS;
        if self.outer[o] != FREE {
            return 17;
        }
        let ceiling = self.ceilings[o] as u64;
        if ceiling < self.innermost >> 32 {
            return 18;
        }
        self.outer[o] = self.innermost;
        // Leave is 2 where Enter is 1
        self.innermost = ceiling << 32 | (s ^ 3) as u64;
        0
    }

    fn leave(&mut self, s: u32) -> u8 {
        if s != self.innermost as u32 {
            return 19;
        }
        let o = s as usize / 256 % MOST_OBJECTS;
        self.innermost = self.outer[o];
        self.outer[o] = FREE;
        0
    }

    fn holds(&self) -> bool {
        self.innermost as u32 != 0
    }

    /// What is wrong with one script, and at which step: 17 to 20. Its steps have the form of steps.
    fn fault(&mut self, script: &[[u8; 4]], own_set: u32, highest: u8) -> Option<(u8, usize)> {
        self.innermost = (highest as u64) << 32;
        let mut steps = script.iter();
        while let Some(step) = steps.next() {
            let s = u32::from_le_bytes(*step);
            if s == WORK {
                continue;
            }
            let number = match s % 8 {
                1 => self.enter(s),
                2 => self.leave(s),
                3 | 5 | 0 if self.holds() => 17,
                7 if s & 0xFFFF != own_set => 20,
                _ => 0,
            };
            if number != 0 {
                return Some((number, script.len() - steps.as_slice().len() - 1));
            }
        }
        self.holds().then_some((17, script.len()))
    }
}

/// The step of a task that sets its own base, without the value.
fn own_set(t: usize) -> u32 {
    7 | (t as u32) << 8
}

fn ceilings_of(roster: &[u8], shape: &Shape) -> [u8; MOST_OBJECTS] {
    let mut ceilings = [0; MOST_OBJECTS];
    let rows = shape.object_rows(roster);
    for (ceiling, row) in ceilings.iter_mut().zip(rows) {
        *ceiling = row[0];
    }
    ceilings
}

fn script_of<'a>(roster: &'a [u8], row: &[u8]) -> &'a [[u8; 4]] {
    let start = word(row, 2);
    roster[start..start + word(row, 4)].as_chunks().0
}

/// The form of all scripts comes first, then what they do, in the order of the answers.
fn checked(roster: &[u8]) -> Result<Shape, Answer> {
    let shape = shape_of(roster).map_err(|number| (number, 0, 0))?;
    let rows = shape.task_rows(roster);
    let limits = limits_of(&shape);
    let mut highest = [0; MOST_TASKS];
    for (t, row) in rows.clone().enumerate() {
        let found = form(script_of(roster, row), t, row[0], shape.tasks, &limits);
        highest[t] = found.map_err(|k| (16, t, k))?;
    }
    let mut holding = Holding {
        ceilings: ceilings_of(roster, &shape),
        innermost: 0,
        outer: [FREE; MOST_OBJECTS],
    };
    for (t, row) in rows.enumerate() {
        if let Some((number, k)) = holding.fault(script_of(roster, row), own_set(t), highest[t]) {
            return Err((number, t, k));
        }
    }
    Ok(shape)
}

/// The answer of form and check.
pub fn check(roster: &[u8]) -> Answer {
    checked(roster).map_or_else(|refusal| refusal, |_| (0, 0, 0))
}

/// Where a task is; of those awake one may be running, and the others are ready.
#[derive(Clone, Copy, PartialEq)]
enum Place {
    Awake,
    Delayed,
    Suspended,
    Ended,
}

/// All that a run changes: the whole state of the rules, and beside it the active priorities, so that they need not be worked out again.
struct Machine<'a> {
    now: u64,
    running: u8,
    /// What this event reports.
    report: u8,
    tasks: usize,
    place: [Place; MOST_TASKS],
    base: [u8; MOST_TASKS],
    active: [u8; MOST_TASKS],
    waiting: [u8; MOST_TASKS],
    permit: [bool; MOST_TASKS],
    queues: Queues,
    /// The objects held, outermost first, and how many.
    held: [[u8; MOST_OBJECTS]; MOST_TASKS],
    depth: [u8; MOST_TASKS],
    ceilings: [u8; MOST_OBJECTS],
    /// Each task's script, and what is left of it.
    scripts: [Script<'a>; MOST_TASKS],
    left: [Script<'a>; MOST_TASKS],
}

type Script<'a> = std::slice::Iter<'a, [u8; 4]>;

impl<'a> Machine<'a> {
    /// Without the tasks, which `start` adds where it then stands: filled here, it would be copied as a whole.
    fn empty(roster: &[u8], shape: &Shape) -> Machine<'a> {
        Machine {
            now: 0,
            running: NOBODY,
            report: 0,
            tasks: shape.tasks,
            place: [Place::Awake; MOST_TASKS],
            base: [0; MOST_TASKS],
            active: [0; MOST_TASKS],
            waiting: [0; MOST_TASKS],
            permit: [false; MOST_TASKS],
            queues: Queues::new(),
            held: [[0; MOST_OBJECTS]; MOST_TASKS],
            depth: [0; MOST_TASKS],
            ceilings: ceilings_of(roster, shape),
            scripts: std::array::from_fn(|_| [].iter()),
            left: std::array::from_fn(|_| [].iter()),
        }
    }

    fn start(&mut self, roster: &'a [u8], shape: &Shape) {
        for (t, row) in shape.task_rows(roster).enumerate() {
            self.rebase(t, row[0]);
            self.scripts[t] = script_of(roster, row).iter();
            self.left[t] = self.scripts[t].clone();
            self.push_tail(t);
        }
        self.pick();
    }

    fn push_tail(&mut self, t: usize) {
        self.queues.join_tail(self.active[t], t as u8);
    }

    /// The running task has stopped: the head of the highest queue runs, or nobody.
    fn pick(&mut self) {
        let before = self.running;
        let highest = self.queues.highest();
        self.running = match highest {
            0 => NOBODY,
            _ => self.queues.pop(highest),
        };
        self.report = 2 * (self.running != before) as u8;
    }

    /// The running task goes on, unless a higher one is ready.
    fn preempt(&mut self, t: usize) {
        let highest = self.queues.highest();
        if highest > self.active[t] {
            self.queues.join_head(self.active[t], t as u8);
            self.running = self.queues.pop(highest);
            self.report = 1;
        }
    }

    fn dispatch(&mut self) {
        let t = self.running as usize;
        if t < MOST_TASKS {
            self.preempt(t);
        } else {
            self.pick();
        }
    }

    fn clock(&mut self, r: u64) -> u8 {
        // a reading below now is far above it when wrapped
        if r.wrapping_sub(self.now) > LONGEST_ADVANCE {
            return 4;
        }
        self.now = r;
        if self.queues.next_due <= r {
            let (place, active) = (&mut self.place, &self.active);
            self.queues.wake(r, |t| {
                let t = t as usize % MOST_TASKS;
                place[t] = Place::Awake;
                active[t]
            });
            self.dispatch();
        }
        0
    }

    fn release(&mut self, t: usize) {
        if self.place[t] == Place::Suspended {
            self.place[t] = Place::Awake;
            self.push_tail(t);
            self.dispatch();
        } else {
            self.permit[t] = true;
        }
    }

    fn set(&mut self, t: usize, p: u64) -> u8 {
        if t >= self.tasks || t >= MOST_TASKS {
            return 1;
        }
        if !is_priority(p) {
            return 3;
        }
        if self.place[t] == Place::Ended {
            return 6;
        }
        let p = p as u8;
        if self.depth[t] > 0 {
            self.waiting[t] = p;
        } else if self.place[t] != Place::Awake {
            self.rebase(t, p);
        } else if self.running as usize == t {
            self.rebase_running(t, p);
        } else {
            self.queues.take_out(self.active[t], t as u8);
            self.rebase(t, p);
            self.push_tail(t);
            self.dispatch();
        }
        0
    }

    fn rebase(&mut self, t: usize, p: u8) {
        self.base[t] = p;
        self.active[t] = p;
    }

    fn rebase_running(&mut self, t: usize, p: u8) {
        self.rebase(t, p);
        self.push_tail(t);
        self.pick();
    }

    fn enter(&mut self, t: usize, o: usize) -> u8 {
        let ceiling = self.ceilings[o];
        if self.active[t] > ceiling {
            self.repeat(t);
            return 8;
        }
        self.held[t][self.depth[t] as usize % MOST_OBJECTS] = o as u8;
        self.depth[t] += 1;
        self.active[t] = ceiling;
        0
    }

    fn leave(&mut self, t: usize) {
        self.depth[t] -= 1;
        let depth = self.depth[t] as usize;
        if depth > 0 {
            let innermost = self.held[t][(depth - 1) % MOST_OBJECTS];
            self.active[t] = self.ceilings[innermost as usize % MOST_OBJECTS];
            self.preempt(t);
        } else if self.waiting[t] != 0 {
            let p = self.waiting[t];
            self.waiting[t] = 0;
            self.rebase_running(t, p);
        } else {
            self.active[t] = self.base[t];
            self.preempt(t);
        }
    }

    fn put_off(&mut self, t: usize, d: u64) {
        if d == 0 {
            self.push_tail(t);
        } else {
            self.place[t] = Place::Delayed;
            self.queues.delay(t as u8, self.now + d);
        }
        self.pick();
    }

    fn suspend(&mut self, t: usize) {
        if self.permit[t] {
            self.permit[t] = false;
        } else {
            self.place[t] = Place::Suspended;
            self.pick();
        }
    }

    fn finish(&mut self, t: usize) {
        self.place[t] = Place::Ended;
        self.pick();
    }

    /// The step just taken is the next one again.
    fn repeat(&mut self, t: usize) {
        let script = self.scripts[t].as_slice();
        self.left[t] = script[script.len() - self.left[t].len() - 1..].iter();
    }

    fn step(&mut self) -> u8 {
        let t = self.running as usize;
        if t >= MOST_TASKS {
            return 5;
        }
        let Some(step) = self.left[t].next() else {
            self.finish(t);
            return 0;
        };
        let s = u32::from_le_bytes(*step);
        if s == WORK {
            return 0;
        }
        let value = || (s >> 16) as u64;
        match s % 8 {
            1 => return self.enter(t, s as usize / 256 % MOST_OBJECTS),
            2 => self.leave(t),
            3 => self.put_off(t, value()),
            5 => self.suspend(t),
            6 => self.release(s as usize / 256 % MOST_TASKS),
            7 => {
                self.set(t, value());
            }
            // Again is 8
            0 => self.left[t] = self.scripts[t].clone(),
            _ => {}
        }
        0
    }

    /// Writes three bytes per event: answer, running task or 255, report.
    fn take_all(&mut self, events: &[u8], buffer: &mut [u8]) {
        let replies = buffer.chunks_exact_mut(REPLY_SIZE);
        for (event, reply) in shape::records(events).zip(replies) {
            self.report = 0;
            reply[0] = match event {
                STEP => self.step(),
                _ => self.take_outside(event),
            };
            reply[1] = self.running;
            reply[2] = self.report;
        }
    }

    /// An event that is no Step.
    fn take_outside(&mut self, event: u64) -> u8 {
        let (a, value) = ((event >> 8) as u8 as usize, event >> 16);
        match event as u8 {
            1 => self.clock(value),
            2 if a >= self.tasks || a >= MOST_TASKS => 1,
            2 => {
                self.release(a);
                0
            }
            _ => self.set(a, value),
        }
    }
}

impl Machine<'_> {
    fn task(&self, t: usize) -> state::Task {
        let held = &self.held[t][..self.depth[t] as usize];
        state::Task {
            base: self.base[t] as u64,
            place: match self.place[t] {
                Place::Awake if self.running as usize == t => state::Place::Running,
                Place::Awake => state::Place::Ready,
                Place::Delayed => state::Place::Delayed {
                    due: self.queues.due(t),
                },
                Place::Suspended => state::Place::Suspended,
                Place::Ended => state::Place::Ended,
            },
            permit: self.permit[t],
            held: held.iter().map(|o| *o as usize).collect(),
            waiting: (self.waiting[t] != 0).then_some(self.waiting[t] as u64),
        }
    }

    /// The whole state of the rules.
    fn state(&self, objects: usize) -> State {
        let ceilings = self.ceilings[..objects].iter();
        let queue = |i: usize| self.queues.queue(i as u8 + 1).collect();
        State {
            now: self.now,
            tasks: (0..self.tasks).map(|t| self.task(t)).collect(),
            ceilings: ceilings.map(|c| *c as u64).collect(),
            queues: std::array::from_fn(queue),
            marks: self.queues.marks(),
            running: (self.running != NOBODY).then_some(self.running as usize),
        }
    }
}

/// The state after each event of a good run; through `take_all`, so that what is timed is what is tested here.
pub fn states(roster: &[u8], events: &[u8]) -> Vec<State> {
    let Ok(shape) = checked(roster) else {
        return Vec::new();
    };
    let mut m = Machine::empty(roster, &shape);
    m.start(roster, &shape);
    let after = |e| {
        m.take_all(e, &mut [0; REPLY_SIZE]);
        m.state(shape.objects)
    };
    events.chunks_exact(8).map(after).collect()
}

/// Three bytes per event: answer, running task or 255, report.
pub fn run(roster: &[u8], events: &[u8], buffer: &mut [u8]) -> Answer {
    let shape = match checked(roster) {
        Ok(shape) => shape,
        Err(refusal) => return refusal,
    };
    if !shape::events_are_good(events) {
        return (21, 0, 0);
    }
    if buffer.len() < shape::count_of(events) * REPLY_SIZE {
        return (22, 0, 0);
    }
    let mut m = Machine::empty(roster, &shape);
    m.start(roster, &shape);
    m.take_all(events, buffer);
    (0, 0, 0)
}
