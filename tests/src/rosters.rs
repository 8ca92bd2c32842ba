//! Made rosters: passing ones of all shapes up to the limits, and faults of every kind planted in them.

use crate::random::Random;
use crate::sizes::{
    LARGEST_ROSTER, LAST_OBJECT, LAST_TASK, MOST_OBJECTS, MOST_TASKS, SMALLEST_ROSTER,
};

pub const TRAILER: usize = 8;
pub const TASK_ROW: usize = 6;
pub const OBJECT_ROW: usize = 2;
pub const STEP_SIZE: usize = 4;

/// Document 01's roster of 46 bytes.
pub const WHOLE_CASE: &str = "01000000 04000000 02000000 03000500 01000000 02000000 \
    0A0000000C00 14000C000C00 1400 5235020124001800";

pub const ENTER: u8 = 1;
pub const LEAVE: u8 = 2;
pub const DELAY: u8 = 3;
pub const WORK: u8 = 4;
pub const SUSPEND: u8 = 5;
pub const RELEASE: u8 = 6;
pub const SET: u8 = 7;
pub const AGAIN: u8 = 8;

/// Code, first operand, second operand.
#[derive(Clone, Copy, Debug, PartialEq, Eq)]
pub struct Step {
    pub code: u8,
    pub a: u8,
    pub b: u16,
}

pub const fn step(code: u8, a: u8, b: u16) -> Step {
    Step { code, a, b }
}

impl Step {
    pub const fn bytes(self) -> [u8; STEP_SIZE] {
        let [low, high] = self.b.to_le_bytes();
        [self.code, self.a, low, high]
    }
}

/// What a roster says, before it is bytes.
#[derive(Clone, Debug)]
pub struct Plan {
    pub bases: Vec<u8>,
    pub ceilings: Vec<u8>,
    pub scripts: Vec<Vec<Step>>,
}

impl Plan {
    /// Scripts, task table, object table, trailer.
    pub fn bytes(&self) -> Vec<u8> {
        let mut bytes = Vec::new();
        let mut rows = Vec::new();
        for (base, script) in self.bases.iter().zip(&self.scripts) {
            rows.extend([*base, 0]);
            rows.extend((bytes.len() as u16).to_le_bytes());
            rows.extend(((STEP_SIZE * script.len()) as u16).to_le_bytes());
            bytes.extend(script.iter().flat_map(|s| s.bytes()));
        }
        let task_table = bytes.len() as u16;
        bytes.extend(rows);
        let object_table = bytes.len() as u16;
        for ceiling in &self.ceilings {
            bytes.extend([*ceiling, 0]);
        }
        bytes.extend([
            0x52,
            0x35,
            self.bases.len() as u8,
            self.ceilings.len() as u8,
        ]);
        bytes.extend(object_table.to_le_bytes());
        bytes.extend(task_table.to_le_bytes());
        bytes
    }
}

/// How many tasks and objects: small ones mostly, the limits now and then.
fn counts(random: &mut Random) -> (usize, usize) {
    let tasks = match random.below(8) {
        0 => 1,
        1 => MOST_TASKS,
        2 => random.within(1, MOST_TASKS),
        _ => random.within(2, 5),
    };
    let objects = match random.below(8) {
        0 => 0,
        1 => MOST_OBJECTS,
        2 => random.within(0, MOST_OBJECTS),
        _ => random.within(1, 4),
    };
    (tasks, objects)
}

/// How many steps all the scripts of a roster have at most.
pub fn most_steps(tasks: usize, objects: usize) -> usize {
    (LARGEST_ROSTER - TRAILER - OBJECT_ROW * objects - TASK_ROW * tasks) / STEP_SIZE
}

/// A roster that keeps every rule.
pub fn passing(random: &mut Random) -> Plan {
    let (tasks, objects) = counts(random);
    let longest = match random.below(40) {
        0 => most_steps(tasks, objects) / tasks,
        _ => random.within(0, 12),
    };
    passing_of(random, [tasks, objects], longest)
}

/// The same with so many tasks and objects, and scripts of at most so many steps.
pub fn passing_of(random: &mut Random, [tasks, objects]: [usize; 2], longest: usize) -> Plan {
    let spread = random.pick(&[2, 4, 32]);
    let ceilings = (0..objects)
        .map(|_| random.within(33 - spread, 32) as u8)
        .collect::<Vec<_>>();
    let bases = (0..tasks)
        .map(|_| random.within(1, spread) as u8)
        .collect::<Vec<_>>();
    let mut plan = Plan {
        bases,
        ceilings,
        scripts: Vec::new(),
    };
    for t in 0..tasks {
        let length = random.within(0, longest);
        let script = script_of(random, &plan, t, length);
        plan.scripts.push(script);
    }
    plan
}

/// A script of at most `length` steps for task `t` that keeps every rule.
fn script_of(random: &mut Random, plan: &Plan, t: usize, length: usize) -> Vec<Step> {
    let set_values = random.within(1, 32) as u8;
    let sets = random.once_in(3);
    let top = if sets {
        plan.bases[t].max(set_values)
    } else {
        plan.bases[t]
    };
    let mut script = Vec::new();
    let mut held: Vec<u8> = Vec::new();
    // a Leave is owed for everything held
    while script.len() + held.len() < length {
        let next = next_step(random, plan, t, top, sets, &mut held);
        script.push(next);
    }
    while let Some(o) = held.pop() {
        script.push(step(LEAVE, o, 0));
    }
    if script.len() < length.max(1) && random.once_in(3) {
        script.push(step(AGAIN, 0, 0));
    }
    script
}

fn next_step(
    random: &mut Random,
    plan: &Plan,
    t: usize,
    top: u8,
    sets: bool,
    held: &mut Vec<u8>,
) -> Step {
    let level = held
        .iter()
        .map(|o| plan.ceilings[*o as usize])
        .max()
        .unwrap_or(0)
        .max(top);
    let open: Vec<u8> = (0..plan.ceilings.len() as u8)
        .filter(|o| !held.contains(o) && plan.ceilings[*o as usize] >= level)
        .collect();
    match random.below(9) {
        0 | 1 if !open.is_empty() => {
            let o = random.pick(&open);
            held.push(o);
            step(ENTER, o, 0)
        }
        2 | 3 => match held.pop() {
            Some(o) => step(LEAVE, o, 0),
            None => step(WORK, 0, 0),
        },
        4 if held.is_empty() => step(DELAY, 0, random.pick(&[0, 1, 2, 5, 65_535])),
        5 if held.is_empty() => step(SUSPEND, 0, 0),
        6 => step(RELEASE, random.below(plan.bases.len()) as u8, 0),
        7 if sets => step(SET, t as u8, random.within(1, top as usize) as u16),
        _ => step(WORK, 0, 0),
    }
}

/// A small roster that passes and has every step: three tasks, the last without steps, and two objects.
pub fn every_step() -> Plan {
    let first = vec![
        step(ENTER, 0, 0),
        step(SET, 0, 9),
        step(ENTER, 1, 0),
        step(RELEASE, 2, 0),
        step(LEAVE, 1, 0),
        step(WORK, 0, 0),
        step(LEAVE, 0, 0),
        step(DELAY, 0, 300),
        step(AGAIN, 0, 0),
    ];
    let second = vec![
        step(SUSPEND, 0, 0),
        step(DELAY, 0, 0),
        step(ENTER, 1, 0),
        step(LEAVE, 1, 0),
    ];
    Plan {
        bases: vec![9, 12, 5],
        ceilings: vec![20, 25],
        scripts: vec![first, second, Vec::new()],
    }
}

/// Priorities from 1 to 32 for so many tasks or objects, as evenly as may be, the last number the highest.
pub fn rising(count: usize) -> Vec<u8> {
    let numbers = 1..=count;
    numbers.map(|n| (32 * n).div_ceil(count) as u8).collect()
}

/// A roster of all the tasks and objects there can be that passes, with a step or two for each task.
pub fn most_rows() -> Plan {
    let (last_task, last_object) = (LAST_TASK as u8, LAST_OBJECT as u8);
    let script = |t: usize| match t % 4 {
        0 => vec![step(WORK, 0, 0), step(AGAIN, 0, 0)],
        1 => vec![step(ENTER, last_object, 0), step(LEAVE, last_object, 0)],
        2 => vec![step(RELEASE, last_task, 0)],
        _ => vec![step(SET, t as u8, 32)],
    };
    Plan {
        bases: rising(MOST_TASKS),
        ceilings: rising(MOST_OBJECTS),
        scripts: (0..MOST_TASKS).map(script).collect(),
    }
}

/// A roster that passes and has exactly the largest size, where whole steps fill it; all tasks but the last have one step.
pub fn largest(tasks: usize, objects: usize) -> Plan {
    let steps = most_steps(tasks, objects);
    let mut scripts = vec![vec![step(WORK, 0, 0)]; tasks - 1];
    scripts.push(vec![step(WORK, 0, 0); steps - (tasks - 1)]);
    Plan {
        bases: vec![15; tasks],
        ceilings: vec![15; objects],
        scripts,
    }
}

/// A roster of exactly the largest size that passes, with all the tasks and objects there can be: each task holds all objects at once,
/// sets its base, releases the next task and waits, again and again; Works fill up its share.
pub fn busiest() -> Plan {
    let steps = most_steps(MOST_TASKS, MOST_OBJECTS);
    let share = steps / MOST_TASKS;
    let script = |t: usize| {
        let length = match t {
            LAST_TASK => steps - LAST_TASK * share,
            _ => share,
        };
        let round = busy_round(t as u8);
        let mut script = round.repeat((length - 1) / round.len());
        script.resize(length - 1, step(WORK, 0, 0));
        script.push(step(AGAIN, 0, 0));
        script
    };
    // equal ceilings and rising ones
    let ceiling = |o: usize| 20 + (12 * o / LAST_OBJECT) as u8;
    Plan {
        bases: vec![10; MOST_TASKS],
        ceilings: (0..MOST_OBJECTS).map(ceiling).collect(),
        scripts: (0..MOST_TASKS).map(script).collect(),
    }
}

fn busy_round(t: u8) -> Vec<Step> {
    let objects = 0..MOST_OBJECTS as u8;
    let mut round: Vec<Step> = objects.clone().map(|o| step(ENTER, o, 0)).collect();
    round.push(step(SET, t, 1 + u16::from(t % 20)));
    round.extend(objects.rev().map(|o| step(LEAVE, o, 0)));
    let next = (t + 1) % MOST_TASKS as u8;
    round.extend([step(RELEASE, next, 0), step(WORK, 0, 0)]);
    round.extend([step(SUSPEND, 0, 0), step(DELAY, 0, t.into())]);
    round
}

/// A place to put a step: at the start, in the middle, or at the end, before an Again.
fn place_in(random: &mut Random, script: &[Step]) -> usize {
    let last = match script.last() {
        Some(s) if s.code == AGAIN => script.len() - 1,
        _ => script.len(),
    };
    match random.below(3) {
        0 => 0,
        1 => last,
        _ => random.within(0, last),
    }
}

fn insert(random: &mut Random, plan: &mut Plan, t: usize, steps: &[Step]) {
    let at = place_in(random, &plan.scripts[t]);
    for (i, s) in steps.iter().enumerate() {
        plan.scripts[t].insert(at + i, *s);
    }
}

/// The faults that are made in the plan: 15 to 20.
pub fn plant(random: &mut Random, plan: &mut Plan, number: u8) {
    let t = random.below(plan.bases.len());
    match number {
        15 => bad_value(random, plan),
        16 => bad_step(random, plan, t),
        17 => while_held(random, plan, t),
        18 => low_ceiling(random, plan, t),
        19 => not_innermost(random, plan, t),
        _ => {
            if plan.bases.len() == 1 {
                plan.bases.push(1);
                plan.scripts.push(Vec::new());
            }
            let other = (t + 1 + random.below(plan.bases.len() - 1)) % plan.bases.len();
            insert(random, plan, t, &[step(SET, other as u8, 1)]);
        }
    }
}

fn bad_value(random: &mut Random, plan: &mut Plan) {
    let value = random.pick(&[0, 33, 255]);
    if plan.ceilings.is_empty() || random.once_in(2) {
        let t = random.below(plan.bases.len());
        plan.bases[t] = value;
    } else {
        let o = random.below(plan.ceilings.len());
        plan.ceilings[o] = value;
    }
}

fn bad_step(random: &mut Random, plan: &mut Plan, t: usize) {
    let tasks = plan.bases.len() as u8;
    let objects = plan.ceilings.len() as u8;
    let wrong = random.pick(&[
        step(0, 0, 0),
        step(9, 0, 0),
        step(255, 1, 1),
        step(ENTER, objects, 0),
        step(LEAVE, objects, 0),
        step(LEAVE, 200, 0),
        step(ENTER, 0, 1),
        step(DELAY, 1, 0),
        step(WORK, 1, 0),
        step(WORK, 0, 256),
        step(SUSPEND, 0, 1),
        step(SUSPEND, 9, 0),
        step(RELEASE, tasks, 0),
        step(RELEASE, 0, 1),
        step(SET, tasks, 1),
        step(SET, t as u8, 0),
        step(SET, t as u8, 33),
        step(SET, t as u8, 257),
        step(AGAIN, 1, 0),
        step(AGAIN, 0, 1),
    ]);
    if random.once_in(8) {
        insert(random, plan, t, &[step(AGAIN, 0, 0), step(WORK, 0, 0)]);
    } else {
        insert(random, plan, t, &[wrong]);
    }
}

/// An object that every task may enter at any point.
fn open_object(plan: &mut Plan, random: &mut Random) -> u8 {
    if plan.ceilings.len() < MOST_OBJECTS {
        plan.ceilings.push(32);
        return plan.ceilings.len() as u8 - 1;
    }
    let o = random.below(MOST_OBJECTS);
    plan.ceilings[o] = 32;
    o as u8
}

fn while_held(random: &mut Random, plan: &mut Plan, t: usize) {
    let o = open_object(plan, random);
    let inner = random.pick(&[
        step(DELAY, 0, 0),
        step(DELAY, 0, 7),
        step(SUSPEND, 0, 0),
        step(ENTER, o, 0),
    ]);
    match random.below(3) {
        0 => insert(
            random,
            plan,
            t,
            &[step(ENTER, o, 0), inner, step(LEAVE, o, 0)],
        ),
        1 => plan.scripts[t].insert(0, step(ENTER, o, 0)),
        _ => {
            let end = plan.scripts[t]
                .iter()
                .position(|s| s.code == AGAIN)
                .unwrap_or(plan.scripts[t].len());
            plan.scripts[t].insert(end, step(ENTER, o, 0));
        }
    }
}

fn low_ceiling(random: &mut Random, plan: &mut Plan, t: usize) {
    let o = open_object(plan, random);
    plan.ceilings[o as usize] = 5;
    plan.bases[t] = plan.bases[t].min(5);
    match random.below(3) {
        // below the base
        0 => {
            plan.bases[t] = random.within(6, 32) as u8;
            insert(random, plan, t, &[step(ENTER, o, 0), step(LEAVE, o, 0)]);
        }
        // below a Set value that comes before or after
        1 => {
            insert(random, plan, t, &[step(ENTER, o, 0), step(LEAVE, o, 0)]);
            let value = random.within(6, 32) as u16;
            insert(random, plan, t, &[step(SET, t as u8, value)]);
        }
        // below a held ceiling
        _ => {
            let high = (o + 1) % plan.ceilings.len().max(1) as u8;
            insert(
                random,
                plan,
                t,
                &[
                    step(ENTER, high, 0),
                    step(ENTER, o, 0),
                    step(LEAVE, o, 0),
                    step(LEAVE, high, 0),
                ],
            );
        }
    }
}

fn not_innermost(random: &mut Random, plan: &mut Plan, t: usize) {
    let o = open_object(plan, random);
    let p = open_object(plan, random);
    if o != p && random.once_in(2) {
        let crossed = [
            step(ENTER, o, 0),
            step(ENTER, p, 0),
            step(LEAVE, o, 0),
            step(LEAVE, p, 0),
        ];
        insert(random, plan, t, &crossed);
    } else {
        insert(random, plan, t, &[step(LEAVE, o, 0)]);
    }
}

/// The faults that are made in the bytes: 11 to 15.
pub fn damage(random: &mut Random, bytes: &mut Vec<u8>, number: u8) {
    let trailer = bytes.len() - TRAILER;
    match number {
        11 => match random.below(3) {
            0 => bytes.truncate(random.below(SMALLEST_ROSTER)),
            1 => bytes.clear(),
            _ => bytes.resize(LARGEST_ROSTER + random.within(1, 99), 0),
        },
        12 => bytes[trailer + random.below(2)] ^= random.byte() | 1,
        13 => match random.below(3) {
            0 => bytes[trailer + 2] = random.pick(&[0, MOST_TASKS as u8 + 1, 255]),
            _ => bytes[trailer + 3] = MOST_OBJECTS as u8 + random.pick(&[1, 2, 200]),
        },
        14 => off_layout(random, bytes),
        _ => {
            // the second byte of a row of either table
            let (tasks, objects) = (bytes[trailer + 2] as usize, bytes[trailer + 3] as usize);
            let table = u16::from_le_bytes([bytes[trailer + 6], bytes[trailer + 7]]) as usize;
            let row = match random.below(tasks + objects) {
                t if t < tasks => TASK_ROW * t,
                o => TASK_ROW * tasks + OBJECT_ROW * (o - tasks),
            };
            bytes[table + row + 1] = 1 << random.below(8);
        }
    }
}

fn off_layout(random: &mut Random, bytes: &mut Vec<u8>) {
    let trailer = bytes.len() - TRAILER;
    let table = u16::from_le_bytes([bytes[trailer + 6], bytes[trailer + 7]]) as usize;
    let tasks = bytes[trailer + 2] as usize;
    match random.below(4) {
        // a start in the trailer
        0 => {
            let at = trailer + 4 + random.below(4);
            bytes[at] = bytes[at].wrapping_add(random.pick(&[1, 2, 4, 255]));
        }
        // a start or a length in a task row
        1 => {
            let at = table + TASK_ROW * random.below(tasks) + 2 + random.below(4);
            bytes[at] = bytes[at].wrapping_add(random.pick(&[1, 2, 4, 252]));
        }
        // a gap
        2 => {
            let at = random.within(0, trailer);
            for _ in 0..random.pick(&[1, 2, 4, 6]) {
                bytes.insert(at, 0);
            }
        }
        _ => {
            bytes.remove(random.below(trailer.max(1)));
        }
    }
}

/// One made roster: most pass, the others have one fault, two, or none that was planned.
pub fn made(seed: u64) -> Vec<u8> {
    let mut random = Random::new(seed);
    let mut plan = passing(&mut random);
    match seed % 10 {
        0..=5 => plan.bytes(),
        6 | 7 => with_fault(&mut random, &mut plan, 11 + (seed / 10 % 10) as u8),
        8 => {
            plant(&mut random, &mut plan, 15 + (seed / 10 % 6) as u8);
            with_fault(&mut random, &mut plan, 11 + (seed / 60 % 10) as u8)
        }
        _ => noise(&mut random, plan.bytes()),
    }
}

fn with_fault(random: &mut Random, plan: &mut Plan, number: u8) -> Vec<u8> {
    if number >= 16 || (number == 15 && random.once_in(2)) {
        plant(random, plan, number);
        return plan.bytes();
    }
    let mut bytes = plan.bytes();
    damage(random, &mut bytes, number);
    bytes
}

/// One byte changed, cut, extended, or nothing but noise.
fn noise(random: &mut Random, mut bytes: Vec<u8>) -> Vec<u8> {
    match random.below(4) {
        0 => bytes.truncate(random.below(bytes.len() + 1)),
        1 => bytes.extend((0..random.within(1, 9)).map(|_| 0)),
        2 => bytes = (0..random.below(80)).map(|_| random.byte()).collect(),
        _ => {
            let at = random.below(bytes.len());
            bytes[at] = random.byte();
        }
    }
    bytes
}
