//! Made parts of rosters for the writer: good ones of all sizes, and faults of every kind planted in them.

use second::writer::{length, Parts};

use crate::random::Random;
use crate::report::hex;
use crate::rosters::{passing, plant, step, Plan, STEP_SIZE, WORK};
use crate::sizes::{LARGEST_ROSTER, MOST_OBJECTS, MOST_TASKS};

/// What a plan is written from.
pub fn parts_of(plan: &Plan) -> Parts {
    let steps = plan.scripts.iter().flatten();
    Parts {
        bases: plan.bases.clone(),
        ceilings: plan.ceilings.clone(),
        lengths: plan.scripts.iter().map(|s| s.len() as u16).collect(),
        steps: steps.flat_map(|s| s.bytes()).collect(),
    }
}

/// All of them, for a failure.
pub fn shown(parts: &Parts) -> String {
    let Parts {
        bases,
        ceilings,
        lengths,
        steps,
    } = parts;
    let steps = hex(steps);
    format!("bases {bases:?}, ceilings {ceilings:?}, lengths {lengths:?}, steps {steps}")
}

/// Gives a task so many more steps, which are Works before its others.
pub fn lengthen(parts: &mut Parts, task: usize, steps: usize) {
    let before = parts.lengths[..task].iter();
    let at = STEP_SIZE * before.map(|n| usize::from(*n)).sum::<usize>();
    let more = step(WORK, 0, 0).bytes().repeat(steps);
    parts.steps.splice(at..at, more);
    parts.lengths[task] += steps as u16;
}

/// Works that bring the file this many steps past the most that fit; 0 fills it up.
pub fn fill_up(parts: &mut Parts, task: usize, past: usize) {
    let room = LARGEST_ROSTER.saturating_sub(length(parts));
    lengthen(parts, task, room / STEP_SIZE + past);
}

/// The faults that are made in the parts: 11, 13 and 14.
pub fn spoil(random: &mut Random, parts: &mut Parts, number: u8) {
    match number {
        11 => {
            let past = random.pick(&[1, 1, 2, 99]);
            fill_up(parts, random.below(parts.bases.len()), past);
        }
        13 => bad_counts(random, parts),
        _ => bad_lengths(random, parts),
    }
}

fn bad_counts(random: &mut Random, parts: &mut Parts) {
    match random.below(4) {
        0 => {
            *parts = Parts {
                ceilings: parts.ceilings.clone(),
                ..nothing()
            }
        }
        1 | 2 => {
            let tasks = MOST_TASKS + random.pick(&[1, 1, 2, 192]);
            parts.bases.resize(tasks, 1);
            parts.lengths.resize(tasks - random.below(2), 0);
        }
        _ => {
            let objects = MOST_OBJECTS + random.pick(&[1, 1, 2, 224]);
            parts.ceilings.resize(objects, 32);
        }
    }
}

/// Nothing at all.
pub fn nothing() -> Parts {
    Parts {
        bases: Vec::new(),
        ceilings: Vec::new(),
        lengths: Vec::new(),
        steps: Vec::new(),
    }
}

fn bad_lengths(random: &mut Random, parts: &mut Parts) {
    let t = random.below(parts.lengths.len());
    match random.below(8) {
        0 => parts.lengths[t] += 1,
        1 => parts.lengths[t] = parts.lengths[t].wrapping_sub(1),
        // so many bytes more that two bytes do not show it
        2 => parts.lengths[t] = parts.lengths[t].wrapping_add(1 << 14),
        3 => parts.lengths.insert(t, 0),
        4 => drop(parts.lengths.drain(t..=t)),
        5 => parts.steps.extend(step(WORK, 0, 0).bytes()),
        6 => parts.steps.extend(vec![0; random.within(1, 3)]),
        _ => match parts.steps.len() {
            0 => parts.steps.push(0),
            n => parts.steps.truncate(n - random.within(1, STEP_SIZE)),
        },
    }
}

/// Short lists of any bytes, whose lengths add up half of the time.
fn noise(random: &mut Random) -> Parts {
    let mut list = |most: usize| -> Vec<u8> {
        let count = random.below(most + 1);
        (0..count).map(|_| random.byte() % 36).collect()
    };
    let (bases, ceilings, lengths, steps) = (list(3), list(3), list(3), list(40));
    let mut parts = Parts {
        bases,
        ceilings,
        lengths: lengths.iter().map(|n| u16::from(n % 4)).collect(),
        steps,
    };
    if random.once_in(2) {
        parts.lengths.resize(parts.bases.len(), 1);
        let steps: u16 = parts.lengths.iter().sum();
        parts.steps.resize(STEP_SIZE * usize::from(steps), 0);
    }
    parts
}

/// One fault in a plan's parts: 11, or 13 to 20.
fn with_fault(random: &mut Random, plan: &mut Plan, number: u8) -> Parts {
    if number >= 15 {
        plant(random, plan, number);
    }
    let mut parts = parts_of(plan);
    if number < 15 {
        spoil(random, &mut parts, number);
    }
    parts
}

/// Made parts: about half are written, some of which the check refuses; the others have one fault, two, or any bytes.
pub fn made(seed: u64) -> Parts {
    let mut random = Random::new(seed);
    let mut plan = passing(&mut random);
    let turn = seed / 12;
    match seed % 12 {
        0..=4 => parts_of(&plan),
        5 => with_fault(&mut random, &mut plan, 17 + (turn % 4) as u8),
        6 | 7 => with_fault(&mut random, &mut plan, 13 + (turn % 4) as u8),
        8 => {
            plant(&mut random, &mut plan, 15 + (turn % 2) as u8);
            let number = random.pick(&[11, 13, 14, 14, 15, 16]);
            with_fault(&mut random, &mut plan, number)
        }
        9 if turn % 4 == 0 => with_fault(&mut random, &mut plan, 11),
        9 => with_fault(&mut random, &mut plan, 14),
        10 => noise(&mut random),
        _ => {
            let mut parts = parts_of(&plan);
            if turn % 4 == 0 {
                fill_up(&mut parts, random.below(plan.bases.len()), 0);
            }
            parts
        }
    }
}

/// Made parts, and how many bytes are lent for them: just enough mostly, or more; a little too few, or far too few.
pub fn lent(seed: u64) -> (Parts, usize) {
    let parts = made(seed);
    let mut random = Random::new(!seed);
    let size = length(&parts);
    let room = match random.below(10) {
        0 => size - 1,
        1 => size - random.within(1, size),
        2 => 0,
        3..=5 => size + random.below(20),
        6 => LARGEST_ROSTER + random.below(20),
        _ => size,
    };
    (parts, room)
}
