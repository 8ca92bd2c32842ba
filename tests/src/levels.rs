//! Made pairs of rosters that agree above a level and differ in all else, the events that both are given, and pairs in which one
//! premise of request 2026-05 is broken.

use second::roster::admit;
use second::run::Command;

use crate::events::reading_of;
use crate::premises::{Pair, Premise};
use crate::random::Random;
use crate::rosters::{step, Plan, Step, AGAIN, DELAY, ENTER, LEAVE, RELEASE, SET, SUSPEND, WORK};
use crate::sizes::{MOST_OBJECTS, MOST_TASKS};

/// How many events a pair is given.
pub const EVENTS: usize = 200;
/// The highest priority, and the highest level.
pub const HIGHEST: u8 = 32;

/// A pair that meets every premise, at a random level: mostly one with room on both sides; now and then 0, with every task above,
/// or 32, with none.
pub fn agreeing(random: &mut Random) -> Pair {
    let level = match random.below(16) {
        0 => 0,
        1 => HIGHEST,
        _ => random.within(1, 31) as u8,
    };
    pair_at(random, level)
}

/// Which numbers are above the level, and how many numbers each roster has.
struct Numbers {
    above: Vec<usize>,
    counts: [usize; 2],
}

/// A few numbers mostly, up to the limit now and then; those above lie scattered among the ones that both rosters have.
fn numbers(random: &mut Random, level: u8, least: usize, most: usize) -> Numbers {
    let many = random.once_in(16);
    let above = match level {
        HIGHEST => 0,
        _ if many => random.within(least, most),
        _ => random.within(least, 3),
    };
    let counts = [0, 1].map(|_| match level {
        0 => above,
        _ if many => random.within(above.max(least), most),
        _ => random.within(above.max(least), above + 4),
    });
    let mut free: Vec<usize> = (0..counts[0].min(counts[1])).collect();
    let scattered = (0..above).map(|_| free.swap_remove(random.below(free.len())));
    Numbers {
        above: scattered.collect(),
        counts,
    }
}

/// A priority above the level or not, at most `spread` away from the border: with a small one many tasks have equals.
fn priority(random: &mut Random, level: u8, above: bool, spread: usize) -> u8 {
    let level = level as usize;
    let value = match above {
        true => random.within(level + 1, (level + spread).min(HIGHEST as usize)),
        false => random.within((level + 1).saturating_sub(spread).max(1), level),
    };
    value as u8
}

fn pair_at(random: &mut Random, level: u8) -> Pair {
    let tasks = numbers(random, level, 1, MOST_TASKS);
    let objects = numbers(random, level, 0, MOST_OBJECTS);
    let mut rosters = [0, 1].map(|r| rows(random, level, [&tasks, &objects], r));
    let [a, b] = &mut rosters;
    tasks.above.iter().for_each(|&t| b.bases[t] = a.bases[t]);
    let shared = objects.above.iter();
    shared.for_each(|&o| b.ceilings[o] = a.ceilings[o]);
    let events = events_of(random, tasks.counts);
    let mut pair = Pair {
        level,
        rosters,
        events: [events.clone(), events],
    };
    write_scripts(random, &mut pair);
    pair
}

/// The bases and ceilings of one roster, its scripts empty.
fn rows(random: &mut Random, level: u8, [tasks, objects]: [&Numbers; 2], r: usize) -> Plan {
    let spread = random.pick(&[1, 2, 4, 32]);
    let bases = (0..tasks.counts[r])
        .map(|t| priority(random, level, tasks.above.contains(&t), spread))
        .collect::<Vec<_>>();
    let ceilings = (0..objects.counts[r])
        .map(|o| match objects.above.contains(&o) {
            // any ceiling above, so that most are high enough to be entered
            true => priority(random, level, true, 32),
            false => priority(random, level, false, spread),
        })
        .collect();
    Plan {
        scripts: vec![Vec::new(); bases.len()],
        bases,
        ceilings,
    }
}

/// The tasks of a roster on one side of the level; in a pair that is made, the base tells.
fn tasks_of(pair: &Pair, r: usize, above: bool) -> Vec<u8> {
    side_of(&pair.rosters[r].bases, pair.level, above)
}

/// The objects of a roster on one side of the level.
fn objects_of(pair: &Pair, r: usize, above: bool) -> Vec<u8> {
    side_of(&pair.rosters[r].ceilings, pair.level, above)
}

fn side_of(values: &[u8], level: u8, above: bool) -> Vec<u8> {
    let numbers = 0..values.len() as u8;
    let on_side = |n: &u8| (values[*n as usize] > level) == above;
    numbers.filter(on_side).collect()
}

/// The same script in both rosters for a task above; for all others one for each roster.
fn write_scripts(random: &mut Random, pair: &mut Pair) {
    for t in tasks_of(pair, 0, true) {
        let script = script_of(random, pair, 0, t);
        for roster in &mut pair.rosters {
            roster.scripts[t as usize] = script.clone();
        }
    }
    for r in [0, 1] {
        for t in tasks_of(pair, r, false) {
            pair.rosters[r].scripts[t as usize] = script_of(random, pair, r, t);
        }
    }
}

/// What a script may name: own Set values from `low` to `top`, tasks to release, and objects with their ceilings to enter.
struct Reach {
    low: u8,
    top: u8,
    sets: bool,
    tasks: Vec<u8>,
    objects: Vec<(u8, u8)>,
}

/// A task above releases whomever both rosters have; any other task stays on its side of the level.
fn reach_of(random: &mut Random, pair: &Pair, r: usize, t: u8) -> Reach {
    let plan = &pair.rosters[r];
    let base = plan.bases[t as usize];
    let above = base > pair.level;
    let (low, high) = match above {
        true => (pair.level + 1, HIGHEST),
        false => (1, pair.level),
    };
    let set_value = random.within(low as usize, high as usize) as u8;
    let sets = random.once_in(3);
    let top = if sets { base.max(set_value) } else { base };
    let in_both = pair.rosters.iter().map(|p| p.bases.len()).min();
    let ceiling = |o: u8| plan.ceilings[o as usize];
    let objects = objects_of(pair, r, above).into_iter();
    Reach {
        low,
        top,
        sets,
        tasks: match above {
            true => (0..in_both.unwrap_or(0) as u8).collect(),
            false => tasks_of(pair, r, false),
        },
        // rule 18: not below the base or any own Set value
        objects: objects
            .map(|o| (o, ceiling(o)))
            .filter(|(_, ceiling)| *ceiling >= top)
            .collect(),
    }
}

/// A script that keeps every rule. Most begin again, and most of those wait before it, so that the tasks below get their turn.
fn script_of(random: &mut Random, pair: &Pair, r: usize, t: u8) -> Vec<Step> {
    let reach = reach_of(random, pair, r, t);
    let length = random.within(0, 8);
    let mut script = Vec::new();
    let mut held = Vec::new();
    while script.len() + held.len() < length {
        script.push(next_step(random, t, &reach, &mut held));
    }
    while let Some((o, _)) = held.pop() {
        script.push(step(LEAVE, o, 0));
    }
    if !random.once_in(4) {
        match random.below(4) {
            0 => {}
            1 => script.push(step(SUSPEND, 0, 0)),
            _ => script.push(delay(random)),
        }
        script.push(step(AGAIN, 0, 0));
    }
    script
}

fn delay(random: &mut Random) -> Step {
    step(DELAY, 0, random.pick(&[0, 1, 2, 5, 9, 20, 50, 65_535]))
}

fn next_step(random: &mut Random, t: u8, reach: &Reach, held: &mut Vec<(u8, u8)>) -> Step {
    let innermost = held.last().map_or(0, |(_, ceiling)| *ceiling);
    let may_enter = |object: &&(u8, u8)| !held.contains(object) && object.1 >= innermost;
    let open: Vec<(u8, u8)> = reach.objects.iter().filter(may_enter).copied().collect();
    match random.below(12) {
        0..=2 if !open.is_empty() => {
            let object = random.pick(&open);
            held.push(object);
            step(ENTER, object.0, 0)
        }
        3 | 4 => match held.pop() {
            Some((o, _)) => step(LEAVE, o, 0),
            None => step(WORK, 0, 0),
        },
        5 if held.is_empty() => delay(random),
        6 if held.is_empty() => step(SUSPEND, 0, 0),
        7 => step(RELEASE, random.pick(&reach.tasks), 0),
        8 if reach.sets => {
            let value = random.within(reach.low as usize, reach.top as usize);
            step(SET, t, value as u16)
        }
        _ => step(WORK, 0, 0),
    }
}

/// Mostly Steps; Releases of every number up to beyond both counts; no Set.
fn events_of(random: &mut Random, counts: [usize; 2]) -> Vec<Command> {
    let mut now = 0;
    let numbers = counts[0].max(counts[1]) + 2;
    let commands = (0..EVENTS).map(|_| match random.below(20) {
        0..=3 => Command::Clock(reading_of(random, &mut now)),
        4..=6 if random.once_in(40) => {
            Command::Release(random.pick(&[MOST_TASKS, MOST_TASKS + 1, 255]))
        }
        4..=6 => Command::Release(random.below(numbers)),
        _ => Command::Step,
    });
    commands.collect()
}

/// A pair in which this premise is broken and no other: planted in pairs until one has room for it and passes.
pub fn breaking(random: &mut Random, premise: Premise) -> Pair {
    loop {
        let level = random.within(1, 31) as u8;
        let mut pair = pair_at(random, level);
        let planted = plant(random, &mut pair, premise).is_some();
        let passes = |plan: &Plan| admit(&plan.bytes()).is_ok();
        if planted && (premise == Premise::Refused || pair.rosters.iter().all(passes)) {
            return pair;
        }
    }
}

/// Breaks one premise; none where the pair has no room for it.
fn plant(random: &mut Random, pair: &mut Pair, premise: Premise) -> Option<()> {
    // what no roster may have is planted in either; what has to differ, in the second
    let r = random.below(2);
    match premise {
        Premise::Refused => set_above(random, pair, r),
        Premise::TaskOfOne => add_above(random, pair),
        Premise::OtherBase => {
            let t = one_of(random, &tasks_of(pair, 1, true))?;
            change(random, pair.level, &mut pair.rosters[1].bases[t as usize])
        }
        Premise::OtherScript => change_script(random, pair),
        Premise::OtherCeiling => change_ceiling(random, pair),
        Premise::Mixed => mix(random, pair, r),
        Premise::ReleasesAbove => {
            let t = one_of(random, &tasks_of(pair, r, false))?;
            let released = one_of(random, &tasks_of(pair, r, true))?;
            insert(random, pair, r, t, &[step(RELEASE, released, 0)])
        }
        Premise::UsesAbove => {
            let t = one_of(random, &tasks_of(pair, r, false))?;
            let o = one_of(random, &objects_of(pair, r, true))?;
            let inside = vec![step(WORK, 0, 0); random.below(6)];
            let steps = [&[step(ENTER, o, 0)], &inside[..], &[step(LEAVE, o, 0)]].concat();
            insert(random, pair, r, t, &steps)
        }
        Premise::OtherEvents => change_events(random, pair),
        Premise::OutsideSet => set_from_outside(random, pair),
    }
}

fn one_of(random: &mut Random, from: &[u8]) -> Option<u8> {
    (!from.is_empty()).then(|| random.pick(from))
}

/// Puts steps somewhere in a script, before an Again.
fn insert(random: &mut Random, pair: &mut Pair, r: usize, t: u8, steps: &[Step]) -> Option<()> {
    let script = &mut pair.rosters[r].scripts[t as usize];
    let again = script.last().is_some_and(|s| s.code == AGAIN);
    let at = random.within(0, script.len() - again as usize);
    script.splice(at..at, steps.iter().copied());
    Some(())
}

/// Another priority above the level; none where there is no other.
fn change(random: &mut Random, level: u8, value: &mut u8) -> Option<()> {
    let before = *value;
    *value = priority(random, level, true, 32);
    (*value != before).then_some(())
}

/// An object that a task above enters has another ceiling in the second roster, and some task above a base between the two: it
/// preempts the task inside by one ceiling and not by the other.
fn change_ceiling(random: &mut Random, pair: &mut Pair) -> Option<()> {
    let t = one_of(random, &tasks_of(pair, 1, true))?;
    let plan = &mut pair.rosters[1];
    let steps = plan.scripts[t as usize].iter();
    let entered: Vec<u8> = steps.filter(|s| s.code == ENTER).map(|s| s.a).collect();
    let ceiling = &mut plan.ceilings[one_of(random, &entered)? as usize];
    let before = *ceiling;
    change(random, pair.level, ceiling)?;
    let between = |base: &u8| before.min(*ceiling) < *base && *base <= before.max(*ceiling);
    plan.bases.iter().any(between).then_some(())
}

/// Rule 20, the one whose breach can reach another task: a lower task sets the base of one above.
fn set_above(random: &mut Random, pair: &mut Pair, r: usize) -> Option<()> {
    let t = one_of(random, &tasks_of(pair, r, false))?;
    let other = one_of(random, &tasks_of(pair, r, true))?;
    let value = random.within(1, 32) as u16;
    insert(random, pair, r, t, &[step(SET, other, value)])
}

/// The second roster has one more task above, behind the last number of both.
fn add_above(random: &mut Random, pair: &mut Pair) -> Option<()> {
    let count = pair.rosters[1].bases.len();
    if count < pair.rosters[0].bases.len() || count == MOST_TASKS {
        return None;
    }
    let base = priority(random, pair.level, true, 32);
    pair.rosters[1].bases.push(base);
    let script = script_of(random, pair, 1, count as u8);
    pair.rosters[1].scripts.push(script);
    Some(())
}

/// A task above has a new script in the second roster, or one Work more.
fn change_script(random: &mut Random, pair: &mut Pair) -> Option<()> {
    let t = one_of(random, &tasks_of(pair, 1, true))?;
    if random.once_in(2) {
        return insert(random, pair, 1, t, &[step(WORK, 0, 0)]);
    }
    let script = script_of(random, pair, 1, t);
    let before = std::mem::replace(&mut pair.rosters[1].scripts[t as usize], script);
    (pair.rosters[1].scripts[t as usize] != before).then_some(())
}

/// A lower task gets a Set value above the level, or a base above it and a Set value that is not. It then may enter no object at
/// or below the level, and gives up what it entered.
fn mix(random: &mut Random, pair: &mut Pair, r: usize) -> Option<()> {
    let t = one_of(random, &tasks_of(pair, r, false))?;
    let high = priority(random, pair.level, true, 32);
    let low = priority(random, pair.level, false, 32);
    let plan = &mut pair.rosters[r];
    plan.scripts[t as usize].retain(|s| s.code != ENTER && s.code != LEAVE);
    let value = match random.once_in(2) {
        true => high,
        false => {
            plan.bases[t as usize] = high;
            low
        }
    };
    insert(random, pair, r, t, &[step(SET, t, value.into())])
}

/// Some events of the second list are others.
fn change_events(random: &mut Random, pair: &mut Pair) -> Option<()> {
    let counts = [0, 1].map(|r| pair.rosters[r].bases.len());
    let other = events_of(random, counts);
    for _ in 0..random.within(1, 3) {
        let at = random.below(EVENTS);
        pair.events[1][at] = other[at];
    }
    (pair.events[1] != pair.events[0]).then_some(())
}

/// Some events of both lists are the same Sets, of tasks that both rosters have.
fn set_from_outside(random: &mut Random, pair: &mut Pair) -> Option<()> {
    let counts = [0, 1].map(|r| pair.rosters[r].bases.len());
    for _ in 0..random.within(1, 3) {
        let t = random.below(counts[0].min(counts[1]));
        let set = Command::Set(t, random.within(1, 32) as u64);
        let at = random.below(EVENTS);
        pair.events.iter_mut().for_each(|events| events[at] = set);
    }
    Some(())
}
