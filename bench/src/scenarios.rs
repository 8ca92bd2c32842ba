//! Constructed states at full sizes and an event on each, for each kind of event several families: among them the dearest is looked for.

use std::ops::Range;

use harness::rosters::{step, Plan, Step, AGAIN, DELAY, ENTER, LEAVE, RELEASE, SET, SUSPEND, WORK};
use second::run::Command;

use crate::limits::{Size, PRIORITIES};

/// A roster, the events of a run up to the last one, and that.
pub struct Scenario {
    pub name: String,
    pub plan: Plan,
    pub before: Vec<Command>,
    pub last: Command,
}

const HIGHEST: u8 = PRIORITIES as u8;

/// The base of most tasks; objects have higher ceilings.
const BASE: u8 = 10;

/// Rising ceilings have so many levels, up to the highest.
const LEVELS: usize = 16;

impl Size {
    /// All but task 0, which runs first where all have the same base.
    fn others(self) -> Range<usize> {
        1..self.tasks
    }

    fn last_task(self) -> usize {
        self.tasks - 1
    }

    fn last_object(self) -> usize {
        self.objects - 1
    }

    /// How many tasks stand in a queue or are away: about whole and half rows, where loops over a row change their pace.
    fn splits(self) -> [usize; 10] {
        let (all, half, quarter) = (self.tasks, self.tasks / 2, self.tasks / 4);
        [
            0,
            1,
            quarter,
            half - 2,
            half - 1,
            half,
            half + quarter,
            all - 3,
            all - 2,
            all - 1,
        ]
    }

    /// All tasks have the same base; task 0 has this script.
    fn plan_with(self, script: Vec<Step>, ceilings: Vec<u8>) -> Plan {
        let mut scripts = vec![vec![step(WORK, 0, 0)]; self.tasks];
        scripts[0] = script;
        Plan {
            bases: vec![BASE; self.tasks],
            ceilings,
            scripts,
        }
    }

    /// Each task has a script of this one step.
    fn plan_of_steps(self, step_of: impl Fn(usize) -> Step) -> Plan {
        let mut plan = self.plan_with(Vec::new(), Vec::new());
        plan.scripts = (0..self.tasks).map(|t| vec![step_of(t)]).collect();
        plan
    }

    fn highest_ceilings(self) -> Vec<u8> {
        vec![HIGHEST; self.objects]
    }

    fn rising_ceilings(self) -> Vec<u8> {
        let below = |o: usize| LEVELS - 1 - o * LEVELS / self.objects;
        (0..self.objects)
            .map(|o| HIGHEST - below(o) as u8)
            .collect()
    }

    fn ceilings(self) -> [(Vec<u8>, &'static str); 2] {
        [
            (self.highest_ceilings(), "equal"),
            (self.rising_ceilings(), "rising"),
        ]
    }

    fn all_set(self, priority_of: impl Fn(usize) -> usize) -> Vec<Command> {
        let set = |t: usize| Command::Set(t, priority_of(t) as u64);
        self.others().map(set).collect()
    }
}

/// Enters as many objects, takes these steps inside, and leaves them again.
fn nested(depth: usize, inside: &[Step]) -> Vec<Step> {
    let enters = (0..depth).map(|o| step(ENTER, o as u8, 0));
    let leaves = (0..depth).rev().map(|o| step(LEAVE, o as u8, 0));
    enters.chain(inside.iter().copied()).chain(leaves).collect()
}

fn steps(count: usize) -> Vec<Command> {
    vec![Command::Step; count]
}

/// For how long each task delays, and its base.
type Ticks = fn(Size, usize) -> u16;
type Bases = fn(usize) -> u8;

const RISING: (&str, Ticks) = ("rising", |_, t| 100 + t as u16);
const FALLING: (&str, Ticks) = ("falling", |_, t| 200 - t as u16);
const EQUAL: (&str, Ticks) = ("equal", |_, _| 150);
const CROSSED: (&str, Ticks) = ("crossed", |size, t| 100 + (13 * t % size.tasks) as u16);

/// Where the other tasks are put before the last event.
struct Placing {
    name: String,
    commands: Vec<Command>,
}

/// The others in two queues, the first so many of them in the first.
fn split(size: Size, count: usize, first: u8, rest: u8) -> Placing {
    let priority = |t: usize| if t <= count { first } else { rest };
    let behind = size.others().len() - count;
    Placing {
        name: format!("{count} in queue {first}, {behind} in {rest}"),
        commands: size.all_set(|t| priority(t) as usize),
    }
}

/// The others in all queues up to a highest one: those that are left over all in that, or again in all.
fn spreads(size: Size, highest: u8) -> [Placing; 2] {
    let most = highest as usize;
    [
        Placing {
            name: format!("one in each queue below {highest}, the rest there"),
            commands: size.all_set(|t| t.min(most)),
        },
        Placing {
            name: format!("spread over the queues up to {highest}"),
            commands: size.all_set(|t| 1 + (t - 1) % most),
        },
    ]
}

/// In one queue or two, none above the base of task 0; and, where that task is inside, in all queues.
fn placings(size: Size, inside: bool) -> Vec<Placing> {
    let two = |count| split(size, count, BASE, BASE - 1);
    let mut all: Vec<Placing> = size.splits().map(two).into();
    if inside {
        all.extend(spreads(size, HIGHEST));
    }
    all
}

fn enters(size: Size) -> Vec<Scenario> {
    let mut all = Vec::new();
    for (ceilings, how) in size.ceilings() {
        for depth in [0, 1, size.objects / 2, size.last_object()] {
            for placing in placings(size, depth > 0 && how == "equal") {
                let mut before = steps(depth);
                before.extend(placing.commands);
                all.push(Scenario {
                    name: format!("depth {depth}, {how} ceilings, {}", placing.name),
                    plan: size.plan_with(nested(size.objects, &[]), ceilings.clone()),
                    before,
                    last: Command::Step,
                });
            }
        }
    }
    all.push(Scenario {
        name: "refused, the base was set above the ceiling".into(),
        plan: size.plan_with(nested(1, &[]), vec![20; size.objects]),
        before: vec![Command::Set(0, HIGHEST as u64)],
        last: Command::Step,
    });
    all
}

/// The active priority falls to `low`: others stand there and just above, or in all queues up to there. A base may wait.
fn leaves_at(size: Size, depth: usize, ceilings: &[u8], how: &str) -> Vec<Scenario> {
    let low = match depth {
        1 => BASE,
        _ => ceilings[depth - 2],
    };
    let high = ceilings[depth - 1].min(low + 1);
    let two = |count| split(size, count, low, high);
    let mut placings: Vec<Placing> = size.splits().map(two).into();
    placings.extend(spreads(size, high));
    let mut all = Vec::new();
    for (placing, waiting) in pairs(&placings, [None, Some(low), Some(1)]) {
        let mut before = steps(depth);
        before.extend(&placing.commands);
        before.extend(waiting.map(|p| Command::Set(0, p as u64)));
        let place = &placing.name;
        all.push(Scenario {
            name: format!("depth {depth}, {how} ceilings, {place}, waiting {waiting:?}"),
            plan: size.plan_with(nested(depth, &[]), ceilings.to_vec()),
            before,
            last: Command::Step,
        });
    }
    all
}

/// Two neighbouring depths each, since with more objects than levels of ceilings it falls only at every other one.
fn leaves(size: Size) -> Vec<Scenario> {
    let half = size.objects / 2;
    let mut all = Vec::new();
    for (ceilings, how) in size.ceilings() {
        for depth in [1, 2, 3, half, half + 1, size.objects - 1, size.objects] {
            all.extend(leaves_at(size, depth, &ceilings, how));
        }
    }
    all
}

fn pairs<A, B: Copy, const N: usize>(all: &[A], with: [B; N]) -> Vec<(&A, B)> {
    let each = |one| with.map(|other| (one, other));
    all.iter().flat_map(each).collect()
}

/// Tasks delay one after the other, each by its own time; the one after `away` of them is the last event.
fn delays(size: Size) -> Vec<Scenario> {
    let mut all = Vec::new();
    for (how, ticks) in [RISING, FALLING, EQUAL] {
        for (&away, last) in pairs(&size.splits(), [0, 1, 150, 65_535]) {
            let by = |t| if t == away { last } else { ticks(size, t) };
            all.push(Scenario {
                name: format!("by {last}, {away} delayed by {how} times"),
                plan: size.plan_of_steps(|t| step(DELAY, 0, by(t))),
                before: steps(away),
                last: Command::Step,
            });
        }
    }
    all
}

fn suspends_and_finishes(size: Size) -> Vec<Scenario> {
    let mut all = Vec::new();
    for (script, how) in [
        (vec![step(SUSPEND, 0, 0)], "suspended"),
        (Vec::new(), "ended"),
    ] {
        for (&away, permit) in pairs(&size.splits(), [false, true]) {
            let mut plan = size.plan_with(Vec::new(), Vec::new());
            plan.scripts = vec![script.clone(); size.tasks];
            let mut before = steps(away);
            before.extend(permit.then_some(Command::Release(away)));
            all.push(Scenario {
                name: format!("{away} {how}, permit {permit}"),
                plan,
                before,
                last: Command::Step,
            });
        }
    }
    all
}

/// Task t suspends itself, and its base is set; then it is released from outside, or by a step of task 0. `count` others stand in one
/// queue.
fn release(size: Size, t: usize, base: u8, count: usize, from_outside: bool) -> Scenario {
    let mut plan = size.plan_with(vec![step(RELEASE, t as u8, 0)], Vec::new());
    plan.bases[t] = HIGHEST;
    plan.scripts[t] = vec![step(SUSPEND, 0, 0)];
    let mut before = steps(1);
    before.push(Command::Set(t, base as u64));
    let lower = size.others().filter(|other| *other != t).skip(count);
    before.extend(lower.map(|other| Command::Set(other, 1)));
    Scenario {
        name: format!("task {t} to {base}, {count} in the queue, from outside {from_outside}"),
        plan,
        before,
        last: match from_outside {
            true => Command::Release(t),
            false => Command::Step,
        },
    }
}

fn releases(size: Size) -> Vec<Scenario> {
    let (all, half) = (size.tasks, size.tasks / 2);
    let counts = [0, half - 2, half - 1, half, all - 3, all - 2];
    let mut found = Vec::new();
    for base in [BASE, BASE + 1, HIGHEST] {
        for t in [1, size.last_task()] {
            for (&count, from_outside) in pairs(&counts, [true, false]) {
                found.push(release(size, t, base, count, from_outside));
            }
        }
    }
    found
}

/// Tasks delay at reading 0; the last of them may be a task of base 1 that runs on. Then there is one reading.
fn clock(
    size: Size,
    (how, ticks): (&str, Ticks),
    (where_to, base): (&str, Bases),
    runs_on: bool,
    reading: u64,
) -> Scenario {
    let mut plan = size.plan_of_steps(|t| step(DELAY, 0, ticks(size, t)));
    plan.bases = (0..size.tasks).map(base).collect();
    if runs_on {
        plan.bases[size.last_task()] = 1;
        plan.scripts[size.last_task()] = vec![step(WORK, 0, 0)];
    }
    Scenario {
        name: format!("reading {reading}, {how} times, {where_to}, one runs on {runs_on}"),
        plan,
        before: steps(size.tasks - runs_on as usize),
        last: Command::Clock(reading),
    }
}

/// Nobody, one, about half or all of the tasks are due.
fn clocks(size: Size) -> Vec<Scenario> {
    let half = size.tasks as u64 / 2;
    let readings = [99, 101, 100 + half, 150, 200 - half, 65_000];
    let bases: [(&str, Bases); 3] = [
        ("one queue", |_| BASE),
        ("all queues, rising", |t| 1 + (t % PRIORITIES) as u8),
        ("all queues, falling", |t| HIGHEST - (t % PRIORITIES) as u8),
    ];
    let mut all = Vec::new();
    for order in [RISING, FALLING, EQUAL, CROSSED] {
        for (&base, runs_on) in pairs(&bases, [false, true]) {
            for reading in readings {
                all.push(clock(size, order, base, runs_on, reading));
            }
        }
    }
    all
}

/// Task 0 runs and the last of the others stand in its queue; the first ones, of a higher base, are due at one reading.
fn preempting_clocks(size: Size) -> Vec<Scenario> {
    let mut all = Vec::new();
    for (&count, base) in pairs(&size.splits()[1..], [BASE + 1, HIGHEST]) {
        let mut plan = size.plan_with(vec![step(WORK, 0, 0)], Vec::new());
        for t in 1..=count {
            plan.bases[t] = base;
            plan.scripts[t] = vec![step(DELAY, 0, FALLING.1(size, t))];
        }
        all.push(Scenario {
            name: format!("{count} of base {base} due, the others in the queue"),
            plan,
            before: steps(count),
            last: Command::Clock(200),
        });
    }
    all
}

/// Task 0 runs, perhaps inside; the others stand in two queues. One task is set from outside, or task 0 sets itself.
fn set(size: Size, count: usize, t: usize, p: u8, depth: usize) -> Vec<Scenario> {
    let inside = [step(SET, 0, p as u16)];
    let mut before = steps(depth);
    before.extend(split(size, count, BASE, BASE - 1).commands);
    let name = format!("task {t} to {p}, {count} in one queue, depth {depth}");
    let scenario = |name: String, last: Command| Scenario {
        name,
        plan: size.plan_with(nested(depth, &inside), size.highest_ceilings()),
        before: before.clone(),
        last,
    };
    let own = (t == 0).then(|| scenario(format!("{name}, by its own step"), Command::Step));
    let from_outside = scenario(name, Command::Set(t, p as u64));
    own.into_iter().chain([from_outside]).collect()
}

fn sets(size: Size) -> Vec<Scenario> {
    let tasks = [0, 1, size.tasks / 2, size.last_task()];
    let mut all = Vec::new();
    for count in size.splits() {
        for (&t, p) in pairs(&tasks, [1, BASE - 1, BASE, BASE + 1, HIGHEST]) {
            for depth in [0, size.objects] {
                all.extend(set(size, count, t, p, depth));
            }
        }
    }
    all
}

pub const AGAIN_NAME: &str = "again";

/// Work and Again have no effect on the state.
fn works(size: Size) -> Vec<Scenario> {
    let ceilings = size.highest_ceilings();
    let mut all = Vec::new();
    for depth in [0, 1, size.objects] {
        for placing in placings(size, depth > 0) {
            let script = nested(depth, &[step(WORK, 0, 0)]);
            let mut before = steps(depth);
            before.extend(placing.commands);
            all.push(Scenario {
                name: format!("depth {depth}, {}", placing.name),
                plan: size.plan_with(script, ceilings.clone()),
                before,
                last: Command::Step,
            });
        }
    }
    all.push(Scenario {
        name: AGAIN_NAME.into(),
        plan: size.plan_with(vec![step(AGAIN, 0, 0)], Vec::new()),
        before: Vec::new(),
        last: Command::Step,
    });
    all
}

/// How the last event of a crowded state is given: a step of task 0, behind as many others of its own, or an event from outside.
fn crowded_ends(size: Size) -> Vec<(Vec<Step>, Command)> {
    let own = |last: Step| (vec![last], Command::Step);
    let from_outside = |event| (Vec::new(), event);
    let (task, object) = (size.last_task(), size.last_object() as u8);
    let mut all = vec![
        (Vec::new(), Command::Step),
        (
            vec![step(ENTER, object, 0), step(LEAVE, object, 0)],
            Command::Step,
        ),
    ];
    let priorities = [1, HIGHEST - 1, HIGHEST];
    all.extend([0, 1, 150, 65_535].map(|d| own(step(DELAY, 0, d))));
    all.extend([2, task].map(|t| own(step(RELEASE, t as u8, 0))));
    all.extend(priorities.map(|p| own(step(SET, 0, p as u16))));
    all.extend([own(step(SUSPEND, 0, 0)), own(step(WORK, 0, 0))]);
    all.extend([50, 100, 65_000].map(|r| from_outside(Command::Clock(r))));
    all.extend([2, task].map(|t| from_outside(Command::Release(t))));
    for p in priorities {
        all.extend([0, 1, task].map(|t| from_outside(Command::Set(t, p as u64))));
    }
    all
}

/// Task 1 is inside all objects but one, and task 0, above all, has taken the processor from it; `away` tasks are delayed or suspended,
/// and the rest are spread over the queues.
fn crowd(
    size: Size,
    away: usize,
    (how, rest): (&str, Step),
    (own, last): (Vec<Step>, Command),
) -> Scenario {
    let inside = HIGHEST - 1;
    let mut ceilings = vec![inside; size.objects];
    ceilings[size.last_object()] = HIGHEST;
    let mut before = steps(1 + away + size.last_object());
    let spread = |t: usize| Command::Set(t, 1 + (t as u64 - 1) % inside as u64);
    before.extend((2 + away..size.tasks).map(spread));
    before.push(Command::Release(0));
    before.extend(steps(own.len().saturating_sub(1)));
    let mut plan = size.plan_with([vec![step(SUSPEND, 0, 0)], own].concat(), ceilings);
    plan.bases = vec![1; size.tasks];
    plan.bases[0] = HIGHEST;
    plan.scripts[1] = nested(size.last_object(), &[]);
    for t in 2..2 + away {
        plan.bases[t] = inside - 1;
        plan.scripts[t] = vec![rest];
    }
    Scenario {
        name: format!("another holds all objects but one, {away} {how}, the rest in all queues"),
        plan,
        before,
        last,
    }
}

fn crowded(size: Size) -> Vec<Scenario> {
    let aways = [
        ("delayed", step(DELAY, 0, 100)),
        ("suspended", step(SUSPEND, 0, 0)),
    ];
    let mut all = Vec::new();
    for (&away, how) in pairs(&[0, 1, size.tasks / 2 - 1, size.tasks - 3], aways) {
        let ends = crowded_ends(size).into_iter();
        all.extend(ends.map(|end| crowd(size, away, how, end)));
    }
    all
}

/// Some readings without effect come first, so that the start of a run is in no difference.
fn begun(mut scenario: Scenario) -> Scenario {
    scenario.before.splice(0..0, [Command::Clock(0); 4]);
    scenario
}

pub fn all(size: Size) -> Vec<Scenario> {
    let families = [
        enters,
        leaves,
        delays,
        suspends_and_finishes,
        releases,
        clocks,
        preempting_clocks,
        sets,
        works,
        crowded,
    ];
    let scenarios = families.iter().flat_map(|family| family(size));
    scenarios.map(begun).collect()
}
