//! Due times, deep nesting and answer 21, where a bound, a shortcut or a mask in the library may slip: held to the second program.

use dispatch::raw;
use harness::compare::{compare_after, compare_run};
use harness::events::{records_of, room_for, REPLY_SIZE, STEP};
use harness::layout::{bytes_of, state_of};
use harness::random::Random;
use harness::report::{hex, seen, Histogram};
use harness::rosters::{step, Plan, Step, AGAIN, DELAY, ENTER, LEAVE, RELEASE, SET, SUSPEND, WORK};
use harness::runs::one_run;
use harness::sizes::{EVENT_SIZE, LAST_OBJECT, LAST_TASK, MOST_EVENTS, MOST_OBJECTS, MOST_TASKS};
use harness::states::{at_now, dues};
use second::machine::{Event, Outcome};
use second::run::Command;
use second::state::{fresh, Place, State};

const RUNS: u64 = 2_600;
const HISTORIES: u64 = 2_200;
/// Enough for all tasks to be delayed, and for all objects to be entered and left, more than once.
const EVENTS: usize = 160;
const LEAST: usize = 200;
const LARGEST: u64 = 281_474_976_710_655;

/// What an event on a state with due times is; one event may be several of these.
#[derive(Clone, Copy, Debug, PartialEq, Eq, PartialOrd, Ord)]
enum Sight {
    /// readings one below, at and one above the earliest due time, and at the latest of several
    OneBelow,
    AtDue,
    OneAbove,
    AtLatest,
    /// the reading is now, and tasks are delayed
    Twice,
    NobodyDelayed,
    WakesNone,
    WakesOne,
    WakesMany,
    /// all but one of the most tasks, and all of them
    WakesAllButOne,
    WakesAll,
    WakesSomeOnly,
    /// two of one queue, with equal due times, and with due times against their numbers
    EqualDues,
    AgainstNumbers,
    /// the reading before woke some only, and no Delay came since: one below and at what is due next
    NextBelow,
    NextAtDue,
    /// the reading before left nobody delayed
    WakesAfterAll,
    /// wakes just the task whose Delay was the last and ended before all others
    WakesLastDelayed,
    /// the base was set during the Delay
    WakesWithNewBase,
    Backwards,
    LeapOverDue,
    SetDelayed,
    ReleaseDelayed,
    DelayZero,
    DelayOne,
    DelayLongest,
    /// nobody else is delayed
    DelayAlone,
    /// right after a waking, with a due time before all others, after all others, and the same as another
    AnewFirst,
    AnewLast,
    AnewEqual,
}

use Sight::*;

const SIGHTS: [Sight; 30] = [
    OneBelow,
    AtDue,
    OneAbove,
    AtLatest,
    Twice,
    NobodyDelayed,
    WakesNone,
    WakesOne,
    WakesMany,
    WakesAllButOne,
    WakesAll,
    WakesSomeOnly,
    EqualDues,
    AgainstNumbers,
    NextBelow,
    NextAtDue,
    WakesAfterAll,
    WakesLastDelayed,
    WakesWithNewBase,
    Backwards,
    LeapOverDue,
    SetDelayed,
    ReleaseDelayed,
    DelayZero,
    DelayOne,
    DelayLongest,
    DelayAlone,
    AnewFirst,
    AnewLast,
    AnewEqual,
];

/// The delayed tasks with their due times, in the order of their numbers.
fn delayed(state: &State) -> Vec<(usize, u64)> {
    let tasks = state.tasks.iter().enumerate();
    let due = |(t, place)| match place {
        Place::Delayed { due } => Some((t, due)),
        _ => None,
    };
    tasks.filter_map(|(t, task)| due((t, task.place))).collect()
}

/// What came before in one history, as far as a kept bound may hang on it, and what was seen.
struct Watch {
    /// for each task the reading that woke it last
    woken_at: Vec<Option<u64>>,
    /// whether its base was set during its Delay
    set: Vec<bool>,
    /// the reading before woke some only, and no Delay came since
    next: bool,
    /// the reading before left nobody delayed
    all: bool,
    /// the last to be delayed, if due before all others, and no reading was taken since
    last: Option<usize>,
    sights: Histogram<Sight>,
}

impl Watch {
    fn new() -> Watch {
        Watch {
            woken_at: Vec::new(),
            set: Vec::new(),
            next: false,
            all: false,
            last: None,
            sights: Histogram::new(),
        }
    }

    /// Another history begins.
    fn begin(&mut self) {
        self.woken_at = vec![None; MOST_TASKS];
        self.set = vec![false; MOST_TASKS];
        (self.next, self.all, self.last) = (false, false, None);
    }

    fn see(&mut self, before: &State, event: Event, outcome: Outcome) {
        let found = match event {
            Event::Clock(reading) if outcome.answer == 0 => self.see_reading(before, reading),
            Event::Clock(reading) => refused_reading(before, reading),
            _ if outcome.answer != 0 => Vec::new(),
            Event::Delay(ticks) => self.see_delay(before, ticks),
            Event::Set(t, _) | Event::Release(t) => {
                let is_delayed = delayed(before).iter().any(|(other, _)| *other == t);
                let is_set = matches!(event, Event::Set(..));
                self.set[t] |= is_set && is_delayed;
                seen([
                    (SetDelayed, is_set && is_delayed),
                    (ReleaseDelayed, !is_set && is_delayed),
                ])
            }
            _ => Vec::new(),
        };
        found.into_iter().for_each(|s| self.sights.count(s));
    }

    fn see_reading(&mut self, before: &State, reading: u64) -> Vec<Sight> {
        let all = delayed(before);
        let due = |at: u64| all.iter().any(|d| d.1 == at) && all.iter().all(|d| d.1 >= at);
        let latest = all.iter().map(|d| d.1).max();
        let woken: Vec<(usize, u64)> = all.iter().copied().filter(|d| d.1 <= reading).collect();
        let (n, left) = (woken.len(), all.len() - woken.len());
        let tasks = before.tasks.len();
        let new_base = woken.iter().any(|(t, _)| self.set[*t]);
        let last = woken.first().is_some_and(|d| self.last == Some(d.0));
        let (equal, against) = pairs(before, &woken);
        let found = seen([
            (OneBelow, due(reading + 1)),
            (AtDue, due(reading)),
            (OneAbove, reading > 0 && due(reading - 1)),
            (AtLatest, all.len() > 1 && latest == Some(reading)),
            (Twice, reading == before.now && !all.is_empty()),
            (NobodyDelayed, all.is_empty()),
            (WakesNone, n == 0 && left > 0 && reading > before.now),
            (WakesOne, n == 1),
            (WakesMany, n > 1),
            (WakesAllButOne, n == LAST_TASK && tasks == MOST_TASKS),
            (WakesAll, n == MOST_TASKS),
            (WakesSomeOnly, n > 0 && left > 0),
            (EqualDues, equal),
            (AgainstNumbers, against),
            (NextBelow, self.next && due(reading + 1)),
            (NextAtDue, self.next && due(reading)),
            (WakesAfterAll, self.all && n > 0),
            (WakesLastDelayed, n == 1 && left > 0 && last),
            (WakesWithNewBase, new_base),
        ]);
        (self.next, self.last) = ((n > 0 || self.next) && left > 0, None);
        self.all = left == 0 || (self.all && n == 0);
        for (t, _) in woken {
            (self.woken_at[t], self.set[t]) = (Some(reading), false);
        }
        found
    }

    fn see_delay(&mut self, before: &State, ticks: u16) -> Vec<Sight> {
        let due = before.now + u64::from(ticks);
        let others = dues(before);
        let first = !others.is_empty() && others.iter().all(|d| *d > due);
        let latest = !others.is_empty() && others.iter().all(|d| *d < due);
        let taker = before.running.filter(|_| ticks > 0);
        let anew = taker.is_some_and(|t| self.woken_at[t] == Some(before.now));
        if taker.is_some() {
            (self.next, self.last) = (false, taker.filter(|_| first));
        }
        seen([
            (DelayZero, ticks == 0),
            (DelayOne, ticks == 1),
            (DelayLongest, ticks == 65_535),
            (DelayAlone, ticks > 0 && others.is_empty()),
            (AnewFirst, anew && first),
            (AnewLast, anew && latest),
            (AnewEqual, anew && others.contains(&due)),
        ])
    }
}

/// Whether two of these join one queue with equal due times, and with due times against their numbers.
fn pairs(state: &State, woken: &[(usize, u64)]) -> (bool, bool) {
    let (mut equal, mut against) = (false, false);
    for (i, (t, due)) in woken.iter().enumerate() {
        let same = |other: &&(usize, u64)| state.tasks[other.0].base == state.tasks[*t].base;
        for (_, later) in woken[i + 1..].iter().filter(same) {
            equal |= later == due;
            against |= later < due;
        }
    }
    (equal, against)
}

fn refused_reading(before: &State, reading: u64) -> Vec<Sight> {
    let (backwards, any) = (reading < before.now, !dues(before).is_empty());
    seen([
        (Backwards, backwards && any),
        (LeapOverDue, !backwards && any),
    ])
}

/// How the Delays of a roster or a history lie to each other.
#[derive(Clone, Copy, Debug)]
enum Shape {
    Any,
    Equal,
    Rising,
    Falling,
    Short,
    Long,
}

fn shape_of(random: &mut Random) -> Shape {
    use Shape::*;
    random.pick(&[Any, Any, Equal, Rising, Falling, Short, Long])
}

fn ticks_of(random: &mut Random, shape: Shape, t: usize) -> u16 {
    let t = t as u16;
    match shape {
        Shape::Any => random.pick(&[0, 1, 1, 2, 3, 5, 8, 300, 65_534, 65_535]),
        Shape::Equal => 7,
        Shape::Rising => 3 + t,
        Shape::Falling => MOST_TASKS as u16 + 8 - t,
        Shape::Short => random.pick(&[0, 1, 1, 2, 3]),
        Shape::Long => random.pick(&[65_535, 65_535 - t, 1 + t]),
    }
}

/// Mostly few priorities, so that many stand in one queue; now and then one task below all others never leaves the processor to
/// nobody.
struct Crew {
    bases: Vec<u8>,
    idle: Option<usize>,
    shape: Shape,
    /// nothing but Delays
    pure: bool,
}

fn crew_of(random: &mut Random) -> Crew {
    let few = random.pick(&[1, 2, 3, 5, 8, MOST_TASKS / 2, LAST_TASK]);
    let tasks = random.pick(&[few, MOST_TASKS]);
    let spread = random.pick(&[1, 1, 2, 4, 31]);
    let mut bases: Vec<u8> = Vec::new();
    bases.resize_with(tasks, || random.within(2, spread + 1) as u8);
    let idle = Some(random.below(tasks)).filter(|_| random.once_in(3));
    if let Some(t) = idle {
        bases[t] = 1;
    }
    Crew {
        bases,
        idle,
        shape: shape_of(random),
        pure: random.once_in(2),
    }
}

/// A script that is mostly Delays; some have no step, and most begin again.
fn delays(random: &mut Random, crew: &Crew, t: usize) -> Vec<Step> {
    if crew.idle == Some(t) {
        return vec![step(WORK, 0, 0), step(AGAIN, 0, 0)];
    }
    let least = crew.pure as usize;
    let mut script = Vec::new();
    for _ in 0..random.within(least, 6) {
        script.push(match random.below(if crew.pure { 1 } else { 10 }) {
            0..=5 => step(DELAY, 0, ticks_of(random, crew.shape, t)),
            6 => step(SUSPEND, 0, 0),
            7 => step(RELEASE, random.below(crew.bases.len()) as u8, 0),
            8 => step(SET, t as u8, random.within(1, 6) as u16),
            _ => step(WORK, 0, 0),
        });
    }
    if !script.is_empty() && (crew.pure || !random.once_in(5)) {
        script.push(step(AGAIN, 0, 0));
    }
    script
}

fn reading_of(random: &mut Random, state: &State) -> u64 {
    let (now, dues) = (state.now, dues(state));
    let (Some(&first), Some(&latest)) = (dues.iter().min(), dues.iter().max()) else {
        return now + random.below(3) as u64;
    };
    let one = random.pick(&dues);
    if dues.len() >= LAST_TASK && !random.once_in(4) {
        return latest;
    }
    match random.below(18) {
        0..=2 => first - 1,
        3..=5 => first,
        6 | 7 => first + 1,
        8 => one - 1,
        9 => one,
        10 => one + 1,
        11 | 12 => latest,
        13 | 14 => now,
        15 => latest + random.below(3) as u64,
        16 => now + random.below(latest.saturating_sub(now) as usize + 1) as u64,
        _ => random.pick(&[now.saturating_sub(1), now + 86_400_001]),
    }
}

/// An event from outside, or none where the running task takes a step: a reading mostly where nobody is left in a ready queue.
fn outside(random: &mut Random, state: &State, calm: bool) -> Option<Event> {
    let delayed = delayed(state);
    let waiting = state.highest_ready().is_none() && !delayed.is_empty();
    // while the last still runs it is mostly let go too
    let often = if state.running.is_none() { 3 } else { 1 };
    let mut t = random.below(state.tasks.len());
    if !delayed.is_empty() && !random.once_in(4) {
        t = random.pick(&delayed).0;
    }
    match random.below(if calm { 4 * MOST_TASKS } else { 16 }) {
        0 => Some(Event::Set(t, random.pick(&[1, 2, 2, 3, 3, 4, 31, 32]))),
        1 => Some(Event::Release(t)),
        2 => Some(Event::Clock(reading_of(random, state))),
        n if waiting && n % 4 < often => Some(Event::Clock(reading_of(random, state))),
        _ => None,
    }
}

#[test]
fn runs_with_due_times_agree_with_the_second_program() {
    let mut watch = Watch::new();
    for seed in 0..RUNS {
        let mut random = Random::new(seed);
        let crew = crew_of(&mut random);
        let plan = Plan {
            bases: crew.bases.clone(),
            ceilings: Vec::new(),
            scripts: (0..crew.bases.len())
                .map(|t| delays(&mut random, &crew, t))
                .collect(),
        };
        let calm = !random.once_in(3);
        let length = random.pick(&[40, 100, 200, 400]);
        watch.begin();
        one_run(
            "due-runs",
            seed,
            &plan,
            |state| outside(&mut random, state, calm),
            &mut |before, event, outcome, _| watch.see(before, event, outcome),
            length,
        );
    }
    watch.sights.print("due times in runs");
    watch.sights.require(&SIGHTS, LEAST);
}

/// A step of the running task that is mostly a Delay.
fn delaying_step(random: &mut Random, crew: &Crew, state: &State) -> Event {
    match (state.running, random.below(20)) {
        (Some(t), _) if crew.idle == Some(t) => Event::Work,
        (Some(t), 0..=16) => Event::Delay(ticks_of(random, crew.shape, t)),
        (Some(_), _) if crew.pure => Event::Work,
        (_, 17) => Event::Suspend,
        (_, 18) if random.once_in(4) => Event::Finish,
        (_, 19) => Event::Delay(random.pick(&[0, 1, 65_535])),
        _ => Event::Work,
    }
}

/// At 0, anywhere, or where the longest Delays end around the largest reading.
fn now_of(random: &mut Random) -> u64 {
    let any = random.word() >> 16;
    let near = LARGEST - random.below(200_000) as u64;
    random.pick(&[0, 0, 0, 1, 65_535, any, any, near, LARGEST - 65_535])
}

#[test]
fn histories_with_due_times_agree_with_the_second_program() {
    let mut watch = Watch::new();
    for seed in 0..HISTORIES {
        let mut random = Random::new(seed);
        let crew = crew_of(&mut random);
        let bases: Vec<u64> = crew.bases.iter().map(|b| u64::from(*b)).collect();
        let start = at_now(&fresh(&bases, &[]).1, now_of(&mut random));
        let mut bytes = bytes_of(&start);
        let calm = !random.once_in(3);
        watch.begin();
        for i in 0..EVENTS {
            let before = state_of(&bytes);
            let event = outside(&mut random, &before, calm)
                .unwrap_or_else(|| delaying_step(&mut random, &crew, &before));
            let input = format!("seed {seed}, event {i}");
            let (outcome, after) = compare_after(&bytes, event, &input);
            watch.see(&before, event, outcome);
            bytes = after;
        }
    }
    watch.sights.print("due times in histories on bytes");
    watch.sights.require(&SIGHTS, LEAST);
}

/// Those of the most tasks that wake: all but the last number, which never stops.
const WAKING: u8 = LAST_TASK as u8;
/// How many of their numbers are even.
const EVEN: u8 = WAKING.div_ceil(2);

/// The Delay of each of them, and the order in which they run.
type Order = (fn(u16) -> u16, fn(u8) -> u8);

const ORDERS: [Order; 4] = [
    (|_| 9, |i| i),
    (|t| 3 + t, |i| i),
    (|t| 65_535 - t, |i| WAKING - 1 - i),
    // even numbers first
    (
        |t| 1 + t % 2,
        |i| match i {
            ..EVEN => 2 * i,
            _ => 2 * (i - EVEN) + 1,
        },
    ),
];

/// All but one of the most tasks in one queue, all awake by one reading, over a task that never stops: they run by due time, then by
/// number, each to its end. Written out by hand, with the reading one below the earliest due time before.
#[test]
fn all_but_one_wake_in_order() {
    for (case, (ticks, order)) in ORDERS.iter().enumerate() {
        let delay = |t: u16| vec![step(DELAY, 0, ticks(t))];
        let mut scripts: Vec<Vec<Step>> = (0..WAKING.into()).map(delay).collect();
        scripts.push(vec![step(WORK, 0, 0), step(AGAIN, 0, 0)]);
        let plan = Plan {
            bases: [vec![10; WAKING.into()], vec![1]].concat(),
            ceilings: Vec::new(),
            scripts,
        };
        let dues = || (0..WAKING.into()).map(|t| u64::from(ticks(t)));
        let mut commands = vec![Command::Step; WAKING.into()];
        commands.extend(dues().min().map(|r| Command::Clock(r - 1)));
        commands.extend(dues().max().map(Command::Clock));
        commands.extend(vec![Command::Step; WAKING.into()]);
        let mut wanted: Vec<u8> = (1..=WAKING).flat_map(|t| [0, t, 2]).collect();
        wanted.extend([0, WAKING, 0, 0, order(0), 1]);
        wanted.extend((1..WAKING).flat_map(|i| [0, order(i), 2]));
        wanted.extend([0, WAKING, 2]);
        let events = records_of(&commands);
        let mut found = vec![0xA5; room_for(&events)];
        let answer = raw::run(&plan.bytes(), &events, &mut found);
        assert_eq!(answer, (0, 0, 0), "case {case}");
        assert_eq!(hex(&found), hex(&wanted), "case {case}");
    }
}

/// What happens to a task inside protected actions.
#[derive(Clone, Copy, Debug, PartialEq, Eq, PartialOrd, Ord)]
enum Deep {
    /// sent to the head of its queue
    Preempted,
    /// runs on, though a task above its base is ready
    HeldOff,
    /// comes back from a ready queue
    Resumed,
    Entered,
    LeaveRunsOn,
    LeaveYields,
    /// the object outside the innermost has the same ceiling
    LeaveOfEquals,
    AboveCeiling,
    HeldAlready,
    NotInnermost,
    /// a Set waits
    BaseWaits,
}

use Deep::*;

/// Half of the most objects.
const HALF: usize = MOST_OBJECTS / 2;
/// The depths that are counted, each up to the next: one object, fewer than half of the most, half or more, all.
const DEPTHS: [usize; 4] = [1, 2, HALF, MOST_OBJECTS];

/// The last of these depths that so many held objects reach.
fn depth(held: usize) -> usize {
    let reached = DEPTHS.into_iter().filter(|d| *d <= held);
    reached.max().unwrap_or(0)
}

/// Whether the innermost two objects of the running task have the same ceiling.
fn innermost_equal(state: &State) -> bool {
    let held = state.running_task().map_or(&[][..], |task| &task.held);
    match held {
        [.., outer, inner] => state.ceilings[*outer] == state.ceilings[*inner],
        _ => false,
    }
}

/// What is seen of an event on a state with held objects, by the number of objects held.
fn see_deep(
    counts: &mut Histogram<(Deep, usize)>,
    before: &State,
    event: Event,
    outcome: Outcome,
    after: &State,
) {
    let held = |state: &State| state.running_task().map_or(0, |task| task.held.len());
    let (old, new) = (held(before), held(after));
    let left_on = before.running.map_or(0, |t| after.tasks[t].held.len());
    let (changed, done) = (before.running != after.running, outcome.answer == 0);
    let leave = done && matches!(event, Event::Leave(_));
    let enter = matches!(event, Event::Enter(_));
    let base = after.running_task().map(|task| task.base);
    let set = match event {
        Event::Set(t, _) if done => before.tasks[t].held.len(),
        _ => 0,
    };
    let equals = leave && innermost_equal(before);
    let found = [
        (Preempted, left_on, outcome.report == 1),
        (
            HeldOff,
            new,
            done && !changed && after.highest_ready() > base,
        ),
        (Resumed, new, changed),
        (Entered, left_on, enter && done),
        (LeaveRunsOn, old, leave && !changed),
        (LeaveYields, old, leave && changed),
        (LeaveOfEquals, old, equals),
        (AboveCeiling, old, outcome.answer == 8),
        (HeldAlready, old, enter && outcome.answer == 7),
        (NotInnermost, old, outcome.answer == 9),
        (BaseWaits, set, true),
    ];
    for (what, objects, _) in found.iter().filter(|f| f.1 > 0 && f.2) {
        counts.count((*what, depth(*objects)));
    }
}

/// Bases, ceilings that are equal, rise, or rise by pairs, and the objects from the lowest ceiling on, which are not in the order
/// of their numbers.
struct Nest {
    bases: Vec<u8>,
    ceilings: Vec<u8>,
    order: Vec<u8>,
}

fn nest_of(random: &mut Random) -> Nest {
    let objects = random.pick(&[MOST_OBJECTS, MOST_OBJECTS, MOST_OBJECTS, HALF + 1, 3]);
    let (turn, rise) = (random.below(objects), random.pick(&[0, 1, 1, 2, 3, 4, 4]));
    let mut ceilings = vec![0; objects];
    let order: Vec<u8> = (0..objects)
        .map(|i| ((i * 5 + turn) % objects) as u8)
        .collect();
    for (i, o) in order.iter().enumerate() {
        // by how much it is above the lowest, 10, up to 32: one by one, the outermost being equal where there is no room for that
        let one_by_one = (i + 22).saturating_sub(22.max(objects - 1));
        let above = [0, one_by_one, i / 2, i / 8, i * 22 / LAST_OBJECT][rise];
        ceilings[*o as usize] = 10 + above as u8;
    }
    let tasks = random.pick(&[2, 3, 4, 6, MOST_TASKS]);
    let top = random.pick(&[10, 18, 26]);
    let base = |t: usize, random: &mut Random| match t % 2 {
        0 => random.within(1, 10) as u8,
        _ => random.within(8, top) as u8,
    };
    Nest {
        bases: (0..tasks).map(|t| base(t, random)).collect(),
        ceilings,
        order,
    }
}

/// A script that enters objects from the lowest ceiling on and leaves them, with Releases and Sets of its own inside; a task with
/// a base above the lowest ceiling just stops and comes back.
fn nested(random: &mut Random, nest: &Nest, t: usize) -> Vec<Step> {
    let rest = [step(SUSPEND, 0, 0), step(DELAY, 0, 1), step(DELAY, 0, 4)];
    let mut script = vec![random.pick(&rest)];
    if nest.bases[t] <= 10 {
        let least = random.pick(&[1, 1, 3]);
        let mut order = nest.order.clone();
        order.retain(|_| !random.once_in(8 / least));
        if random.once_in(2) {
            order = nest.order.clone();
        }
        let inside = |random: &mut Random| match random.below(8) {
            0 => vec![step(RELEASE, random.below(nest.bases.len()) as u8, 0)],
            1 if random.once_in(3) => vec![step(SET, t as u8, random.within(1, 10) as u16)],
            _ => Vec::new(),
        };
        for o in &order {
            script.push(step(ENTER, *o, 0));
            script.extend(inside(random));
        }
        script.extend([step(WORK, 0, 0); 4]);
        for o in order.iter().rev() {
            script.push(step(LEAVE, *o, 0));
            script.extend(inside(random));
        }
    }
    script.push(step(AGAIN, 0, 0));
    script
}

/// An event from outside that lets another task come in between, or none: more often the more objects the running task holds.
fn between(random: &mut Random, state: &State) -> Option<Event> {
    let t = random.below(state.tasks.len());
    let suspended = |t: &usize| state.tasks[*t].place == Place::Suspended;
    let away = (0..state.tasks.len()).find(suspended).unwrap_or(t);
    let (Some(runner), Some(task)) = (state.running, state.running_task()) else {
        let reading = reading_of(random, state);
        return Some(random.pick(&[Event::Release(away), Event::Clock(reading)]));
    };
    // a base above the ceilings keeps a task out of all objects
    let often = if runner % 2 == 0 { 3 } else { 12 };
    if task.base > 10 && task.held.is_empty() && random.once_in(often) {
        return Some(Event::Set(runner, random.within(1, 10) as u64));
    }
    let active = task.active(&state.ceilings);
    let ready = state.queues.iter().flatten().next();
    match random.below([60, 40, 16][task.held.len() / HALF]) {
        0 => Some(Event::Release(away)),
        1 => Some(Event::Release(t)),
        2 => Some(Event::Clock(reading_of(random, state))),
        3 => Some(Event::Set(t, random.within(1, 10) as u64)),
        4 => Some(Event::Set(t, random.within(1, 32) as u64)),
        5 | 6 => ready.map(|t| Event::Set(*t, active)),
        7 => ready.map(|t| Event::Set(*t, (active + 1).min(32))),
        _ => None,
    }
}

const DEEP: [Deep; 7] = [
    Preempted,
    HeldOff,
    Resumed,
    Entered,
    LeaveRunsOn,
    LeaveYields,
    LeaveOfEquals,
];

/// Every depth for each of these; one object alone has none outside it.
fn each_depth(what: &[Deep]) -> Vec<(Deep, usize)> {
    let depths = what.iter().flat_map(|w| DEPTHS.map(|d| (*w, d)));
    depths.filter(|pair| *pair != (LeaveOfEquals, 1)).collect()
}

#[test]
fn runs_with_deep_nesting_agree_with_the_second_program() {
    let mut counts = Histogram::new();
    let mut refused = 0;
    for seed in 0..RUNS {
        let mut random = Random::new(seed);
        let nest = nest_of(&mut random);
        let plan = Plan {
            bases: nest.bases.clone(),
            ceilings: nest.ceilings.clone(),
            scripts: (0..nest.bases.len())
                .map(|t| nested(&mut random, &nest, t))
                .collect(),
        };
        one_run(
            "due-nested",
            seed,
            &plan,
            |state| between(&mut random, state),
            &mut |before, event, outcome, after| {
                refused += (outcome.answer == 8) as usize;
                see_deep(&mut counts, before, event, outcome, after);
            },
            250,
        );
    }
    counts.print("nesting in runs");
    counts.require(&each_depth(&DEEP), LEAST);
    counts.require(&each_depth(&[BaseWaits]), LEAST);
    // a roster that passes falls above a ceiling only by a Set from outside, and so outside every action
    println!("Enter refused with 8 in runs: {refused}");
    assert!(refused >= LEAST, "8 came {refused} times");
}

/// A step of the running task on bytes: in by the next ceiling, out again, or refused.
fn nested_step(random: &mut Random, nest: &Nest, state: &State, inwards: bool) -> Event {
    let Some(task) = state.running_task() else {
        return Event::Suspend;
    };
    let any = random.below(nest.ceilings.len());
    let open = |o: &&u8| !task.held.contains(&usize::from(**o));
    let fits = |o: &&u8| state.ceilings[usize::from(**o)] >= task.active(&state.ceilings);
    let may_enter = |o: &u8| open(&o) && fits(&o);
    let next = nest.order.iter().find(|o| may_enter(o));
    let low = nest.order.iter().find(open);
    let full = task.held.len() == MOST_OBJECTS && random.once_in(2);
    match (random.below(20), inwards && !full) {
        (0..=10, true) | (0..=1, false) => Event::Enter(next.map_or(any, |o| usize::from(*o))),
        (11 | 12, true) | (2..=12, false) => Event::Leave(task.held.last().copied().unwrap_or(any)),
        (13, _) => Event::Enter(low.map_or(any, |o| usize::from(*o))),
        // one that can be entered may lie far in, and closes all before it
        (14, deeper) if !deeper || !may_enter(&(any as u8)) => Event::Enter(any),
        (15, _) => Event::Leave(any),
        (16, _) => Event::Delay(random.pick(&[0, 1, 3])),
        (17, _) => Event::Suspend,
        _ => Event::Work,
    }
}

#[test]
fn histories_with_deep_nesting_agree_with_the_second_program() {
    let mut counts = Histogram::new();
    for seed in 0..HISTORIES {
        let mut random = Random::new(seed);
        let nest = nest_of(&mut random);
        let wide = |bytes: &[u8]| bytes.iter().map(|b| u64::from(*b)).collect::<Vec<u64>>();
        let mut bytes = bytes_of(&fresh(&wide(&nest.bases), &wide(&nest.ceilings)).1);
        for i in 0..2 * EVENTS {
            let before = state_of(&bytes);
            let event = between(&mut random, &before)
                .unwrap_or_else(|| nested_step(&mut random, &nest, &before, i / 100 % 2 == 0));
            let input = format!("seed {seed}, event {i}");
            let (outcome, after) = compare_after(&bytes, event, &input);
            see_deep(&mut counts, &before, event, outcome, &state_of(&after));
            bytes = after;
        }
    }
    counts.print("nesting in histories on bytes");
    counts.require(&each_depth(&DEEP), LEAST);
    counts.require(&each_depth(&[HeldAlready, NotInnermost, BaseWaits]), LEAST);
    // with all of them held, none is left whose ceiling is below
    let above = [1, 2, HALF].map(|d| (AboveCeiling, d));
    counts.require(&above, LEAST);
}

/// Document 01 on an event's 8 bytes: "kind, a, value (6). 1 Clock value; 2 Release a; 3 Step; 4 Set a, value. Unused fields are
/// 0."
fn is_good(record: [u8; EVENT_SIZE]) -> bool {
    match record[0] {
        1 => record[1] == 0,
        2 => record[2..8] == [0; 6],
        3 => record[1..8] == [0; 7],
        4 => true,
        _ => false,
    }
}

/// The reply to a good record, at now 0, of a single task that works on and on.
fn reply_to(record: [u8; EVENT_SIZE]) -> [u8; REPLY_SIZE] {
    let [kind, a, v @ ..] = record;
    let value = v.iter().rev().fold(0, |sum, b| 256 * sum + u64::from(*b));
    let answer = match kind {
        1 if value > 86_400_000 => 4,
        2 | 4 if a != 0 => 1,
        4 if !(1..=32).contains(&value) => 3,
        _ => 0,
    };
    [answer, 0, 0]
}

/// Every kind byte, each without another bit and with each single bit of the other 7 bytes.
fn records() -> Vec<[u8; EVENT_SIZE]> {
    let bits = |kind: u8| (8..64).map(move |bit| u64::from(kind) | 1 << bit);
    let with = |kind: u8| std::iter::once(u64::from(kind)).chain(bits(kind));
    let all = (0..=255).flat_map(with);
    all.map(u64::to_le_bytes).collect()
}

/// Good records around, none of which changes what another is answered: the fields that a kind uses are full or empty.
const AROUND: [[u8; EVENT_SIZE]; 6] = [
    STEP,
    [2, 0, 0, 0, 0, 0, 0, 0],
    [4, 255, 255, 255, 255, 255, 255, 255],
    [1, 0, 255, 255, 255, 255, 255, 255],
    [2, 255, 0, 0, 0, 0, 0, 0],
    [4, 0, 5, 0, 0, 0, 0, 0],
];

/// That these events with this record at a place are answered as the rule says, and that nothing is written if they are refused;
/// the replies to the others are given.
fn assert_tested(roster: &[u8], events: &[u8], others: &[u8], at: usize, record: [u8; EVENT_SIZE]) {
    let mut found = vec![0xA5; others.len() + 1];
    let (number, task, step) = raw::run(roster, events, &mut found);
    let good = is_good(record);
    let count = events.len() / EVENT_SIZE;
    let input = || format!("record {} at {at} of {count}", hex(&record));
    let wanted = if good { 0 } else { 21 };
    assert_eq!((number, task, step), (wanted, 0, 0), "{}", input());
    let mut replies = vec![0xA5; found.len()];
    if good {
        replies[..others.len()].copy_from_slice(others);
        replies[REPLY_SIZE * at..][..REPLY_SIZE].copy_from_slice(&reply_to(record));
    }
    assert!(found == replies, "buffer, {}", input());
}

#[test]
fn every_kind_with_every_single_bit_is_answered_by_the_rule() {
    let plan = Plan {
        bases: vec![5],
        ceilings: Vec::new(),
        scripts: vec![vec![step(WORK, 0, 0), step(AGAIN, 0, 0)]],
    };
    let roster = plan.bytes();
    let mut answers = Histogram::new();
    let around: Vec<[u8; EVENT_SIZE]> = AROUND.into_iter().cycle().take(MOST_EVENTS).collect();
    let events = around.concat();
    let others: Vec<u8> = around.iter().flat_map(|r| reply_to(*r)).collect();
    let mut changed = events.clone();
    for record in records() {
        assert_tested(&roster, &record, &[0; REPLY_SIZE], 0, record);
        let input = format!("record {}", hex(&record));
        compare_run(&roster, &record, REPLY_SIZE, &input);
        for at in [0, MOST_EVENTS / 2, MOST_EVENTS - 1] {
            let place = EVENT_SIZE * at..EVENT_SIZE * (at + 1);
            changed[place.clone()].copy_from_slice(&record);
            assert_tested(&roster, &changed, &others, at, record);
            changed[place.clone()].copy_from_slice(&events[place]);
        }
        answers.count(is_good(record));
    }
    answers.print("records by whether they are good");
    // 49 of Clock, 9 of Release, 1 of Step and 57 of Set
    assert_eq!(answers.of(true), 116);
    assert_eq!(answers.of(false), 256 * 57 - 116);
}
