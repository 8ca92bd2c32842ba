//! Request 2026-07: all the tasks, objects, rows and bytes that there can be, and one more, by hand and beside the second program.

use dispatch::raw;
use harness::calls::{self, done, refusal};
use harness::compare::{
    compare_after, compare_event, compare_fill, compare_fresh, compare_parts, compare_readers,
    compare_roster, compare_run,
};
use harness::events::{good_events, records_of, room_for, REPLY_SIZE};
use harness::layout::{
    bytes_of, state_of, CEILINGS, HELD, HELD_ROW, OBJECT_COUNT, READY, READY_ROW, ROW_SIZE,
    STATE_SIZE, TASKS, TASK_COUNT, TASK_ROW,
};
use harness::random::Random;
use harness::report::{hex, seen, Histogram};
use harness::rosters::{
    busiest, largest, most_steps, passing_of, rising, step, Plan, Step, AGAIN, DELAY, ENTER, LEAVE,
    RELEASE, SET, STEP_SIZE, SUSPEND, TRAILER, WORK,
};
use harness::runs::one_run;
use harness::sizes::{
    LARGEST_ROSTER, LAST_OBJECT, LAST_TASK, MOST_EVENTS, MOST_OBJECTS, MOST_ROWS, MOST_TASKS,
    SMALLEST_ROSTER,
};
use harness::states::{dues, event_of};
use second::limits;
use second::machine::{Event, Outcome};
use second::run::Command;
use second::state::{Place, State};

const HISTORIES: u64 = 100;
const EVENTS: usize = 640;
const RUNS: u64 = 60;
const LEAST: usize = 50;

/// The most tasks and objects, and bytes of a roster, before the request: what is past these is past what has fitted once.
const HALF_TASKS: usize = MOST_TASKS / 2;
const HALF_OBJECTS: usize = MOST_OBJECTS / 2;
const ONCE_LARGEST: usize = 32_768;

/// The number at the end of the line that gives a name its value.
fn named_in(text: &str, name: &str) -> usize {
    let gives = |line: &&str| line.split_whitespace().take(2).any(|word| word == name);
    let line = text.lines().find(gives);
    let last = line.and_then(|line| line.split_whitespace().last());
    let digits = last.unwrap_or(name).replace(['_', ';'], "");
    digits
        .parse()
        .unwrap_or_else(|_| panic!("no number for {name}"))
}

/// The papers' numbers written out, and wherever else they are named.
#[test]
fn the_sizes_are_named_alike() {
    let sizes = [MOST_TASKS, MOST_OBJECTS, SMALLEST_ROSTER, LARGEST_ROSTER];
    assert_eq!((sizes, MOST_ROWS), ([64, 32, 14, 60_000], 64));
    let starts = [TASKS, CEILINGS, HELD, READY, STATE_SIZE];
    assert_eq!(starts, [16, 1040, 1072, 3184, 5264]);
    let rows = [TASK_ROW, HELD_ROW, READY_ROW, ROW_SIZE * MOST_ROWS];
    assert_eq!(rows, [16, 33, 65, 192]);
    let in_crate = [
        dispatch::MOST_TASKS,
        dispatch::MOST_OBJECTS,
        dispatch::SMALLEST_ROSTER,
        dispatch::LARGEST_ROSTER,
    ];
    assert_eq!((in_crate, dispatch::STATE_SIZE), (sizes, STATE_SIZE));
    assert_eq!(limits::TASKS, 1..=MOST_TASKS);
    assert_eq!(limits::ROSTER_BYTES, SMALLEST_ROSTER..=LARGEST_ROSTER);
    let in_second = [limits::MAX_OBJECTS, limits::MAX_ROWS];
    assert_eq!(in_second, [MOST_OBJECTS, MOST_ROWS]);
    let header = include_str!("../../include/dispatch.h");
    let names = [
        "TASK_LIMIT",
        "OBJECT_LIMIT",
        "ROSTER_SMALLEST",
        "ROSTER_LARGEST",
    ];
    assert_eq!(
        names.map(|n| named_in(header, &format!("DISPATCH_{n}"))),
        sizes
    );
    let package = include_str!("../../ada/dispatcher.ads");
    let names = [
        "Task_Limit",
        "Object_Limit",
        "Smallest_Roster",
        "Largest_Roster",
    ];
    assert_eq!(names.map(|name| named_in(package, name)), sizes);
}

/// The bytes of a fresh start, which is the second program's.
fn started(bases: &[u8], ceilings: &[u8]) -> Vec<u8> {
    assert_eq!(compare_fresh(bases, ceilings, "full sizes"), 0);
    let mut bytes = vec![0xA5; STATE_SIZE];
    raw::fresh(bases, ceilings, &mut bytes);
    bytes
}

/// One event on a state's bytes, held to the second program and to what it has to give back; gives the bytes after it.
fn after(bytes: &[u8], event: Event, wanted: Outcome, input: &str) -> Vec<u8> {
    let (outcome, next) = compare_after(bytes, event, input);
    assert_eq!(outcome, wanted, "{input}, {event:?}, state {}", hex(bytes));
    next
}

/// The first of these tasks runs, and the others stand behind it in the queue of its priority: in the state's bytes, and on a board.
fn assert_standing(bytes: &[u8], p: u8, order: &[usize], input: &str) {
    let at = || format!("{input}, state {}", hex(bytes));
    let (first, rest) = order.split_first().expect("somebody runs");
    assert!(compare_readers(bytes, input), "sound, {}", at());
    assert_eq!(raw::running(bytes) as usize, *first, "running, {}", at());
    let row = &bytes[READY + READY_ROW * (p as usize - 1)..][..READY_ROW];
    let cells = row[1..].iter().map(|t| *t as usize).take(rest.len());
    assert_eq!(row[0] as usize, rest.len(), "length, {}", at());
    assert!(cells.eq(rest.iter().copied()), "queue, {}", at());
    let mut board = vec![0xA5; ROW_SIZE * MOST_ROWS];
    assert_eq!(compare_fill(bytes, &board, input), 0);
    raw::fill(bytes, &mut board);
    let row_of = |t: usize| [0, 1, 2].map(|i| board[ROW_SIZE * t + i]);
    assert_eq!(row_of(*first), [0, p, 0], "row {first}, {}", at());
    for (position, t) in rest.iter().enumerate() {
        assert_eq!(row_of(*t), [1, p, position as u8], "row {t}, {}", at());
    }
    let next = calls::next(&board[..ROW_SIZE * bytes[TASK_COUNT] as usize]);
    assert_eq!(next, Ok(rest.first().copied()), "next, {}", at());
}

/// They stand in the order of their numbers; a Delay 0 sends the running task behind all others, and each runs to its end.
#[test]
fn all_tasks_ready_at_one_priority() {
    for p in [1, 15, 32] {
        let mut bytes = started(&[p; MOST_TASKS], &[]);
        let from = |first: usize| -> Vec<usize> {
            let numbers = first..first + MOST_TASKS;
            numbers.map(|t| t % MOST_TASKS).collect()
        };
        // once round, and a little on
        let turns = MOST_TASKS + 3;
        for turn in 0..turns {
            let input = format!("priority {p}, turn {turn}");
            assert_standing(&bytes, p, &from(turn), &input);
            bytes = after(&bytes, Event::Delay(0), done(2), &input);
        }
        assert_finish_in(bytes, p, &from(turns), &format!("priority {p}"));
    }
}

/// Each of these runs to its end, in this order, and then nobody runs.
fn assert_finish_in(mut bytes: Vec<u8>, p: u8, order: &[usize], input: &str) {
    for i in 0..order.len() {
        assert_standing(&bytes, p, &order[i..], &format!("{input}, {i} ended"));
        bytes = after(&bytes, Event::Finish, done(2), input);
    }
    assert_eq!(raw::running(&bytes), raw::NOBODY, "{input}");
}

/// That a run writes these replies, which are worked out by hand, and the second program too.
fn assert_replies(plan: &Plan, taken: &[(Command, [u8; REPLY_SIZE])], input: &str) {
    let commands: Vec<Command> = taken.iter().map(|(command, _)| *command).collect();
    let wanted: Vec<u8> = taken.iter().flat_map(|(_, reply)| *reply).collect();
    let (roster, events) = (plan.bytes(), records_of(&commands));
    let room = room_for(&events);
    assert_eq!(compare_run(&roster, &events, room, input), 0, "{input}");
    let mut found = vec![0xA5; room];
    raw::run(&roster, &events, &mut found);
    assert_eq!(hex(&found), hex(&wanted), "{input}");
}

/// How the due times lie, the Delay of each task, and the order in which they run.
type Order = (&'static str, fn(usize) -> usize, fn(usize) -> usize);

const ORDERS: [Order; 6] = [
    ("equal", |_| 9, |i| i),
    ("rising", |t| 1 + t, |i| i),
    ("falling", |t| MOST_TASKS - t, |i| LAST_TASK - i),
    (
        "falling from the longest",
        |t| 65_535 - t,
        |i| LAST_TASK - i,
    ),
    (
        "even numbers first",
        |t| 1 + t % 2,
        |i| match i {
            ..HALF_TASKS => 2 * i,
            _ => 2 * (i - HALF_TASKS) + 1,
        },
    ),
    // the last two first, the lower number before the other
    (
        "in twos from the last",
        |t| 1 + (LAST_TASK - t) / 2,
        |i| LAST_TASK - 1 - 2 * (i / 2) + i % 2,
    ),
];

/// The readings one below the earliest due time and at the latest.
fn readings(ticks: fn(usize) -> usize) -> [u64; 2] {
    let dues = || (0..MOST_TASKS).map(|t| ticks(t) as u64);
    let (Some(earliest), Some(latest)) = (dues().min(), dues().max()) else {
        unreachable!("there are tasks");
    };
    [earliest - 1, latest]
}

#[test]
fn all_tasks_wake_at_one_reading() {
    for (name, ticks, order) in ORDERS {
        let mut bytes = started(&[10; MOST_TASKS], &[]);
        for t in 0..MOST_TASKS {
            let delay = Event::Delay(ticks(t) as u16);
            bytes = after(&bytes, delay, done(2), &format!("{name}, task {t}"));
        }
        let [below, latest] = readings(ticks);
        bytes = after(&bytes, Event::Clock(below), done(0), name);
        bytes = after(&bytes, Event::Clock(latest), done(2), name);
        let order: Vec<usize> = (0..MOST_TASKS).map(order).collect();
        assert_finish_in(bytes, 10, &order, name);
    }
}

/// The same in a run: every reply by hand.
#[test]
fn all_tasks_wake_at_one_reading_of_a_run() {
    for (name, ticks, order) in ORDERS {
        let delay = |t| vec![step(DELAY, 0, ticks(t) as u16)];
        let plan = Plan {
            bases: vec![10; MOST_TASKS],
            ceilings: Vec::new(),
            scripts: (0..MOST_TASKS).map(delay).collect(),
        };
        let runs = |t: usize| (Command::Step, [0, t as u8, 2]);
        let nobody = (Command::Step, [0, raw::NOBODY, 2]);
        let [below, latest] = readings(ticks).map(Command::Clock);
        let mut taken: Vec<(Command, [u8; REPLY_SIZE])> = (1..MOST_TASKS).map(runs).collect();
        taken.extend([nobody, (below, [0, raw::NOBODY, 0])]);
        taken.push((latest, [0, order(0) as u8, 2]));
        taken.extend((1..MOST_TASKS).map(|i| runs(order(i))));
        taken.push(nobody);
        assert_replies(&plan, &taken, name);
    }
}

/// All objects in an order that is not that of their numbers, and their ceilings by that order.
struct Nest {
    name: &'static str,
    base: u8,
    order: Vec<usize>,
    ceilings: Vec<u8>,
}

impl Nest {
    /// The objects by this order, with a ceiling for each place in it.
    fn new(name: &'static str, base: u8, ceiling: fn(usize) -> u8) -> Nest {
        let order = (0..MOST_OBJECTS).map(|i| (5 * i + 3) % MOST_OBJECTS);
        let order: Vec<usize> = order.collect();
        let mut ceilings = vec![0; MOST_OBJECTS];
        for (i, o) in order.iter().enumerate() {
            ceilings[*o] = ceiling(i);
        }
        Nest {
            name,
            base,
            order,
            ceilings,
        }
    }

    /// Enters all objects, and leaves them innermost first.
    fn script(&self) -> Vec<Step> {
        let enters = self.order.iter().map(|o| step(ENTER, *o as u8, 0));
        let leaves = self.order.iter().rev().map(|o| step(LEAVE, *o as u8, 0));
        enters.chain(leaves).collect()
    }

    /// A roster of all tasks whose last has this script; the others have none.
    fn plan(&self, script: &[Step]) -> Plan {
        let mut scripts = vec![Vec::new(); LAST_TASK];
        scripts.push(script.to_vec());
        Plan {
            bases: vec![self.base; MOST_TASKS],
            ceilings: self.ceilings.clone(),
            scripts,
        }
    }
}

/// Equal ceilings at and above the base, ones that rise by pairs, and rising ones.
fn nests() -> [Nest; 4] {
    [
        Nest::new("equal", 20, |_| 20),
        Nest::new("equal, above the base", 1, |_| 20),
        Nest::new("rising by pairs", 10, |i| 17 + (i / 2) as u8),
        Nest::new("rising", 1, |i| 1 + i as u8),
    ]
}

/// What the last task holds is this, outermost first, and its active priority is the innermost ceiling; any other Leave is 9.
fn assert_inside(bytes: &[u8], nest: &Nest, depth: usize) {
    let held = &nest.order[..depth];
    let input = format!("{}, {depth} held", nest.name);
    let row = &bytes[HELD + HELD_ROW * LAST_TASK..][..HELD_ROW];
    assert_eq!(row[0] as usize, depth, "length, {input}");
    assert!(
        row[1..]
            .iter()
            .zip(held)
            .all(|(cell, o)| *cell as usize == *o),
        "held, {input}"
    );
    let mut board = vec![0; ROW_SIZE * MOST_ROWS];
    raw::fill(bytes, &mut board);
    let active = held.last().map_or(nest.base, |o| nest.ceilings[*o]);
    assert_eq!(
        board[ROW_SIZE * LAST_TASK + 1],
        active,
        "active priority, {input}"
    );
    for o in (0..MOST_OBJECTS).filter(|o| held.last() != Some(o)) {
        after(bytes, Event::Leave(o), refusal(9), &input);
    }
    for o in held {
        after(bytes, Event::Enter(*o), refusal(7), &input);
    }
    for event in [Event::Enter(MOST_OBJECTS), Event::Leave(MOST_OBJECTS)] {
        after(bytes, event, refusal(2), &input);
    }
}

/// The last task enters all objects and leaves them innermost first; the others have gone.
#[test]
fn all_objects_nested() {
    for nest in nests() {
        let mut bytes = started(&[nest.base; MOST_TASKS], &nest.ceilings);
        for _ in 0..LAST_TASK {
            bytes = after(&bytes, Event::Suspend, done(2), nest.name);
        }
        for (depth, o) in nest.order.iter().enumerate() {
            assert_inside(&bytes, &nest, depth);
            bytes = after(&bytes, Event::Enter(*o), done(0), nest.name);
        }
        for (depth, o) in nest.order.iter().enumerate().rev() {
            assert_inside(&bytes, &nest, depth + 1);
            bytes = after(&bytes, Event::Leave(*o), done(0), nest.name);
        }
        assert_inside(&bytes, &nest, 0);
    }
}

/// In a full list of equal ceilings two objects may change places; one that stands there twice is unsound, wherever it stands.
#[test]
fn an_object_twice_in_a_full_list() {
    let mut bytes = started(&[20; MOST_TASKS], &[20; MOST_OBJECTS]);
    for o in 0..MOST_OBJECTS {
        bytes = after(&bytes, Event::Enter(o), done(0), "all held");
    }
    for i in 0..MOST_OBJECTS {
        for j in 0..i {
            let input = format!("objects {i} and {j}");
            let mut turned = bytes.clone();
            turned.swap(HELD + 1 + i, HELD + 1 + j);
            assert!(compare_readers(&turned, &input), "{input}");
            let mut twice = bytes.clone();
            twice[HELD + 1 + i] = j as u8;
            assert!(!compare_readers(&twice, &input), "{input}");
        }
    }
}

/// The same as a script: it passes and runs. The other tasks end first, one after the other.
#[test]
fn all_objects_nested_in_a_script() {
    for nest in nests() {
        let plan = nest.plan(&nest.script());
        assert_eq!(compare_roster(&plan.bytes(), nest.name), 0);
        let ends = (1..MOST_TASKS).map(|t| (Command::Step, [0, t as u8, 2]));
        let inside = (Command::Step, [0, LAST_TASK as u8, 0]);
        let mut taken: Vec<(Command, [u8; REPLY_SIZE])> = ends.collect();
        taken.extend([inside; 2 * MOST_OBJECTS]);
        taken.push((Command::Step, [0, raw::NOBODY, 2]));
        taken.push((Command::Step, [5, raw::NOBODY, 0]));
        assert_replies(&plan, &taken, nest.name);
    }
}

/// In such a script a Leave of any other object is 19, and one more Enter is 17.
#[test]
fn all_objects_nested_wrongly_in_a_script() {
    for nest in nests() {
        let script = nest.script();
        let refused = |wrong: &[Step], number: u8, at: usize| {
            let found = raw::check(&nest.plan(wrong).bytes());
            assert_eq!(found, (number, LAST_TASK, at), "{}, {wrong:?}", nest.name);
        };
        for at in MOST_OBJECTS..2 * MOST_OBJECTS {
            for o in (0..MOST_OBJECTS as u8).filter(|o| *o != script[at].a) {
                let mut wrong = script.clone();
                wrong[at].a = o;
                refused(&wrong, 19, at);
            }
        }
        for o in 0..MOST_OBJECTS as u8 {
            let mut wrong = script.clone();
            wrong.insert(MOST_OBJECTS, step(ENTER, o, 0));
            refused(&wrong, 17, MOST_OBJECTS);
        }
    }
}

/// All scripts of the busiest roster are found where they are, and their steps; many start past what was once the largest size.
#[test]
fn the_scripts_of_the_largest_roster() {
    let plan = busiest();
    let bytes = plan.bytes();
    assert_eq!(bytes.len(), LARGEST_ROSTER);
    assert_eq!(compare_roster(&bytes, "the busiest"), 0);
    let (mut start, mut far) = (0, 0);
    for (t, script) in (0..).zip(&plan.scripts) {
        let length = STEP_SIZE * script.len();
        let part = calls::script(&bytes, t);
        assert_eq!(part, Ok(&bytes[start..start + length]), "task {t}");
        assert_eq!(raw::script_start(&bytes, t), start as u64, "task {t}");
        for (k, s) in (0..).zip(script).step_by(37) {
            let [low, high] = s.b.to_le_bytes();
            let packed = u32::from_le_bytes([s.code, s.a, low, high]);
            assert_eq!(
                raw::step(&bytes, t, k),
                (0, packed.into()),
                "task {t}, step {k}"
            );
        }
        far += (start >= ONCE_LARGEST) as usize;
        start += length;
    }
    assert!(
        far > MOST_TASKS / 3,
        "{far} scripts start past {ONCE_LARGEST}"
    );
    let around = |last: usize| [0, last as u64 / 2, last as u64, last as u64 + 1];
    let (tasks, objects) = (around(LAST_TASK), around(LAST_OBJECT));
    compare_parts(&bytes, &tasks, &objects, &|| "the busiest".to_string());
}

/// It runs under as many events as there can be; with a byte more anywhere it is refused with 11, by every call that takes a roster.
#[test]
fn the_largest_roster_runs_under_the_most_events() {
    let bytes = busiest().bytes();
    for seed in 0..4 {
        let events = good_events(&mut Random::new(seed), MOST_EVENTS);
        let input = format!("the busiest, seed {seed}");
        let room = room_for(&events);
        assert_eq!(compare_run(&bytes, &events, room, &input), 0);
        assert_eq!(compare_run(&bytes, &events, room - 1, &input), 22);
    }
    let trailer = LARGEST_ROSTER - TRAILER;
    for at in [0, 1, ONCE_LARGEST, trailer, LARGEST_ROSTER] {
        let mut longer = bytes.clone();
        longer.insert(at, 0);
        let input = format!("the busiest, a byte more at {at}");
        assert_eq!(compare_roster(&longer, &input), 11);
        assert_eq!(compare_run(&longer, &[], 0, &input), 11);
        compare_parts(&longer, &[0, LAST_TASK as u64], &[0], &|| input.clone());
    }
    for length in [LARGEST_ROSTER, LARGEST_ROSTER + 1] {
        let wanted = if length == LARGEST_ROSTER { 12 } else { 11 };
        let answer = compare_roster(&vec![0; length], "nothing but zeros");
        assert_eq!(answer, wanted, "{length} zeros");
    }
}

/// Starts of scripts around the numbers that a narrow kind would cut.
const STARTS: [usize; 8] = [
    32_760, 32_764, 32_768, 32_772, 40_000, 49_152, 59_000, 59_952,
];

/// The second of two tasks, whose script starts far back, waits twice; each reply by hand.
#[test]
fn scripts_that_start_far_back() {
    let script = [step(DELAY, 0, 7), step(SUSPEND, 0, 0), step(AGAIN, 0, 0)];
    for start in STARTS {
        let plan = Plan {
            bases: vec![1, 2],
            ceilings: Vec::new(),
            scripts: vec![vec![step(WORK, 0, 0); start / STEP_SIZE], script.to_vec()],
        };
        let input = format!("a script from byte {start} on");
        let bytes = plan.bytes();
        assert_eq!(compare_roster(&bytes, &input), 0);
        assert_eq!(raw::script_start(&bytes, 1), start as u64, "{input}");
        let taken = [
            (Command::Step, [0, 0, 2]),
            (Command::Step, [0, 0, 0]),
            (Command::Clock(7), [0, 1, 1]),
            (Command::Step, [0, 0, 2]),
            (Command::Release(1), [0, 1, 1]),
            (Command::Step, [0, 1, 0]),
            (Command::Step, [0, 0, 2]),
        ];
        assert_replies(&plan, &taken, &input);
    }
}

/// A long script is looked at up to its last step: a fault there is named, and no other is found.
#[test]
fn faults_far_back_in_a_script() {
    for (tasks, objects) in [(1, 1), (MOST_TASKS, MOST_OBJECTS)] {
        let last = most_steps(tasks, objects) - tasks;
        let places = STARTS.map(|start| start / STEP_SIZE).into_iter();
        for at in places.filter(|at| *at < last).chain([last]) {
            let mut plan = largest(tasks, objects);
            plan.scripts[tasks - 1][at] = step(LEAVE, objects as u8 - 1, 0);
            let input = format!("Leave at step {at} of {tasks} tasks");
            assert_eq!(compare_roster(&plan.bytes(), &input), 19);
            let found = raw::check(&plan.bytes());
            assert_eq!(found, (19, tasks - 1, at), "{input}");
            let packed = u64::from(LEAVE) | (objects as u64 - 1) << 8;
            let found = raw::step(&plan.bytes(), tasks as u64 - 1, at as u64);
            assert_eq!(found, (0, packed), "{input}");
            plan.scripts[tasks - 1][at].a += 1;
            assert_eq!(raw::form(&plan.bytes()), (16, tasks - 1, at), "{input}");
        }
    }
}

/// Counts at the limits and past them, in a roster's trailer and in a fresh start: 13, and nothing else is looked at.
#[test]
fn the_counts_of_tasks_and_objects() {
    let counts = |most: usize| [most - 1, most, most + 1, most + 2, 2 * most, 255];
    for tasks in [1, HALF_TASKS + 1].into_iter().chain(counts(MOST_TASKS)) {
        for objects in [0, HALF_OBJECTS + 1]
            .into_iter()
            .chain(counts(MOST_OBJECTS))
        {
            let plan = Plan {
                bases: vec![9; tasks],
                ceilings: vec![9; objects],
                scripts: vec![Vec::new(); tasks],
            };
            let good = tasks <= MOST_TASKS && objects <= MOST_OBJECTS;
            let wanted = if good { 0 } else { 13 };
            let input = format!("{tasks} tasks, {objects} objects");
            assert_eq!(compare_roster(&plan.bytes(), &input), wanted, "{input}");
            let answer = compare_fresh(&plan.bases, &plan.ceilings, &input);
            assert_eq!(answer, wanted, "{input}");
            assert_eq!(
                compare_run(&plan.bytes(), &[], 0, &input),
                wanted,
                "{input}"
            );
        }
    }
}

/// The counts in a state's bytes: as they are it is sound; one more is 10, for every call; one less leaves a task nowhere.
#[test]
fn the_counts_of_a_state() {
    for (tasks, objects) in [(MOST_TASKS, MOST_OBJECTS), (LAST_TASK, LAST_OBJECT)] {
        let bytes = started(&vec![9; tasks], &vec![9; objects]);
        assert!(compare_readers(&bytes, "as it is"));
        for (at, most) in [(TASK_COUNT, MOST_TASKS), (OBJECT_COUNT, MOST_OBJECTS)] {
            for count in [0, most - 1, most, most + 1, most + 2, 128, 255] {
                let mut changed = bytes.clone();
                changed[at] = count as u8;
                let input = format!("{tasks} tasks, {objects} objects, byte {at} as {count}");
                let sound = compare_readers(&changed, &input);
                assert!(!sound || count <= most, "{input}");
                compare_event(&changed, Event::Work, &input);
                let filled = compare_fill(&changed, &[0xA5; ROW_SIZE * MOST_ROWS], &input);
                assert_eq!(filled == 10, !sound, "{input}");
            }
        }
    }
}

/// One task or object more than there are rows is 10, though what lies behind the rows looks good: an ended task, and a ceiling.
#[test]
fn one_more_than_the_rows_of_a_state() {
    let few = MOST_OBJECTS / 4;
    let mut bytes = started(&[9; MOST_TASKS], &vec![9; few]);
    for _ in 0..LAST_TASK {
        bytes = after(&bytes, Event::Delay(0), done(2), "one more task");
    }
    bytes = after(&bytes, Event::Finish, done(2), "one more task");
    // place kind and base of a row that begins with the ceilings; those behind the last object are not read
    bytes[CEILINGS + 8..][..2].copy_from_slice(&[4, 1]);
    assert!(compare_readers(&bytes, "the last task ended"));
    bytes[TASK_COUNT] += 1;
    assert!(!compare_readers(&bytes, "one more task"));
    after(&bytes, Event::Work, refusal(10), "one more task");
    // the first task holds one object: a length that a ceiling could be
    let mut bytes = started(&[9; MOST_TASKS], &[9; MOST_OBJECTS]);
    bytes = after(&bytes, Event::Enter(0), done(0), "one more object");
    bytes[OBJECT_COUNT] += 1;
    assert!(!compare_readers(&bytes, "one more object"));
    after(&bytes, Event::Work, refusal(10), "one more object");
}

/// A board with a row for each of all tasks, one less and one more.
#[test]
fn the_rows_of_a_filled_board() {
    let bytes = started(&[9; MOST_TASKS], &[]);
    for (rows, wanted) in [(MOST_ROWS - 1, 13), (MOST_ROWS, 0), (MOST_ROWS + 1, 0)] {
        for stray in 0..ROW_SIZE {
            let board = vec![0xA5; ROW_SIZE * rows + stray];
            let input = format!("{rows} rows, {stray} bytes more");
            assert_eq!(compare_fill(&bytes, &board, &input), wanted, "{input}");
        }
    }
}

/// One ready row among others, the last too, is found on a full board; one row more is 13, even beside a bad priority.
#[test]
fn the_rows_of_an_asked_board() {
    for ready in 0..MOST_ROWS {
        let mut board = [0, 7, 0].repeat(MOST_ROWS);
        board[ROW_SIZE * ready] = 1;
        assert_eq!(calls::next(&board), Ok(Some(ready)), "row {ready}");
        board.extend([0, 7]);
        assert_eq!(
            calls::next(&board),
            Ok(Some(ready)),
            "row {ready}, 2 bytes more"
        );
        board.push(0);
        assert_eq!(calls::next(&board), Err(13), "row {ready}, a row more");
        board[ROW_SIZE * ready + 1] = 33;
        assert_eq!(calls::next(&board), Err(13), "row {ready}, a row more, 33");
        board.truncate(ROW_SIZE * MOST_ROWS);
        assert_eq!(calls::next(&board), Err(3), "row {ready}, 33");
    }
    // of all rows ready the lowest position, then the lowest row
    let rows = (0..MOST_ROWS).flat_map(|i| [1, 7, (LAST_TASK - i) as u8 / 2]);
    let board: Vec<u8> = rows.collect();
    assert_eq!(calls::next(&board), Ok(Some(MOST_ROWS - 2)));
}

/// Which bytes of a state an accepted event has changed.
fn changed_at(before: &[u8], event: Event, input: &str) -> Vec<usize> {
    let after = after(before, event, done(0), input);
    (0..STATE_SIZE)
        .filter(|at| before[*at] != after[*at])
        .collect()
}

/// Every task and object by its number: what an event does is done to that one and to no other; the numbers past the last are 1 and 2.
#[test]
fn every_number_in_an_event() {
    for (tasks, objects) in [(MOST_TASKS, MOST_OBJECTS), (LAST_TASK, LAST_OBJECT)] {
        let bytes = started(&vec![9; tasks], &vec![9; objects]);
        let input = format!("{tasks} tasks, {objects} objects");
        for t in 0..tasks {
            let row = TASKS + TASK_ROW * t;
            let permit = changed_at(&bytes, Event::Release(t), &input);
            assert_eq!(permit, [row + 12], "Release {t}, {input}");
        }
        // the first runs on; what else changes is marks and queues
        for t in 1..tasks {
            let mut base = changed_at(&bytes, Event::Set(t, 1), &input);
            base.retain(|at| (TASKS..READY).contains(at));
            assert_eq!(base, [TASKS + TASK_ROW * t + 9], "Set {t}, {input}");
        }
        for o in 0..objects {
            let held = changed_at(&bytes, Event::Enter(o), &input);
            // object 0 is what the cell was
            let cells: &[usize] = if o == 0 { &[HELD] } else { &[HELD, HELD + 1] };
            assert_eq!(held, cells, "Enter {o}, {input}");
            after(&bytes, Event::Leave(o), refusal(9), &input);
        }
        for past in [0, 1, 2, 100] {
            for event in [Event::Release(tasks + past), Event::Set(tasks + past, 9)] {
                after(&bytes, event, refusal(1), &input);
            }
            for event in [Event::Enter(objects + past), Event::Leave(objects + past)] {
                after(&bytes, event, refusal(2), &input);
            }
        }
    }
}

/// The answer of the check to one script of the last task, which has this first fault at step 0.
fn checked(tasks: usize, objects: usize, script: &[Step]) -> u8 {
    let mut plan = Plan {
        bases: vec![9; tasks],
        ceilings: vec![9; objects],
        scripts: vec![Vec::new(); tasks],
    };
    plan.scripts[tasks - 1] = script.to_vec();
    let number = compare_roster(&plan.bytes(), &format!("{tasks}, {objects}, {script:?}"));
    let place = if number == 0 { 0 } else { tasks - 1 };
    assert_eq!(raw::check(&plan.bytes()), (number, place, 0), "{script:?}");
    number
}

/// Every number around the last in every step that names a task or an object: the last is listed, the next is 16.
#[test]
fn every_number_in_a_step() {
    for (tasks, objects) in [(MOST_TASKS, MOST_OBJECTS), (LAST_TASK, LAST_OBJECT)] {
        let past = |count: usize, half: usize| [0, count - 1 - half, count - 1, count, count + 1];
        for o in past(objects, HALF_OBJECTS).into_iter().chain([255]) {
            let answer = |good: u8| if o < objects { good } else { 16 };
            let inside = [step(ENTER, o as u8, 0), step(LEAVE, o as u8, 0)];
            assert_eq!(checked(tasks, objects, &inside), answer(0), "Enter {o}");
            assert_eq!(
                checked(tasks, objects, &inside[1..]),
                answer(19),
                "Leave {o}"
            );
        }
        for t in past(tasks, HALF_TASKS).into_iter().chain([255]) {
            let answer = |good: u8| if t < tasks { good } else { 16 };
            let (release, set) = (step(RELEASE, t as u8, 0), step(SET, t as u8, 9));
            assert_eq!(
                checked(tasks, objects, &[release]),
                answer(0),
                "Release {t}"
            );
            let own = if t == tasks - 1 { 0 } else { 20 };
            assert_eq!(checked(tasks, objects, &[set]), answer(own), "Set {t}");
        }
    }
}

/// The last task and the last object by their numbers in steps and events of a run: each reply by hand.
#[test]
fn the_last_numbers_in_a_run() {
    let (last, object) = (LAST_TASK as u8, LAST_OBJECT as u8);
    let mut plan = Plan {
        bases: vec![1; MOST_TASKS],
        ceilings: vec![30; MOST_OBJECTS],
        scripts: vec![Vec::new(); MOST_TASKS],
    };
    (plan.bases[0], plan.bases[LAST_TASK]) = (10, 20);
    plan.scripts[0] = vec![step(RELEASE, last, 0), step(AGAIN, 0, 0)];
    plan.scripts[LAST_TASK] = vec![
        step(SUSPEND, 0, 0),
        step(ENTER, object, 0),
        step(SET, last, 5),
        step(LEAVE, object, 0),
        step(SUSPEND, 0, 0),
    ];
    let taken = [
        // the last waits, the first releases it, and it goes in; its new base takes effect when it leaves
        (Command::Step, [0, 0, 2]),
        (Command::Step, [0, last, 1]),
        (Command::Step, [0, last, 0]),
        (Command::Release(MOST_TASKS), [1, last, 0]),
        (Command::Step, [0, last, 0]),
        (Command::Step, [0, 0, 2]),
        (Command::Set(MOST_TASKS, 20), [1, 0, 0]),
        (Command::Set(LAST_TASK, 20), [0, last, 1]),
        (Command::Step, [0, 0, 2]),
        (Command::Release(LAST_TASK), [0, last, 1]),
        (Command::Step, [0, 0, 2]),
        (Command::Set(LAST_TASK, 20), [6, 0, 0]),
    ];
    assert_replies(&plan, &taken, "the last numbers");
}

/// What only the new sizes have, by the number of the task or object, or by how many there are.
#[derive(Clone, Copy, Debug, PartialEq, Eq, PartialOrd, Ord)]
enum Past {
    TaskRuns,
    TaskReady,
    TaskDelayed,
    TaskSuspended,
    TaskEnded,
    TaskReleased,
    TaskSet,
    ObjectEntered,
    ObjectLeft,
    BaseWaits,
    LongQueue,
    DeepNest,
    AllHeld,
    ManyWake,
    AllReady,
}

use Past::*;

const PAST: [Past; 15] = [
    TaskRuns,
    TaskReady,
    TaskDelayed,
    TaskSuspended,
    TaskEnded,
    TaskReleased,
    TaskSet,
    ObjectEntered,
    ObjectLeft,
    BaseWaits,
    LongQueue,
    DeepNest,
    AllHeld,
    ManyWake,
    AllReady,
];

/// What is seen of an accepted event by its numbers.
fn seen_of(event: Event) -> Vec<Past> {
    let high_task = |t: usize| t >= HALF_TASKS;
    let high_object = |o: usize| o >= HALF_OBJECTS;
    match event {
        Event::Release(t) => seen([(TaskReleased, high_task(t))]),
        Event::Set(t, _) => seen([(TaskSet, high_task(t))]),
        Event::Enter(o) => seen([(ObjectEntered, high_object(o))]),
        Event::Leave(o) => seen([(ObjectLeft, high_object(o))]),
        _ => Vec::new(),
    }
}

/// What is seen of the state after it, and of how many it has woken.
fn seen_after(before: &State, next: &State) -> Vec<Past> {
    let high = || next.tasks.iter().skip(HALF_TASKS);
    let at = |place: fn(Place) -> bool| high().any(|task| place(task.place));
    let deepest = next.tasks.iter().map(|task| task.held.len()).max();
    let longest = next.queues.iter().map(|queue| queue.len()).max();
    let woken = dues(before).len().saturating_sub(dues(next).len());
    seen([
        (TaskRuns, at(|place| place == Place::Running)),
        (TaskReady, at(|place| place == Place::Ready)),
        (TaskDelayed, at(|p| matches!(p, Place::Delayed { .. }))),
        (TaskSuspended, at(|place| place == Place::Suspended)),
        (TaskEnded, at(|place| place == Place::Ended)),
        (BaseWaits, high().any(|task| task.waiting.is_some())),
        (LongQueue, longest > Some(HALF_TASKS)),
        (DeepNest, deepest > Some(HALF_OBJECTS)),
        (AllHeld, deepest == Some(MOST_OBJECTS)),
        (ManyWake, woken > HALF_TASKS),
        (AllReady, longest == Some(LAST_TASK)),
    ])
}

/// What came in histories: answers, reports, and what only the new sizes have.
#[derive(Default)]
struct Counts {
    answers: Histogram,
    reports: Histogram,
    past: Histogram<Past>,
}

impl Counts {
    fn count(&mut self, before: &State, event: Event, outcome: Outcome, next: &State) {
        self.answers.count(outcome.answer);
        self.reports.count(outcome.report);
        if outcome.answer == 0 {
            let all = seen_of(event).into_iter().chain(seen_after(before, next));
            all.for_each(|past| self.past.count(past));
        }
    }

    /// Requires all of these answers and no other, every report, and all that only the new sizes have.
    fn require(&self, title: &str, answers: &[u8]) {
        self.answers.print(&format!("{title}, events by answer"));
        self.answers.require(answers, LEAST);
        self.answers.require_no_other(answers);
        self.reports.print("events by report");
        self.reports.require(&[0, 1, 2], LEAST);
        self.past.print("what only the new sizes have");
        self.past.require(&PAST, LEAST);
    }
}

/// Bases and ceilings of a state of full size: mostly few priorities, so that many stand in one queue and objects can be nested.
fn full(random: &mut Random) -> (Vec<u8>, Vec<u8>) {
    let spread = random.pick(&[1, 1, 2, 6, 32]);
    let bases = (0..MOST_TASKS)
        .map(|_| random.within(1, spread) as u8)
        .collect();
    let lowest = random.pick(&[1, 6, 20, 32]);
    let ceilings = match random.below(3) {
        0 => rising(MOST_OBJECTS),
        1 => vec![lowest as u8; MOST_OBJECTS],
        _ => (0..MOST_OBJECTS)
            .map(|_| random.within(lowest, 32) as u8)
            .collect(),
    };
    (bases, ceilings)
}

/// What a history is at: anything, everybody goes away, everybody comes back, the running task goes in as far as it can.
#[derive(Clone, Copy)]
enum Phase {
    Any,
    Away,
    Back,
    Inwards,
}

const PHASES: [Phase; 4] = [Phase::Away, Phase::Back, Phase::Inwards, Phase::Any];

fn event_in(random: &mut Random, state: &State, phase: Phase) -> Event {
    if random.once_in(12) {
        return event_of(random, state);
    }
    let t = random.below(MOST_TASKS);
    match (phase, state.running_task()) {
        (Phase::Any, _) | (Phase::Away, None) => event_of(random, state),
        (Phase::Back, _) | (_, None) => {
            let suspended = |t: &usize| state.tasks[*t].place == Place::Suspended;
            let away = (0..MOST_TASKS).rfind(suspended).unwrap_or(t);
            let latest = dues(state).into_iter().max().unwrap_or(state.now);
            let all = [
                Event::Release(away),
                Event::Release(t),
                Event::Clock(latest),
            ];
            random.pick(&all)
        }
        (Phase::Away, Some(task)) => match task.held.last() {
            Some(o) => Event::Leave(*o),
            None if random.once_in(4) => Event::Suspend,
            None => Event::Delay(random.within(1, 9) as u16),
        },
        (Phase::Inwards, Some(task)) => {
            let fits = |o: &usize| {
                !task.held.contains(o) && state.ceilings[*o] >= task.active(&state.ceilings)
            };
            let lowest = (0..MOST_OBJECTS)
                .filter(fits)
                .min_by_key(|o| state.ceilings[*o]);
            match lowest {
                Some(o) => Event::Enter(o),
                None => Event::Set(t, random.within(1, 32) as u64),
            }
        }
    }
}

/// Histories on bytes: after each event the answer, the report, the running task and every byte of the state are the second program's.
#[test]
fn histories_of_full_size_agree_with_the_second_program() {
    let mut counts = Counts::default();
    for seed in 0..HISTORIES {
        let mut random = Random::new(seed);
        let (bases, ceilings) = full(&mut random);
        let mut bytes = started(&bases, &ceilings);
        for i in 0..EVENTS {
            let phase = PHASES[i * PHASES.len() * 2 / EVENTS % PHASES.len()];
            let before = state_of(&bytes);
            let event = event_in(&mut random, &before, phase);
            let input = format!("seed {seed}, event {i}");
            let (outcome, next) = compare_after(&bytes, event, &input);
            assert!(
                compare_readers(&next, &input),
                "sound, {input}, {event:?}, state {}",
                hex(&bytes)
            );
            counts.count(&before, event, outcome, &state_of(&next));
            bytes = next;
        }
        compare_fill(
            &bytes,
            &[0xA5; ROW_SIZE * MOST_ROWS],
            &format!("seed {seed}"),
        );
    }
    let answers = [0, 1, 2, 3, 4, 5, 6, 7, 8, 9];
    counts.require("histories of full size", &answers);
}

/// An event of a run from outside, or none: readings mostly where nobody runs, Releases and Sets of all numbers and the next. A calm
/// run has few while somebody runs, so that all tasks come to wait.
fn outside(random: &mut Random, state: &State, calm: bool) -> Option<Event> {
    let t = random.below(MOST_TASKS + 1);
    // a base above the ceilings keeps a task out of all objects, and at its Enter
    let p = match random.below(12) {
        0 => random.within(1, 32),
        1 | 2 => 33,
        _ => random.within(1, 10),
    };
    let dues = dues(state);
    let due = match dues[..] {
        [] => state.now + 1,
        _ => random.pick(&dues),
    };
    let latest = dues.into_iter().max().unwrap_or(state.now);
    let readings = [due - 1, due, latest, latest, state.now.saturating_sub(1)];
    let choice = match state.running {
        Some(_) if calm => random.below(4 * MOST_TASKS),
        _ => random.below(24),
    };
    match (choice, state.running) {
        (0, _) | (1..=8, None) => Some(Event::Release(t)),
        (1, _) => Some(Event::Set(t, p as u64)),
        (2, _) | (9..=18, None) => Some(Event::Clock(random.pick(&readings))),
        _ => None,
    }
}

/// A roster of full size that passes: the busiest, one of few priorities whose tasks all wait at once, short scripts, or long ones.
fn full_roster(random: &mut Random, seed: u64) -> Plan {
    let counts = [MOST_TASKS, MOST_OBJECTS];
    match seed % 4 {
        0 => busiest(),
        1 => waiting(random),
        2 => passing_of(random, counts, 12),
        _ => passing_of(
            random,
            counts,
            most_steps(MOST_TASKS, MOST_OBJECTS) / MOST_TASKS,
        ),
    }
}

fn waiting(random: &mut Random) -> Plan {
    let script = |random: &mut Random| {
        let ticks = random.pick(&[1, 1, 2, 9]);
        vec![step(DELAY, 0, ticks), step(AGAIN, 0, 0)]
    };
    Plan {
        bases: vec![random.within(1, 32) as u8; MOST_TASKS],
        ceilings: vec![32; MOST_OBJECTS],
        scripts: (0..MOST_TASKS).map(|_| script(random)).collect(),
    }
}

/// Runs, and beside each the same events on bytes: after each event the answer, the report, the running task and every byte.
#[test]
fn runs_of_full_size_agree_with_the_second_program() {
    let mut counts = Counts::default();
    for seed in 0..RUNS {
        let mut random = Random::new(seed);
        let plan = full_roster(&mut random, seed);
        let mut bytes = started(&plan.bases, &plan.ceilings);
        let mut check = |before: &State, event: Event, wanted: Outcome, next: &State| {
            let outcome = calls::event(&mut bytes, event);
            let input = || format!("seed {seed}, {event:?}, state {}", hex(&bytes_of(before)));
            assert_eq!(outcome, wanted, "{}", input());
            assert!(bytes == bytes_of(next), "state, {}", input());
            let running = next.running.map_or(raw::NOBODY, |t| t as u8);
            assert_eq!(raw::running(&bytes), running, "running, {}", input());
            counts.count(before, event, outcome, next);
        };
        let calm = seed % 4 == 1;
        let next = |state: &State| outside(&mut random, state, calm);
        one_run("full-sizes", seed, &plan, next, &mut check, MOST_EVENTS / 4);
    }
    let answers = [0, 1, 3, 4, 5, 6, 8];
    counts.require("runs of full size", &answers);
}
