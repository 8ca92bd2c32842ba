//! Request 2026-05 on the compiled code: two rosters that agree above a level, under the same events. After each event the tasks
//! above it are compared, through the state and the board, and each broken premise is seen to make a difference.

use std::collections::{BTreeMap, VecDeque};
use std::fmt::Debug;

use dispatch::raw;
use harness::events::{records_of, room_for, REPLY_SIZE};
use harness::layout::{rows_of, state_of, ROW_SIZE, STATE_SIZE};
use harness::levels::{agreeing, breaking, EVENTS, HIGHEST};
use harness::premises::{above, broken, Pair, Premise, PREMISES};
use harness::programs::line_of;
use harness::random::Random;
use harness::report::{bytes_of, save, Histogram};
use harness::rosters::{Plan, AGAIN, DELAY, ENTER, LEAVE, RELEASE, SET, SUSPEND, WORK};
use harness::sizes::MOST_TASKS;
use second::board::Row;
use second::run::Command;
use second::state::{Place, State, Task};

const PAIRS: u64 = 5_000;
const LEAST: usize = 200;
const LEAST_AT_LEVEL: usize = 50;
/// The boards are compared after every so many events, the last included: after each would take half as long again.
const BOARD_EACH: usize = 8;
const BROKEN_PAIRS: u64 = 600;
const APART_PAIRS: u64 = 1_000;
const LEAST_BROKEN: usize = 20;

/// The code under which a step at the script's end comes.
const FINISH: u8 = 0;

/// A caller of the library: it holds a state's bytes and each task's script position, and reads the scripts from the roster.
struct Caller {
    roster: Vec<u8>,
    bytes: Vec<u8>,
    positions: Vec<u64>,
    /// The reply to each event, as a run writes it.
    written: Vec<u8>,
    /// What the bytes mean, and what they meant before the last event.
    state: State,
    before: State,
    /// The running task by the library, or 255.
    running: u8,
    /// The code of the step that the last event was.
    code: Option<u8>,
}

impl Caller {
    fn start(plan: &Plan) -> Caller {
        let mut bytes = vec![0xA5; STATE_SIZE];
        let answer = raw::fresh(&plan.bases, &plan.ceilings, &mut bytes);
        assert_eq!(answer, 0, "a fresh start of {plan:?}");
        Caller {
            roster: plan.bytes(),
            positions: vec![0; plan.bases.len()],
            written: Vec::new(),
            state: state_of(&bytes),
            before: state_of(&bytes),
            running: raw::running(&bytes),
            code: None,
            bytes,
        }
    }

    /// Hands one event to the library, and looks at the state that it leaves.
    fn take(&mut self, command: Command) {
        self.code = None;
        let (answer, report) = match command {
            Command::Clock(reading) => raw::clock(&mut self.bytes, reading),
            Command::Release(t) => raw::release(&mut self.bytes, t as u64),
            Command::Set(t, p) => raw::set(&mut self.bytes, t as u64, p),
            Command::Step => self.step(),
        };
        self.running = raw::running(&self.bytes);
        self.written.extend([answer, self.running, report]);
        self.before = std::mem::replace(&mut self.state, state_of(&self.bytes));
    }

    /// The next step of the running task, its answer and report; with nobody running, Work, which answers 5.
    fn step(&mut self) -> (u8, u8) {
        let t = self.running;
        if t == raw::NOBODY {
            return raw::work(&mut self.bytes);
        }
        let position = self.positions[t as usize];
        let packed = self.step_at(t, position);
        let code = packed as u8;
        let outcome = self.call(packed);
        self.code = Some(code);
        if outcome.0 == 0 {
            self.positions[t as usize] = match code {
                FINISH => position,
                AGAIN => 0,
                _ => position + 1,
            };
        }
        outcome
    }

    /// The bytes of a step as a number, from the library; all 0 exactly at the script's end.
    fn step_at(&self, t: u8, position: u64) -> u64 {
        let (number, packed) = raw::step(&self.roster, t.into(), position);
        let (counted, count) = raw::step_count(&self.roster, t.into());
        assert_eq!((number, counted), (0, 0), "a roster whose form is good");
        assert_eq!(packed == 0, position == count, "Finish at the end alone");
        packed
    }

    /// The call that a step is; Again is none.
    fn call(&mut self, packed: u64) -> (u8, u8) {
        let (a, b) = (packed >> 8 & 0xFF, packed >> 16);
        let state = &mut self.bytes;
        match packed as u8 {
            ENTER => raw::enter(state, a),
            LEAVE => raw::leave(state, a),
            DELAY => raw::delay(state, b as u16),
            WORK => raw::work(state),
            SUSPEND => raw::suspend(state),
            RELEASE => raw::release(state, a),
            SET => raw::set(state, a, b),
            AGAIN => (0, 0),
            _ => raw::finish(state),
        }
    }

    fn last_answer(&self) -> u8 {
        self.written[self.written.len() - REPLY_SIZE]
    }

    fn last_report(&self) -> u8 {
        self.written[self.written.len() - 1]
    }

    /// The rows of a board, just filled.
    fn board(&self) -> Vec<Row> {
        let mut board = [0xA5; ROW_SIZE * MOST_TASKS];
        assert_eq!(raw::fill(&self.bytes, &mut board), 0, "a sound state");
        rows_of(&board[..ROW_SIZE * self.positions.len()])
    }
}

/// That two things are the same, or how they differ.
fn same<T: PartialEq + Debug>(what: &str, which: usize, a: T, b: T) -> Result<(), String> {
    match a == b {
        true => Ok(()),
        false => Err(format!("{what} {which}: {a:?} and {b:?}")),
    }
}

/// The first thing in which the tasks above stand otherwise in one state than in the other.
fn compare(level: u8, above: &[usize], callers: [&Caller; 2]) -> Result<(), String> {
    let [a, b] = callers.map(|caller| &caller.state);
    same("now at level", level.into(), a.now, b.now)?;
    for &t in above {
        let [in_a, in_b] = callers.map(|caller| caller.positions.get(t));
        same("script position of task", t, in_a, in_b)?;
        same("record of task", t, a.tasks.get(t), b.tasks.get(t))?;
        same("active priority of task", t, a.active(t), b.active(t))?;
        let [in_a, in_b] = callers.map(|caller| caller.running as usize == t);
        same("running of task", t, in_a, in_b)?;
    }
    compare_queues(level.into(), above, [a, b])
}

/// The same of the ready queues above the level, and that exactly the tasks above that are ready stand in them.
fn compare_queues(level: usize, above: &[usize], states: [&State; 2]) -> Result<(), String> {
    let [in_a, in_b] = states.map(|state| {
        let queues = state.queues.iter().enumerate().skip(level);
        let in_queue = |(q, queue)| Iterator::zip(std::iter::repeat(q + 1), queue);
        queues.flat_map(in_queue).collect::<Vec<(usize, &usize)>>()
    });
    same("ready queues above", level, &in_a, &in_b)?;
    let mut standing: Vec<usize> = in_a.iter().map(|(_, t)| **t).collect();
    standing.sort();
    let is_ready = |t: &usize| states[0].tasks[*t].place == Place::Ready;
    let ready: Vec<usize> = above.iter().copied().filter(is_ready).collect();
    same("tasks in the queues above", level, standing, ready)
}

/// The same of the boards that both states fill.
fn compare_boards(above: &[usize], callers: [&Caller; 2]) -> Result<(), String> {
    let [a, b] = callers.map(Caller::board);
    let mut rows = above.iter().map(|&t| (t, a.get(t), b.get(t)));
    rows.try_for_each(|(t, in_a, in_b)| same("board row", t, in_a, in_b))
}

/// Whether the answers to an event may differ: to a Step while no task above runs, to a Release of a task that only one roster has.
fn excepted(pair: &Pair, command: Command, runs_above: bool) -> bool {
    let [a, b] = &pair.rosters;
    match command {
        Command::Step => !runs_above,
        Command::Release(t) => (t < a.bases.len()) != (t < b.bases.len()),
        Command::Clock(_) => false,
        // of these the request says nothing
        Command::Set(..) => true,
    }
}

/// Folds two callers over their events and compares them at the start and after each event: what was written, or the first
/// difference.
fn folded(pair: &Pair, counts: &mut Counts) -> Result<[Vec<u8>; 2], String> {
    let above = above(&pair.rosters[0], pair.level);
    let [mut a, mut b] = [0, 1].map(|r| Caller::start(&pair.rosters[r]));
    compare(pair.level, &above, [&a, &b]).map_err(|text| format!("at the start, {text}"))?;
    for (i, &command) in pair.events[0].iter().enumerate() {
        a.take(command);
        b.take(pair.events[1][i]);
        let after = |text| format!("after event {i}, {command:?}, {text}");
        compare(pair.level, &above, [&a, &b]).map_err(after)?;
        if i % BOARD_EACH == BOARD_EACH - 1 {
            compare_boards(&above, [&a, &b]).map_err(after)?;
        }
        let runs_above = a.before.running.is_some_and(|t| above.contains(&t));
        if !excepted(pair, command, runs_above) {
            same("answers", i, a.last_answer(), b.last_answer()).map_err(after)?;
        }
        counts.count_event(command, &above, [&a, &b]);
    }
    Ok([a.written, b.written])
}

/// What a run writes for one roster of a pair.
fn ran(pair: &Pair, r: usize) -> Vec<u8> {
    let events = records_of(&pair.events[r]);
    let mut buffer = vec![0xA5; room_for(&events)];
    let answer = raw::run(&pair.rosters[r].bytes(), &events, &mut buffer);
    assert_eq!(answer, (0, 0, 0), "{pair:?}");
    buffer
}

/// The task above that runs after each event, if one does.
fn moments(written: &[u8], above: &[usize]) -> Vec<Option<u8>> {
    let runs = |reply: &[u8]| Some(reply[1]).filter(|t| above.contains(&(*t).into()));
    written.chunks_exact(REPLY_SIZE).map(runs).collect()
}

/// The same for two runs: the tasks above run at the same moments, and get the same answers but for the excepted ones. The reports
/// may differ.
fn compare_runs(pair: &Pair, [a, b]: [&[u8]; 2]) -> Result<(), String> {
    let above = above(&pair.rosters[0], pair.level);
    let runs = moments(a, &above);
    same(
        "moments at level",
        pair.level.into(),
        &runs,
        &moments(b, &above),
    )?;
    let mut runs_above = Caller::start(&pair.rosters[0])
        .state
        .running
        .is_some_and(|t| above.contains(&t));
    for (i, &command) in pair.events[0].iter().enumerate() {
        if !excepted(pair, command, runs_above) {
            let [in_a, in_b] = [a, b].map(|written| written[REPLY_SIZE * i]);
            same("answers of the runs", i, in_a, in_b)?;
        }
        runs_above = runs[i].is_some();
    }
    Ok(())
}

/// Whether one report is 1, from a task that ran before, and the other 2, from nobody.
fn reports_differ(callers: [&Caller; 2]) -> bool {
    let ran_before = callers.map(|caller| caller.before.running.is_some());
    let reports = callers.map(Caller::last_report);
    ran_before[0] != ran_before[1] && reports == ran_before.map(|ran| if ran { 1 } else { 2 })
}

/// What came, so that no pair passes for idleness.
#[derive(Clone, Copy, Debug, PartialEq, Eq, PartialOrd, Ord)]
enum Sight {
    TaskAboveRuns,
    LowerRunsInOneAndNobodyInTheOther,
    OtherLowerRuns,
    LowerPreemptedByOneAbove,
    LowerInsideWhileOneAboveWakes,
    DelayedAbove,
    SuspendedAbove,
    InsideAbove,
    PreemptedInsideAbove,
    PermitAbove,
    BaseWaitsAbove,
    EqualsAbove,
    StepAnswersDiffer,
    ReleaseAnswersDiffer,
    /// one above takes over, from a lower task in one and from nobody in the other
    TakeoverReportsDiffer,
    OtherTaskCount,
    OtherObjectCount,
    OtherLowerBase,
    OtherLowerScript,
    OtherLowerCeiling,
    EveryTaskAbove,
    NoTaskAbove,
}

use Sight::*;

const SIGHTS: usize = NoTaskAbove as usize + 1;

struct Counts {
    sights: BTreeMap<Sight, usize>,
    /// The steps of tasks above, by their code.
    steps: Histogram,
    levels: Histogram,
}

impl Counts {
    fn new() -> Counts {
        Counts {
            sights: BTreeMap::new(),
            steps: Histogram::new(),
            levels: Histogram::new(),
        }
    }

    fn count(&mut self, sight: Sight, seen: bool) {
        *self.sights.entry(sight).or_insert(0) += seen as usize;
    }

    /// In what the two rosters differ, which by the premises is not above the level.
    fn count_pair(&mut self, pair: &Pair) {
        let [a, b] = &pair.rosters;
        let shared = a.bases.len().min(b.bases.len());
        let objects = a.ceilings.len().min(b.ceilings.len());
        self.count(OtherTaskCount, a.bases.len() != b.bases.len());
        self.count(OtherObjectCount, a.ceilings.len() != b.ceilings.len());
        self.count(OtherLowerBase, a.bases[..shared] != b.bases[..shared]);
        self.count(OtherLowerScript, a.scripts[..shared] != b.scripts[..shared]);
        let other_ceiling = a.ceilings[..objects] != b.ceilings[..objects];
        self.count(OtherLowerCeiling, other_ceiling);
        self.count(EveryTaskAbove, pair.level == 0);
        self.count(NoTaskAbove, pair.level == HIGHEST);
        self.levels.count(pair.level);
    }

    fn count_event(&mut self, command: Command, above: &[usize], callers: [&Caller; 2]) {
        let runners = callers.map(|caller| caller.state.running);
        let is_above = |t: &usize| above.contains(t);
        let runs_above = runners[0].as_ref().is_some_and(is_above);
        self.count(TaskAboveRuns, runs_above);
        let idle = runners.map(|runner| runner.is_none());
        self.count(LowerRunsInOneAndNobodyInTheOther, idle[0] != idle[1]);
        let both = idle == [false, false];
        self.count(OtherLowerRuns, both && runners[0] != runners[1]);
        let differ = callers[0].last_answer() != callers[1].last_answer();
        self.count(StepAnswersDiffer, differ && command == Command::Step);
        self.count(ReleaseAnswersDiffer, differ && command != Command::Step);
        let takes_over = runs_above && callers[0].before.running != runners[0];
        let other = takes_over && reports_differ(callers);
        self.count(TakeoverReportsDiffer, other);
        let took = callers[0].before.running.filter(is_above);
        if let (Some(_), Some(code)) = (took, callers[0].code) {
            self.steps.count(code);
        }
        self.count_above(above, &callers[0].state);
        for caller in callers {
            self.count_lower(above, caller);
        }
    }

    /// Where the tasks above stand, which is the same in both.
    fn count_above(&mut self, above: &[usize], state: &State) {
        let some = |so: fn(&Task) -> bool| above.iter().any(|t| so(&state.tasks[*t]));
        let delayed = |task: &Task| matches!(task.place, Place::Delayed { .. });
        self.count(DelayedAbove, some(delayed));
        self.count(SuspendedAbove, some(|task| task.place == Place::Suspended));
        self.count(InsideAbove, some(|task| !task.held.is_empty()));
        let preempted = |task: &Task| task.place == Place::Ready && !task.held.is_empty();
        self.count(PreemptedInsideAbove, some(preempted));
        self.count(PermitAbove, some(|task| task.permit));
        self.count(BaseWaitsAbove, some(|task| task.waiting.is_some()));
        let equals = |queue: &VecDeque<usize>| queue.iter().filter(|t| above.contains(t)).count();
        let two = state.queues.iter().any(|queue| equals(queue) > 1);
        self.count(EqualsAbove, two);
    }

    /// What a task above does to the lower ones of one roster at this event.
    fn count_lower(&mut self, above: &[usize], caller: &Caller) {
        let (before, after) = (&caller.before, &caller.state);
        let is_above = |t: &usize| above.contains(t);
        let lower = before.running.filter(|t| !is_above(t));
        let preempted = lower.is_some_and(|t| after.tasks[t].place == Place::Ready);
        let runs_above = after.running.as_ref().is_some_and(is_above);
        self.count(LowerPreemptedByOneAbove, preempted && runs_above);
        let away = |place: Place| !matches!(place, Place::Running | Place::Ready);
        let wakes = |t: &usize| away(before.tasks[*t].place) && !away(after.tasks[*t].place);
        let mut tasks = 0..before.tasks.len();
        let inside = tasks.any(|t| !is_above(&t) && !before.tasks[t].held.is_empty());
        self.count(
            LowerInsideWhileOneAboveWakes,
            inside && above.iter().any(wakes),
        );
    }

    /// Prints the counts, and fails where one of them is below the least.
    fn require(&self) {
        println!("{PAIRS} pairs that agree above a level, {EVENTS} events each");
        for (sight, times) in &self.sights {
            println!("  {sight:?} {times}");
            assert!(*times >= LEAST, "{sight:?} came {times} times");
        }
        assert_eq!(self.sights.len(), SIGHTS, "kinds that were looked for");
        self.steps
            .print("steps of tasks above by code, 0 being Finish");
        let codes = [
            FINISH, ENTER, LEAVE, DELAY, WORK, SUSPEND, RELEASE, SET, AGAIN,
        ];
        self.steps.require(&codes, LEAST);
        self.levels
            .require(&Vec::from_iter(0..=HIGHEST), LEAST_AT_LEVEL);
    }
}

/// Saves both rosters of a pair with their events, and names the seed.
fn input(test: &str, seed: u64, pair: &Pair) -> String {
    let saved = [("first", 0), ("second", 1)].map(|(name, r)| {
        let events = records_of(&pair.events[r]);
        save(
            &format!("{test}-{name}"),
            seed,
            &pair.rosters[r].bytes(),
            &events,
        )
    });
    format!(
        "seed {seed}, level {}, {}, {}",
        pair.level, saved[0], saved[1]
    )
}

#[test]
fn what_is_not_above_a_level_changes_nothing_above_it() {
    let mut counts = Counts::new();
    for seed in 0..PAIRS {
        let pair = agreeing(&mut Random::new(seed));
        let input = || input("isolation", seed, &pair);
        assert_eq!(broken(&pair), [], "premises, {}", input());
        let written =
            folded(&pair, &mut counts).unwrap_or_else(|text| panic!("{text}, {}", input()));
        let runs = [ran(&pair, 0), ran(&pair, 1)];
        assert!(runs == written, "a run and its fold, {}", input());
        let compared = compare_runs(&pair, [&runs[0], &runs[1]]);
        assert_eq!(compared, Ok(()), "{}", input());
        counts.count_pair(&pair);
    }
    counts.require();
}

/// What is written for one roster of a pair; a roster that a run refuses is folded.
fn written(pair: &Pair, r: usize) -> Vec<u8> {
    if raw::check(&pair.rosters[r].bytes()).0 == 0 {
        return ran(pair, r);
    }
    let mut caller = Caller::start(&pair.rosters[r]);
    pair.events[r]
        .iter()
        .for_each(|command| caller.take(*command));
    caller.written
}

/// What the check answers for the rosters of a pair that do not pass.
fn refusals(pair: &Pair) -> Vec<u8> {
    let answers = pair.rosters.iter().map(|plan| raw::check(&plan.bytes()));
    let refused = answers.filter(|answer| *answer != (0, 0, 0));
    refused.map(|(number, _, _)| number).collect()
}

#[test]
fn each_broken_premise_makes_a_difference() {
    println!("pairs of {BROKEN_PAIRS} that differ above the level, and in when a task above runs");
    for premise in PREMISES {
        let (mut differing, mut at_other_moments) = (0, 0);
        for seed in 0..BROKEN_PAIRS {
            let pair = breaking(&mut Random::new(seed), premise);
            let input = || input(&format!("isolation-{premise:?}"), seed, &pair);
            assert_eq!(broken(&pair), [premise], "{}", input());
            let refused: &[u8] = if premise == Premise::Refused {
                &[20]
            } else {
                &[]
            };
            assert_eq!(refusals(&pair), refused, "{}", input());
            differing += folded(&pair, &mut Counts::new()).is_err() as usize;
            let above = above(&pair.rosters[0], pair.level);
            let runs = [0, 1].map(|r| moments(&written(&pair, r), &above));
            at_other_moments += (runs[0] != runs[1]) as usize;
        }
        println!("  {premise:?} {differing} {at_other_moments}");
        let least = differing.min(at_other_moments);
        assert!(
            least >= LEAST_BROKEN,
            "{premise:?} made {least} differences"
        );
    }
}

/// An event that is not seen from above, if one comes: a Step while no task above runs, or a Release of another number.
fn unseen(random: &mut Random, caller: &Caller, above: &[usize]) -> Option<Command> {
    let runs_above = caller.state.running.is_some_and(|t| above.contains(&t));
    let number = random.below(caller.positions.len() + 2);
    match random.below(4) {
        0 | 1 if !runs_above => Some(Command::Step),
        2 if !above.contains(&number) => Some(Command::Release(number)),
        _ => None,
    }
}

/// Gives both callers the events of a pair, and before each of them, to either alone, some that are not seen; compares as ever.
/// Those alone are counted by their answers, Steps and Releases apart.
fn folded_apart(
    pair: &Pair,
    random: &mut Random,
    counts: &mut [Histogram; 2],
) -> Result<(), String> {
    let above = above(&pair.rosters[0], pair.level);
    let [mut a, mut b] = [0, 1].map(|r| Caller::start(&pair.rosters[r]));
    for (i, &command) in pair.events[0].iter().enumerate() {
        for caller in [&mut a, &mut b] {
            for _ in 0..random.below(4) {
                let Some(alone) = unseen(random, caller, &above) else {
                    continue;
                };
                caller.take(alone);
                counts[(alone != Command::Step) as usize].count(caller.last_answer());
            }
        }
        compare(pair.level, &above, [&a, &b])
            .map_err(|text| format!("before event {i}, {text}"))?;
        let runs_above = a.state.running.is_some_and(|t| above.contains(&t));
        a.take(command);
        b.take(command);
        let after = |text| format!("after event {i}, {command:?}, {text}");
        compare(pair.level, &above, [&a, &b]).map_err(after)?;
        if !excepted(pair, command, runs_above) {
            same("answers", i, a.last_answer(), b.last_answer()).map_err(after)?;
        }
    }
    Ok(())
}

#[test]
fn what_is_not_seen_from_above_may_come_in_one_run_alone() {
    let mut counts = [Histogram::new(), Histogram::new()];
    for seed in 0..APART_PAIRS {
        let mut random = Random::new(seed);
        let pair = agreeing(&mut random);
        let input = || input("isolation-apart", seed, &pair);
        folded_apart(&pair, &mut random, &mut counts)
            .unwrap_or_else(|text| panic!("{text}, {}", input()));
    }
    let [steps, releases] = counts;
    steps.print("Steps of one run alone, by answer");
    steps.require(&[0, 5], LEAST);
    releases.print("Releases in one run alone, by answer");
    releases.require(&[0, 1], LEAST);
}

/// The bytes that docs/ISOLATION.md gives for a roster, and the lines that it says the program prints of it.
fn example<'a>(page: &'a str, name: &str) -> (Vec<u8>, Vec<&'a str>) {
    let from = page.split_once(&format!("    {name}: ")).expect(name).1;
    let lines = from
        .lines()
        .take_while(|line| !line.contains(':') && !line.is_empty());
    let bytes = lines.flat_map(bytes_of).collect();
    let row = page
        .lines()
        .find(|line| line.starts_with(&format!("| {name} |")));
    let printed = row.expect(name).split('`').skip(1).step_by(2).collect();
    (bytes, printed)
}

#[test]
fn the_example_of_the_page_runs_as_it_says() {
    let page = include_str!("../../docs/ISOLATION.md");
    let steps = |n: usize| vec![Command::Step; n];
    let events = [
        steps(11),
        vec![Command::Release(2), Command::Clock(5)],
        steps(1),
    ]
    .concat();
    for name in ["one", "two"] {
        let (roster, printed) = example(page, name);
        let mut buffer = vec![0xA5; REPLY_SIZE * events.len()];
        let answer = raw::run(&roster, &records_of(&events), &mut buffer);
        assert_eq!(answer, (0, 0, 0), "{name}");
        let written: Vec<String> = buffer.chunks_exact(REPLY_SIZE).map(line_of).collect();
        assert_eq!(written, printed, "{name}");
    }
}
