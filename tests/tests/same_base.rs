//! A Set to the base that a task already has, by where the task stands: the library, the second program, and D.2.3 written out.

use dispatch::raw;
use harness::calls::{done, refusal};
use harness::compare::compare_after;
use harness::events::{record_of, reply_of};
use harness::layout::{bytes_of, state_of};
use harness::random::Random;
use harness::report::{save, Histogram};
use harness::rosters::{passing, step, Plan, SET};
use harness::sizes::MOST_TASKS;
use harness::states::sound_state;
use second::machine::{Event, Outcome};
use second::roster::{read, Step};
use second::run::{Command, Run};
use second::state::{Place, State, Task};

const STATES: u64 = 40_000;
const RUNS: u64 = 3_000;
const LEAST: usize = 200;

/// Where the task stands that is given its own base.
#[derive(Clone, Copy, Debug, PartialEq, Eq, PartialOrd, Ord)]
enum Standing {
    RunningWithEquals,
    RunningWithoutEquals,
    HeadOfQueue,
    MiddleOfQueue,
    TailOfQueue,
    AloneInQueue,
    Delayed,
    Suspended,
    Ended,
    RunningInside,
    PreemptedInside,
}

use Standing::*;

/// A preempted holder is rare in runs, so it stands last.
const ALL: [Standing; 11] = [
    RunningWithEquals,
    RunningWithoutEquals,
    HeadOfQueue,
    MiddleOfQueue,
    TailOfQueue,
    AloneInQueue,
    Delayed,
    Suspended,
    Ended,
    RunningInside,
    PreemptedInside,
];

fn standing(state: &State, t: usize) -> Standing {
    let task = &state.tasks[t];
    let equals = &state.queues[task.base as usize - 1];
    let position = equals.iter().position(|other| *other == t);
    match (task.place, task.held.is_empty()) {
        (Place::Running, false) => RunningInside,
        (_, false) => PreemptedInside,
        (Place::Running, _) if equals.is_empty() => RunningWithoutEquals,
        (Place::Running, _) => RunningWithEquals,
        (Place::Ready, _) if equals.len() == 1 => AloneInQueue,
        (Place::Ready, _) if position == Some(0) => HeadOfQueue,
        (Place::Ready, _) if position == Some(equals.len() - 1) => TailOfQueue,
        (Place::Ready, _) => MiddleOfQueue,
        (Place::Delayed { .. }, _) => Delayed,
        (Place::Suspended, _) => Suspended,
        (Place::Ended, _) => Ended,
    }
}

/// D.2.3 written out for a sound state: a ready or running task goes to the tail of its queue; inside an action the base waits.
/// The processor changes hands only where an equal takes over from the running task, which is no preemption. No queue is emptied, and
/// no empty one is joined: the marks stay.
fn wanted(state: &State, t: usize) -> (Outcome, State) {
    let mut next = state.clone();
    let base = state.tasks[t].base;
    let queue = &mut next.queues[base as usize - 1];
    match standing(state, t) {
        HeadOfQueue | MiddleOfQueue | TailOfQueue | AloneInQueue => {
            queue.retain(|other| *other != t);
            queue.push_back(t);
        }
        RunningWithEquals => {
            let first = queue.pop_front();
            queue.push_back(t);
            next.running = first;
            next.tasks[t].place = Place::Ready;
            if let Some(u) = first {
                next.tasks[u].place = Place::Running;
            }
            return (done(2), next);
        }
        RunningInside | PreemptedInside => next.tasks[t].waiting = Some(base),
        Ended => return (refusal(6), next),
        RunningWithoutEquals | Delayed | Suspended => {}
    }
    (done(0), next)
}

#[test]
fn a_set_to_the_same_base_agrees_with_the_second_program_and_with_the_rule() {
    let mut counts = Histogram::new();
    for seed in 0..STATES {
        let state = sound_state(&mut Random::new(seed));
        let before = bytes_of(&state);
        // of many tasks every eighth, and those inside an action
        let few = state.tasks.len() < MOST_TASKS;
        let looked_at = |t: usize| few || t as u64 % 8 == seed % 8;
        for (t, task) in state.tasks.iter().enumerate() {
            if !looked_at(t) && task.held.is_empty() {
                continue;
            }
            let event = Event::Set(t, task.base);
            let input = format!("seed {seed}");
            let (outcome, after) = compare_after(&before, event, &input);
            let (expected, next) = wanted(&state, t);
            assert_eq!(outcome, expected, "{input}, {event:?}, {state:?}");
            assert_eq!(after, bytes_of(&next), "{input}, {event:?}, {state:?}");
            counts.count(standing(&state, t));
        }
    }
    counts.print("Sets to the same base, by where the task stands");
    counts.require(&ALL, LEAST);
}

/// Inside an action the base waits: at the outermost Leave the task goes behind its equals.
#[test]
fn a_holder_set_to_its_own_base_goes_to_the_tail_when_it_leaves() {
    let mut counts = Histogram::new();
    for seed in 0..STATES {
        let state = sound_state(&mut Random::new(seed));
        let Some(t) = state.running else { continue };
        let Task { base, held, .. } = &state.tasks[t];
        let &[object] = &held[..] else { continue };
        let input = format!("seed {seed}, {state:?}");
        let (set, bytes) = compare_after(&bytes_of(&state), Event::Set(t, *base), &input);
        let (left, bytes) = compare_after(&bytes, Event::Leave(object), &input);
        let next = state_of(&bytes);
        let level = *base as usize - 1;
        let alone = state.queues[level..].iter().all(|queue| queue.is_empty());
        let report = if alone { 0 } else { 2 };
        assert_eq!((set, left), (done(0), done(report)), "{input}");
        let last = next.queues[level].back() == Some(&t);
        assert_eq!((next.running == Some(t), last), (alone, !alone), "{input}");
        counts.count(if alone {
            RunningWithoutEquals
        } else {
            RunningWithEquals
        });
    }
    counts.print("Leaves after a Set to the same base, with and without others as high");
    counts.require(&[RunningWithEquals, RunningWithoutEquals], LEAST);
}

/// A roster that passes; each script sets its task's base to itself once more, which no rule of the check minds.
fn with_own_sets(random: &mut Random) -> Plan {
    let mut plan = passing(random);
    for (t, script) in plan.scripts.iter_mut().enumerate() {
        if script.len() < 100 {
            // before the last step, which may be an Again
            let at = random.below(script.len().max(1));
            script.insert(at, step(SET, t as u8, plan.bases[t].into()));
        }
    }
    plan
}

/// The next event of a run: mostly a Step or a Set from outside of some task's present base.
fn next_command(random: &mut Random, run: &Run) -> Command {
    let t = random.below(run.state.tasks.len());
    match random.below(8) {
        0 => Command::Clock(run.state.now + random.below(5) as u64),
        1 => Command::Release(t),
        2 | 3 => Command::Set(t, run.state.tasks[t].base),
        _ => Command::Step,
    }
}

/// The running task, where this is a Step and the task's script sets its base to what it is.
fn by_own_step(run: &Run, command: Command) -> Option<usize> {
    let t = run.state.running?;
    let step = run.roster.tasks[t].script.get(run.places[t])?;
    let same = matches!(*step, Step::Set(_, p) if p == run.state.tasks[t].base);
    (command == Command::Step && same).then_some(t)
}

#[test]
fn a_run_with_sets_to_the_same_base_agrees_with_the_second_program() {
    let mut outside = Histogram::new();
    let mut own = Histogram::new();
    for seed in 0..RUNS {
        let mut random = Random::new(seed);
        let roster = with_own_sets(&mut random).bytes();
        let mut run = Run::start(read(&roster).expect("a roster that passes"));
        let (mut events, mut replies) = (Vec::new(), Vec::new());
        for _ in 0..random.within(1, 80) {
            let command = next_command(&mut random, &run);
            if let Command::Set(t, _) = command {
                outside.count(standing(&run.state, t));
            }
            if let Some(t) = by_own_step(&run, command) {
                own.count(standing(&run.state, t));
            }
            events.extend(record_of(command));
            replies.extend(reply_of(&mut run, command));
        }
        let mut buffer = vec![0xA5; replies.len()];
        let answer = raw::run(&roster, &events, &mut buffer);
        let input = || format!("seed {seed}, {}", save("same-base", seed, &roster, &events));
        assert_eq!(answer, (0, 0, 0), "answer, {}", input());
        assert!(buffer == replies, "buffer, {}", input());
    }
    outside.print("Sets to the same base from outside, in runs");
    outside.require(&ALL[..10], LEAST);
    own.print("Sets to the same base by a script's own step");
    own.require(
        &[RunningWithEquals, RunningWithoutEquals, RunningInside],
        LEAST,
    );
}
