//! Why the processor changed hands at an event: the library, the second program, and request 2026-10 written out.

use std::collections::VecDeque;

use dispatch::raw;
use harness::calls::{self, done, refusal};
use harness::compare::{compare_after, compare_event, compare_readers, compare_run};
use harness::events::{assert_no_change_is_0, records_of, reply_of, REPLY_SIZE, WHOLE_CASE_EVENTS};
use harness::layout::{bytes_of, state_of, STATE_SIZE};
use harness::programs::{both_printed, lines_of};
use harness::random::Random;
use harness::report::{self, save, seen, Histogram};
use harness::rosters::{passing, step, Plan, AGAIN, DELAY, SUSPEND, WHOLE_CASE};
use harness::states::{dues, event_of, plant, sound_state};
use second::machine::{apply_to, Event, Outcome};
use second::roster::read;
use second::run::{Command, Run};
use second::state::{fresh, Place, State, Task};

const STATES: u64 = 40_000;
const REFUSED: u64 = 16_000;
const RUNS: u64 = 3_000;
const PROGRAMS: u64 = 400;
const LEAST: usize = 200;
/// Of the printed ones a few are enough: the test of runs has hundreds of each.
const LEAST_PRINTED: usize = 20;

/// The kinds of events, apart by what they can report.
#[derive(Clone, Copy, Debug, PartialEq, Eq, PartialOrd, Ord)]
enum Kind {
    Enter,
    Leave,
    DelayZero,
    Delay,
    Suspend,
    Release,
    Clock,
    /// on the running task, outside an action
    SetRunning,
    /// on any other task, outside an action
    SetOther,
    /// on a task inside an action, running or not
    SetInside,
    Work,
    Finish,
}

/// What each kind can report where it is accepted.
const CAN_REPORT: [(Kind, &[u8]); 12] = [
    (Kind::Enter, &[0]),
    // 1 where the ceiling given up held off a higher task, 2 where a base that waits sends the leaver to a tail
    (Kind::Leave, &[0, 1, 2]),
    // 0 where nobody stands before it in its queue
    (Kind::DelayZero, &[0, 2]),
    (Kind::Delay, &[2]),
    // 0 with a permit
    (Kind::Suspend, &[0, 2]),
    // 2 where nobody ran
    (Kind::Release, &[0, 1, 2]),
    (Kind::Clock, &[0, 1, 2]),
    (Kind::SetRunning, &[0, 2]),
    // never 2: where nobody runs, nobody is ready either
    (Kind::SetOther, &[0, 1]),
    (Kind::SetInside, &[0]),
    (Kind::Work, &[0]),
    (Kind::Finish, &[2]),
];

fn can_report() -> Vec<(Kind, u8)> {
    let each = CAN_REPORT.into_iter();
    each.flat_map(|(kind, reports)| reports.iter().map(move |report| (kind, *report)))
        .collect()
}

/// The kind of an accepted event.
fn kind_of(state: &State, event: Event) -> Kind {
    match event {
        Event::Enter(_) => Kind::Enter,
        Event::Leave(_) => Kind::Leave,
        Event::Delay(0) => Kind::DelayZero,
        Event::Delay(_) => Kind::Delay,
        Event::Suspend => Kind::Suspend,
        Event::Release(_) => Kind::Release,
        Event::Clock(_) => Kind::Clock,
        Event::Set(t, _) if !state.tasks[t].held.is_empty() => Kind::SetInside,
        Event::Set(t, _) if state.running == Some(t) => Kind::SetRunning,
        Event::Set(..) => Kind::SetOther,
        Event::Work => Kind::Work,
        Event::Finish => Kind::Finish,
    }
}

/// Whether an event itself takes the processor from the running task: what its dispatch does then is no preemption of that task.
fn sends_away(state: &State, t: usize, event: Event) -> bool {
    let task = &state.tasks[t];
    match event {
        Event::Delay(_) | Event::Finish => true,
        Event::Suspend => !task.permit,
        Event::Set(of, _) => of == t && task.held.is_empty(),
        // the outermost object is left, and a base waits for that
        Event::Leave(_) => task.held.len() == 1 && task.waiting.is_some(),
        Event::Enter(_) | Event::Release(_) | Event::Clock(_) | Event::Work => false,
    }
}

/// The highest of the base and the ceilings of objects held.
fn active(state: &State, t: usize) -> u64 {
    let task = &state.tasks[t];
    let ceilings = task.held.iter().map(|o| state.ceilings[*o]);
    ceilings.fold(task.base, u64::max)
}

/// The ready queue for a task's active priority.
fn own_queue(state: &State, t: usize) -> &VecDeque<usize> {
    &state.queues[active(state, t) as usize - 1]
}

/// Whether a task is ready, and the head of its queue.
fn is_head(state: &State, t: usize) -> bool {
    state.tasks[t].place == Place::Ready && own_queue(state, t).front() == Some(&t)
}

/// "0 no change, 1 another runs and the dispatch sent the old task to the head of its queue, 2 any other change".
fn wanted(before: &State, after: &State, event: Event) -> u8 {
    match (before.running, after.running) {
        (old, new) if old == new => 0,
        (Some(t), Some(_)) if is_head(after, t) && !sends_away(before, t, event) => 1,
        _ => 2,
    }
}

/// How the processor changed hands or did not; one event may be several of these.
#[derive(Clone, Copy, Debug, PartialEq, Eq, PartialOrd, Ord)]
enum Sight {
    /// 0: the event sent the running task to a tail, and the dispatch picked it again
    PickedAgain,
    /// 0: nobody runs before and after
    NobodyStill,
    /// 1: the old task is inside an action
    HolderPreempted,
    /// 1: the old task stands before others of its queue
    PreemptedBeforeEquals,
    /// 2: the event sent the old task to a tail, which is the head where nobody else stands there
    TailIsHead,
    /// 2: the same, and the new one is higher
    TailThenHigher,
    FromNobody,
    ToNobody,
}

use Sight::*;

/// The sights of an accepted event.
fn sights(before: &State, after: &State, event: Event) -> Vec<Sight> {
    let new = after.running;
    let Some(old) = before.running else {
        return seen([(NobodyStill, new.is_none()), (FromNobody, new.is_some())]);
    };
    let sent = sends_away(before, old, event);
    let other = new.filter(|t| *t != old);
    let preempted = other.is_some() && !sent;
    let to_tail = other.filter(|_| sent && after.tasks[old].place == Place::Ready);
    let higher = to_tail.is_some_and(|t| active(after, t) > active(after, old));
    let equals = own_queue(after, old).len() > 1;
    seen([
        (PickedAgain, sent && new == Some(old)),
        (
            HolderPreempted,
            preempted && !after.tasks[old].held.is_empty(),
        ),
        (PreemptedBeforeEquals, preempted && equals),
        (TailIsHead, to_tail.is_some() && is_head(after, old)),
        (TailThenHigher, higher),
        (ToNobody, new.is_none()),
    ])
}

/// The sights of each kind of event.
const SIGHTS: [(Sight, &[Kind]); 8] = [
    (
        PickedAgain,
        &[Kind::DelayZero, Kind::SetRunning, Kind::Leave],
    ),
    (NobodyStill, &[Kind::Release, Kind::Clock, Kind::SetOther]),
    (HolderPreempted, &PREEMPTING),
    (PreemptedBeforeEquals, &PREEMPTING),
    (
        TailIsHead,
        &[Kind::DelayZero, Kind::SetRunning, Kind::Leave],
    ),
    // a Delay 0 leaves the active priority, and nobody higher was ready
    (TailThenHigher, &[Kind::SetRunning, Kind::Leave]),
    (FromNobody, &[Kind::Release, Kind::Clock]),
    (ToNobody, &[Kind::Delay, Kind::Suspend, Kind::Finish]),
];

const PREEMPTING: [Kind; 4] = [Kind::Release, Kind::Clock, Kind::SetOther, Kind::Leave];

fn all_sights() -> Vec<(Sight, Kind)> {
    let each = SIGHTS.into_iter();
    each.flat_map(|(sight, kinds)| kinds.iter().map(move |kind| (sight, *kind)))
        .collect()
}

/// A sound state: at the end of a made history, the same when nobody runs any more, or one with the running task inside an action.
fn made_state(random: &mut Random) -> State {
    match random.below(4) {
        0 => sound_state(random),
        1 => {
            let state = sound_state(random);
            emptied(random, state)
        }
        _ => inside(random),
    }
}

/// Some tasks of a fresh start go away; the one that then runs enters objects, by rising ceilings; meanwhile its base is set, which
/// waits, and others come back or are set too.
fn inside(random: &mut Random) -> State {
    let spread = random.pick(&[3, 8, 32]);
    let (tasks, objects) = (random.within(2, 8), random.within(1, 4));
    let mut values = |n: usize| -> Vec<u64> {
        let each = (0..n).map(|_| random.within(1, spread) as u64);
        each.collect()
    };
    let (bases, mut ceilings) = (values(tasks), values(objects));
    ceilings.sort();
    let (_, mut state) = fresh(&bases, &ceilings);
    for _ in 0..random.below(tasks) {
        let away = [Event::Suspend, Event::Delay(1), Event::Delay(2)];
        apply_to(&mut state, random.pick(&away));
    }
    for object in random.below(objects)..objects {
        apply_to(&mut state, Event::Enter(object));
    }
    for _ in 0..random.below(8) {
        let t = random.below(tasks);
        let own = state.running.unwrap_or(t);
        let p = random.within(1, spread) as u64;
        let meanwhile = [Event::Release(t), Event::Set(t, p), Event::Set(own, p)];
        apply_to(&mut state, random.pick(&meanwhile));
    }
    state
}

/// Whoever runs leaves what it holds, and is delayed or suspended, until nobody runs.
fn emptied(random: &mut Random, mut state: State) -> State {
    while let Some(t) = state.running {
        let event = match state.tasks[t].held.last() {
            Some(&object) => Event::Leave(object),
            None => random.pick(&[Event::Delay(1), Event::Delay(9), Event::Suspend]),
        };
        apply_to(&mut state, event);
    }
    state
}

/// Events of every kind, most of them accepted; those that name a task, on the running one and the first eight; readings at as many due
/// times.
fn events_on(random: &mut Random, state: &State) -> Vec<Event> {
    let ticks = random.within(1, 65_535) as u16;
    let mut events = vec![Event::Delay(0), Event::Delay(ticks)];
    events.extend([Event::Suspend, Event::Work, Event::Finish]);
    events.push(Event::Enter(random.below(state.ceilings.len().max(1))));
    if let Some(t) = state.running {
        let Task { base, held, .. } = &state.tasks[t];
        events.extend(held.last().map(|object| Event::Leave(*object)));
        events.extend([1, *base, 32].map(|p| Event::Set(t, p)));
    }
    for t in (0..state.tasks.len()).take(8) {
        let p = random.within(1, 32) as u64;
        events.extend([Event::Release(t), Event::Set(t, p)]);
    }
    events.extend([state.now, state.now + 1].map(Event::Clock));
    events.extend(dues(state).into_iter().take(8).map(Event::Clock));
    events
}

#[test]
fn reports_on_states_agree_with_the_second_program_and_with_the_rule() {
    let mut counts = Histogram::new();
    let mut closer = Histogram::new();
    for seed in 0..STATES {
        let mut random = Random::new(seed);
        let before = bytes_of(&made_state(&mut random));
        let state = state_of(&before);
        let input = format!("seed {seed}");
        let sound = compare_readers(&before, &input);
        assert!(sound, "sound, {input}, {state:?}");
        for event in events_on(&mut random, &state) {
            let (outcome, after) = compare_after(&before, event, &input);
            let next = state_of(&after);
            let report = wanted(&state, &next, event);
            assert_eq!(outcome.report, report, "{input}, {event:?}, {state:?}");
            if outcome.answer == 0 {
                let kind = kind_of(&state, event);
                counts.count((kind, report));
                let all = sights(&state, &next, event).into_iter();
                all.for_each(|sight| closer.count((sight, kind)));
            }
        }
    }
    counts.print("accepted events by kind and report");
    counts.require(&can_report(), LEAST);
    counts.require_no_other(&can_report());
    closer.print("the same by how the processor changed hands");
    closer.require(&all_sights(), LEAST);
    closer.require_no_other(&all_sights());
}

/// "A refused event reports 0", whatever the number of the refusal.
#[test]
fn a_refused_event_reports_0() {
    let mut counts = Histogram::new();
    for seed in 0..REFUSED {
        let mut random = Random::new(seed);
        let mut state = made_state(&mut random);
        if random.once_in(4) {
            plant(&mut random, &mut state);
        }
        let before = bytes_of(&state);
        for _ in 0..8 {
            let event = event_of(&mut random, &state);
            let outcome = compare_event(&before, event, &format!("seed {seed}"));
            if outcome.answer != 0 {
                counts.count((outcome.answer, outcome.report));
            }
        }
    }
    let refusals: Vec<(u8, u8)> = (1..=10).map(|number| (number, 0)).collect();
    counts.print("refused events by answer and report");
    counts.require(&refusals, LEAST);
    counts.require_no_other(&refusals);
}

/// Bases and ceilings of a fresh start, and events with what each gives back.
type Case = (&'static [u8], &'static [u8], &'static [(Event, Outcome)]);

/// Reports worked out by hand from the words of the request.
const BY_HAND: [Case; 9] = [
    // to the tail behind an equal; alone the same one is picked again
    (&[10, 10], &[], &[(Event::Delay(0), done(2))]),
    (
        &[10],
        &[],
        &[(Event::Delay(0), done(0)), (Event::Work, done(0))],
    ),
    // preempted by a Release, and by a reading
    (
        &[10, 20],
        &[],
        &[(Event::Suspend, done(2)), (Event::Release(1), done(1))],
    ),
    (
        &[10, 20],
        &[],
        &[(Event::Delay(5), done(2)), (Event::Clock(5), done(1))],
    ),
    // a Set lowers the running task, and a higher one runs; a Set on that other task preempts
    (
        &[10, 20],
        &[],
        &[(Event::Set(1, 5), done(2)), (Event::Set(1, 20), done(1))],
    ),
    // from somebody to nobody, nobody still, from nobody to somebody
    (
        &[10],
        &[],
        &[
            (Event::Delay(5), done(2)),
            (Event::Clock(4), done(0)),
            (Event::Clock(3), refusal(4)),
            (Event::Clock(5), done(2)),
        ],
    ),
    // a base that waits sends the leaver to a tail, though the one that then runs is higher
    (
        &[10, 10],
        &[20],
        &[
            (Event::Enter(0), done(0)),
            (Event::Set(0, 5), done(0)),
            (Event::Leave(0), done(2)),
        ],
    ),
    // without one it is preempted, at its Leave and no sooner
    (
        &[10, 15],
        &[20],
        &[
            (Event::Suspend, done(2)),
            (Event::Enter(0), done(0)),
            (Event::Release(1), done(0)),
            (Event::Leave(1), refusal(2)),
            (Event::Leave(0), done(1)),
        ],
    ),
    (
        &[10],
        &[],
        &[(Event::Finish, done(2)), (Event::Finish, refusal(5))],
    ),
];

#[test]
fn reports_worked_out_by_hand() {
    for (case, (bases, ceilings, events)) in BY_HAND.iter().enumerate() {
        let mut state = [0; STATE_SIZE];
        assert_eq!(raw::fresh(bases, ceilings, &mut state), 0, "case {case}");
        for (event, wanted) in *events {
            let outcome = calls::event(&mut state, *event);
            assert_eq!(outcome, *wanted, "case {case}, {event:?}");
        }
    }
}

/// A run as it was made: its bytes, and what it has to write.
struct Made {
    roster: Vec<u8>,
    events: Vec<u8>,
    replies: Vec<u8>,
}

/// A roster that passes, most scripts of which wait at their start and begin again at their end.
fn lively(random: &mut Random) -> Plan {
    let mut plan = passing(random);
    for script in plan.scripts.iter_mut().filter(|s| s.len() < 100) {
        match random.below(4) {
            0 | 1 => script.insert(0, step(SUSPEND, 0, 0)),
            2 => script.insert(0, step(DELAY, 0, random.within(1, 9) as u16)),
            _ => {}
        }
        if script.last().is_none_or(|s| s.code != AGAIN) {
            script.push(step(AGAIN, 0, 0));
        }
    }
    plan
}

/// The next event of a run: mostly a Step; else a reading, a Release or a Set, now and then of a task or priority that is none.
fn next_command(random: &mut Random, run: &Run) -> Command {
    let any = random.below(run.state.tasks.len() + 1);
    let t = random.pick(&[any, run.state.running.unwrap_or(any)]);
    match random.below(8) {
        0 | 1 => Command::Clock(run.state.now + random.below(6) as u64),
        2 => Command::Release(any),
        3 => Command::Set(t, random.within(1, 33) as u64),
        _ => Command::Step,
    }
}

/// A roster that passes under some events, taken by the second program one by one.
fn made(seed: u64) -> Made {
    let mut random = Random::new(seed);
    let roster = lively(&mut random).bytes();
    let mut run = Run::start(read(&roster).expect("a roster that passes"));
    let (mut commands, mut replies) = (Vec::new(), Vec::new());
    for _ in 0..random.within(1, 100) {
        let command = next_command(&mut random, &run);
        commands.push(command);
        replies.extend(reply_of(&mut run, command));
    }
    Made {
        roster,
        events: records_of(&commands),
        replies,
    }
}

/// Counts the replies of a run by the kind of the event and the report.
fn count(made: &Made, counts: &mut Histogram<(u8, u8)>) {
    let kinds = made.events.iter().step_by(8);
    let replies = made.replies.chunks_exact(REPLY_SIZE);
    kinds
        .zip(replies)
        .for_each(|(kind, reply)| counts.count((*kind, reply[2])));
}

/// Every kind of a run's events can report everything.
fn require_all(counts: &Histogram<(u8, u8)>, least: usize) {
    let kinds = [1, 2, 3, 4].into_iter();
    let all: Vec<(u8, u8)> = kinds.flat_map(|k| [(k, 0), (k, 1), (k, 2)]).collect();
    counts.print("replies by kind (1 Clock, 2 Release, 3 Step, 4 Set) and report");
    counts.require(&all, least);
    counts.require_no_other(&all);
}

/// One run into a buffer of this size: 22 below three bytes for each event, and then nothing is written; else a reply for each,
/// and the bytes past the last stay.
fn run_into(made: &Made, size: usize, seed: u64) {
    let (roster, events, replies) = (&made.roster, &made.events, &made.replies);
    let mut buffer: Vec<u8> = (0..size).map(|at| at as u8 ^ 0xA5).collect();
    let mut wanted = buffer.clone();
    let number = if size < replies.len() { 22 } else { 0 };
    if number == 0 {
        wanted[..replies.len()].copy_from_slice(replies);
    }
    let answer = raw::run(roster, events, &mut buffer);
    let saved = || save("reports", seed, roster, events);
    let input = || format!("seed {seed}, room {size}, {}", saved());
    assert_eq!(answer, (number, 0, 0), "answer, {}", input());
    assert!(buffer == wanted, "buffer, {}", input());
    if number == 0 {
        assert_no_change_is_0(&buffer[..replies.len()], &input);
    }
    let number_of_both = compare_run(roster, events, size, &format!("seed {seed}"));
    assert_eq!(number_of_both, number, "{}", input());
}

#[test]
fn replies_of_runs_agree_with_the_second_program() {
    let mut counts = Histogram::new();
    for seed in 0..RUNS {
        let made = made(seed);
        let events = made.events.len() / 8;
        for size in [2 * events, 3 * events - 1, 3 * events, 3 * events + 1] {
            run_into(&made, size, seed);
        }
        count(&made, &mut counts);
    }
    require_all(&counts, LEAST);
}

#[test]
fn printed_reports_agree_with_the_second_programs_command() {
    let mut counts = Histogram::new();
    for seed in RUNS..RUNS + PROGRAMS {
        let made = made(seed);
        let name = format!("reports-{seed}");
        let [proved, second] = both_printed(&name, &made.roster, &made.events);
        let wanted = (lines_of(&made.replies), true);
        let input = || save("reports-program", seed, &made.roster, &made.events);
        assert!(proved == wanted, "seed {seed}, {}", input());
        assert!(second == wanted, "second, seed {seed}, {}", input());
        count(&made, &mut counts);
    }
    println!("printed");
    require_all(&counts, LEAST_PRINTED);
}

/// Document 01's whole case, given anew with the reports.
#[test]
fn the_whole_case_is_printed() {
    let lines = [
        "passed", "0 0 2", "0 0 0", "0 0 0", "0 0 0", "0 1 1", "0 1 0", "4 1 0", "0 1 0", "0 0 2",
        "0 - 2", "5 - 0", "end", "",
    ];
    let (roster, events) = (
        report::bytes_of(WHOLE_CASE),
        report::bytes_of(WHOLE_CASE_EVENTS),
    );
    for printed in both_printed("reports-whole-case", &roster, &events) {
        assert_eq!(printed, (lines.join("\n"), true));
    }
}
