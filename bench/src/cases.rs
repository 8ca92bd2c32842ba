//! What is timed and counted: rosters and events in two mixes, and the same as a history of events on a state's bytes.

use harness::layout::bytes_of;
use harness::random::Random;
use harness::rosters::{step, Plan, AGAIN, DELAY, ENTER, LEAVE, RELEASE, SET, SUSPEND, WORK};
use second::machine::Event;
use second::roster::{self, Step};
use second::run::{decode, Command, Run};

use crate::limits::Size;

/// A mix of events: of 100, how many are Clock, Release and Set; the others are Step.
#[derive(Clone, Copy)]
pub struct Mix {
    pub name: &'static str,
    clock: usize,
    release: usize,
    set: usize,
}

/// A reading for every few steps, releases from outside, a base set now and then.
pub const REALISTIC: Mix = Mix {
    name: "realistic",
    clock: 20,
    release: 8,
    set: 2,
};

pub const STEP_HEAVY: Mix = Mix {
    name: "step-heavy",
    clock: 4,
    release: 1,
    set: 0,
};

/// A control loop: some work, a protected record or two nested, a signal to another task, then a wait; and again. The outer objects,
/// which have the lower ceilings, are the first half.
fn script_of(random: &mut Random, t: usize, size: Size) -> Vec<harness::rosters::Step> {
    let half = size.objects / 2;
    let mut script = Vec::new();
    for _ in 0..random.within(2, 6) {
        let outer = random.below(half) as u8;
        let inner = (half + random.below(half)) as u8;
        for _ in 0..random.within(1, 4) {
            script.push(step(WORK, 0, 0));
        }
        script.push(step(ENTER, outer, 0));
        script.push(step(WORK, 0, 0));
        if random.once_in(3) {
            script.extend([
                step(ENTER, inner, 0),
                step(WORK, 0, 0),
                step(LEAVE, inner, 0),
            ]);
        }
        script.push(step(LEAVE, outer, 0));
        match random.below(8) {
            0 => script.push(step(SUSPEND, 0, 0)),
            1 | 2 => script.push(step(RELEASE, random.below(size.tasks) as u8, 0)),
            3 => script.push(step(DELAY, 0, 0)),
            4 => script.push(step(SET, t as u8, random.within(1, 20) as u16)),
            _ => script.push(step(DELAY, 0, random.within(1, 40) as u16)),
        }
    }
    script.push(step(AGAIN, 0, 0));
    script
}

pub fn plan_of(random: &mut Random, size: Size) -> Plan {
    let half = size.objects / 2;
    let outer = (0..half).map(|_| random.within(20, 26) as u8);
    let mut ceilings: Vec<u8> = outer.collect();
    ceilings.extend((0..half).map(|_| random.within(26, 32) as u8));
    let tasks = 0..size.tasks;
    Plan {
        bases: tasks.clone().map(|_| random.within(1, 20) as u8).collect(),
        ceilings,
        scripts: tasks.map(|t| script_of(random, t, size)).collect(),
    }
}

pub fn events_of(random: &mut Random, mix: Mix, tasks: usize, count: usize) -> Vec<u8> {
    let mut now: u64 = 0;
    let mut events = Vec::with_capacity(8 * count);
    for _ in 0..count {
        let mut record = [0; 8];
        let pick = random.below(100);
        if pick < mix.clock {
            now += random.within(0, 4) as u64;
            record[0] = 1;
            record[2..].copy_from_slice(&now.to_le_bytes()[..6]);
        } else if pick < mix.clock + mix.release {
            record[0] = 2;
            record[1] = random.below(tasks) as u8;
        } else if pick < mix.clock + mix.release + mix.set {
            record[0] = 4;
            record[1] = random.below(tasks) as u8;
            record[2] = random.within(1, 20) as u8;
        } else {
            record[0] = 3;
        }
        events.extend(record);
    }
    events
}

/// A roster, and the events of a run of it.
pub struct Case {
    pub roster: Vec<u8>,
    pub events: Vec<u8>,
}

pub fn case_of(seed: u64, mix: Mix, size: Size, count: usize) -> Case {
    let mut random = Random::new(seed);
    let roster = plan_of(&mut random, size).bytes();
    let events = events_of(&mut random, mix, size.tasks, count);
    Case { roster, events }
}

/// The event on a state that an event of a run comes to: a Step is the running task's step, Again has no effect, as Work.
pub fn event_of(run: &Run, command: Command) -> Event {
    match command {
        Command::Clock(reading) => return Event::Clock(reading),
        Command::Release(t) => return Event::Release(t),
        Command::Set(t, p) => return Event::Set(t, p),
        Command::Step => {}
    }
    let next = run.state.running.map(|t| (t, run.places[t]));
    match next.and_then(|(t, place)| run.roster.tasks[t].script.get(place)) {
        None => Event::Finish,
        Some(Step::Enter(o)) => Event::Enter(*o),
        Some(Step::Leave(o)) => Event::Leave(*o),
        Some(Step::Delay(d)) => Event::Delay(*d),
        Some(Step::Suspend) => Event::Suspend,
        Some(Step::Release(t)) => Event::Release(*t),
        Some(Step::Set(t, p)) => Event::Set(*t, *p),
        Some(Step::Work | Step::Again) => Event::Work,
    }
}

/// A run's events as events on a state: the fresh state's bytes, and the events.
pub fn history_of(case: &Case) -> (Vec<u8>, Vec<Event>) {
    let mut run = Run::start(roster::admit(&case.roster).expect("a roster that passes"));
    let start = bytes_of(&run.state);
    let mut history = Vec::new();
    for command in decode(&case.events).expect("good events") {
        history.push(event_of(&run, command));
        run.take(command);
    }
    (start, history)
}
