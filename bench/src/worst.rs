//! The dearest single events: for each kind the most instructions that the constructed states have shown.
//!
//! What is found is the worst of these states, not a bound: a dearer one may exist. Each scenario gives one event inside a run, as the
//! difference of the run with it and the run up to it, and one event on the state's bytes. Bytes may also be a sound state that no
//! run reaches: there every ready task holds all objects.

use harness::events::{record_of, records_of};
use harness::layout::bytes_of;
use second::machine::Event;
use second::roster;
use second::run::Run;
use second::sound::is_sound;
use second::state::State;

use crate::cases::{event_of, Case};
use crate::counting::{counts_of, Counts};
use crate::jobs::Job;
use crate::limits::{Size, FULL, HALF};
use crate::scenarios::{self, Scenario, AGAIN_NAME};

const SIZES: [Size; 2] = [FULL, HALF];

/// The kinds of events, and Again, which is a step of a run and no event on a state.
const KINDS: [&str; 10] = [
    "enter", "leave", "delay", "suspend", "release", "clock", "set", "work", "finish", "again",
];
const AGAIN_KIND: usize = 9;

fn kind_of(event: Event) -> usize {
    match event {
        Event::Enter(_) => 0,
        Event::Leave(_) => 1,
        Event::Delay(_) => 2,
        Event::Suspend => 3,
        Event::Release(_) => 4,
        Event::Clock(_) => 5,
        Event::Set(..) => 6,
        Event::Work => 7,
        Event::Finish => 8,
    }
}

/// The state before the last event, and that event on it.
fn state_before(scenario: &Scenario) -> (State, Event) {
    let roster = roster::admit(&scenario.plan.bytes());
    let refused = |refusal| panic!("{}: {refusal:?}", scenario.name);
    let mut run = Run::start(roster.unwrap_or_else(refused));
    for &command in &scenario.before {
        run.take(command);
    }
    let event = event_of(&run, scenario.last);
    (run.state, event)
}

fn runs_of(scenario: &Scenario) -> [Job; 2] {
    let roster = scenario.plan.bytes();
    let mut events = records_of(&scenario.before);
    let up_to = Job::Run(Case {
        roster: roster.clone(),
        events: events.clone(),
    });
    events.extend(record_of(scenario.last));
    [up_to, Job::Run(Case { roster, events })]
}

/// The same state with as many objects, all of them held by every ready task of one queue, a base waiting: sound, though no run comes
/// to it. The running task holds `depth` of them.
fn loaded(state: &State, objects: usize, depth: usize) -> Option<State> {
    let mut state = state.clone();
    let p = state.highest_ready()?;
    state.ceilings = vec![p; objects];
    let ready = state.queues[p as usize - 1].clone();
    for t in ready {
        state.tasks[t].held = (0..objects).collect();
        state.tasks[t].waiting = Some(p);
    }
    let t = state.running?;
    state.tasks[t].held = (0..depth).collect();
    state.tasks[t].waiting = (depth > 0).then_some(p);
    is_sound(&state).then_some(state)
}

/// Events of the kind on such states.
fn loaded_jobs(state: &State, objects: usize, event: Event) -> Vec<Job> {
    let last = objects - 1;
    let events = match event {
        Event::Enter(_) => [(0, Event::Enter(0)), (last, Event::Enter(last))],
        Event::Leave(_) => [(1, Event::Leave(0)), (objects, Event::Leave(last))],
        other => [(0, other), (objects, other)],
    };
    let job = |(depth, event)| {
        let state = loaded(state, objects, depth)?;
        Some(Job::History(bytes_of(&state), vec![event]))
    };
    events.into_iter().filter_map(job).collect()
}

/// What is counted for one scenario: the two runs, the event on bytes, and the event on loaded bytes.
struct Counted {
    kind: usize,
    name: String,
    jobs: Vec<Job>,
}

fn counted(scenario: &Scenario, objects: usize) -> Counted {
    let (state, event) = state_before(scenario);
    let mut jobs: Vec<Job> = runs_of(scenario).into();
    let again = scenario.name == AGAIN_NAME;
    if !again {
        jobs.push(Job::History(bytes_of(&state), vec![event]));
        jobs.extend(loaded_jobs(&state, objects, event));
    }
    Counted {
        kind: if again { AGAIN_KIND } else { kind_of(event) },
        name: format!("{event:?}, {}", scenario.name),
        jobs,
    }
}

fn all(size: Size) -> Vec<Counted> {
    let scenarios = scenarios::all(size);
    let counted = scenarios.iter().map(|s| counted(s, size.objects));
    counted.collect()
}

/// The jobs to be counted, in their order.
pub fn jobs() -> Vec<Job> {
    let counted = SIZES.into_iter().flat_map(all);
    counted.flat_map(|counted| counted.jobs).collect()
}

/// Where an event is counted: in a run, on bytes that a run reaches, on any sound bytes.
const PLACES: [&str; 3] = ["in a run", "on bytes, of a run", "on bytes, any sound"];
/// By code: only a run has the third, lean.
const CODES: [&[&str]; 3] = [
    &["proved", "plain", "lean"],
    &["proved", "plain"],
    &["proved", "plain"],
];

/// The worst of one kind, by place and code; and by place the scenario that was worst for the proved code.
#[derive(Default)]
struct Worst {
    most: [[u64; 3]; PLACES.len()],
    names: [String; PLACES.len()],
}

impl Worst {
    fn take(&mut self, place: usize, counts: &[u64], name: &str) {
        let most = &mut self.most[place];
        if counts[0] > most[0] {
            self.names[place] = name.to_string();
        }
        for (most, count) in most.iter_mut().zip(counts) {
            *most = (*most).max(*count);
        }
    }

    fn take_all(&mut self, counts: &[Counts], name: &str) {
        let both = counts[1].iter().zip(&counts[0]);
        let in_run: Counts = both
            .map(|(with, up_to)| with.saturating_sub(*up_to))
            .collect();
        self.take(0, &in_run, name);
        for (i, on_bytes) in counts[2..].iter().enumerate() {
            if i == 0 {
                self.take(1, on_bytes, name);
            }
            self.take(2, on_bytes, name);
        }
    }
}

pub fn print() {
    let made = SIZES.map(all);
    for counted in made.iter().flatten() {
        for job in &counted.jobs {
            job.same(&counted.name);
        }
    }
    let counts = match counts_of(&jobs(), "worst") {
        Ok(counts) => counts,
        Err(why) => return println!("not counted: {why}"),
    };
    let mut left = &counts[..];
    for (size, made) in SIZES.iter().zip(&made) {
        let mut worst: [Worst; KINDS.len()] = Default::default();
        for counted in made {
            let (own, rest) = left.split_at(counted.jobs.len());
            worst[counted.kind].take_all(own, &counted.name);
            left = rest;
        }
        let states = made.len();
        println!("\ninstructions of a single event, the worst of {states} constructed states, up to {size}");
        print_table(&worst);
    }
}

/// A label, and for each place what is told of it.
fn print_line(label: &str, told: impl Fn(usize) -> String) {
    let columns = (0..PLACES.len()).map(|place| format!(" {:>23}", told(place)));
    println!("{label:<10}{}", columns.collect::<String>());
}

fn joined(told: impl Iterator<Item = String>) -> String {
    told.map(|one| format!("{one:>7}")).collect()
}

fn figure(count: u64) -> String {
    match count {
        0 => "-".into(),
        _ => count.to_string(),
    }
}

fn print_table(worst: &[Worst; KINDS.len()]) {
    print_line("", |place| PLACES[place].into());
    print_line("", |place| {
        joined(CODES[place].iter().map(|code| code.to_string()))
    });
    for (kind, worst) in KINDS.iter().zip(worst) {
        print_line(kind, |place| {
            let counts = CODES[place].iter().zip(worst.most[place]);
            joined(counts.map(|(_, count)| figure(count)))
        });
    }
    println!("the states that are worst for the proved code:");
    for (kind, worst) in KINDS.iter().zip(worst) {
        let found = PLACES.iter().zip(&worst.names);
        for (place, name) in found.filter(|(_, name)| !name.is_empty()) {
            println!("  {kind} {place}: {name}");
        }
    }
}
