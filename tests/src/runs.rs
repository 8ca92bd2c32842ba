//! Runs whose events are made along the second program's states; the library then takes them all.

use dispatch::raw;
use second::machine::{Event, Outcome};
use second::roster::{read, Step};
use second::run::{Command, Run};
use second::state::State;

use crate::events::{record_of, reply_of};
use crate::report::save;
use crate::rosters::Plan;

fn command_of(event: Option<Event>) -> Command {
    match event {
        Some(Event::Clock(reading)) => Command::Clock(reading),
        Some(Event::Release(t)) => Command::Release(t),
        Some(Event::Set(t, p)) => Command::Set(t, p),
        _ => Command::Step,
    }
}

/// The event that the running task's next step is; Work stands for Again.
fn step_of(run: &Run) -> Event {
    let Some(t) = run.state.running else {
        return Event::Finish;
    };
    match run.roster.tasks[t].script.get(run.places[t]) {
        None => Event::Finish,
        Some(Step::Enter(o)) => Event::Enter(*o),
        Some(Step::Leave(o)) => Event::Leave(*o),
        Some(Step::Delay(d)) => Event::Delay(*d),
        Some(Step::Suspend) => Event::Suspend,
        Some(Step::Release(t)) => Event::Release(*t),
        Some(Step::Set(t, p)) => Event::Set(*t, *p),
        Some(Step::Work | Step::Again) => Event::Work,
    }
}

/// One run: `next` makes an event from outside of a state, or none where the running task takes a step. What is seen of an event is
/// told before, the event, its outcome, and after.
pub fn one_run(
    name: &str,
    seed: u64,
    plan: &Plan,
    mut next: impl FnMut(&State) -> Option<Event>,
    see: &mut dyn FnMut(&State, Event, Outcome, &State),
    length: usize,
) {
    let roster = plan.bytes();
    let mut run = Run::start(read(&roster).expect("a roster of right form"));
    let (mut events, mut wanted) = (Vec::new(), Vec::new());
    for _ in 0..length {
        let outer = next(&run.state);
        let event = outer.unwrap_or_else(|| step_of(&run));
        let before = run.state.clone();
        let reply = reply_of(&mut run, command_of(outer));
        let [answer, _, report] = reply;
        see(&before, event, Outcome { answer, report }, &run.state);
        events.extend(record_of(command_of(outer)));
        wanted.extend(reply);
    }
    let mut found = vec![0xA5; wanted.len()];
    let answer = raw::run(&roster, &events, &mut found);
    let input = || format!("seed {seed}, {}", save(name, seed, &roster, &events));
    assert_eq!(answer, (0, 0, 0), "answer, {}", input());
    let differs = found.iter().zip(&wanted).position(|(a, b)| a != b);
    assert!(differs.is_none(), "byte {differs:?}, {}", input());
}
