//! A run of a roster under events of 8 bytes, and the lines that the program prints for it.

use std::fmt::Write;

use crate::answer;
use crate::limits::MAX_EVENT_BYTES;
use crate::machine::{self, Event, Outcome};
use crate::roster::{self, Refusal, Roster, Step};
use crate::state::{self, State};

const RECORD: usize = 8;

/// How many bytes the reply to an event has: answer, running task, report.
pub const REPLY_SIZE: usize = 3;

/// The second byte of a reply when nobody runs.
pub const NOBODY: u8 = 255;

/// An event of a run.
#[derive(Clone, Copy, Debug, PartialEq, Eq)]
pub enum Command {
    Clock(u64),
    Release(usize),
    Step,
    Set(usize, u64),
}

/// The events of a run from their bytes; one bad record refuses them all with 21.
pub fn decode(events: &[u8]) -> Result<Vec<Command>, u8> {
    let records = events.chunks_exact(RECORD);
    if events.len() > MAX_EVENT_BYTES || !records.remainder().is_empty() {
        return Err(answer::BAD_EVENTS);
    }
    let commands: Option<Vec<Command>> = records.map(decode_record).collect();
    commands.ok_or(answer::BAD_EVENTS)
}

fn decode_record(raw: &[u8]) -> Option<Command> {
    let &[kind, a, v0, v1, v2, v3, v4, v5] = raw else {
        return None;
    };
    let a = usize::from(a);
    let value = u64::from_le_bytes([v0, v1, v2, v3, v4, v5, 0, 0]);
    match kind {
        1 if a == 0 => Some(Command::Clock(value)),
        2 if value == 0 => Some(Command::Release(a)),
        3 if a == 0 && value == 0 => Some(Command::Step),
        4 => Some(Command::Set(a, value)),
        _ => None,
    }
}

/// A run under way: the state, and for each task the index of its next step.
#[derive(Clone, Debug, PartialEq, Eq)]
pub struct Run {
    pub roster: Roster,
    pub state: State,
    pub places: Vec<usize>,
}

impl Run {
    /// The fresh state of a roster, with every script at its start.
    pub fn start(roster: Roster) -> Run {
        let (_, state) = state::fresh(&roster.bases(), &roster.ceilings);
        let places = vec![0; roster.tasks.len()];
        Run {
            roster,
            state,
            places,
        }
    }

    /// Takes one event and gives its outcome; a refused event changes nothing.
    pub fn take(&mut self, command: Command) -> Outcome {
        match command {
            Command::Clock(value) => machine::apply_to(&mut self.state, Event::Clock(value)),
            Command::Release(t) => machine::apply_to(&mut self.state, Event::Release(t)),
            Command::Set(t, p) => machine::apply_to(&mut self.state, Event::Set(t, p)),
            Command::Step => self.step(),
        }
    }

    /// The byte that names the running task.
    pub fn running_byte(&self) -> u8 {
        let running = self.state.running.and_then(|t| u8::try_from(t).ok());
        running.unwrap_or(NOBODY)
    }

    /// The running task takes the next step of its script.
    fn step(&mut self) -> Outcome {
        // The dispatch after the event may let another task run: the place is the taker's.
        let taker = self.state.running;
        let next = self.next_step();
        let event = next.map_or(Event::Finish, |(step, _)| event_of(step));
        let outcome = machine::apply_to(&mut self.state, event);
        if let (answer::DONE, Some(t), Some((step, place))) = (outcome.answer, taker, next) {
            self.places[t] = if step == Step::Again { 0 } else { place + 1 };
        }
        outcome
    }

    /// The step that the running task is at, with its place; none at the script's end, and none
    /// where nobody runs, since Finish is then refused with 5 just as a Step is.
    fn next_step(&self) -> Option<(Step, usize)> {
        let t = self.state.running?;
        let place = *self.places.get(t)?;
        let step = self.roster.tasks.get(t)?.script.get(place)?;
        Some((*step, place))
    }
}

/// The event that a step is. Again has no effect on the state, and so is Work there.
fn event_of(step: Step) -> Event {
    match step {
        Step::Enter(o) => Event::Enter(o),
        Step::Leave(o) => Event::Leave(o),
        Step::Delay(d) => Event::Delay(d),
        Step::Work | Step::Again => Event::Work,
        Step::Suspend => Event::Suspend,
        Step::Release(t) => Event::Release(t),
        Step::Set(t, p) => Event::Set(t, p),
    }
}

/// Runs a roster under events and writes a reply per event into the buffer; a refused run
/// (11 to 20, then 21, then 22) writes nothing, and bytes past the last reply stay.
pub fn run(roster: &[u8], events: &[u8], buffer: &mut [u8]) -> Result<(), Refusal> {
    let roster = roster::admit(roster)?;
    let commands = decode(events).map_err(Refusal::plain)?;
    if buffer.len() < REPLY_SIZE * commands.len() {
        return Err(Refusal::plain(answer::SHORT_BUFFER));
    }
    let mut run = Run::start(roster);
    for (reply, &command) in buffer.chunks_exact_mut(REPLY_SIZE).zip(&commands) {
        let outcome = run.take(command);
        reply.copy_from_slice(&[outcome.answer, run.running_byte(), outcome.report]);
    }
    Ok(())
}

/// The lines that the program prints, each ended by one newline.
pub fn printed(roster: &[u8], events: &[u8]) -> String {
    let mut buffer = vec![0; events.len() / RECORD * REPLY_SIZE];
    match run(roster, events, &mut buffer) {
        Err(refusal) => refusal_line(refusal),
        Ok(()) => reply_lines(&buffer),
    }
}

fn refusal_line(refusal: Refusal) -> String {
    let Refusal { number, task, step } = refusal;
    match number {
        answer::BAD_STEP..=answer::OTHER_TASK_IN_CHECK => {
            format!("refused {number} {task} {step}\n")
        }
        _ => format!("refused {number}\n"),
    }
}

fn reply_lines(replies: &[u8]) -> String {
    let mut text = String::from("passed\n");
    for reply in replies.chunks_exact(REPLY_SIZE) {
        let (answer, report) = (reply[0], reply[2]);
        // Writing into a string cannot fail.
        let _ = match reply[1] {
            NOBODY => writeln!(text, "{answer} - {report}"),
            task => writeln!(text, "{answer} {task} {report}"),
        };
    }
    text.push_str("end\n");
    text
}
