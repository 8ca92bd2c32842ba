//! A job that the proved code and its plain opponents do: a check, a run, or events on a state's bytes.

use dispatch::raw;
use harness::calls;
use harness::events::room_for;
use harness::report::{hex, save};
use second::machine::Event;

use crate::cases::{history_of, Case};
use crate::{lean, plain, plain_state};

/// Does a job in the room lent; gives the last answer.
pub type Call = fn(&Job, &mut [u8]) -> (u8, usize, usize);

pub enum Job {
    Check(Vec<u8>),
    Run(Case),
    /// A state's bytes, and events on them, each getting what the last one left.
    History(Vec<u8>, Vec<Event>),
}

impl Job {
    pub fn history(case: &Case) -> Job {
        let (start, events) = history_of(case);
        Job::History(start, events)
    }

    /// How many rosters are checked or events taken.
    pub fn size(&self) -> usize {
        match self {
            Job::Check(_) => 1,
            Job::Run(case) => case.events.len() / 8,
            Job::History(_, events) => events.len(),
        }
    }

    /// What is lent for writing: the replies' buffer, or the state.
    pub fn room(&self) -> Vec<u8> {
        match self {
            Job::Check(_) => Vec::new(),
            Job::Run(case) => vec![0; room_for(&case.events)],
            Job::History(start, _) => start.clone(),
        }
    }

    /// Brings the room back to how it was lent; replies are written over.
    pub fn renew(&self, room: &mut [u8]) {
        if let Job::History(start, _) = self {
            room.copy_from_slice(start);
        }
    }

    /// The job by the proved code; gives the last answer.
    fn proved(&self, room: &mut [u8]) -> (u8, usize, usize) {
        match self {
            Job::Check(roster) => raw::check(roster),
            Job::Run(case) => raw::run(&case.roster, &case.events, room),
            Job::History(_, events) => {
                let mut last = (0, 0);
                for event in events {
                    let outcome = calls::event(room, *event);
                    last = (outcome.answer, outcome.report);
                }
                (last.0, last.1 as usize, 0)
            }
        }
    }

    /// The job by the plain code; gives the last answer.
    fn plain(&self, room: &mut [u8]) -> (u8, usize, usize) {
        match self {
            Job::Check(roster) => plain::check(roster),
            Job::Run(case) => plain::run(&case.roster, &case.events, room),
            Job::History(_, events) => {
                let mut last = (0, 0);
                for event in events {
                    last = plain_state::event(room, *event);
                }
                (last.0, last.1 as usize, 0)
            }
        }
    }

    /// The job by the lean code, which takes no events on bytes; gives the answer.
    fn lean(&self, room: &mut [u8]) -> (u8, usize, usize) {
        match self {
            Job::Check(roster) => lean::check(roster),
            Job::Run(case) => lean::run(&case.roster, &case.events, room),
            Job::History(..) => unreachable!("the lean code keeps no state"),
        }
    }

    /// The codes that do this job: proved, plain and, unless it is events on bytes, lean.
    pub fn codes(&self) -> &'static [Call] {
        const ALL: [Call; 3] = [Job::proved, Job::plain, Job::lean];
        match self {
            Job::History(..) => &ALL[..2],
            _ => &ALL,
        }
    }

    /// All give the same answers and bytes, else there is nothing to compare; gives the room as it is afterwards.
    pub fn same(&self, input: &str) -> Vec<u8> {
        let mut proved = self.room();
        let answer = self.proved(&mut proved);
        for call in &self.codes()[1..] {
            let mut room = self.room();
            assert_eq!(call(self, &mut room), answer, "{input}, {}", self.told());
            assert!(room == proved, "bytes differ, {input}, {}", self.told());
        }
        proved
    }

    fn told(&self) -> String {
        match self {
            Job::Check(roster) => format!("roster {}", hex(roster)),
            Job::Run(case) => save("bench", 0, &case.roster, &case.events),
            Job::History(start, events) => format!("state {}, events {events:?}", hex(start)),
        }
    }
}
