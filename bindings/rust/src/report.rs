//! Why the processor changed hands at an event.

use crate::answer::Answer;

/// Why the processor changed hands at an event, by who runs before and after it.
#[derive(Clone, Copy, Debug, PartialEq, Eq, PartialOrd, Ord, Hash)]
#[repr(u8)]
pub enum Report {
    /// The same task runs, or nobody does, before and after; so of every refused event.
    Unchanged = 0,
    /// Another task runs, and the dispatch sent the old one to the head of its ready queue.
    Preempted = 1,
    /// Any other change, from or to nobody too.
    Changed = 2,
}

impl Report {
    /// The number, as a run writes it.
    pub const fn number(self) -> u8 {
        self as u8
    }

    /// The report of this number, if there is one.
    pub const fn of(number: u8) -> Option<Report> {
        match number {
            0 => Some(Report::Unchanged),
            1 => Some(Report::Preempted),
            2 => Some(Report::Changed),
            _ => None,
        }
    }
}

/// What an event gives back: its answer and its report.
#[must_use]
#[derive(Clone, Copy, Debug, PartialEq, Eq, Hash)]
pub struct Outcome {
    pub answer: Answer,
    pub report: Report,
}

impl Outcome {
    /// For `?`: the report, or a refusal as an error.
    pub const fn done(self) -> Result<Report, Answer> {
        match self.answer {
            Answer::Done => Ok(self.report),
            refusal => Err(refusal),
        }
    }

    /// What the library gave back, which are numbers of the two tables only.
    pub(crate) fn from_library((answer, report): (u8, u8)) -> Outcome {
        Outcome {
            answer: Answer::from_library(answer),
            report: Report::of(report).expect("a number of a report"),
        }
    }
}
