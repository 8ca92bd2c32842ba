//! What a call answers: a number of one table, each with its name.

use core::fmt;

macro_rules! answers {
    ($($(#[$doc:meta])* $name:ident = $number:literal,)*) => {
        /// What a call answers. A refused call changes nothing.
        ///
        /// | Call | Answers |
        /// |---|---|
        /// | the events of a [`State`](crate::State) | 0 to 10; 10 is tested first, then the lowest wins |
        /// | [`State::fresh`](crate::State::fresh) | 0, 13, 15 |
        /// | [`State::fill`](crate::State::fill) | 0, 10, 13 |
        /// | [`next`](crate::next) | 0, 13, 3 |
        /// | [`form`](crate::roster::form) | 0, 11 to 16 |
        /// | [`check`](crate::roster::check) | 0, 11 to 20 |
        /// | [`script`](crate::roster::script), [`base`](crate::roster::base) | 0, 11 to 16, then 1 |
        /// | [`step_count`](crate::roster::step_count), [`step`](crate::roster::step) | 0, 11 to 16, then 1 |
        /// | [`ceiling`](crate::roster::ceiling) | 0, 11 to 16, then 2 |
        /// | [`run`](crate::roster::run) | 0, 11 to 20, then 21, then 22 |
        /// | [`write`](crate::roster::write), [`write_answer`](crate::roster::write_answer) | 0, 13 to 16, then 11, then 22 |
        #[derive(Clone, Copy, Debug, PartialEq, Eq, PartialOrd, Ord, Hash)]
        #[repr(u8)]
        pub enum Answer {
            $($(#[$doc])* $name = $number,)*
        }

        impl Answer {
            /// The answer of this number, if there is one.
            pub const fn of(number: u8) -> Option<Answer> {
                match number {
                    $($number => Some(Answer::$name),)*
                    _ => None,
                }
            }
        }
    };
}

answers! {
    /// Done; of a roster: it passes.
    Done = 0,
    /// No such task.
    NoSuchTask = 1,
    /// No such protected object.
    NoSuchObject = 2,
    /// A priority outside 1 to 32.
    BadPriority = 3,
    /// A reading below now, more than the longest advance past it, or above the largest.
    BadReading = 4,
    /// An event of the running task, and nobody runs.
    NobodyRuns = 5,
    /// Set on an ended task.
    EndedTask = 6,
    /// Delay, Suspend or Finish inside a protected action, or Enter of an object that the task holds.
    InsideAction = 7,
    /// Enter with an active priority above the ceiling.
    AboveCeiling = 8,
    /// Leave of an object that is not the innermost held.
    NotInnermost = 9,
    /// The state is not sound.
    Unsound = 10,
    /// A roster shorter than 14 or longer than 60,000 bytes, also one that is to be written.
    BadLength = 11,
    /// The roster's mark is not there.
    BadMark = 12,
    /// Not 1 to 64 tasks or 0 to 32 objects; a board with too few rows, or asked with more than 64.
    BadCounts = 13,
    /// A start or a length off the roster's layout; lengths to write that are not one per base or do not add up to the steps.
    BadLayout = 14,
    /// A base or ceiling outside 1 to 32, or a byte of a roster that has to be 0 and is not.
    BadValues = 15,
    /// A step that is none, has an unused operand that is not 0, or names no listed task or object.
    BadStep = 16,
    /// Delay, Suspend, Again or the script's end while something is held, or Enter of a held object.
    WhileHeld = 17,
    /// Enter of an object whose ceiling is below the task's base, its own Set values or its held ceilings.
    LowCeiling = 18,
    /// Leave of an object that is not the innermost held, in a script.
    ScriptNotInnermost = 19,
    /// A script that sets another task's base.
    OtherTask = 20,
    /// Events whose length is wrong, of an unknown kind, or with an unused field that is not 0.
    BadEvents = 21,
    /// A buffer with less than three bytes for each event, or shorter than the roster that is to be written.
    ShortBuffer = 22,
}

impl Answer {
    /// The number of the table of answers.
    pub const fn number(self) -> u8 {
        self as u8
    }

    /// Whether the call was done.
    pub const fn is_done(self) -> bool {
        self.number() == 0
    }

    /// For `?`: a refusal as an error.
    pub const fn done(self) -> Result<(), Answer> {
        match self {
            Answer::Done => Ok(()),
            refusal => Err(refusal),
        }
    }

    /// An answer of the library, which gives numbers of the table only.
    pub(crate) fn from_library(number: u8) -> Answer {
        Answer::of(number).expect("a number of the table of answers")
    }
}

impl fmt::Display for Answer {
    fn fmt(&self, f: &mut fmt::Formatter<'_>) -> fmt::Result {
        write!(f, "{}", self.number())
    }
}

impl core::error::Error for Answer {}
