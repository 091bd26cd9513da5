//! What ends a call that doesn't do as it was asked.
use crate::{Malformed, Mistake};
use std::error::Error;
use std::fmt;

/// What ends a call that doesn't do as it was asked.
#[derive(Clone, Debug, PartialEq, Eq, Hash)]
#[non_exhaustive]
pub enum Fault {
    /// An input is refused: the line of it, and what was written before; and of a plan where, and what helps.
    Refused { line: String, output: Vec<u8>, mistake: Option<Box<Mistake>> },
    /// There is no memory: what stands there is a beginning of the whole.
    Memory { output: Vec<u8> },
    /// An input has more than 16,777,216 bytes, or words to explain have more than 65,536.
    TooLong,
    /// The session is closed, since there was no memory for a reply.
    Closed,
    /// A session has no such thread: `t9`, or a name.
    NoThread { thread: String },
    /// A session has done all its steps: 1,000,000,000 of them, or 1,000,000,000,000 choices.
    StepLimit,
    /// No choice is kept that could be taken back.
    NoHistory,
    /// A text is no command, no schedule, no expectation, or none that is read.
    Malformed { text: String },
    /// The library returned what none does that this crate knows: a status, or a line.
    Unknown { answer: String },
}

impl fmt::Display for Fault {
    fn fmt(&self, f: &mut fmt::Formatter<'_>) -> fmt::Result {
        match self {
            Fault::Refused { line, .. } => match crate::explain(line) {
                Ok(Some(meaning)) => write!(f, "{line}\n{meaning}"),
                _ => f.write_str(line),
            },
            Fault::Memory { .. } => f.write_str("memory"),
            Fault::TooLong => f.write_str("an input has more bytes than it may have"),
            Fault::Closed => f.write_str("the session is closed"),
            Fault::NoThread { thread } => write!(f, "there is no thread `{thread}`"),
            Fault::StepLimit => f.write_str("the session has done all its steps"),
            Fault::NoHistory => f.write_str("no choice is kept that could be taken back"),
            Fault::Malformed { text } => write!(f, "this can't be read: `{text}`"),
            Fault::Unknown { answer } => write!(f, "the library answers `{answer}`"),
        }
    }
}

impl Error for Fault {}

impl From<Malformed> for Fault {
    fn from(error: Malformed) -> Fault {
        Fault::Malformed { text: error.text }
    }
}
