//! A trace, as a value. It prints as the text that it is read from.
use crate::{Line, State};
use std::fmt;
use std::str::FromStr;

/// A text is no line, no state or no trace.
#[derive(Clone, Debug, PartialEq, Eq, Hash)]
pub struct Malformed {
    pub text: String,
}

impl fmt::Display for Malformed {
    fn fmt(&self, f: &mut fmt::Formatter<'_>) -> fmt::Result {
        write!(f, "no line of a trace: `{}`", self.text)
    }
}

impl std::error::Error for Malformed {}

/// The lines and the state of a run, read from its text.
#[derive(Clone, Debug, PartialEq, Eq, Hash)]
pub struct Trace {
    pub lines: Vec<Line>,
    pub state: State,
}

impl fmt::Display for Trace {
    fn fmt(&self, f: &mut fmt::Formatter<'_>) -> fmt::Result {
        self.lines.iter().try_for_each(|line| writeln!(f, "{line}"))?;
        self.state.fmt(f)
    }
}

impl FromStr for Trace {
    type Err = Malformed;

    fn from_str(text: &str) -> Result<Trace, Malformed> {
        let at = match text.rfind("\nstate ") {
            Some(at) => at + 1,
            None => 0,
        };
        let lines = text[..at].split_terminator('\n').map(str::parse).collect::<Result<_, _>>()?;
        Ok(Trace { lines, state: text[at..].parse()? })
    }
}
