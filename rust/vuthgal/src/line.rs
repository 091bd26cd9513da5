//! A line of a trace: what a choice did. It prints as the trace has it.
use crate::Malformed;
use std::fmt;
use std::str::FromStr;

/// Who goes: the turn of a thread, `t0`, or the time-out of its wait, `x0`.
#[derive(Clone, Copy, Debug, PartialEq, Eq, PartialOrd, Ord, Hash)]
pub struct Choice {
    pub thread: u8,
    /// Whether a timed wait of the thread expires.
    pub expiry: bool,
}

impl fmt::Display for Choice {
    fn fmt(&self, f: &mut fmt::Formatter<'_>) -> fmt::Result {
        write!(f, "{}{}", if self.expiry { 'x' } else { 't' }, self.thread)
    }
}

/// What a choice did.
#[derive(Clone, Copy, Debug, PartialEq, Eq, Hash)]
pub enum What {
    Idle,
    Ok,
    /// `=`: a call returned.
    Result,
    Out,
    Wait,
    Throw,
    Enter,
    Unwind,
    Catch,
    Die,
    End,
    /// Refused: there is no such thread.
    None,
    /// Refused: the limit of steps.
    Limit,
}

/// Each, with its word, in the order of the header's numbers.
const WHATS: [(What, &str); 13] = [
    (What::Idle, "idle"),
    (What::Ok, "ok"),
    (What::Result, "="),
    (What::Out, "out"),
    (What::Wait, "wait"),
    (What::Throw, "throw"),
    (What::Enter, "enter"),
    (What::Unwind, "unwind"),
    (What::Catch, "catch"),
    (What::Die, "die"),
    (What::End, "end"),
    (What::None, "none"),
    (What::Limit, "limit"),
];

impl What {
    /// What the header's number says of a choice that was played.
    pub(crate) fn numbered(number: u8) -> Option<What> {
        WHATS[..11].get(usize::from(number)).map(|(what, _)| *what)
    }

    /// The word of a trace.
    pub fn word(self) -> &'static str {
        WHATS[self as usize].1
    }

    /// Whether a number stands behind the word.
    pub(crate) fn has_value(self) -> bool {
        matches!(self, What::Result | What::Out | What::Throw | What::Catch | What::Die)
    }
}

impl fmt::Display for What {
    fn fmt(&self, f: &mut fmt::Formatter<'_>) -> fmt::Result {
        f.write_str(self.word())
    }
}

/// What a choice did to all.
#[derive(Clone, Copy, Debug, PartialEq, Eq, Hash)]
pub enum Mark {
    /// `+p0 1`: the phase of a root ended; the view is its phase now, negative once it is terminated.
    PhaseEnded { root: u16, view: i32 },
    /// `+b0`: a barrier tripped.
    Tripped { barrier: u16 },
    /// `-b0`: a barrier broke.
    Broke { barrier: u16 },
}

impl fmt::Display for Mark {
    fn fmt(&self, f: &mut fmt::Formatter<'_>) -> fmt::Result {
        match self {
            Mark::PhaseEnded { root, view } => write!(f, "+p{root} {view}"),
            Mark::Tripped { barrier } => write!(f, "+b{barrier}"),
            Mark::Broke { barrier } => write!(f, "-b{barrier}"),
        }
    }
}

/// What a choice did.
#[derive(Clone, Debug, PartialEq, Eq, Hash)]
pub struct Line {
    /// The number of the choice, from 1.
    pub step: u64,
    pub choice: Choice,
    /// The row at which the thread stood. There is none where there is no such thread.
    pub row: Option<u16>,
    pub what: What,
    /// The number behind `=`, `out`, `throw`, `catch` and `die`.
    pub value: Option<i32>,
    pub mark: Option<Mark>,
}

impl Line {
    /// The view behind `+p0`.
    pub fn view(&self) -> Option<i32> {
        match self.mark {
            Some(Mark::PhaseEnded { view, .. }) => Some(view),
            _ => None,
        }
    }
}

impl fmt::Display for Line {
    fn fmt(&self, f: &mut fmt::Formatter<'_>) -> fmt::Result {
        write!(f, "{} {} ", self.step, self.choice)?;
        match self.row {
            Some(row) => write!(f, "{row} {}", self.what)?,
            None => write!(f, "- {}", self.what)?,
        }
        if let Some(value) = self.value {
            write!(f, " {value}")?;
        }
        self.mark.map_or(Ok(()), |mark| write!(f, " {mark}"))
    }
}

/// A word as a number, or as what else its type reads.
pub(crate) fn read<T: FromStr>(word: Option<&str>) -> Option<T> {
    word?.parse().ok()
}

fn mark(word: &str, view: Option<&str>) -> Option<Mark> {
    let number = read(word.get(2..));
    match word.get(..2)? {
        "+p" => Some(Mark::PhaseEnded { root: number?, view: read(view)? }),
        "+b" => Some(Mark::Tripped { barrier: number? }),
        "-b" => Some(Mark::Broke { barrier: number? }),
        _ => None,
    }
}

fn line(text: &str) -> Option<Line> {
    let mut words = text.split(' ');
    let step = read(words.next())?;
    let choice = words.next()?;
    let choice = Choice { thread: read(choice.strip_prefix(['t', 'x']))?, expiry: choice.starts_with('x') };
    let row = match words.next()? {
        "-" => None,
        row => Some(row.parse().ok()?),
    };
    let word = words.next()?;
    let (what, _) = *WHATS.iter().find(|(_, it)| *it == word)?;
    let value = if what.has_value() { Some(read(words.next())?) } else { None };
    let mark = match words.next() {
        Some(word) => Some(mark(word, words.next())?),
        None => None,
    };
    Some(Line { step, choice, row, what, value, mark })
}

impl FromStr for Line {
    type Err = Malformed;

    /// Reads a line without its line feed: only a text that a line prints is one.
    fn from_str(text: &str) -> Result<Line, Malformed> {
        line(text).filter(|line| line.to_string() == text).ok_or_else(|| Malformed { text: text.to_owned() })
    }
}
