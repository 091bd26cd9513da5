//! How all stand. It prints as the end of a trace.
use crate::line::read;
use crate::Malformed;
use std::collections::BTreeMap;
use std::fmt;
use std::str::FromStr;

/// Whether the run can go on.
#[derive(Clone, Copy, Debug, PartialEq, Eq, Hash)]
pub enum Word {
    /// Some choice can still do something.
    Live,
    /// None can, and some thread hasn't ended.
    Stuck,
    /// All threads have ended or died.
    All,
}

/// What a thread does.
#[derive(Clone, Copy, Debug, PartialEq, Eq, Hash)]
pub enum Status {
    Runs,
    Throws,
    Waits,
    Ended,
    Died,
}

/// Gives each of an enum its word, both ways.
macro_rules! words {
    ($kind:ident { $($variant:ident $word:literal),+ }) => {
        impl fmt::Display for $kind {
            fn fmt(&self, f: &mut fmt::Formatter<'_>) -> fmt::Result {
                f.write_str(match self { $($kind::$variant => $word,)+ })
            }
        }

        impl FromStr for $kind {
            type Err = Malformed;

            fn from_str(text: &str) -> Result<$kind, Malformed> {
                match text {
                    $($word => Ok($kind::$variant),)+
                    _ => Err(Malformed { text: text.to_owned() }),
                }
            }
        }
    };
}

words!(Word { Live "live", Stuck "stuck", All "all" });
words!(Status { Runs "runs", Throws "throws", Waits "waits", Ended "ended", Died "died" });

/// An entry of a thread's stack.
#[derive(Clone, Copy, Debug, PartialEq, Eq, Hash)]
pub enum Entry {
    /// `C5`: the row to return to.
    Call { row: u16 },
    /// `H7`: the row of a handler.
    Handler { row: u16 },
    /// `A0`: the root whose routine runs.
    Routine { root: u16 },
    /// `X2`: the barrier whose action runs.
    Action { barrier: u16 },
}

impl fmt::Display for Entry {
    fn fmt(&self, f: &mut fmt::Formatter<'_>) -> fmt::Result {
        match self {
            Entry::Call { row } => write!(f, "C{row}"),
            Entry::Handler { row } => write!(f, "H{row}"),
            Entry::Routine { root } => write!(f, "A{root}"),
            Entry::Action { barrier } => write!(f, "X{barrier}"),
        }
    }
}

impl FromStr for Entry {
    type Err = Malformed;

    fn from_str(text: &str) -> Result<Entry, Malformed> {
        let malformed = || Malformed { text: text.to_owned() };
        let number = read(text.get(1..)).ok_or_else(malformed)?;
        match text.as_bytes()[0] {
            b'C' => Ok(Entry::Call { row: number }),
            b'H' => Ok(Entry::Handler { row: number }),
            b'A' => Ok(Entry::Routine { root: number }),
            b'X' => Ok(Entry::Action { barrier: number }),
            _ => Err(malformed()),
        }
    }
}

/// A thread.
#[derive(Clone, Debug, PartialEq, Eq, Hash)]
pub struct Thread {
    pub number: u8,
    pub row: u16,
    pub status: Status,
    /// The exception that it throws or died of.
    pub exception: Option<i32>,
    pub interrupted: bool,
    pub registers: [i32; 8],
    /// The lowest entry first.
    pub stack: Vec<Entry>,
    /// What it put out, the first value first.
    pub out: Vec<i32>,
}

fn list<T: fmt::Display>(f: &mut fmt::Formatter<'_>, name: &str, values: &[T]) -> fmt::Result {
    write!(f, " {name}")?;
    values.iter().try_for_each(|value| write!(f, " {value}"))
}

impl fmt::Display for Thread {
    fn fmt(&self, f: &mut fmt::Formatter<'_>) -> fmt::Result {
        write!(f, "t{} {} {}", self.number, self.row, self.status)?;
        if let Some(exception) = self.exception {
            write!(f, ":{exception}")?;
        }
        write!(f, " {}", u8::from(self.interrupted))?;
        list(f, "regs", &self.registers)?;
        list(f, "stack", &self.stack)?;
        list(f, "out", &self.out)
    }
}

/// A phaser.
#[derive(Clone, Debug, PartialEq, Eq, Hash)]
pub struct Phaser {
    pub number: u8,
    /// `getPhase`: negative once it is terminated.
    pub view: i32,
    pub parties: u16,
    pub arrived: u16,
    pub unarrived: u16,
}

impl fmt::Display for Phaser {
    fn fmt(&self, f: &mut fmt::Formatter<'_>) -> fmt::Result {
        write!(f, "p{} {} {} {} {}", self.number, self.view, self.parties, self.arrived, self.unarrived)
    }
}

/// A barrier.
#[derive(Clone, Debug, PartialEq, Eq, Hash)]
pub struct Barrier {
    pub number: u8,
    pub waiting: u16,
    pub broken: bool,
}

impl fmt::Display for Barrier {
    fn fmt(&self, f: &mut fmt::Formatter<'_>) -> fmt::Result {
        write!(f, "b{} {} {}", self.number, self.waiting, u8::from(self.broken))
    }
}

/// How all stand. Two states are equal where their texts are, and a set of them works.
#[derive(Clone, Debug, PartialEq, Eq, Hash)]
pub struct State {
    pub choices: u64,
    pub steps: u64,
    pub word: Word,
    pub threads: Vec<Thread>,
    pub phasers: Vec<Phaser>,
    pub barriers: Vec<Barrier>,
    /// The cells that aren't 0.
    pub cells: BTreeMap<u8, i32>,
}

impl State {
    /// The same without the counts of choices and steps: for a set of the states that were seen.
    pub fn without_counts(self) -> State {
        State { choices: 0, steps: 0, ..self }
    }
}

impl fmt::Display for State {
    fn fmt(&self, f: &mut fmt::Formatter<'_>) -> fmt::Result {
        writeln!(f, "state {} {} {}", self.choices, self.steps, self.word)?;
        self.threads.iter().try_for_each(|it| writeln!(f, "{it}"))?;
        self.phasers.iter().try_for_each(|it| writeln!(f, "{it}"))?;
        self.barriers.iter().try_for_each(|it| writeln!(f, "{it}"))?;
        self.cells.iter().try_for_each(|(number, value)| writeln!(f, "c{number} {value}"))
    }
}

fn thread(number: u8, words: &[&str]) -> Option<Thread> {
    let at = |name| words.iter().position(|word| *word == name);
    let (stack, out) = (at("stack")?, at("out")?);
    let (status, exception) = match words.get(1)?.split_once(':') {
        Some((status, exception)) => (status, Some(exception.parse().ok()?)),
        None => (*words.get(1)?, None),
    };
    let numbers = |words: &[&str]| words.iter().map(|word| word.parse().ok()).collect::<Option<Vec<i32>>>();
    Some(Thread {
        number,
        row: read(words.first().copied())?,
        status: status.parse().ok()?,
        exception,
        interrupted: *words.get(2)? == "1",
        registers: numbers(words.get(4..stack)?)?.try_into().ok()?,
        stack: words.get(stack + 1..out)?.iter().map(|word| word.parse().ok()).collect::<Option<_>>()?,
        out: numbers(&words[out + 1..])?,
    })
}

impl State {
    /// Takes one more line of a state's text.
    fn add(&mut self, line: &str) -> Option<()> {
        let (name, rest) = line.split_once(' ')?;
        let number = read(name.get(1..))?;
        let words: Vec<&str> = rest.split(' ').collect();
        let word = |at: usize| words.get(at).copied();
        match name.as_bytes()[0] {
            b't' => self.threads.push(thread(number, &words)?),
            b'p' => {
                let (view, parties) = (read(word(0))?, read(word(1))?);
                self.phasers.push(Phaser { number, view, parties, arrived: read(word(2))?, unarrived: read(word(3))? });
            }
            b'b' => self.barriers.push(Barrier { number, waiting: read(word(0))?, broken: word(1)? == "1" }),
            b'c' => drop(self.cells.insert(number, read(word(0))?)),
            _ => return None,
        }
        Some(())
    }
}

fn state(text: &str) -> Option<State> {
    let mut lines = text.lines();
    let mut head = lines.next()?.strip_prefix("state ")?.split(' ');
    let mut state = State {
        choices: read(head.next())?,
        steps: read(head.next())?,
        word: read(head.next())?,
        threads: Vec::new(),
        phasers: Vec::new(),
        barriers: Vec::new(),
        cells: BTreeMap::new(),
    };
    lines.try_for_each(|line| state.add(line))?;
    Some(state)
}

impl FromStr for State {
    type Err = Malformed;

    /// Reads the lines from `state` on, each with its line feed: only a text that a state prints is one.
    fn from_str(text: &str) -> Result<State, Malformed> {
        state(text).filter(|state| state.to_string() == text).ok_or_else(|| Malformed { text: text.to_owned() })
    }
}
