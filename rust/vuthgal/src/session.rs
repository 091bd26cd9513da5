//! A program that is played choice by choice.
use crate::looking::{entries, values, Look};
use crate::{answer, called, plan_within, text, unknown, Choice, Enabled, Fault, Line, Mark, Planned, State, What, Written};
use std::cell::UnsafeCell;
use std::fmt;
use std::ptr::null_mut;
use std::sync::Arc;
use vuthgal_sys as sys;

/// A program that is played choice by choice, as `vuthgal debug` plays it: each step takes as long as the first.
///
/// ```
/// let mut session = vuthgal::Session::open(b".phaser p 1\n.thread a main\nmain: parr r0 p\nhalt\n").unwrap();
/// assert_eq!(session.step(0).unwrap().to_string(), "1 t0 0 = 0 +p0 1");
/// session.back().unwrap();
/// assert_eq!(session.state().unwrap().phasers[0].view, 0);
/// ```
pub struct Session {
    handle: UnsafeCell<sys::vuthgal_session>,
    program: Arc<[u8]>,
    names: Vec<String>,
}

// What the handle leads to is plain data, and goes with it. Two threads can't use it at once, since `UnsafeCell` isn't `Sync`.
unsafe impl Send for Session {}

/// Where a schedule that a session played came to.
#[derive(Clone, Copy, Debug, PartialEq, Eq, Hash)]
pub enum Gone {
    /// All choices were played.
    End { choices: u64 },
    /// The thread of the last choice stands at a breakpoint.
    Break { choices: u64 },
    /// The next choice was refused: there is no such thread, or the session has done all its steps.
    Refused { choices: u64, what: What },
    /// There was no memory for the next choice. The session goes on.
    Memory { choices: u64 },
}

/// Where a thread waits.
#[derive(Clone, Copy, Debug, PartialEq, Eq, Hash)]
pub enum Place {
    Phaser(u16),
    Barrier(u16),
}

impl fmt::Display for Place {
    fn fmt(&self, f: &mut fmt::Formatter<'_>) -> fmt::Result {
        match self {
            Place::Phaser(number) => write!(f, "p{number}"),
            Place::Barrier(number) => write!(f, "b{number}"),
        }
    }
}

/// A value for a set of the states that were seen: equal where a look at two sessions of one program finds no difference but the counts
/// of choices and steps. A look doesn't see which registers a routine has saved, nor how a released wait will end.
#[derive(Clone, Debug, PartialEq, Eq, Hash)]
pub struct Fingerprint {
    standing: u8,
    threads: Vec<sys::vuthgal_thread>,
    phasers: Vec<sys::vuthgal_phaser>,
    barriers: Vec<sys::vuthgal_barrier>,
    cells: [i32; 32],
    stacks: Vec<sys::vuthgal_entry>,
    outputs: Vec<i32>,
    enabled: Enabled,
}

/// The names of a text's threads. An image has none.
fn names(program: &[u8]) -> Vec<String> {
    if program.starts_with(b"PBW1") || program.starts_with(b"PBW2") {
        return Vec::new();
    }
    let text = String::from_utf8_lossy(program);
    let lines = text.split('\n').map(|line| line.split(';').next().unwrap_or(""));
    let words = lines.map(|line| line.split_ascii_whitespace().take(2).collect::<Vec<_>>());
    words
        .take_while(|words| words.first() != Some(&".run"))
        .filter_map(|words| match words[..] {
            [".thread", name] => Some(name.to_owned()),
            _ => None,
        })
        .collect()
}

/// The line of an event.
fn line(choice: Choice, event: &sys::vuthgal_event) -> Result<Line, Fault> {
    let what = What::numbered(event.what).ok_or_else(|| unknown(format!("event {}", event.what)))?;
    let mark = match event.mark {
        sys::VUTHGAL_PHASE_ENDED => Some(Mark::PhaseEnded { root: event.object, view: event.view }),
        sys::VUTHGAL_TRIPPED => Some(Mark::Tripped { barrier: event.object }),
        sys::VUTHGAL_BROKE => Some(Mark::Broke { barrier: event.object }),
        _ => None,
    };
    let value = what.has_value().then(|| event.value);
    Ok(Line { step: event.number, choice, row: Some(event.row), what, value, mark })
}

fn closed() -> sys::vuthgal_session {
    sys::vuthgal_session { at: null_mut(), is_open: 0 }
}

impl Session {
    /// Opens a session of a program, a text or an image.
    pub fn open(program: &[u8]) -> Result<Session, Fault> {
        let session = Session { handle: UnsafeCell::new(closed()), program: program.into(), names: names(program) };
        let mut line = [0; sys::VUTHGAL_LINE];
        let mut length = 0;
        let status = unsafe {
            sys::vuthgal_session_open(session.at(), program.as_ptr(), program.len(), line.as_mut_ptr(), line.len(), &mut length)
        };
        answer((status, Vec::new(), line[..length.min(line.len())].to_vec()))?;
        Ok(session)
    }

    /// The handle, for one call. No call keeps it, and none that takes `&self` changes what a caller sees.
    pub(crate) fn at(&self) -> *mut sys::vuthgal_session {
        self.handle.get()
    }

    /// The names of the threads, where the program is a text.
    pub fn names(&self) -> &[String] {
        &self.names
    }

    /// The number of the thread with a name.
    pub fn thread(&self, name: &str) -> Result<u8, Fault> {
        let number = self.names.iter().position(|it| it == name);
        number.map(|number| number as u8).ok_or_else(|| Fault::NoThread { thread: name.to_owned() })
    }

    /// Carries out a command of the debugger, such as `k 3` or `g t0*3 t1`, and returns the reply.
    pub fn command(&mut self, command: &str) -> Result<String, Fault> {
        let mut room = [0; 512];
        let mut length = 0;
        let (at, words) = (self.at(), command.as_ptr());
        let status = unsafe { sys::vuthgal_session_command(at, words, command.len(), room.as_mut_ptr(), room.len(), &mut length) };
        if length <= room.len() {
            let (_, reply) = answer((status, room[..length].to_vec(), Vec::new()))?;
            return if reply == b"?\n" { Err(Fault::Malformed { text: command.to_owned() }) } else { Ok(text(reply)) };
        }
        let mut whole = vec![0; length];
        let status = unsafe { sys::vuthgal_session_reply(at, whole.as_mut_ptr(), whole.len(), &mut length) };
        Ok(text(answer((status, whole, Vec::new()))?.1))
    }

    /// Plays a choice. One that is refused changes nothing: it is `NoThread` or `StepLimit`.
    pub fn play(&mut self, choice: Choice) -> Result<Line, Fault> {
        let mut event = sys::vuthgal_event::default();
        match unsafe { sys::vuthgal_session_step(self.at(), choice.thread, choice.expiry.into(), &mut event) } {
            sys::VUTHGAL_NO_THREAD => Err(Fault::NoThread { thread: choice.to_string() }),
            status => answer((status, Vec::new(), Vec::new())).and_then(|_| line(choice, &event)),
        }
    }

    /// Plays a step of a thread.
    pub fn step(&mut self, thread: u8) -> Result<Line, Fault> {
        self.play(Choice { thread, expiry: false })
    }

    /// Lets the timed wait of a thread expire.
    pub fn expire(&mut self, thread: u8) -> Result<Line, Fault> {
        self.play(Choice { thread, expiry: true })
    }

    /// Plays a schedule, up to a breakpoint.
    pub fn go(&mut self, schedule: &str) -> Result<Gone, Fault> {
        let reply = self.command(&format!("g {schedule}"))?;
        let words: Vec<&str> = reply.split_whitespace().collect();
        let choices = words.get(1).and_then(|word| word.parse().ok()).unwrap_or_default();
        match words[..] {
            ["end", _] => Ok(Gone::End { choices }),
            ["at", _] => Ok(Gone::Break { choices }),
            ["fault", _, "none"] => Ok(Gone::Refused { choices, what: What::None }),
            ["fault", _, "limit"] => Ok(Gone::Refused { choices, what: What::Limit }),
            ["fault", _, "memory"] => Ok(Gone::Memory { choices }),
            _ => Err(unknown(reply)),
        }
    }

    /// Takes back the last choice. `NoHistory` says that none is kept; the newest 4,096 are.
    pub fn back(&mut self) -> Result<(), Fault> {
        match unsafe { sys::vuthgal_session_back(self.at()) } {
            sys::VUTHGAL_UNLIKE => Err(Fault::NoHistory),
            status => answer((status, Vec::new(), Vec::new())).map(drop),
        }
    }

    /// Goes to the state after the first `number` choices of `played`, the schedule of what was played from the beginning on. They are
    /// played anew, so they may be more than 4,096 back. With a fault nothing changes: `Malformed` where it is no schedule, or has fewer.
    pub fn go_to(&mut self, played: &str, number: u64) -> Result<(), Fault> {
        match unsafe { sys::vuthgal_session_go_to(self.at(), played.as_ptr(), played.len(), number) } {
            sys::VUTHGAL_UNLIKE | sys::VUTHGAL_REFUSED => Err(Fault::Malformed { text: played.to_owned() }),
            sys::VUTHGAL_NO_THREAD => Err(Fault::NoThread { thread: played.to_owned() }),
            status => answer((status, Vec::new(), Vec::new())).map(drop),
        }
    }

    /// Begins again, and plays a plan of at most `most` choices. No breakpoint stops it. What was played goes on if its schedule stands
    /// before the plan. With a fault nothing changes; `Refused` has a mistake.
    pub fn play_plan(&mut self, plan: &str, most: u32) -> Result<Planned, Fault> {
        let planned = plan_within(&self.program, plan.as_bytes(), most, Written::Numbers)?;
        self.go_to(&planned.schedule, planned.choices())?;
        Ok(planned)
    }

    /// The choices that would do something now. Every other one would be idle.
    pub fn enabled(&self) -> Enabled {
        let mut enabled = Enabled { turns: 0, expiries: 0 };
        unsafe { sys::vuthgal_session_enabled(self.at(), &mut enabled.turns, &mut enabled.expiries) };
        enabled
    }

    /// A second session in the same state, with the same breakpoints, which goes on alone. It has nothing of the past to take back.
    pub fn copy(&self) -> Result<Session, Fault> {
        let copy = Session { handle: UnsafeCell::new(closed()), program: self.program.clone(), names: self.names.clone() };
        answer((unsafe { sys::vuthgal_session_copy(self.at(), copy.at()) }, Vec::new(), Vec::new()))?;
        Ok(copy)
    }

    /// The schedule of another run of at most `most` choices, which makes this choice here: its thread goes on until it waits or ends,
    /// then come those choices of `rest` that still do something, and then all threads take turns. `rest` has at most 2,000 choices.
    pub fn other(&self, choice: Choice, rest: &str, most: u32) -> Result<String, Fault> {
        self.look_at(choice)?;
        let (thread, expiry, words) = (choice.thread, choice.expiry.into(), rest.as_ptr());
        let (status, output, _) = called(&|output, room, length, _, _, _| unsafe {
            sys::vuthgal_session_other(self.at(), thread, expiry, most, words, rest.len(), output, room, length)
        });
        match status {
            sys::VUTHGAL_REFUSED => Err(Fault::Malformed { text: rest.to_owned() }),
            _ => Ok(text(answer((status, output, Vec::new()))?.1)),
        }
    }

    /// The thread of a choice.
    fn look_at(&self, choice: Choice) -> Result<sys::vuthgal_thread, Fault> {
        let look = Look::at(self)?;
        let thread = look.threads().get(usize::from(choice.thread));
        thread.copied().ok_or_else(|| Fault::NoThread { thread: choice.to_string() })
    }

    /// Where a thread waits. None where it doesn't.
    pub fn waits_at(&self, thread: u8) -> Result<Option<Place>, Fault> {
        let it = self.look_at(Choice { thread, expiry: false })?;
        Ok(match it.status {
            sys::VUTHGAL_AWAITS_PHASE => Some(Place::Phaser(it.object)),
            sys::VUTHGAL_AWAITS_BARRIER => Some(Place::Barrier(it.object)),
            _ => None,
        })
    }

    /// How all stand now.
    pub fn state(&self) -> Result<State, Fault> {
        Look::at(self)?.state(self)
    }

    /// A value for a set of the states that were seen.
    pub fn fingerprint(&self) -> Result<Fingerprint, Fault> {
        let look = Look::at(self)?;
        let (mut stacks, mut outputs) = (Vec::new(), Vec::new());
        for (number, it) in look.threads().iter().enumerate() {
            stacks.extend(entries(self, number as u8, it)?);
            outputs.extend(values(self, number as u8, it)?);
        }
        Ok(Fingerprint {
            standing: look.standing(),
            threads: look.threads().to_vec(),
            phasers: look.phasers().to_vec(),
            barriers: look.barriers().to_vec(),
            cells: look.cells,
            stacks,
            outputs,
            enabled: self.enabled(),
        })
    }
}

impl fmt::Debug for Session {
    fn fmt(&self, f: &mut fmt::Formatter<'_>) -> fmt::Result {
        f.debug_struct("Session").field("names", &self.names).finish_non_exhaustive()
    }
}

impl Drop for Session {
    fn drop(&mut self) {
        unsafe { sys::vuthgal_session_close(self.at()) }
    }
}
