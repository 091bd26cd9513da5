//! Vuthgal's commands as functions in this process: the proved code of the program, and the standard library alone.
//!
//! ```
//! let trace = vuthgal::run(b".phaser p 1\n.thread a main\nmain: parr r0 p\nhalt\n", b"t0*2").unwrap();
//! assert!(trace.starts_with("1 t0 0 = 0 +p0 1\n"));
//! ```
//!
//! A program is the bytes of a text or of an image, and not the path of a file. docs/README.md of Vuthgal lists the formats.
//!
//! Commands with another name here: `asm` is [`assemble`], `show` is [`page`], and `vuthgal` without arguments is [`run_text`].

mod enabled;
mod fault;
mod line;
mod looking;
mod planning;
mod session;
mod state;
mod trace;

pub use enabled::Enabled;
pub use fault::Fault;
pub use line::{Choice, Line, Mark, What};
pub use planning::{plan, plan_within, seeds, Outcome, Planned, Written};
pub use session::{Fingerprint, Gone, Place, Session};
pub use state::{Barrier, Entry, Phaser, State, Status, Thread, Word};
pub use trace::{Malformed, Trace};

use std::cell::{Cell, RefCell};
use vuthgal_sys as sys;

/// The program of README.md is compiled and run, too.
#[cfg(doctest)]
#[doc = include_str!("../README.md")]
struct Readme;

/// What a comparison comes to. Lines count from 1.
#[derive(Clone, Copy, Debug, PartialEq, Eq)]
pub enum Verdict {
    Same,
    Differs { line: u64 },
    NotATrace { line: u64 },
}

/// The schedule of a trace, or of the lines before the first that is no line of one.
#[derive(Clone, Debug, PartialEq, Eq)]
pub struct Choices {
    pub schedule: String,
    pub no_line: Option<u64>,
}

/// Up to how many bytes for the output a thread keeps for its next call.
const KEPT: usize = 1 << 24;

/// Where a thread's calls write.
struct Room {
    output: Vec<u8>,
    line: [u8; 4096],
}

thread_local! {
    static ROOM: RefCell<Option<Room>> = RefCell::new(None);
}

/// Frees what this thread keeps for its next call: a room of at most 16 MiB.
pub fn free_room() {
    drop(taken());
}

/// The room of this thread. It has none while a call within a call uses it, and none at its end.
fn taken() -> Option<Room> {
    ROOM.try_with(|room| room.try_borrow_mut().ok()?.take()).ok().flatten()
}

/// A call, by what it is handed: output, room, length; line, room, length.
type Call<'a> = &'a dyn Fn(*mut u8, usize, *mut usize, *mut u8, usize, *mut usize) -> u8;

/// The status, the output and the line of a call, which is made again where there was too little room.
fn called(call: Call<'_>) -> (u8, Vec<u8>, Vec<u8>) {
    let mut room = taken().unwrap_or_else(|| Room { output: vec![0; 1 << 16], line: [0; 4096] });
    loop {
        let (mut length, mut line_length) = (0, 0);
        let status = call(
            room.output.as_mut_ptr(),
            room.output.len(),
            &mut length,
            room.line.as_mut_ptr(),
            room.line.len(),
            &mut line_length,
        );
        if length <= room.output.len() {
            let line = room.line[..line_length.min(room.line.len())].to_vec();
            let output = room.output[..length].to_vec();
            if room.output.len() <= KEPT {
                let _ = ROOM.try_with(|kept| kept.try_borrow_mut().map(|mut kept| *kept = Some(room)));
            }
            return (status, output, line);
        }
        room.output = vec![0; length];
    }
}

fn text(bytes: Vec<u8>) -> String {
    String::from_utf8_lossy(&bytes).into_owned()
}

/// Whether the status is 1, and the output; or the fault.
fn answer((status, output, line): (u8, Vec<u8>, Vec<u8>)) -> Result<(bool, Vec<u8>), Fault> {
    match status {
        sys::VUTHGAL_DONE | sys::VUTHGAL_UNLIKE => Ok((status == sys::VUTHGAL_UNLIKE, output)),
        sys::VUTHGAL_REFUSED => Err(Fault::Refused { line: text(line).trim_end().to_owned(), output, mistake: None }),
        sys::VUTHGAL_MEMORY => Err(Fault::Memory { output }),
        sys::VUTHGAL_TOO_LONG => Err(Fault::TooLong),
        sys::VUTHGAL_CLOSED => Err(Fault::Closed),
        sys::VUTHGAL_LIMIT => Err(Fault::StepLimit),
        _ => Err(unknown(format!("status {status}"))),
    }
}

fn unknown(answer: impl Into<String>) -> Fault {
    Fault::Unknown { answer: answer.into() }
}

/// A call of these inputs, and of the numbers behind `;`.
macro_rules! call {
    ($name:ident, $($input:expr),+ $(; $($more:expr),+)?) => {
        // The slices are valid for their lengths, the outputs are the room's own, and nothing overlaps.
        crate::answer(crate::called(&|output, room, length, line, line_room, line_length| unsafe {
            vuthgal_sys::$name($($input.as_ptr(), $input.len(),)+ $($($more,)+)? output, room, length, line, line_room, line_length)
        }))
    };
}

pub(crate) use call;

/// Plays a program under a schedule: the trace.
pub fn run(program: &[u8], schedule: &[u8]) -> Result<String, Fault> {
    Ok(text(call!(vuthgal_run, program, schedule)?.1))
}

/// Plays a program's text under the schedule behind its line `.run`: the trace.
pub fn run_text(program_and_schedule: &[u8]) -> Result<String, Fault> {
    Ok(text(call!(vuthgal_both, program_and_schedule)?.1))
}

/// The image of a program's text.
pub fn assemble(program: &[u8]) -> Result<Vec<u8>, Fault> {
    Ok(call!(vuthgal_asm, program)?.1)
}

/// The canonical text of a program.
pub fn list(program: &[u8]) -> Result<String, Fault> {
    Ok(text(call!(vuthgal_list, program)?.1))
}

/// The verdict that a line tells.
fn verdict(told: &str) -> Result<Verdict, Fault> {
    let (what, line) = told.rsplit_once(' ').unwrap_or((told, ""));
    match (what, line.parse()) {
        ("same", _) => Ok(Verdict::Same),
        ("differs", Ok(line)) => Ok(Verdict::Differs { line }),
        ("not a trace", Ok(line)) => Ok(Verdict::NotATrace { line }),
        _ => Err(unknown(told)),
    }
}

/// Compares a trace with the run that it names.
pub fn compare(program: &[u8], trace: &[u8]) -> Result<Verdict, Fault> {
    verdict(text(call!(vuthgal_compare, program, trace)?.1).trim_end())
}

/// The schedule of a trace.
pub fn choices(trace: &[u8]) -> Result<Choices, Fault> {
    let (is_none, output) = call!(vuthgal_choices, trace)?;
    let told = text(output);
    let mut lines: Vec<&str> = told.lines().collect();
    let no_line = if is_none {
        match verdict(lines.pop().unwrap_or_default())? {
            Verdict::NotATrace { line } => Some(line),
            _ => return Err(unknown(told)),
        }
    } else {
        None
    };
    Ok(Choices { schedule: lines.concat(), no_line })
}

/// Whether a state is as an expectation says, as `vuthgal run --expect` decides it: `all`, `ended`, `stuck`, `live`, or words of a line
/// of the state, as `t0 waits`.
pub fn expect(state: &State, expectation: &str) -> Result<bool, Fault> {
    let state = state.to_string();
    match unsafe { sys::vuthgal_expect(state.as_ptr(), state.len(), expectation.as_ptr(), expectation.len()) } {
        sys::VUTHGAL_DONE => Ok(true),
        sys::VUTHGAL_UNLIKE => Ok(false),
        _ => Err(Fault::Malformed { text: expectation.to_owned() }),
    }
}

/// What is looked at for a mistake.
#[derive(Clone, Copy, Debug, PartialEq, Eq)]
pub enum Input<'a> {
    /// The program alone.
    Program,
    /// A plan for it.
    Plan(&'a [u8]),
    /// A schedule for it.
    Schedule(&'a [u8]),
    /// The program's text with its schedule behind its line `.run`.
    Text,
}

/// Where an input is refused, and what helps.
#[derive(Clone, Debug, PartialEq, Eq, Hash)]
pub struct Mistake {
    /// The line of the refusal, as the program writes it.
    pub told: String,
    /// The line of the input, from 1; 0 where no line is to blame.
    pub line: u64,
    /// The first byte of the wrong word, from 1; 0 where the whole line is meant.
    pub column: u64,
    /// How many bytes the word has.
    pub length: u64,
    /// Whether that is in the plan or the schedule, and not in the program.
    pub is_in_steps: bool,
    /// `near: ..` or `help: ..`; empty where nothing is known to help.
    pub hint: String,
}

/// Where a program is refused, or a plan or a schedule of it, and what helps, as a terminal shows it. None where nothing is wrong.
pub fn mistake(program: &[u8], input: Input<'_>) -> Result<Option<Mistake>, Fault> {
    let (kind, steps): (u8, &[u8]) = match input {
        Input::Program => (sys::VUTHGAL_PROGRAM, b""),
        Input::Plan(plan) => (sys::VUTHGAL_PLAN, plan),
        Input::Schedule(schedule) => (sys::VUTHGAL_SCHEDULE, schedule),
        Input::Text => (sys::VUTHGAL_TEXT, b""),
    };
    let place = Cell::new(sys::vuthgal_place::default());
    let (status, hint, line) = called(&|output, room, length, told, told_room, told_length| unsafe {
        let (program, size) = (program.as_ptr(), program.len());
        let (steps, count) = (steps.as_ptr(), steps.len());
        sys::vuthgal_mistake(program, size, kind, steps, count, place.as_ptr(), output, room, length, told, told_room, told_length)
    });
    if status != sys::VUTHGAL_REFUSED {
        return answer((status, hint, line)).map(|_| None);
    }
    let place = place.get();
    Ok(Some(Mistake {
        told: text(line).trim_end().to_owned(),
        line: place.line,
        column: place.column,
        length: place.length,
        is_in_steps: place.input != sys::VUTHGAL_PROGRAM,
        hint: text(hint).trim_end().to_owned(),
    }))
}

/// The page that shows a run: `app`, the text of `vuthgal.html`, with the program, its schedule and its trace in it. The machine in the
/// page plays it again.
pub fn page(program: &[u8], schedule: &[u8], app: &str) -> Result<String, Fault> {
    let trace = run(program, schedule)?;
    let source = if program.starts_with(b"PBW1") || program.starts_with(b"PBW2") { Vec::new() } else { program.to_vec() };
    let texts = [
        ("listing", list(program)?),
        ("source", text(source)),
        ("schedule", text(schedule.to_vec()).split_whitespace().collect::<Vec<_>>().join(" ")),
        ("trace", trace),
    ];
    Ok(texts.iter().fold(app.to_owned(), |page, (name, it)| put(&page, name, it)))
}

/// The page with a text in the element of this name.
fn put(page: &str, name: &str, it: &str) -> String {
    let escaped = it.replace('&', "&amp;").replace('<', "&lt;").replace('>', "&gt;").replace('\r', "&#13;");
    let begin = format!("<pre id=\"{name}\">");
    page.replacen(&format!("{begin}\n</pre>"), &format!("{begin}\n{escaped}</pre>"), 1)
}

/// A run drawn as text, in lines of at most `width` bytes. What has no room is cut: below 60 little is left to read.
pub fn draw(program: &[u8], schedule: &[u8], width: u16) -> Result<String, Fault> {
    Ok(text(call!(vuthgal_draw, program, schedule; width)?.1))
}

/// The replies of the debugger to lines of commands.
pub fn debug(program: &[u8], commands: &[u8]) -> Result<String, Fault> {
    Ok(text(call!(vuthgal_debug, program, commands)?.1))
}

/// What the words of a line mean; without words, what can be asked. None where no line has them.
pub fn explain(words: &str) -> Result<Option<String>, Fault> {
    let told = called(&|output, room, length, line, line_room, line_length| unsafe {
        sys::vuthgal_explain(words.as_ptr(), words.len(), output, room, length, line, line_room, line_length)
    });
    explained(told)
}

fn explained(told: (u8, Vec<u8>, Vec<u8>)) -> Result<Option<String>, Fault> {
    if told.0 == sys::VUTHGAL_NO_LINE {
        return Ok(None);
    }
    Ok(Some(text(answer(told)?.1)))
}

/// The version of the library, and the sum of its sources, a line each.
pub fn version() -> String {
    let mut output = [0; 512];
    let mut length = 0;
    unsafe { sys::vuthgal_version(output.as_mut_ptr(), output.len(), &mut length) };
    text(output[..length.min(output.len())].to_vec())
}

#[cfg(test)]
mod tests {
    use super::*;

    fn explained_by(status: u8) -> Result<Option<String>, Fault> {
        explained((status, b"a beginning".to_vec(), Vec::new()))
    }

    #[test]
    fn only_status_2_is_no_line() {
        assert_eq!(explained_by(2), Ok(None));
        assert_eq!(explained_by(4), Err(Fault::Memory { output: b"a beginning".to_vec() }));
        assert_eq!(explained_by(5), Err(Fault::TooLong));
        assert_eq!(explained_by(9), Err(Fault::Unknown { answer: "status 9".into() }));
    }

    #[test]
    fn only_a_verdict_is_one() {
        assert_eq!(verdict("differs 7"), Ok(Verdict::Differs { line: 7 }));
        for told in ["", "differs", "differs x", "not a trace ", "something else 1"] {
            assert_eq!(verdict(told), Err(Fault::Unknown { answer: told.into() }));
        }
    }
}
