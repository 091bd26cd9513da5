//! The C calls, structs and constants of libvuthgal, as `include/vuthgal.h` declares and describes them.
#![no_std]

pub const VUTHGAL_VERSION: u32 = 20000;
pub const VUTHGAL_DONE: u8 = 0;
pub const VUTHGAL_UNLIKE: u8 = 1;
pub const VUTHGAL_NO_LINE: u8 = 2;
pub const VUTHGAL_REFUSED: u8 = 3;
pub const VUTHGAL_MEMORY: u8 = 4;
pub const VUTHGAL_TOO_LONG: u8 = 5;
pub const VUTHGAL_CLOSED: u8 = 6;
pub const VUTHGAL_NO_THREAD: u8 = 7;
pub const VUTHGAL_LIMIT: u8 = 8;
pub const VUTHGAL_MOST_BYTES: usize = 16777216;
pub const VUTHGAL_MOST_WORDS: usize = 65536;
pub const VUTHGAL_MOST_COMMANDS: usize = 1000000000;
pub const VUTHGAL_KEPT: usize = 4096;
pub const VUTHGAL_LINE: usize = 96;
pub const VUTHGAL_REPLY: usize = 192;
pub const VUTHGAL_PROGRAM: u8 = 0;
pub const VUTHGAL_PLAN: u8 = 1;
pub const VUTHGAL_SCHEDULE: u8 = 2;
pub const VUTHGAL_TEXT: u8 = 3;
pub const VUTHGAL_LIVE: u8 = 0;
pub const VUTHGAL_STUCK: u8 = 1;
pub const VUTHGAL_ALL: u8 = 2;
pub const VUTHGAL_NONE: u16 = 65535;
pub const VUTHGAL_RUNS: u8 = 0;
pub const VUTHGAL_THROWS: u8 = 1;
pub const VUTHGAL_AWAITS_PHASE: u8 = 2;
pub const VUTHGAL_AWAITS_BARRIER: u8 = 3;
pub const VUTHGAL_ENDED: u8 = 4;
pub const VUTHGAL_DIED: u8 = 5;
pub const VUTHGAL_CALL: u8 = 0;
pub const VUTHGAL_HANDLER: u8 = 1;
pub const VUTHGAL_ROUTINE: u8 = 2;
pub const VUTHGAL_ACTION: u8 = 3;
pub const VUTHGAL_IDLE: u8 = 0;
pub const VUTHGAL_OK: u8 = 1;
pub const VUTHGAL_RESULT: u8 = 2;
pub const VUTHGAL_OUT: u8 = 3;
pub const VUTHGAL_WAITS: u8 = 4;
pub const VUTHGAL_THROW: u8 = 5;
pub const VUTHGAL_ENTERS: u8 = 6;
pub const VUTHGAL_UNWINDS: u8 = 7;
pub const VUTHGAL_CATCHES: u8 = 8;
pub const VUTHGAL_DIES: u8 = 9;
pub const VUTHGAL_ENDS: u8 = 10;
pub const VUTHGAL_NO_MARK: u8 = 0;
pub const VUTHGAL_PHASE_ENDED: u8 = 1;
pub const VUTHGAL_TRIPPED: u8 = 2;
pub const VUTHGAL_BROKE: u8 = 3;

macro_rules! calls {
    ($($name:ident($($input:ident, $count:ident),+ $(; $($more:ident: $kind:ty),+)?);)+) => {
        extern "C" {
            $(pub fn $name(
                $($input: *const u8, $count: usize,)+
                $($($more: $kind,)+)?
                output: *mut u8,
                output_room: usize,
                output_length: *mut usize,
                line: *mut u8,
                line_room: usize,
                line_length: *mut usize,
            ) -> u8;)+
        }
    };
}

calls! {
    vuthgal_run(program, program_length, schedule, schedule_length);
    vuthgal_both(text, text_length);
    vuthgal_asm(text, text_length);
    vuthgal_list(program, program_length);
    vuthgal_compare(program, program_length, trace, trace_length);
    vuthgal_choices(trace, trace_length);
    vuthgal_plan(program, program_length, plan, plan_length; most: u32, names: u8);
    vuthgal_seeds(program, program_length, plan, plan_length; first: u32, count: u32, limit: u32, names: u8);
    vuthgal_draw(program, program_length, schedule, schedule_length; width: u16);
    vuthgal_debug(program, program_length, commands, commands_length);
    vuthgal_explain(words, words_length);
}

/// A session. Only the calls look into it. It is closed if both are 0.
#[repr(C)]
#[derive(Debug)]
#[allow(non_camel_case_types)]
pub struct vuthgal_session {
    pub at: *mut u8,
    pub is_open: u64,
}

macro_rules! structs {
    ($($(#[$doc:meta])* $name:ident { $($field:ident: $kind:ty),+ $(,)? })+) => {
        $($(#[$doc])*
        #[repr(C)]
        #[derive(Clone, Copy, Debug, Default, PartialEq, Eq, Hash)]
        #[allow(non_camel_case_types)]
        pub struct $name {
            $(pub $field: $kind,)+
        })+
    };
}

structs! {
    /// A part of a line of an input.
    vuthgal_place { line: u64, column: u64, length: u64, input: u8 }
    /// A state.
    vuthgal_state { choices: u64, steps: u32, threads: u8, phasers: u8, barriers: u8, standing: u8 }
    /// A thread.
    vuthgal_thread {
        registers: [i32; 8],
        value: i32,
        row: u16,
        object: u16,
        outputs: u16,
        entries: u8,
        status: u8,
        interrupted: u8,
    }
    /// A phaser.
    vuthgal_phaser { phase: i32, parties: u16, arrived: u16, unarrived: u16, parent: u16 }
    /// A barrier.
    vuthgal_barrier { parties: u16, waiting: u16, runner: u16, broken: u8 }
    /// An entry of a thread's stack.
    vuthgal_entry { number: u16, kind: u8 }
    /// What a choice did.
    vuthgal_event { number: u64, value: i32, view: i32, row: u16, object: u16, what: u8, mark: u8 }
}

extern "C" {
    pub fn vuthgal_mistake(
        program: *const u8,
        program_length: usize,
        kind: u8,
        input: *const u8,
        input_length: usize,
        place: *mut vuthgal_place,
        output: *mut u8,
        output_room: usize,
        output_length: *mut usize,
        line: *mut u8,
        line_room: usize,
        line_length: *mut usize,
    ) -> u8;
    pub fn vuthgal_session_open(
        session: *mut vuthgal_session,
        program: *const u8,
        program_length: usize,
        line: *mut u8,
        line_room: usize,
        line_length: *mut usize,
    ) -> u8;
    pub fn vuthgal_session_command(
        session: *mut vuthgal_session,
        command: *const u8,
        command_length: usize,
        output: *mut u8,
        output_room: usize,
        output_length: *mut usize,
    ) -> u8;
    pub fn vuthgal_session_reply(session: *mut vuthgal_session, output: *mut u8, output_room: usize, output_length: *mut usize) -> u8;
    pub fn vuthgal_session_step(session: *mut vuthgal_session, thread: u8, expiry: u8, event: *mut vuthgal_event) -> u8;
    pub fn vuthgal_session_back(session: *mut vuthgal_session) -> u8;
    pub fn vuthgal_session_go_to(session: *mut vuthgal_session, played: *const u8, played_length: usize, number: u64) -> u8;
    pub fn vuthgal_session_enabled(session: *mut vuthgal_session, turns: *mut u64, expiries: *mut u64) -> u8;
    pub fn vuthgal_session_look(
        session: *mut vuthgal_session,
        state: *mut vuthgal_state,
        threads: *mut vuthgal_thread,
        threads_room: usize,
        phasers: *mut vuthgal_phaser,
        phasers_room: usize,
        barriers: *mut vuthgal_barrier,
        barriers_room: usize,
        cells: *mut i32,
        cells_room: usize,
    ) -> u8;
    pub fn vuthgal_session_stack(
        session: *mut vuthgal_session,
        thread: u8,
        entries: *mut vuthgal_entry,
        entries_room: usize,
        count: *mut usize,
    ) -> u8;
    pub fn vuthgal_session_outputs(
        session: *mut vuthgal_session,
        thread: u8,
        values: *mut i32,
        values_room: usize,
        count: *mut usize,
    ) -> u8;
    pub fn vuthgal_session_copy(from: *mut vuthgal_session, to: *mut vuthgal_session) -> u8;
    pub fn vuthgal_session_other(
        session: *mut vuthgal_session,
        thread: u8,
        expiry: u8,
        most: u32,
        rest: *const u8,
        rest_length: usize,
        output: *mut u8,
        output_room: usize,
        output_length: *mut usize,
    ) -> u8;
    pub fn vuthgal_expect(state: *const u8, state_length: usize, expectation: *const u8, expectation_length: usize) -> u8;
    pub fn vuthgal_version_number() -> u32;
    pub fn vuthgal_session_close(session: *mut vuthgal_session);
    pub fn vuthgal_version(output: *mut u8, output_room: usize, output_length: *mut usize);
}
