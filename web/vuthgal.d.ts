/**
 * The types of `vuthgal.mjs`: Vuthgal's commands as functions.
 *
 *     import { load } from "vuthgal";
 *     const vuthgal = await load();
 *     const trace = vuthgal.run(".phaser p 1\n.thread a main\nmain: parr r0 p\nhalt\n", "t0*2");
 *
 * LANGUAGE.md, TRACES.md and COMMANDS.md describe the texts.
 */

declare global {
  interface SymbolConstructor {
    readonly dispose: unique symbol;
  }
}

/** A text; bytes, such as an image; or a value that has a text. */
export type Text = string | ArrayBuffer | ArrayBufferView | Trace | Schedule;

/** The number of a thread, or its name in the program's text. */
export type ThreadName = number | string;

/**
 * Loads the library: by default the file `vuthgal.wasm` beside the module, or what another address, bytes or a module
 * have. This is the only promise. Each load has a memory of its own, of at most 1 GiB. It is freed when nothing uses
 * what was loaded.
 */
export function load(source?: URL | string | ArrayBuffer | ArrayBufferView | WebAssembly.Module): Promise<Vuthgal>;

/** A loaded library. Each call throws a `Fault` if it doesn't do as it was asked. */
export interface Vuthgal {
  /**
   * Plays a program under a schedule: the trace. Without a schedule, it plays a text under the one behind its line
   * `.run`.
   */
  run(program: Text, schedule?: Text): Trace;
  /** The image of a program's text. */
  asm(text: Text): Uint8Array;
  /** The canonical text of a program. */
  list(program: Text): string;
  /**
   * Compares a trace with the run that it names. It throws `Differs` if a line differs, and `NotATrace` if it is no
   * trace.
   */
  compare(program: Text, trace: Text): void;
  /** The schedule of a trace. It throws `NotATrace`. */
  choices(trace: Text): Schedule;
  /**
   * The schedule that a plan stands for on a program: at most `most` choices, and at most 1,000,000. With `names` it
   * has the names of the threads, so that it is a plan. If the plan is refused, the fault has a `mistake`.
   */
  plan(program: Text, plan: Text, options?: { most?: number; names?: boolean }): Schedule;
  /**
   * How runs end: each plays `plan`, and then an order by one of `count` seeds from `first` on, by default 1 to 1000.
   * An order has at most `limit` choices; 0 is 1,000,000. The most frequent end comes first.
   */
  seeds(
    program: Text,
    options?: { plan?: Text; first?: number; count?: number; limit?: number; names?: boolean },
  ): Ending[];
  /**
   * The page that shows a run, for a browser: `app`, which is the text of `vuthgal.html`, with the program, the schedule
   * and the trace in it. It throws `TooLong` above 1,000,000 choices and 16,777,216 bytes of trace.
   */
  page(program: Text, schedule: Text, app: string): string;
  /**
   * Where a program is refused, or a plan or a schedule of it, and what helps, as a terminal shows it; null if nothing
   * is wrong. Without `plan` and `schedule`, a text with a line `.run` has its schedule behind that.
   */
  mistake(program: Text, input?: { plan?: Text; schedule?: Text }): Mistake | null;
  /** A run drawn as text, in lines of at most `width` bytes, from 60 to 1000; 80 by default. */
  draw(program: Text, schedule: Text, options?: { width?: number }): string;
  /**
   * Whether a state is as an expectation says: `all`, `ended`, `stuck`, `live`, or words of a line of it, such as `t0
   * waits`. It throws a `RangeError` if that is no expectation.
   */
  expect(state: State | string, expectation: string): boolean;
  /** The replies of the debugger to commands, a text of lines or a list of them. */
  debug(program: Text, commands: Text | readonly string[]): string;
  /** What the words of a line mean; without words, what can be asked. It throws `NoLine`. */
  explain(words?: string): string;
  /** Opens a session of a program. Close it, or declare it by `using`. */
  session(program: Text): Session;
  /**
   * A call as `include/vuthgal.h` has it, by its name without `vuthgal_`: its status, output and line, whatever they
   * are.
   */
  call(name: CallName, inputs: readonly Text[], ...more: number[]): Told;
  /** Two lines: the version of the library, and the sum of its sources. */
  readonly version: string;
  /** How many bytes the memory has. It grows, and no call makes it smaller. */
  readonly memory: number;
}

export type CallName =
  | "run" | "both" | "asm" | "list" | "compare" | "choices" | "plan" | "seeds" | "draw" | "debug" | "explain";

/** Where an input is refused, and what helps. */
export interface Mistake {
  /** The line of the refusal, as the program writes it. */
  readonly told: string;
  /** Which input it is in. */
  readonly input: "program" | "plan" | "schedule";
  /** The line of that input, from 1; null if no line is to blame. */
  readonly line: number | null;
  /** The first byte of the wrong word, from 1; null if the whole line is meant. */
  readonly column: number | null;
  /** How many bytes the word has. */
  readonly length: number;
  /** `near: ..` or `help: ..`; empty if nothing is known to help. */
  readonly hint: string;
}

/** What a call of the header came to. */
export interface Told {
  readonly status: number;
  readonly output: Uint8Array;
  readonly line: string;
}

/** A program that is played choice by choice, as `vuthgal debug` plays it. Each step takes as long as the first. */
export class Session {
  private constructor();
  /** The names of the threads, if the program is a text. */
  readonly threads: readonly string[];
  readonly isOpen: boolean;
  /** How all stand now, as a trace tells it. `look` is sooner done. */
  readonly state: State;
  /**
   * The threads whose turn would do something now, and those whose timed wait would expire. Every other choice would
   * be idle.
   */
  readonly enabled: { readonly turns: readonly number[]; readonly expiries: readonly number[] };
  /** Plays a step of a thread. A step that is refused changes nothing: its line says `none` or `limit`. */
  step(thread: ThreadName): Line;
  /** Lets the timed wait of a thread expire. */
  expire(thread: ThreadName): Line;
  /**
   * Plays a schedule, up to a breakpoint or a choice that is refused. It throws a `RangeError` if it is no schedule.
   */
  go(schedule: string | Schedule): Went;
  /** Takes back the last choices, one after another. The newest 4,096 are kept; it throws `NoHistory` if none is. */
  back(count?: number): void;
  /**
   * Goes to the state after the first `number` choices of `played`, the schedule of what was played from the beginning
   * on. They are played anew, so they may be more than 4,096 back. If it throws, nothing changes.
   */
  goTo(played: string | Schedule, number: number): void;
  /**
   * Begins again, plays a plan of at most `most` choices, and returns its schedule. No breakpoint stops it. What was
   * played goes on if its schedule stands before the plan. If it throws, nothing changes; `Refused` has a `mistake`.
   */
  playPlan(plan: Text, options?: { most?: number }): Schedule;
  /** How all stand now, by numbers. */
  look(): Look;
  /** The entries of a thread's stack, from the bottom: `C5`, `H7`, `A0`, `X2`. */
  stack(thread: ThreadName): string[];
  /** The numbers that a thread put out. */
  outputs(thread: ThreadName): number[];
  /**
   * Another session in the same state, with the same breakpoints, which goes on alone. It takes back only what is
   * played in it.
   */
  copy(): Session;
  /**
   * The schedule of another run, which makes this choice in the present state. The thread goes on until it waits or
   * ends, for at most 100 turns. Then come the choices of `rest` that still do something: how the run itself would go
   * on, in at most 2,000 choices. Then all threads take turns. There are at most `most` choices. The session doesn't
   * change.
   */
  other(thread: ThreadName, options?: { expires?: boolean; rest?: string | Schedule; most?: number }): Schedule;
  /** Sets a breakpoint at a row, at which `go` stops. It throws a `RangeError` if there is no such row. */
  setBreakpoint(row: number): void;
  clearBreakpoint(row: number): void;
  /** The reply to a command of the debugger, such as `k 3` or `g t0*3 t1`, with its line feed. */
  command(line: string): string;
  /** Frees what the session holds. After that a call throws `Closed`. */
  close(): void;
  [Symbol.dispose](): void;
}

/** How all stand, by numbers. A `State` has the numbers that a trace tells; this has what a thread waits for, too. */
export interface Look {
  readonly choices: number;
  readonly steps: number;
  readonly word: "all" | "stuck" | "live";
  readonly threads: readonly ThreadLook[];
  readonly phasers: readonly (Phaser & { readonly parent: number | null })[];
  /** `runner` is the thread that runs the action. */
  readonly barriers: readonly (Barrier & { readonly parties: number; readonly runner: number | null })[];
  /** The cells that aren't 0, by their numbers. */
  readonly cells: ReadonlyMap<number, number>;
}

export interface ThreadLook extends Omit<Thread, "stack" | "out"> {
  /** `p0` or `b0`, at which it waits, and the phase of a phaser that it awaits. */
  readonly awaits: string | null;
  readonly phase: number | null;
  /** How many entries its stack has, and how many numbers it put out. */
  readonly entries: number;
  readonly outputs: number;
}

/** What `go` came to. */
export class Went {
  private constructor();
  /**
   * `end`: all choices were played. `at`: the thread of the last one is at a breakpoint. `fault`: the next choice was
   * refused.
   */
  readonly what: "end" | "at" | "fault";
  /** How many choices were played. */
  readonly choices: number;
  /** Why the next choice was refused: no such thread, a limit of steps or choices, or no memory. */
  readonly why: "none" | "limit" | "memory" | null;
  readonly text: string;
  toString(): string;
}

/** The trace of a run. Its text and bytes are the program's, byte for byte. An iteration gives its lines. */
export class Trace implements Iterable<Line> {
  /** A trace that you have as bytes. */
  constructor(bytes: Uint8Array);
  readonly bytes: Uint8Array;
  readonly text: string;
  /** A line for each choice. */
  readonly lines: readonly Line[];
  /** How all stand at the end. The lines before aren't looked at. */
  readonly state: State;
  [Symbol.iterator](): IterableIterator<Line>;
  toString(): string;
}

/** What a choice did: a line of a trace. */
export class Line {
  private constructor();
  /** The line that a text is. It throws `Malformed`. */
  static parse(text: string): Line;
  readonly text: string;
  /** The number of the choice, from 1. */
  readonly step: number;
  /** `t0`, or `x0` if the timed wait of thread 0 expires. */
  readonly choice: string;
  readonly thread: number;
  /** The row at which the thread stood; null if there is no such thread. */
  readonly row: number | null;
  /** `none` and `limit` are those of a choice that was refused. */
  readonly what: What;
  /** The number behind `=`, `out`, `throw`, `catch` and `die`. */
  readonly value: number | null;
  /** `+p0`, `+b0` or `-b0`: the root that ended a phase, the barrier that tripped or broke. */
  readonly mark: string | null;
  /** The view behind `+p0`. */
  readonly view: number | null;
  toString(): string;
}

export type What =
  | "idle" | "ok" | "=" | "out" | "wait" | "throw" | "enter" | "unwind" | "catch" | "die" | "end" | "none" | "limit";

/** How all stand. */
export class State {
  private constructor();
  /** The state that lines are, from `state` on. It throws `Malformed`. */
  static parse(text: string): State;
  readonly text: string;
  readonly choices: number;
  readonly steps: number;
  readonly word: "all" | "stuck" | "live";
  readonly threads: readonly Thread[];
  readonly phasers: readonly Phaser[];
  readonly barriers: readonly Barrier[];
  /** The cells that aren't 0, by their numbers. */
  readonly cells: ReadonlyMap<number, number>;
  toString(): string;
}

export interface Thread {
  readonly number: number;
  readonly row: number;
  readonly status: "runs" | "throws" | "waits" | "ended" | "died";
  /** The exception that it throws or died of. */
  readonly exception: number | null;
  readonly interrupted: boolean;
  readonly registers: readonly number[];
  /** From the bottom: `C5`, `H7`, `A0`, `X2`. */
  readonly stack: readonly string[];
  readonly out: readonly number[];
}

export interface Phaser {
  readonly number: number;
  /** The value of `getPhase`. */
  readonly view: number;
  readonly parties: number;
  readonly arrived: number;
  readonly unarrived: number;
}

export interface Barrier {
  readonly number: number;
  readonly waiting: number;
  readonly broken: boolean;
}

/** A schedule. An iteration gives its choices one by one, such as `t0`. */
export class Schedule implements Iterable<string> {
  constructor(text: string, stopped?: boolean);
  readonly text: string;
  /** Whether its plan needs more choices than it may have. */
  readonly stopped: boolean;
  /** How many choices it has. */
  readonly choices: number;
  [Symbol.iterator](): IterableIterator<string>;
  toString(): string;
}

/** A state in which runs by seeds ended, and the first of them. */
export class Ending {
  private constructor();
  /** How many runs ended so. */
  readonly runs: number;
  readonly word: "all" | "stuck" | "live";
  /** Whether a thread died. */
  readonly died: boolean;
  /** The seed and the schedule of the first of these runs. */
  readonly seed: number;
  readonly schedule: Schedule;
  readonly text: string;
  toString(): string;
}

/** What ends a call that doesn't do as it was asked. */
export class Fault extends Error {}

/** An input is refused. The message is the line of it, and what it means. */
export class Refused extends Fault {
  private constructor();
  /** The line, as the program writes it: `refused asm 3 3`. */
  readonly told: string;
  /** Which input is refused. */
  readonly group: "asm" | "image" | "load" | "schedule" | "plan" | "show" | "draw";
  /** The line of a program's text or of a plan, from 1. */
  readonly line: number | null;
  /** The number of the kind of fault. */
  readonly kind: number;
  /** Where it is, in words: a row, a thread, a byte of the schedule. */
  readonly place: readonly string[];
  /** Where in its line the wrong word is, from 0, and where it ends; null if that isn't known. */
  readonly word: readonly [number, number] | null;
  /** What is wrong, in words. */
  readonly means: string;
  /** What helps, in words. */
  readonly help: string;
  /** What was written before: of a schedule, the lines of the choices before its fault. */
  readonly output: Uint8Array;
  /** Of a plan: where it is refused, and what helps. */
  readonly mistake: Mistake | null;
}

/** A trace isn't that of the run. */
export class Differs extends Fault {
  protected constructor();
  /** The first line that differs, from 1. */
  readonly line: number;
}

/** It is no trace: `line` is the first that is no line of one. */
export class NotATrace extends Differs {
  private constructor();
  /** The schedule of the lines before it. */
  readonly before: string;
}

/** No line has the words that were to be explained. `explain("")` says what can be asked. */
export class NoLine extends Fault {
  private constructor();
  /** The library's line. */
  readonly told: string;
}

/** There is no memory for a call. */
export class OutOfMemory extends Fault {
  private constructor();
  /** A beginning of what the call would have written. */
  readonly output: Uint8Array;
}

/** An input has more bytes than it may have. */
export class TooLong extends Fault {
  private constructor();
}

/** A text is no line, no state or no trace. */
export class Malformed extends Fault {
  private constructor();
}

/** No choice is kept that could be taken back. */
export class NoHistory extends Fault {
  private constructor();
}

/** A session is closed. */
export class Closed extends Fault {
  private constructor();
}
