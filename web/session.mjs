/**
 * A program that is played choice by choice, as `vuthgal debug` plays it. The library holds how all stand. A session
 * has its handle and the names of the threads.
 */
import { bytesOf, textOf } from "./bytes.mjs";
import { NoHistory } from "./faults.mjs";
import { bitsAt, entriesAt, lineAt, LOOK, lookAt, MOST_ENTRIES, MOST_OUTPUTS, numbersAt } from "./looks.mjs";
import { Line, Schedule, State, Went } from "./values.mjs";

/** What a call returns where it has nothing to say. */
const NONE_KEPT = 1;
const FEWER = 1;
const NOT_READ = 3;
const NO_THREAD = 7;
const LIMIT = 8;

/** The names of a text's threads. An image has none. */
function namesOf(program) {
  const text = textOf(program);
  if (/^PBW[12]/.test(text)) return [];
  const lines = text.split("\n").map((line) => line.split(";")[0].trim().split(/\s+/));
  const end = lines.findIndex(([word]) => word === ".run");
  const head = end < 0 ? lines : lines.slice(0, end);
  return head.filter(([word, name]) => word === ".thread" && name).map(([, name]) => name);
}

/** Closes the sessions that are forgotten and weren't closed. */
const forgotten = new FinalizationRegistry(({ library, handle }) => library.close(handle));

export class Session {
  #library;
  #handle;
  #word;
  #calls;
  #rooms;

  /**
   * `fill` opens a session at a handle. Of the calls, `answer` throws the fault that a status stands for, and `plan`
   * gives the schedule of a plan.
   */
  constructor(library, calls, threads, fill) {
    const handle = library.handle();
    try {
      calls.answer(fill(handle));
    } catch (fault) {
      library.close(handle);
      throw fault;
    }
    this.#library = library;
    this.#handle = handle;
    this.#word = BigInt(handle);
    this.#calls = calls;
    this.threads = threads;
    forgotten.register(this, { library, handle }, this);
  }

  static of(library, calls, program) {
    return new Session(library, calls, namesOf(program), (handle) => library.open(handle, program));
  }

  get isOpen() {
    return this.#handle !== 0;
  }

  /** Throws the fault of a status that isn't 0. A handle of 0 has no session. */
  #check(status) {
    if (status !== 0) this.#calls.answer({ status, line: "" });
  }

  /** The address of a session that is open. */
  #open() {
    if (this.#handle === 0) this.#check(6);
    return this.#word;
  }

  #number(thread) {
    const number = typeof thread === "number" ? thread : this.threads.indexOf(thread);
    if (Number.isInteger(number) && number >= 0 && number < 256) return number;
    throw new RangeError(`there is no thread ${thread}`);
  }

  #choice(thread, letter, expiry) {
    const session = this.#open();
    const number = this.#number(thread);
    const { at, word } = this.#library.struct;
    const status = this.#library.call("session_step", session, number, expiry, word);
    if (status === 0) return lineAt(this.#library.view, at, letter + number);
    if (status === NO_THREAD || status === LIMIT) return Line.parse(this.command(`s ${letter}${number}`).slice(0, -1));
    return this.#check(status);
  }

  /** Plays a step of a thread. A step that is refused changes nothing: its line says `none` or `limit`. */
  step(thread) {
    return this.#choice(thread, "t", 0);
  }

  /** Lets the timed wait of a thread expire. */
  expire(thread) {
    return this.#choice(thread, "x", 1);
  }

  /** Plays a schedule, up to a breakpoint or a choice that is refused. */
  go(schedule) {
    const tokens = String(schedule).trim().split(/\s+/).join(" ");
    const reply = this.command(`g ${tokens}`).slice(0, -1);
    if (reply === "?") throw new RangeError(`no schedule: ${tokens}`);
    return new Went(reply);
  }

  /** Takes back the last choices, one after another. */
  back(count = 1) {
    for (let i = 0; i < count; i++) {
      const status = this.#library.call("session_back", this.#open());
      if (status === NONE_KEPT) throw new NoHistory();
      this.#check(status);
    }
  }

  /**
   * Goes to the state after the first choices of `played`, the schedule of what was played from the beginning on. They
   * are played anew, so they may be more than 4,096 back. If it throws, nothing changes.
   */
  goTo(played, number) {
    const status = this.#library.with([bytesOf(String(played))], (words) =>
      this.#library.call("session_go_to", this.#open(), ...words, BigInt(number)),
    );
    if (status === FEWER) throw new RangeError(`fewer than ${number} choices were played`);
    if (status === NOT_READ) throw new RangeError(`no schedule: ${played}`);
    if (status === NO_THREAD) throw new RangeError(`there is no such thread: ${played}`);
    this.#check(status);
  }

  /** Begins again, plays a plan of at most `most` choices, and returns its schedule. No breakpoint stops it. */
  playPlan(plan, options = {}) {
    const schedule = this.#calls.plan(plan, { most: options.most });
    this.goTo(schedule, schedule.choices);
    return schedule;
  }

  /** The threads whose turn would do something now, and those whose wait would expire. */
  get enabled() {
    const { at } = this.#library.struct;
    const words = [BigInt(at), BigInt(at + 8)];
    this.#check(this.#library.call("session_enabled", this.#open(), ...words));
    return { turns: bitsAt(this.#library.view, at), expiries: bitsAt(this.#library.view, at + 8) };
  }

  /** How all stand now, by numbers. */
  look() {
    const { at, word } = this.#library.struct;
    this.#rooms ??= LOOK.rooms.flatMap((room) => [BigInt(at + room.at), BigInt(room.most)]);
    this.#check(this.#library.call("session_look", this.#open(), word, ...this.#rooms));
    return lookAt(this.#library.view, at);
  }

  #listed(name, thread, most, read) {
    const { at } = this.#library.struct;
    const words = [this.#open(), this.#number(thread), BigInt(at + 8), BigInt(most), BigInt(at)];
    const status = this.#library.call(`session_${name}`, ...words);
    if (status === NO_THREAD) throw new RangeError(`there is no thread ${thread}`);
    this.#check(status);
    return read(this.#library.view, at + 8, this.#library.number(at));
  }

  /** The entries of a thread's stack, from the bottom. */
  stack(thread) {
    return this.#listed("stack", thread, MOST_ENTRIES, entriesAt);
  }

  /** The numbers that a thread put out. */
  outputs(thread) {
    return this.#listed("outputs", thread, MOST_OUTPUTS, numbersAt);
  }

  /** Another session in the same state, which goes on alone. It keeps none of the choices that were played. */
  copy() {
    const from = this.#open();
    const fill = (to) => ({ status: this.#library.call("session_copy", from, BigInt(to)), line: "" });
    return new Session(this.#library, this.#calls, this.threads, fill);
  }

  /** The schedule of another run, in which a thread goes first. The session doesn't change. */
  other(thread, { expires = false, rest = "", most = 1_000_000 } = {}) {
    const words = [this.#open(), this.#number(thread), expires ? 1 : 0, most];
    const told = this.#library.called("session_other", [bytesOf(rest)], { first: words, hasLine: false });
    if (told.status === NOT_READ) throw new RangeError(`no schedule of at most 2,000 choices: ${rest}`);
    if (told.status === NO_THREAD) throw new RangeError(`there is no thread ${thread}`);
    this.#check(told.status);
    return new Schedule(textOf(told.output).trimEnd());
  }

  /** Sets a breakpoint at a row. */
  setBreakpoint(row) {
    this.#row("k", row);
  }

  clearBreakpoint(row) {
    this.#row("c", row);
  }

  #row(letter, row) {
    if (this.command(`${letter} ${row}`) === "?\n") throw new RangeError(`there is no row ${row}`);
  }

  /** How all stand now, as `p` tells it. */
  get state() {
    return State.parse(this.command("p"));
  }

  /** The reply to a command of the debugger, with its line feed. */
  command(line) {
    this.#open();
    const { status, reply } = this.#library.command(this.#handle, line);
    this.#check(status);
    return reply;
  }

  /** Frees what the session holds. A session that is closed stays so. */
  close() {
    if (this.#handle === 0) return;
    forgotten.unregister(this);
    this.#library.close(this.#handle);
    this.#handle = 0;
  }

  [Symbol.dispose ?? Symbol.for("Symbol.dispose")]() {
    this.close();
  }
}
