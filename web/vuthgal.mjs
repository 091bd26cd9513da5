/**
 * Vuthgal's commands as functions, for browsers, Node, Deno and workers. The library is `vuthgal.wasm`, beside this
 * file: the proved code of the program. It imports nothing, so that it computes in a memory of its own and reaches
 * nothing else.
 *
 *     import { load } from "vuthgal";
 *     const vuthgal = await load();
 *     const trace = vuthgal.run(".phaser p 1\n.thread a main\nmain: parr r0 p\nhalt\n", "t0*2");
 *     console.log(trace.lines[0].mark, trace.state.word);
 *
 * `vuthgal.d.ts` describes each of them.
 */
import { bytesOf, textOf } from "./bytes.mjs";
import { Closed, Differs, Fault, NoLine, NotATrace, OutOfMemory, Refused, TooLong } from "./faults.mjs";
import { Library } from "./library.mjs";
import { choicesIn, MOST_CHOICES, MOST_TRACE, pageWith, tokensIn } from "./page.mjs";
import { Session } from "./session.mjs";
import { Ending, Line, Schedule, State, Trace, Went } from "./values.mjs";

export * from "./faults.mjs";
export { Ending, Line, Schedule, Session, State, Trace, Went };

/** How many choices a plan can have. */
const MOST_PLANNED = 1_000_000;

/** The bytes of a file that Node reads, or of what the network has. */
async function fetched(url) {
  if (url.protocol === "file:" && globalThis.process?.versions?.node) {
    const files = "node:fs/promises"; // named here, so that a bundler for browsers doesn't look for it
    return (await import(files)).readFile(url);
  }
  const response = await fetch(url);
  if (!response.ok) throw new Fault(`${url} has the status ${response.status}`);
  return response.arrayBuffer();
}

/** Loads the library, by default the file beside this one. Each load has a memory of its own. */
export async function load(source = new URL("vuthgal.wasm", import.meta.url)) {
  const what = typeof source === "string" ? new URL(source, globalThis.location?.href ?? import.meta.url) : source;
  const code = what instanceof URL ? await fetched(what) : what;
  const made = await WebAssembly.instantiate(code).catch((error) => {
    throw error instanceof RangeError ? new OutOfMemory() : error; // no memory was to be had for the module
  });
  return new Vuthgal(new Library(made instanceof WebAssembly.Instance ? made : made.instance));
}

class Vuthgal {
  #library;

  constructor(library) {
    this.#library = library;
  }

  /** A call as include/vuthgal.h has it: its status, output and line, whatever they are. */
  call(name, inputs, ...more) {
    return this.#library.called(name, inputs.map(bytesOf), { more });
  }

  /** What was told, if the call did as it was asked. */
  #answer(told) {
    if (told.status < 2) return told;
    if (told.status === 3) {
      const line = told.line.trimEnd();
      throw new Refused(line, told.output ?? new Uint8Array(), this.#explained(line));
    }
    if (told.status === 4) throw new OutOfMemory(told.output);
    if (told.status === 5) throw new TooLong();
    if (told.status === 6) throw new Closed();
    throw new Fault(`the library returns status ${told.status}`);
  }

  #explained(words) {
    const { status, output } = this.call("explain", [words]);
    return status === 0 ? textOf(output) : "";
  }

  #bytes(name, inputs, ...more) {
    return this.#answer(this.call(name, inputs, ...more)).output;
  }

  #text(name, inputs, ...more) {
    return textOf(this.#bytes(name, inputs, ...more));
  }

  /** Plays a program under a schedule, or, without one, a text under the schedule behind its line `.run`. */
  run(program, schedule) {
    return new Trace(schedule === undefined ? this.#bytes("both", [program]) : this.#bytes("run", [program, schedule]));
  }

  /** The image of a program's text. */
  asm(text) {
    return this.#bytes("asm", [text]);
  }

  /** The canonical text of a program. */
  list(program) {
    return this.#text("list", [program]);
  }

  /** Compares a trace with the run that it names. It throws `Differs` or `NotATrace`. */
  compare(program, trace) {
    const told = this.#text("compare", [program, trace]).trimEnd();
    if (told !== "same") throw told.startsWith("not") ? new NotATrace(told) : new Differs(told);
  }

  /** The schedule of a trace. It throws `NotATrace`. */
  choices(trace) {
    const { status, output } = this.#answer(this.call("choices", [trace]));
    const lines = textOf(output).trimEnd().split("\n");
    if (status === 1) throw new NotATrace(lines.at(-1), lines.length > 1 ? lines[0] : "");
    return new Schedule(lines[0]);
  }

  /** The schedule that a plan stands for on a program. `Refused` has a `mistake`. */
  plan(program, plan, { most = MOST_PLANNED, names = false } = {}) {
    if (!(most >= 0 && most < 2 ** 32)) throw new RangeError(`no number of choices: ${most}`);
    const told = this.call("plan", [program, plan], most, names ? 1 : 0);
    try {
      return new Schedule(textOf(this.#answer(told).output).trimEnd(), told.status === 1);
    } catch (fault) {
      if (fault instanceof Refused) fault.mistake = this.mistake(program, { plan });
      throw fault;
    }
  }

  /** How the runs of an order by each seed end, after a plan. */
  seeds(program, { plan = "", first = 1, count = 1000, limit = 0, names = false } = {}) {
    if (!(first >= 0 && first + count <= 2 ** 32)) throw new RangeError("a seed is from 0 to 4294967295");
    const told = this.#text("seeds", [program, plan], first, count, limit, names ? 1 : 0);
    return told.split("\n").slice(0, -1).map((line) => new Ending(line));
  }

  /** The page that shows a run: `app`, which is the text of `vuthgal.html`, with its program, schedule and trace in it. */
  page(program, schedule, app) {
    const tokens = textOf(bytesOf(schedule));
    if (choicesIn(tokens) > MOST_CHOICES) throw new TooLong();
    const trace = this.#text("run", [program, schedule]);
    if (trace.length > MOST_TRACE) throw new TooLong();
    const source = textOf(bytesOf(program));
    return pageWith(app, {
      listing: this.list(program),
      source: /^PBW[12]/.test(source) ? "" : source,
      schedule: tokensIn(tokens),
      trace,
    });
  }

  /**
   * Where a program is refused, or a plan or a schedule of it, and what helps, as a terminal shows it; null if nothing
   * is wrong.
   */
  mistake(program, { plan, schedule } = {}) {
    const text = bytesOf(program);
    const isWhole = plan === undefined && schedule === undefined && /^\.run\s*$/m.test(textOf(text));
    const kind = plan !== undefined ? 1 : schedule !== undefined ? 2 : isWhole ? 3 : 0;
    const told = this.#library.mistaken(text, kind, bytesOf(plan ?? schedule ?? ""));
    if (told.status !== 3) return this.#answer(told) && null;
    return { told: told.line.trimEnd(), ...told.place, hint: textOf(told.output).trimEnd() };
  }

  /** A run drawn as text, in lines of at most `width` bytes. */
  draw(program, schedule, { width = 80 } = {}) {
    const isFit = Number.isInteger(width) && width >= 60 && width <= 1000;
    if (!isFit) throw new RangeError("the width is from 60 to 1000");
    return this.#text("draw", [program, schedule], width);
  }

  /** Whether a state is as an expectation says, such as `all` or `t0 waits`. */
  expect(state, expectation) {
    const inputs = [bytesOf(String(state)), bytesOf(expectation)];
    const status = this.#library.with(inputs, (words) => this.#library.call("expect", ...words));
    if (status === 3) throw new RangeError(`no expectation: ${expectation}`);
    return this.#answer({ status }).status === 0;
  }

  /** The replies of the debugger to lines of commands. */
  debug(program, commands) {
    const lines = Array.isArray(commands) ? commands.map((line) => `${line}\n`).join("") : commands;
    return this.#text("debug", [program, lines]);
  }

  /** What the words of a line mean; without words, what can be asked. It throws `NoLine`. */
  explain(words = "") {
    const told = this.call("explain", [words]);
    if (told.status === 2) throw new NoLine(words, told.line);
    return textOf(this.#answer(told).output);
  }

  /** Opens a session of a program. */
  session(program) {
    const text = bytesOf(program).slice();
    const answer = (told) => this.#answer(told);
    return Session.of(this.#library, { answer, plan: (plan, options) => this.plan(text, plan, options) }, text);
  }

  /** The version of the library, and the sum of its sources. */
  get version() {
    return this.#library.version();
  }

  /** How many bytes its memory has. It grows, and gets smaller by no call: load another, and forget this one. */
  get memory() {
    return this.#library.bytes.length;
  }
}
