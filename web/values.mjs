/**
 * What the calls return, as values: the lines and the state of a trace, and a schedule. They are read from the
 * library's texts, and each still has its text. Nothing here calls the library.
 */
import { textOf } from "./bytes.mjs";
import { Malformed } from "./faults.mjs";

/** What a number stands behind. */
export const VALUED = new Set(["=", "out", "throw", "catch", "die"]);

/** What a choice did: a line of a trace. */
export class Line {
  constructor(step, choice, row, what, value = null, mark = null, view = null) {
    this.step = step;
    this.choice = choice;
    this.thread = Number(choice.slice(1));
    this.row = row;
    this.what = what;
    this.value = value;
    this.mark = mark;
    this.view = view;
  }

  static parse(text) {
    const [step, choice, row, what, ...rest] = text.split(" ");
    const isOne = /^[1-9][0-9]*$/.test(step) && /^[tx][0-9]+$/.test(choice) && what;
    if (!isOne) throw new Malformed(`no line of a trace: ${text}`);
    const value = VALUED.has(what) ? Number(rest.shift()) : null;
    const [mark = null, view = null] = rest;
    return new Line(Number(step), choice, row === "-" ? null : Number(row), what, value, mark, view && Number(view));
  }

  get text() {
    const words = [this.step, this.choice, this.row ?? "-", this.what, this.value, this.mark, this.view];
    return words.filter((word) => word !== null).join(" ");
  }

  toString() {
    return this.text;
  }
}

function threadOf(words) {
  const [status, exception] = words[2].split(":");
  const stack = words.indexOf("stack");
  const out = words.indexOf("out", stack);
  return {
    number: Number(words[0].slice(1)),
    row: Number(words[1]),
    status,
    exception: exception === undefined ? null : Number(exception),
    interrupted: words[3] === "1",
    registers: words.slice(5, stack).map(Number),
    stack: words.slice(stack + 1, out),
    out: words.slice(out + 1).map(Number),
  };
}

function phaserOf([name, ...numbers]) {
  const [view, parties, arrived, unarrived] = numbers.map(Number);
  return { number: Number(name.slice(1)), view, parties, arrived, unarrived };
}

function barrierOf([name, waiting, broken]) {
  return { number: Number(name.slice(1)), waiting: Number(waiting), broken: broken === "1" };
}

/** How all stand: the lines of a trace from `state` on. */
export class State {
  constructor(text, values) {
    this.text = text;
    Object.assign(this, values);
  }

  static parse(text) {
    const [head, ...lines] = text.trimEnd().split("\n").map((line) => line.split(" "));
    if (head[0] !== "state" || head.length !== 4) throw new Malformed(`no state: ${text}`);
    const of = (letter) => lines.filter((words) => words[0][0] === letter);
    return new State(text, {
      choices: Number(head[1]),
      steps: Number(head[2]),
      word: head[3],
      threads: of("t").map(threadOf),
      phasers: of("p").map(phaserOf),
      barriers: of("b").map(barrierOf),
      cells: new Map(of("c").map(([name, value]) => [Number(name.slice(1)), Number(value)])),
    });
  }

  toString() {
    return this.text;
  }
}

/** The trace of a run. Its text is the program's, byte for byte. An iteration gives its lines. */
export class Trace {
  #text;
  #lines;
  #state;

  constructor(bytes) {
    this.bytes = bytes;
  }

  get text() {
    return (this.#text ??= textOf(this.bytes));
  }

  /** Where the state begins. No other line of a state begins as its first does. */
  #end() {
    const at = this.text.lastIndexOf("\nstate ") + 1;
    if (at === 0 && !this.text.startsWith("state ")) throw new Malformed("a trace has a line that begins with `state`");
    return at;
  }

  get lines() {
    return (this.#lines ??= this.text.slice(0, this.#end()).split("\n").slice(0, -1).map(Line.parse));
  }

  get state() {
    return (this.#state ??= State.parse(this.text.slice(this.#end())));
  }

  [Symbol.iterator]() {
    return this.lines[Symbol.iterator]();
  }

  toString() {
    return this.text;
  }
}

/** A schedule. An iteration gives its choices one by one, such as `t0`. */
export class Schedule {
  constructor(text, stopped = false) {
    this.text = text;
    this.stopped = stopped;
  }

  /** How many choices it has. */
  get choices() {
    return [...this.text.matchAll(/\S+/g)].reduce((sum, [token]) => sum + Number(token.split("*")[1] ?? 1), 0);
  }

  *[Symbol.iterator]() {
    for (const [token] of this.text.matchAll(/\S+/g)) {
      const [choice, count = 1] = token.split("*");
      for (let i = 0; i < count; i++) yield choice;
    }
  }

  toString() {
    return this.text;
  }
}

/** What `Session.go` came to: all was played (`end`), a breakpoint (`at`), or a refused choice (`fault`, and why). */
export class Went {
  constructor(text) {
    const [what, choices, why] = text.split(" ");
    this.text = text;
    this.what = what;
    this.choices = Number(choices);
    this.why = why ?? null;
  }

  toString() {
    return this.text;
  }
}

/** A state in which runs by seeds ended, and the first of them. */
export class Ending {
  constructor(text) {
    const [runs, word, seed, ...schedule] = text.split(" ");
    this.text = text;
    this.runs = Number(runs);
    [this.word] = word.split("+");
    this.died = word.endsWith("+died");
    this.seed = Number(seed.slice(1));
    this.schedule = new Schedule(schedule.join(" "));
  }

  toString() {
    return this.text;
  }
}
