// What the machine's texts say of a run: the line of a choice, the text of a state. It is given texts, and gives
// values; it plays nothing.

const EVENT = new RegExp(
  "^(\\d+ )?([tx])(\\d+) (\\d+|-) (idle|ok|wait|enter|unwind|end|none|limit|(=|out|throw|catch|die) (-?\\d+))" +
    "(?: ([+-])([pb])(\\d+)(?: (-?\\d+))?)?$"
);

// { token, isLate, thread, row, what, value, mark: { kind: "+p" | "+b" | "-b", on, view } }
export function readEvent(line) {
  const m = EVENT.exec(line);
  if (!m) throw new Error("no line of a choice: " + line);
  return {
    token: m[2] + m[3],
    isLate: m[2] === "x",
    thread: Number(m[3]),
    row: m[4] === "-" ? -1 : Number(m[4]),
    what: m[6] || m[5],
    value: m[7] === undefined ? null : Number(m[7]),
    mark: m[8] ? { kind: m[8] + m[9], on: Number(m[10]), view: m[11] === undefined ? null : Number(m[11]) } : null
  };
}

// The choices of a trace. A line is read when it is asked for, so that a run of a million choices opens at once.
class Events {
  #text;
  // where each line begins, and where the last one ends
  #places;

  constructor(text) {
    const places = [];
    for (let at = 0; at < text.length; at = text.indexOf("\n", at) + 1) places.push(at);
    this.length = places.length;
    this.#text = text;
    this.#places = Uint32Array.from([...places, text.length]);
  }
  #line(i) {
    return this.#text.slice(this.#places[i], this.#places[i + 1] - 1);
  }
  at(i) {
    return i >= 0 && i < this.length ? readEvent(this.#line(i)) : undefined;
  }
  token(i) {
    const [, token] = this.#line(i).split(" ", 2);
    return token;
  }
  isIdle(i) {
    return this.#text.endsWith(" idle", this.#places[i + 1] - 1);
  }
  *[Symbol.iterator]() {
    for (let i = 0; i < this.length; i++) yield this.at(i);
  }
  findIndex(test) {
    for (let i = 0; i < this.length; i++) if (test(this.at(i))) return i;
    return -1;
  }
}

// The choices of a trace; the last one apart, if the machine refused it; and the state at the end.
export function readTrace(trace) {
  const cut = trace.startsWith("state ") ? 0 : trace.lastIndexOf("\nstate ") + 1;
  const events = new Events(trace.slice(0, cut));
  const last = events.at(events.length - 1);
  const refused = last && isRefused(last) ? last : null;
  if (refused) events.length--;
  return { events, refused, end: readState(trace.slice(cut)) };
}

function readThread(words) {
  const stack = words.indexOf("stack");
  const out = words.indexOf("out");
  const [status, code] = words[2].split(":");
  return {
    row: Number(words[1]),
    status,
    code: code === undefined ? null : Number(code),
    isInterrupted: words[3] === "1",
    registers: words.slice(5, 13).map(Number),
    stack: words.slice(stack + 1, out),
    out: words.slice(out + 1).map(Number)
  };
}

// `key` is the text without the numbers of choices and steps: two states with one key are alike.
export function readState(text) {
  const key = text.replace(/^state \d+ \d+/, "");
  const state = { threads: [], phasers: [], barriers: [], cells: {}, word: "", key };
  for (const line of text.trimEnd().split("\n")) {
    const words = line.split(" ");
    const [, first, second, third, fourth] = words;
    if (words[0] === "state") state.word = third;
    else if (words[0][0] === "t") state.threads.push(readThread(words));
    else if (words[0][0] === "p") {
      state.phasers.push({
        view: Number(first),
        parties: Number(second),
        arrived: Number(third),
        missing: Number(fourth)
      });
    } else if (words[0][0] === "b") state.barriers.push({ waiting: Number(first), isBroken: second === "1" });
    else state.cells[Number(words[0].slice(1))] = Number(first);
  }
  return state;
}

// What a thread does in a moment: over, dead, throws, held (runs, but can't go on), waits, free (waits, but may go
// on) or runs.
export function doingOf(moment, t) {
  const { status } = moment.state.threads[t];
  if (status === "ended") return "over";
  if (status === "died") return "dead";
  if (status === "throws") return "throws";
  if (moment.isVeiled) return status === "waits" ? "waits" : "runs";
  if (status === "waits") return moment.next[t] ? "free" : "waits";
  return moment.next[t] ? "runs" : "held";
}

// A moment of which it isn't told who may go next.
export const veiled = moment => ({ ...moment, next: {}, late: {}, isVeiled: true });

// Whether a run got into a choice that the machine refuses; then the run ends before it.
export const isRefused = event => event.what === "none" || event.what === "limit";
