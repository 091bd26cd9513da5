/**
 * The module with little room, with little memory, and in wrong hands; and the values that its texts become. Each
 * look says what is wrong. The last line is `N passed, N failed`.
 */
import { readdirSync, readFileSync } from "node:fs";
import * as vuthgal from "../../web/vuthgal.mjs";

const top = new URL("../../", import.meta.url);
const code = readFileSync(new URL("web/vuthgal.wasm", top));
const text = (name) => readFileSync(new URL(name, top), "utf8");
const encoder = new TextEncoder();
const decoder = new TextDecoder();
const MARK = 35;
let passed = 0;
let failed = 0;

function look(name, wrong) {
  const found = [].concat(wrong).filter(Boolean);
  if (found.length === 0) passed++;
  else failed++;
  if (found.length > 0) console.log(`FAILED ${name}: ${found.slice(0, 3).join("; ")}`);
}

/**
 * The module with a memory of at most so many pages: its fifth section says one memory, that it has a maximum, and
 * both counts.
 */
function limited(pages) {
  const bytes = Uint8Array.from(code);
  let at = 8;
  const number = () => {
    let value = 0;
    for (let shift = 0; ; shift += 7) {
      const byte = bytes[at++];
      value += (byte & 127) * 2 ** shift;
      if (byte < 128) return value;
    }
  };
  while (at < bytes.length) {
    const section = bytes[at++];
    const end = number() + at;
    if (section === 5) {
      if (number() !== 1 || number() !== 1) throw new Error("the memory has no maximum");
      const least = number();
      const begins = at;
      number();
      for (let i = begins, rest = Math.max(pages, least); i < at; i++, rest >>= 7) bytes[i] = (rest & 127) | (i < at - 1 ? 128 : 0);
      return { bytes, least };
    }
    at = end;
  }
  throw new Error("the module has no memory");
}

/** The calls themselves, in rooms that hold MARK before, and one byte more. */
class Raw {
  constructor(bytes = code) {
    this.calls = new WebAssembly.Instance(new WebAssembly.Module(bytes)).exports;
  }

  get bytes() {
    return new Uint8Array(this.calls.memory.buffer);
  }

  number(at) {
    return Number(new DataView(this.calls.memory.buffer).getBigUint64(Number(at), true));
  }

  take(size) {
    const at = this.calls.room(BigInt(size));
    if (at === 0n) throw new Error("the test itself has no memory");
    return at;
  }

  call({ name, inputs, more = [] }, room, lineRoom = 4096) {
    const [output, line, length, lineLength] = [room + 1, lineRoom + 1, 8, 8].map((size) => this.take(size));
    const taken = inputs.map((input) => this.take(input.length));
    inputs.forEach((input, i) => this.bytes.set(input, Number(taken[i])));
    this.bytes.fill(MARK, Number(output), Number(output) + room + 1);
    this.bytes.fill(MARK, Number(line), Number(line) + lineRoom + 1);
    const words = inputs.flatMap((input, i) => [taken[i], BigInt(input.length)]);
    const places = [output, BigInt(room), length, line, BigInt(lineRoom), lineLength];
    const status = this.calls[`vuthgal_${name}`](...words, ...more, ...places) & 255;
    const told = {
      status,
      length: this.number(length),
      output: this.bytes.slice(Number(output), Number(output) + room + 1),
      lineLength: this.number(lineLength),
      line: this.bytes.slice(Number(line), Number(line) + lineRoom + 1),
    };
    for (const at of [output, line, length, lineLength, ...taken]) this.calls.room_back(at);
    return told;
  }
}

/** Whether a room has the beginning of all, and is as it was behind that. */
function holds(room, whole, length) {
  const count = Math.min(length, room.length - 1);
  return room.every((byte, i) => byte === (i < count ? whole[i] : MARK));
}

const program = encoder.encode(text("examples/meeting.asm"));
const schedule = encoder.encode("t0 t1 t0*3 t1*2");
const raw = new Raw();
const run = raw.call({ name: "run", inputs: [program, schedule] }, 4096);
const trace = run.output.slice(0, run.length);
const CALLS = [
  { name: "run", inputs: [program, schedule] },
  { name: "run", inputs: [program, encoder.encode("t0 t99")] },
  { name: "both", inputs: [encoder.encode(text("examples/two-threads-meet.txt"))] },
  { name: "asm", inputs: [program] },
  { name: "asm", inputs: [encoder.encode("main: hlt\n")] },
  { name: "list", inputs: [program] },
  { name: "compare", inputs: [program, trace] },
  { name: "choices", inputs: [trace] },
  { name: "plan", inputs: [program, encoder.encode("(?7*9)*20 ..")], more: [1000, 1] },
  { name: "seeds", inputs: [program, encoder.encode("t0")], more: [1, 5, 0, 0] },
  { name: "draw", inputs: [program, schedule], more: [80] },
  { name: "debug", inputs: [program, encoder.encode("s t0\ng t1 t0*2\np\nb\nzz\n")] },
  { name: "explain", inputs: [encoder.encode("refused asm 1 5")] },
].filter(({ name }) => `vuthgal_${name}` in raw.calls);

for (const call of CALLS) {
  const whole = raw.call(call, 1 << 16);
  const wrong = [];
  for (let room = 0; room <= whole.length + 1; room += room > 64 && room + 200 < whole.length ? 97 : 1) {
    const it = raw.call(call, room, room % 40);
    const same = it.status === whole.status && it.length === whole.length && it.lineLength === whole.lineLength;
    if (!same || !holds(it.output, whole.output, whole.length) || !holds(it.line, whole.line, whole.lineLength)) wrong.push(`room ${room}`);
  }
  look(`${call.name} in every room`, wrong);
}

/**
 * A module that has so many blocks of 8 KiB left, as nearly as its pages allow; nothing if the test's own rooms have
 * no place.
 */
function little(blocks) {
  const it = new Raw(limited(limited(0).least + Math.ceil(blocks / 8)).bytes);
  // what the first pages have left behind the data is taken, since it is another count in each build
  const { memory } = it.calls;
  const size = memory.buffer.byteLength;
  let at = 1n;
  while (at !== 0n && memory.buffer.byteLength === size) at = it.calls.room(1008n);
  if (at !== 0n) it.calls.room_back(at);
  for (let n = blocks % 8; n > 0 && n < 8; n++) it.calls.room(8176n);
  return it;
}

function tried(use) {
  try {
    return use();
  } catch (error) {
    if (/no memory/.test(error.message)) return undefined;
    throw error;
  }
}

for (const call of CALLS) {
  const whole = raw.call(call, 1 << 16);
  const wrong = [];
  let refused = 0;
  let status = 4;
  for (let blocks = 0; status === 4 && blocks < 4000; blocks++) {
    const module = little(blocks);
    const it = tried(() => module.call(call, whole.length));
    if (it === undefined) continue;
    ({ status } = it);
    const same = it.length === whole.length && holds(it.output, whole.output, whole.length);
    if (status !== 4) {
      if (status !== whole.status || !same) wrong.push(`${blocks} blocks: neither out of memory nor the whole`);
      continue;
    }
    refused++;
    if (decoder.decode(it.line.subarray(0, it.lineLength)) !== "memory\n") wrong.push(`${blocks} blocks: another line`);
    if (it.length > whole.length || !holds(it.output, whole.output, it.length)) wrong.push(`${blocks} blocks: no beginning of the whole`);
    for (let n = 0; n < 20; n++) module.call(call, whole.length);
    const again = module.call(call, whole.length);
    if (again.status !== 4 || again.length !== it.length) wrong.push(`${blocks} blocks: another answer the next time`);
  }
  if (refused === 0 && ["run", "both", "debug", "seeds"].includes(call.name)) wrong.push("memory was never refused");
  if (status === 4) wrong.push("there is never enough memory");
  console.log(`${call.name} with little memory: refused ${refused} times`);
  look(`${call.name} with little memory`, wrong);
}

function heap() {
  const wrong = [];
  const it = new Raw();
  const size = it.bytes.length;
  for (const much of [2n ** 30n, 2n ** 31n, 2n ** 32n, 2n ** 32n + 16n, 2n ** 40n, 2n ** 63n, 2n ** 64n - 1n]) {
    if (it.calls.room(much) !== 0n) wrong.push(`there is room for ${much}`);
  }
  if (it.bytes.length !== size) wrong.push("a refused request grows the memory");
  const held = new Map();
  let seed = 7;
  const drawn = (below) => (seed = (seed * 1103515245 + 12345) % 2147483648) % below;
  for (let n = 0; n < 5000; n++) {
    if (held.size > 60 || (held.size > 0 && drawn(2) === 0)) {
      const [at, { length, byte }] = [...held][drawn(held.size)];
      if (!it.bytes.subarray(at, at + length).every((other) => other === byte)) wrong.push(`the room at ${at} was written to`);
      it.calls.room_back(BigInt(at));
      held.delete(at);
    } else {
      const length = drawn(5) === 0 ? drawn(200000) : drawn(300);
      const at = Number(it.take(length));
      if (at % 16 !== 0) wrong.push(`the room at ${at} isn't aligned`);
      for (const [other, { length: count }] of held) if (at < other + count && other < at + length) wrong.push("two rooms overlap");
      it.bytes.fill(n % 256, at, at + length);
      held.set(at, { length, byte: n % 256 });
    }
  }
  return wrong;
}
look("the heap", heap());

function thrown(kind, use) {
  try {
    use();
  } catch (fault) {
    return fault instanceof kind ? "" : `${fault.name}, not ${kind.name}`;
  }
  return `no ${kind.name}`;
}

const loaded = await vuthgal.load(code);
const meeting = text("examples/meeting.asm");

function sessions() {
  const session = loaded.session(meeting);
  const first = [...Array(9)].map(() => session.step(0).text).length;
  const wrong = [first === 9 ? "" : "steps"];
  session.close();
  session.close();
  wrong.push(session.isOpen ? "a closed session is open" : "");
  for (const use of ["step", "expire", "back", "look", "copy", "command", "go", "stack", "outputs", "other"]) {
    wrong.push(thrown(vuthgal.Closed, () => session[use](...(use === "back" ? [] : [0]))));
  }
  wrong.push(thrown(vuthgal.Closed, () => session.state), thrown(vuthgal.Closed, () => session.enabled));
  const other = loaded.session(meeting);
  wrong.push(thrown(vuthgal.NoHistory, () => other.back()), thrown(RangeError, () => other.step("nobody")));
  wrong.push(thrown(RangeError, () => other.step(-1)), thrown(RangeError, () => other.step(256)), thrown(RangeError, () => other.step(0.5)));
  wrong.push(thrown(RangeError, () => other.setBreakpoint(99)), thrown(RangeError, () => other.go("t0*")));
  wrong.push(other.step(63).what === "none" ? "" : "a thread that isn't there has a turn");
  other[Symbol.dispose]?.();
  wrong.push(Symbol.dispose && other.isOpen ? "it isn't disposed of" : "");
  for (let n = 0; n < 20; n++) loaded.session(meeting).close();
  const { memory } = loaded; // the first few took what a session needs
  for (let n = 0; n < 2000; n++) loaded.session(meeting).close();
  wrong.push(loaded.memory === memory ? "" : "closed sessions keep memory");
  return wrong;
}
look("sessions in wrong hands", sessions());

function going() {
  const session = loaded.session(meeting);
  session.goTo("t0 t1 t0", 2);
  const wrong = [session.look().choices === 2 ? "" : "it isn't at choice 2"];
  wrong.push(thrown(RangeError, () => session.goTo("t0", 2)), thrown(RangeError, () => session.goTo("zz", 0)));
  wrong.push(thrown(RangeError, () => session.goTo("t9", 1)), session.look().choices === 2 ? "" : "what was refused changed it");
  session.goTo("", 0);
  wrong.push(session.look().choices === 0 ? "" : "it isn't at the beginning");
  session.close();
  return wrong;
}
look("a session at any choice", going());

function planned() {
  const session = loaded.session(meeting);
  session.step("b");
  session.setBreakpoint(1);
  const schedule = session.playPlan("a. b. a.");
  const wrong = [`${schedule}, ${schedule.choices}, ${schedule.stopped}` === "t0 t1*3 t0*3, 7, false" ? "" : `${schedule}`];
  wrong.push(session.state.text === loaded.run(meeting, schedule).state.text ? "" : "another state than the run's");
  wrong.push(session.playPlan("a b*3 a*9", { most: 5 }).stopped ? "" : "it isn't stopped");
  wrong.push(thrown(RangeError, () => session.playPlan("a", { most: -1 })));
  wrong.push(thrown(vuthgal.Refused, () => session.playPlan("a.\n(b. aa)*2")));
  try {
    session.playPlan("a.\n(b. aa)*2");
  } catch ({ mistake }) {
    const wanted = { told: "refused plan 2 4", input: "plan", line: 2, column: 5, length: 2, hint: "near: a" };
    wrong.push(JSON.stringify(mistake) === JSON.stringify(wanted) ? "" : JSON.stringify(mistake));
  }
  wrong.push(session.look().choices === 5 ? "" : "what was refused changed it");
  const copy = session.copy();
  wrong.push(`${copy.playPlan("t0 t1*3 b.")}` === "t0 t1*3" ? "" : "a copy plays another plan");
  wrong.push(loaded.plan(meeting, "a b*3", { names: true }).choices === 4 ? "" : "names aren't counted");
  copy.close();
  session.close();
  return [...wrong, thrown(vuthgal.Closed, () => session.playPlan("a"))];
}
look("plans in a session", planned());

function mistakes() {
  const wanted = [
    [["ldi r8 1\n"], { told: "refused asm 1 5", input: "program", line: 1, column: 5, length: 2 }],
    [[meeting, { plan: "aa." }], { told: "refused plan 1 4", input: "plan", line: 1, column: 1, length: 3, hint: "near: a." }],
    [[meeting, { schedule: "t0\nt1;" }], { told: "refused schedule 1 5", input: "schedule", line: 2, column: 3, length: 1 }],
  ];
  const wrong = [loaded.mistake(meeting) ?? ""];
  for (const [words, its] of wanted) {
    const found = loaded.mistake(...words);
    wrong.push(Object.entries(its).every(([key, value]) => found?.[key] === value) ? "" : JSON.stringify(found));
  }
  return wrong;
}
look("mistakes", mistakes());

async function faults() {
  const wrong = [
    thrown(vuthgal.Refused, () => loaded.run("main: hlt", "")),
    thrown(vuthgal.Refused, () => loaded.session("main: hlt")),
    thrown(vuthgal.TooLong, () => loaded.list(new Uint8Array(16_777_217))),
    thrown(vuthgal.NoLine, () => loaded.explain("no such words")),
    thrown(vuthgal.Differs, () => loaded.compare(meeting, `${loaded.run(meeting, "t0")}x`)),
    thrown(vuthgal.NotATrace, () => loaded.choices("hello\n")),
    thrown(vuthgal.Malformed, () => vuthgal.Line.parse("hello")),
    thrown(TypeError, () => loaded.list(7)),
    thrown(RangeError, () => loaded.draw(meeting, "", { width: 7 })),
  ];
  const little = await vuthgal.load(limited(40).bytes);
  wrong.push(thrown(vuthgal.OutOfMemory, () => little.run(meeting, "t0 t1 ".repeat(1_000_000))));
  wrong.push(little.run(meeting, "t0").lines.length === 1 ? "" : "it doesn't go on after it was out of memory");
  try {
    loaded.run(".thread a main\nmain: halt\nhlt r0", "t0");
  } catch (fault) {
    wrong.push(fault.line === 3 && fault.kind === 3 && fault.group === "asm" && fault.help !== "" ? "" : "it doesn't say where");
  }
  return wrong;
}
look("faults", await faults());

function values() {
  const wrong = [];
  const programs = readdirSync(new URL("examples", top)).filter((name) => name.endsWith(".asm"));
  for (const name of programs) {
    const source = text(`examples/${name}`);
    let plan;
    try {
      plan = loaded.plan(source, "?7*300", { most: 300 });
    } catch {
      continue;
    }
    const trace = loaded.run(source, plan);
    const session = loaded.session(source);
    for (const line of trace) {
      if (!trace.text.includes(`${line.text}\n`)) wrong.push(`${name}: no line ${line}`);
      const made = session[line.choice[0] === "t" ? "step" : "expire"](line.thread);
      if (JSON.stringify(made) !== JSON.stringify(line)) wrong.push(`${name}: ${made} is not ${line}`);
    }
    const { state } = session;
    if (state.text !== trace.state.text) wrong.push(`${name}: another state`);
    const looked = session.look();
    for (const kind of ["choices", "steps", "word"]) if (looked[kind] !== state[kind]) wrong.push(`${name}: another ${kind}`);
    for (const kind of ["threads", "phasers", "barriers"]) {
      state[kind].forEach((one, i) => {
        for (const [key, value] of Object.entries(one)) {
          if (key !== "stack" && key !== "out" && JSON.stringify(looked[kind][i][key]) !== JSON.stringify(value)) wrong.push(`${name}: ${kind} ${key}`);
        }
      });
    }
    state.threads.forEach((one) => {
      if (String(session.stack(one.number)) !== String(one.stack)) wrong.push(`${name}: another stack`);
      if (String(session.outputs(one.number)) !== String(one.out)) wrong.push(`${name}: another output`);
    });
    if (String(loaded.choices(trace)) !== String(plan)) wrong.push(`${name}: another schedule`);
    session.close();
  }
  if (programs.length < 5) wrong.push("there are no examples");
  return wrong;
}
look("values", values());

const version = JSON.parse(text("web/package.json")).version;
look("the version of the package", version === loaded.version.split("\n")[0] ? "" : `${version}, and the module's is ${loaded.version}`);
console.log(`${passed} passed, ${failed} failed`);
process.exitCode = failed > 0 ? 1 : 0;
