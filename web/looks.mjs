/**
 * The structs of include/vuthgal.h in the memory, as values: what a choice did, and how all stand. Each function is
 * given the memory and an address. Nothing here calls the library.
 */
import { Line, VALUED } from "./values.mjs";

export const EVENT_SIZE = 24;
const STATE_SIZE = 16;
const THREAD_SIZE = 48;
const PHASER_SIZE = 12;
const BARRIER_SIZE = 8;
const ENTRY_SIZE = 4;
const NUMBER_SIZE = 4;
const NOTHING = 65535;

/** How many of each a program can have. */
export const MOST_ENTRIES = 64;
export const MOST_OUTPUTS = 4096;
const MOST_OBJECTS = 64;
const MOST_CELLS = 32;

const WHATS = ["idle", "ok", "=", "out", "wait", "throw", "enter", "unwind", "catch", "die", "end"];
const HAS_VALUE = WHATS.map((what) => VALUED.has(what));
const MARKS = [null, "+p", "+b", "-b"];
const STATUSES = ["runs", "throws", "waits", "waits", "ended", "died"];
const STANDINGS = ["live", "stuck", "all"];
const ENTRIES = ["C", "H", "A", "X"];

/** What `one` gives for each number below a count, sooner than by `Array.from`. */
function listed(count, one) {
  const list = [];
  for (let n = 0; n < count; n++) list.push(one(n));
  return list;
}

const numbered = (number) => (number === NOTHING ? null : number);

/** What a choice did, by the struct that the call filled. */
export function lineAt(view, at, choice) {
  const step = view.getUint32(at, true) + view.getUint32(at + 4, true) * 2 ** 32;
  const what = view.getUint8(at + 20);
  const value = HAS_VALUE[what] ? view.getInt32(at + 8, true) : null;
  const mark = view.getUint8(at + 21);
  if (mark === 0) return new Line(step, choice, view.getUint16(at + 16, true), WHATS[what], value);
  const name = MARKS[mark] + view.getUint16(at + 18, true);
  const after = mark === 1 ? view.getInt32(at + 12, true) : null;
  return new Line(step, choice, view.getUint16(at + 16, true), WHATS[what], value, name, after);
}

/** Where the parts of a look are, from its address on, and how many elements each has room for. */
export const LOOK = (() => {
  const parts = [
    ["threads", THREAD_SIZE, MOST_OBJECTS],
    ["phasers", PHASER_SIZE, MOST_OBJECTS],
    ["barriers", BARRIER_SIZE, MOST_OBJECTS],
    ["cells", NUMBER_SIZE, MOST_CELLS],
  ];
  let size = STATE_SIZE;
  const rooms = parts.map(([name, each, most]) => ({ name, each, most, at: (size += each * most) - each * most }));
  return { rooms, size };
})();

const [THREADS, PHASERS, BARRIERS, CELLS] = LOOK.rooms;

function threadAt(view, at, number) {
  const status = STATUSES[view.getUint8(at + 43)];
  const value = view.getInt32(at + 32, true);
  const awaits = view.getUint8(at + 43) === 2 ? "p" : "b";
  const object = numbered(view.getUint16(at + 38, true));
  return {
    number,
    row: view.getUint16(at + 36, true),
    status,
    exception: status === "throws" || status === "died" ? value : null,
    awaits: status === "waits" && object !== null ? `${awaits}${object}` : null,
    phase: status === "waits" && awaits === "p" ? value : null,
    interrupted: view.getUint8(at + 44) === 1,
    registers: listed(8, (register) => view.getInt32(at + 4 * register, true)),
    entries: view.getUint8(at + 42),
    outputs: view.getUint16(at + 40, true),
  };
}

const phaserAt = (view, at, number) => ({
  number,
  view: view.getInt32(at, true),
  parties: view.getUint16(at + 4, true),
  arrived: view.getUint16(at + 6, true),
  unarrived: view.getUint16(at + 8, true),
  parent: numbered(view.getUint16(at + 10, true)),
});

const barrierAt = (view, at, number) => ({
  number,
  parties: view.getUint16(at, true),
  waiting: view.getUint16(at + 2, true),
  runner: numbered(view.getUint16(at + 4, true)),
  broken: view.getUint8(at + 6) === 1,
});

/** How all stand, by the structs that the call filled. */
export function lookAt(view, at) {
  const all = (count, room, one) => listed(count, (n) => one(view, at + room.at + room.each * n, n));
  const cells = all(CELLS.most, CELLS, (_, place) => view.getInt32(place, true));
  return {
    choices: view.getUint32(at, true) + view.getUint32(at + 4, true) * 2 ** 32,
    steps: view.getUint32(at + 8, true),
    word: STANDINGS[view.getUint8(at + 15)],
    threads: all(view.getUint8(at + 12), THREADS, threadAt),
    phasers: all(view.getUint8(at + 13), PHASERS, phaserAt),
    barriers: all(view.getUint8(at + 14), BARRIERS, barrierAt),
    cells: new Map(cells.some(Boolean) ? [...cells.entries()].filter(([, value]) => value !== 0) : []),
  };
}

/** The entries of a stack from the bottom, as a state's text has them, such as `C5`. */
export function entriesAt(view, at, count) {
  const one = (place) => ENTRIES[view.getUint8(place + 2)] + view.getUint16(place, true);
  return listed(count, (n) => one(at + ENTRY_SIZE * n));
}

export function numbersAt(view, at, count) {
  return listed(count, (n) => view.getInt32(at + NUMBER_SIZE * n, true));
}

/** The numbers of the bits of 64 that are set. */
export function bitsAt(view, at) {
  const bits = [];
  for (let first = 0; first < 64; first += 32) {
    for (let word = view.getUint32(at + first / 8, true); word !== 0; word &= word - 1) {
      bits.push(first + 31 - Math.clz32(word & -word));
    }
  }
  return bits;
}
