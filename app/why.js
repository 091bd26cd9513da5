// Why a thread waits: where, for how many arrivals, who could still bring them, and by which call. Who waits, how
// many are missing and what would happen next is the machine's. Who could still come is read off the rows, both ways
// at each branch: so it is "could", never "will", and "nobody could" is certain.
import { ARRIVES, nameOf, operandOf, rootOf } from "./language.js";
import { callOf, listed, phaseOf, spread, strong, thrown } from "./names.js";
import { wouldText } from "./sentence.js";
import { doingOf } from "./trace.js";

// ---- what a thread could still call
const reached = new WeakMap();

// The rows that a thread at a row could come to. A `ret` ends them: to where it returns stands on the stack.
function rowsFrom(program, start) {
  if (!reached.has(program)) reached.set(program, new Map());
  const known = reached.get(program);
  if (known.has(start)) return known.get(start);
  const seen = new Set();
  const open = [start];
  while (open.length) {
    const at = open.pop();
    const row = program.rows[at];
    if (!row || seen.has(at)) continue;
    seen.add(at);
    const there = operandOf(row, "L");
    if (there >= 0) open.push(there);
    if (!/^(halt|jmp|ret|throw)$/.test(row.word)) open.push(at + 1);
  }
  const rows = [...seen].sort((a, b) => a - b);
  known.set(start, rows);
  return rows;
}
// where a thread may go on: at its row, below the row at which it waits, and where its stack leads
function startsOf(program, thread) {
  const starts = [thread.status === "waits" ? thread.row + 1 : thread.row];
  for (const entry of thread.stack) {
    const n = Number(entry.slice(1));
    if (entry[0] === "C" || entry[0] === "H") starts.push(n);
    // a routine goes back to the row whose call it ran for, which isn't known here: each row is possible
    else return program.rows.map((_, at) => at);
  }
  return starts;
}
// The first row of this kind that a thread could still come to, or null.
export function couldCall(program, moment, t, isWanted) {
  const thread = moment.state.threads[t];
  if (/ended|died/.test(thread.status)) return null;
  for (const start of startsOf(program, thread)) {
    for (const at of rowsFrom(program, start)) if (isWanted(program.rows[at])) return program.rows[at];
  }
  return null;
}
// the phasers at which arrivals are missing for the phase of this tree, with how many, but for those of children
function missingIn(program, state, p) {
  const out = [];
  const look = q => {
    const isOpen = child => state.phasers[child].parties > 0 && state.phasers[child].missing > 0;
    const open = program.children[q].filter(isOpen);
    open.forEach(look);
    const own = state.phasers[q].missing - open.length;
    if (own > 0) out.push({ phaser: q, count: own });
  };
  look(rootOf(program, p));
  return out;
}
const countText = count => (count === 1 ? "one arrival is missing" : count + " arrivals are missing");

// what is missing for a thread that waits at p, in words: where, unless it is there
function missingText(program, missing, p) {
  return listed(
    missing.map(one => countText(one.count) + (one.phaser === p ? "" : " at " + nameOf(program, "P", one.phaser)))
  );
}

// ---- who could bring it
// [[thread, row]]
function findIn(program, moment, t, isWanted) {
  return program.threads.flatMap((_, n) => {
    const found = n === t ? null : couldCall(program, moment, n, isWanted);
    return found ? [[n, found]] : [];
  });
}
// those who run a routine with this entry: the phase ends, or the barrier trips, when it is done
function runnersOf(program, moment, t, entry) {
  const { threads } = moment.state;
  return threads.flatMap((one, n) => (n !== t && one.stack.includes(entry) ? [[n, null]] : []));
}
// each thread once, with its first reason
const once = list => list.filter(([n], k) => list.findIndex(([other]) => other === n) === k);

// An arrival counts at each phaser of the tree at which something is missing: one that isn't registered takes a
// child's place, too.
function helpersOfPhaser(program, moment, t, p) {
  const root = rootOf(program, p);
  const running = runnersOf(program, moment, t, "A" + root);
  const isPlace = q => q >= 0 && rootOf(program, q) === root && moment.state.phasers[q].missing > 0;
  const { word } = program.rows[moment.state.threads[t].row];
  const find = isWanted => findIn(program, moment, t, isWanted);
  const helpers = [
    ...running,
    ...find(row => ARRIVES.has(row.word) && isPlace(operandOf(row, "P"))),
    ...find(row => row.word === "pforce" && rootOf(program, operandOf(row, "P")) === root)
  ];
  const isInterruptible = word === "pawaiti" || word === "pawaitt";
  if (isInterruptible) helpers.push(...find(row => row.word === "intr" && operandOf(row, "T") === t));
  return once(helpers);
}
function helpersOfBarrier(program, moment, t, b) {
  const { threads } = moment.state;
  const waitsHere = n => threads[n] && threads[n].status === "waits" &&
    operandOf(program.rows[threads[n].row], "B") === b;
  const find = isWanted => findIn(program, moment, t, isWanted);
  return once([
    ...runnersOf(program, moment, t, "X" + b),
    ...find(row => /^cawait/.test(row.word) && operandOf(row, "B") === b),
    ...find(row => row.word === "intr" && waitsHere(operandOf(row, "T"))),
    ...find(row => row.word === "creset" && operandOf(row, "B") === b)
  ]);
}
// what the helpers could do, as a sentence; when nobody can go, no helper can
function releaseText(program, moment, helpers, isStuck) {
  const said = (n, row) => (row ? callOf(program, row, null) : "it runs the routine");
  const call = ([n, row]) => [
    { thread: n },
    " (" + said(n, row) + (doingOf(moment, n) === "waits" ? ", but waits itself" : "") + ")"
  ];
  if (!helpers.length) return [strong("Nobody is left who could"), ": it waits for ever."];
  if (!isStuck) {
    const others = helpers.length > 4 ? [["others"]] : [];
    return ["What could release it is still ahead of ", ...spread([...helpers.slice(0, 4).map(call), ...others]).flat(), "."];
  }
  const names = spread(helpers.slice(0, 4).map(([n]) => ({ thread: n })));
  const wait = helpers.length > 1
    ? " could bring that, and they wait themselves: "
    : " could bring that, and waits itself: ";
  return [strong("Only "), ...names, wait, strong("for ever"), "."];
}

// ---- the sentences
function phaserText(program, moment, t, p) {
  const { state } = moment;
  const missing = missingIn(program, state, p);
  const text = [{ thread: t }, " waits at " + nameOf(program, "P", p) + " for the end of phase "];
  text.push(String(phaseOf(state.phasers[rootOf(program, p)].view)), ": " + missingText(program, missing, p) + ". ");
  return text;
}
// who runs a routine for which this thread has to wait, though it doesn't wait at a call yet
function routineText(program, moment, t, p, b) {
  const entry = p >= 0 ? "A" + rootOf(program, p) : "X" + b;
  const runner = moment.state.threads.findIndex((thread, n) => n !== t && thread.stack.includes(entry));
  const routine = p >= 0
    ? "onAdvance of " + nameOf(program, "P", rootOf(program, p))
    : "the action of " + nameOf(program, "B", b);
  if (runner < 0) return [{ thread: t }, " can\u2019t go on yet."];
  return [
    { thread: t },
    " may not go: ",
    { thread: runner },
    " runs " + routine + ", and this call has to wait until that is done."
  ];
}
function goesText(program, moment, t, doing) {
  const [head, ...rest] = wouldText(program, moment.next[t], moment);
  const isWho = head.thread === t;
  const would = isWho ? [{ thread: t }, ...rest] : [head, ...rest];
  return [
    { thread: t },
    doing === "free" ? " waited, and may go on. If it\u2019s next: " : " may go. If it\u2019s next: ",
    ...would
  ];
}
function waitText(program, moment, t, p, b, doing) {
  const isStuck = moment.state.word === "stuck";
  if (doing === "held") return { text: routineText(program, moment, t, p, b), helpers: [] };
  if (p >= 0) {
    const text = phaserText(program, moment, t, p);
    const helpers = helpersOfPhaser(program, moment, t, p);
    return { text, helpers, release: releaseText(program, moment, helpers, isStuck) };
  }
  const need = program.barriers[b].parties - moment.state.barriers[b].waiting;
  const come = need === 1 ? "one more has to come" : need + " more have to come";
  const helpers = helpersOfBarrier(program, moment, t, b);
  const text = [{ thread: t }, " waits at " + nameOf(program, "B", b) + ": " + come + ". "];
  // whose time runs out there breaks the barrier for all
  const timed = Object.keys(moment.late).map(Number);
  const others = timed.filter(n => n !== t && operandOf(program.rows[moment.state.threads[n].row], "B") === b);
  const breaks = others.length
    ? ["The time of ", { thread: others[0] }, "\u2019s wait may run out, which breaks the barrier. "]
    : [];
  const breaker = Object.values(moment.next).find(
    event => event.mark && event.mark.kind === "-b" && event.mark.on === b
  );
  if (breaker) breaks.push({ thread: breaker.thread }, " breaks the barrier at its next turn. ");
  const release = breaks.length && !helpers.length ? [] : releaseText(program, moment, helpers, isStuck);
  return { text: [...text, ...breaks], helpers, release, isSoon: breaks.length > 0 };
}

// { thread, kind: "over" | "dead" | "runs" | "free" | "waits" | "stuck", text: parts, could: [threads] }
export function whyOf(program, moment, t) {
  const thread = moment.state.threads[t];
  const doing = doingOf(moment, t);
  if (doing === "over") return { thread: t, kind: "over", could: [], text: [{ thread: t }, " has ended."] };
  if (doing === "dead") {
    const text = [{ thread: t }, " is dead: nothing caught " + thrown(thread.code) + "."];
    return { thread: t, kind: "dead", could: [], text };
  }
  if (moment.next[t]) {
    const kind = doing === "free" ? "free" : "runs";
    return { thread: t, kind, could: [], text: goesText(program, moment, t, doing) };
  }
  const row = program.rows[thread.row];
  const p = operandOf(row, "P");
  const b = operandOf(row, "B");
  if (p < 0 && b < 0) return { thread: t, kind: "waits", could: [], text: [{ thread: t }, " can\u2019t go on yet."] };
  const { text, helpers, release, isSoon } = waitText(program, moment, t, p, b, doing);
  const isLate = Boolean(moment.late[t]);
  // with a time-out a wait isn't for ever
  const said = !release || (isLate && !helpers.length) ? text : [...text, ...release];
  if (isLate) said.push(" Its time may run out.");
  const isStuck = moment.state.word === "stuck" || (doing === "waits" && !helpers.length && !isLate && !isSoon);
  const could = moment.state.word === "stuck" ? [] : helpers.map(([n]) => n);
  return { thread: t, kind: isStuck ? "stuck" : "waits", could, text: said };
}

const RANK = { stuck: 0, waits: 1, free: 2, runs: 3, dead: 4, over: 5 };

const told = new WeakMap();

// A sentence for each thread, those that wait first. Those of a moment are kept with it.
export function whysOf(program, moment) {
  if (!told.has(moment)) {
    const all = program.threads.map((_, t) => whyOf(program, moment, t));
    told.set(moment, all.sort((a, b) => RANK[a.kind] - RANK[b.kind]));
  }
  return told.get(moment);
}
