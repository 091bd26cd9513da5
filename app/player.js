// A player leads one session of the machine to a place of a run, and tells the moment there: the state, and what each
// choice would do next. It is given choices, and keeps no run; what is closed opens again when it is asked.
import { openSession } from "./machine.js";
import { commonOf } from "./schedule.js";
import { isRefused, readEvent, readState } from "./trace.js";

// so many choices are taken back one by one; a place further back is reached from a mark
const BACK = 40;
// so many choices are between marks, which are sessions that stand still
const EVERY = 50000;

// program: what readProgram gave
export function makePlayer(program) {
  // the session stands behind `at` choices of `led`, and can take back those behind `base`
  let session = null;
  let led = [];
  let at = 0;
  let base = 0;
  const marks = new Map();

  function dropMarks(behind) {
    for (const [i, mark] of marks) {
      if (i <= behind) continue;
      mark.close();
      marks.delete(i);
    }
  }
  const markBefore = i => Math.max(0, ...[...marks.keys()].filter(one => one <= i));

  function startFrom(i) {
    if (session) session.close();
    session = i ? marks.get(i).copy() : openSession(program.text);
    at = base = i;
  }
  function goOn(i) {
    while (at < i) {
      const next = Math.min(i, at - (at % EVERY) + EVERY);
      session.command("g " + led.slice(at, next).join(" "));
      at = next;
      if (at % EVERY === 0 && !marks.has(at)) marks.set(at, session.copy());
    }
  }
  function lead(choices, i) {
    const common = choices === led ? Infinity : commonOf(led, choices);
    dropMarks(common);
    led = choices;
    const kept = Math.min(at, i, common);
    const mark = markBefore(i);
    if (!session || kept < base || at - kept > BACK || mark > kept + BACK) startFrom(mark);
    else for (; at > kept; at--) session.command("b");
    goOn(i);
  }
  // what a choice would do; the session is as before
  function tried(token) {
    const event = readEvent(session.command("s " + token).trim());
    if (!isRefused(event)) session.command("b");
    return isRefused(event) || event.what === "idle" ? null : event;
  }
  // { i, state, next: { thread: event }, late: { thread: event of its time-out } }
  function momentAt(choices, i) {
    lead(choices, i);
    const moment = { i, state: readState(session.command("p")), next: {}, late: {} };
    // the machine tells which choices would be a step; what each would do is told by trying it
    const { turns, expiries } = session.enabled;
    for (const t of turns) moment.next[t] = tried("t" + t);
    for (const t of expiries) moment.late[t] = tried("x" + t);
    for (const all of [moment.next, moment.late]) for (const t in all) if (!all[t]) delete all[t];
    return moment;
  }
  function close() {
    if (session) session.close();
    dropMarks(-1);
    session = null;
    led = [];
    at = base = 0;
  }
  return { momentAt, close };
}
