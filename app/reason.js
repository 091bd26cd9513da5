// Why a call got its number or its exception, and what a phaser knows of who arrived. Each sentence follows from the
// states before and behind the choice. Where the rules don't tell, the sentence says so.
import { nameOf, operandOf, rootOf } from "./language.js";
import { callOf, phaseOf, spread, strong } from "./names.js";
import { arrivalsOf } from "./arrivals.js";
import { eventTo, momentOf } from "./run.js";

const COUNTS = {
  pparties: "how many parties are registered now",
  parrived: "how many parties have arrived in this phase",
  punarr: "how many parties are still to arrive",
  pphase: "the number of the phase that goes on",
  pterm: "1 if it is terminated, else 0",
  cwaiting: "how many wait there now",
  cparties: "how many parties it has",
  cbroken: "1 if it is broken, else 0"
};

function phaserNumber(program, event, row, before, after) {
  const p = operandOf(row, "P");
  const name = nameOf(program, "P", p);
  const was = before.state.phasers[p].view;
  const is = after.state.phasers[p].view;
  if (event.value < 0 && event.value === is) {
    return "It is negative, since " + name + " is terminated: its last phase was " + phaseOf(is) + ".";
  }
  if (before.state.threads[event.thread].status === "waits" && event.value === was) {
    return event.value + " is the phase of " + name + " now: the phase for whose end it waited is over.";
  }
  if (/^(parr|pdereg)$/.test(row.word) && event.value === was) {
    return event.value + " is the phase in which it arrived.";
  }
  if (/^(preg|pbulk)$/.test(row.word) && event.value === was) {
    return event.value + " is the phase for which it registered.";
  }
  if (row.word === "paaa" && event.mark && event.value === is) {
    return event.value + " is the phase that begins: it was the last to arrive, so it didn\u2019t have to wait.";
  }
  if (/^pawait/.test(row.word) && event.value === was) {
    return event.value + " is the phase of " + name +
      " now: the one that it named is over, so it didn\u2019t have to wait.";
  }
  return "";
}
function barrierNumber(program, event, row, before) {
  const b = operandOf(row, "B");
  const { parties } = program.barriers[b];
  const came = parties - event.value;
  const waited = before.state.threads[event.thread].status === "waits";
  if (!/^cawait/.test(row.word) || came < 1) return "";
  const turn = event.value === 0 ? "the last" : came === 1 ? "the first" : "number " + came;
  return event.value + ": of " + parties + " it was " + turn + " to come" + (
    waited || !came ? "" : ", so it didn\u2019t have to wait"
  ) + ".";
}
function throwReason(program, event, row, before) {
  const p = operandOf(row, "P");
  const b = operandOf(row, "B");
  const thread = before.state.threads[event.thread];
  if (event.isLate) return "Nobody brought what it waited for before its time was up.";
  if (
    event.value === 3 && thread.isInterrupted
  ) return "Somebody had interrupted it: its interrupted status was set.";
  if (b >= 0 && event.value === 4) {
    const when = thread.status === "waits" ? " broke while it waited." : " was broken before it came.";
    return "The barrier " + nameOf(program, "B", b) + when;
  }
  if (p >= 0 && event.value === 1 && /^(parr|pdereg|paaa)$/.test(row.word) && before.state.phasers[p].missing === 0) {
    const name = nameOf(program, "P", p);
    return "No party of " + name + " is still to arrive, so there is no place for one more arrival.";
  }
  return "";
}
// Why the choice before moment i got what it got; "" where no sentence follows.
export function reasonOf(tree, id, i) {
  const { program } = tree;
  const event = eventTo(tree.runs[id], i);
  if (!event || event.row < 0 || !/^(=|throw)$/.test(event.what)) return "";
  const row = program.rows[event.row];
  const before = momentOf(tree, id, i - 1);
  if (event.what === "throw") return throwReason(program, event, row, before);
  if (COUNTS[row.word]) return event.value + ": " + COUNTS[row.word] + ".";
  if (operandOf(row, "P") >= 0) return phaserNumber(program, event, row, before, momentOf(tree, id, i));
  if (operandOf(row, "B") >= 0) return barrierNumber(program, event, row, before);
  return "";
}

// What is known once more threads have arrived at a phaser than it ever has parties; "" before that.
function strayText(tree, id, i, p) {
  const came = arrivalsOf(tree, id, i).came[p].size;
  const parties = tree.program.everParties[p];
  if (came <= parties) return "";
  const name = nameOf(tree.program, "P", p);
  const its = " for its " + parties + (parties === 1 ? " party" : " parties");
  return came + " threads have arrived at " + name + its + ": one took the place of another.";
}
// The same of the choice before moment i, if it is the one by which that many have arrived.
export function strayOf(tree, id, i) {
  const event = eventTo(tree.runs[id], i);
  const p = event && event.row >= 0 ? operandOf(tree.program.rows[event.row], "P") : -1;
  const text = p < 0 ? "" : strayText(tree, id, i, p);
  return text === "" || strayText(tree, id, i - 1, p) === text ? "" : text;
}

// The number that a thread got last, and why: parts, or null. It looks back over at most so many choices.
const BACK = 400;
export function lastNumberOf(tree, run, i, t) {
  for (let k = i; k > Math.max(0, i - BACK); k--) {
    const event = eventTo(run, k);
    if (event.thread !== t || !/^(=|throw)$/.test(event.what) || event.row < 0) continue;
    const row = tree.program.rows[event.row];
    if (operandOf(row, "P") < 0 && operandOf(row, "B") < 0) continue;
    const reason = reasonOf(tree, run.id, k);
    const call = callOf(tree.program, row, null);
    const got = event.what === "=" ? " returned " : " threw ";
    const then = reason.replace(" now", " at that moment");
    return reason ? ["In choice " + k + " " + call + got, strong(event.value), ". " + then] : null;
  }
  return null;
}

const namesOf = list => spread(list.map(one => ({ thread: one.thread })));

const COUNTED = "A phaser counts arrivals, and doesn\u2019t ask who arrives. ";

// What a phaser knows of who arrived: a sentence of parts. It counts arrivals; if one was surplus, nobody can know
// which.
export function arrivalsText(tree, run, i, p) {
  const { program } = tree;
  const { arrived, ended } = arrivalsOf(tree, run.id, i);
  const { state } = momentOf(tree, run.id, i);
  const name = nameOf(program, "P", p);
  const one = state.phasers[p];
  const view = phaseOf(state.phasers[rootOf(program, p)].view);
  const said = [
    strong(name),
    " is in phase " + view + " and has " + one.parties + (one.parties === 1 ? " party" : " parties") + ". "
  ];
  if (one.view < 0) said.splice(1, 1, " is terminated. ");
  if (arrived[p].length) said.push(
    "In this phase ",
    ...namesOf(arrived[p]),
    arrived[p].length > 1 ? " have arrived. " : " has arrived. "
  );
  if (ended[p].length) said.push("In the phase before it was ", ...namesOf(ended[p]), ". ");
  const stray = strayText(tree, run.id, i, p);
  if (stray) said.push(COUNTED + stray + " Nobody can know which.");
  else if (arrived[p].length || ended[p].length) {
    said.push(COUNTED + "If one of them was surplus, nobody can know which.");
  }
  return said;
}
