// A program's runs as a value: a tree, in which each run but the first forks from another one behind a choice.
// Nothing here changes a tree or a run that was made, so earlier trees can be kept. The moments of a run are computed
// when they are asked for.
import { listProgram, planSchedule, playRun } from "./machine.js";
import { readProgram } from "./language.js";
import { LONGEST } from "./plan.js";
import { makePlayer } from "./player.js";
import { choicesOf, commonOf, scheduleOf } from "./schedule.js";
import { readTrace } from "./trace.js";

const MORE = 100;
const KEPT = 3000;

// A program that the machine accepts; a refusal is thrown.
export const openProgram = text => readProgram(text, listProgram(text));

// trace: the machine's of these choices, where it was played already
function makeRun(tree, parent, fork, choices, trace = playRun(tree.program.text, scheduleOf(choices))) {
  const { events, refused, end } = readTrace(trace);
  const played = choices.length === events.length ? choices : choices.slice(0, events.length);
  const kept = { moments: new Map(), folds: [] };
  return { id: tree.runs.length, parent, fork, choices: played, trace, events, end, refused, kept };
}
const withRun = (tree, run) => ({ tree: { ...tree, runs: [...tree.runs, run] }, run });

export function plantTree(program, choices, trace) {
  const tree = { program, runs: [], player: makePlayer(program) };
  return withRun(tree, makeRun(tree, -1, 0, choices, trace)).tree;
}
export const lengthOf = run => run.choices.length;
// The choice that leads to moment i, or null at the start.
export const eventTo = (run, i) => run.events.at(i - 1) || null;

// The run to which a moment belongs: runs share those before their fork.
export function ownerOf(tree, id, i) {
  while (id > 0 && i <= tree.runs[id].fork) id = tree.runs[id].parent;
  return tree.runs[id];
}
// The run that makes this choice behind moment i, if there is one.
export function runBy(tree, id, i, token) {
  if (tree.runs[id].choices[i] === token) return tree.runs[id];
  const owner = ownerOf(tree, id, i);
  if (owner.choices[i] === token) return owner;
  return tree.runs.find(run => run.parent === owner.id && run.fork === i && run.choices[i] === token) || null;
}

// the choices of a thread until it waits or is over
function turnsOf(text, before, token) {
  const again = Array(99).fill("t" + token.slice(1));
  const { events } = readTrace(playRun(text, scheduleOf([...before, token, ...again])));
  const made = [];
  for (let k = before.length; k < events.length && !events.isIdle(k); k++) {
    made.push(events.token(k));
    if (/^(wait|end|die)$/.test(events.at(k).what)) break;
  }
  return made;
}
// those of a run's own choices that do something behind others
function restOf(text, before, rest) {
  const { events } = readTrace(playRun(text, scheduleOf([...before, ...rest])));
  const own = [];
  for (let k = before.length; k < events.length; k++) if (!events.isIdle(k)) own.push(events.token(k));
  return own;
}
// Another run: the chosen thread goes on until it waits or is over, then what the run still does of its own, then all
// in turn.
export function forkRun(tree, id, i, token) {
  const found = runBy(tree, id, i, token);
  if (found) return { tree, run: found };
  const owner = ownerOf(tree, id, i);
  const { text } = tree.program;
  const before = owner.choices.slice(0, i);
  const rest = owner.choices.slice(i);
  const most = Math.min(rest.length + MORE, LONGEST - i);
  let made = turnsOf(text, before, token).slice(0, most);
  if (!made.length) throw new Error("this choice would do nothing here");
  made = [...made, ...restOf(text, [...before, ...made], rest)].slice(0, most);
  if (made.length < most) {
    const plan = scheduleOf([...before, ...made]) + " ..*" + (most - made.length);
    made = choicesOf(planSchedule(text, plan)).slice(i);
  }
  return withRun(tree, makeRun(tree, owner.id, i, [...before, ...made]));
}
// The run of given choices: it forks where it leaves the run with which it has most in common.
export function graftRun(tree, choices) {
  let best = tree.runs[0];
  let most = -1;
  for (const run of tree.runs) {
    const common = commonOf(run.choices, choices);
    if (common === choices.length && lengthOf(run) === common) return { tree, run };
    if (common > most) [best, most] = [run, common];
  }
  return withRun(tree, makeRun(tree, ownerOf(tree, best.id, most).id, most, choices));
}
export const firstAlone = tree => ({ ...tree, runs: tree.runs.slice(0, 1) });

// How many forks lead to a run.
export function depthOf(tree, run) {
  let depth = 0;
  for (let one = run; one.parent >= 0; one = tree.runs[one.parent]) depth++;
  return depth;
}
// Each run below the one from which it forks: [{ run, level }].
export function inOrder(tree, from = 0, level = 0) {
  const forks = tree.runs.filter(run => run.parent === from).sort((a, b) => a.fork - b.fork);
  return [{ run: tree.runs[from], level }, ...forks.flatMap(run => inOrder(tree, run.id, level + 1))];
}

// ---- moments: the state behind i choices, and what each choice would do next
export const hasMoment = (tree, id, i) => ownerOf(tree, id, i).kept.moments.has(i);

export function momentOf(tree, id, i) {
  const run = ownerOf(tree, id, i);
  const { moments } = run.kept;
  if (moments.has(i)) return moments.get(i);
  if (moments.size > KEPT) moments.clear();
  const moment = tree.player.momentAt(run.choices, i);
  moments.set(i, moment);
  return moment;
}
export function closeTree(tree) {
  if (tree) tree.player.close();
}
