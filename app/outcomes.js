// Random orders of a program, grouped by how each thread ends and by what was put out. It plays them, and draws
// nothing.
import { playRun } from "./machine.js";
import { choicesOfPlan } from "./plan.js";
import { openProgram } from "./run.js";
import { scheduleOf } from "./schedule.js";
import { readTrace } from "./trace.js";

export const SEEDS = 300;
const LONGEST = 2000;

// What makes two ends one outcome.
export const outcomeKey = end => JSON.stringify([end.word, end.threads.map(one => [one.status, one.code, one.out])]);

// text: the program's. told(done) is called now and then; the orders of `seeds` seeds, the most frequent outcome
// first: { tried, all: [{ key, count, plan, end, choices, events }] }
export function outcomesOf(text, seeds, told = () => {}) {
  const program = openProgram(text);
  const found = new Map();
  for (let seed = 1; seed <= seeds; seed++) {
    const plan = "?" + seed + "*" + LONGEST;
    const { choices } = choicesOfPlan(program.text, plan);
    const { events: read, end } = readTrace(playRun(program.text, scheduleOf(choices)));
    const events = [...read];
    const key = outcomeKey(end);
    const one = found.get(key) || { key, count: 0, plan, end, choices, events };
    found.set(key, one);
    one.count++;
    // the shortest order shows an outcome best
    if (choices.length < one.choices.length) Object.assign(one, { plan, choices, events, end });
    if (seed % 10 === 0) told(seed);
  }
  return { tried: seeds, all: [...found.values()].sort((a, b) => b.count - a.count) };
}
