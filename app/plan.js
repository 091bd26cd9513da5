// Plans: words such as `ann. cem ..` that say who goes. Here a plan becomes choices, and a run a plan.
import { Refused, planSchedule, playRun } from "./machine.js";
import { choicesOf, scheduleOf } from "./schedule.js";
import { nameOf } from "./language.js";

// The longest run of a plan, and the longest of all: that of a schedule in a page.
export const MOST = 20000;
export const LONGEST = 1000000;

// A plan that goes on for ever is bounded before it is played: it is cut only where something is left out.
const OPEN = /;[^\n]*|(\.\.|\?[0-9]{1,20})(?=[\s();]|$)/g;
const bounded = plan => plan.replace(OPEN, (whole, open) => (open ? open + "*" + (MOST + 1) : whole));
const TOKEN = /^([tx]\d{1,2}(\*\d{1,10})?)?$/;
const isSchedule = plan => plan.trim().split(/\s+/).every(word => TOKEN.test(word));
const LONG = 20000;

// Whether it may take so long to play that a worker should: a long text, a count of thousands, or a repetition.
export const isHeavy = plan => plan.length > LONG || /\*\s*\d{5,}|\)\*\d{3,}/.test(plan);

// { choices, isCut }; what isn't a plan may be a schedule
export function choicesOfPlan(text, plan) {
  let all;
  if (isHeavy(plan) && isSchedule(plan)) all = choicesOf(plan, MOST);
  else {
    try {
      all = choicesOf(planSchedule(text, bounded(plan)), MOST);
    } catch (fault) {
      if (!(fault instanceof Refused) || !isSchedule(plan)) throw fault;
      all = choicesOf(plan, MOST);
    }
  }
  return { choices: all.slice(0, MOST), isCut: all.length > MOST };
}

// Plays a plan, or the schedule that stands for it: { choices, isCut, trace }.
export function playedPlan(text, plan, schedule) {
  const all = schedule ? choicesOf(schedule, LONGEST) : null;
  const found = all ? { choices: all.slice(0, LONGEST), isCut: all.length > LONGEST } : choicesOfPlan(text, plan);
  return { ...found, trace: playRun(text, scheduleOf(found.choices)) };
}

const STOPS = /^(wait|end|die|idle)$/;

// how many turns of this thread come from here on, and whether the last of them is where it waits or is over
function turnsFrom(events, i) {
  const { token } = events.at(i);
  let k = i;
  let event = events.at(k);
  while (event && event.token === token && !STOPS.test(event.what)) event = events.at(++k);
  const isDone = Boolean(event) && event.token === token && event.what !== "idle";
  return { count: isDone ? k + 1 - i : Math.max(1, k - i), isDone };
}

// A run as a plan of names: `ann.` where a thread goes on until it waits or is over. It has at most `most` words.
export function planOf(program, events, most = 60) {
  const out = [];
  for (let i = 0; i < events.length; ) {
    const { thread, isLate } = events.at(i);
    const name = nameOf(program, "T", thread);
    const { count, isDone } = isLate ? { count: 1, isDone: false } : turnsFrom(events, i);
    if (isLate) out.push("x" + name);
    else out.push(name + (isDone ? "." : count > 1 ? "*" + count : ""));
    i += count;
    if (out.length >= most && i < events.length) return out.join(" ") + " \u2026";
  }
  return out.join(" ");
}

// A schedule of numbers as a plan of names, where that plan is the same run.
export function readablePlan(program, run, plan) {
  if (run.choices.length > 300 || !/^[tx\d*\s]+$/.test(plan)) return plan;
  const named = planOf(program, run.events, Infinity);
  try {
    const again = choicesOfPlan(program.text, named).choices;
    return scheduleOf(again) === scheduleOf(run.choices) ? named : plan;
  } catch (_) {
    return plan;
  }
}
