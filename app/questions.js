// The questions of a quiz about a run. The wrong answers happened in other runs of the same program, so that none is
// absurd; a question that only one answer fits isn't asked. It is given a run and other outcomes, and draws nothing.
import { callOf, listed, plain, rowText, strong, threadName, thrown } from "./names.js";
import { endText, outputText } from "./ending.js";
import { planOf } from "./plan.js";
import { reasonOf } from "./reason.js";
import { eventTo, lengthOf, momentOf } from "./run.js";
import { whyOf } from "./why.js";

const LONGEST = 200;
const MOST_OPTIONS = 4;
// rows that are a call, and choices of which there is something to ask
const ASKED = /^(p|c[awrb])/;
const PLAIN = /^(idle|ok|end|out|catch|unwind|none|limit)$/;

// what a call did, in few words
function optionOf(program, event, isOfWait) {
  const row = program.rows[event.row];
  const said = {
    "=": (isOfWait ? "its wait ends: it returns " : "it returns ") + event.value,
    wait: "it waits",
    throw: "it throws " + thrown(event.value, row),
    die: "it dies of " + thrown(event.value, row),
    enter: "it is the last, and enters the routine"
  };
  const mark = event.mark && {
    "+p": event.mark.view < 0 ? ", and the phaser is terminated" : ", and phase " + event.mark.view + " begins",
    "+b": ", and the barrier trips",
    "-b": ", and the barrier breaks"
  };
  return said[event.what] + (mark ? mark[event.mark.kind] : "");
}
const keyOf = (row, isOfWait) => row + (isOfWait ? " wait" : "");

// What each row did in the outcomes' runs: key -> options.
function happenedIn(program, outcomes) {
  const happened = new Map();
  for (const one of outcomes) {
    const waits = new Set();
    for (const event of one.events) {
      if (event.row < 0 || event.what === "idle") continue;
      const isOfWait = waits.delete(event.thread);
      if (event.what === "wait") waits.add(event.thread);
      if (PLAIN.test(event.what)) continue;
      const key = keyOf(event.row, isOfWait);
      if (!happened.has(key)) happened.set(key, new Set());
      happened.get(key).add(optionOf(program, event, isOfWait));
    }
  }
  return happened;
}
// an order that is the same each time, and tells nothing
function shuffled(list, seed) {
  const keyed = list.map((one, k) => [Math.sin(seed * 97 + k * 131 + one.length * 17) * 1e4 % 1, one]);
  return keyed.sort((a, b) => a[0] - b[0]).map(one => one[1]);
}
// the right answer, and as many wrong ones as there is room for
function optionsOf(right, others, seed) {
  const wrong = [...new Set(others)].filter(one => one !== right).slice(0, MOST_OPTIONS - 1);
  return wrong.length ? shuffled([right, ...wrong], seed) : null;
}
// what a choice did stands on the stage; here stands why
function reasonAt(tree, run, i) {
  const reason = reasonOf(tree, run.id, i);
  if (reason) return [reason];
  const { what, thread } = eventTo(run, i);
  if (what !== "wait") return ["The line below says what happened."];
  // where it waits, and what is missing; who could bring it stands in the picture
  const { text } = whyOf(tree.program, momentOf(tree, run.id, i), thread);
  return text.slice(0, text.findIndex(part => typeof part === "string" && part.endsWith(". ")) + 1);
}

function callQuestion(tree, run, i, happened) {
  const { program } = tree;
  const event = run.events.at(i);
  const row = program.rows[event.row];
  if (event.row < 0 || PLAIN.test(event.what) || !ASKED.test(row.word)) return null;
  const thread = momentOf(tree, run.id, i).state.threads[event.thread];
  const isOfWait = thread.status === "waits";
  const right = optionOf(program, event, isOfWait);
  const options = optionsOf(right, happened.get(keyOf(event.row, isOfWait)) || [], i + 1);
  if (!options) return null;
  const call = callOf(program, row, thread) || rowText(program, row);
  const who = { thread: event.thread };
  const ask = event.isLate
    ? ["Choice " + (i + 1) + ": the time of ", who, "\u2019s wait at " + call + " is up. What happens?"]
    : isOfWait
      ? ["Choice " + (i + 1) + ": ", who, " was waiting at " + call + ". What happens?"]
      : ["Choice " + (i + 1) + ": ", who, " calls " + call + ". What happens?"];
  return { at: i, leads: i + 1, ask, right, options, why: () => reasonAt(tree, run, i + 1) };
}
// who may go: wrong are the answers of moments near by
function whoQuestion(tree, run, i) {
  const { program } = tree;
  const event = run.events.at(i);
  if (event.what !== "wait" && !event.mark) return null;
  const say = k => {
    const names = Object.keys(momentOf(tree, run.id, k).next).map(t => threadName(program, Number(t)));
    return names.length ? listed(names) : "nobody";
  };
  const near = [];
  for (let k = Math.max(0, i - 4); k <= Math.min(lengthOf(run), i + 6); k++) near.push(say(k));
  const right = say(i + 1);
  const options = optionsOf(right, near, i + 7);
  if (!options || options.length < 3) return null;
  const moment = momentOf(tree, run.id, i + 1);
  const why = () => {
    const waits = program.threads.map((_, t) => t).filter(
      t => !moment.next[t] && moment.state.threads[t].status === "waits"
    );
    return waits.length ? whyOf(program, moment, waits[0]).text : ["Nobody waits."];
  };
  return { at: i + 1, leads: i + 1, ask: ["Who may go next, after choice " + (i + 1) + "?"], right, options, why };
}
function ownQuestions(tree, run, i) {
  const { program } = tree;
  const { row } = run.events.at(i);
  const isFirst = run.events.findIndex(event => event.row === row && event.what !== "idle") === i;
  if (!isFirst) return [];
  const asked = program.questions.filter(one => one.row === row);
  return asked.map(
    one => ({ at: i, leads: i + 1, ask: [one.text], own: true, options: [], why: () => reasonAt(tree, run, i + 1) })
  );
}
function endQuestion(tree, run, outcomes) {
  const { program } = tree;
  const say = end => {
    const output = outputText(program, end);
    return endText(program, end) + (output ? " \u2014 output: " + output : "");
  };
  const right = say(run.end);
  const options = optionsOf(right, outcomes.map(one => say(one.end)), 3);
  if (!options) return null;
  const ask = ["The order is ", strong(planOf(program, run.events, 24)), ". How does it end?"];
  return { at: 0, leads: lengthOf(run), ask, right, options, why: () => ["It ends so: ", strong(right), "."] };
}

// All questions of a run, in its order: [{ at, leads, ask, right, options, own, why }]. `at` is where it is asked,
// `leads` where its answer is seen.
export function questionsOf(tree, run, outcomes) {
  const happened = happenedIn(tree.program, outcomes);
  const out = [];
  for (let i = 0; i < Math.min(lengthOf(run), LONGEST); i++) {
    out.push(...ownQuestions(tree, run, i), callQuestion(tree, run, i, happened), whoQuestion(tree, run, i));
  }
  return [...out, endQuestion(tree, run, outcomes)].filter(Boolean);
}
export const askText = (program, question) => plain(program, question.ask);
