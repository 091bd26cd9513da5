// The app's state, a value, and all that changes it: each function here is given a state and gives the next one. What
// is drawn is a function of it (app.js). Nothing here touches the page, so a test makes and changes states without a
// browser.
import { endKind } from "./ending.js";
import { lessonOf } from "./lessons.js";
import { walkTo, addressOf } from "./link.js";
import { Refused } from "./machine.js";
import { mistakeOf } from "./mistake.js";
import { playedPlan, readablePlan } from "./plan.js";
import { questionsOf } from "./questions.js";
import { depthOf, firstAlone, forkRun, graftRun, inOrder, lengthOf, openProgram, plantTree } from "./run.js";

export const OWN = {
  group: "Yours",
  name: "own",
  title: "My own program",
  plan: "..",
  program:
    "; My own: two threads meet.\n.phaser meet 2\n.thread ann main\n.thread bob main\n" +
    "main: paaa r0 meet ; arriveAndAwaitAdvance\n      out r0\n      halt\n"
};

export function firstState() {
  return {
    item: null,
    text: "",
    plan: "..",
    // the item's plan, as it was opened
    itsPlan: "..",
    tree: null,
    id: 0,
    at: 0,
    isCut: false,
    mistake: null,
    mode: "explore",
    tab: "picture",
    pane: "time",
    // a thread or a phaser that was clicked: { thread } or { phaser }
    selected: null,
    // a choice that is tried: its token
    preview: "",
    orders: null,
    isJava: false,
    isHidden: false,
    isFolded: false,
    isAlone: false,
    hasLetters: true,
    other: null,
    zoom: 1,
    lesson: null,
    quiz: null,
    challenge: null,
    // whether what stands in a page is what the machine plays: what checkOf gave
    check: null
  };
}

export const runOf = state => state.tree.runs[state.id];
export const otherOf = state => (
  state.other === null || state.other === state.id ? null : state.tree.runs[state.other] || null
);

// ---- a program and its plan
function planted(state, program, text, plan, { choices, isCut, trace }) {
  const tree = plantTree(program, choices, trace);
  const next = { ...state, text, plan, tree, id: 0, isCut, mistake: null, orders: null };
  return { ...next, selected: null, preview: "", other: null, challenge: null };
}
// The schedule of a page's run, for which its plan stands; "" where there is none.
export const scheduleIn = (item, plan) => (item && plan === item.plan && item.schedule) || "";

// Whether a text is another program than that of an item: more than half of its rows are gone.
const rowsOf = text => text.split("\n").map(line => line.split(";")[0].trim().replace(/\s+/g, " ")).filter(Boolean);
export function isOther(item, text) {
  const old = rowsOf(item.program);
  const all = new Set(rowsOf(text));
  return old.filter(row => all.has(row)).length * 2 < old.length;
}
// The plan of a text: who writes another program over one doesn't mean its plan.
export function planFor({ item, itsPlan }, text, plan) {
  return plan === itsPlan && isOther(item, text) ? OWN.plan : plan;
}

// What a text and a plan make of a state: the same place of the new program, where it still is; of what is refused,
// the state before with the mistake. `played`, what playedPlan gives, saves playing the plan where a worker did.
export function edited(state, text, plan, played) {
  const isSamePlan = state.tree && plan === state.plan;
  const place = isSamePlan ? addressOf(state.tree, runOf(state), state.at) : String(state.at);
  const isNew = isOther(state.item, text);
  let next;
  try {
    const program = openProgram(text);
    plan = planFor(state, text, plan);
    next = planted(state, program, text, plan, played || playedPlan(text, plan, scheduleIn(state.item, plan)));
    // where the run had an end, and the plan ends too early for this text, all go on in turn
    if (!played && isSamePlan && !isLive(state) && isLive(next) && !next.isCut) {
      const on = plan + " ..";
      const itsPlan = plan === state.itsPlan ? on : state.itsPlan;
      next = planted({ ...state, itsPlan }, program, text, on, playedPlan(text, on));
    }
  } catch (fault) {
    if (!(fault instanceof Refused)) throw fault;
    return { ...state, text, plan, mistake: mistakeOf(fault, text, plan) };
  }
  const { tree, run, at } = walkTo(next.tree, place);
  next = { ...next, tree, id: run.id, at };
  if (isNew) next = { ...next, item: { ...OWN, program: text, plan: next.plan }, itsPlan: next.plan };
  if (!next.lesson) return next;
  const begun = begunLesson(next);
  const { step, isOpen } = next.lesson;
  return { ...next, lesson: isNew ? begun : { ...begun, step: Math.min(step, begun.lesson.steps.length), isOpen } };
}
const isLive = ({ tree: { runs: [run] } }) => run.end.word === "live" && !run.refused;
const begunLesson = state => ({
  lesson: lessonOf(state.item, state.tree.program, state.tree.runs[0]),
  step: -1,
  isOpen: false,
  isPlayed: false,
  votes: {}
});

// A program from the menu, a link or a file, from its start: { group, name, title, program, plan }, and of a page's
// run its schedule.
export function opened(state, item, mode, played) {
  const fresh = { ...state, item, at: 0, id: 0, tree: null, check: null, mode: "explore", quiz: null };
  let next = edited(fresh, item.program, item.plan, played);
  if (!next.tree) {
    // what can't be played has no run: an own program stands in its place, and its mistake is told
    const stand = edited(fresh, OWN.program, OWN.plan);
    return { ...stand, text: item.program, plan: item.plan, mistake: next.mistake };
  }
  if (!next.mistake) next = { ...next, plan: readablePlan(next.tree.program, runOf(next), next.plan) };
  if (item.schedule) next = { ...next, item: { ...item, plan: next.plan } };
  next = { ...next, itsPlan: next.plan, lesson: begunLesson(next) };
  return inMode(next, mode || "explore");
}

// ---- places
// The last choice to which one may step: in a quiz that to which its question leads, once it is answered.
export function lastOf(state) {
  const { quiz } = state;
  const last = lengthOf(runOf(state));
  if (state.mode !== "quiz" || state.id || (quiz && !quiz.list[quiz.k])) return last;
  return quiz ? quiz.list[quiz.k][isVeiled(state) ? "at" : "leads"] : 0;
}
export function at(state, i) {
  return { ...state, at: Math.max(0, Math.min(lastOf(state), i)), preview: "" };
}
export function walked(state, id, i) {
  const other = state.other === id ? state.id : state.other;
  return at({ ...state, id, other }, i);
}
// A choice: forward where the run makes it, and another run where it doesn't.
export function forked(state, i, token) {
  const { tree, run } = forkRun(state.tree, state.id, i, token);
  const isOn = runOf(state).choices[i] === token;
  // a class that has played its vote sees what came of it, and votes anew
  const lesson = state.lesson && { ...state.lesson, isPlayed: true, votes: {} };
  return at({ ...state, tree, id: isOn ? state.id : run.id, lesson }, i + 1);
}
export function addressed(state, address) {
  const { tree, run, at: i } = walkTo(state.tree, address);
  return at({ ...state, tree, id: run.id }, i);
}
export function ordered(state, outcome) {
  const { tree, run } = graftRun(state.tree, outcome.choices);
  const from = run.parent < 0 ? 0 : run.fork + 1;
  return at({ ...state, tree, id: run.id }, Math.min(from, lengthOf(run)));
}
export function backToFork(state) {
  const run = runOf(state);
  return run.parent < 0 ? state : walked(state, run.parent, Math.min(run.fork, state.at));
}
// The run before or behind this one in the tree.
export function besideInTree(state, by) {
  const list = inOrder(state.tree).map(one => one.run);
  const run = list[list.findIndex(one => one.id === state.id) + by];
  if (!run) return state;
  return walked(state, run.id, Math.max(state.at, run.parent < 0 ? 0 : run.fork + 1));
}
// The run that is shown becomes the first, and its schedule the plan.
export function madeFirst(state) {
  const run = runOf(state);
  if (run.parent < 0) return state;
  const plan = readablePlan(state.tree.program, run, run.choices.join(" "));
  return at(planted(state, state.tree.program, state.text, plan, { choices: run.choices, isCut: false }), state.at);
}
export function firstOnly(state) {
  const run = runOf(state);
  const i = run.parent < 0 ? state.at : Math.min(state.at, run.fork);
  return at({ ...state, tree: firstAlone(state.tree), id: 0, other: null }, i);
}
export function sideBySide(state) {
  if (state.other !== null) return { ...state, other: null };
  if (state.tree.runs.length < 2) return state;
  const run = runOf(state);
  return { ...state, other: run.parent >= 0 ? run.parent : state.tree.runs.length - 1 };
}

// ---- what is selected, tried and shown
export function selectedThread(state, thread) {
  const isSame = state.selected && state.selected.thread === thread;
  return { ...state, selected: isSame ? null : { thread }, tab: isSame ? state.tab : "picture" };
}
export function selectedPhaser(state, phaser) {
  const isSame = state.selected && state.selected.phaser === phaser;
  return { ...state, selected: isSame ? null : { phaser } };
}

// ---- lessons, quiz, challenge
// what stands where it would give the answer away
export const VEIL = "This stands here after the answer.";
export function inMode(state, mode) {
  const next = { ...state, mode, pane: "time", preview: "", quiz: null, challenge: null };
  if (mode === "quiz") return quizOf(next);
  if (mode === "lesson") return atStep({ ...next, tab: "picture" });
  return mode === "challenge" ? challengeIn({ ...at({ ...next, id: 0 }, 0), other: null }) : next;
}
// A challenge is another end, to which one of the random orders came; without such an order there is none. It begins
// when their outcomes are there.
function challengeIn(state) {
  if (!state.orders) return state;
  const found = ["stuck", "ended"].filter(kind => state.orders.all.some(one => endKind(one.end) === kind));
  const own = endKind(state.tree.runs[0].end);
  return { ...state, challenge: { goal: found.find(kind => kind !== own) || "", tried: state.orders.tried } };
}
// A quiz about the first run; it begins when the outcomes of random orders are there.
export function quizOf(state) {
  const next = at({ ...state, id: 0, other: null, tab: "picture" }, 0);
  if (!state.orders) return { ...next, quiz: null };
  const list = questionsOf(state.tree, state.tree.runs[0], state.orders.all);
  const quiz = { list, k: 0, chosen: null, isOpen: false, right: 0, answered: 0 };
  return at({ ...next, quiz }, list.length ? list[0].at : 0);
}
export function withOrders(state, orders) {
  const next = { ...state, orders };
  if (state.mode === "challenge" && !state.challenge) return challengeIn(next);
  return state.mode === "quiz" && !state.quiz ? quizOf(next) : next;
}
export function answered(state, option) {
  const { quiz } = state;
  const question = quiz.list[quiz.k];
  if (!question || quiz.chosen !== null) return state;
  const right = quiz.right + (option === question.right ? 1 : 0);
  return at({ ...state, quiz: { ...quiz, chosen: option, right, answered: quiz.answered + 1 } }, question.leads);
}
// The answer to a question of the teacher's own is shown, not counted.
export function shownOwn(state) {
  const question = state.quiz.list[state.quiz.k];
  return at({ ...state, quiz: { ...state.quiz, isOpen: true } }, question.leads);
}
export function nextQuestion(state) {
  const { quiz } = state;
  const question = quiz.list[quiz.k + 1];
  const next = { ...state, quiz: { ...quiz, k: quiz.k + 1, chosen: null, isOpen: false } };
  return question ? at({ ...next, id: 0 }, question.at) : next;
}
// The question of a lesson that is neither answered nor played, or null.
function openStep({ mode, lesson }) {
  const isOpen = mode === "lesson" && lesson && !lesson.isOpen && !lesson.isPlayed;
  return (isOpen && lesson.lesson.steps[lesson.step]) || null;
}
// Whether the answer to a question would be given away by what is shown.
export function isVeiled(state) {
  const { quiz } = state;
  if (state.mode !== "quiz") return Boolean(openStep(state));
  return !quiz || (Boolean(quiz.list[quiz.k]) && quiz.chosen === null && !quiz.isOpen);
}
// Whether who may go next isn't told: where a class doesn't vote about it.
export function isNextHidden(state) {
  return isVeiled(state) && !(openStep(state) || {}).votes;
}
// Whether the class is to guess: in a lesson until the answer is shown, and in a quiz until its end, since what comes
// later are the answers to what is asked next.
function isGuessed({ mode, lesson, quiz }) {
  if (mode === "quiz") return !quiz || Boolean(quiz.list[quiz.k]);
  return mode === "lesson" && !lesson.isOpen && (lesson.step < 0 || Boolean(lesson.lesson.steps[lesson.step]));
}
// Whether later choices are hidden, and the plan, unless the class has written its own.
export const isLaterHidden = state => state.isHidden || isGuessed(state);
export const isPlanHidden = state => isGuessed(state) && state.plan === state.itsPlan;
// Back from an answer leads to its question.
export function lessonStep(state, by) {
  const { lesson, isOpen } = state.lesson;
  const to = state.lesson.step + (isOpen && by < 0 ? 0 : by);
  const step = Math.max(-1, Math.min(lesson.steps.length, to));
  return atStep({ ...state, lesson: { ...begunLesson(state), ...{ lesson, step } } });
}
function atStep(state) {
  const { lesson, step } = state.lesson;
  return at({ ...state, id: 0 }, lesson.steps[step] ? lesson.steps[step].at : 0);
}
export function lessonAnswer(state) {
  const one = state.lesson.lesson.steps[state.lesson.step];
  if (!one) return state;
  const next = { ...state, lesson: { ...state.lesson, isOpen: true } };
  return one.next ? at(next, one.at + 1) : next;
}
export function voted(state, thread, by) {
  const count = Math.max(0, (state.lesson.votes[thread] || 0) + by);
  return { ...state, lesson: { ...state.lesson, votes: { ...state.lesson.votes, [thread]: count } } };
}
// { goal, tried, changes, isDone }, or null while orders are played. Only the class's own changes count, not those of
// the plan
export function challengeOf(state) {
  if (!state.challenge) return null;
  const { goal, tried } = state.challenge;
  const run = runOf(state);
  const changes = depthOf(state.tree, run);
  const isDone = changes > 0 && state.at === lengthOf(run) && endKind(run.end) === goal;
  return { goal, tried, changes, isDone };
}
