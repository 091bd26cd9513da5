// The card of a lesson: title and aim, a question in large type, the class's votes, the answer, and the next. The
// card has one place and one height; the run below it is where the question is.
import { button, h, sizeOf } from "./elements.js";
import { hueOf, threadName } from "./names.js";
import { PLACES } from "./stage.js";

// A big row of names: a click counts a vote up, and the minus beside the name, or Shift, down. Each thread has its
// place, also while it may not go.
function votesOf(program, moment, votes, act) {
  const able = Object.keys(moment.next).map(Number);
  const places = program.threads.length > PLACES ? able : program.threads.map((_, t) => t);
  const most = Math.max(0, ...able.map(t => votes[t] || 0));
  const first = able.filter(t => (votes[t] || 0) === most && most > 0);
  const name = t => threadName(program, t);
  const one = t => {
    const count = votes[t] || 0;
    const given = {
      type: "button",
      "data-key": "vote" + t,
      "aria-label": name(t) + ", " + count + (count === 1 ? " vote" : " votes"),
      onclick: event => act.vote(t, event.shiftKey ? -1 : 1)
    };
    const less = button("\u2212", () => act.vote(t, -1), {
      kind: ".vote-less",
      "data-key": "less" + t,
      "aria-label": "one vote less for " + name(t),
      "aria-disabled": String(!count)
    });
    const vote = h("button.vote", given, h("span", {}, name(t)), h("b", {}, count));
    return h("span.vote-place." + hueOf(t) + (able.includes(t) ? "" : ".is-out"), {}, vote, less);
  };
  const play = button(first.length === 1 ? "Play " + name(first[0]) : "Play", () => act.choose("t" + first[0]), {
    kind: ".main.votes-play",
    disabled: first.length !== 1
  });
  const head = h("div.votes-head", {}, h("p.card-small", {}, "Votes: who is next?"), play);
  return h("div.votes", {}, head, h("div.votes-list", {}, places.map(one)));
}
function answerOf(one, act) {
  const run = one.fork ? button("Show this run", () => act.showFork(...one.fork), { kind: ".card-show" }) : null;
  const tab = one.tab ? button("Random orders", () => act.tab(one.tab), { kind: ".card-show" }) : null;
  return [h("p.card-small", {}, "Answer"), h("p.card-answer" + sizeOf(one.answer), {}, one.answer, run, tab)];
}
function dotsOf(step, count) {
  const label = step < 0 ? "start" : step >= count ? "end" : "question " + (step + 1) + " of " + count;
  const dot = (_, k) => h("i.dot" + (k === step ? ".is-here" : k < step ? ".is-done" : ""));
  return h("span.dots", { role: "img", "aria-label": label }, Array.from({ length: count }, dot));
}
function edgeOf(lesson, step, act) {
  const isStart = step < 0;
  const count = lesson.steps.length;
  const text = isStart
    ? "Step through the run first. Let the class say what each choice does, before you step."
    : "Ask for the quiz, or change a row, and look again.";
  const next = isStart && count ? button("First question", () => act.step(1), { kind: ".main" }) : null;
  const back = isStart ? null : button("Back", () => act.step(-1));
  const head = isStart ? "Aim" : "To remember";
  const large = isStart ? lesson.aim : lesson.last;
  return [
    h("div.card-ask", {}, h("p.card-small", {}, head), h("p.card-large" + sizeOf(large), {}, large)),
    h("div.card-reply", {}, h("p.card-small", {}, isStart ? lesson.title : "End of the lesson"), h("p", {}, text)),
    h("div.card-turn", {}, dotsOf(step, count), next, back)
  ];
}

// lesson: the state's { lesson, step, isOpen, votes }. act: { step(by), answer(), vote(t, by), choose(token),
// showFork(i, token), tab(name) }
export function lessonCard({ lesson, step, isOpen, votes }, program, moment, act) {
  const one = lesson.steps[step];
  const count = lesson.steps.length;
  if (!one) return edgeOf(lesson, step, act);
  const reply = isOpen
    ? answerOf(one, act)
    : one.votes ? votesOf(program, moment, votes, act) : h("p.card-small", {}, "\u00a0");
  const next = isOpen
    ? button(step + 1 < count ? "Next question" : "End", () => act.step(1), { kind: ".main" })
    : button("Answer", act.answer, { kind: ".main" });
  return [
    h(
      "div.card-ask",
      {},
      h("p.card-small", {}, "Question " + (step + 1) + " of " + count),
      h("p.card-large" + sizeOf(one.ask), {}, one.ask)
    ),
    h("div.card-reply", {}, reply),
    h("div.card-turn", {}, dotsOf(step, count), button("Back", () => act.step(-1)), next)
  ];
}
