// The cards of a quiz and of a challenge. A quiz asks, counts what was right, and says why; a challenge counts the
// class's own changes of the run.
import { button, h, shown, sizeOf } from "./elements.js";
import { plain } from "./names.js";

const letter = k => String.fromCharCode(97 + k);

function optionsOf(question, chosen, act) {
  const kind = option => {
    if (chosen === null) return "";
    return option === question.right ? ".is-right" : option === chosen ? ".is-wrong" : ".is-rest";
  };
  const sign = option => {
    if (chosen === null) return "";
    return option === question.right ? " \u2713" : option === chosen ? " \u2717" : "";
  };
  const one = (option, k) => {
    const given = { type: "button", "aria-disabled": String(chosen !== null), onclick: () => act.answer(option) };
    return h("button.option" + kind(option), given, h("kbd", {}, letter(k) + sign(option)), h("span", {}, option));
  };
  return question.options.map(one);
}
function verdictOf(question, chosen, program) {
  const word = chosen === question.right ? h("b.is-yes", {}, "Right. ") : h("b.is-no", {}, "Not here. ");
  return h("p.card-verdict", { role: "status" }, question.own ? null : word, shown(program, question.why()));
}
const plainCard = (small, large, text, ...turn) => [
  h("div.card-ask", {}, h("p.card-small", {}, small), h("p.card-large", {}, large)),
  h("div.card-reply", {}, h("p", {}, text)),
  h("div.card-turn", {}, turn)
];

// quiz: the state's, or null while orders are played. act: { answer(option), show(), next(), again(), stop() }
export function quizCard(quiz, program, act) {
  if (!quiz) return plainCard(
    "Quiz",
    "Random orders are being played.",
    "Wrong answers come from them.",
    button("Stop", act.stop)
  );
  const { list, k, chosen, right, answered, isOpen } = quiz;
  if (!list.length) {
    const text =
      "Every order does the same here, so there is nothing to ask. Take another program, " +
      "or write a question: a comment that begins with ;?";
    return plainCard("Quiz", "This run has only one way.", text);
  }
  const question = list[k];
  if (!question) {
    const text = right === answered
      ? "Now make a run that ends otherwise."
      : "Step through the run again, and look at the picture.";
    return plainCard(
      "Quiz",
      right + " of " + answered + " right.",
      text,
      button("Again", act.again, { kind: ".main" })
    );
  }
  const isDone = chosen !== null || isOpen;
  const score = answered ? " \u2014 " + right + " right" : "";
  const hint = question.own && !isDone ? h("p", {}, "Say it aloud, then show what happens.") : null;
  const turn = isDone
    ? button("Next", act.next, { kind: ".main" })
    : question.own
      ? button("Show", act.show, { kind: ".main" })
      : button("Skip", act.next);
  return [
    h(
      "div.card-ask",
      {},
      h("p.card-small", {}, "Question " + (k + 1) + " of " + list.length + score),
      h("p.card-large" + sizeOf(plain(program, question.ask)), {}, shown(program, question.ask))
    ),
    h("div.card-reply.options", {}, optionsOf(question, chosen, act), hint),
    h("div.card-turn", {}, isDone ? verdictOf(question, chosen, program) : null, turn)
  ];
}
// Whether a letter is an answer to what is asked: the answer, or null.
export function optionAt(quiz, sign) {
  const question = quiz && quiz.list[quiz.k];
  if (!question || quiz.chosen !== null) return null;
  return question.options[sign.charCodeAt(0) - 97] || null;
}

// challenge: what challengeOf gave. act: { again(), stop() }
export function challengeCard(challenge, act) {
  if (!challenge) return plainCard(
    "Challenge",
    "Random orders are being played.",
    "What is asked for is an end to which one of them came.",
    button("Stop", act.stop)
  );
  const { goal, tried, changes, isDone } = challenge;
  if (!goal) return plainCard(
    "Challenge",
    "None was found.",
    "No order that ends otherwise came in " + tried + " tries. A rare one may exist. Change a row, or take another program.",
    button("From the start", act.again)
  );
  const count = changes === 1 ? "one change" : changes + " changes";
  const aim = goal === "stuck"
    ? "Get it stuck: let somebody wait for ever."
    : "This run is stuck. Get all threads to end.";
  if (isDone) {
    const done = goal === "stuck" ? "Stuck, with " + count + "." : "All end, with " + count + ".";
    return plainCard(
      "Challenge",
      done,
      (changes > 1 ? "Is there a way with fewer changes? " : "") + "Why does it end so? Click a thread.",
      button("Again", act.again, { kind: ".main" })
    );
  }
  const text = "At any choice, click another name after \u201CNext\u201D, and step to the end. Your changes: " +
    changes + ".";
  return plainCard("Challenge", aim, text, button("From the start", act.again));
}
