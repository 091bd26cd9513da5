// On paper: a handout (the program, each choice with its sentence) or a worksheet (the same from the present choice
// on, with lines to write on). It is drawn into the page when something is printed, and printed alone.
import { endText, outputText } from "./ending.js";
import { fill, h } from "./elements.js";
import { nameOf } from "./language.js";
import { phaseOf, plain, threadName } from "./names.js";
import { planOf } from "./plan.js";
import { lengthOf, momentOf } from "./run.js";
import { sentenceOf, tagOf } from "./sentence.js";

const LONGEST = 500;
const COLUMNS = 10;
const ASKED = [
  "Beside each line: what does the call return, and who waits behind it?",
  "How does the run end? Who waits for ever, and for whom?",
  "Before which choice could another have gone, so that it ends otherwise? Who, and how does it end then?"
];

// how phasers, barriers and cells stand, each in a few words
function standing(program, { phasers, barriers, cells }) {
  const phaser = ({ view, parties, arrived }, p) => {
    const stands = view < 0 ? "terminated" : "phase " + phaseOf(view) + ", " + arrived + " of " + parties + " arrived";
    return nameOf(program, "P", p) + ": " + stands;
  };
  const barrier = ({ waiting, isBroken }, b) => {
    const stands = isBroken ? "broken" : waiting + " of " + program.barriers[b].parties + " wait";
    return nameOf(program, "B", b) + ": " + stands;
  };
  const cell = ([c, value]) => nameOf(program, "C", Number(c)) + " = " + value;
  return [...phasers.map(phaser), ...barriers.map(barrier), ...Object.entries(cells).map(cell)];
}
function changedText(program, before, after) {
  const was = standing(program, before.state);
  return standing(program, after.state).filter(text => !was.includes(text)).join("; ");
}

function lineOf(tree, run, k, columns, isBlank, isJava) {
  const { program } = tree;
  const event = run.events.at(k);
  const after = momentOf(tree, run.id, k + 1);
  const cell = t => {
    if (event.thread === t) return h("td.is-own", {}, isBlank ? "\u25CF" : tagOf(program, event, isJava));
    return h("td", {}, after.state.threads[t].status === "waits" && !isBlank ? "\u2502" : "");
  };
  const before = momentOf(tree, run.id, k);
  const said = isBlank ? "" : plain(program, sentenceOf(program, event, before, after));
  const changed = isBlank ? "" : changedText(program, before, after);
  const words = [said, changed ? h("small", {}, changed) : null];
  return h("tr", {}, h("td.paper-number", {}, k + 1), columns.map(cell), h("td", {}, words));
}
// what: { tree, run, at, isJava, title, asked }. At the end, a worksheet is about the whole run.
export function drawPaper(paper, { tree, run, at, isJava, title, asked }, isSheet) {
  const { program } = tree;
  const columns = program.threads.map((_, t) => t).slice(0, COLUMNS);
  const last = Math.min(lengthOf(run), LONGEST);
  const from = isSheet && at < lengthOf(run) ? at : 0;
  const rows = [];
  for (let k = 0; k < last; k++) rows.push(lineOf(tree, run, k, columns, isSheet && k >= from, isJava));
  const heads = ["", ...columns.map(t => threadName(program, t)), isSheet ? "What happens?" : "What happens"];
  const questions = program.questions.length
    ? program.questions.map(one => one.text)
    : asked && asked.length ? asked : ASKED;
  const rest = lengthOf(run) > last
    ? h("p", {}, "The run has " + lengthOf(run) + " choices; the first " + last + " are printed.")
    : null;
  const output = outputText(program, run.end);
  const end = h("p", {}, h("b", {}, "End: "), endText(program, run.end), output ? "; output: " + output : "");
  const blanks = h("ol", {}, questions.map(text => h("li", {}, text, h("i.paper-rule"), h("i.paper-rule"))));
  fill(
    paper,
    h("h1", {}, title),
    isSheet ? h("p", {}, "Name ____________________________   Date ______________") : null,
    h("p", {}, program.about),
    h("pre", {}, program.text),
    h("p", {}, h("b", {}, "Order: "), planOf(program, run.events, 200)),
    h("table", {}, h("thead", {}, h("tr", {}, heads.map(text => h("th", {}, text)))), h("tbody", {}, rows)),
    rest,
    isSheet ? blanks : end
  );
}
