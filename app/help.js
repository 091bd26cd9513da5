// The help: the keys, the words of a program and of plans, the signs of the timeline, the colours, and what the
// picture's drawings mean. It is what a sheet shows; the signs are drawn as the panes draw them. A worker, which has
// no page, reads this module, too: nothing is made before it is asked for.
import { button, h } from "./elements.js";
import { KEY_TEXTS } from "./keys.js";
import { javaText, rowText } from "./names.js";

const dot = kind => h("span.event-" + kind + ".hue0", {}, h("i.event-dot"));
const lane = kind => h("i.lane.lane-" + kind + ".hue0");
const token = kind => h("span.token.token-" + kind + ".hue0", {}, "ann");
const rule = (kind, dot) => h("span.mark" + kind, {}, dot);
const swatch = kind => h("i.help-colour.help-" + kind);

const timelineSigns = () => [
  [dot("value"), "a choice that did something"],
  [dot("throw"), "it throws, or dies"],
  [dot("end"), "it ends"],
  [dot("idle"), "its turn, but it can\u2019t go on"],
  [lane("runs"), "it runs"],
  [lane("waits"), "it waits"],
  [lane("free"), "it waited, and may go on"],
  [lane("held"), "it has to wait for a routine"],
  [rule("", h("i.mark-dot")), "a phase ends, or a barrier trips; dots: who arrived for it"],
  [rule(".mark-broke"), "a barrier breaks"]
];
const pictureSigns = () => [
  ["card", "a phaser; each of its seats is a party"],
  [h("span.seat"), "an arrival is missing"],
  [h("span.seat.is-full", {}, token("waits")), "ann arrived here, and waits"],
  [h("span.seat.is-full.is-gone", {}, h("span.seat-been.hue0", {}, "\u2713 ann")), "ann arrived, and went on"],
  [h("span.seat.seat-child", {}, "red"), "the seat of a child, with a line from its card"],
  [h("span.seat.seat-child.is-full", {}, "red"), "the child is complete, and has arrived"],
  [token("free"), "released: ann waited, and may go on"],
  [token("over"), "ann has ended; the number beside a name is its output"],
  ["gate", "a barrier; its bars break with it"],
  ["\u26A1\uFE0E", "interrupted"],
  [h("i.clock"), "the time-out of a wait"]
];
const programSigns = () => [
  ["0 1 2", "the number of a row, as the trace has it"],
  [h("i.place.hue0", {}, "ann"), "ann is at this row"]
];
const coloursSigns = () => [
  [swatch("now"), "now: the choice that is shown"],
  [swatch("stuck"), "stuck, thrown, broken or refused"],
  [swatch("ended"), "ended"],
  [swatch("later"), "pale: it comes later"],
  [swatch("thread"), "a thread has a colour, and always its name"]
];

const planSigns = () => [
  ["ann", "ann has one turn"],
  ["ann.", "ann goes on until she waits or ends"],
  ["ann*3", "three turns"],
  ["..", "all go on in turn, to the end"],
  ["?7", "a random order, the seventh"],
  ["xann", "the time of ann\u2019s wait runs out"]
];
// each instruction of a program once, and what it is in Java
function wordsOf(program) {
  const rows = program.rows.filter((row, n, all) => all.findIndex(other => other.word === row.word) === n);
  return rows.map(row => [h("code", {}, rowText(program, row)), javaText(program, row)]);
}

function part(title, list) {
  const one = ([sign, text]) => [h("dt", {}, sign), h("dd", {}, text)];
  return [h("h2", {}, title), h("dl.help-list", {}, list.map(one))];
}
const keySigns = () => KEY_TEXTS.map(([sign, text]) => [h("kbd", {}, sign), text]);

export const helpSheet = (program, close) => [
  h("div.sheet-column", {}, part("Timeline", timelineSigns()), part("Colours", coloursSigns()), part("Plan", planSigns())),
  h("div.sheet-column", {}, part("Picture", pictureSigns()), part("Program", programSigns())),
  h(
    "div.sheet-column.help-last",
    {},
    part("Words of this program", wordsOf(program)),
    h("div.sheet-keys", {}, part("Keys", keySigns())),
    button("Close", close, { kind: ".main" })
  )
];
