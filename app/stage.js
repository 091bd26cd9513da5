// The stage: the sentence of this choice, the steps, and the names of those who may go next. Each has one place and
// one height, so nothing moves while one steps.
import { endKind, endText, outputText } from "./ending.js";
import { byId, fill, h, shown } from "./elements.js";
import { hueOf, plain, threadName } from "./names.js";
import { reasonOf, strayOf } from "./reason.js";
import { eventTo, lengthOf, momentOf } from "./run.js";
import { refusedText, sentenceOf, wouldText } from "./sentence.js";
import { isLaterHidden, isNextHidden, isVeiled, lastOf, runOf } from "./state.js";

// programs of at most so many threads have a place for each name
export const PLACES = 8;
// on a phone so many
const FEW = 4;

// where the pointer was last: a name that is drawn anew below one that rests isn't tried
let rest = "";
const placeOf = event => event.clientX + " " + event.clientY;

const eventOf = (moment, token) => (token[0] === "x" ? moment.late : moment.next)[Number(token.slice(1))];

// What the sentence says: { badge, kind, parts, reason, verdict }.
function saidOf(state) {
  const { tree, at, mistake } = state;
  const run = runOf(state);
  const { program } = tree;
  if (mistake) {
    const where = mistake.isProgram
      ? "The program has a mistake" + (mistake.line ? " in line " + mistake.line : "")
      : "The plan has a mistake";
    return { badge: "!", kind: "wrong", parts: [where + ". The run below is the last that could be played."] };
  }
  const moment = momentOf(tree, run.id, at);
  const tried = state.preview && eventOf(moment, state.preview);
  if (tried) return {
    badge: "?",
    kind: "would",
    parts: ["If it\u2019s next: ", ...wouldText(program, tried, moment)]
  };
  // that nobody may go is an answer
  const word = isVeiled(state) ? "" : moment.state.word;
  const kind = word === "all" ? endKind(moment.state) : word === "stuck" ? word : "";
  const end = { stuck: " Stuck: no thread can ever go on.", all: " All threads are over." }[word] || "";
  const isRefused = run.refused && at === lengthOf(run);
  const verdict = isRefused ? " " + refusedText(run.refused, at + 1) : end;
  if (!at) return {
    badge: 0,
    kind,
    verdict,
    parts: [program.about || "Each thread is at its first row. Who goes first?"]
  };
  const parts = sentenceOf(program, eventTo(run, at), momentOf(tree, run.id, at - 1), moment);
  const reasons = isVeiled(state) ? [] : [reasonOf(tree, run.id, at), strayOf(tree, run.id, at)];
  const reason = reasons.filter(Boolean).join(" ");
  return { badge: at, kind, verdict, parts, reason };
}
function drawSaid(state) {
  const { badge, kind, parts, verdict, reason } = saidOf(state);
  const text = plain(state.tree.program, parts) + (verdict || "") + (reason || "");
  byId("said").dataset.kind = kind;
  byId("said").className = text.length > 210 ? "is-longer" : text.length > 130 ? "is-long" : "";
  const end = verdict ? h("strong.said-verdict", {}, verdict) : null;
  const why = reason ? h("span.said-reason", {}, " " + reason) : null;
  fill(
    byId("said"),
    h("span.said-badge", {}, badge),
    h("span.said-text", {}, shown(state.tree.program, parts), end, why)
  );
}
function drawNext(state, act) {
  const { tree, at } = state;
  const run = runOf(state);
  const { program } = tree;
  const moment = momentOf(tree, run.id, at);
  const own = isLaterHidden(state) ? "" : run.choices[at];
  const isHidden = isNextHidden(state);
  const all = isHidden ? [] : [...Object.values(moment.next), ...Object.values(moment.late)];
  // the same names again keep their elements, and with them the focus
  const key = [program.text.length, at, run.id, own, isHidden, ...all.map(one => one.token)].join(" ");
  if (byId("next").dataset.key === key) return;
  const hadFocus = byId("next").contains(document.activeElement);
  byId("next").dataset.key = key;
  byId("next").onpointermove = moved => (rest = placeOf(moved));
  const places = program.threads.length > PLACES ? [] : program.threads.map((_, t) => t);
  const blank = t => h("span.next-place", { "aria-hidden": "true" }, threadName(program, t));
  const chip = (event, k) => {
    const isOwn = event.token === own;
    const kinds = ".chip." + hueOf(event.thread) + (event.isLate ? ".chip-late" : "") + (isOwn ? ".chip-own" : "");
    const given = {
      type: "button",
      "data-token": event.token,
      title: (isOwn ? "The run goes on so" : own ? "Another run" : "Next") + (k < 9 ? " (key " + (k + 1) + ")" : ""),
      onclick: () => act.choose(event.token),
      onpointerenter: moved => placeOf(moved) !== rest && act.tryOut(event.token),
      onpointerleave: () => act.tryOut(""),
      // the Tab by which it got the focus; the focus that it gets when it is drawn anew tries nothing
      onkeyup: pressed => pressed.key === "Tab" && act.tryOut(event.token),
      onblur: () => act.tryOut("")
    };
    const name = threadName(program, event.thread);
    if (event.isLate) given["aria-label"] = "the time-out of " + name;
    return h("button" + kinds, given, event.isLate ? h("i.clock") : null, name);
  };
  const nobody = moment.state.word === "stuck" ? "Nobody may go" : "All are over";
  const label = isHidden ? "Next: after the answer" : all.length ? "Next:" : nobody;
  // a name has its place also while its thread may not go, so that none moves below the pointer
  const list = places.length ? [...places.map(t => moment.next[t] || t), ...Object.values(moment.late)] : all;
  const chips = all.length ? list.map((one, k) => (one.token ? chip(one, k) : blank(one))) : null;
  byId("next").classList.toggle("is-many", places.length > FEW);
  fill(byId("next"), h("span.next-label", {}, label), chips);
  if (hadFocus) (byId("next").querySelector(".chip-own, .chip") || byId("forth")).focus();
}

// act: { choose(token), tryOut(token) }
export function drawStage(state, act) {
  const { tree, at } = state;
  const run = runOf(state);
  drawSaid(state);
  const isCut = state.isCut && run.parent < 0;
  const isQuiet = isLaterHidden(state);
  const all = isQuiet ? "" : " of " + lengthOf(run) + (isCut ? "\u2026" : "");
  fill(byId("where"), h("b", {}, at), all);
  byId("where").style.setProperty("--digits", String(lengthOf(run)).length);
  byId("where").title = isCut ? "The plan goes on; the first " + lengthOf(run) + " choices are shown" : "";
  drawNext(state, act);
  byId("first").disabled = byId("back").disabled = at === 0;
  byId("forth").disabled = byId("last").disabled = at === lastOf(state);
  const kind = endKind(run.end);
  const end = "Run " + (run.id + 1) + (kind === "open" ? " stays open" : ": " + endText(tree.program, run.end));
  fill(byId("ends"), isQuiet ? "" : h("span.end.end-" + kind, { title: outputText(tree.program, run.end) }, end));
}
