// The program: one view that is read and edited. Threads stand in the margin at their rows, the row of this choice is
// marked, and a mistake is underlined at its word, with the help below the text. It is a text area over its own
// coloured copy, in one scroller.
import { DIRECTIVES, KINDS } from "./language.js";
import { byId, fill, h } from "./elements.js";
import { hueOf, javaText, threadName } from "./names.js";
import { isPlanHidden } from "./state.js";

const LONG = 20000;
// so many threads have room beside a row
const MARGIN = 2;
const OPTIONS = /^(parent|phase|never|until|onadvance|action)$/;

function kindOf(word) {
  if (word.endsWith(":")) return "label";
  if (DIRECTIVES.includes(word)) return "directive";
  if (KINDS[word]) return "word";
  if (OPTIONS.test(word)) return "option";
  return /^(r[0-7]|-?\d+)$/.test(word) ? "register" : "object";
}
function coloured(line) {
  const cut = line.indexOf(";");
  const code = cut < 0 ? line : line.slice(0, cut);
  const parts = code.split(/(\s+)/).map(part => (part.trim() ? h("span.code-" + kindOf(part), {}, part) : part));
  const talk = cut < 0 ? null : h("span.code-" + (line[cut + 1] === "?" ? "asked" : "talk"), {}, line.slice(cut));
  return [...parts, talk];
}

// changed(text), planned(text): what was typed
export function makeProgram(changed, planned) {
  const margin = h("div.code-margin", { "aria-hidden": "true" });
  const numbers = h("pre.code-numbers", { "aria-hidden": "true" });
  const copy = h("pre.code-copy", { "aria-hidden": "true" });
  const marks = h("div.code-marks", { "aria-hidden": "true" });
  const told = h("div.code-told", { role: "status", id: "mistake" });
  const plainly = { spellcheck: "false", autocapitalize: "off", autocomplete: "off" };
  const text = h("textarea.code-typed", {
    ...plainly,
    wrap: "off",
    "aria-label": "Program. It is played again as you type",
    "aria-describedby": "mistake",
    oninput: () => {
      grow();
      paint();
      changed(text.value);
    }
  });
  const sheet = h("div.code-sheet", {}, numbers, margin, h("div.code-over", {}, marks, copy, text));
  const scroll = h("div.scroll.code-scroll", {}, sheet);
  const plan = h("input.plan-typed", {
    ...plainly,
    type: "text",
    id: "plan",
    "aria-describedby": "mistake",
    title: "ann. is ann until she waits or ends, ann is one turn, .. is all until the end, ?7 a random order",
    oninput: () => planned(plan.value)
  });
  fill(byId("code"), scroll, told, h("div.plan", {}, h("label", { for: "plan" }, "Plan"), plan));
  let shown = null;
  // the program whose rows have their numbers, or the text whose lines have theirs
  let numbered = null;
  // a line that is to come into view
  let brought = -1;
  // the mistake that is told
  let wrong = null;

  function grow() {
    const lines = text.value.split("\n");
    sheet.style.setProperty("--lines", lines.length + 1);
    sheet.style.setProperty("--columns", lines.reduce((most, line) => Math.max(most, line.length), 20) + 2);
  }
  function paint() {
    fill(copy, text.value.split("\n").map((line, n) => h("span", {}, coloured(line), javaOf(n), "\n")));
  }
  // Java's words behind a row, where they are asked for
  function javaOf(line) {
    if (!shown || !shown.isJava || shown.mistake) return null;
    const row = shown.tree.program.lineOf.indexOf(line);
    return row < 0
      ? null
      : h("span.code-java", {}, "  " + javaText(shown.tree.program, shown.tree.program.rows[row]));
  }
  // what: the state, with `moment` and `event`, the choice that led there
  function show(what, moment, event) {
    const isOther = text.value !== what.text;
    const wasJava = shown && shown.isJava;
    const isMended = Boolean(shown && shown.mistake) !== Boolean(what.mistake);
    shown = what;
    if (isOther) {
      text.value = what.text;
      scroll.scrollTop = 0;
    }
    showPlan(what);
    if (isOther || !copy.firstChild || wasJava !== what.isJava || (what.isJava && isMended)) {
      grow();
      paint();
    }
    showNumbers();
    showPlaces(moment, event);
    showMistake(what.mistake);
  }
  // the schedule of a long run is no text that one reads
  function showPlan(state) {
    const isLong = state.plan.length > LONG;
    const isHidden = isPlanHidden(state);
    const written = isLong || isHidden ? "" : state.plan;
    plan.placeholder = isHidden ? "after the answer" : isLong ? "the schedule of this page" : "";
    if (plan !== document.activeElement && plan.value !== written) plan.value = written;
  }
  // the numbers of the rows, by which the trace names them; of the lines, by which a mistake does
  function showNumbers() {
    const { program } = shown.tree;
    const isLines = Boolean(shown.mistake) && shown.mistake.isProgram;
    const what = isLines ? shown.text : program;
    if (numbered === what) return;
    numbered = what;
    const lines = isLines ? shown.text.split("\n").map((_, n) => n + 1) : [];
    if (!isLines) program.lineOf.forEach((line, row) => (lines[line] = row));
    numbers.textContent = Array.from(lines, row => row ?? "").join("\n");
  }
  function showPlaces(moment, event) {
    fill(margin);
    fill(marks);
    if (shown.mistake && shown.mistake.isProgram) return;
    const { program } = shown.tree;
    const at = new Map();
    moment.state.threads.forEach((thread, t) => {
      if (/ended|died/.test(thread.status)) return;
      const line = program.lineOf[thread.row];
      at.set(line, [...(at.get(line) || []), t]);
    });
    const sign = (t, list) => {
      const room = list.length > MARGIN ? 1 : list.length > 1 ? 2 : 4;
      return h("i.place." + hueOf(t), { title: threadName(program, t) }, threadName(program, t).slice(0, room));
    };
    const places = ([line, list]) => {
      // what has no room in the margin is counted
      const some = list.length > MARGIN ? list.slice(0, 1) : list;
      const more = list.length > some.length ? h("i.place", {}, "+" + (list.length - 1)) : null;
      return h("span.places", { vars: { "--line": line } }, some.map(t => sign(t, list)), more);
    };
    fill(margin, [...at].map(places));
    const line = event && event.row >= 0 ? program.lineOf[event.row] : -1;
    if (line < 0) return;
    fill(marks, h("span.code-now", { vars: { "--line": line } }));
    if (document.activeElement !== text) brought = line;
  }
  // what is measured, when all that is drawn is there
  function settle() {
    const line = brought;
    brought = -1;
    if (line < 0) return;
    const high = text.offsetHeight / (text.value.split("\n").length + 1);
    const top = line * high;
    const isIn = top >= scroll.scrollTop && top + high * 2 <= scroll.scrollTop + scroll.clientHeight;
    if (!isIn) scroll.scrollTop = Math.max(0, top - scroll.clientHeight / 2);
  }
  function showMistake(mistake) {
    const isProgram = Boolean(mistake) && mistake.isProgram;
    text.setAttribute("aria-invalid", String(isProgram));
    plan.setAttribute("aria-invalid", String(Boolean(mistake) && !isProgram));
    const line = isProgram && mistake.line !== null ? mistake.line - 1 : 0;
    if (wrong !== mistake) {
      wrong = mistake;
      fill(told, mistake ? toldOf(mistake) : null);
      // who types sees what is typed
      const typed = text.value.slice(0, text.selectionStart).split("\n").length - 1;
      if (isProgram) brought = document.activeElement === text ? typed : line;
    }
    if (!isProgram) return;
    marks.append(h("span.code-bad", { vars: { "--line": line } }));
    if (mistake.word) {
      const [from, to] = mistake.word;
      marks.append(
        h("span.code-wave", { vars: { "--line": line, "--from": from, "--wide": Math.max(1, to - from) } })
      );
    }
  }
  function toldOf(mistake) {
    const where = mistake.isProgram && mistake.line !== null ? "Line " + mistake.line + ": " : "";
    const mend = mistake.isProgram
      ? h("button.code-mend", { type: "button", onclick: () => mended(mistake) }, mistake.near)
      : h("b", {}, mistake.near);
    const helps = mistake.near ? [" Did you mean ", mend, " ?"] : mistake.helps ? " " + mistake.helps + "." : "";
    return [h("b", {}, where, mistake.means + "."), helps];
  }
  // puts in the word that was probably meant
  function mended(mistake) {
    const lines = text.value.split("\n");
    const line = lines[mistake.line - 1];
    lines[mistake.line - 1] = line.slice(0, mistake.word[0]) + mistake.near + line.slice(mistake.word[1]);
    text.value = lines.join("\n");
    grow();
    paint();
    changed(text.value);
    text.focus();
  }
  return { show, settle, focus: () => text.focus() };
}
