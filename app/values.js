// The values of a moment as tables: threads with their registers, output and stack, phasers, barriers, cells. What
// this choice changed is marked.
import { h } from "./elements.js";
import { nameOf } from "./language.js";
import { hueOf, labelOf, phaseOf, rowText, thrown, threadName } from "./names.js";
import { doingOf } from "./trace.js";

const DOES = {
  over: "ended",
  dead: "died of",
  throws: "throws",
  held: "can\u2019t go on",
  waits: "waits",
  free: "may go on",
  runs: "runs"
};
const cell = (text, was) => h("td" + (was !== undefined && String(was) !== String(text) ? ".is-new" : ""), {}, text);

function tableOf(caption, heads, rows) {
  const head = h("thead", {}, h("tr", {}, heads.map(one => h("th", { scope: "col" }, one))));
  return h("table.values-table", {}, h("caption", {}, caption), head, h("tbody", {}, rows));
}
const rowHead = (text, kind = "") => h("th" + kind, { scope: "row" }, text);

function entryOf(program, entry) {
  if (entry[0] === "H") return "try " + labelOf(program, Number(entry.slice(1)));
  if (entry[0] === "C") return "call " + entry.slice(1);
  return (entry[0] === "A" ? "onAdvance " : "action ") + nameOf(
    program,
    entry[0] === "A" ? "P" : "B",
    Number(entry.slice(1))
  );
}
function threadsOf(program, moment, old) {
  const { threads } = moment.state;
  const isUsed = r => program.rows.some(row => row.operands.includes("r" + r)) ||
    threads.some(one => one.registers[r]);
  const used = [0, 1, 2, 3, 4, 5, 6, 7].filter(isUsed);
  const row = (thread, t) => {
    const was = old && old.threads[t];
    const does = DOES[doingOf(moment, t)] + (thread.code === null ? "" : " " + thrown(thread.code));
    const out = thread.out.slice(-6).join(" ");
    return h(
      "tr",
      {},
      rowHead(threadName(program, t), "." + hueOf(t)),
      cell(does + (thread.isInterrupted ? ", interrupted" : "")),
      h("td", {}, h("code", {}, rowText(program, program.rows[thread.row]))),
      used.map(r => cell(thread.registers[r], was ? was.registers[r] : undefined)),
      cell(out, was ? was.out.slice(-6).join(" ") : undefined),
      cell(thread.stack.map(one => entryOf(program, one)).join(", "))
    );
  };
  return tableOf(
    "Threads",
    ["thread", "does", "row", ...used.map(r => "r" + r), "output", "stack"],
    threads.map(row)
  );
}
function phasersOf(program, state, old) {
  const phase = one => (one.view < 0 ? "terminated in " + phaseOf(one.view) : one.view);
  const row = (one, p) => {
    const was = old ? old.phasers[p] : {};
    const cells = [cell(phase(one), old ? phase(was) : undefined), cell(one.parties, was.parties)];
    return h(
      "tr",
      {},
      rowHead(nameOf(program, "P", p)),
      cells,
      cell(one.arrived, was.arrived),
      cell(one.missing, was.missing)
    );
  };
  return tableOf("Phasers", ["phaser", "phase", "parties", "arrived", "missing"], state.phasers.map(row));
}
function barriersOf(program, state, old) {
  const broken = one => (one.isBroken ? "yes" : "no");
  const row = (one, b) => {
    const was = old ? old.barriers[b] : null;
    const cells = [cell(program.barriers[b].parties), cell(one.waiting, was ? was.waiting : undefined)];
    return h("tr", {}, rowHead(nameOf(program, "B", b)), cells, cell(broken(one), was ? broken(was) : undefined));
  };
  return tableOf("Barriers", ["barrier", "parties", "waiting", "broken"], state.barriers.map(row));
}
function cellsOf(program, state, old) {
  const row = ([c, value]) => h(
    "tr",
    {},
    rowHead(nameOf(program, "C", Number(c))),
    cell(value, old ? old.cells[c] || 0 : undefined)
  );
  return tableOf("Cells that aren\u2019t 0", ["cell", "value"], Object.entries(state.cells).map(row));
}
// before: the moment before, or null
export function valuesOf(program, moment, before) {
  const { state } = moment;
  const old = before ? before.state : null;
  return [
    threadsOf(program, moment, old),
    program.phasers.length ? phasersOf(program, state, old) : null,
    program.barriers.length ? barriersOf(program, state, old) : null,
    Object.keys(state.cells).length ? cellsOf(program, state, old) : null
  ];
}
