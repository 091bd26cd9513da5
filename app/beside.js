// The ends of two runs beside each other, thread by thread; what differs is marked, by a sign too.
import { threadEnd } from "./ending.js";
import { h } from "./elements.js";
import { hueOf, threadName } from "./names.js";

const SHOWN = 12;

export function endsBeside(program, left, right) {
  const all = program.threads.map((_, t) => t);
  const differ = all.filter(t => threadEnd(left.end, t) !== threadEnd(right.end, t));
  const row = t => {
    const other = h("td", {}, h("b", { "aria-label": "differs: " }, "\u2260 "), threadEnd(right.end, t));
    return h(
      "tr.is-other",
      {},
      h("th." + hueOf(t), { scope: "row" }, threadName(program, t)),
      h("td", {}, threadEnd(left.end, t)),
      other
    );
  };
  const isAlike = left.end.key === right.end.key;
  const said = isAlike
    ? "Both runs end alike: each thread, each output, each phaser and barrier."
    : differ.length
      ? "The other threads end alike."
      : "The threads end alike; registers, phasers, barriers or cells differ.";
  const heads = ["End", "Run " + (left.id + 1), "Run " + (right.id + 1)].map(text => h("th", { scope: "col" }, text));
  const rows = [...differ.slice(0, SHOWN).map(row), h("tr", {}, h("td", { colspan: 3 }, said))];
  return h("table.beside", {}, h("thead", {}, h("tr", {}, heads)), h("tbody", {}, rows));
}
