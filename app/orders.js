// The outcomes of random orders, each with how often it came, how it ends, what it put out and the shortest order
// that leads there.
import { endKind, endText, outputText } from "./ending.js";
import { button, h } from "./elements.js";
import { SEEDS } from "./outcomes.js";
import { planOf } from "./plan.js";

const SHOWN = 40;

function outcomeOf(program, one, most, take) {
  const output = outputText(program, one.end);
  return h(
    "button.outcome.outcome-" + endKind(one.end),
    { type: "button", onclick: () => take(one), title: "Show this run" },
    h("span.outcome-count", {}, one.count),
    h("span.meter", { vars: { "--part": one.count / most } }, h("i")),
    h(
      "span.outcome-said",
      {},
      h("b", {}, endText(program, one.end)),
      h("span", {}, output ? "output: " + output : "no output"),
      h("code", {}, planOf(program, one.events, 8))
    )
  );
}
// orders: what outcomesOf gave, or null; working: { done } while a worker plays them
// act: { take(outcome), play(), stop() }
export function ordersOf(program, orders, working, act) {
  if (working) {
    return [
      h("p.hint", { role: "status" }, working.done + " of " + SEEDS + " random orders are played."),
      h("span.meter", { vars: { "--part": working.done / SEEDS } }, h("i")),
      button("Stop", act.stop)
    ];
  }
  if (!orders) {
    return [
      h(
        "p.hint",
        {},
        "Plays " + SEEDS + " random orders of this program, and groups them by how they end and what they put out."
      ),
      button("Play " + SEEDS + " random orders", act.play, { kind: ".main" })
    ];
  }
  const most = Math.max(...orders.all.map(one => one.count));
  const said = orders.all.length === 1
    ? "one outcome. Others may be rare."
    : orders.all.length + " outcomes. Click one to see such a run.";
  const rest = orders.all.length - SHOWN;
  return [
    h("p.hint", {}, orders.tried + " random orders: " + said),
    h("div.outcomes", {}, orders.all.slice(0, SHOWN).map(one => outcomeOf(program, one, most, act.take))),
    rest > 0 ? h("p.hint", {}, rest + " more outcomes") : null
  ];
}
