// The tree of runs: a line for each, from its fork to its end, as long as it has choices. A click on a line walks
// there.
import { endKind, endText, KIND_TEXT, outputText } from "./ending.js";
import { fill, h, who } from "./elements.js";
import { threadName } from "./names.js";
import { inOrder, lengthOf } from "./run.js";

export function runName(tree, run) {
  if (run.parent < 0) return "Run 1";
  const event = run.events.at(run.fork);
  const old = tree.runs[run.parent].events.at(run.fork);
  if (!event) return "Run " + (run.id + 1);
  const name = threadName(tree.program, event.thread) + (event.isLate ? "\u2019s time-out" : "");
  return "Run " + (run.id + 1) + ": at " + run.fork + " " + name + (
    old ? ", not " + threadName(tree.program, old.thread) : ""
  );
}

// walk(id, i): a place of a run was clicked
export function makeTree(walk) {
  const element = h("div.tracks.scroll", { role: "list", "aria-label": "Runs" });
  let shown = {};
  let isMoved = false;

  // isQuiet: how the runs end isn't told
  function show(what) {
    const isSame = ["tree", "run", "isQuiet"].every(name => shown[name] === what[name]);
    isMoved = !isSame;
    shown = what;
    if (!isSame) return draw(what);
    const most = Math.max(1, ...what.tree.runs.map(lengthOf));
    element.querySelector(".rail-at").style.setProperty("left", (100 * what.at) / most + "%");
  }
  function draw({ tree, run, at, isQuiet }) {
    const most = Math.max(1, ...tree.runs.map(lengthOf));
    const part = i => (100 * i) / most + "%";
    const all = inOrder(tree);
    const track = ({ run: one }, lane) => {
      const isHere = one === run;
      const begins = one.parent < 0 ? 0 : one.fork;
      const kind = endKind(one.end);
      const event = one.events.at(one.fork);
      const first = Math.min(begins + (one.parent < 0 ? 0 : 1), lengthOf(one));
      const name = {
        type: "button",
        "aria-current": isHere ? "true" : null,
        title: runName(tree, one) + (isQuiet ? "" : " \u2014 " + endText(tree.program, one.end)),
        onclick: () => walk(one.id, isHere ? shown.at : first)
      };
      const said = one.parent < 0 || !event
        ? " the run"
        : [" at " + one.fork + " ", who(tree.program, event.thread), event.isLate ? " late" : ""];
      const click = pressed => {
        const box = pressed.currentTarget.getBoundingClientRect();
        const i = Math.round(((pressed.clientX - box.left) / box.width) * most);
        walk(one.id, Math.max(begins, Math.min(lengthOf(one), i)));
      };
      const up = lane - all.findIndex(other => other.run.id === one.parent);
      return h(
        "div.track" + (isHere ? ".is-here" : ""),
        { role: "listitem" },
        h("button.track-name", name, h("b", {}, one.id + 1), said),
        h(
          "div.rail",
          { onclick: click },
          h(
            "i.rail-bar.rail-" + (isQuiet ? "open" : kind),
            { vars: { left: part(begins), width: part(lengthOf(one) - begins) } }
          ),
          one.parent >= 0 ? h("i.rail-fork", { vars: { left: part(begins), "--up": up } }) : null,
          isHere ? h("i.rail-at", { vars: { left: part(at) } }) : null
        ),
        isQuiet ? h("span") : h("span.end.end-" + kind, { title: outputText(tree.program, one.end) }, KIND_TEXT[kind])
      );
    };
    fill(element, all.map(track));
  }
  // what is measured, when all that is drawn is there
  function settle() {
    const here = isMoved && element.querySelector(".is-here");
    if (here) element.scrollTop = Math.max(0, here.offsetTop - element.clientHeight + here.offsetHeight + 2);
  }
  return { element, show, settle };
}
