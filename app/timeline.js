// The timeline: a column for each thread, a row for each choice. Only the rows and columns in view are in the page,
// so a run of a million choices and 64 threads scrolls. What threads do between the rows is asked of the machine for
// the rows in view, some milliseconds a frame. For a screen reader it is a table.
import { metOf } from "./arrivals.js";
import { arrange, fill, h, makeShelf } from "./elements.js";
import { hueOf, threadName } from "./names.js";
import { eventTo, hasMoment, lengthOf, momentOf } from "./run.js";
import { metText, shortMark, tagOf } from "./sentence.js";
import { doingOf, veiled } from "./trace.js";

const BUDGET = 8;
// browsers scroll no higher boxes than those of so many rows: of a longer run the rows near this choice are there
const ROOM = 100000;
const EDGE = 1000;
const AROUND = 6;
const DOING = {
  runs: "runs",
  waits: "waits",
  free: "may go on",
  held: "can\u2019t go on",
  throws: "throws",
  over: "is over",
  dead: "is dead"
};

// go(i): the row that was clicked; select(t): the name
export function makeTimeline(go, select) {
  const names = h("div.time-names", { role: "row" });
  const lanes = h("div.time-lanes", { "aria-hidden": "true" });
  const lines = h("div.time-lines", { role: "rowgroup" });
  const body = h("div.time-body", { role: "presentation" }, lanes, lines);
  const label = "Timeline: a column for each thread, a row for each choice";
  const scroll = h(
    "div.scroll.time-scroll",
    { tabindex: 0, role: "table", "aria-label": label, onscroll: () => scrolled() },
    names,
    body
  );
  const head = h("p.time-head");
  const element = h("div.time", {}, head, scroll);
  let shown = null;
  // the choices that have rows, or null if all have; how many rows there would be, and the first that is there
  let rows = null;
  let whole = 0;
  let origin = 0;
  let size = { row: 30, number: 50, column: 80, rem: 16 };
  // what is in view, kept so that no row asks the page for it: such a question lays the whole page out anew
  let view = { top: 0, left: 0, height: 0, width: 0 };
  let drawn = "";
  let pending = 0;
  // whether the view has been moved, and the page not yet
  let isAhead = false;
  // the rows and bars that are drawn
  let shelf = makeShelf();

  body.addEventListener("click", event => {
    const k = Math.floor((event.clientY - body.getBoundingClientRect().top) / size.row);
    if (shown && k >= 0 && k < count()) go(choiceAt(k));
  });
  new ResizeObserver(() => redraw()).observe(scroll);

  function scrolled() {
    view = { ...view, top: scroll.scrollTop, left: scroll.scrollLeft };
    draw();
  }
  function scrollTo(top, left) {
    const most = bodyHeight() + 2.3 * size.rem - view.height;
    view = { ...view, top: Math.max(0, Math.min(top, most)), left: Math.max(0, left) };
    isAhead = true;
  }
  // what is measured, when all that is drawn is there
  function settle() {
    if (isAhead) scroll.scrollTo(view.left, view.top);
    isAhead = false;
  }
  const bodyHeight = () => (count() + 0.6) * size.row;

  // ---- which choice a row shows: all, or all but those that did nothing
  const count = () => Math.min(ROOM, whole - origin);
  const choiceAt = k => (rows ? rows[origin + k] : origin + k);
  const rowOf = i => (rows ? rows.indexOf(i) : i) - origin;
  function fold() {
    const { run, at, isFolded, isHidden } = shown;
    const last = isHidden ? at : lengthOf(run);
    rows = isFolded ? [] : null;
    if (isFolded) for (let i = 0; i <= last; i++) if (!i || i === at || !run.events.isIdle(i - 1)) rows.push(i);
    whole = rows ? rows.length : last + 1;
    const here = rows ? rows.indexOf(at) : at;
    const most = Math.max(0, whole - ROOM);
    const isBelow = here < origin + EDGE && origin > 0;
    const isAbove = here > origin + ROOM - EDGE && origin < most;
    if (isBelow || isAbove || origin > most) origin = Math.max(0, Math.min(most, here - ROOM / 2));
  }
  function measure() {
    size.rem = parseFloat(getComputedStyle(document.documentElement).fontSize);
    view = { top: scroll.scrollTop, left: scroll.scrollLeft, height: scroll.clientHeight, width: scroll.clientWidth };
    divide();
  }
  // how wide the columns are in this view
  function divide() {
    const { rem } = size;
    const threads = shown.tree.program.threads.length;
    const number = Math.max(2.6, String(lengthOf(shown.run)).length * 0.62 + 1.2) * rem;
    const least = (threads <= 8 ? 5.4 : 3.2) * rem;
    const column = Math.max(least, (view.width - number - 4) / threads);
    const isWide = number + column * threads > view.width + 4;
    size = { row: Math.round(2.1 * rem), number, column, rem, isWide };
    element.style.setProperty("--number", number + "px");
    element.style.setProperty("--row", size.row + "px");
    body.style.width = names.style.width = number + column * threads + "px";
    scroll.setAttribute("aria-rowcount", lengthOf(shown.run) + 2);
    scroll.setAttribute("aria-colcount", threads + 1);
  }
  // what: { tree, run, at, isJava, isHidden, isVeiled, isFolded, isSide, selected, title, differs, zoom }
  function show(what) {
    const isNew = !shown || shown.zoom !== what.zoom || !view.height;
    const isOther = isNew || shown.run !== what.run || shown.tree.program !== what.tree.program;
    const isMoved = isOther || shown.at !== what.at;
    if (isOther) shelf = makeShelf();
    shown = what;
    fold();
    if (isNew) measure();
    else if (isOther) divide();
    const part = whole > count() ? "Choices " + choiceAt(0) + " to " + choiceAt(count() - 1) + " stand here." : "";
    head.hidden = !what.title && !part;
    if (!head.hidden) fill(head, what.title || "", part);
    body.style.height = bodyHeight() + "px";
    if (isMoved) follow();
    draw(true);
  }
  function follow() {
    const place = rowOf(shown.at) * size.row;
    const room = view.height - 2.3 * size.rem;
    let { top, left } = view;
    if (place < top + size.row || place + size.row * 2.5 > top + room) top = place - room * 0.55;
    const event = eventTo(shown.run, shown.at);
    const column = event ? placeOf(event.thread) : 0;
    const isOut = column < left + size.number || column + size.column * 2 > left + view.width;
    if (event && size.isWide && isOut) left = column - view.width / 2;
    if (top !== view.top || left !== view.left) scrollTo(top, left);
  }
  const placeOf = t => size.number + t * size.column;

  function draw(isForced) {
    if (!shown || !view.height) return;
    const from = Math.max(0, Math.floor(view.top / size.row) - AROUND);
    const to = Math.min(count() - 1, Math.ceil((view.top + view.height) / size.row) + AROUND);
    const threads = shown.tree.program.threads.length;
    const left = Math.max(0, Math.floor((view.left - size.number) / size.column) - 1);
    const right = Math.min(threads - 1, Math.ceil((view.left + view.width) / size.column) + 1);
    const key = [from, to, left, right].join();
    if (!isForced && key === drawn) return;
    drawn = key;
    shelf.begin();
    drawNames(left, right);
    const isWhole = drawLanes(from, to, left, right);
    drawLines(from, to);
    if (!isWhole && !pending) {
      pending = requestAnimationFrame(() => {
        pending = 0;
        draw(true);
      });
    }
  }
  function drawNames(left, right) {
    const { program } = shown.tree;
    const moment = momentIn(shown.at);
    const corner = { role: "columnheader", "aria-colindex": 1, "aria-label": "choice" };
    const list = [shelf.take("corner", () => h("span.time-corner", corner))];
    for (let t = left; t <= right; t++) {
      const doing = doingOf(moment, t);
      const name = threadName(program, t);
      const isSelected = Boolean(shown.selected) && shown.selected.thread === t;
      // by its number a thread stands in traces and addresses
      const number = program.names.T[t] ? " (t" + t + ") " : " ";
      const given = {
        type: "button",
        vars: { left: placeOf(t) + "px", width: size.column + "px" },
        title: name + number + DOING[doing] + ": why?",
        "aria-pressed": String(isSelected),
        "data-doing": doing,
        onclick: () => select(t)
      };
      const cell = () => h(
        "span.time-namecell",
        { role: "columnheader", "aria-colindex": t + 2 },
        h("button.time-name." + hueOf(t), given, name)
      );
      list.push(shelf.take(["name", t, doing, isSelected, size.number, size.column].join(), cell));
    }
    arrange(names, list);
  }
  // while a question is open, who may go isn't told
  function momentIn(i) {
    const moment = momentOf(shown.tree, shown.run.id, i);
    return shown.isVeiled && i === shown.at ? veiled(moment) : moment;
  }
  // what each thread does behind each row, as bars from row to row; false if some moments aren't there yet
  function drawLanes(from, to, left, right) {
    const until = performance.now() + BUDGET;
    const { tree, run } = shown;
    const moments = [];
    let isWhole = true;
    for (let k = from; k <= to && isWhole; k++) {
      const i = choiceAt(k);
      isWhole = hasMoment(tree, run.id, i) || performance.now() < until || !moments.length;
      if (isWhole) moments.push(momentIn(i));
    }
    const list = [];
    for (let t = left; t <= right; t++) {
      for (let k = 0, n; k < moments.length; k += n) {
        const doing = doingOf(moments[k], t);
        const isLater = moments[k].i >= shown.at;
        const isSame = one => one && doingOf(one, t) === doing && one.i >= shown.at === isLater;
        for (n = 1; isSame(moments[k + n]); n++);
        if (doing === "over" || doing === "dead") continue;
        const isLast = k + n === moments.length && from + k + n === count();
        const vars = {
          left: placeOf(t) + "px",
          top: (from + k + 0.5) * size.row + "px",
          height: (n - (isLast ? 0.45 : 0)) * size.row + "px"
        };
        const kind = "i.lane.lane-" + doing + "." + hueOf(t) + (isLater ? ".is-later" : "");
        list.push(shelf.take([kind, vars.left, vars.top, vars.height].join(), () => h(kind, { vars })));
      }
    }
    arrange(lanes, list);
    return isWhole;
  }
  function drawLines(from, to) {
    const list = [];
    const { isJava, isSide, differs } = shown;
    const common = [isJava, isSide, differs, view.left, view.width, ...Object.values(size)].join();
    for (let k = from; k <= to; k++) {
      const i = choiceAt(k);
      const isHere = i === shown.at;
      const isOther = differs && i > differs;
      const kinds = (isHere ? ".is-here" : i > shown.at ? ".is-later" : "") + (isOther ? ".is-other" : "");
      list.push(shelf.take([k, i, kinds, common].join(), () => lineOf(k, i, kinds, isHere)));
    }
    arrange(lines, list);
  }
  function lineOf(k, i, kinds, isHere) {
    const event = eventTo(shown.run, i);
    const number = h("span.line-number" + (i ? "" : ".is-start"), { role: "rowheader" }, i || "start");
    const inside = [number];
    if (event) inside.push(eventOf(event), event.mark ? markOf(event, i) : null);
    if (shown.isSide && shown.differs === i - 1 && i > 0) inside.push(h("span.line-part", {}, "they part here"));
    const given = {
      role: "row",
      "aria-rowindex": i + 2,
      "aria-current": isHere ? "step" : null,
      vars: { top: k * size.row + "px" }
    };
    return h("div.line" + kinds, given, inside);
  }
  function eventOf(event) {
    const { program } = shown.tree;
    const at = placeOf(event.thread);
    const tag = tagOf(program, event, shown.isJava);
    const name = threadName(program, event.thread);
    const given = { role: "cell", "aria-colindex": event.thread + 2, "aria-label": name + ": " + tag };
    // where its column is out of view, its words stand at the margin
    if (at < view.left + size.number - size.column || at > view.left + view.width) {
      const sign = at < view.left + size.number ? "\u25C2 " : "\u25B8 ";
      return h("span.line-far." + hueOf(event.thread), given, sign + name + " " + tag);
    }
    const isOnLeft = size.column < 5 * size.rem && at - view.left > view.width * 0.6;
    const kinds = ".event.event-" + (
      event.what === "=" ? "value" : event.what
    ) + "." + hueOf(event.thread) + (isOnLeft ? ".is-onleft" : "");
    return h("span" + kinds, { ...given, vars: { left: at + "px" } }, h("i.event-dot"), h("span.event-tag", {}, tag));
  }
  // the end of a phase is a rule below its row, with a dot for each who arrived for it; its words stand where the row
  // has room, else below the rule
  function markOf(event, i) {
    const { program } = shown.tree;
    const text = shortMark(program, event.mark);
    const met = metOf(shown.tree, shown.run.id, i, event.mark);
    const isIn = t => placeOf(t + 1) > view.left && placeOf(t) < view.left + view.width;
    const dot = t => h("i.mark-dot", { vars: { left: placeOf(t) - size.number + "px" } });
    const at = placeOf(event.thread);
    const wide = (text.length * 0.47 + 1.3) * size.rem;
    const own = (tagOf(program, event, shown.isJava).length * 0.55 + 2) * size.rem;
    const hasRight = view.width - at - own > wide;
    const side = size.isWide
      ? ".is-left.is-under"
      : hasRight ? "" : at - size.number > wide ? ".is-left" : ".is-under";
    return h(
      "span.mark" + (event.mark.kind[0] === "-" ? ".mark-broke" : "") + side,
      { role: "note", "aria-label": text + metText(program, event, met) },
      h("span", {}, text),
      met.filter(isIn).map(dot)
    );
  }
  function redraw() {
    if (!shown) return;
    measure();
    body.style.height = bodyHeight() + "px";
    draw(true);
    settle();
  }
  return { element, show, settle, redraw };
}
