// The picture of a moment: phasers as cards whose seats fill, children below their parents with edges between,
// barriers as gates that open and break, the threads that are elsewhere, and a line why for each that waits. A seat
// is a party. How many seats are taken is the machine's; who took them is read off the lines of the choices.
import { arrivalsOf } from "./arrivals.js";
import { fill, fly, h, placesIn, pulse, renew, s, shown } from "./elements.js";
import { nameOf, operandOf, rootOf } from "./language.js";
import { hueOf, phaseOf, threadName } from "./names.js";
import { arrivalsText, lastNumberOf } from "./reason.js";
import { eventTo } from "./run.js";
import { doingOf } from "./trace.js";
import { whyOf, whysOf } from "./why.js";

// with more parties than this the seats are a meter
const MANY = 12;
const SHOWN = 24;

// act: { thread(t), phaser(p) }: what was clicked
export function makeScene(act) {
  const edges = s("svg.edges", { "aria-hidden": "true" });
  const cards = h("div.cards");
  const crowd = h("div.crowd");
  const whys = h("ul.whys", { "aria-label": "Who waits, and for whom" });
  const space = h("div.space", {}, edges, cards, crowd);
  const label = "Phasers, barriers and threads";
  const element = h("div.scene.scroll", { tabindex: 0, role: "group", "aria-label": label }, space, whys);
  let last = null;
  let places = new Map();
  let isStep = false;
  // the thread or phaser whose answer came into view
  let answered = null;
  new ResizeObserver(() => drawEdges(space, edges)).observe(space);

  // what: { tree, run, at, moment, selected }
  function show(what) {
    const before = last;
    last = what;
    isStep = before && before.tree.program === what.tree.program && before.run === what.run &&
      before.at + 1 === what.at;
    places = placesIn(space);
    draw(what);
  }
  // what is measured, when all that is drawn is there
  function settle() {
    fly(space, places);
    drawEdges(space, edges);
    if (isStep) move(space, last.tree.program, eventTo(last.run, last.at));
  }
  function draw(what) {
    const { program } = what.tree;
    const { state } = what.moment;
    const things = program.phasers.length + program.barriers.length;
    const scene = {
      ...what,
      program,
      state,
      seated: new Set(),
      fold: arrivalsOf(what.tree, what.run.id, what.at),
      // few cards keep room for those who are released, so that nothing moves when they are
      keepsRoom: program.threads.length <= 8 && things <= 2,
      act
    };
    const roots = program.phasers.flatMap((one, p) => (one.parent < 0 ? [p] : []));
    renew(cards, roots.map(p => branchOf(scene, p)), program.barriers.map((_, b) => barrierCard(scene, b)));
    cards.classList.toggle("is-stuck", state.word === "stuck" && !what.moment.isVeiled);
    element.classList.toggle("is-roomy", program.threads.length + things <= 8);
    renew(crowd, crowdOf(scene));
    drawWhys(scene);
  }
  function drawWhys({ program, moment, selected, tree, run, at }) {
    if (moment.isVeiled) return renew(whys, h("li.why.why-hint", {}, "Who waits, and for whom: after the answer."));
    const all = whysOf(program, moment);
    const isTold = one => /stuck|waits|free|dead/.test(one.kind);
    const chosen = selected && selected.thread !== undefined ? whyOf(program, moment, selected.thread) : null;
    const lines = [];
    if (selected && selected.phaser !== undefined) {
      lines.push(h("li.why.is-selected", {}, shown(program, arrivalsText(tree, run, at, selected.phaser))));
    }
    if (chosen) {
      const number = lastNumberOf(tree, run, at, chosen.thread);
      const more = number ? h("span.why-number", {}, shown(program, number)) : null;
      lines.push(h("li.why.is-selected.why-" + chosen.kind, {}, h("span", {}, shown(program, chosen.text)), more));
    }
    const rest = all.filter(one => isTold(one) && (!chosen || one.thread !== chosen.thread));
    for (const one of rest.slice(0, SHOWN)) lines.push(h("li.why.why-" + one.kind, {}, shown(program, one.text)));
    if (rest.length > SHOWN) lines.push(h("li.why", {}, "and " + (rest.length - SHOWN) + " more"));
    if (!lines.length) lines.push(
      h("li.why.why-hint", {}, "Nobody waits. Click a thread or a phaser: its line stands here.")
    );
    renew(whys, lines);
    if (selected !== answered) {
      answered = selected;
      whys.querySelector(".is-selected")?.scrollIntoView({ block: "nearest" });
    }
    for (const t of chosen ? chosen.could : []) {
      space.querySelector('[data-fly="t' + t + '"]')?.classList.add("is-able");
    }
  }
  return { element, show, settle };
}

// ---- threads
function tokenOf({ program, moment, selected, act }, t, kind = "") {
  const doing = doingOf(moment, t);
  const isSelected = Boolean(selected) && selected.thread === t;
  const given = {
    type: "button",
    "data-fly": "t" + t,
    "aria-pressed": String(isSelected),
    title: threadName(program, t) + ": why?",
    onclick: () => act.thread(t)
  };
  return h("button.token." + hueOf(t) + ".token-" + doing + kind, given, threadName(program, t));
}
const standsAt = ({ program, state }, t, kind) =>
  state.threads[t].status === "waits" ? operandOf(program.rows[state.threads[t].row], kind) : -1;

function visitorsOf(scene, label, list) {
  if (!list.length && !scene.keepsRoom) return null;
  const more = list.length > 16 ? "+" + (list.length - 16) : null;
  const said = list.length ? h("span", {}, label) : null;
  return h("div.visitors", {}, said, list.slice(0, 16).map(t => tokenOf(scene, t, ".is-visitor")), more);
}

// ---- phasers
function seatOf(scene, p, k, taken, who) {
  const { program, seated, moment } = scene;
  if (k >= taken) return h("span.seat", { role: "img", "aria-label": "an arrival is missing" });
  const t = who[k] ? who[k].thread : undefined;
  const isHere = t !== undefined && !seated.has(t) && standsAt(scene, t, "P") === p && doingOf(moment, t) === "waits";
  if (isHere) {
    seated.add(t);
    return h("span.seat.is-full", {}, tokenOf(scene, t));
  }
  if (t === undefined) return h("span.seat.is-full.is-gone", { title: "arrived" }, "\u2713");
  const name = threadName(program, t);
  return h(
    "span.seat.is-full.is-gone",
    { title: name + " arrived, and went on" },
    h("span.seat-been." + hueOf(t), {}, "\u2713 " + name)
  );
}
function phaserCard(scene, p) {
  const { program, state, fold, seated, moment, selected, act } = scene;
  const one = state.phasers[p];
  const isRoot = program.phasers[p].parent < 0;
  const kids = program.children[p].filter(child => state.phasers[child].parties > 0);
  const kidsIn = kids.filter(child => state.phasers[child].missing === 0);
  const taken = Math.max(0, one.arrived - kidsIn.length);
  const own = Math.max(0, one.parties - kids.length);
  // those who arrived last, as many as the machine counts
  const who = taken ? fold.arrived[p].slice(-taken) : [];
  const kid = child => {
    const given = { "data-child": child };
    return h("span.seat.seat-child" + (kidsIn.includes(child) ? ".is-full" : ""), given, nameOf(program, "P", child));
  };
  const seats = kids.map(kid);
  if (own > MANY) seats.push(h("span.meter", { vars: { "--part": taken / own } }, h("i")));
  else for (let k = 0; k < own; k++) seats.push(seatOf(scene, p, k, taken, who));
  const visitors = program.threads.map((_, t) => t).filter(t => !seated.has(t) && standsAt(scene, t, "P") === p);
  visitors.forEach(t => seated.add(t));
  const isOver = one.view < 0;
  const name = nameOf(program, "P", p);
  const phase = isOver ? "terminated" : h("span", {}, "phase ", h("b", {}, phaseOf(one.view)));
  const isSaid = isRoot || one.view !== state.phasers[rootOf(program, p)].view;
  const isSelected = Boolean(selected) && selected.phaser === p;
  const given = {
    type: "button",
    "aria-pressed": String(isSelected),
    title: name + ": who arrived?",
    onclick: () => act.phaser(p)
  };
  const head = h(
    "p.thing-head",
    {},
    h("button.thing-name", given, name),
    isSaid ? h("span.thing-phase", {}, phase) : null,
    h("span.thing-count", {}, one.parties ? one.arrived + " of " + one.parties : "empty")
  );
  const label = visitors.some(t => doingOf(moment, t) === "free") ? "released" : "waiting";
  const kinds = (isOver ? ".is-terminated" : "") + (isRoot ? "" : ".is-child");
  const group = { "data-phaser": p, role: "group", "aria-label": "Phaser " + name };
  return h("div.thing.phaser" + kinds, group, head, h("div.seats", {}, seats), visitorsOf(scene, label, visitors));
}
function branchOf(scene, p) {
  const kids = scene.program.children[p];
  const card = phaserCard(scene, p);
  return h("div.branch", {}, card, kids.length ? h("div.kids", {}, kids.map(child => branchOf(scene, child))) : null);
}

// ---- barriers
function barrierCard(scene, b) {
  const { program, state, seated, moment } = scene;
  const { isBroken, waiting } = state.barriers[b];
  const { parties } = program.barriers[b];
  const name = nameOf(program, "B", b);
  const here = program.threads.map((_, t) => t).filter(t => standsAt(scene, t, "B") === b);
  const inside = here.filter(t => doingOf(moment, t) === "waits");
  const freed = here.filter(t => doingOf(moment, t) !== "waits");
  // one that was interrupted still holds its place until its turn
  const keeps = isBroken ? [] : [...inside, ...freed].slice(0, waiting);
  const out = here.filter(t => !keeps.includes(t));
  here.forEach(t => seated.add(t));
  const seats = [];
  if (parties > MANY) seats.push(h("span.meter", { vars: { "--part": waiting / parties } }, h("i")));
  else {
    for (let k = 0; k < parties; k++) {
      const missing = { role: "img", "aria-label": "one has to come" };
      seats.push(k < keeps.length ? h("span.seat.is-full", {}, tokenOf(scene, keeps[k])) : h("span.seat", missing));
    }
  }
  const head = h(
    "p.thing-head",
    {},
    h("b.thing-name", {}, name),
    h("span.thing-phase", {}, isBroken ? "broken" : "barrier"),
    h("span.thing-count", {}, waiting + " of " + parties)
  );
  const group = { "data-barrier": b, role: "group", "aria-label": "Barrier " + name };
  const gateway = h("div.gateway", {}, h("div.seats", {}, seats), gateOf(isBroken));
  const visitors = visitorsOf(scene, isBroken ? "will throw" : "released", out);
  return h("div.thing.barrier" + (isBroken ? ".is-broken" : ""), group, head, gateway, visitors);
}
// two posts and bars between them; where it is broken, the bars lie across
function gateOf(isBroken) {
  const whole = ["M16 10V52", "M26 10V52", "M36 10V52", "M46 10V52"];
  const bars = isBroken ? ["M14 12L22 40", "M23 9L40 26", "M30 48L47 32", "M44 8L50 18"] : whole;
  const given = { viewBox: "0 0 62 60", role: "img", "aria-label": isBroken ? "a broken gate" : "a gate" };
  const rail = isBroken ? null : s("path.gate-rail", { d: "M5 16H57M5 46H57" });
  return s(
    "svg.gate",
    given,
    s("path.gate-post", { d: "M5 4V56M57 4V56" }),
    rail,
    bars.map(d => s("path.gate-bar", { d }))
  );
}

// ---- those who are elsewhere
function crowdOf(scene) {
  const { program, state, moment, seated } = scene;
  const rest = program.threads.map((_, t) => t).filter(t => !seated.has(t));
  const isOver = t => /over|dead/.test(doingOf(moment, t));
  const member = t => {
    const { out, isInterrupted } = state.threads[t];
    const output = out.length ? h("span.crowd-output", { title: "its output" }, out.slice(-4).join(" ")) : null;
    const flag = isInterrupted
      ? h("span.crowd-flag", { title: "interrupted", role: "img", "aria-label": "interrupted" }, "\u26A1\uFE0E")
      : null;
    return h("span.crowd-one", {}, tokenOf(scene, t), output, flag);
  };
  const group = (label, list) => {
    if (!list.length) return null;
    const more = list.length > SHOWN ? "and " + (list.length - SHOWN) + " more" : null;
    return h("div.crowd-group", {}, h("span.crowd-label", {}, label), list.slice(0, SHOWN).map(member), more);
  };
  return [group("on the way", rest.filter(t => !isOver(t))), group("over", rest.filter(isOver))];
}

// ---- edges and motion
// edges from each child to its seat at the parent, measured on the page
function drawEdges(space, edges) {
  if (!space.querySelector(".is-child")) return edges.firstChild ? fill(edges) : undefined;
  const frame = space.getBoundingClientRect();
  const list = [];
  for (const card of space.querySelectorAll(".thing.is-child")) {
    const parent = card.closest(".kids").previousElementSibling;
    const seat = parent.querySelector('[data-child="' + card.dataset.phaser + '"]');
    const from = card.getBoundingClientRect();
    const to = (seat || parent).getBoundingClientRect();
    const x1 = from.left + from.width / 2 - frame.left;
    const y1 = from.top - frame.top;
    const x2 = to.left + to.width / 2 - frame.left;
    const y2 = to.bottom - frame.top;
    const middle = (y1 + y2) / 2;
    const kind = !seat ? "loose" : seat.classList.contains("is-full") ? "full" : "open";
    list.push(s("path.edge-" + kind, { d: `M${x1} ${y1}C${x1} ${middle} ${x2} ${middle} ${x2} ${y2}` }));
  }
  edges.setAttribute("width", frame.width);
  edges.setAttribute("height", frame.height);
  fill(edges, list);
}
// the events that matter: an arrival flies by itself; the end of a phase and what is thrown show here
function move(space, program, event) {
  if (event.mark) {
    const isBarrier = event.mark.kind[1] === "b";
    const things = isBarrier
      ? [...space.querySelectorAll('[data-barrier="' + event.mark.on + '"]')]
      : [...space.querySelectorAll("[data-phaser]")].filter(
        card => rootOf(program, Number(card.dataset.phaser)) === event.mark.on
      );
    const shakes = [{ transform: "rotate(-1.2deg)" }, { transform: "rotate(1deg)" }, { transform: "none" }];
    const grows = [{ transform: "scale(1.05)", boxShadow: "0 0 0 .4rem var(--go)" }, { transform: "none" }];
    for (const thing of things) pulse(thing, event.mark.kind === "-b" ? shakes : grows);
  }
  if (/^(throw|die)$/.test(event.what)) {
    const shift = x => ({ transform: "translateX(" + x + "rem)" });
    pulse(
      space.querySelector('[data-fly="t' + event.thread + '"]'),
      [shift(-0.4), shift(0.4), shift(-0.2), shift(0)]
    );
  }
}
