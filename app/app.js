// The app: it keeps the one state, draws it, and changes it by what is clicked. All that is decided is in state.js;
// here stands what touches the page, its address and its past.
import { endsBeside } from "./beside.js";
import { checkOf, drawCheck } from "./check.js";
import { endKind, endText } from "./ending.js";
import { button, byId, fill, h } from "./elements.js";
import { makeCommands } from "./commands.js";
import { itemOf } from "./file.js";
import { lessonCard } from "./lesson.js";
import { addressOf, linkOf, MOST_LINK, readLink } from "./link.js";
import { makeSheet } from "./menu.js";
import { ordersOf } from "./orders.js";
import { SEEDS } from "./outcomes.js";
import { listProgram } from "./machine.js";
import { isHeavy } from "./plan.js";
import { makeProgram } from "./program.js";
import { challengeCard, quizCard } from "./quiz.js";
import { closeTree, eventTo, momentOf, lengthOf } from "./run.js";
import { makeScene } from "./scene.js";
import { choicesOf, commonOf } from "./schedule.js";
import { veiled } from "./trace.js";
import { drawStage } from "./stage.js";
import * as change from "./state.js";
import { makeTimeline } from "./timeline.js";
import { makeTree, runName } from "./tree.js";
import { valuesOf } from "./values.js";

const TYPING = 250;
const SAVING = 300;
const KEPT = 40;

// given: { menu, work, page (the text of this file), version }
export function makeApp(given) {
  let state = change.firstState();
  let working = null;
  let typing = 0;
  let typed = {};
  let saving = 0;
  let noteTimer = 0;
  // earlier states, to which the browser's Back leads
  const past = new Map();
  let entry = 0;
  const sheet = makeSheet();

  // ---- the parts of the page
  const timeline = makeTimeline(i => set(change.at(state, i)), t => set(change.selectedThread(state, t)));
  const second = makeTimeline(
    i => set(change.walked(state, state.other, i)),
    t => set(change.selectedThread(state, t))
  );
  const scene = makeScene({
    thread: t => set(change.selectedThread(state, t)),
    phaser: p => set(change.selectedPhaser(state, p))
  });
  const tree = makeTree((id, i) => set(change.walked(state, id, i)));
  const program = makeProgram(
    text => later({ text }),
    plan => later({ plan })
  );
  const ends = h("div.ends");
  const tabs = { picture: "Picture", values: "Values", orders: "Random orders" };
  const viewButton = name => button(tabs[name], () => setTab(name), { "data-tab": name });
  const views = h(
    "div.views",
    { role: "group", "aria-label": "What the pane shows" },
    Object.keys(tabs).map(viewButton)
  );
  const values = h("div.values.scroll", { tabindex: 0 });
  const orders = h("div.orders.scroll", { tabindex: 0 });
  const side = button("Side by side", () => setSide());
  const only = button("Only run 1", () => set(change.firstOnly(state), true));
  fill(byId("time"), h("div.time-two", {}, timeline.element, second.element), ends);
  fill(byId("picture"), views, scene.element, values, orders);
  fill(byId("runs"), tree.element, h("div.runs-tools", {}, side, only));

  // ---- the one place in which the state changes. isNew: the browser's Back leads to the one before
  function set(next, isNew) {
    const before = state;
    state = next;
    if (before.text !== next.text || before.plan !== next.plan) {
      clearTimeout(typing);
      typed = {};
    }
    if (before.tree && next.tree && before.tree.program !== next.tree.program) closeTree(before.tree);
    if (isNew && before.tree) {
      past.set(entry, before);
      past.delete(entry - KEPT);
      entry++;
      // behind the frame in which it shows: a browser takes its time for it
      const made = entry;
      setTimeout(() => {
        if (history.state?.entry !== made - 1) remember("replaceState", undefined, made - 1);
        remember("pushState", undefined, made);
      });
    }
    draw();
  }
  // what is typed, text or plan or both, is played when the hands rest
  function later(what) {
    typed = { ...typed, ...what };
    clearTimeout(typing);
    typing = setTimeout(() => edit(typed.text ?? state.text, typed.plan ?? state.plan), TYPING);
  }
  // plays a text and a plan; a plan that may take long, in the worker
  async function edit(text, plan) {
    const { mode } = state;
    const its = change.planFor(state, text, plan);
    const played = await playedInWorker(text, its, change.scheduleIn(state.item, its));
    if (played === null) return;
    set(change.edited(state, text, plan, played));
    // the box of the plan, which is longer now, isn't always in view
    if (state.plan === its + " ..") note("The plan ended before the threads did: all go on in turn (\u201C..\u201D).");
    if (!state.mistake && (mode === "quiz" || mode === "challenge")) setMode(mode);
  }
  async function open(item, mode, isNew = true) {
    const { program: text, plan } = item;
    const played = await playedInWorker(text, plan, item.schedule);
    if (played === null) return;
    set(checked(change.opened(state, item, mode, played)), isNew);
    if (isUnasked()) playOrders();
    fitted();
  }
  // whether a quiz or a challenge waits for what random orders do
  const isUnasked = () => !state[state.mode] && (state.mode === "quiz" || state.mode === "challenge");
  // what the machine played of a page is compared with what stands in it
  function checked(next) {
    const { page } = next.item;
    if (!page || next.mistake) return next;
    return { ...next, check: checkOf(page, listProgram(next.text), next.tree.runs[0].trace) };
  }
  // a page's run is in the menu, too
  function openRun(run, isNew = true, isOfPage = false) {
    const item = { ...itemOf(run), isOfPage };
    given.menu.unshift(item);
    return open(item, "explore", isNew);
  }
  // undefined where the page plays it itself, or where it is refused
  async function playedInWorker(text, plan, schedule = "") {
    if (!isHeavy(schedule || plan)) return undefined;
    const played = await inWorker("plan", { text, plan, schedule });
    return played && { ...played, choices: choicesOf(played.schedule) };
  }
  // what a worker answers; null if it was stopped; undefined if it refused, so that the page finds the reason itself
  async function inWorker(task, what) {
    working = { task, done: 0 };
    if (!state.tree) fill(byId("said").lastChild, "The machine plays the run.");
    draw();
    try {
      return await given.work.ask(task, what, done => {
        working = { task, done };
        if (state.tab === "orders") drawOrders();
      });
    } catch (fault) {
      if (fault.message === "stopped") return null;
      if (!fault.told) note("The worker stopped: " + fault.message);
      return undefined;
    } finally {
      working = null;
      draw();
    }
  }
  async function playOrders() {
    const { tree: asked } = state;
    const found = await inWorker("orders", { text: asked.program.text, seeds: SEEDS });
    if (found && state.tree.program === asked.program) set(change.withOrders(state, found));
  }
  function stopWork() {
    given.work.stop();
    if (isUnasked()) set(change.inMode(state, "explore"));
  }
  function setTab(tab) {
    set({ ...state, tab, pane: "picture" });
    if (tab === "orders" && !state.orders) playOrders();
  }
  function setMode(mode) {
    set(change.inMode(state, mode));
    if (isUnasked()) playOrders();
    fitted();
  }
  function setSide() {
    if (state.tree.runs.length < 2) return note("There is only one run: choose another name first.");
    set(change.sideBySide(state));
    fitted();
  }
  function choose(token) {
    try {
      const isNew = change.runOf(state).choices[state.at] !== token;
      set(change.forked(state, state.at, token), isNew);
    } catch (fault) {
      note(fault.message);
    }
  }
  // the timelines measure themselves again behind a change of the layout
  function fitted() {
    requestAnimationFrame(() => {
      timeline.redraw();
      second.redraw();
    });
  }
  function note(...what) {
    fill(byId("note"), what);
    byId("note").classList.add("is-shown");
    clearTimeout(noteTimer);
    noteTimer = setTimeout(() => byId("note").classList.remove("is-shown"), 6000);
  }

  // ---- drawing
  const moment = i => momentOf(state.tree, state.id, i);

  function draw() {
    if (!state.tree) return;
    const { at } = state;
    const run = change.runOf(state);
    const { program: model } = state.tree;
    const isVeiled = change.isVeiled(state);
    const now = isVeiled ? veiled(moment(at)) : moment(at);
    const event = eventTo(run, at);
    const title = model.title || state.item.title;
    // the picture first: it measures where things are before anything else has moved
    if (state.tab === "picture") scene.show({ tree: state.tree, run, at, moment: now, selected: state.selected });
    Object.assign(document.body.dataset, { mode: state.mode, tab: state.tab, pane: state.pane });
    document.body.classList.toggle("is-refused", Boolean(state.mistake));
    document.body.classList.toggle("is-side", Boolean(change.otherOf(state)));
    document.body.classList.toggle("is-veiled", isVeiled);
    document.body.classList.toggle("is-alone", state.isAlone);
    document.body.classList.toggle("is-working", Boolean(working));
    byId("title").textContent = title;
    document.title = title + " \u2014 Vuthgal";
    pressed("#modes button", one => one.dataset.mode === state.mode);
    pressed("#tabs button", one => one.dataset.pane === state.pane);
    pressed(".views button", one => one.dataset.tab === state.tab);
    drawStage(state, { choose, tryOut: token => tryOut(token) });
    drawCheck(state);
    program.show(state, now, event);
    drawTime(run);
    if (state.tab === "values") fill(values, valuesOf(model, now, at ? moment(at - 1) : null));
    if (state.tab === "orders") drawOrders();
    tree.show({ tree: state.tree, run, at, isQuiet: change.isLaterHidden(state) });
    side.disabled = only.disabled = state.tree.runs.length < 2;
    side.setAttribute("aria-pressed", String(Boolean(change.otherOf(state))));
    drawCard(model);
    // the page is laid out once: what is measured is measured last
    for (const one of [tree, program, timeline, second]) one.settle();
    if (state.tab === "picture") scene.settle();
    clearTimeout(saving);
    saving = setTimeout(keepLink, SAVING);
  }
  function pressed(which, isPressed) {
    for (const one of document.querySelectorAll(which)) one.setAttribute("aria-pressed", String(isPressed(one)));
  }
  function drawTime(run) {
    const other = change.otherOf(state);
    const parts = other ? commonOf(run.choices, other.choices) : run.parent >= 0 ? run.fork : 0;
    const { isJava, isFolded, selected, zoom, tree: all } = state;
    const isHidden = change.isLaterHidden(state);
    const isVeiled = change.isVeiled(state);
    const common = {
      ...{ tree: all, isJava, isFolded, selected, zoom, isHidden, isVeiled },
      ...{ differs: parts, isSide: Boolean(other) }
    };
    const head = one => {
      const end = h("span.end.end-" + endKind(one.end), {}, isHidden ? "" : endText(all.program, one.end));
      return other ? [h("b", {}, runName(all, one)), end] : "";
    };
    // before the first one measures itself
    second.element.hidden = !other;
    timeline.show({ ...common, run, at: state.at, title: head(run) });
    if (other) second.show({ ...common, run: other, at: Math.min(state.at, lengthOf(other)), title: head(other) });
    fill(ends, other && !isHidden ? endsBeside(all.program, run, other) : null);
  }
  function drawOrders() {
    const act = { take: one => set(change.ordered(state, one), true), play: playOrders, stop: stopWork };
    if (change.isVeiled(state) && !working) return fill(orders, h("p.hint", {}, change.VEIL));
    fill(orders, ordersOf(state.tree.program, state.orders, working, act));
  }
  function drawCard(model) {
    const card = byId("card");
    const key = card.contains(document.activeElement) ? document.activeElement.dataset.key : "";
    card.hidden = state.mode === "explore";
    if (state.mode === "lesson") fill(card, lessonCard(state.lesson, model, moment(state.at), lessonActs));
    if (state.mode === "quiz") fill(card, quizCard(state.quiz, model, quizActs));
    if (state.mode === "challenge") fill(
      card,
      challengeCard(change.challengeOf(state), { again: () => setMode("challenge"), stop: stopWork })
    );
    if (key) card.querySelector('[data-key="' + key + '"]')?.focus({ preventScroll: true });
  }
  const lessonActs = {
    step: by => focused(() => set(change.lessonStep(state, by))),
    answer: () => focused(() => set(change.lessonAnswer(state))),
    vote: (t, by) => set(change.voted(state, t, by)),
    choose,
    showFork: (i, token) => set(change.forked({ ...state, id: 0 }, i, token), true),
    tab: setTab
  };
  const quizActs = {
    answer: option => focused(() => set(change.answered(state, option))),
    show: () => focused(() => set(change.shownOwn(state))),
    next: () => focused(() => set(change.nextQuestion(state))),
    again: () => setMode("quiz"),
    stop: stopWork
  };
  // the card is drawn anew: the focus goes to its main button
  function focused(what) {
    what();
    const card = byId("card");
    (
      card.querySelector(".card-turn .main") || card.querySelector(".card-turn button")
    )?.focus({ preventScroll: true });
  }
  function tryOut(preview) {
    if (change.isVeiled(state) || state.preview === preview) return;
    state = { ...state, preview };
    drawStage(state, { choose, tryOut });
  }

  // ---- the address
  // a frame without an address of its own, as a notebook has, has no past that could be written
  function remember(how, hash, of = entry) {
    try {
      history[how]({ entry: of }, "", hash);
    } catch (_) {
      past.clear();
    }
  }
  const linkNow = () => {
    const { text } = state.tree.program;
    const address = addressOf(state.tree, change.runOf(state), state.at);
    // what stands in this file needs no other name
    if (isOfPage()) return "#" + address;
    return linkOf({ text, plan: state.plan, name: state.item.name, address, mode: state.mode });
  };
  const isOfPage = () => {
    const { item, mode, text, plan } = state;
    return item.isOfPage && mode === "explore" && text === item.program && plan === item.plan;
  };
  async function keepLink() {
    if (!state.tree || state.mistake) return;
    const saved = state;
    const hash = await linkNow();
    // a newer state saves itself
    if (state === saved && hash.length < MOST_LINK) remember("replaceState", hash);
  }
  window.addEventListener("popstate", event => {
    const kept = event.state && past.get(event.state.entry);
    if (!kept) return openLink();
    past.set(entry, state);
    entry = event.state.entry;
    state = kept;
    draw();
    fitted();
  });

  // what the address holds, in place of the program that is there; false if it holds nothing, or nothing whole
  async function openLink() {
    let link;
    try {
      link = await readLink(location.hash);
    } catch (fault) {
      note("This link can\u2019t be read: " + fault.message.replace(/\.$/, "") + ". A program that is here is shown.");
      return false;
    }
    if (!link) return false;
    if (link.text === undefined) {
      if (!state.tree) return false;
      set(change.addressed(state, link.address));
      return true;
    }
    const named = given.menu.find(one => one.name === link.name);
    const known = named && !change.isOther(named, link.text) ? named : null;
    const item = {
      group: "Link",
      name: (!named || known) && link.name ? link.name : "link",
      title: known ? known.title : "From a link",
      program: link.text,
      plan: link.plan
    };
    const isKnown = known && known.program === link.text;
    set(change.opened(state, isKnown ? { ...known, plan: link.plan } : item, "explore"));
    if (isKnown) state = { ...state, item: known };
    if (state.mistake) return true;
    if (link.mode === "quiz" || link.mode === "challenge") setMode(link.mode);
    else set({ ...change.addressed(state, link.address), mode: link.mode });
    fitted();
    return true;
  }

  const app = {
    get: () => state,
    set,
    open,
    openRun,
    edit,
    openLink,
    setTab,
    setMode,
    setSide,
    choose,
    note,
    linkNow,
    playOrders,
    stopWork,
    fitted,
    sheet,
    program
  };
  makeCommands(app, given);
  return app;
}
