// What the head, the menus and the keys do: the commands of the app, each a change of its state, a text to take
// along, or a print.
import { MOST_LINK } from "./link.js";
import { button, byId, fill } from "./elements.js";
import { bareName, readProgramFile, runIn, save } from "./file.js";
import { pageWith } from "../web/page.mjs";
import { helpSheet } from "./help.js";
import { listenToKeys } from "./keys.js";
import { listProgram } from "./machine.js";
import { copySheet, mainMenu, programsMenu } from "./menu.js";
import { drawPaper } from "./paper.js";
import { planOf } from "./plan.js";
import { optionAt } from "./quiz.js";
import { lengthOf } from "./run.js";
import { scheduleOf } from "./schedule.js";
import * as change from "./state.js";

const ZOOM = 1.12;
const STORE = "vuthgal";
const KEPT = { hasLetters: "letters", isHidden: "hidden" };

function stored() {
  try {
    return JSON.parse(localStorage.getItem(STORE)) || {};
  } catch (_) {
    return {};
  }
}
// false where this browser keeps nothing
function keep(more) {
  try {
    localStorage.setItem(STORE, JSON.stringify({ ...stored(), ...more }));
    return true;
  } catch (_) {
    return false;
  }
}

// app: that of app.js; given: { menu, page, version }
export function makeCommands(app, given) {
  const settings = { speed: 1, theme: "auto", version: given.version };
  let playing = 0;
  const state = () => app.get();
  const run = () => change.runOf(app.get());
  const go = i => app.set(change.at(state(), i));

  // ---- size, colours, playing
  function setZoom(zoom, isKept = true) {
    const next = Math.max(0.7, Math.min(2.5, zoom));
    document.documentElement.style.setProperty("--zoom", next);
    if (isKept) keep({ zoom: next });
    setColumns();
    if (state().tree) app.set({ ...state(), zoom: next });
    app.fitted();
  }
  const zoomBy = by => setZoom(state().zoom * by);
  function setTheme(theme) {
    settings.theme = theme;
    if (theme === "auto") delete document.documentElement.dataset.theme;
    else document.documentElement.dataset.theme = theme;
    keep({ theme });
  }
  // with large type there is no room for three columns
  function setColumns() {
    const rem = parseFloat(getComputedStyle(document.documentElement).fontSize);
    const isTwo = innerWidth > 900 && innerHeight > 520 && innerWidth / rem < 62;
    if (isTwo) document.body.dataset.columns = "2";
    else delete document.body.dataset.columns;
  }
  function play() {
    clearInterval(playing);
    const step = () => (state().at >= change.lastOf(state()) ? play() : go(state().at + 1));
    playing = playing ? 0 : setInterval(step, settings.speed * 1000);
    if (playing) step();
  }

  // ---- what is taken along
  async function copy(text) {
    try {
      await navigator.clipboard.writeText(text);
      app.note("Copied.");
    } catch (_) {
      // without a clipboard the text stands selected
      app.sheet.open(byId("more"), "Copy this", copySheet(text));
      byId("sheet").querySelector("textarea").select();
    }
  }
  async function copyLink() {
    if (state().mistake) return app.note("The program is refused now, so there is no link to it. Mend it first.");
    const link = location.href.split("#")[0] + (await app.linkNow());
    if (link.length > MOST_LINK) return app.note("This program is too long for a link. Save the page with the run.");
    return copy(link);
  }
  function savePage() {
    const { text: source } = state().tree.program;
    const { choices, trace } = run();
    const texts = { listing: listProgram(source), source, schedule: scheduleOf(choices), trace };
    return save(state().item.name + ".html", pageWith(given.page, texts), "text/html");
  }
  function copyCommand() {
    const plan = planOf(state().tree.program, run().events, Infinity);
    copy("vuthgal show " + state().item.name + ".asm --plan '" + plan + "' > " + state().item.name + ".html");
  }

  // ---- paper: what is printed is drawn as it is asked for, so that the browser's own command prints it, too
  let isSheet = false;
  function drawForPaper() {
    const { tree, at, isJava, lesson, item } = state();
    const asked = lesson ? lesson.lesson.steps.map(one => one.ask) : [];
    const title = (lesson && lesson.lesson.title) || tree.program.title || item.title;
    drawPaper(byId("paper"), { tree, run: run(), at, isJava, title, asked }, isSheet);
  }
  function print(sheet) {
    isSheet = sheet;
    window.print();
  }
  window.addEventListener("beforeprint", () => state().tree && drawForPaper());
  window.addEventListener("afterprint", () => {
    isSheet = false;
    fill(byId("paper"));
  });

  // ---- programs
  function startAgain() {
    const { text, plan, item } = state();
    app.open(item, state().mode);
    if (text !== item.program) app.note("As it was at first. ", button("Undo", () => app.edit(text, plan)));
  }
  function openOwn() {
    const { own } = stored();
    app.open(own && own.program ? { ...change.OWN, ...own } : change.OWN, "explore");
  }
  function keepOwn() {
    const { text, plan } = state();
    const isKept = keep({ own: { program: text, plan } });
    app.note(
      isKept ? "Kept in this browser: \u201CMy own program\u201D." : "This browser keeps nothing. Save the program."
    );
  }
  async function openFile(file) {
    const text = await file.text();
    const name = bareName(file.name);
    if (/\.html?$/i.test(file.name)) {
      const found = runIn(new DOMParser().parseFromString(text, "text/html"), name);
      return found ? app.openRun(found) : app.note("There is no run in this page.");
    }
    return app.open({ group: "Yours", name, title: file.name, ...readProgramFile(text) }, "explore");
  }

  // ---- the menus
  byId("pick").onclick = () => {
    const act = {
      open: item => app.open(item, item.group === "Lessons" && state().mode === "explore" ? "lesson" : state().mode),
      own: openOwn,
      keep: keepOwn,
      file: openFile
    };
    app.sheet.open(byId("pick"), "Programs", programsMenu(app.sheet, given.menu, state().item, act));
  };
  const acts = {
    set: (name, value) => {
      if (KEPT[name]) keep({ [KEPT[name]]: value });
      app.set({ ...state(), [name]: value });
      app.fitted();
    },
    speed: speed => (settings.speed = speed),
    theme: setTheme,
    play,
    again: startAgain,
    side: app.setSide,
    makeFirst: () => (run().parent < 0 ? app.note("This is run 1.") : app.set(change.madeFirst(state()), true)),
    onlyFirst: () => app.set(change.firstOnly(state()), true),
    larger: () => zoomBy(ZOOM),
    smaller: () => zoomBy(1 / ZOOM),
    handout: () => print(false),
    worksheet: () => print(true),
    copyLink,
    copyPlan: () => copy(planOf(state().tree.program, run().events, Infinity)),
    copySchedule: () => copy(scheduleOf(run().choices)),
    copyCommand,
    saveTrace: () => save(state().item.name + ".trace", run().trace),
    saveProgram: () => save(state().item.name + ".asm", state().text),
    savePage,
    help: () => app.sheet.open(byId("help"), "Help", helpSheet(state().tree.program, () => app.sheet.close(true)))
  };
  byId("help").onclick = acts.help;
  byId("more").onclick = () => app.sheet.open(byId("more"), "Menu", mainMenu(app.sheet, state(), settings, acts));

  // ---- buttons
  byId("again").onclick = startAgain;
  byId("first").onclick = () => go(0);
  byId("back").onclick = () => go(state().at - 1);
  byId("forth").onclick = () => go(state().at + 1);
  byId("last").onclick = () => go(lengthOf(run()));
  byId("smaller").onclick = () => zoomBy(1 / ZOOM);
  byId("larger").onclick = () => zoomBy(ZOOM);
  for (const one of document.querySelectorAll("#modes button")) one.onclick = () => app.setMode(one.dataset.mode);
  for (const one of document.querySelectorAll("#tabs button")) {
    one.onclick = () => {
      app.set({ ...state(), pane: one.dataset.pane });
      app.fitted();
    };
  }

  // ---- keys
  const moves = {
    ArrowRight: () => go(state().at + 1),
    PageDown: () => go(state().at + 1),
    ArrowLeft: () => go(state().at - 1),
    PageUp: () => go(state().at - 1),
    Home: () => go(0),
    End: () => go(lengthOf(run()))
  };
  const letters = {
    " ": play,
    "+": () => zoomBy(ZOOM),
    "=": () => zoomBy(ZOOM),
    "-": () => zoomBy(1 / ZOOM),
    0: () => setZoom(1),
    "[": () => app.set(change.besideInTree(state(), -1)),
    "]": () => app.set(change.besideInTree(state(), 1)),
    p: () => app.setTab("picture"),
    v: () => app.setTab("values"),
    o: () => app.setTab("orders"),
    f: () => acts.set("isAlone", !state().isAlone),
    e: () => {
      app.set({ ...state(), pane: "code", isAlone: false });
      app.program.focus();
    },
    s: app.setSide,
    "?": acts.help
  };
  const keys = {
    keys: moves,
    number: n => byId("next").querySelectorAll(".chip, .next-place")[n - 1]?.click(),
    letter: sign => {
      const option = state().mode === "quiz" ? optionAt(state().quiz, sign) : null;
      if (option !== null) app.set(change.answered(state(), option));
      else if (letters[sign]) letters[sign]();
      return option !== null || Boolean(letters[sign]);
    },
    escape: field => {
      if (app.sheet.isOpen()) return app.sheet.close(true);
      if (field) return field.blur();
      if (state().isAlone) return acts.set("isAlone", false);
      return app.set(change.backToFork(state()));
    },
    print: () => (isSheet = false)
  };
  listenToKeys(keys, () => state().hasLetters);

  window.addEventListener("resize", () => {
    setColumns();
    app.fitted();
  });
  // ---- what this browser keeps
  const kept = stored();
  if (kept.theme) setTheme(kept.theme);
  app.set({ ...state(), hasLetters: kept.letters !== false, isHidden: kept.hidden === true });
  setColumns();
  if (kept.zoom) {
    document.documentElement.style.setProperty("--zoom", kept.zoom);
    app.set({ ...state(), zoom: kept.zoom });
    setColumns();
  }
}
