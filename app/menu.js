// The sheets: the menu of programs, the menu of what can be shown, taken along and printed, the help, and a text to
// copy where there is no clipboard. One is open at a time; Escape closes it, and the focus goes back to where it was.
import { byId, fill, h } from "./elements.js";

export function makeSheet() {
  const sheet = byId("sheet");
  let opener = null;

  function close(isBack) {
    if (sheet.hidden) return;
    sheet.hidden = true;
    opener.setAttribute("aria-expanded", "false");
    if (isBack) opener.focus();
  }
  function open(button, label, content) {
    const isSame = !sheet.hidden && sheet.getAttribute("aria-label") === label;
    close(false);
    if (isSame) return;
    opener = button;
    fill(sheet, content);
    sheet.setAttribute("aria-label", label);
    sheet.hidden = false;
    button.setAttribute("aria-expanded", "true");
    const box = button.getBoundingClientRect();
    const left = Math.max(8, Math.min(box.left, innerWidth - sheet.offsetWidth - 8));
    sheet.style.setProperty("left", left + "px");
    sheet.style.setProperty("top", box.bottom + 6 + "px");
    sheet.style.setProperty("max-height", innerHeight - box.bottom - 14 + "px");
    const current = sheet.querySelector("[aria-current]");
    (current || sheet.querySelector("button, input, textarea"))?.focus();
    if (!current) sheet.scrollTop = 0;
  }
  document.addEventListener("pointerdown", event => {
    if (!sheet.contains(event.target) && !event.target.closest("[aria-expanded]")) close(false);
  });
  // arrows go through the entries, as in any menu
  sheet.addEventListener("keydown", event => {
    const list = [...sheet.querySelectorAll("button, input, select, textarea")];
    const by = { ArrowDown: 1, ArrowUp: -1 }[event.key];
    if (!by || event.target.tagName === "TEXTAREA" || event.target.tagName === "SELECT") return;
    event.preventDefault();
    list[(list.indexOf(document.activeElement) + by + list.length) % list.length].focus();
  });
  return { open, close, isOpen: () => !sheet.hidden };
}

const column = (title, ...content) => h("div.sheet-column", {}, h("h2", {}, title), content);
function entryOf(sheet) {
  return (text, act, key) => {
    const onclick = () => {
      sheet.close(true);
      act();
    };
    return h("button.entry", { type: "button", onclick }, h("span", {}, text), key ? h("kbd", {}, key) : null);
  };
}

// act: { open(item), own(), keep(), file(file) }
export function programsMenu(sheet, menu, current, act) {
  const entry = entryOf(sheet);
  const groups = new Map();
  for (const item of menu) groups.set(item.group, [...(groups.get(item.group) || []), item]);
  const one = item => {
    const made = entry(item.title, () => act.open(item));
    if (item === current) made.setAttribute("aria-current", "true");
    return made;
  };
  const chosen = event => {
    const [file] = event.target.files;
    sheet.close(true);
    if (file) act.file(file);
  };
  const input = h("input", { type: "file", accept: ".asm,.txt,.html,text/plain", onchange: chosen });
  return [
    [...groups].map(([group, items]) => column(group, items.map(one))),
    column(
      "Yours",
      entry("My own program", act.own),
      entry("Keep this as my own", act.keep),
      h("label.entry.entry-file", {}, h("span", {}, "Open a file\u2026"), input)
    )
  ];
}

const SPEEDS = [0.5, 1, 2, 4, 8];

// act: { toggle(name), set(name, value), and the entries' own }
export function mainMenu(sheet, state, settings, act) {
  const entry = entryOf(sheet);
  const box = (text, name) => {
    const onchange = event => act.set(name, event.target.checked);
    return h(
      "label.entry",
      {},
      h("input", { type: "checkbox", checked: state[name], onchange }),
      h("span", {}, text)
    );
  };
  const speed = h(
    "select",
    { "aria-label": "Speed of Play", onchange: event => act.speed(Number(event.target.value)) },
    SPEEDS.map(
      one => h(
        "option",
        { value: one, selected: one === settings.speed },
        "every " + (one === 1 ? "second" : one + " seconds")
      )
    )
  );
  const theme = name => {
    const given = { type: "button", "aria-pressed": String(settings.theme === name), onclick: () => act.theme(name) };
    return h("button", given, name);
  };
  return [
    h(
      "div.sheet-column",
      {},
      h("h2", {}, "Show"),
      box("Hide what comes later", "isHidden"),
      box("Fold idle choices", "isFolded"),
      box("Java\u2019s words", "isJava"),
      box("Timeline alone", "isAlone"),
      box("Keys of one letter or sign", "hasLetters"),
      h("h2", {}, "Play"),
      entry("Play, a choice after another", act.play, "Space"),
      h("label.entry", {}, h("span", {}, "Speed"), speed),
      h("h2", {}, "Colours"),
      h("div.sheet-row", {}, ["auto", "light", "dark"].map(theme))
    ),
    h(
      "div.sheet-column",
      {},
      h("h2", {}, "Run"),
      entry("Start again", act.again),
      entry("Side by side", act.side, "s"),
      entry("Make it the run", act.makeFirst),
      entry("Only run 1", act.onlyFirst),
      entry("Larger", act.larger, "+"),
      entry("Smaller", act.smaller, "\u2212"),
      h("h2", {}, "Print"),
      entry("Handout: all choices", act.handout, "Ctrl P"),
      entry("Worksheet", act.worksheet)
    ),
    h(
      "div.sheet-column",
      {},
      h("h2", {}, "Take with you"),
      entry("Copy a link", act.copyLink),
      entry("Copy the plan", act.copyPlan),
      entry("Copy the schedule", act.copySchedule),
      entry("Copy the command", act.copyCommand),
      entry("Save the program", act.saveProgram),
      entry("Save the trace", act.saveTrace),
      entry("Save this page with the run", act.savePage),
      h("h2", {}, "Help"),
      entry("Keys, signs, colours", act.help, "?"),
      h("p.sheet-key", {}, settings.version)
    )
  ];
}
export const copySheet = text => column(
  "Copy this",
  h("textarea.copied", { rows: 4, readonly: true, "aria-label": "The text to copy" }, text)
);
