// The whole app as a file with a run in it, and the run that stands in a file: four texts, each in an element that a
// browser shows only where it runs no script. It is given texts and documents; it draws nothing.

// the elements in which the texts of a page stand
const NAMES = ["listing", "source", "schedule", "trace"];

// CR LF, as a text area has it
const unixText = text => text.replace(/\r\n/g, "\n").replace(/\r/g, " ");

// What stands in a document of this app: { name, listing, source, schedule, trace }; null where it has no program. A
// text without a trace is a plan.
export function runIn(page, name) {
  const [listing, source, schedule, trace] = NAMES.map(one => page.getElementById(one)?.textContent || "");
  return listing || source ? { name, listing, source: unixText(source), schedule, trace } : null;
}
// The page as it was made, without its texts, which needn't be in the page any more.
export function takePage() {
  for (const name of NAMES) document.getElementById(name).textContent = "";
  const page = "<!doctype html>\n" + document.documentElement.outerHTML + "\n";
  document.getElementById("texts").remove();
  return page;
}
// A run in a file as a program of the menu. Of a plan the machine makes the schedule.
export function itemOf(page) {
  const { name, listing, source, schedule, trace } = page;
  const item = { group: "This file", name, title: name, program: source || listing, plan: schedule };
  return trace ? { ...item, schedule, page } : { ...item, plan: schedule || ".." };
}
// A file's name without its folder and its ending.
export const bareName = path => path.split("/").pop().replace(/\.\w+$/, "") || "run";

export function save(name, text, type = "text/plain") {
  const link = document.createElement("a");
  link.href = URL.createObjectURL(new Blob([text], { type }));
  link.download = name;
  link.click();
  setTimeout(() => URL.revokeObjectURL(link.href), 1000);
}
// A program's file: its text, and behind the line `.run` its schedule.
export function readProgramFile(text) {
  const cut = /^[ \t]*\.run[ \t\r]*(;.*)?$\n?/m.exec(text);
  if (!cut) return { program: text, plan: ".." };
  return { program: text.slice(0, cut.index), plan: text.slice(cut.index + cut[0].length).trim() || ".." };
}
