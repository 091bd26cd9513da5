// Whether what stands in a page is what the machine in it plays: its listing is that of its source, and its trace that
// of its schedule. A difference would be a fault of the browser or of the machine's compiler, or the page was changed.
import { byId, fill, h } from "./elements.js";

const LINE = 80;

// The first line in which two texts differ: { number, there, here }; null where they are alike.
export function differenceOf(there, here) {
  if (there === here) return null;
  let k = 0;
  while (k < there.length && there.charCodeAt(k) === here.charCodeAt(k)) k++;
  const from = k ? there.lastIndexOf("\n", k - 1) + 1 : 0;
  let number = 1;
  for (let at = 0; (at = there.indexOf("\n", at) + 1) > 0 && at <= from; ) number++;
  // of a long line what stands around the difference
  const start = k - from > LINE / 2 ? k - LINE / 2 : from;
  const lineOf = text => (start > from ? "\u2026" : "") + text.slice(start, start + LINE).split("\n", 1)[0];
  return { number, there: lineOf(there), here: lineOf(here) };
}
// page: its texts. listing, trace: the machine's. { what, number, there, here } of the first difference, and else
// { what: "" }
export function checkOf(page, listing, trace) {
  const isOther = page.source && differenceOf(page.listing, listing);
  if (isOther) return { what: "listing", ...isOther };
  const difference = differenceOf(page.trace, trace);
  return difference ? { what: "trace", ...difference } : { what: "" };
}
const shown = line => (line ? h("code", {}, line) : "nothing");

// The line that tells it: quiet, or red. What is typed isn't the page's any more.
export function drawCheck({ check, item, text, plan }) {
  const isShown = Boolean(check) && text === item.program && plan === item.plan;
  byId("check").hidden = !isShown;
  if (!isShown) return;
  byId("check").classList.toggle("is-wrong", Boolean(check.what));
  if (!check.what) {
    fill(byId("check"), "Played again in this page: the trace is the same.");
    return;
  }
  const told = "This page isn\u2019t what the machine plays. Line " + check.number + " of its " + check.what + ": ";
  fill(byId("check"), h("strong", {}, told), shown(check.there), " \u2014 the machine: ", shown(check.here));
}
