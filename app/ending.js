// How a run ends, in words: one word each, stuck, ended, died or open, with who and what was put out.
import { listed, threadName } from "./names.js";

export function endKind(end) {
  if (end.word === "stuck") return "stuck";
  if (end.word !== "all") return "open";
  return end.threads.some(thread => thread.status === "died") ? "died" : "ended";
}
export const KIND_TEXT = { stuck: "\u25A0 stuck", ended: "\u25CF all end", died: "\u2716 dies", open: "\u25CB open" };

const few = list => (list.length > 4 ? listed([...list.slice(0, 3), list.length - 3 + " more"]) : listed(list));

export function endText(program, end) {
  const who = status => end.threads.flatMap((one, t) => (one.status === status ? [threadName(program, t)] : []));
  const waits = who("waits");
  const died = who("died");
  const parts = [];
  if (end.word === "all" && !died.length) parts.push("all threads end");
  if (end.word === "live") parts.push("open: threads could go on");
  if (end.word === "stuck") {
    parts.push(
      waits.length ? "stuck: " + few(waits) + (waits.length === 1 ? " waits" : " wait") + " for ever" : "stuck"
    );
  }
  for (const code of new Set(end.threads.flatMap(one => (one.status === "died" ? [one.code] : [])))) {
    const its = end.threads.flatMap((one, t) => (one.status === "died" && one.code === code ? [threadName(program, t)] : []));
    parts.push(few(its) + (its.length === 1 ? " dies of " : " die of ") + code);
  }
  return parts.join("; ");
}
const lastOf = list => (list.length > 5 ? "\u2026 " : "") + list.slice(-5).join(" ");

export function outputText(program, end) {
  const said = (thread, t) => (thread.out.length ? [threadName(program, t) + " " + lastOf(thread.out)] : []);
  return end.threads.flatMap(said).join(", ");
}
// how one thread ends
export function threadEnd(end, t) {
  const { status, code, out } = end.threads[t];
  const word = {
    waits: end.word === "stuck" ? "waits for ever" : "waits",
    died: "died of " + code
  }[status] || status;
  return word + (status === "throws" ? " " + code : "") + (out.length ? ", output " + lastOf(out) : "");
}
