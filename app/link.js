// A link holds all: program, plan, the forks that lead to the run, the choice and the mode, packed behind the # of
// the address. It is given values and gives values; it never touches the page.
import { forkRun, lengthOf } from "./run.js";

const MODES = { e: "explore", l: "lesson", q: "quiz", c: "challenge" };
// a short link may hold a text without end
const LONGEST = 2000000;
// browsers take longer addresses than this, and those who pass them on may not
export const MOST_LINK = 60000;

// The forks of a run from the first one on, each as choice and token: 2t1.9 is choice 9 of the run in which t1 makes
// choice 2.
export function addressOf(tree, run, at) {
  let path = "";
  for (let one = run; one.parent >= 0; one = tree.runs[one.parent]) {
    path = one.fork + 1 + one.choices[one.fork] + "." + path;
  }
  return path + at;
}
const ADDRESS = /^(\d{1,7}[tx]\d{1,2}\.)*\d{1,7}$/;

// Where an address leads: { tree, run, at, isWhole }. It stops where the first fork would be that there isn't.
export function walkTo(tree, address) {
  let run = tree.runs[0];
  const parts = address.split(".");
  let at = Number(parts.pop()) || 0;
  let isWhole = true;
  for (const part of parts) {
    const m = /^(\d+)([tx]\d+)$/.exec(part);
    const i = Number(m && m[1]) - 1;
    try {
      if (i < 0 || i > lengthOf(run)) throw new Error("no such choice");
      ({ tree, run } = forkRun(tree, run.id, i, m[2]));
    } catch (_) {
      isWhole = false;
      at = i;
      break;
    }
  }
  return { tree, run, at: Math.min(lengthOf(run), at), isWhole };
}

async function through(bytes, stream) {
  const reader = new Blob([bytes]).stream().pipeThrough(stream).getReader();
  const parts = [];
  for (let all = 0, one; !(one = await reader.read()).done; parts.push(one.value)) {
    all += one.value.length;
    if (all > LONGEST) throw new Error("the link holds too much");
  }
  return new Uint8Array(await new Blob(parts).arrayBuffer());
}
function base64(bytes) {
  let signs = "";
  for (const byte of bytes) signs += String.fromCharCode(byte);
  return btoa(signs).replace(/\+/g, "-").replace(/\//g, "_").replace(/=/g, "");
}
const unbase64 = text => Uint8Array.from(atob(text.replace(/-/g, "+").replace(/_/g, "/")), sign => sign.charCodeAt(0));

export async function linkOf({ text, plan, name, address, mode }) {
  const packed = await through(
    new TextEncoder().encode(JSON.stringify([text, plan, name])),
    new CompressionStream("deflate-raw")
  );
  return "#" + [mode[0], address, base64(packed)].join("/");
}
// What a link holds: null where there is none, { address } alone where it is the address of a run in this file; one
// that is broken is thrown.
export async function readLink(hash) {
  if (hash.length < 2) return null;
  if (ADDRESS.test(hash.slice(1))) return { address: hash.slice(1) };
  const [sign, address, packed] = hash.slice(1).split("/");
  if (!Object.hasOwn(MODES, sign) || !packed || !ADDRESS.test(address)) throw new Error("it isn\u2019t whole");
  const bytes = await through(unbase64(packed), new DecompressionStream("deflate-raw"));
  const read = JSON.parse(new TextDecoder().decode(bytes));
  if (
    !Array.isArray(read) || read.slice(0, 2).some(one => typeof one !== "string")
  ) throw new Error("it holds no program");
  return { text: read[0], plan: read[1], name: String(read[2] || ""), address, mode: MODES[sign] };
}
