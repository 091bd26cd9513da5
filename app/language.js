// A program that the machine accepted, as a value: its objects and rows are those of the machine's listing; names,
// lines, comments and the teacher's questions are those of the text as it was written. It plays nothing.

// Each row's operands (r register, n number, L row, P phaser, B barrier, T thread, C cell), and the call of Java for
// which it stands: $ is the next register behind the object, @ the thread's name. Without a prototype, since names
// such as `constructor` are asked for.
export const KINDS = {
  __proto__: null,
  halt: [""],
  ldi: ["rn"],
  mov: ["rr"],
  add: ["rrr"],
  sub: ["rrr"],
  jmp: ["L"],
  beq: ["rrL"],
  bne: ["rrL"],
  blt: ["rrL"],
  call: ["L"],
  ret: [""],
  try: ["L"],
  endtry: [""],
  throw: ["r"],
  out: ["r"],
  lds: ["rC"],
  sts: ["rC"],
  self: ["r"],
  intr: ["T", "@.interrupt()"],
  intrd: ["r", "Thread.interrupted()"],
  preg: ["rP", "register()"],
  pbulk: ["rPr", "bulkRegister($)"],
  parr: ["rP", "arrive()"],
  pdereg: ["rP", "arriveAndDeregister()"],
  paaa: ["rP", "arriveAndAwaitAdvance()"],
  pawait: ["rPr", "awaitAdvance($)"],
  pawaiti: ["rPr", "awaitAdvanceInterruptibly($)"],
  pforce: ["P", "forceTermination()"],
  pphase: ["rP", "getPhase()"],
  pparties: ["rP", "getRegisteredParties()"],
  parrived: ["rP", "getArrivedParties()"],
  punarr: ["rP", "getUnarrivedParties()"],
  pterm: ["rP", "isTerminated()"],
  pparent: ["rP", "getParent()"],
  proot: ["rP", "getRoot()"],
  cawait: ["rB", "await()"],
  creset: ["B", "reset()"],
  cbroken: ["rB", "isBroken()"],
  cwaiting: ["rB", "getNumberWaiting()"],
  cparties: ["rB", "getParties()"],
  pawaitt: ["rPrr", "awaitAdvanceInterruptibly($, $, unit)"],
  cawaitt: ["rBr", "await($, unit)"]
};
export const DIRECTIVES = [".phaser", ".barrier", ".thread", ".cell"];
export const THROWN = {
  1: "IllegalStateException",
  2: "IllegalArgumentException",
  3: "InterruptedException",
  4: "BrokenBarrierException",
  5: "TimeoutException"
};
export const ARRIVES = new Set(["parr", "pdereg", "paaa"]);

const KIND_OF = { ".phaser": "P", ".barrier": "B", ".thread": "T", ".cell": "C" };
const wordsOf = text => text.split(/[ \t\r]+/).filter(Boolean);

function readListing(listing) {
  const read = { phasers: [], barriers: [], threads: [], rows: [] };
  for (const line of listing.split("\n")) {
    const words = wordsOf(line);
    if (!words.length) continue;
    const behind = word => (words.includes(word) ? Number(words[words.indexOf(word) + 1].slice(1)) : -1);
    if (words[0] === ".phaser") {
      read.phasers.push({ parties: Number(words[2]), parent: behind("parent"), routine: behind("onadvance") });
    } else if (words[0] === ".barrier") read.barriers.push({ parties: Number(words[2]), action: behind("action") });
    else if (words[0] === ".thread") read.threads.push({ row: Number(words[2].slice(1)) });
    else read.rows.push({ word: words[0], kinds: KINDS[words[0]][0], operands: words.slice(1) });
  }
  return read;
}

function readWritten(text) {
  const read = { names: { P: [], B: [], T: [], C: [], L: {} }, lineOf: [], questions: [], head: [] };
  let count = 0;
  let isHead = true;
  text.split("\n").forEach((line, number) => {
    const cut = line.indexOf(";");
    const code = wordsOf(cut < 0 ? line : line.slice(0, cut));
    const talk = cut < 0 ? "" : line.slice(cut + 1);
    const asked = talk[0] === "?" ? talk.slice(1).trim() : "";
    if (code.length) isHead = false;
    else if (isHead && talk && talk[0] !== "?") read.head.push(talk.trim());
    if (code.length && code[0].endsWith(":")) {
      (read.names.L[count] = read.names.L[count] || []).push(code.shift().slice(0, -1));
    }
    if (code.length && KIND_OF[code[0]]) read.names[KIND_OF[code[0]]].push(code[1]);
    else if (code.length) read.lineOf[count++] = number;
    // a question of a row stands behind it, or in the lines above it
    if (asked) read.questions.push({ row: code.length ? count - 1 : count, text: asked });
  });
  return read;
}

export function readProgram(text, listing) {
  const { names, lineOf, questions, head } = readWritten(text);
  const program = { text, ...readListing(listing), names, lineOf, questions };
  // the title ends at the first colon, or with the first sentence
  const about = head.join(" ").replace(/`/g, "");
  const cut = /^([^:.]{1,60})[:.]\s*(.*)$/s.exec(about);
  const isName = cut && names.T.some(name => cut[2].startsWith(name));
  program.title = cut ? cut[1] : about.slice(0, 60);
  program.about = cut ? (isName ? cut[2] : cut[2].replace(/^[a-z]/, sign => sign.toUpperCase())) : "";
  // where no row and no child registers another party, the text tells how many there are ever
  const registers = p => program.rows.some(row => /^(preg|pbulk)$/.test(row.word) && operandOf(row, "P") === p);
  program.children = program.phasers.map(
    (_, p) => program.phasers.flatMap((one, n) => (one.parent === p ? [n] : []))
  );
  program.everParties = program.phasers.map(
    ({ parties }, p) => (program.children[p].length || registers(p) ? Infinity : parties)
  );
  return program;
}

export const nameOf = (program, kind, n) => program.names[kind][n] || { P: "p", B: "b", T: "t", C: "c" }[kind] + n;

// The number of a row's first operand of this kind, or -1.
export function operandOf(row, kind) {
  const at = row ? row.kinds.indexOf(kind) : -1;
  return at < 0 ? -1 : Number(row.operands[at].slice(1));
}
export function rootOf(program, p) {
  while (program.phasers[p].parent >= 0) p = program.phasers[p].parent;
  return p;
}
