// The words for things of a program: threads, objects, rows, calls. A sentence is a list of parts: text, { thread: n
// } or { strong: text }; here it becomes plain text.
import { KINDS, THROWN, nameOf, operandOf } from "./language.js";

const PHASES = 2147483648;

// The number of the phase that a view stands for, also where its phaser is terminated.
export const phaseOf = view => (view < 0 ? view + PHASES : view);
export const threadName = (program, t) => nameOf(program, "T", t);
export const labelOf = (program, row) => (program.names.L[row] ? program.names.L[row][0] : "row " + row);
export const strong = text => ({ strong: String(text) });
// the hue that a thread has, besides its name
export const hueOf = t => "hue" + (t % 8);

export function listed(list, and = "and") {
  return list.length < 2 ? list.join("") : list.slice(0, -1).join(", ") + " " + and + " " + list[list.length - 1];
}
// Parts with commas and a last word between them.
export function spread(list, and = "and") {
  return list.flatMap((one, k) => (k === 0 ? [one] : [k === list.length - 1 ? " " + and + " " : ", ", one]));
}
// What 6, 7 and 8 mean is told by the row that throws them: a program may throw the same number itself.
const OF_ROWS = {
  6: ["the stack is full", /^(call|try|paaa|parr|pdereg|cawait|cawaitt)$/],
  7: ["a return to nowhere", /^ret$/],
  8: ["the output is full", /^out$/]
};
export function thrown(code, row) {
  if (THROWN[code]) return code + " (" + THROWN[code] + ")";
  const [text, words] = OF_ROWS[code] || [];
  return row && text && words.test(row.word) ? code + " (" + text + ")" : String(code);
}

export function objectOf(program, row) {
  const p = operandOf(row, "P");
  const b = operandOf(row, "B");
  return p >= 0 ? nameOf(program, "P", p) : b >= 0 ? nameOf(program, "B", b) : "";
}
// Whether a program has several phasers and barriers, so that their names have to be said.
export const hasSeveral = program => program.phasers.length + program.barriers.length > 1;

// The call of Java for which a row stands; "" where it is none. With a thread, its registers' numbers are put in.
export function callOf(program, row, thread) {
  const call = KINDS[row.word][1];
  if (!call) return "";
  let at = row.kinds.indexOf("P") + row.kinds.indexOf("B") + 2;
  const object = objectOf(program, row);
  const filled = call.replace(/\$/g, () => {
    const register = row.operands[at++];
    return thread ? thread.registers[Number(register[1])] : register;
  });
  return (object && object + ".") + filled.replace("@", () => threadName(program, operandOf(row, "T")));
}
function operandNames(program, row) {
  return row.operands.map((operand, k) => {
    const kind = row.kinds[k];
    if (kind === "r" || kind === "n") return operand;
    const n = Number(operand.slice(1));
    return kind === "L" ? labelOf(program, n) : nameOf(program, kind, n);
  });
}
export const rowText = (program, row) => [row.word, ...operandNames(program, row)].join(" ");

// What the rows that are no call are in Java, where a register is a variable and a cell a field.
const STATEMENTS = {
  halt: "return",
  ldi: "$0 = $1",
  mov: "$0 = $1",
  add: "$0 = $1 + $2",
  sub: "$0 = $1 - $2",
  jmp: "goto $0",
  beq: "if ($0 == $1) goto $2",
  bne: "if ($0 != $1) goto $2",
  blt: "if ($0 < $1) goto $2",
  call: "$0()",
  ret: "return",
  try: "try { // catch: $0",
  endtry: "}",
  throw: "throw $0",
  out: "System.out.println($0)",
  lds: "$0 = $1",
  sts: "$1 = $0",
  self: "$0 = Thread.currentThread().getId()"
};
export function javaText(program, row) {
  const call = callOf(program, row, null);
  if (call) return (row.kinds[0] === "r" ? row.operands[0] + " = " : "") + call;
  const operands = operandNames(program, row);
  return STATEMENTS[row.word].replace(/\$(\d)/g, (_, k) => operands[k]);
}
// What an entry of a stack is.
export function entryText(program, entry) {
  const n = Number(entry.slice(1));
  const said = {
    C: "call",
    H: "handler",
    A: "onAdvance of " + nameOf(program, "P", n),
    X: "action of " + nameOf(program, "B", n)
  };
  return said[entry[0]];
}
// A sentence as plain text.
export function plain(program, parts) {
  const said = part => (
    typeof part === "string" ? part : part.strong !== undefined ? part.strong : threadName(program, part.thread)
  );
  return parts.map(said).join("");
}
