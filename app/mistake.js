// A mistake in a program or a plan, as its reader needs it: which line and word, what it means, what helps, and which
// word was probably meant. All of it is the library's, as a terminal shows it.
import { mistakeIn } from "./machine.js";

const plainly = text => text.replace(/`/g, "").replace(/^\w+: /, "");
const sentence = text => plainly(text).replace(/^[a-z](?=[a-z]* )/, sign => sign.toUpperCase());

// fault: what machine.js throws as Refused. { isProgram, line (from 1, or null), word: [from, to] or null, near,
// means, helps }
export function mistakeOf(fault, text, plan) {
  const isProgram = fault.group !== "plan" && fault.group !== "schedule";
  // of a page it may be the schedule of its run, which isn't written here
  const none = { line: null, column: null, length: 0, hint: "help: " + fault.help };
  const { line, column, length, hint } = mistakeIn(text, isProgram ? {} : { plan }) || none;
  const helps = hint.replace(/^\w+: /, "");
  // help with a word that isn't known begins with the instruction that does this
  const form = fault.group === "asm" && fault.kind === 3 ? /^(\w+) [A-Z]/.exec(helps) : null;
  return {
    isProgram,
    line,
    word: column ? [column - 1, column - 1 + length] : null,
    near: hint.startsWith("near: ") ? helps : form ? form[1] : "",
    means: sentence(fault.means || fault.told),
    helps: sentence(helps)
  };
}
