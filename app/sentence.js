// Sentences on a choice: what it did, what it would do, and the few words that it has in the timeline. They follow
// from the line of the choice and the states before and behind it.
import { ARRIVES, KINDS, nameOf, operandOf } from "./language.js";
import {
  callOf,
  entryText,
  hasSeveral,
  labelOf,
  listed,
  objectOf,
  phaseOf,
  rowText,
  strong,
  threadName,
  thrown
} from "./names.js";

export function markText(program, mark, before) {
  const barrier = mark.kind[1] === "b" ? nameOf(program, "B", mark.on) : "";
  if (mark.kind === "+b") return "Barrier " + barrier + " trips: all who wait there may go on.";
  if (mark.kind === "-b") return "Barrier " + barrier + " breaks.";
  const name = nameOf(program, "P", mark.on);
  const old = phaseOf(before.phasers[mark.on].view);
  if (mark.view < 0) return "Phase " + old + " of " + name + " was its last: it is terminated.";
  return "Phase " + old + " of " + name + " ends, phase " + mark.view + " begins.";
}
// how many have arrived behind an arrival that ended nothing; a phaser that is complete has arrived at its parent
function countText(program, row, state) {
  const b = operandOf(row, "B");
  if (b >= 0) {
    return state.barriers[b].waiting + " of " + program.barriers[b].parties + " wait at " + nameOf(program, "B", b) +
      ".";
  }
  let p = operandOf(row, "P");
  let child = -1;
  while (program.phasers[p].parent >= 0 && state.phasers[p].parties && !state.phasers[p].missing) {
    child = p;
    p = program.phasers[p].parent;
  }
  const one = state.phasers[p];
  const name = nameOf(program, "P", p);
  if (one.view < 0) return "";
  if (!one.parties) return name + " has no parties now.";
  if (child < 0) return one.arrived + " of " + one.parties + " parties of " + name + " have arrived.";
  return nameOf(program, "P", child) + " is complete and arrives at " + name + ": " + one.arrived + " of " +
    one.parties + ".";
}

function valueText(program, event, row, thread, who) {
  const call = callOf(program, row, thread);
  const into = row.operands[0] || "";
  const value = strong(event.value);
  if (thread.status === "waits") return ["The wait of ", who, " at " + call + " is over: it returns ", value, "."];
  if (row.word === "ret") {
    const entry = entryText(program, thread.stack[thread.stack.length - 1]);
    return [who, " ends the " + entry + "; its own call returns ", value, "."];
  }
  if (call) return [who, " calls " + call + ", which returns ", value, "."];
  if (row.word === "add" || row.word === "sub") {
    const [left, right] = row.operands.slice(1).map(register => thread.registers[Number(register[1])]);
    return [who, ": " + into + " = " + left + (row.word === "add" ? " + " : " \u2212 ") + right + " = ", value, "."];
  }
  const from = { mov: " from " + row.operands[1], self: ", its own number" }[row.word] || "";
  const cell = row.word === "lds" ? " from " + nameOf(program, "C", operandOf(row, "C")) : "";
  return [who, " puts ", value, from + cell + " into " + into + "."];
}
function plainText(program, event, row, thread, who) {
  const call = callOf(program, row, thread);
  const there = row.kinds.includes("L") ? labelOf(program, operandOf(row, "L")) : "";
  if (call) return [who, " calls " + call + "."];
  const said = {
    jmp: " goes on at " + there,
    call: " calls the rows at " + there,
    try: " sets a handler: what is thrown from here on is caught at " + there,
    endtry: " takes its handler away",
    ret: " comes back from its call"
  };
  if (said[row.word]) return [who, said[row.word] + "."];
  if (row.word === "sts") {
    const value = thread.registers[Number(row.operands[0][1])];
    return [who, " stores ", strong(value), " in " + nameOf(program, "C", operandOf(row, "C")) + "."];
  }
  if (there) {
    const both = row.operands.slice(0, 2).map(register => register + " = " + thread.registers[Number(register[1])]);
    return [who, " compares " + both.join(" with ") + "."];
  }
  return [who, ": " + rowText(program, row) + "."];
}
function idleText(event, thread, call, who) {
  if (event.isLate) return [
    "The time-out of ",
    who,
    " would come now, but it has no wait that can time out: nothing happens."
  ];
  const why = {
    waits: ", which still waits at " + call,
    ended: ", which has ended",
    died: ", which is dead"
  }[thread.status];
  return ["It is the turn of ", who, (why || ", which can\u2019t go on yet") + ": nothing happens."];
}
function throwText(program, event, row, thread, who, call) {
  const waited = thread.status === "waits";
  const cause = event.isLate
    ? ["The time of ", who, "\u2019s wait at " + call + " is up: it "]
    : waited
      ? ["The wait of ", who, " at " + call + " ends: it "]
      : [who, call ? " calls " + call + ", which " : " "];
  return [...cause, strong("throws " + thrown(event.value, row)), "."];
}
// What a choice did, or would do, from the state before it.
export function eventText(program, event, before) {
  const who = { thread: event.thread };
  if (event.what === "none") return ["There is no thread " + event.thread + "."];
  if (event.what === "limit") return ["No more choices are allowed."];
  const row = program.rows[event.row];
  const thread = before.threads[event.thread];
  const call = callOf(program, row, thread);
  const top = thread.stack[thread.stack.length - 1] || "";
  switch (event.what) {
    case "idle":
      return idleText(event, thread, call, who);
    case "=":
      return valueText(program, event, row, thread, who);
    case "ok":
      return plainText(program, event, row, thread, who);
    case "wait":
      return [who, " calls " + call + " and ", strong("waits"), "."];
    case "out":
      return [who, " puts out ", strong(event.value), "."];
    case "end":
      return [who, " ", strong("ends"), "."];
    case "die":
      return ["Nothing catches " + thrown(event.value) + ": ", who, " ", strong("is dead"), "."];
    case "catch":
      return [
        "A handler of ",
        who,
        " ",
        strong("catches " + thrown(event.value)),
        " at " + labelOf(program, Number(top.slice(1))) + "."
      ];
    case "unwind":
      return [who, ", throwing " + thrown(thread.code) + ", leaves the " + entryText(program, top) + "."];
    case "enter": {
      const routine = operandOf(row, "P") >= 0 ? "enters onAdvance" : "enters the action";
      return [who, " calls " + call + ", and as the last to arrive it ", strong(routine), "."];
    }
    default:
      return throwText(program, event, row, thread, who, call);
  }
}
const BRANCHES = { beq: ["equal", "not equal"], bne: ["not equal", "equal"], blt: ["less", "not less"] };

// where a branch led, or, with no state behind it, where it would lead; "" where there is none
function branchText(program, event, after) {
  const row = program.rows[event.row];
  if (event.what !== "ok" || !row || !BRANCHES[row.word]) return "";
  const target = operandOf(row, "L");
  const [is, isNot] = BRANCHES[row.word];
  const there = "it goes on at " + labelOf(program, target);
  if (target === event.row + 1) return "Either way it goes on below.";
  if (!after) return "If " + is + ", " + there + ", else below.";
  const isThere = after.threads[event.thread].row === target;
  const they = row.word === "blt" ? "The first is " : "They are ";
  return they + (isThere ? is + ": " + there : isNot + ": it goes on below") + ".";
}
// What the machine refused, behind the last choice that it played.
export function refusedText({ what, thread }, number) {
  const why = what === "none" ? "there is no thread " + thread : "no more choices or steps are allowed";
  return "Choice " + number + " is refused: " + why + ". The run stops here.";
}
// The whole sentence on a choice, with what it ended, or how many have arrived.
export function sentenceOf(program, event, before, after) {
  const said = eventText(program, event, before.state);
  const row = program.rows[event.row];
  const branch = branchText(program, event, after.state);
  if (branch) return [...said, " " + branch];
  if (event.mark) return [...said, " ", strong(markText(program, event.mark, before.state))];
  const isCall = row && before.state.threads[event.thread].status !== "waits";
  const arrived = event.what === "wait" || (event.what === "=" && event.value >= 0 && row && ARRIVES.has(row.word));
  const count = isCall && arrived ? countText(program, row, after.state) : "";
  return count ? [...said, " " + count] : said;
}
export function wouldText(program, event, moment) {
  const [first, ...rest] = eventText(program, event, moment.state);
  const branch = branchText(program, event);
  const said = [typeof first === "string" ? first[0].toLowerCase() + first.slice(1) : first, ...rest];
  if (branch) return [...said, " " + branch];
  return event.mark ? [...said, " ", strong(markText(program, event.mark, moment.state))] : said;
}

// The few words of a choice in the timeline.
export function tagOf(program, event, isJava) {
  const row = event.row < 0 ? null : program.rows[event.row];
  const object = row ? objectOf(program, row) : "";
  const call = row ? KINDS[row.word][1] : "";
  let head = row ? row.word + (hasSeveral(program) && object ? " " + object : "") : "";
  if (row && row.word === "intr") head = rowText(program, row);
  if (row && row.kinds.includes("C")) head += " " + nameOf(program, "C", operandOf(row, "C"));
  if (call && isJava) {
    const name = call.split("(")[0].replace("@", () => threadName(program, operandOf(row, "T")));
    head = (hasSeveral(program) && object ? object + "." : "") + name;
  }
  const said = {
    none: "refused",
    limit: "refused",
    idle: "can\u2019t go",
    end: "ends",
    wait: head + " waits",
    enter: head + " enters",
    out: (isJava ? "println " : "out ") + event.value,
    "=": head + " = " + event.value,
    die: "dies of " + event.value,
    catch: "catches " + event.value,
    unwind: "unwinds",
    throw: (event.isLate ? "time is up: " : "") + "throws " + event.value,
    ok: head
  };
  return said[event.what];
}
export function shortMark(program, mark) {
  const name = hasSeveral(program) ? nameOf(program, mark.kind[1] === "p" ? "P" : "B", mark.on) : "";
  if (mark.kind === "+b") return (name && name + " ") + "trips";
  if (mark.kind === "-b") return (name && name + " ") + "breaks";
  return (name && name + ": ") + (mark.view < 0 ? "terminated" : "phase " + mark.view + " begins");
}
// Who arrived for the phase that ended, or for the barrier that tripped, behind the words of its line.
export function metText(program, { mark, row }, met) {
  if (!met.length) return "";
  const names = ": " + listed(met.map(t => threadName(program, t))) + " arrived";
  // by force it is the phase itself that is terminated, and not the one behind it
  const back = program.rows[row].word === "pforce" ? 0 : 1;
  return mark.kind === "+b" ? names : names + " for phase " + phaseOf((mark.view - back) | 0);
}
