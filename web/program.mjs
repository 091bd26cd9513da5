#!/usr/bin/env node
/**
 * The program `vuthgal` for any system that has Node: the commands that need no real threads, over the library.
 * Statuses, streams and lines are those of the native program, by docs/COMMANDS.md. What the library hasn't, this
 * hasn't: `live`, `race`, `--expect`, `--show`, `--rows`, `--alone`, `--at`, explanations after an error, and what a
 * terminal sees besides.
 *
 * In this room: the commands. `streams.mjs` reads and writes, `arguments.mjs` reads what was asked.
 */
import { existsSync, readFileSync } from "node:fs";
import { asked, Usage, VERSION } from "./arguments.mjs";
import { bytesOf, textOf } from "./bytes.mjs";
import { choicesIn, MOST_CHOICES, MOST_TRACE } from "./page.mjs";
import { Ended, opened, openedToWrite, STANDARD_INPUT, write, writeLine, writeTo } from "./streams.mjs";
import { load, OutOfMemory } from "./vuthgal.mjs";

const MOST_PLANNED = 1_000_000;
/** How many bytes the schedule of a page has at most. */
const MOST_SCHEDULE = 16_777_216;
let vuthgal;

/** A call: its output and line are written, and its status is the program's. */
function told(name, inputs, ...more) {
  const { status, output, line } = vuthgal.call(name, inputs, ...more);
  write(output);
  writeLine(line);
  return status;
}

/**
 * Where the line after `.run` begins, and where `.run` itself does: the end of a text that has no such line, and of
 * an image.
 */
function runLine(file) {
  const text = Buffer.from(file).toString("latin1");
  const found = /^PBW[12]/.test(text) ? null : text.match(/^[ \t\r]*\.run[ \t\r]*(;[^\n]*)?(\n|$)/m);
  return found ? [found.index, found.index + found[0].length] : [file.length, file.length];
}

/** Ends the program if this one is refused: then standard input is left to whoever reads it next. */
function checkProgram(program) {
  const { status, line } = vuthgal.call("run", [program, ""]);
  if (status !== 0) throw new Ended(status, line);
}

/** A program and the choices that were asked for, which a plan, a file, or the text after `.run` has. */
function steps(file, schedule, { plan, "plan-file": planFile }) {
  const program = opened(file, false);
  const other = planFile === undefined ? schedule && opened(schedule) : opened(planFile);
  const beside = program.read();
  if (plan === undefined && other && planFile === undefined) {
    checkProgram(beside);
    return [beside, other.read()];
  }
  const [end, begin] = runLine(beside);
  const text = beside.subarray(0, end);
  if (plan === undefined && planFile === undefined) return [text, beside.subarray(begin)];
  return [text, planned(text, plan ?? other.read())];
}

/** The schedule of a plan. One that needs more choices is played as far as it may go. */
function planned(program, plan) {
  const { status, output, line } = vuthgal.call("plan", [program, plan], MOST_PLANNED, 0);
  writeLine(line);
  if (status > 1) throw new Ended(status);
  return output;
}

function run([file, schedule], options) {
  if (file === undefined) return told("both", [opened(STANDARD_INPUT).read()]);
  return told("run", steps(file, schedule, options));
}

function asm([source, image]) {
  const from = opened(source, false);
  const into = openedToWrite(image, from);
  const { status, output, line } = vuthgal.call("asm", [from.read()]);
  writeTo(into, output);
  writeLine(line);
  return status;
}

function compare([file, trace]) {
  const [program, other] = [opened(file, false), opened(trace)];
  const bytes = program.read();
  checkProgram(bytes);
  return told("compare", [bytes, other.read()]);
}

function plan([file, words], { names, seeds, limit }) {
  const [program, other] = [opened(file, false), (words !== undefined || !seeds) && opened(words ?? STANDARD_INPUT)];
  const beside = program.read();
  const text = beside.subarray(0, runLine(beside)[0]);
  checkProgram(text);
  const inputs = [text, other ? other.read() : ""];
  if (!seeds) return told("plan", inputs, MOST_PLANNED, names ? 1 : 0);
  const [from, to] = seeds.split("..").map(Number);
  return told("seeds", inputs, from, to - from + 1, Number(limit ?? 0), names ? 1 : 0);
}

/** Carries out each line of commands before the next is read. */
function debug([file], options) {
  const program = opened(file, false).read();
  const { plan, "plan-file": planFile } = options;
  const chosen = plan === undefined && planFile === undefined ? null : steps(file, undefined, options);
  const { status, line, session } = opening(chosen ? chosen[0] : program);
  if (!session) {
    writeLine(line);
    return status;
  }
  if (chosen) write(bytesOf(session.command(`g ${Buffer.from(chosen[1]).toString("latin1").trimEnd()}`)));
  for (const command of opened(STANDARD_INPUT).lines()) {
    if (/^[ \t\r]*q[ \t\r]*$/.test(command)) break;
    write(bytesOf(session.command(command)));
  }
  session.close();
  return 0;
}

/** A session, or the status and the line for which there is none. */
function opening(program) {
  try {
    return { session: vuthgal.session(program) };
  } catch (fault) {
    if (fault.told) return { status: 3, line: `${fault.told}\n` };
    if (fault instanceof OutOfMemory) throw fault;
    return { status: 5, line: "read\n" };
  }
}

/**
 * Ends the program if a page has no room for so many choices, or if the schedule has a fault: of both for the one that
 * comes first, but a text that holds its schedule is read whole.
 */
function checkSchedule(program, tokens, isBeside) {
  const text = textOf(tokens);
  const found = vuthgal.mistake(program, { schedule: tokens });
  const at = found?.told.startsWith("refused schedule") ? Number(found.told.split(" ").at(-1)) : text.length;
  const before = found ? text.slice(0, at).replace(/\S*$/, "") : text;
  const isTooLong = choicesIn(before) > MOST_CHOICES;
  if (found && !(isTooLong && !isBeside)) throw new Ended(3, `${found.told}\n`);
  if (isTooLong) throw new Ended(3, `refused show ${MOST_CHOICES}\n`);
}

/** Writes the app with a run in it. The app stands beside this file, or above it. */
function show([file, schedule], options) {
  const [program, tokens] = steps(file, schedule, options);
  if (tokens.length > MOST_SCHEDULE) throw new Ended(5, "read\n");
  const isBeside = [schedule, options.plan, options["plan-file"]].every((it) => it === undefined);
  checkSchedule(program, tokens, isBeside);
  const { status, output, line } = vuthgal.call("run", [program, tokens]);
  if (status !== 0) throw new Ended(status, line);
  if (output.length > MOST_TRACE) throw new Ended(3, `refused show ${MOST_TRACE}\n`);
  const places = ["vuthgal.html", "../vuthgal.html"].map((name) => new URL(name, import.meta.url));
  const app = readFileSync(places.find((place) => existsSync(place)) ?? places[0], "latin1");
  write(bytesOf(vuthgal.page(program, tokens, app)));
  return 0;
}

const COMMANDS = {
  run,
  asm,
  compare,
  plan,
  debug,
  list: ([file]) => told("list", [opened(file, false).read()]),
  choices: ([trace]) => told("choices", [opened(trace).read()]),
  show,
  draw: ([file, schedule], options) => told("draw", steps(file, schedule, options), Number(options.width ?? 80)),
  explain: (words) => told("explain", [words.join(" ")]),
};

/** Does what the arguments ask for, and returns the exit status. */
async function main(words) {
  try {
    vuthgal = await load(readFileSync(new URL("vuthgal.wasm", import.meta.url)));
    const { command, files, options } = asked(words);
    if (command === VERSION) {
      write(bytesOf(`vuthgal ${vuthgal.version}\n`));
      return 0;
    }
    return COMMANDS[command](files, options);
  } catch (fault) {
    if (fault instanceof Usage) {
      (fault.status === 0 ? write : writeLine)(fault.status === 0 ? bytesOf(fault.message) : fault.message);
      return fault.status;
    }
    if (fault instanceof OutOfMemory) fault = new Ended(4, "memory\n");
    if (!(fault instanceof Ended)) throw fault;
    writeLine(fault.line);
    return fault.status;
  }
}

process.exitCode = await main(process.argv.slice(2));
