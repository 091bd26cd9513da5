/** What the program's arguments ask for: a command, its files and its options. Nothing is opened or played here. */

export const VERSION = "version";

/** The arguments are wrong, or ask for help: what is written then. */
export class Usage {
  constructor(message, status = 2) {
    this.message = message;
    this.status = status;
  }
}

const PLANS = { plan: "PLAN", "plan-file": "FILE" };

/**
 * Each command: its other names, its files (those in brackets may be left out), and its options with what they take.
 */
const COMMANDS = {
  asm: { names: ["assemble", "compile", "build"], files: ["<SRC>", "<OUT>"], options: {} },
  list: { names: ["disasm", "disassemble", "dump"], files: ["<FILE>"], options: {} },
  run: { names: ["play", "exec", "execute", "replay", "simulate"], files: ["<FILE>", "[SCHEDULE]"], options: PLANS },
  compare: { names: ["diff", "verify"], files: ["<FILE>", "<TRACE>"], options: {} },
  debug: { names: ["step", "gdb"], files: ["<FILE>"], options: PLANS },
  show: { names: ["page", "html", "view"], files: ["<FILE>", "[SCHEDULE]"], options: PLANS },
  draw: { names: ["picture", "diagram", "graph"], files: ["<FILE>", "[SCHEDULE]"], options: { ...PLANS, width: "N" } },
  choices: { names: [], files: ["<TRACE>"], options: {} },
  plan: { names: [], files: ["<FILE>", "[PLAN]"], options: { names: null, seeds: "FROM..TO", limit: "N" } },
  explain: { names: [], files: ["[WORD]..."], options: {} },
};

const HELP = `Plays programs of threads that call phasers and barriers

Usage: vuthgal [COMMAND]

Commands:
${Object.entries(COMMANDS)
  .map(([name, { files, options }]) => `  ${[name, ...optionsOf(options), ...files].join(" ")}`)
  .join("\n")}

Without a command, standard input is a program text, a line \`.run\` and its
schedule. \`-\` for SCHEDULE, PLAN or TRACE is standard input. This is the library
in Node. It has no \`live\` and \`race\`, and none of the native program's other
options. docs/COMMANDS.md says what each command does.
`;

function optionsOf(options) {
  return Object.entries(options).map(([name, takes]) => (takes ? `[--${name} ${takes}]` : `[--${name}]`));
}

function wrong(what, command) {
  const usage = command ? [command, "[OPTIONS]", ...COMMANDS[command].files].join(" ") : "[OPTIONS] [COMMAND]";
  return new Usage(`error: ${what}\n\nUsage: vuthgal ${usage}\n\nFor more information, try '--help'.\n`);
}

function commandOf(word) {
  const found = Object.entries(COMMANDS).find(([name, { names }]) => name === word || names.includes(word));
  if (found) return found[0];
  if (word === "live" || word === "race") throw wrong(`'${word}' needs real threads, which this package hasn't`);
  throw wrong(`unrecognized subcommand '${word}'`);
}

/** A number in decimal digits, in bounds. */
function numberIn(text, least, most) {
  return /^[0-9]{1,10}$/.test(text) && Number(text) >= least && Number(text) <= most;
}

const IS_FIT = {
  width: (text) => numberIn(text, 60, 1000),
  limit: (text) => numberIn(text, 1, 1_000_000),
  seeds: (text) => {
    const [from, to, ...more] = text.split("..");
    const are = numberIn(from, 0, 4294967295) && to !== undefined && numberIn(to, 0, 4294967295) && more.length === 0;
    return are && Number(from) <= Number(to) && to - from < 100_000;
  },
  explain: (text) => ["auto", "never"].includes(text),
};

/** The value of an option, which may be the next argument. */
function valueOf(name, given, rest, command) {
  const value = given ?? rest.shift();
  if (value === undefined) throw wrong(`a value is required for '--${name}' but none was supplied`, command);
  if (IS_FIT[name] && !IS_FIT[name](value)) throw wrong(`invalid value '${value}' for '--${name}'`, command);
  return value;
}

/**
 * What is played is named once: by a schedule, by a plan, or by the file of one. They are in the order in which they
 * were given.
 */
function checkChoices(given, command) {
  if (given.length > 1) throw wrong(`the argument '${given[0]}' cannot be used with '${given[1]}'`, command);
}

/** Reads the arguments of a command. After `--` every one is a file. */
function read(command, rest) {
  const takes = { ...COMMANDS[command].options, explain: "WHEN" };
  const files = [];
  const options = {};
  const choices = [];
  while (rest.length > 0) {
    const word = rest.shift();
    if (word === "--") {
      files.push(...rest.splice(0));
    } else if (word === "-h" || word === "--help") {
      throw new Usage(HELP, 0);
    } else if (word.startsWith("-") && word !== "-") {
      const [, name, value] = word.match(/^--?([^=]*)=?(?:(?<==)(.*))?$/s) ?? [];
      if (!(name in takes) || !word.startsWith("--")) throw wrong(`unexpected argument '${word}' found`, command);
      const label = takes[name] === null ? `--${name}` : `--${name} <${takes[name]}>`;
      if (name in options) throw wrong(`the argument '${label}' cannot be used multiple times`, command);
      options[name] = takes[name] === null ? true : valueOf(name, value, rest, command);
      if (name in PLANS) choices.push(label);
    } else {
      files.push(word);
      if ("plan" in takes && files.length === 2) choices.push("[SCHEDULE]");
    }
  }
  checkChoices(choices, command);
  return { command, files, options };
}

/** What the arguments ask for. It throws a `Usage` if they are wrong. */
export function asked(words) {
  const [first, ...rest] = words;
  if (words.some((word) => word.includes("\ufffd"))) throw new Usage("error: invalid UTF-8 was detected in one or more arguments\n");
  if (first === undefined) return { command: "run", files: [], options: {} };
  if (first === "-V" || first === "--version") return { command: VERSION };
  if (first === "-h" || first === "--help" || first === "help") throw new Usage(HELP, 0);
  const command = commandOf(first);
  const found = read(command, rest);
  const { files } = COMMANDS[command];
  const missing = files.slice(found.files.length).filter((file) => file.startsWith("<"));
  if ("limit" in found.options && !("seeds" in found.options)) missing.push("--seeds <FROM..TO>");
  if (missing.length > 0) {
    throw wrong(`the following required arguments were not provided:\n  ${missing.join("\n  ")}`, command);
  }
  const isList = files.at(-1)?.endsWith("...");
  const more = found.files[files.length];
  if (!isList && more !== undefined) throw wrong(`unexpected argument '${more}' found`, command);
  return found;
}
