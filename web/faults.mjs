/**
 * What a call throws if it doesn't do as it was asked. Each is a `Fault`. Only the library's answers come in here:
 * nothing is computed but the words of a line.
 */

/** What each of these is. */
export class Fault extends Error {
  get name() {
    return this.constructor.name;
  }
}

/** An input is refused. The message is the line of it, and what it means. */
export class Refused extends Fault {
  /**
   * `told` is the line, `output` what was written before it, and `explained` what `vuthgal explain` says of the line.
   */
  constructor(told, output, explained) {
    const said = (word) => explained.match(new RegExp(`^  ${word}: +(.*)$`, "m"))?.[1] ?? "";
    super(`${told}\n${explained}`.trimEnd());
    const [, group, ...numbers] = told.split(" ");
    this.told = told;
    this.group = group;
    this.line = group === "asm" || group === "plan" ? Number(numbers.shift()) : null;
    this.kind = Number(numbers.shift());
    this.place = numbers;
    this.word = null;
    this.means = said("Means");
    this.help = said("Helps");
    this.output = output;
    this.mistake = null;
  }
}

/** A trace isn't that of the run. `line` is the first that differs, from 1. */
export class Differs extends Fault {
  constructor(told) {
    super(told);
    this.line = Number(told.split(" ").pop());
  }
}

/** It is no trace: `line` is the first that is no line of one, and `before` the schedule of the lines before it. */
export class NotATrace extends Differs {
  constructor(told, before = "") {
    super(told);
    this.before = before;
  }
}

/** No line has the words that were to be explained. */
export class NoLine extends Fault {
  constructor(words, told) {
    super(words);
    this.told = told;
  }
}

/** There is no memory for a call. `output` is a beginning of what it would have written. */
export class OutOfMemory extends Fault {
  constructor(output = new Uint8Array()) {
    super("memory");
    this.output = output;
  }
}

/** An input has more bytes than it may have. */
export class TooLong extends Fault {
  constructor() {
    super("an input has more bytes than it may have");
  }
}

/** A text is no line, no state or no trace. */
export class Malformed extends Fault {}

/** No choice is kept that could be taken back. */
export class NoHistory extends Fault {
  constructor() {
    super("no choice is kept that could be taken back");
  }
}

/** A session is closed. */
export class Closed extends Fault {
  constructor() {
    super("the session is closed");
  }
}
