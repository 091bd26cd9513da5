/**
 * The files and streams of the program in Node. Each is opened before any is read. What fails ends the program with
 * status 5 and the line `read` or `write`, whatever the system's reason is.
 */
import { closeSync, fstatSync, openSync, readSync, writeSync } from "node:fs";

export const STANDARD_INPUT = "-";
const PIECE = 1 << 16;

/** How the program ends before its command does: with a status and a line. */
export class Ended {
  constructor(status, line = "") {
    this.status = status;
    this.line = line;
  }
}

function failed(word) {
  return new Ended(5, `${word}\n`);
}

/** Does something with the system. What it throws is a failed read or write. */
function tried(word, use) {
  try {
    return use();
  } catch {
    throw failed(word);
  }
}

class Input {
  constructor(descriptor) {
    this.descriptor = descriptor;
  }

  /** The next bytes; none at the end. */
  #piece() {
    const piece = Buffer.alloc(PIECE);
    try {
      return piece.subarray(0, readSync(this.descriptor, piece));
    } catch (error) {
      if (error.code === "EOF") return piece.subarray(0, 0); // Windows ends a pipe so
      throw failed("read");
    }
  }

  /** All bytes. */
  read() {
    const pieces = [];
    for (let piece = this.#piece(); piece.length > 0; piece = this.#piece()) pieces.push(piece);
    if (this.descriptor > 2) closeSync(this.descriptor);
    return Buffer.concat(pieces);
  }

  /** Line after line, without line feeds, as texts of which a character is a byte. */
  *lines() {
    let rest = "";
    for (let piece = this.#piece(); piece.length > 0; piece = this.#piece()) {
      const lines = (rest + piece.toString("latin1")).split("\n");
      rest = lines.pop();
      yield* lines;
    }
    if (rest !== "") yield rest;
  }
}

/** Opens a file to be read. Where it may be, `-` is standard input. */
export function opened(name, mayBeStandard = true) {
  if (mayBeStandard && name === STANDARD_INPUT) return new Input(0);
  return new Input(tried("read", () => openSync(name, "r")));
}

/** Opens a file to be written, and makes it empty, unless it is the one that is read. */
export function openedToWrite(name, input) {
  const descriptor = tried("write", () => openSync(name, "a"));
  const [one, other] = [fstatSync(descriptor), fstatSync(input.descriptor)];
  if (one.ino === other.ino && one.dev === other.dev) throw failed("write");
  closeSync(descriptor);
  return tried("write", () => openSync(name, "w"));
}

/** Writes all of some bytes. */
export function writeTo(descriptor, bytes) {
  for (let at = 0; at < bytes.length; ) at += tried("write", () => writeSync(descriptor, bytes, at));
}

/** Writes to standard output. */
export function write(bytes) {
  writeTo(1, bytes);
}

/** Writes a line, or none, to standard error. Nobody is told if that fails. */
export function writeLine(line) {
  try {
    if (line) writeTo(2, Buffer.from(line));
  } catch {
    // there is nowhere to say so
  }
}
