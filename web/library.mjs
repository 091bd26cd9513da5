/**
 * The library in its memory: how inputs get to a call of include/vuthgal.h, and outputs back. It is given an instance
 * of `vuthgal.wasm`. It gives statuses, bytes and texts, and knows nothing of what they mean.
 *
 * For the library, addresses and counts have 64 bits, so they are BigInts where a call takes them, and numbers
 * elsewhere.
 */
import { bytesOf, textOf, writeText } from "./bytes.mjs";
import { OutOfMemory } from "./faults.mjs";

/** How many bytes the room for an output has at first, and how many it may have to be kept for the next call. */
const ROOM = 1 << 16;
const KEPT_ROOM = 1 << 24;
const LINE_ROOM = 1 << 12;

/** The inputs that can be refused, by their numbers. */
const INPUTS = ["program", "plan", "schedule"];

/** How many bytes a command of a session has room for, and a reply that is never asked for twice. */
const COMMAND_ROOM = 512;
const REPLY_ROOM = 512;
/** How many bytes the library's handle of a session has, and the structs and arrays that one call fills. */
const HANDLE = 16;
const STRUCTS = 8 + 4 * 4096;

/** A place in the memory that a call writes to: as many bytes as it has room for, and how many there would be. */
class Room {
  #library;

  constructor(library, size) {
    this.#library = library;
    this.size = size;
    this.at = library.take(size);
    this.lengthAt = library.take(8);
    /** what a call takes of it */
    this.words = [BigInt(this.at), BigInt(size), BigInt(this.lengthAt)];
  }

  /** How many bytes the last call had for it. */
  get length() {
    return this.#library.number(this.lengthAt);
  }

  /** A copy of the bytes that it has. */
  get bytes() {
    return this.#library.bytes.slice(this.at, this.at + Math.min(this.length, this.size));
  }

  get text() {
    return this.#library.text(this.at, Math.min(this.length, this.size));
  }

  free() {
    this.#library.give(this.at);
    this.#library.give(this.lengthAt);
  }
}

export class Library {
  #exports;
  #bytes = new Uint8Array();
  #view;
  #output;
  #line;
  #command;
  #reply;

  /** A place for the structs that a call fills: the address, and as a call takes it. */
  struct;

  constructor(instance) {
    this.#exports = instance.exports;
    this.#line = new Room(this, LINE_ROOM);
    this.#command = new Room(this, COMMAND_ROOM);
    this.#reply = new Room(this, REPLY_ROOM);
    const at = this.take(STRUCTS);
    this.struct = { at, word: BigInt(at) };
  }

  /** The memory. Whenever it grows, the bytes before are gone, and have the length 0. */
  get bytes() {
    if (this.#bytes.length === 0) {
      this.#bytes = new Uint8Array(this.#exports.memory.buffer);
      this.#view = new DataView(this.#exports.memory.buffer);
    }
    return this.#bytes;
  }

  /** The number of 64 bits at an address. */
  number(at) {
    const { view } = this;
    return view.getUint32(at, true) + view.getUint32(at + 4, true) * 2 ** 32;
  }

  text(at, length) {
    return textOf(this.bytes.subarray(at, at + length));
  }

  /** Takes so many bytes of the memory, and returns their address. */
  take(size) {
    const at = Number(this.#exports.room(BigInt(size)));
    if (at === 0) throw new OutOfMemory();
    return at;
  }

  /** Gives back what was taken. */
  give(at) {
    this.#exports.room_back(BigInt(at));
  }

  room(size) {
    return new Room(this, size);
  }

  /** A call by its name, with all that it takes: the status, which is the lowest byte of what comes back. */
  call(name, ...words) {
    return this.#exports[`vuthgal_${name}`](...words) & 255;
  }

  /** Does something with inputs in the memory, as a call takes them: an address and a count for each. */
  with(inputs, use) {
    const taken = [];
    try {
      const words = [];
      for (const input of inputs) {
        taken.push(this.take(input.length));
        this.bytes.set(input, taken.at(-1));
        words.push(BigInt(taken.at(-1)), BigInt(input.length));
      }
      return use(words);
    } finally {
      for (const at of taken) this.give(at);
    }
  }

  /** A room for the output of a call, of at least so many bytes. The last one is used again. */
  #outputRoom(size) {
    if (this.#output && this.#output.size < size) this.freeRoom();
    return (this.#output ??= new Room(this, size));
  }

  freeRoom() {
    this.#output?.free();
    this.#output = undefined;
  }

  /**
   * A call that takes `first`, the inputs, `more`, a room for the output and, if `hasLine`, one for the line: the
   * status, the output and the line. It is made again if the output didn't fit. `arrange` puts the words of the inputs
   * into the call's own order.
   */
  called(name, inputs, { first = [], more = [], hasLine = true, arrange = (words) => words } = {}) {
    return this.with(inputs, (taken) => {
      const words = arrange(taken);
      const line = hasLine ? this.#line.words : [];
      const ask = (room) => this.call(name, ...first, ...words, ...more, ...room.words, ...line);
      let room = this.#outputRoom(ROOM);
      let status = ask(room);
      while (room.length > room.size) {
        room = this.#outputRoom(room.length);
        status = ask(room);
      }
      const told = { status, output: room.bytes, line: hasLine ? this.#line.text : "" };
      if (room.size > KEPT_ROOM) this.freeRoom();
      return told;
    });
  }

  /** What `vuthgal_mistake` answers, and the place that it fills. */
  mistaken(program, kind, input) {
    const { at, word } = this.struct;
    const arrange = ([where, length, ...rest]) => [where, length, kind, ...rest, word];
    const told = this.called("mistake", [program, input], { arrange });
    const [line, column, length] = [0, 8, 16].map((offset) => this.number(at + offset));
    const place = { input: INPUTS[this.view.getUint8(at + 24)], line: line || null, column: column || null, length };
    return { ...told, place };
  }

  /** What `vuthgal_version` writes. */
  version() {
    this.call("version", ...this.#line.words);
    return this.#line.text;
  }

  /** The memory for reading numbers. */
  get view() {
    if (this.#bytes.length === 0) this.bytes;
    return this.#view;
  }

  /** A handle of a session, which is closed: its address. */
  handle() {
    const at = this.take(HANDLE);
    this.bytes.fill(0, at, at + HANDLE);
    return at;
  }

  /** Closes the session of a handle, and gives the handle back. */
  close(handle) {
    this.call("session_close", BigInt(handle));
    this.give(handle);
  }

  /** Opens a session of a program: the status and the line. */
  open(handle, program) {
    return this.with([program], (words) => {
      const status = this.call("session_open", BigInt(handle), ...words, ...this.#line.words);
      return { status, line: this.#line.text };
    });
  }

  /** A session's command, which is a text without a line feed: the status and the reply. */
  command(handle, text) {
    const words = this.#written(text);
    return words ? this.#commanded(handle, words) : this.with([bytesOf(text)], (long) => this.#commanded(handle, long));
  }

  /** A short command as a call takes it, or nothing if it may be long. */
  #written(text) {
    if (text.length * 3 > COMMAND_ROOM) return undefined;
    const room = this.bytes.subarray(this.#command.at, this.#command.at + COMMAND_ROOM);
    return [this.#command.words[0], BigInt(writeText(text, room))];
  }

  #commanded(handle, words) {
    const status = this.call("session_command", BigInt(handle), ...words, ...this.#reply.words);
    if (this.#reply.length <= REPLY_ROOM) return { status, reply: this.#reply.text };
    const room = new Room(this, this.#reply.length);
    try {
      return { status: this.call("session_reply", BigInt(handle), ...room.words), reply: room.text };
    } finally {
      room.free();
    }
  }
}
