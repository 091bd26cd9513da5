/**
 * Texts as bytes, and bytes as texts: UTF-8. No top-level name of a module is that of another, so that all can be put
 * into one file.
 */

const encoder = new TextEncoder();
const decoder = new TextDecoder();

/** The bytes of an input: a text, bytes, or what has bytes or a text, such as a trace or a schedule. */
export function bytesOf(input) {
  if (typeof input === "string") return encoder.encode(input);
  if (input instanceof ArrayBuffer) return new Uint8Array(input);
  if (ArrayBuffer.isView(input)) return new Uint8Array(input.buffer, input.byteOffset, input.byteLength);
  if (input?.bytes instanceof Uint8Array) return input.bytes;
  if (typeof input?.text === "string") return encoder.encode(input.text);
  throw new TypeError("an input is a text, bytes, a trace or a schedule");
}

export function textOf(bytes) {
  return decoder.decode(bytes);
}

/** Writes a text into a room of three times its length, and returns the count of bytes. */
export function writeText(text, room) {
  return encoder.encodeInto(text, room).written;
}
