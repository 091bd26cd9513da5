/**
 * Answers the requests of calls.py by the package's module: a request a line on standard input, an answer a line on
 * standard output, both in JSON. A request is a call with its inputs, or a program and what a session of it is asked.
 */
import { createHash } from "node:crypto";
import { createInterface } from "node:readline";
import { Fault, load } from "../../web/vuthgal.mjs";

const vuthgal = await load();
const bytes = (text) => Buffer.from(text, "base64");
const sum = (of) => createHash("sha256").update(of).digest("hex");

const ASKED = {
  step: (session, [thread, expiry]) => session[expiry ? "expire" : "step"](thread).text,
  back: (session) => session.back(),
  enabled: (session) => session.enabled,
  look: (session) => ({ ...session.look(), cells: [...session.look().cells] }),
  stack: (session, [thread]) => session.stack(thread),
  outputs: (session, [thread]) => session.outputs(thread),
  other: (session, [thread, expires, most, rest]) => session.other(thread, { expires: expires === 1, most, rest }).text,
  command: (session, [line]) => session.command(line),
};

function tried(use) {
  try {
    return use() ?? null;
  } catch (fault) {
    if (fault instanceof Fault || fault instanceof RangeError) return { fault: fault.name };
    throw fault;
  }
}

function session({ program, asked }) {
  const first = tried(() => vuthgal.session(bytes(program)));
  if (first.fault) return [first];
  let session = first;
  const answers = asked.map(([what, ...words]) => {
    if (what !== "copy") return tried(() => ASKED[what](session, words));
    const copy = session.copy();
    session.close();
    session = copy;
    return null;
  });
  session.close();
  return answers;
}

function call({ name, inputs, more }) {
  const { status, output, line } = vuthgal.call(name, inputs.map(bytes), ...more);
  return { status, length: output.length, output: sum(output), line };
}

for await (const line of createInterface({ input: process.stdin })) {
  const request = JSON.parse(line);
  process.stdout.write(`${JSON.stringify(request.name ? call(request) : session(request))}\n`);
}
