// The machine: the proved library as WebAssembly, of web/vuthgal.mjs, and those of its calls that the app makes, as
// functions of texts. Nothing else in the app plays a program. What it refuses is thrown as Refused. It knows nothing
// of runs, and nothing of what is drawn.
import { load, Refused } from "../web/vuthgal.mjs";

let machine = null;

export { Refused };

// bytes: those of web/vuthgal.wasm
export async function startMachine(bytes) {
  machine = await load(bytes);
}
export const listProgram = program => machine.list(program);
export const playRun = (program, schedule) => machine.run(program, schedule).text;
export const planSchedule = (program, plan) => machine.plan(program, plan).text.trim();
export const openSession = program => machine.session(program);
// where a program is refused, or { plan } on it, and what helps
export const mistakeIn = (program, input) => machine.mistake(program, input);
export const versionOf = () => machine.version.split("\n")[0];
