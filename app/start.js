// Begins. In a worker, the script waits for work. In a page, the machine is unpacked, and the app opens what the
// address names, or the run that stands in this file, or the first lesson.
import { makeApp } from "./app.js";
import { bareName, runIn, takePage } from "./file.js";
import { byId } from "./elements.js";
import { startMachine, versionOf } from "./machine.js";
import { makeWork, startWorker } from "./work.js";

async function unpacked(text) {
  const zipped = Uint8Array.from(atob(text.trim()), sign => sign.charCodeAt(0));
  const stream = new Blob([zipped]).stream().pipeThrough(new DecompressionStream("gzip"));
  return new Response(stream).arrayBuffer();
}
// the worker runs the script of this page
function spawn() {
  const address = URL.createObjectURL(new Blob([byId("script").textContent], { type: "text/javascript" }));
  const worker = new Worker(address);
  setTimeout(() => URL.revokeObjectURL(address), 10000);
  return worker;
}

// the name of this file; a frame has none
function nameOfPage() {
  try {
    return location.protocol === "about:" ? "run" : bareName(decodeURI(location.pathname));
  } catch (_) {
    return "run";
  }
}
async function startPage() {
  const run = runIn(document, nameOfPage());
  const page = takePage();
  const menu = JSON.parse(byId("programs").textContent);
  const bytes = await unpacked(byId("machine").textContent);
  await startMachine(bytes);
  const app = makeApp({ menu, work: makeWork(spawn, bytes), page, version: versionOf() });
  if (run) await app.openRun(run, false, true);
  const isOpen = await app.openLink();
  if (!isOpen && !run) await app.open(menu[0], "explore", false);
  // for tests that drive the page
  window.vuthgal = { get: app.get, ready: performance.now() };
}

if (typeof document === "undefined") startWorker();
else {
  startPage().catch(fault => {
    byId("said").dataset.kind = "wrong";
    byId("said").textContent = "This browser can\u2019t start the machine: " + fault.message;
  });
}
