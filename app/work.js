// Long work in a worker, so that the page answers meanwhile, and so that it can be stopped. One work at a time: a new
// one stops the one before. The worker runs this same script; it is given the machine's bytes once.
import { startMachine } from "./machine.js";
import { outcomesOf } from "./outcomes.js";
import { playedPlan } from "./plan.js";
import { scheduleOf } from "./schedule.js";

// ---- in the worker
// a list of a million words takes long from one thread to another, and a text doesn't
const packed = ({ choices, isCut, trace }) => ({ schedule: scheduleOf(choices), isCut, trace });
const TASKS = {
  orders: ({ text, seeds }, told) => outcomesOf(text, seeds, told),
  plan: ({ text, plan, schedule }) => packed(playedPlan(text, plan, schedule))
};

export function startWorker() {
  let ready = null;
  self.onmessage = async ({ data }) => {
    if (data.machine) {
      ready = startMachine(data.machine);
      return;
    }
    try {
      await ready;
      self.postMessage({ answer: TASKS[data.task](data.given, done => self.postMessage({ done })) });
    } catch (fault) {
      self.postMessage({ fault: { message: fault.message, told: fault.told || "" } });
    }
  };
}

// ---- in the page
// spawn(): a new worker. bytes: the machine's
export function makeWork(spawn, bytes) {
  let worker = null;
  let current = null;

  function stop() {
    if (!current) return;
    worker.terminate();
    worker = null;
    current.refuse(new Error("stopped"));
    current = null;
  }
  // task: "orders" or "plan". told(done) is called now and then
  function ask(task, given, told = () => {}) {
    stop();
    if (!worker) {
      worker = spawn();
      worker.postMessage({ machine: bytes });
    }
    return new Promise((answer, refuse) => {
      current = { answer, refuse };
      worker.onmessage = ({ data }) => {
        if (data.done !== undefined) return told(data.done);
        current = null;
        if (data.fault) refuse(Object.assign(new Error(data.fault.message), data.fault));
        else answer(data.answer);
      };
      worker.onerror = event => {
        current = null;
        worker = null;
        refuse(new Error(event.message || "the worker can\u2019t be started"));
      };
      worker.postMessage({ task, given });
    });
  }
  return { ask, stop };
}
