// Who arrived in the phase that goes on, and who at a barrier, read off the lines of a run's choices; how many arrived
// is told by the machine alone. What was read up to each 256th choice is kept, so that a long run isn't read again.
import { ARRIVES, operandOf, rootOf } from "./language.js";
import { ownerOf } from "./run.js";

const EVERY = 256;

const LISTS = ["arrived", "ended", "stand", "tripped"];
const copyOf = fold => ({
  came: fold.came.map(all => new Set(all)),
  waits: new Map(fold.waits),
  ...Object.fromEntries(LISTS.map(name => [name, fold[name].map(list => list.slice())]))
});
const emptyOf = ({ phasers, barriers }) => ({
  came: phasers.map(() => new Set()),
  waits: new Map(),
  arrived: phasers.map(() => []),
  ended: phasers.map(() => []),
  stand: barriers.map(() => []),
  tripped: barriers.map(() => [])
});

// Whether a choice is an arrival that counts: not a refused one, and not the end of a wait.
export function isArrival(row, event, isOfWait) {
  if (isOfWait || !row || !ARRIVES.has(row.word)) return false;
  return event.what === "wait" || event.what === "enter" || (
    event.what === "=" && (event.value >= 0 || Boolean(event.mark))
  );
}

function step(program, fold, event) {
  if (event.what === "idle" || event.row < 0) return;
  const row = program.rows[event.row];
  const isOfWait = fold.waits.delete(event.thread);
  if (isArrival(row, event, isOfWait)) {
    const p = operandOf(row, "P");
    fold.arrived[p].push({ thread: event.thread, row: event.row });
    fold.came[p].add(event.thread);
  }
  if (!isOfWait && /^cawait/.test(row.word) && /^(wait|enter|=)$/.test(event.what)) {
    fold.stand[operandOf(row, "B")].push(event.thread);
  }
  if (event.what === "wait") fold.waits.set(event.thread, event.row);
  if (!event.mark) return;
  const { kind, on } = event.mark;
  if (kind[1] === "b") {
    fold.tripped[on] = kind === "+b" ? fold.stand[on] : [];
    fold.stand[on] = [];
    return;
  }
  program.phasers.forEach((_, q) => {
    if (rootOf(program, q) !== on) return;
    fold.ended[q] = fold.arrived[q];
    fold.arrived[q] = [];
  });
}

// { arrived: for each phaser, who arrived in this phase, as { thread, row }; ended: the same of the phase before;
// came: which threads ever arrived there; stand: for each barrier, who stands there; tripped: for whom it tripped }
export function arrivalsOf(tree, id, i) {
  const run = ownerOf(tree, id, i);
  const { folds } = run.kept;
  const start = Math.min(Math.floor(i / EVERY), folds.length);
  const fold = start ? copyOf(folds[start - 1]) : emptyOf(tree.program);
  for (let k = start * EVERY; k < i; k++) {
    step(tree.program, fold, run.events.at(k));
    if ((k + 1) % EVERY === 0 && folds.length < (k + 1) / EVERY) folds.push(copyOf(fold));
  }
  return fold;
}
// Whose arrivals were counted for what the choice before moment i ended, a phase or a barrier's round.
export function metOf(tree, id, i, { kind, on }) {
  const { program } = tree;
  const { ended, tripped } = arrivalsOf(tree, id, i);
  const isIn = q => rootOf(program, q) === on;
  const met = kind[1] === "b" ? tripped[on] : ended.flatMap((list, q) => (isIn(q) ? list.map(one => one.thread) : []));
  return [...new Set(met)].sort((a, b) => a - b);
}
