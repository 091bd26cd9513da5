// Random small programs and numbers by a seed, so that what fails can be made again.

// a generator by Lehmer: numbers from 0 up to below `most`
export function randomOf(seed) {
  let state = (seed * 7919 + 1) % 2147483647;
  return most => {
    state = (state * 48271) % 2147483647;
    return state % most;
  };
}
const NAMES = ["ann", "bob", "cem", "eve", "fay"];

function objectsOf(random) {
  const lines = [".phaser p " + random(4)];
  const isTree = random(3) === 0;
  if (isTree) lines.push(".phaser q " + random(3) + " parent p");
  const hasBarrier = random(2) === 0;
  if (hasBarrier) lines.push(".barrier g " + (1 + random(3)));
  return { lines, phasers: isTree ? ["p", "q"] : ["p"], barriers: hasBarrier ? ["g"] : [] };
}
function rowOf(random, { phasers, barriers, names }) {
  const p = phasers[random(phasers.length)];
  const rows = [
    "paaa r0 " + p,
    "paaa r0 " + p,
    "parr r1 " + p,
    "pdereg r1 " + p,
    "preg r0 " + p,
    "pawait r2 " + p + " r1",
    "pawaiti r2 " + p + " r1",
    "pphase r3 " + p,
    "punarr r3 " + p,
    "intr " + names[random(names.length)],
    "out r0",
    "ldi r1 " + random(3),
    "pforce " + p
  ];
  if (barriers.length) rows.push("cawait r4 g", "cawait r4 g", "creset g", "cbroken r4 g");
  // an end by force is rare, or else nothing waits for long
  const row = rows[random(rows.length)];
  return row.startsWith("pforce") && random(3) ? "out r1" : row;
}
export function programOf(seed) {
  const random = randomOf(seed);
  const objects = objectsOf(random);
  const names = NAMES.slice(0, 2 + random(3));
  const lines = [...objects.lines, ...names.map(name => ".thread " + name + " at_" + name)];
  for (const name of names) {
    const hasHandler = random(3) === 0;
    lines.push("at_" + name + ": " + (hasHandler ? "try end_" + name : "ldi r5 1"));
    for (let n = 1 + random(5); n > 0; n--) lines.push("  " + rowOf(random, { ...objects, names }));
    if (random(4) === 0) lines.push("  beq r0 r1 end_" + name);
    lines.push("end_" + name + ": halt");
  }
  return lines.join("\n") + "\n";
}
